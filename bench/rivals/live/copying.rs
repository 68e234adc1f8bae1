// Copies a damaged log.
use crate::opening::{open_found, sync_folder};
use std::fs::{File, OpenOptions};
use std::io::{self, Seek, SeekFrom};
use std::os::unix::fs::FileExt;

const PIECE: usize = 8192;

// whether two files have the same first bytes, so many
fn begin_alike(one: &File, other: &File, length: u64) -> io::Result<bool> {
    let (mut piece, mut wanted) = ([0; PIECE], [0; PIECE]);
    for at in (0..length).step_by(PIECE) {
        let count = (length - at).min(PIECE as u64) as usize;
        one.read_exact_at(&mut piece[..count], at)?;
        other.read_exact_at(&mut wanted[..count], at)?;
        if piece[..count] != wanted[..count] {
            return Ok(false);
        }
    }
    Ok(true)
}

// how many bytes a copy has, if these are the first ones of the file
fn copied(file: &File, copy: &File) -> io::Result<Option<u64>> {
    let length = copy.metadata()?.len();
    let is_begun = length <= file.metadata()?.len() && begin_alike(copy, file, length)?;
    Ok(is_begun.then_some(length))
}

// a copy that is there, and how many bytes it has
fn open_begun(name: &str, file: &File) -> Result<(File, u64), &'static str> {
    let opened = open_found(name, OpenOptions::new().read(true).append(true));
    let copy = opened.map_err(|cause| match cause {
        "cannot open" => cause,
        _ => "is there already",
    })?;
    match copied(file, &copy) {
        Ok(Some(length)) => Ok((copy, length)),
        Ok(None) => Err("is there already"),
        Err(_) => Err("write"),
    }
}

fn open_copy(name: &str, file: &File) -> Result<(File, u64), &'static str> {
    match OpenOptions::new().append(true).create_new(true).open(name) {
        Ok(copy) => Ok((copy, 0)),
        Err(error) if error.kind() == io::ErrorKind::AlreadyExists => open_begun(name, file),
        Err(_) => Err("cannot open"),
    }
}

// Copies a file to one of this name, and syncs it. A copy that was begun is gone on with.
pub fn copy_to(name: &str, mut file: &File) -> Result<(), &'static str> {
    let (mut copy, start) = open_copy(name, file)?;
    let copied = file
        .seek(SeekFrom::Start(start))
        .and_then(|_| io::copy(&mut file, &mut copy))
        .and_then(|_| copy.sync_data())
        .and_then(|()| sync_folder(name));
    copied.map_err(|_| "write")
}
