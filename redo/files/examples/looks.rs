//! Looks at the files of a tree, for bench to measure.
//!
//! Usage: `looks TOP NAMES WORK COUNT`. TOP has `.redo/server/lock`, and NAMES is a file with a
//! name on each line. The work is done so many times: `read` finds the stamps of all files, with
//! what `.redo/stamps` has; `store` does so, and writes that file; `look` asks which files changed
//! since; `lstat` is that call for each file, and nothing else.

use std::error::Error;
use std::os::unix::ffi::OsStringExt;

use redo_files::clock::Clock;
use redo_files::contents::Contents;
use redo_files::expected::Expected;
use redo_files::private::Home;
use redo_files::top::{self, places};
use redo_files::trust::Trust;
use redo_files::{FileError, Folder};

type Names<'a> = Vec<&'a [u8]>;

fn read(home: &Home, names: &Names) -> Result<Contents, FileError> {
    let folder = Folder::open(home.top()).map_err(|cause| FileError::system(home.top(), cause))?;
    let clock = Clock::new(b".redo/server/lock");
    let mut contents = Contents::new(folder, clock, &top::boot());
    contents.begin_look();
    contents.load(home, places::STAMPS);
    for name in names {
        contents.stamp(name);
    }
    Ok(contents)
}

fn expected(contents: &mut Contents, names: &Names) -> Expected {
    let mut expected = Expected::new();
    for name in names {
        let stamp = contents.stamp(name).map(|stamp| stamp.to_string());
        expected.put(name, stamp.as_ref().map(|stamp| stamp.as_bytes()));
    }
    expected
}

fn look(home: &Home, names: &Names, count: usize) -> Result<(), FileError> {
    let mut contents = read(home, names)?;
    let mut expected = expected(&mut contents, names);
    for _ in 0..count {
        contents.begin_look();
        assert!(expected.suspects(&mut contents).is_empty());
    }
    Ok(())
}

fn lstat(home: &Home, names: &Names) -> Result<(), FileError> {
    let folder = Folder::open(home.top()).map_err(|cause| FileError::system(home.top(), cause))?;
    assert!(names.iter().all(|name| folder.lstat(name).is_ok()));
    Ok(())
}

fn main() -> Result<(), Box<dyn Error>> {
    let words: Vec<Vec<u8>> = std::env::args_os()
        .skip(1)
        .map(OsStringExt::into_vec)
        .collect();
    let [top, list, work, count] = <[Vec<u8>; 4]>::try_from(words).map_err(|_| "four words")?;
    let text = std::fs::read(String::from_utf8(list)?)?;
    let names: Names = text
        .split(|byte| *byte == b'\n')
        .filter(|name| !name.is_empty())
        .collect();
    let home = Home::new(&top, &Trust::of_process());
    let count: usize = String::from_utf8(count)?.parse()?;
    match work.as_slice() {
        b"read" => (0..count).try_for_each(|_| read(&home, &names).map(drop))?,
        b"store" => read(&home, &names)?.store(&home, places::STAMPS, |_| true)?,
        b"look" => look(&home, &names, count)?,
        b"lstat" => (0..count).try_for_each(|_| lstat(&home, &names))?,
        _ => return Err("read, store, look or lstat".into()),
    }
    Ok(())
}
