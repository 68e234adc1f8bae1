// Opens a log: a regular file that has one name.
use std::fs::{self, File, Metadata, OpenOptions};
use std::io;
use std::os::raw::c_int;
use std::os::unix::fs::MetadataExt;
use std::os::unix::io::AsRawFd;
use std::path::Path;

const LOCK_EX: c_int = 2;
const LOCK_NB: c_int = 4;

extern "C" {
    fn flock(file: c_int, operation: c_int) -> c_int;
}

// Locks a file, as File::try_lock of newer compilers does.
fn try_lock(file: &File) -> io::Result<()> {
    // SAFETY: it takes an open file and numbers.
    match unsafe { flock(file.as_raw_fd(), LOCK_EX | LOCK_NB) } {
        0 => Ok(()),
        _ => Err(io::Error::last_os_error()),
    }
}

fn is_same(one: &Metadata, other: &Metadata) -> bool {
    (one.dev(), one.ino()) == (other.dev(), other.ino())
}

// A file that takes the place of the one that was found isn't touched.
pub fn open_found(name: &str, how: &OpenOptions) -> Result<File, &'static str> {
    let found = fs::symlink_metadata(name).map_err(|_| "cannot open")?;
    if !found.is_file() {
        return Err("not a regular file");
    }
    if found.nlink() > 1 {
        return Err("has other links");
    }
    let file = how.open(name).map_err(|_| "cannot open")?;
    match file.metadata() {
        Ok(opened) if is_same(&found, &opened) => Ok(file),
        _ => Err("cannot open"),
    }
}

pub fn open(name: &str) -> Result<File, &'static str> {
    let created = OpenOptions::new().read(true).append(true).create_new(true).open(name);
    let file = match created {
        Ok(file) => file,
        Err(_) => open_found(name, OpenOptions::new().read(true).append(true))?,
    };
    match try_lock(&file) {
        Ok(()) => Ok(file),
        Err(error) if error.kind() == io::ErrorKind::WouldBlock => Err("in use"),
        Err(_) => Err("cannot lock"),
    }
}

// An open file once more, to write from its beginning on.
pub fn open_again(name: &str, file: &File) -> Option<File> {
    let again = open_found(name, OpenOptions::new().write(true)).ok()?;
    is_same(&file.metadata().ok()?, &again.metadata().ok()?).then_some(again)
}

// A file system that can't sync a folder is taken as it is.
pub fn sync_folder(name: &str) -> io::Result<()> {
    let folder = match Path::new(name).parent() {
        Some(folder) if folder != Path::new("") => folder,
        _ => Path::new("."),
    };
    match File::open(folder)?.sync_all() {
        Err(error) if error.kind() == io::ErrorKind::InvalidInput => Ok(()),
        synced => synced,
    }
}
