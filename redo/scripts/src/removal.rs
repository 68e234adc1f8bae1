//! Removes what builds made, without following a link.

use std::fs::{self, File, Permissions};
use std::io::{self, ErrorKind};
use std::os::unix::ffi::OsStringExt;
use std::os::unix::fs::PermissionsExt;
use std::os::unix::io::AsRawFd;

use libc::{O_DIRECTORY, O_NOFOLLOW, O_PATH};
use redo_files::paths;
use redo_files::system::Folder;

use crate::folder::is_folder;
use crate::text::path;

const OWNER: u32 = 0o700;
/// Deeper folders are left where they are.
const MOST_LEVELS: usize = 500;

/// Removes a file, or a folder with all that is in it. It is no error if nothing is there.
pub fn remove(place: &[u8]) -> io::Result<()> {
    match fs::remove_file(path(place)) {
        Err(cause) if cause.kind() == ErrorKind::NotFound => Ok(()),
        Err(_) if is_folder(place) => remove_tree(place),
        other => other,
    }
}

/// Removes a folder with all that is in it. Folders in it become writable first.
pub fn remove_tree(folder: &[u8]) -> io::Result<()> {
    let (above, name) = paths::split(folder);
    let above = Folder::open(if above.is_empty() { b"." } else { above })?;
    make_writable(&above, name, MOST_LEVELS)?;
    fs::remove_dir_all(path(folder))
}

/// Returns the names of what is in a folder, in their order.
pub fn names_in(folder: &[u8]) -> io::Result<Vec<Vec<u8>>> {
    let found = fs::read_dir(path(folder))?;
    let names = found.map(|entry| Ok(entry?.file_name().into_vec()));
    let mut names: Vec<Vec<u8>> = names.collect::<io::Result<_>>()?;
    names.sort();
    Ok(names)
}

/// Makes a folder, and those in it, its owner's to read and to write.
fn make_writable(above: &Folder, name: &[u8], levels: usize) -> io::Result<()> {
    if levels == 0 {
        return Err(io::Error::new(
            ErrorKind::Other,
            "its folders are too deep to be removed",
        ));
    }
    let place = above.open_file(name, O_PATH | O_DIRECTORY | O_NOFOLLOW, 0)?;
    let mode = place.metadata()?.permissions().mode() & 0o7777;
    if mode & OWNER != OWNER {
        fs::set_permissions(named(&place), Permissions::from_mode(mode | OWNER))?;
    }
    let folder = above.open_folder(name)?;
    let mut folders = Vec::new();
    for entry in fs::read_dir(named(&place))? {
        let entry = entry?;
        if entry.file_type()?.is_dir() {
            folders.push(entry.file_name().into_vec());
        }
    }
    folders
        .iter()
        .try_for_each(|name| make_writable(&folder, name, levels - 1))
}

/// Returns a path by which an open file has a name.
fn named(file: &File) -> String {
    format!("/proc/self/fd/{}", file.as_raw_fd())
}

#[cfg(test)]
mod tests {
    use super::*;
    use crate::scratch::Scratch;

    #[test]
    fn what_is_not_there_is_removed_at_once() {
        let scratch = Scratch::new();
        remove(&scratch.path("nothing")).unwrap();
    }

    #[test]
    fn a_folder_is_removed_with_all_that_is_in_it_and_no_link_is_followed() {
        let scratch = Scratch::new();
        scratch.folder("kept/sub");
        scratch.file("kept/notes", b"precious");
        scratch.folder("made/a/b");
        scratch.file("made/a/b/c", b"");
        scratch.link("../../kept", "made/a/kept");
        fs::set_permissions(scratch.at("made/a"), Permissions::from_mode(0o500)).unwrap();
        remove(&scratch.path("made")).unwrap();
        assert!(!scratch.at("made").exists());
        assert!(scratch.at("kept/notes").exists() && scratch.at("kept/sub").exists());
    }

    #[test]
    fn a_link_to_a_folder_is_removed_itself() {
        let scratch = Scratch::new();
        scratch.folder("kept");
        scratch.link("kept", "link");
        remove(&scratch.path("link")).unwrap();
        assert_eq!(names_in(&scratch.top()).unwrap(), [b"kept"]);
    }

    #[test]
    fn folders_that_are_too_deep_are_left() {
        let scratch = Scratch::new();
        let deep = vec!["d"; MOST_LEVELS + 1].join("/");
        scratch.folder(&deep);
        assert!(remove(&scratch.path("d")).is_err());
        assert!(scratch.at(&deep).exists());
    }
}
