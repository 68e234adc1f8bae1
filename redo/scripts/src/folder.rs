//! Folders as targets. What a build put into one is noted, so that nothing else is ever removed.
//!
//! The manifest of a target is a file of `.redo/folders`. It has the stamp and the path of each
//! entry of the folder, `.` for the folder itself, with a NUL after each. A target without a
//! manifest is a folder that no build made.

use std::collections::BTreeSet;
use std::fs;
use std::io::{self, ErrorKind, Write};

use redo_files::error::FileError;
use redo_files::look::Reader;
use redo_files::paths;
use redo_files::private::{Home, Opening};
use redo_files::sha256;
use redo_files::system::{self, Folder, Kind};
use redo_files::top::places::FOLDERS;

use crate::removal;
use crate::text::{cause_of, digits, joined, last_part, path, shown};

const DIGITS: usize = 40;
const ITSELF: &[u8] = b".";

/// An entry of a folder: its stamp, and its path from there.
pub type Entry = (Vec<u8>, Vec<u8>);
pub type Entries = BTreeSet<Entry>;

/// Why a folder isn't put in the place of a target.
#[derive(Debug)]
pub enum NotReplaced {
    /// What is there isn't from a build, so it stays; the text says what it is.
    InTheWay(Vec<u8>),
    File(FileError),
    System(io::Error),
}

/// What builds of a target have put into its folder.
#[derive(Debug)]
pub struct Manifest<'a> {
    home: &'a Home,
    path: Vec<u8>,
    shown: Vec<u8>,
}

impl<'a> Manifest<'a> {
    /// Returns that of a target, which is shown to people in this way.
    pub fn new(home: &'a Home, name: &[u8], shown: &[u8]) -> Manifest<'a> {
        let file = &digits(&sha256::digest(name))[..DIGITS];
        Manifest {
            home,
            path: paths::join(FOLDERS, file.as_bytes()),
            shown: shown.to_vec(),
        }
    }

    /// Returns the entries: none, if the manifest isn't there. Fails if it isn't to be trusted.
    pub fn read(&self) -> Result<Entries, FileError> {
        let text = match self.home.read(&self.path) {
            Ok(text) => text,
            Err(FileError::System { .. }) => return Ok(Entries::new()),
            Err(cause) => return Err(cause),
        };
        let mut words: Vec<&[u8]> = text.split(|byte| *byte == 0).collect();
        words.pop(); // what is behind the last NUL
        let entries = words.chunks_exact(2);
        Ok(entries
            .map(|entry| (entry[0].to_vec(), entry[1].to_vec()))
            .collect())
    }

    /// Notes entries in place of those before.
    pub fn write(&self, entries: &Entries) -> Result<(), FileError> {
        let new = joined(&[self.path.as_slice(), b".new"]);
        let folder = self.home.open_folder(FOLDERS, Some(0o755))?;
        let failed = |cause| FileError::system(&self.path, cause);
        folder.remove(last_part(&new)).map_err(failed)?;
        let mut file = self.home.open_file(&new, Opening::REPLACE.making(0o666))?;
        let words = entries.iter().flat_map(|(stamp, path)| [stamp, path]);
        let text: Vec<u8> = words.flat_map(|word| joined(&[word, b"\0"])).collect();
        let written = file
            .write_all(&text)
            .and_then(|()| folder.rename(last_part(&new), last_part(&self.path)));
        written.map_err(|cause| {
            let _ = folder.remove(last_part(&new)); // the first error is the one to tell
            failed(cause)
        })
    }

    fn about(&self, stranger: &[u8], known: &Entries) -> Vec<u8> {
        if known.is_empty() {
            let text = "no build made this folder, so it stays as it is: remove it, or move it";
            return text.as_bytes().to_vec();
        }
        let is_itself = stranger == ITSELF;
        let place = if is_itself {
            self.shown.clone()
        } else {
            paths::join(&self.shown, &shown(stranger))
        };
        let was_built = known.iter().any(|(_, path)| path == stranger);
        let what: &[u8] = if was_built {
            b" was changed since its build"
        } else {
            b" isn't from a build"
        };
        joined(&[&place, what, b", so the folder stays as it is"])
    }
}

/// Says whether a folder is there, and no link to one.
pub fn is_folder(path: &[u8]) -> bool {
    system::lstat(path).map_or(false, |status| status.kind() == Kind::Folder)
}

/// Says whether anything is at a path.
pub fn is_there(path: &[u8]) -> bool {
    system::lstat(path).is_ok()
}

/// Makes a folder that was built the target, and returns what there is to say. Paths are absolute.
///
/// If the target is there, it is a folder that builds have made and nobody has changed. It goes
/// `aside`, and is looked at once more before it is removed.
pub fn replace(
    made: &[u8],
    target: &[u8],
    aside: &[u8],
    manifest: &Manifest,
) -> Result<Vec<Vec<u8>>, NotReplaced> {
    let entries = entries_of(made)?;
    if !is_there(target) {
        manifest.write(&entries)?;
        fs::rename(path(made), path(target))?;
        return Ok(Vec::new());
    }
    let in_the_way = |text: &[u8]| Err(NotReplaced::InTheWay(text.to_vec()));
    if !is_folder(target) {
        return in_the_way(b"it is no folder, and a folder replaces none: remove it, or move it");
    }
    let known = manifest.read()?;
    if let Some(stranger) = first_stranger(target, &known)? {
        return in_the_way(&manifest.about(&stranger, &known));
    }
    if is_there(aside) {
        return in_the_way(&joined(&[
            &shown(last_part(aside)),
            b" is in the way".as_slice(),
        ]));
    }
    manifest.write(&known.union(&entries).cloned().collect())?;
    fs::rename(path(target), path(aside))?;
    if let Err(cause) = fs::rename(path(made), path(target)) {
        fs::rename(path(aside), path(target))?;
        return Err(cause.into());
    }
    // until all of it is removed, the manifest knows it: a killed run leaves it to the next one
    let said = remove_known(aside, &known);
    let _ = manifest.write(&entries); // else the manifest has more than is there
    Ok(said.into_iter().collect())
}

/// Removes a folder, if all that is in it is known; returns what there is to say if it stays.
pub fn remove_known(aside: &[u8], known: &Entries) -> Option<Vec<u8>> {
    let name = shown(last_part(aside));
    match first_stranger(aside, known) {
        Ok(None) => {}
        Ok(Some(_)) => {
            let text = b"somebody changed the folder while it was replaced: what it was is in ";
            return Some(joined(&[text.as_slice(), &name]));
        }
        Err(cause) => return Some(joined(&[&name, b": ", cause_of(&cause).as_bytes()])),
    }
    let cause = removal::remove_tree(aside).err()?;
    Some(joined(&[&name, b": ", cause_of(&cause).as_bytes()]))
}

/// Returns all that is in a folder, and the folder itself.
pub fn entries_of(folder: &[u8]) -> io::Result<Entries> {
    let mut looker = Looker::new(folder)?;
    let mut entries = Entries::from([(looker.stamp(ITSELF)?, ITSELF.to_vec())]);
    let mut unread = vec![Vec::new()];
    while let Some(below) = unread.pop() {
        let found = looker.read(folder, &below)?;
        let folders = found.iter().filter(|(stamp, _)| stamp == b"folder");
        unread.extend(folders.map(|(_, path)| path.clone()));
        entries.extend(found);
    }
    Ok(entries)
}

fn first_stranger(folder: &[u8], known: &Entries) -> io::Result<Option<Vec<u8>>> {
    let entries = entries_of(folder)?;
    let mut strangers: Vec<_> = entries.difference(known).collect();
    strangers.sort_by(|one, other| one.1.cmp(&other.1));
    Ok(strangers.first().map(|(_, path)| path.clone()))
}

/// Looks at what is in one folder.
struct Looker {
    folder: Folder,
    reader: Reader,
}

impl Looker {
    fn new(folder: &[u8]) -> io::Result<Looker> {
        Ok(Looker {
            folder: Folder::open_itself(folder)?,
            reader: Reader::new(),
        })
    }

    /// Returns the entries of a folder below.
    fn read(&mut self, folder: &[u8], below: &[u8]) -> io::Result<Vec<Entry>> {
        let names = removal::names_in(&paths::join(folder, below))?;
        let paths = names.into_iter().map(|name| match below.is_empty() {
            true => name,
            false => paths::join(below, &name),
        });
        paths.map(|path| Ok((self.stamp(&path)?, path))).collect()
    }

    /// Returns the stamp of an entry; that of a link is its text, since what it leads to may
    /// change. A NUL can't be in one.
    fn stamp(&mut self, path: &[u8]) -> io::Result<Vec<u8>> {
        match self.folder.lstat(path) {
            Ok(status) if status.kind() == Kind::Link => {
                Ok(joined(&[b"link ", &self.folder.read_link(path)?]))
            }
            Err(cause) if cause.kind() == ErrorKind::NotFound => Ok(b"-".to_vec()),
            Err(cause) => Err(cause),
            Ok(_) => {
                let stamp = self.reader.look_at(&self.folder, path).stamp;
                Ok(stamp.map_or_else(|| b"-".to_vec(), |stamp| stamp.to_string().into_bytes()))
            }
        }
    }
}

impl NotReplaced {
    /// Returns what is said of it: one line.
    pub fn text(&self) -> Vec<u8> {
        match self {
            NotReplaced::InTheWay(text) => text.clone(),
            NotReplaced::File(cause) => cause.text(),
            NotReplaced::System(cause) => cause_of(cause).into_bytes(),
        }
    }
}

impl From<io::Error> for NotReplaced {
    fn from(cause: io::Error) -> NotReplaced {
        NotReplaced::System(cause)
    }
}

impl From<FileError> for NotReplaced {
    fn from(cause: FileError) -> NotReplaced {
        NotReplaced::File(cause)
    }
}

#[cfg(test)]
mod tests;
