//! What is told to the database if the log isn't what the last server left.

use std::fs;
use std::io::Read;
use std::os::unix::ffi::{OsStrExt, OsStringExt};

use redo_files::names::{is_internal, unescape, LEFT};
use redo_files::paths;
use redo_files::private::{Home, Opening};
use redo_files::system::Kind;
use redo_files::top::HOME;

use crate::known::Known;
use crate::marks::Log;
use crate::names::{Facts, Made};

const LOGS: &[u8] = b"logs";
const TARGET: &[u8] = b"\x1etarget ";
const LONGEST_HEAD: u64 = 1024;

/// Returns the commands that bring the database and the targets' files together again.
///
/// If the log's end may be lost, a target whose file differs is to be built again: it has failed.
/// Else its file was edited, as far as anybody knows. That holds too for targets that have a build
/// log, and of which the database knows nothing but a file.
pub fn commands(known: &mut Known, log: Log, home: &Home) -> Vec<Vec<u8>> {
    if log == Log::Whole {
        return Vec::new();
    }
    known.contents.begin_look();
    let mut unknown = logged(home);
    unknown.retain(|name| is_unknown(known, name));
    if log == Log::Other {
        return unknown.iter().flat_map(|name| edited(name)).collect();
    }
    let left = left_names(known)
        .into_iter()
        .map(|name| [b"gone ", name.as_slice()].concat());
    let unlike = unlike(known);
    let lost = unknown.iter().chain(&unlike).flat_map(|name| lost(name));
    left.chain(lost).collect()
}

/// Returns the names for what failed builds left, of which there is something.
fn left_names(known: &Known) -> Vec<Vec<u8>> {
    let names = known.names.iter();
    names
        .filter(|(_, name, facts)| name.starts_with(LEFT) && facts.stamp.is_some())
        .map(|(_, name, _)| name.to_vec())
        .collect()
}

/// Returns the targets whose files aren't what the database knows.
fn unlike(known: &mut Known) -> Vec<Vec<u8>> {
    let all = known.names.iter();
    let made: Vec<_> = all
        .filter(|(_, _, facts)| facts.made != Made::Never)
        .map(|(number, _, _)| number)
        .collect();
    let unlike = made.into_iter().filter(|number| known.is_unlike(*number));
    let numbers: Vec<_> = unlike.collect();
    numbers
        .into_iter()
        .map(|number| known.names.name(number).to_vec())
        .collect()
}

/// Returns the commands after which a target is to be built again, whatever its file is.
fn lost(target: &[u8]) -> Vec<Vec<u8>> {
    let words: [&[u8]; 4] = [b"lock ", b"start ", b"failed ", b"unlock "];
    words.iter().map(|word| [word, target].concat()).collect()
}

/// Returns the commands after which a name is a target that was built without a file.
fn edited(target: &[u8]) -> Vec<Vec<u8>> {
    let words: [[&[u8]; 2]; 4] = [
        [b"lock ", b""],
        [b"start ", b""],
        [b"done ", b" -"],
        [b"unlock ", b""],
    ];
    words
        .iter()
        .map(|[before, behind]| [before, target, behind].concat())
        .collect()
}

/// Says whether there is a file of a name that no build made, as far as the database knows.
fn is_unknown(known: &Known, name: &[u8]) -> bool {
    if is_internal(name) || known.names.facts_of(name).map_or(false, Facts::is_target) {
        return false;
    }
    let status = unescape(name)
        .ok()
        .and_then(|path| known.contents.folder().stat(&path).ok());
    status.map_or(false, |status| status.kind() == Kind::Regular)
}

/// Returns the names of the targets that have a log of a build.
fn logged(home: &Home) -> Vec<Vec<u8>> {
    let folder = paths::join(&paths::join(home.top(), HOME), LOGS);
    let entries = fs::read_dir(std::ffi::OsStr::from_bytes(&folder))
        .into_iter()
        .flatten();
    let mut files: Vec<Vec<u8>> = entries
        .flatten()
        .map(|entry| entry.file_name().into_vec())
        .collect();
    files.sort_unstable();
    files
        .iter()
        .filter_map(|file| logged_name(home, file))
        .collect()
}

/// Returns the name in the first line of a build's log.
fn logged_name(home: &Home, file: &[u8]) -> Option<Vec<u8>> {
    let file = home
        .open_file(&paths::join(LOGS, file), Opening::READ)
        .ok()?;
    let mut head = Vec::new();
    file.take(LONGEST_HEAD).read_to_end(&mut head).ok()?;
    let line = head.split(|byte| *byte == b'\n').next()?;
    let name = line
        .strip_prefix(TARGET)?
        .split(|byte| *byte == b' ')
        .next()?;
    Some(name.to_vec())
}

#[cfg(test)]
mod tests;
