//! Logs of builds: what a script wrote to standard error, and marks for other builds in between.
//!
//! The log of a target is a file of `.redo/logs`, and holds its latest build. Its first line is
//! MARK and `target NAME STAMP KEY`. A line that begins with MARK, the KEY, which no script's
//! output can know, and a space is a mark: `redo NAME` where the log of another build is to be
//! shown, `unchanged NAME` for a target that was up to date, and `end STATUS STAMP` at the end.
//! Each STAMP is that of the target's file, or `-`. In a log of a former version, whose first line
//! has no KEY, each line that begins with MARK is a mark.

use std::collections::hash_map::RandomState;
use std::fs::File;
use std::hash::{BuildHasher, Hasher};
use std::io::{self, ErrorKind, Write};
use std::os::unix::fs::FileExt;
use std::os::unix::io::{AsRawFd, RawFd};

use redo_files::error::FileError;
use redo_files::private::{Home, Opening};
use redo_files::sha256;

use crate::system;
use crate::text::{digits, joined, last_part};

pub(crate) const MARK: &[u8] = b"\x1e";
const FOLDER: &[u8] = b"logs";
const DIGITS: usize = 40;
/// No first line and no end is longer.
const ENDS: usize = 512;
const OPENING: Opening = Opening::READ_WRITE.making(0o666);
const FOLDER_RIGHTS: u32 = 0o755;

/// Makes keys of logs: one can't be told from another without what the kernel drew at random.
#[derive(Debug, Default)]
pub struct Keys {
    secret: RandomState,
    count: u64,
}

/// The log of a build that is going on.
///
/// A mark that can't be written, on a full disk, is left out.
#[derive(Debug)]
pub struct Log {
    file: File,
    mark: Vec<u8>,
}

/// What a mark of a log says.
#[derive(Clone, Debug, PartialEq, Eq)]
pub enum Mark {
    /// The build of another name belongs here.
    Built(Vec<u8>),
    /// Another name was up to date.
    Unchanged(Vec<u8>),
    /// The build has ended.
    End,
    /// A later version has it.
    Unknown,
}

impl Keys {
    fn next(&mut self) -> String {
        self.count += 1;
        let mut hasher = self.secret.build_hasher();
        hasher.write_u64(self.count);
        format!("{:016x}", hasher.finish())
    }
}

impl Log {
    /// Begins the log of a target anew, whose file has this stamp.
    pub fn begin(
        home: &Home,
        name: &[u8],
        stamp: Option<&[u8]>,
        keys: &mut Keys,
    ) -> Result<Log, FileError> {
        let file = renewed(home, name)?;
        let key = keys.next();
        let mark = joined(&[MARK, key.as_bytes(), b" "]);
        let mut log = Log { file, mark };
        log.write(&joined(&[
            &first_line(name, stamp),
            b" ",
            key.as_bytes(),
            b"\n",
        ]));
        Ok(log)
    }

    /// Returns what the marks in it begin with.
    pub fn mark(&self) -> &[u8] {
        &self.mark
    }

    /// Notes that the log of another build belongs here.
    pub fn built(&mut self, name: &[u8]) {
        let line = joined(&[&self.mark, b"redo ", name, b"\n"]);
        self.lines(&line);
    }

    /// Notes names that were up to date when the script asked for them.
    pub fn unchanged<'a>(&mut self, names: impl IntoIterator<Item = &'a [u8]>) {
        let mark = &self.mark;
        let lines = names
            .into_iter()
            .map(|name| joined(&[mark, b"unchanged ", name, b"\n"]));
        let lines: Vec<u8> = lines.flatten().collect();
        self.lines(&lines);
    }

    /// Writes a line of redo's own.
    pub fn say(&mut self, text: &[u8]) {
        self.lines(&joined(&[text, b"\n"]));
    }

    /// Writes what a script wrote to its terminal.
    pub fn write(&mut self, text: &[u8]) {
        let _ = self.file.write_all(text);
    }

    /// Writes how the build ended: the status, which is negative for a signal, and the stamp of
    /// the target's file.
    pub fn end(mut self, status: i32, stamp: Option<&[u8]>) {
        let end = format!("end {status} ");
        let line = joined(&[&self.mark, end.as_bytes(), stamp.unwrap_or(b"-"), b"\n"]);
        self.lines(&line);
    }

    /// Writes lines. If the script wrote a part of one, that is ended first.
    fn lines(&mut self, lines: &[u8]) {
        if lines.is_empty() {
            return;
        }
        let size = self.file.metadata().map_or(0, |status| status.len());
        let mut last = [b'\n'];
        if size > 0 && self.file.read_at(&mut last, size - 1).is_ok() && last != *b"\n" {
            self.write(&joined(&[b"\n", lines]));
        } else {
            self.write(lines);
        }
    }
}

impl AsRawFd for Log {
    fn as_raw_fd(&self) -> RawFd {
        self.file.as_raw_fd()
    }
}

/// Leaves in the place of a log that a build was begun: a first line without a KEY, alone.
///
/// So a target can be told from a source if the database was lost.
pub fn note(home: &Home, name: &[u8], stamp: Option<&[u8]>) -> Result<(), FileError> {
    let mut file = renewed(home, name)?;
    let line = joined(&[&first_line(name, stamp), b"\n"]);
    file.write_all(&line)
        .map_err(|cause| FileError::system(&path_of(name), cause))
}

/// Says whether there is a log of a name, and more in it than [`note`] leaves.
pub fn is_kept(home: &Home, name: &[u8]) -> Result<bool, FileError> {
    let path = path_of(name);
    let file = match home.open_file(&path, Opening::READ) {
        Err(FileError::System { cause, .. }) if cause.kind() == ErrorKind::NotFound => {
            return Ok(false)
        }
        other => other?,
    };
    let failed = |cause| FileError::system(&path, cause);
    let (first, _) = ends_of(&file).map_err(failed)?;
    let size = file.metadata().map_err(failed)?.len();
    let has_key = first.split(|byte| *byte == b' ').count() > 3;
    Ok(has_key || size > first.len() as u64 + 1)
}

/// Returns where the log of a name is, from `.redo`.
pub fn path_of(name: &[u8]) -> Vec<u8> {
    joined(&[
        FOLDER,
        b"/",
        &digits(&sha256::digest(name)).as_bytes()[..DIGITS],
    ])
}

/// Reads a line, if it is a mark.
pub(crate) fn read_mark(line: &[u8], mark: &[u8]) -> Option<Mark> {
    let told = line.strip_prefix(mark)?;
    Some(if let Some(name) = told.strip_prefix(b"redo ") {
        Mark::Built(name.to_vec())
    } else if let Some(name) = told.strip_prefix(b"unchanged ") {
        Mark::Unchanged(name.to_vec())
    } else if told.starts_with(b"end ") {
        Mark::End
    } else {
        Mark::Unknown
    })
}

/// Returns what marks of a log begin with, by its first and last line; None if it has no marks.
///
/// A script that empties its log leaves no first line; then the last one has the key.
pub(crate) fn beginning_of_marks(first: &[u8], last: &[u8]) -> Option<Vec<u8>> {
    let words: Vec<&[u8]> = first.split(|byte| *byte == b' ').collect();
    if words[0].strip_prefix(MARK) == Some(b"target") {
        return Some(match words[..] {
            [_, _, _, key] => joined(&[MARK, key, b" "]),
            _ => MARK.to_vec(),
        });
    }
    let words: Vec<&[u8]> = last.split(|byte| *byte == b' ').collect();
    match words[..] {
        [key, b"end", _, _] if key.starts_with(MARK) => Some(joined(&[key, b" "])),
        _ => None,
    }
}

/// Returns the first and the last line of a log. Longer ones than marks can be are cut.
pub(crate) fn ends_of(file: &File) -> io::Result<(Vec<u8>, Vec<u8>)> {
    let size = file.metadata()?.len();
    let beginning = read_part(file, 0)?;
    let end = read_part(file, size.saturating_sub(ENDS as u64))?;
    let first = beginning
        .split(|byte| *byte == b'\n')
        .next()
        .unwrap_or_default();
    let last = end
        .split(|byte| *byte == b'\n')
        .rev()
        .nth(1)
        .unwrap_or_default();
    Ok((first.to_vec(), last.to_vec()))
}

fn read_part(file: &File, from: u64) -> io::Result<Vec<u8>> {
    let mut part = vec![0; ENDS];
    let count = file.read_at(&mut part, from)?;
    part.truncate(count);
    Ok(part)
}

/// Returns the log of a name, which is new, and the folder of logs if that is missing.
///
/// A log that is there is removed. To empty it would have some file systems write to the disk.
fn renewed(home: &Home, name: &[u8]) -> Result<File, FileError> {
    let path = path_of(name);
    let failed = |cause| FileError::system(&path, cause);
    let mut file = match home.open_file(&path, OPENING) {
        Err(FileError::System { cause, .. }) if cause.kind() == ErrorKind::NotFound => {
            home.open_file(&path, OPENING.making_folder(FOLDER_RIGHTS))?
        }
        other => other?,
    };
    if file.metadata().map_err(failed)?.len() > 0 {
        let folder = home.open_folder(FOLDER, None)?;
        folder.remove(last_part(&path)).map_err(failed)?;
        file = home.open_file(&path, OPENING)?;
    }
    system::set_append(&file).map_err(failed)?;
    Ok(file)
}

fn first_line(name: &[u8], stamp: Option<&[u8]>) -> Vec<u8> {
    joined(&[MARK, b"target ", name, b" ", stamp.unwrap_or(b"-")])
}

#[cfg(test)]
mod tests;
