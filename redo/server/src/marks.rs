//! Whether the log is as the last server left it: a machine that lost its power may have lost the
//! end of the log, and kept the files that were built after it.

mod compacting;

use std::ffi::OsStr;
use std::fs::{self, File, Metadata};
use std::io::{self, ErrorKind, Read, Write};
use std::os::unix::ffi::OsStrExt;
use std::os::unix::fs::MetadataExt;
use std::time::UNIX_EPOCH;

use redo_files::private::{Home, Opening};
use redo_files::system::Folder;
use redo_files::top::{places, HOME};
use redo_files::{paths, FileError};

use crate::error::ServerError;

const CLEAN: &[u8] = b"clean";
const RUNNING: &[u8] = b"server/running";
const LONGEST_HEAD: u64 = 256;
/// redodb-live compacts the log at most once while it answers so many bytes: it logs no more.
const LEAST_HEARD: u64 = 1 << 24;

/// What is known of the log when a server starts.
#[derive(Clone, Copy, Debug, PartialEq, Eq)]
pub enum Log {
    /// Nothing of it was lost.
    Whole,
    /// The machine stopped while a server ran: its end may be lost.
    Cut,
    /// It isn't the one that the last server left.
    Other,
}

/// What redodb-live may do with the log when it starts.
#[derive(Clone, Copy, Debug, PartialEq, Eq)]
pub enum Keeping {
    /// It keeps all lines.
    Whole,
    /// It may put a dump in their place, by way of a new file.
    Compacting,
}

/// The file of a log, as it is or was.
#[derive(Clone, Copy, Debug, PartialEq, Eq)]
struct LogFile {
    device: u64,
    inode: u64,
    /// When it was made, in nanoseconds since 1970; 0 if the file system doesn't say. Another file
    /// can get the number of one that is gone.
    born: u64,
    length: u64,
}

impl LogFile {
    fn of(status: &Metadata) -> LogFile {
        let born = status.created().ok();
        let since = born.and_then(|born| born.duration_since(UNIX_EPOCH).ok());
        let nanoseconds = since.and_then(|since| u64::try_from(since.as_nanos()).ok());
        LogFile {
            device: status.dev(),
            inode: status.ino(),
            born: nanoseconds.unwrap_or(0),
            length: status.len(),
        }
    }

    fn has_number_of(&self, other: &LogFile) -> bool {
        (self.device, self.inode) == (other.device, other.inode)
    }
}

/// The three marks of a tree.
///
/// `.redo/clean` has the length of the log, and is there after a server has ended in order: then
/// the log is on the disk. `.redo/server/running` names the boot of the machine and the log's file
/// while a server runs. A server removes the first one before anything is built, which the file
/// system doesn't put off until after the renaming of what is built; so it costs no sync.
///
/// redodb-live can put another file in the place of the log before the server has made its marks.
/// `.redo/server/compacting` says beforehand, on the disk, which file that is, and which one it
/// replaces: the new file stands for the old one until the marks are those of the new one. While it
/// runs it can do so again: `running` names the file that would be next, too.
#[derive(Debug)]
pub struct Marks {
    home: Home,
    boot: Vec<u8>,
    /// What they said of the log before redodb-live opened it.
    log: Log,
    /// How redodb-live keeps it.
    keeping: Keeping,
    /// How many bytes it has answered since the last look at the log.
    heard: u64,
}

impl Marks {
    /// `boot` is what this boot of the machine is called.
    pub fn new(home: &Home, boot: &[u8]) -> Marks {
        Marks {
            home: home.clone(),
            boot: boot.to_vec(),
            log: Log::Whole,
            keeping: Keeping::Whole,
            heard: 0,
        }
    }

    /// What the latest look at the log has shown.
    pub fn log(&self) -> Log {
        self.log
    }

    /// Looks at the log, which redodb-live is to open now. Returns how that is to keep it.
    pub fn open(&mut self) -> Keeping {
        let log = log_file(&self.home);
        self.log = self.judged(log);
        let former = log.and_then(|log| compacting::former(&self.home, &log));
        self.keeping = match (self.log, former) {
            (Log::Cut | Log::Other, Some(former)) => {
                self.log = self.judged(Some(former));
                Keeping::Whole // it was just compacted, and the mark of that stays
            }
            _ => log.map_or(Keeping::Whole, |log| compacting::begin(&self.home, &log)),
        };
        self.keeping
    }

    /// Takes it that redodb-live has found the log damaged, and has replaced nothing.
    pub fn give_up(&self) {
        let _ = compacting::forget(&self.home); // it counts only if the log is replaced
    }

    /// Marks that a server runs.
    pub fn begin(&self) -> Result<(), ServerError> {
        compacting::clear(&self.home)?;
        self.note_running()?;
        self.forget_end()?;
        compacting::forget(&self.home)
    }

    /// Takes it that redodb-live has answered so many bytes more. If it has compacted the log since,
    /// marks that.
    pub fn follow(&mut self, bytes: usize) -> Result<(), ServerError> {
        self.heard += bytes as u64;
        if self.keeping == Keeping::Whole || self.heard < LEAST_HEARD {
            return Ok(());
        }
        self.heard = 0;
        if compacting::is_new_there(&self.home) {
            return Ok(());
        }
        self.note_running()
    }

    /// Syncs the log, and marks that the server has ended in order.
    pub fn end(&self) -> Result<(), ServerError> {
        compacting::clear(&self.home)?;
        let failed = ServerError::system("log");
        let log = self.home.open_file(places::LOG, Opening::READ)?;
        log.sync_all().map_err(&failed)?;
        let length = log.metadata().map_err(&failed)?.len();
        put_on_disk(&self.home, CLEAN, length.to_string().as_bytes())
    }

    /// Writes which file the log of this server is, and which one may take its place. That is one
    /// write over the former line, so a kill leaves either; what is left of a longer one is behind
    /// its end. It needs no room on the disk.
    fn note_running(&self) -> Result<(), ServerError> {
        let mut line = self.run_of(log_file(&self.home));
        if self.keeping == Keeping::Compacting {
            if let Some(next) = compacting::next(&self.home) {
                line.extend(format!(" {next}").bytes());
            }
        }
        let making = Opening::READ_WRITE.making(0o600);
        let mut file = self.home.open_file(RUNNING, making)?;
        write_line(&mut file, &line)?;
        let failed = ServerError::system("running");
        file.set_len(line.len() as u64 + 1).map_err(failed)
    }

    /// Removes the mark that a server has ended.
    fn forget_end(&self) -> Result<(), ServerError> {
        let folder = self.home.open_folder(b"", None)?;
        folder.remove(CLEAN).map_err(ServerError::system("clean"))
    }

    /// Returns what `clean` and `running` say of a log.
    fn judged(&self, log: Option<LogFile>) -> Log {
        let length = log.map_or(0, |log| log.length);
        if let Some(clean) = first_line(&self.home, CLEAN) {
            let is_same = clean == length.to_string().as_bytes();
            return if is_same { Log::Whole } else { Log::Other };
        }
        if length == 0 || self.is_running(log) {
            return Log::Whole;
        }
        Log::Cut
    }

    /// Says whether `running` names a log, and means this file by it.
    fn is_running(&self, log: Option<LogFile>) -> bool {
        let is_another = log.map_or(false, |log| compacting::is_another(&self.home, &log));
        let noted = first_line(&self.home, RUNNING);
        !is_another && noted.map_or(false, |line| self.is_run_of(&line, log))
    }

    /// Says whether a line of `running` is of this boot, and means this log: that of its server, or
    /// the one that may have taken its place.
    fn is_run_of(&self, line: &[u8], log: Option<LogFile>) -> bool {
        let files = line.strip_prefix(self.boot.as_slice());
        line == self.run_of(log)
            || matches!((files, log), (Some(files), Some(log)) if names(files, &log))
    }

    /// Returns what a server of now writes if this is its log: a copy of the tree has another one.
    fn run_of(&self, log: Option<LogFile>) -> Vec<u8> {
        match log {
            Some(LogFile { device, inode, .. }) => [
                self.boot.as_slice(),
                format!(" {device} {inode}").as_bytes(),
            ]
            .concat(),
            None => self.boot.clone(),
        }
    }
}

/// Says whether the numbers of a device and of two files name a log.
fn names(files: &[u8], log: &LogFile) -> bool {
    let Ok(files) = std::str::from_utf8(files) else {
        return false;
    };
    let numbers: Result<Vec<u64>, _> = files.split_whitespace().map(str::parse).collect();
    match numbers.as_deref() {
        Ok(&[device, first, next]) => log.device == device && [first, next].contains(&log.inode),
        _ => false,
    }
}

/// Returns the number of the file that `running` names as the next log, whatever boot it is of.
fn noted_next(home: &Home) -> Option<u64> {
    let line = String::from_utf8(first_line(home, RUNNING)?).ok()?;
    match line.split(' ').collect::<Vec<_>>().as_slice() {
        [_boot, _device, _log, next] => next.parse().ok(),
        _ => None,
    }
}

/// Returns which file the log is, if there is one.
fn log_file(home: &Home) -> Option<LogFile> {
    let status = status_of(home, places::LOG)?;
    Some(LogFile::of(&status))
}

/// Returns what is known of a file in `.redo`.
fn status_of(home: &Home, path: &[u8]) -> Option<Metadata> {
    let home = paths::join(home.top(), HOME);
    let path = paths::join(&home, path);
    fs::symlink_metadata(OsStr::from_bytes(&path)).ok()
}

/// Returns the first bytes of a file.
fn head(home: &Home, path: &[u8]) -> Option<Vec<u8>> {
    let file = home.open_file(path, Opening::READ).ok()?;
    let mut head = Vec::new();
    file.take(LONGEST_HEAD).read_to_end(&mut head).ok()?;
    Some(head)
}

/// Returns the first line of a small file, if it has a whole one that isn't empty.
fn first_line(home: &Home, path: &[u8]) -> Option<Vec<u8>> {
    let mut text = head(home, path)?;
    let length = text.iter().position(|byte| *byte == b'\n')?;
    text.truncate(length);
    (!text.is_empty()).then_some(text)
}

/// Puts a file with this line in its place, as a whole. It is on the disk then.
fn put_on_disk(home: &Home, path: &[u8], line: &[u8]) -> Result<(), ServerError> {
    let failed = ServerError::system("mark");
    let new = [path, b".new"].concat();
    let mut file = home.open_file(&new, Opening::REPLACE.making(0o600))?;
    write_line(&mut file, line)?;
    file.sync_all().map_err(&failed)?;
    let folder = home.open_folder(paths::parent(path), None)?;
    folder
        .rename(paths::last(&new), paths::last(path))
        .and_then(|()| sync_folder(folder))
        .map_err(&failed)
}

/// Syncs a folder. A file system that has no such sync is taken as it is.
fn sync_folder(folder: Folder) -> io::Result<()> {
    match File::from(folder).sync_all() {
        Err(cause) if cause.kind() == ErrorKind::InvalidInput => Ok(()),
        other => other,
    }
}

fn write_line(file: &mut File, line: &[u8]) -> Result<(), ServerError> {
    let failed = |cause| ServerError::File(FileError::system(b".redo", cause));
    file.write_all(&[line, b"\n"].concat()).map_err(failed)
}

#[cfg(test)]
mod tests;
