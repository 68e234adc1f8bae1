//! The mark that redodb-live is started, and may compact the log.
//!
//! redodb-live writes the new log to `.redo/log.new`, syncs it, and gives it the name of the log. If
//! a file is there that begins the new log, as an empty one does, it takes that. So the server makes
//! the file before, and the mark `.redo/server/compacting` tells which one it is, and which one the
//! log is until then. If a kill leaves the mark, and the log is the new file, it stands for the
//! former one.
//!
//! What a kill leaves after each step of a start:
//!
//! | After | The log is | What tells it |
//! |---|---|---|
//! | 1. `log.new` is made | the former | `clean` and `running`, as before |
//! | 2. the mark is on the disk | the former | the same |
//! | 3. redodb-live has filled `log.new` | the former | the same |
//! | 4. it has renamed that to `log` | the new | the mark, and these two of the former |
//! | 5. a `log.new` that isn't needed is removed | the new | the same |
//! | 6. `running` is written | the new | `running` |
//! | 7. `clean` is removed | the new | `running` |
//! | 8. so is the mark | the new | `running` |
//!
//! 2, 3 and 4 are on the disk before the next one begins, with their folders. A loss of power may
//! take back 5 to 8; 7 only together with all that is built later. So until 7 it leaves what 4 has
//! left. From then on another boot of the machine finds no `clean`: the log's end may be lost.
//!
//! While redodb-live runs it may compact the log again. So the server makes the next `log.new` in
//! step 6, and `running` names both files; it does so again once the log was compacted.
//!
//! If redodb-live doesn't compact, 4 is left out. If it fails or is killed, the next start begins
//! at 1. One that finds the new log by the mark begins at 5: redodb-live keeps that log whole.

use std::fs::Metadata;
use std::str::FromStr;

use redo_files::paths;
use redo_files::private::{Home, Opening};
use redo_files::top::places;

use super::{first_line, head, log_file, noted_next, put_on_disk, status_of, Keeping, LogFile};
use crate::error::ServerError;

const MARK: &[u8] = b"server/compacting";
const NEW_LOG: &[u8] = b"log.new";
const DUMP_HEADER: &str = "redodb-log 2";

/// redodb-live compacts no log that is shorter, unless it is told to.
const LEAST_COMPACTED: u64 = 1 << 22;

/// What is under way.
struct Compacting {
    former: LogFile,
    /// The number of the file that may take its place, and when that was made. It is on the same
    /// device, whose number another boot may change.
    new: (u64, u64),
}

/// Marks that redodb-live may compact the log, if it is long enough for that. If it can't be
/// marked, it may not.
pub(super) fn begin(home: &Home, log: &LogFile) -> Keeping {
    if log.length < LEAST_COMPACTED {
        return Keeping::Whole;
    }
    // else the disk is full, or something else is in the way
    mark(home, log).unwrap_or(Keeping::Whole)
}

/// Returns which log this one stands for: it was compacted, and no marks were made since.
pub(super) fn former(home: &Home, log: &LogFile) -> Option<LogFile> {
    let compacting = read(home)?;
    let is_new = compacting.new == (log.inode, log.born);
    (is_new && length_of_dump(home) == Some(log.length)).then_some(compacting.former)
}

/// Says whether a log isn't the one of before, and has its number: that one is gone.
pub(super) fn is_another(home: &Home, log: &LogFile) -> bool {
    let former = read(home).map(|compacting| compacting.former);
    former.map_or(false, |former| {
        former.has_number_of(log) && former.born != log.born
    })
}

/// Removes a new log that isn't needed: redodb-live has started, or ended. Somebody else's file
/// stays.
pub(super) fn clear(home: &Home) -> Result<(), ServerError> {
    let new = status_of(home, NEW_LOG).filter(Metadata::is_file);
    if new.map_or(false, |new| is_own(home, &LogFile::of(&new))) {
        let folder = home.open_folder(b"", None)?;
        let failed = ServerError::system("log.new");
        folder.remove(NEW_LOG).map_err(failed)?;
    }
    Ok(())
}

/// Makes the file that redodb-live takes if it compacts the log again. Returns its number, unless
/// something else has its name, or it can't be made.
pub(super) fn next(home: &Home) -> Option<u64> {
    let file = home.open_file(NEW_LOG, Opening::READ.making(0o600)).ok()?;
    let new = LogFile::of(&file.metadata().ok()?);
    (new.length == 0).then_some(new.inode)
}

/// Says whether a new log is there: if the server has made one, the log wasn't compacted since.
pub(super) fn is_new_there(home: &Home) -> bool {
    status_of(home, NEW_LOG).is_some()
}

/// Removes the mark.
pub(super) fn forget(home: &Home) -> Result<(), ServerError> {
    let folder = home.open_folder(places::SERVER, None)?;
    let failed = ServerError::system("compacting");
    folder.remove(paths::last(MARK)).map_err(failed)
}

/// Says whether a new log is one that a server has made: it is empty, or a mark names it.
fn is_own(home: &Home, new: &LogFile) -> bool {
    let is_marked = |compacting: Compacting| compacting.new == (new.inode, new.born);
    let is_next = noted_next(home) == Some(new.inode);
    new.length == 0 || is_next || read(home).map_or(false, is_marked)
}

/// Makes the new log, and then the mark, unless somebody else's file has its name, or the log was
/// replaced meanwhile by what another server has left.
fn mark(home: &Home, log: &LogFile) -> Result<Keeping, ServerError> {
    let failed = ServerError::system("log.new");
    let file = home.open_file(NEW_LOG, Opening::READ.making(0o600))?;
    let new = LogFile::of(&file.metadata().map_err(failed)?);
    let is_same = log_file(home).map_or(false, |now| now.has_number_of(log));
    if !is_same || !is_own(home, &new) {
        return Ok(Keeping::Whole);
    }
    let numbers = [
        log.device, log.inode, log.born, log.length, new.inode, new.born,
    ];
    let line = numbers.map(|number| number.to_string()).join(" ");
    put_on_disk(home, MARK, line.as_bytes())?;
    Ok(Keeping::Compacting)
}

fn read(home: &Home) -> Option<Compacting> {
    let line = String::from_utf8(first_line(home, MARK)?).ok()?;
    let numbers: Result<Vec<u64>, _> = line.split(' ').map(u64::from_str).collect();
    match numbers.ok()?.as_slice() {
        &[device, inode, born, length, new, new_born] => Some(Compacting {
            former: LogFile {
                device,
                inode,
                born,
                length,
            },
            new: (new, new_born),
        }),
        _ => None,
    }
}

/// Returns how long a log is that begins with a dump, and has no line after it.
fn length_of_dump(home: &Home) -> Option<u64> {
    let head = head(home, places::LOG)?;
    let mut lines = head.split(|byte| *byte == b'\n');
    let header = lines.next()?;
    let state = std::str::from_utf8(lines.next()?).ok()?;
    lines.next()?; // else the line isn't whole
    let words: Vec<&str> = state.split(' ').collect();
    match words.as_slice() {
        ["state", _names, bytes, _sum] if header == DUMP_HEADER.as_bytes() => {
            let first_lines = header.len() + state.len() + 2;
            bytes.parse::<u64>().ok()?.checked_add(first_lines as u64)
        }
        _ => None,
    }
}

#[cfg(test)]
mod tests;
