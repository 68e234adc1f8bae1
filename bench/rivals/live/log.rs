// The log: a file of the lines that changed something.
use crate::database::{Answers, Database, MOST_SESSIONS};
use crate::copying::copy_to;
use crate::opening::{open, open_again, sync_folder};
use crate::say;
use std::fs::File;
use std::io::{self, BufRead, BufReader, Read, Seek, Write};
use std::os::unix::fs::FileExt;

const HEADER: &[u8] = b"redodb-log 1\n";

pub struct Log {
    name: String,
    file: File,
    is_synced: bool,
    // how many bytes of it were written, and how many of them are known to be on the disk
    written: u64,
    synced: u64,
}

// how far a log was restored: this many lines after the header, and this many bytes
struct Restored {
    lines: u64,
    bytes: u64,
    // the number of the line that isn't the answer, counted with the header
    differs: Option<u64>,
}

// whether a line of the log is what the database answers
fn is_answer(database: &mut Database, line: &[u8], answers: &mut Answers) -> bool {
    let end = match line.windows(4).position(|four| four == b" => ") {
        Some(end) => end,
        None => return false,
    };
    answers.said.clear();
    answers.logged.clear();
    database.answer_command(&line[..end], answers);
    answers.said == line
}

// whether the first bytes are those of a log, or all bytes a beginning of them
fn is_log(name: &str, file: &File) -> Result<bool, String> {
    let mut head = [0; HEADER.len()];
    let length = file.metadata().map(|metadata| metadata.len());
    let count = file.read_at(&mut head, 0);
    let (length, count) = match (length, count) {
        (Ok(length), Ok(count)) => (length, count),
        _ => return Err(format!("{name}: read")),
    };
    if count as u64 > length {
        return Err(format!("{name}: not a regular file"));
    }
    Ok(HEADER.starts_with(&head[..count]))
}

// does the lines of a log again, up to the first that differs or has no LF
fn restore(file: &File, database: &mut Database) -> io::Result<Restored> {
    let mut input = BufReader::with_capacity(1 << 16, file);
    let mut line = Vec::new();
    input.by_ref().take(HEADER.len() as u64).read_until(b'\n', &mut line)?;
    let mut restored = Restored { lines: 0, bytes: 0, differs: None };
    if !HEADER.starts_with(&line) {
        restored.differs = Some(1);
        return Ok(restored);
    }
    let mut answers = Answers::default();
    while line.last() == Some(&b'\n') {
        restored.bytes += line.len() as u64;
        line.clear();
        input.read_until(b'\n', &mut line)?;
        if line.last() == Some(&b'\n') {
            if !is_answer(database, &line, &mut answers) {
                restored.differs = Some(restored.lines + 2);
                return Ok(restored);
            }
            restored.lines += 1;
        }
    }
    Ok(restored)
}

impl Log {
    // The log of this name, which nobody else has open.
    pub fn open(name: &str, is_synced: bool) -> Result<Log, String> {
        let file = open(name).map_err(|cause| format!("{name}: {cause}"))?;
        is_log(name, &file)?;
        Ok(Log { name: name.to_string(), file, is_synced, written: 0, synced: 0 })
    }

    fn copy_to_damaged(&self) -> Result<(), String> {
        let name = format!("{}.damaged", self.name);
        copy_to(&name, &self.file).map_err(|cause| format!("{name}: {cause}"))
    }

    fn read_fault(&self) -> String {
        format!("{}: read", self.name)
    }

    // Keeps the lines before the first that differs, and a copy of all.
    fn salvage(&mut self, lines: u64, bytes: u64) -> Result<(), String> {
        self.copy_to_damaged()?;
        let length = self.file.metadata().map_err(|_| self.read_fault())?.len();
        self.cut(bytes)?;
        // else a later line could be on the disk without the cut, and before what was cut off
        self.file.sync_data().map_err(|_| format!("{}: write", self.name))?;
        let cut = length - bytes;
        say(&format!("redodb-live: {}: {lines} lines kept, {cut} bytes cut off\n", self.name));
        self.file.rewind().map_err(|_| self.read_fault())
    }

    fn done_again(&self) -> Result<(Database, Restored), String> {
        let mut database = Database::new();
        let restored = restore(&self.file, &mut database).map_err(|_| self.read_fault())?;
        Ok((database, restored))
    }

    // Does the lines of the log again, cuts off what isn't whole, and closes the sessions of the
    // former run. Returns the database, and how many lines the log held.
    pub fn restored(&mut self, is_salvaged: bool) -> Result<(Database, u64), String> {
        let (mut database, mut restored) = self.done_again()?;
        if let Some(line) = restored.differs {
            if !is_salvaged {
                return Err(format!("{}: line {line} differs", self.name));
            }
            self.salvage(restored.lines, restored.bytes)?;
            (database, restored) = self.done_again()?;
        }
        if self.file.metadata().map_err(|_| self.read_fault())?.len() > restored.bytes {
            self.cut(restored.bytes)?;
        }
        self.settle(restored.bytes)?;
        let mut answers = Answers::default();
        if restored.bytes == 0 {
            answers.logged.extend_from_slice(HEADER);
        }
        (1..=MOST_SESSIONS).for_each(|session| database.close(session, &mut answers));
        self.append(&answers.logged)?;
        Ok((database, restored.lines))
    }

    // Syncs what was read, if that is asked for, and the folder, of a new log too. What can't be
    // synced is written once more in its place, so that no later sync takes it for done.
    fn settle(&mut self, bytes: u64) -> Result<(), String> {
        (self.written, self.synced) = (bytes, bytes);
        let fault = format!("{}: write", self.name);
        if self.is_synced && bytes > 0 && self.file.sync_data().is_err() {
            let mut text = vec![0; bytes as usize];
            if let (Some(mut again), Ok(())) =
                (open_again(&self.name, &self.file), self.file.read_exact_at(&mut text, 0))
            {
                let _ = again.write_all(&text);
            }
            return Err(fault);
        }
        if (self.is_synced || bytes == 0) && sync_folder(&self.name).is_err() {
            return Err(fault);
        }
        Ok(())
    }

    fn cut(&mut self, length: u64) -> Result<(), String> {
        self.file.set_len(length).map_err(|_| format!("{}: write", self.name))
    }

    // Appends lines; they are on the disk then, if that is asked for, or cut off again.
    pub fn append(&mut self, lines: &[u8]) -> Result<(), String> {
        if lines.is_empty() {
            return Ok(());
        }
        let fault = |_| format!("{}: write", self.name);
        self.file.write_all(lines).map_err(fault)?;
        self.written += lines.len() as u64;
        if self.is_synced {
            let synced = self.file.sync_data();
            if synced.is_err() {
                drop(self.file.set_len(self.synced));
            }
            synced.map_err(fault)?;
            self.synced = self.written;
        }
        Ok(())
    }
}
