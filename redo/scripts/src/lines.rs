//! Reads the lines of a log, also while it grows.

use std::collections::VecDeque;
use std::fs::File;
use std::io::{self, ErrorKind, Read, Seek, SeekFrom};

use redo_files::error::FileError;
use redo_files::private::{Home, Opening};

use crate::log::{beginning_of_marks, ends_of, path_of, read_mark, Mark, MARK};
use crate::text::joined;

const BLOCK: usize = 1 << 13;
/// What is longer is parted.
const LONGEST_LINE: usize = 1 << 20;

/// A line of a log.
#[derive(Clone, Debug, PartialEq, Eq)]
pub enum Line {
    /// What a script or redo said, without its LF.
    Text(Vec<u8>),
    Mark(Mark),
}

/// Says whether a line is one of redo's own, or looks like it.
pub fn is_redos(text: &[u8]) -> bool {
    text.starts_with(b"redo: ")
}

/// The lines of a log, one after the other.
#[derive(Debug)]
pub struct Lines {
    file: File,
    place: u64,
    mark: Option<Vec<u8>>,
    rest: Vec<u8>,
    whole: VecDeque<Vec<u8>>,
}

impl Lines {
    /// Opens the log of a name. Its marks are read from it, if they aren't given.
    pub fn open(home: &Home, name: &[u8], mark: Option<&[u8]>) -> Result<Lines, FileError> {
        let path = path_of(name);
        let mut file = home.open_file(&path, Opening::READ)?;
        let failed = |cause| FileError::system(&path, cause);
        let (first, last) = ends_of(&file).map_err(failed)?;
        let mut place = 0;
        if first.starts_with(&joined(&[MARK, b"target "])) {
            place = first.len() as u64 + 1;
            file.seek(SeekFrom::Start(place)).map_err(failed)?;
        }
        Ok(Lines {
            file,
            place,
            mark: mark.map_or_else(
                || beginning_of_marks(&first, &last),
                |mark| Some(mark.into()),
            ),
            rest: Vec::new(),
            whole: VecDeque::new(),
        })
    }

    /// Returns the next line, if it is there by now. One without an LF counts if the log doesn't
    /// grow any more.
    pub fn next(&mut self, grows: bool) -> io::Result<Option<Line>> {
        while self.whole.is_empty() && self.read_block()? {}
        let line = match self.whole.pop_front() {
            None if grows || self.rest.is_empty() => return Ok(None),
            None => std::mem::take(&mut self.rest),
            Some(line) => line,
        };
        let mark = self.mark.as_deref().and_then(|mark| read_mark(&line, mark));
        Ok(Some(mark.map_or_else(|| Line::Text(line), Line::Mark)))
    }

    /// Reads more of the log, and says whether there was more.
    fn read_block(&mut self) -> io::Result<bool> {
        let mut block = [0; BLOCK];
        let count = match self.file.read(&mut block) {
            Err(cause) if cause.kind() == ErrorKind::Interrupted => return Ok(true),
            other => other?,
        };
        if count == 0 {
            return self.rewind_if_emptied();
        }
        self.place += count as u64;
        let mut parts = block[..count].split(|byte| *byte == b'\n');
        self.rest
            .extend_from_slice(parts.next().unwrap_or_default());
        for part in parts {
            self.whole
                .push_back(std::mem::replace(&mut self.rest, part.to_vec()));
        }
        if self.rest.len() > LONGEST_LINE {
            self.whole.push_back(std::mem::take(&mut self.rest));
        }
        Ok(true)
    }

    /// Goes to the beginning of a log that a script has emptied, and says whether it has.
    fn rewind_if_emptied(&mut self) -> io::Result<bool> {
        let was_emptied = self.file.metadata()?.len() < self.place;
        if was_emptied {
            self.place = self.file.seek(SeekFrom::Start(0))?;
            self.rest.clear();
        }
        Ok(was_emptied)
    }
}
