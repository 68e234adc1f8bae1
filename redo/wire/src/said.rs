//! What is to be said about targets.

use crate::error::WireError;
use crate::field::{Reader, Writer};

const RING: u8 = 1;
const FAILED_BEFORE: u8 = 2;
const NO_RULE: u8 = 3;
const BY_HAND: u8 = 4;
const GONE: u8 = 5;
const ITSELF: u8 = 6;
const SOURCE: u8 = 7;
const RULE_FAILED: u8 = 8;
const EXISTS: u8 = 9;
const TEXT: u8 = 10;

/// A line, and to whom it is said.
#[derive(Clone, Debug, PartialEq, Eq)]
pub struct Said {
    /// The task whose script asked: the line belongs to its target's log. None is the user.
    pub asker: Option<u64>,
    /// What is said.
    pub what: Say,
}

/// What is to be said. Paths are absolute.
///
/// What a program of a script did wrong itself, as [`Say::Itself`] and [`Say::Exists`], may be told
/// to that program instead, as [`ToProgram::Error`](crate::ToProgram) with its name in front.
#[derive(Clone, Debug, PartialEq, Eq)]
pub enum Say {
    /// Each needs the next; the first is the last, too.
    Ring(Vec<Vec<u8>>),
    /// It failed before in this run.
    FailedBefore(Vec<u8>),
    /// It isn't there, and there is no rule to make it.
    NoRule(Vec<u8>),
    /// It was changed by hand: it stays as it is.
    ByHand(Vec<u8>),
    /// It was built in this run, and its file is gone.
    Gone(Vec<u8>),
    /// The target's script asks for the target.
    Itself(Vec<u8>),
    /// It is there, and no build made it: it stays as it is, although a build was asked for.
    Source(Vec<u8>),
    /// The `.do` file of the target is a target itself, and can't be made.
    RuleFailed {
        /// The target.
        target: Vec<u8>,
        /// Its `.do` file.
        do_file: Vec<u8>,
    },
    /// `redo-ifcreate` was called for a file that is there.
    Exists(Vec<u8>),
    /// These words, in which paths are as they are to be shown.
    Text(Vec<u8>),
}

impl Said {
    pub(crate) fn write(&self, writer: &mut Writer<'_>) {
        writer.option(self.asker, Writer::long_number);
        self.what.write(writer);
    }

    pub(crate) fn read(reader: &mut Reader<'_>) -> Result<Said, WireError> {
        Ok(Said {
            asker: reader.option(Reader::long_number)?,
            what: Say::read(reader)?,
        })
    }
}

impl Say {
    /// Returns it as a line, without its LF. `shown` returns a path as it is shown.
    pub fn line(&self, shown: impl Fn(&[u8]) -> Vec<u8>) -> Vec<u8> {
        match self {
            Say::Ring(paths) => {
                let shown: Vec<Vec<u8>> = paths.iter().map(|path| shown(path)).collect();
                [
                    b"these need each other: ",
                    shown.join(b" -> ".as_slice()).as_slice(),
                ]
                .concat()
            }
            Say::FailedBefore(path) => behind(&shown(path), " failed before"),
            Say::NoRule(path) => [b"there is no rule to make ", shown(path).as_slice()].concat(),
            Say::ByHand(path) => behind(&shown(path), " was changed by hand: it stays as it is"),
            Say::Gone(path) => behind(&shown(path), " was built in this run, and its file is gone"),
            Say::Itself(path) => behind(&shown(path), " needs itself"),
            Say::Source(path) => {
                let text = " is there, and no build made it: it stays as it is";
                behind(&shown(path), text)
            }
            Say::RuleFailed { target, do_file } => {
                let rule = behind(&shown(do_file), " can't be made");
                [shown(target), rule].join(b": ".as_slice())
            }
            Say::Exists(path) => behind(&shown(path), " is there already"),
            Say::Text(text) => text.clone(),
        }
    }

    fn kind(&self) -> u8 {
        match self {
            Say::Ring(_) => RING,
            Say::FailedBefore(_) => FAILED_BEFORE,
            Say::NoRule(_) => NO_RULE,
            Say::ByHand(_) => BY_HAND,
            Say::Gone(_) => GONE,
            Say::Itself(_) => ITSELF,
            Say::Source(_) => SOURCE,
            Say::RuleFailed { .. } => RULE_FAILED,
            Say::Exists(_) => EXISTS,
            Say::Text(_) => TEXT,
        }
    }

    fn write(&self, writer: &mut Writer<'_>) {
        writer.byte(self.kind());
        match self {
            Say::Ring(paths) => writer.list(paths),
            Say::FailedBefore(text)
            | Say::NoRule(text)
            | Say::ByHand(text)
            | Say::Gone(text)
            | Say::Itself(text)
            | Say::Source(text)
            | Say::Exists(text)
            | Say::Text(text) => writer.text(text),
            Say::RuleFailed { target, do_file } => {
                writer.text(target);
                writer.text(do_file);
            }
        }
    }

    fn read(reader: &mut Reader<'_>) -> Result<Say, WireError> {
        Ok(match reader.byte()? {
            RING => Say::Ring(reader.list()?),
            FAILED_BEFORE => Say::FailedBefore(reader.text()?),
            NO_RULE => Say::NoRule(reader.text()?),
            BY_HAND => Say::ByHand(reader.text()?),
            GONE => Say::Gone(reader.text()?),
            ITSELF => Say::Itself(reader.text()?),
            SOURCE => Say::Source(reader.text()?),
            RULE_FAILED => Say::RuleFailed {
                target: reader.text()?,
                do_file: reader.text()?,
            },
            EXISTS => Say::Exists(reader.text()?),
            TEXT => Say::Text(reader.text()?),
            other => return Err(WireError::NoSay(other)),
        })
    }
}

fn behind(shown: &[u8], text: &str) -> Vec<u8> {
    [shown, text.as_bytes()].concat()
}
