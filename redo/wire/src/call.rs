//! How a program was called.

use crate::error::WireError;
use crate::field::{Reader, Writer};
use crate::program::Program;
use crate::VERSION;

/// So many limits has a process.
pub const LIMITS: usize = 16;

/// A limit of a process as `getrlimit` has it; `u64::MAX` is none.
#[derive(Clone, Copy, Debug, Default, PartialEq, Eq)]
pub struct Limit {
    /// What holds.
    pub soft: u64,
    /// What the soft one may be raised to.
    pub hard: u64,
}

/// The SHA-256 of a content.
#[derive(Clone, Copy, Debug, PartialEq, Eq, Hash)]
pub struct Digest(pub [u8; 32]);

/// What a script inherits from whoever asks for its target.
#[derive(Clone, Debug, Default, PartialEq, Eq)]
pub struct Surroundings {
    /// The environment, each as `NAME=VALUE`.
    pub environment: Vec<Vec<u8>>,
    /// The bits of rights that new files don't get.
    pub umask: u32,
    /// The limits, by the numbers of the resources.
    pub limits: [Limit; LIMITS],
}

/// How a program was called: its first message.
#[derive(Clone, Debug, PartialEq, Eq)]
pub struct Call {
    /// Which program it is.
    pub program: Program,
    /// The working folder, absolute.
    pub folder: Vec<u8>,
    /// The arguments, without the program's name.
    pub words: Vec<Vec<u8>>,
    /// What the scripts inherit that run for this call.
    pub surroundings: Surroundings,
    /// The task whose script calls.
    pub task: Option<u64>,
    /// What `redo-stamp` has read.
    pub content: Option<Digest>,
    /// Whether standard error is a terminal.
    pub terminal: bool,
}

impl Surroundings {
    pub(crate) fn write(&self, writer: &mut Writer<'_>) {
        writer.list(&self.environment);
        writer.number(self.umask);
        for limit in self.limits {
            writer.long_number(limit.soft);
            writer.long_number(limit.hard);
        }
    }

    pub(crate) fn read(reader: &mut Reader<'_>) -> Result<Surroundings, WireError> {
        let environment = reader.list()?;
        let umask = reader.number()?;
        let mut limits = [Limit::default(); LIMITS];
        for limit in &mut limits {
            limit.soft = reader.long_number()?;
            limit.hard = reader.long_number()?;
        }
        Ok(Surroundings {
            environment,
            umask,
            limits,
        })
    }
}

impl Call {
    /// The version comes first, so that each version can tell others apart.
    pub(crate) fn write(&self, writer: &mut Writer<'_>) {
        writer.number(VERSION);
        self.program.write(writer);
        writer.text(&self.folder);
        writer.list(&self.words);
        self.surroundings.write(writer);
        writer.option(self.task, Writer::long_number);
        writer.option(self.content, |writer, content| writer.raw(&content.0));
        writer.flag(self.terminal);
    }

    pub(crate) fn read(reader: &mut Reader<'_>) -> Result<Call, WireError> {
        let version = reader.number()?;
        if version != VERSION {
            return Err(WireError::OtherVersion(version));
        }
        Ok(Call {
            program: Program::read(reader)?,
            folder: reader.text()?,
            words: reader.list()?,
            surroundings: Surroundings::read(reader)?,
            task: reader.option(Reader::long_number)?,
            content: reader.option(|reader| reader.array().map(Digest))?,
            terminal: reader.flag()?,
        })
    }
}
