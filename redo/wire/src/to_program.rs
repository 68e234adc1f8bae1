//! What the server tells programs.

use crate::call::Surroundings;
use crate::error::WireError;
use crate::field::{Reader, Writer};
use crate::said::Said;

const ERROR: u8 = 1;
const OUTPUT: u8 = 2;
const END: u8 = 3;
const RUN: u8 = 4;
const WANT: u8 = 5;
const RETURN: u8 = 6;
const SAY: u8 = 7;
const ANSWER: u8 = 8;
const STOP: u8 = 9;

/// A message to a program.
#[derive(Clone, Debug, PartialEq, Eq)]
pub enum ToProgram {
    /// A line for standard error, without its LF.
    Error(Vec<u8>),
    /// Bytes for standard output.
    Output(Vec<u8>),
    /// The program ends with this status.
    End {
        /// 0 to 255.
        status: u8,
    },
    /// A script is to be run. It is answered by [`Ended`](crate::ToServer::Ended).
    Run(Box<Script>),
    /// So many slots more could be used. The latest number counts; after each
    /// [`Slot`](crate::ToServer::Slot) it is told anew.
    Want {
        /// 0 if no more could be.
        slots: u32,
    },
    /// So many tokens go back to the jobserver.
    Return {
        /// At most as many as were told by [`Slot`](crate::ToServer::Slot), less those that went
        /// back before.
        slots: u32,
    },
    /// A line for the user, or for the log of a target.
    Say(Said),
    /// All that the run was called for is done.
    Answer {
        /// Whether all of it is as it should be.
        right: bool,
    },
    /// The run has to end: it ends its scripts, and fails.
    Stop,
}

/// A script that is to be run.
#[derive(Clone, Debug, Default, PartialEq, Eq)]
pub struct Script {
    /// By this the server and the script's programs tell it from others.
    pub task: u64,
    /// The target's name in the database.
    pub target: Vec<u8>,
    /// The path of the `.do` file, absolute.
    pub do_file: Vec<u8>,
    /// The working folder, absolute.
    pub folder: Vec<u8>,
    /// `$1`: the target from that folder.
    pub first: Vec<u8>,
    /// `$2`: that, without what the `.do` file's name matches.
    pub second: Vec<u8>,
    /// How often the target was locked: a number in the name of `$3`.
    pub grant: u64,
    /// The task whose script asks for the target, if no user does. For what comes first as a guess
    /// it is that which asks for the target whose script may need it.
    pub asker: Option<u64>,
    /// What it inherits, if that isn't what the run itself has.
    pub surroundings: Option<Surroundings>,
    /// The stamp of the target's file, if it has one.
    pub stamp: Option<Vec<u8>>,
    /// The names of targets that were built before, for this one: in its log they belong to it.
    pub built_before: Vec<Vec<u8>>,
    /// Nobody has asked for the target yet: it comes first as a guess. If it fails, nothing is said
    /// of that unless [`Say::FailedBefore`](crate::Say) comes, in whose place it is said then.
    pub is_guess: bool,
}

impl ToProgram {
    /// Appends the message as a frame. Fails if it is too long; then nothing is appended.
    pub fn encode(&self, bytes: &mut Vec<u8>) -> Result<(), WireError> {
        let mut writer = Writer::new(bytes, self.kind());
        match self {
            ToProgram::Error(text) | ToProgram::Output(text) => writer.text(text),
            ToProgram::End { status } => writer.byte(*status),
            ToProgram::Run(script) => script.write(&mut writer),
            ToProgram::Want { slots } | ToProgram::Return { slots } => writer.number(*slots),
            ToProgram::Say(said) => said.write(&mut writer),
            ToProgram::Answer { right } => writer.flag(*right),
            ToProgram::Stop => {}
        }
        writer.end()
    }

    /// Reads the body of a frame.
    pub fn decode(body: &[u8]) -> Result<ToProgram, WireError> {
        let mut reader = Reader::new(body);
        let kind = reader.byte()?;
        let message = ToProgram::read(kind, &mut reader)?;
        reader.end(message)
    }

    fn read(kind: u8, reader: &mut Reader<'_>) -> Result<ToProgram, WireError> {
        Ok(match kind {
            ERROR => ToProgram::Error(reader.text()?),
            OUTPUT => ToProgram::Output(reader.text()?),
            END => ToProgram::End {
                status: reader.byte()?,
            },
            RUN => ToProgram::Run(Box::new(Script::read(reader)?)),
            WANT => ToProgram::Want {
                slots: reader.number()?,
            },
            RETURN => ToProgram::Return {
                slots: reader.number()?,
            },
            SAY => ToProgram::Say(Said::read(reader)?),
            ANSWER => ToProgram::Answer {
                right: reader.flag()?,
            },
            STOP => ToProgram::Stop,
            other => return Err(WireError::NoKind(other)),
        })
    }

    fn kind(&self) -> u8 {
        match self {
            ToProgram::Error(_) => ERROR,
            ToProgram::Output(_) => OUTPUT,
            ToProgram::End { .. } => END,
            ToProgram::Run(_) => RUN,
            ToProgram::Want { .. } => WANT,
            ToProgram::Return { .. } => RETURN,
            ToProgram::Say(_) => SAY,
            ToProgram::Answer { .. } => ANSWER,
            ToProgram::Stop => STOP,
        }
    }
}

impl Script {
    fn write(&self, writer: &mut Writer<'_>) {
        writer.long_number(self.task);
        writer.text(&self.target);
        writer.text(&self.do_file);
        writer.text(&self.folder);
        writer.text(&self.first);
        writer.text(&self.second);
        writer.long_number(self.grant);
        writer.option(self.asker, Writer::long_number);
        writer.option(self.surroundings.as_ref(), |writer, one| one.write(writer));
        writer.option(self.stamp.as_ref(), |writer, stamp| writer.text(stamp));
        writer.list(&self.built_before);
        writer.flag(self.is_guess);
    }

    fn read(reader: &mut Reader<'_>) -> Result<Script, WireError> {
        Ok(Script {
            task: reader.long_number()?,
            target: reader.text()?,
            do_file: reader.text()?,
            folder: reader.text()?,
            first: reader.text()?,
            second: reader.text()?,
            grant: reader.long_number()?,
            asker: reader.option(Reader::long_number)?,
            surroundings: reader.option(Surroundings::read)?,
            stamp: reader.option(Reader::text)?,
            built_before: reader.list()?,
            is_guess: reader.flag()?,
        })
    }
}
