//! What can be wrong with a server.

use std::fmt;
use std::io;

use redo_files::FileError;

use crate::sessions::Session;

/// Why a process can't be the server.
#[derive(Debug)]
pub enum ServerError {
    /// The words of the call aren't understood.
    Usage,
    /// There is no folder with `.redo` here or above, or the one that was named isn't there.
    NoTop,
    /// There is no redodb-live.
    NoLive,
    File(FileError),
    /// A call of the kernel failed; `what` says what it was for.
    System {
        what: &'static str,
        cause: io::Error,
    },
}

impl ServerError {
    /// Makes an error of a call of the kernel.
    pub fn system(what: &'static str) -> impl Fn(io::Error) -> ServerError {
        move |cause| ServerError::System { what, cause }
    }
}

impl fmt::Display for ServerError {
    fn fmt(&self, formatter: &mut fmt::Formatter<'_>) -> fmt::Result {
        match self {
            ServerError::Usage => formatter.write_str(crate::command::USAGE),
            ServerError::NoTop => formatter.write_str("no folder with .redo here or above"),
            ServerError::NoLive => formatter.write_str("redodb-live is not found"),
            ServerError::File(error) => error.fmt(formatter),
            ServerError::System { what, cause } => write!(formatter, "{what}: {cause}"),
        }
    }
}

impl std::error::Error for ServerError {}

impl From<FileError> for ServerError {
    fn from(error: FileError) -> ServerError {
        ServerError::File(error)
    }
}

/// Why a server can't go on, as its clients are told.
#[derive(Debug)]
pub enum Failure {
    /// redodb-live can't be started.
    NotStarted(FileError),
    /// The first line of the program is this one.
    NoGreeting(Vec<u8>),
    /// It was asked for all that it knows, and this is its reply, or the beginning of that.
    NoNames(Vec<u8>),
    /// It has answered this line, which nobody asked for.
    Unasked(Vec<u8>),
    /// It has ended, and said why.
    Ended(String),
    /// A session can't be ended; the reply of the database says why.
    Session { session: Session, reply: Vec<u8> },
    /// The mark that a server runs can't be made.
    Mark(ServerError),
}

impl Failure {
    /// What redodb-live says if another one has its log.
    const IN_USE: &'static str = "in use";
    /// What it says if a line of its log isn't its answer.
    const DIFFERS: &'static str = " differs";
    /// What it says if the dump that its log begins with is damaged.
    const NO_STATE: &'static str = ": no state";

    /// Says whether another redodb-live has the log.
    pub fn is_log_in_use(&self) -> bool {
        matches!(self, Failure::Ended(said) if said.ends_with(Failure::IN_USE))
    }

    /// Says whether a line of the log is damaged, before which it can be cut.
    pub fn is_log_damaged(&self) -> bool {
        matches!(self, Failure::Ended(said) if said.ends_with(Failure::DIFFERS))
    }

    /// Says whether the dump of the log is damaged. Nothing can be kept of it.
    pub fn is_dump_damaged(&self) -> bool {
        matches!(self, Failure::Ended(said) if said.ends_with(Failure::NO_STATE))
    }
}

impl fmt::Display for Failure {
    fn fmt(&self, formatter: &mut fmt::Formatter<'_>) -> fmt::Result {
        match self {
            Failure::NotStarted(error) => {
                write!(formatter, "redodb-live can't be started: {error}")
            }
            Failure::NoGreeting(line) => {
                let line = line.escape_ascii();
                write!(formatter, "not the greeting of redodb-live: b'{line}'")
            }
            Failure::NoNames(reply) if is_of_older(reply) => {
                formatter.write_str("redodb-live is older than redo-server")
            }
            Failure::NoNames(reply) => {
                let reply = reply.escape_ascii();
                write!(formatter, "not what redodb-live knows: b'{reply}'")
            }
            Failure::Unasked(line) => {
                let line = line.escape_ascii();
                write!(formatter, "not an answer of redodb-live: b'{line}'")
            }
            Failure::Ended(said) => formatter.write_str(said),
            Failure::Session { session, reply } => {
                let reply = String::from_utf8_lossy(reply);
                write!(formatter, "session {session} can't be ended: {reply}")
            }
            Failure::Mark(error) => error.fmt(formatter),
        }
    }
}

/// Says whether a reply to `names` is that of a redodb-live without that question, or without the
/// session that asks. Any other one can be short of memory, and has no other fault.
fn is_of_older(reply: &[u8]) -> bool {
    reply.starts_with(b"fault ") && reply != b"fault memory"
}
