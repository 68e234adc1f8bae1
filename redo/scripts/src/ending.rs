//! How builds end, and what is said of it.

use std::io;

use redo_files::error::FileError;
use redo_files::stamp::Stamp;

use crate::folder::NotReplaced;
use crate::program::Exit;
use crate::script::ScriptError;
use crate::text::{cause_of, shown};

/// How a build ended.
#[derive(Debug)]
pub enum Ending {
    /// The target is right. The stamp is that of its file, if it has one; `said` has what there is
    /// to say all the same.
    Built {
        stamp: Option<Stamp>,
        said: Vec<Vec<u8>>,
    },
    /// The target is as it was.
    Failed(Failure),
}

/// Why a build failed.
#[derive(Debug)]
pub enum Failure {
    /// The script ended so.
    Script(Exit),
    /// The run was to end while the script ran.
    Stopped,
    /// A file that is there already, by its path as it is shown, has the name of an output.
    InTheWay(Vec<u8>),
    /// The script of this name wrote `$1` itself.
    WroteTarget(Vec<u8>),
    /// The script of this name wrote to standard output, and made `$3`.
    WroteTwice(Vec<u8>),
    /// What the script made can't become the target; the text says why.
    CantInstall(Vec<u8>),
    CantRun(ScriptError),
}

impl Failure {
    /// Returns what is said of it, line by line.
    pub fn lines(&self) -> Vec<Vec<u8>> {
        let line = |parts: &[&[u8]]| parts.concat();
        match self {
            Failure::Script(exit) => vec![exit.to_string().into_bytes()],
            Failure::Stopped => vec![b"stopped with the run".to_vec()],
            Failure::InTheWay(path) => {
                vec![line(&[&shown(path), b" is in the way: move it"])]
            }
            Failure::WroteTarget(script) => vec![
                line(&[script, b" wrote $1 itself"]),
                b"it has to write $3, which becomes the target, or standard output".to_vec(),
            ],
            Failure::WroteTwice(script) => vec![
                line(&[script, b" wrote to standard output and made $3"]),
                b"what isn't the target belongs on standard error".to_vec(),
            ],
            Failure::CantInstall(text) => vec![text.clone()],
            Failure::CantRun(error) => vec![error.text()],
        }
    }

    /// Returns a word or two of it, for a summary.
    pub fn in_short(&self) -> Vec<u8> {
        match self {
            Failure::Script(exit) => exit.to_string().into_bytes(),
            _ => b"failed".to_vec(),
        }
    }

    /// Returns the status that a log has for it; a negative one is that of a signal.
    pub fn status(&self) -> i32 {
        match self {
            Failure::Script(Exit::Status(status)) => *status,
            Failure::Script(Exit::Signal(signal)) => -signal,
            Failure::CantRun(_) => 127,
            Failure::Stopped => 130,
            Failure::WroteTarget(_) => 206,
            Failure::WroteTwice(_) => 207,
            Failure::CantInstall(_) | Failure::InTheWay(_) => 209,
        }
    }
}

impl From<io::Error> for Failure {
    fn from(cause: io::Error) -> Failure {
        Failure::CantInstall(cause_of(&cause).into_bytes())
    }
}

impl From<NotReplaced> for Failure {
    fn from(cause: NotReplaced) -> Failure {
        Failure::CantInstall(cause.text())
    }
}

impl From<FileError> for Failure {
    fn from(cause: FileError) -> Failure {
        Failure::CantInstall(cause.text())
    }
}

impl From<ScriptError> for Failure {
    fn from(error: ScriptError) -> Failure {
        Failure::CantRun(error)
    }
}
