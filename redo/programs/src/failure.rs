//! What can go wrong, as it is said to people.

use std::io;

use redo_files::paths::shown;
use redo_files::FileError;
use redo_wire::options::UsageError;
use redo_wire::WireError;

use crate::text::{cause_of, USAGE};

/// The status of a program that failed.
pub const FAILED: u8 = 1;

/// Why a program fails.
#[derive(Debug)]
pub enum Failure {
    /// Its words are wrong; the text says how.
    Usage(Vec<u8>),
    /// Something is wrong with a file or a tree.
    File(FileError),
    /// A call of the kernel failed, for a path if that is known.
    System {
        /// The path that it was about.
        path: Option<Vec<u8>>,
        /// Why it failed.
        cause: io::Error,
    },
    /// The server of a tree can't be reached.
    Unreachable {
        /// The top of the tree.
        top: Vec<u8>,
        /// Why not.
        cause: io::Error,
    },
    /// The text says why: of a server that did not begin or that ends, or of a file.
    Text(Vec<u8>),
    /// The connection to the server has ended.
    Ended,
    /// What the server sends is no message.
    Wire(WireError),
    /// Nobody reads what is printed.
    Unread,
}

impl Failure {
    /// Returns what is said of it, without the program's name; None if nobody would read it.
    pub fn text(&self) -> Option<Vec<u8>> {
        match self {
            Failure::Usage(text) | Failure::Text(text) => Some(text.clone()),
            Failure::File(FileError::System { path, cause }) => Some(about(Some(path), cause)),
            Failure::File(error) => Some(error.text()),
            Failure::System { path, cause } => Some(about(path.as_deref(), cause)),
            Failure::Unreachable { top, cause } => {
                let why = format!(" can't be reached: {}", cause_of(cause));
                Some([b"the server of ", shown(top).as_slice(), why.as_bytes()].concat())
            }
            Failure::Ended => Some(b"the server has ended".to_vec()),
            Failure::Wire(error) => Some(format!("not a message of the server: {error}").into()),
            Failure::Unread => None,
        }
    }

    /// Returns the status of a program that fails so.
    pub fn status(&self) -> u8 {
        match self {
            Failure::Usage(_) => USAGE,
            _ => FAILED,
        }
    }
}

fn about(path: Option<&[u8]>, cause: &io::Error) -> Vec<u8> {
    let cause = cause_of(cause);
    match path {
        Some(path) => [shown(path).as_slice(), b": ", cause.as_bytes()].concat(),
        None => cause.into_bytes(),
    }
}

impl From<UsageError> for Failure {
    fn from(error: UsageError) -> Failure {
        Failure::Usage(error.text())
    }
}

impl From<FileError> for Failure {
    fn from(error: FileError) -> Failure {
        Failure::File(error)
    }
}

impl From<WireError> for Failure {
    fn from(error: WireError) -> Failure {
        Failure::Wire(error)
    }
}

impl From<io::Error> for Failure {
    fn from(cause: io::Error) -> Failure {
        if cause.kind() == io::ErrorKind::BrokenPipe {
            return Failure::Unread;
        }
        Failure::System { path: None, cause }
    }
}
