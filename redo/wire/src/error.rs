//! What can be wrong with a message.

use std::fmt;

use crate::frames::MOST_BODY;
use crate::VERSION;

/// What is wrong with the bytes of a message, or with a message that has to become bytes.
#[derive(Clone, Copy, Debug, PartialEq, Eq)]
pub enum WireError {
    /// The body of a frame has so many bytes, more than [`MOST_BODY`].
    TooLong(usize),
    /// The body ends within a field.
    Short,
    /// So many bytes follow the last field.
    Rest(usize),
    /// This byte is no kind of a message.
    NoKind(u8),
    /// This byte is the number of no program.
    NoProgram(u8),
    /// This byte is the number of nothing to say.
    NoSay(u8),
    /// This byte is neither 0 for no, nor 1 for yes.
    NoFlag(u8),
    /// The other side speaks another version.
    OtherVersion(u32),
}

impl fmt::Display for WireError {
    fn fmt(&self, formatter: &mut fmt::Formatter<'_>) -> fmt::Result {
        match self {
            WireError::TooLong(bytes) => {
                write!(formatter, "a message of {bytes} bytes, over {MOST_BODY}")
            }
            WireError::Short => formatter.write_str("a message that ends too early"),
            WireError::Rest(bytes) => {
                write!(formatter, "a message with {bytes} bytes behind its end")
            }
            WireError::NoKind(byte) => write!(formatter, "no kind of message: {byte}"),
            WireError::NoProgram(byte) => write!(formatter, "no program: {byte}"),
            WireError::NoSay(byte) => write!(formatter, "nothing to say: {byte}"),
            WireError::NoFlag(byte) => write!(formatter, "neither yes nor no: {byte}"),
            WireError::OtherVersion(version) => {
                write!(
                    formatter,
                    "version {version} of the messages, not {VERSION}"
                )
            }
        }
    }
}

impl std::error::Error for WireError {}
