//! A terminal for the standard error of a script, so that compilers keep their colours.
//!
//! It ends with the script: what that left in the background can't write to it any more. It has
//! nothing to read, like the script's standard input.

use std::fs::File;
use std::io::{ErrorKind, Read};
use std::os::unix::io::{AsRawFd, RawFd};

use crate::system;

const BLOCK: usize = 1 << 12;

/// A terminal that a script writes to, and that the run reads.
#[derive(Debug)]
pub struct ScriptTerminal {
    near: File,
    far: Option<File>,
    has_ended: bool,
}

impl ScriptTerminal {
    /// Opens one that is as large as the terminal of an open file.
    pub fn like(file: RawFd) -> std::io::Result<ScriptTerminal> {
        let size = system::window(file).ok_or_else(std::io::Error::last_os_error)?;
        let (near, far) = system::open_terminal(&size)?;
        Ok(ScriptTerminal {
            near: File::from(near),
            far: Some(File::from(far)),
            has_ended: false,
        })
    }

    /// Returns the end for the script, until that was started.
    pub fn far(&self) -> Option<RawFd> {
        self.far.as_ref().map(AsRawFd::as_raw_fd)
    }

    /// Leaves the far end to the script alone.
    pub fn started(&mut self) {
        self.far = None;
    }

    /// Returns what to wait for until there is something to read.
    pub fn descriptor(&self) -> Option<RawFd> {
        (!self.has_ended).then_some(self.near.as_raw_fd())
    }

    /// Returns all that was written by now. It doesn't wait.
    pub fn read(&mut self) -> Vec<u8> {
        let mut text = Vec::new();
        let mut block = [0; BLOCK];
        while !self.has_ended {
            match self.near.read(&mut block) {
                Ok(0) => self.has_ended = true,
                Ok(count) => text.extend_from_slice(&block[..count]),
                Err(cause) if cause.kind() == ErrorKind::WouldBlock => break,
                Err(cause) if cause.kind() == ErrorKind::Interrupted => {}
                Err(_) => self.has_ended = true, // nobody has the other end any more
            }
        }
        text
    }
}
