//! A program that a script calls: one message to the server, and its answer.

use std::env;
use std::ffi::OsString;
use std::fs::OpenOptions;
use std::io;
use std::os::unix::ffi::OsStrExt;
use std::os::unix::fs::OpenOptionsExt;
use std::os::unix::io::AsRawFd;
use std::os::unix::net::UnixStream;
use std::process::ExitCode;

use redo_wire::{Program, ToServer};

use crate::asking::{call_of_process, print, Patience, Printed, Sign};
use crate::failure::{Failure, FAILED};
use crate::hashing;
use crate::link::Link;
use crate::text::{cause_of, complain};

/// The socket's place below the top of the tree.
const PLACE: &[u8] = b"/.redo/server/socket";
/// The path of a socket has at most so many bytes.
const MOST_PATH: usize = 107;

/// The script that calls.
#[derive(Debug)]
pub struct Caller {
    socket: OsString,
    task: u64,
}

impl Caller {
    /// Returns the script that calls this process, if one does: REDO_SOCKET has the socket of the
    /// server, and REDO_TASK the number of the script's task.
    pub fn of_process() -> Option<Caller> {
        Some(Caller {
            task: env::var_os("REDO_TASK")?.to_str()?.parse().ok()?,
            socket: env::var_os("REDO_SOCKET")?,
        })
    }

    fn connect(&self) -> io::Result<UnixStream> {
        if self.socket.len() <= MOST_PATH {
            return UnixStream::connect(&self.socket);
        }
        let mut options = OpenOptions::new();
        let place = options
            .read(true)
            .custom_flags(libc::O_PATH)
            .open(&self.socket)?;
        UnixStream::connect(format!("/proc/self/fd/{}", place.as_raw_fd()))
    }

    fn top(&self) -> &[u8] {
        let socket = self.socket.as_bytes();
        socket.strip_suffix(PLACE).unwrap_or(socket)
    }
}

/// Asks the server, prints what it says, and returns the status.
pub fn call(program: Program, words: Vec<Vec<u8>>, caller: &Caller) -> ExitCode {
    let status = asked(program, words, caller).unwrap_or_else(|failure| {
        if let Some(text) = failure.text() {
            complain(program, &text);
        }
        FAILED
    });
    ExitCode::from(status)
}

fn asked(program: Program, words: Vec<Vec<u8>>, caller: &Caller) -> Result<u8, Failure> {
    let content = match program {
        Program::Stamp => Some(hashing::digest_of_input()?),
        _ => None,
    };
    let call = call_of_process(program, words, Some(caller.task), content)?;
    let socket = caller.connect().map_err(|cause| {
        let text = format!(
            "the redo that runs this .do file can't be reached: {}",
            cause_of(&cause)
        );
        Failure::Text(text.into_bytes())
    })?;
    let mut link = Link::open(socket, &ToServer::Call(Box::new(call)))?;
    let mut patience = Patience::new(caller.top(), Sign::Unread);
    while let Some(message) = patience.next_message(&mut link)? {
        match print(message)? {
            Printed::Done => {}
            Printed::End(status) => return Ok(status),
            Printed::Other(_) => break,
        }
    }
    Err(Failure::Text(
        b"the redo that runs this .do file has ended".to_vec(),
    ))
}
