//! A connection to the server.

use std::io::{self, ErrorKind, Read, Write};
use std::os::unix::io::{AsRawFd, RawFd};
use std::os::unix::net::UnixStream;
use std::time::Duration;

use redo_wire::{FrameBuffer, ToProgram, ToServer, WireError, OPENING};

use crate::failure::Failure;
use crate::system;

const MOST_READ: usize = 1 << 14;
const GREETING: &[u8] = b"session ";
const FAULT: &[u8] = b"0 failed ";

/// A connection to the server.
#[derive(Debug)]
pub struct Link {
    socket: UnixStream,
    received: FrameBuffer,
    /// Whether a frame has come.
    is_met: bool,
}

impl Link {
    /// Begins to speak over a connection, with a first message.
    pub fn open(socket: UnixStream, first: &ToServer) -> Result<Link, Failure> {
        let mut link = Link {
            socket,
            received: FrameBuffer::default(),
            is_met: false,
        };
        let mut bytes = vec![OPENING];
        first.encode(&mut bytes)?;
        link.write(&bytes)?;
        Ok(link)
    }

    /// Sends a message. If the server is gone, that is found out by the next read.
    pub fn send(&mut self, message: &ToServer) -> Result<(), Failure> {
        let mut bytes = Vec::new();
        message.encode(&mut bytes)?;
        self.write(&bytes)
    }

    fn write(&mut self, bytes: &[u8]) -> Result<(), Failure> {
        match self.socket.write_all(bytes) {
            Err(cause) if is_end(&cause) => Ok(()),
            other => other.map_err(|cause| Failure::System { path: None, cause }),
        }
    }

    /// Returns the next message of what has come, if it is whole.
    pub fn taken(&mut self) -> Result<Option<ToProgram>, Failure> {
        match self.received.next_body() {
            Ok(None) => Ok(None),
            Ok(Some(body)) => {
                self.is_met = true;
                Ok(Some(ToProgram::decode(&body)?))
            }
            Err(_) if !self.is_met => self.line_passed(),
            Err(error) => Err(error.into()),
        }
    }

    /// Reads what has come, or waits for it. False if the server has ended.
    pub fn receive(&mut self) -> Result<bool, Failure> {
        let mut room = [0; MOST_READ];
        loop {
            match self.socket.read(&mut room) {
                Ok(count) => {
                    self.received.push(&room[..count]);
                    return Ok(count > 0);
                }
                Err(cause) if cause.kind() == ErrorKind::Interrupted => {}
                Err(cause) if is_end(&cause) => return Ok(false),
                Err(cause) => return Err(Failure::System { path: None, cause }),
            }
        }
    }

    /// Waits at most for this time for something to read, and says whether it came.
    pub fn wait(&self, time: Duration) -> Result<bool, Failure> {
        let came = redo_scripts::system::wait_readable(&[self.as_raw_fd()], Some(time));
        let came = came.map_err(|cause| Failure::System { path: None, cause })?;
        Ok(!came.is_empty())
    }

    /// Says whether the server hasn't read all that was sent.
    pub fn has_unread(&self) -> bool {
        system::has_unread(&self.socket)
    }

    /// Before it has read the first byte, a server greets a client by a line of text. That is
    /// passed over; but a line may also say that there is no database.
    fn line_passed(&mut self) -> Result<Option<ToProgram>, Failure> {
        let rest = self.received.rest();
        let end = match rest.iter().position(|byte| *byte == b'\n') {
            Some(end) => end,
            None => return Ok(None),
        };
        let line = &rest[..end];
        if let Some(text) = line.strip_prefix(FAULT) {
            return Err(Failure::Text(text.to_vec()));
        }
        if !line.starts_with(GREETING) {
            return Err(WireError::NoKind(line.first().copied().unwrap_or_default()).into());
        }
        self.received.skip(end + 1);
        self.taken()
    }
}

impl AsRawFd for Link {
    fn as_raw_fd(&self) -> RawFd {
        self.socket.as_raw_fd()
    }
}

fn is_end(cause: &io::Error) -> bool {
    matches!(
        cause.kind(),
        ErrorKind::BrokenPipe | ErrorKind::ConnectionReset
    )
}

#[cfg(test)]
mod tests {
    use super::*;

    fn link(sent: &[u8]) -> Link {
        let (near, mut far) = UnixStream::pair().unwrap();
        near.set_read_timeout(Some(Duration::from_secs(10)))
            .unwrap();
        far.write_all(sent).unwrap();
        Link::open(near, &ToServer::Close).unwrap()
    }

    fn next(link: &mut Link) -> Result<Option<ToProgram>, Failure> {
        loop {
            match link.taken()? {
                None if link.receive()? => {}
                other => return Ok(other),
            }
        }
    }

    fn frame(message: &ToProgram) -> Vec<u8> {
        let mut bytes = Vec::new();
        message.encode(&mut bytes).unwrap();
        bytes
    }

    #[test]
    fn a_greeting_is_passed_over() {
        let end = ToProgram::End { status: 0 };
        let mut link = link(&[b"session 12\n", frame(&end).as_slice()].concat());
        assert_eq!(next(&mut link).unwrap(), Some(end));
        assert_eq!(next(&mut link).unwrap(), None);
    }

    #[test]
    fn a_line_about_the_database_is_a_failure() {
        let failure = next(&mut link(b"0 failed log line 3: no hash\n")).unwrap_err();
        assert_eq!(failure.text().unwrap(), b"log line 3: no hash");
    }

    #[test]
    fn any_other_line_is_no_message() {
        let failure = next(&mut link(b"hello, world\n")).unwrap_err();
        assert!(matches!(failure, Failure::Wire(WireError::NoKind(b'h'))));
    }

    #[test]
    fn a_line_after_a_frame_is_no_message() {
        let text = frame(&ToProgram::Output(b"a".to_vec()));
        let mut link = link(&[text.as_slice(), b"session 1\n"].concat());
        assert!(next(&mut link).unwrap().is_some());
        assert!(matches!(
            next(&mut link),
            Err(Failure::Wire(WireError::TooLong(_)))
        ));
    }
}
