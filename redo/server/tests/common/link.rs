//! A connection to a server.

use std::io::{ErrorKind, Read, Write};
use std::os::unix::net::UnixStream;
use std::path::Path;
use std::time::Duration;

use redo_wire::{Call, FrameBuffer, ToProgram, ToServer, OPENING};

const LONGEST: Duration = Duration::from_secs(20);

/// A connection that speaks frames.
pub struct Link {
    pub socket: UnixStream,
    received: FrameBuffer,
}

impl Link {
    pub fn to(path: &Path) -> Link {
        let mut socket = UnixStream::connect(path).unwrap();
        socket.set_read_timeout(Some(LONGEST)).unwrap();
        socket.write_all(&[OPENING]).unwrap();
        Link {
            socket,
            received: FrameBuffer::default(),
        }
    }

    pub fn call(&mut self, call: Call) {
        send(&mut self.socket, &ToServer::Call(Box::new(call)));
    }

    /// The next message. None at the end of the connection.
    pub fn message(&mut self) -> Option<ToProgram> {
        loop {
            self.pass_greeting();
            if let Some(body) = self.received.next_body().unwrap() {
                return Some(ToProgram::decode(&body).unwrap());
            }
            let mut room = [0; 4096];
            match self.socket.read(&mut room) {
                Ok(0) => return None,
                Ok(count) => self.received.push(&room[..count]),
                Err(cause) if cause.kind() == ErrorKind::ConnectionReset => return None,
                Err(cause) if cause.kind() == ErrorKind::Interrupted => {}
                Err(cause) => panic!("{cause}"),
            }
        }
    }

    /// A server greets before it knows that a client speaks frames.
    fn pass_greeting(&mut self) {
        let rest = self.received.rest();
        if rest.starts_with(b"session ") {
            let end = rest.iter().position(|byte| *byte == b'\n').unwrap();
            self.received.skip(end + 1);
        }
    }
}

pub fn send(socket: &mut UnixStream, message: &ToServer) {
    let mut frame = Vec::new();
    message.encode(&mut frame).unwrap();
    let _ = socket.write_all(&frame); // a server that is gone is found out by a read
}
