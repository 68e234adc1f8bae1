//! What programs tell the server.

use crate::call::Call;
use crate::error::WireError;
use crate::field::{Reader, Writer};

const CALL: u8 = 1;
const SLOT: u8 = 2;
const ENDED: u8 = 3;
const CLOSE: u8 = 4;

/// A message to the server.
#[derive(Clone, Debug, PartialEq, Eq)]
pub enum ToServer {
    /// How the program was called.
    Call(Box<Call>),
    /// A token of the jobserver has come, for one script more.
    Slot,
    /// The script of this task has ended. If it ended well (`ok`), what it made is in its place.
    Ended {
        /// That of [`Script`](crate::Script).
        task: u64,
        /// Whether the target is built.
        ok: bool,
        /// The stamp of what the script made, from before it was in its place: who edits that
        /// afterwards has edited the target. None if it made no file, or failed.
        stamp: Option<Vec<u8>>,
    },
    /// None of the run's scripts runs any more, and it is over.
    Close,
}

impl ToServer {
    /// Appends the message as a frame. Fails if it is too long; then nothing is appended.
    pub fn encode(&self, bytes: &mut Vec<u8>) -> Result<(), WireError> {
        let mut writer = Writer::new(bytes, self.kind());
        match self {
            ToServer::Call(call) => call.write(&mut writer),
            ToServer::Slot | ToServer::Close => {}
            ToServer::Ended { task, ok, stamp } => {
                writer.long_number(*task);
                writer.flag(*ok);
                writer.option(stamp.as_ref(), |writer, stamp| writer.text(stamp));
            }
        }
        writer.end()
    }

    /// Reads the body of a frame.
    pub fn decode(body: &[u8]) -> Result<ToServer, WireError> {
        let mut reader = Reader::new(body);
        let message = match reader.byte()? {
            CALL => ToServer::Call(Box::new(Call::read(&mut reader)?)),
            SLOT => ToServer::Slot,
            ENDED => ToServer::Ended {
                task: reader.long_number()?,
                ok: reader.flag()?,
                stamp: reader.option(Reader::text)?,
            },
            CLOSE => ToServer::Close,
            other => return Err(WireError::NoKind(other)),
        };
        reader.end(message)
    }

    fn kind(&self) -> u8 {
        match self {
            ToServer::Call(_) => CALL,
            ToServer::Slot => SLOT,
            ToServer::Ended { .. } => ENDED,
            ToServer::Close => CLOSE,
        }
    }
}
