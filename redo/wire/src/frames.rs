//! Frames: the length of a body, and the body.

use crate::error::WireError;

/// The first byte that a program sends, which no line of text begins with.
pub const OPENING: u8 = 0;

/// So many bytes has a body at most.
pub const MOST_BODY: usize = 4 << 20;

const HEAD: usize = 4;

const ROOM_KEPT: usize = 1 << 14;

/// What has come over a connection, and isn't read yet.
#[derive(Clone, Debug, Default)]
pub struct FrameBuffer {
    bytes: Vec<u8>,
    /// So many of the bytes are read.
    taken: usize,
}

impl FrameBuffer {
    /// Takes what came.
    pub fn push(&mut self, data: &[u8]) {
        self.bytes.drain(..self.taken);
        self.taken = 0;
        self.bytes.extend_from_slice(data);
    }

    /// Returns what has come, but for the frames that were taken.
    pub fn rest(&self) -> &[u8] {
        &self.bytes[self.taken..]
    }

    /// Passes over bytes; all of them, if there are fewer.
    pub fn skip(&mut self, count: usize) {
        self.taken = self.bytes.len().min(self.taken.saturating_add(count));
        if self.taken == self.bytes.len() {
            self.bytes.clear();
            self.bytes.shrink_to(ROOM_KEPT);
            self.taken = 0;
        }
    }

    /// Says whether a whole frame may be there. Then no more has to be read before it is taken.
    pub fn is_full(&self) -> bool {
        self.rest().len() >= HEAD + MOST_BODY
    }

    /// Takes the body of the next frame, if all of it is there. Fails if that frame is too long;
    /// nothing that follows can be read then.
    pub fn next_body(&mut self) -> Result<Option<Vec<u8>>, WireError> {
        let rest = self.rest();
        let length = match rest {
            [first, second, third, fourth, ..] => {
                u32::from_le_bytes([*first, *second, *third, *fourth])
            }
            _ => return Ok(None),
        };
        let length = usize::try_from(length).unwrap_or(usize::MAX);
        if length > MOST_BODY {
            return Err(WireError::TooLong(length));
        }
        let body = rest.get(HEAD..HEAD + length).map(<[u8]>::to_vec);
        if body.is_some() {
            self.skip(HEAD + length);
        }
        Ok(body)
    }
}
