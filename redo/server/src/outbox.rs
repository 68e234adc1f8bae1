//! What is to be written to the other side, and can't be yet.

use std::io::{self, ErrorKind, Write};

/// With so many unsent bytes the other side is stuffed.
const MOST_UNSENT: usize = 1 << 16;
/// With so few it isn't any more.
const FEW_UNSENT: usize = 1 << 14;

/// Bytes that wait to be written, in their order.
#[derive(Debug, Default)]
pub struct Outbox {
    bytes: Vec<u8>,
    /// So many of the bytes are written.
    sent: usize,
    is_stuffed: bool,
}

/// How an outbox is after bytes were written.
#[derive(Clone, Copy, Debug, PartialEq, Eq)]
pub enum Change {
    /// Not stuffed, as before.
    Free,
    /// Stuffed, as before.
    Stuffed,
    /// Stuffed from now on.
    BecameStuffed,
    /// Free again from now on.
    BecameFree,
}

impl Outbox {
    pub fn push(&mut self, data: &[u8]) {
        self.bytes.extend_from_slice(data);
    }

    /// How many bytes aren't written.
    pub fn unsent(&self) -> usize {
        self.bytes.len() - self.sent
    }

    pub fn is_empty(&self) -> bool {
        self.unsent() == 0
    }

    pub fn is_stuffed(&self) -> bool {
        self.is_stuffed
    }

    /// Drops what isn't written.
    pub fn clear(&mut self) {
        self.bytes = Vec::new();
        self.sent = 0;
    }

    /// Writes what goes without waiting. Fails if the other side has ended.
    pub fn flush(&mut self, writer: &mut impl Write) -> io::Result<Change> {
        while !self.is_empty() {
            match writer.write(&self.bytes[self.sent..]) {
                Ok(0) => break,
                Ok(count) => self.sent += count,
                Err(cause) if cause.kind() == ErrorKind::WouldBlock => break,
                Err(cause) if cause.kind() == ErrorKind::Interrupted => {}
                Err(cause) => return Err(cause),
            }
        }
        self.forget_sent();
        Ok(self.change())
    }

    fn forget_sent(&mut self) {
        if self.is_empty() {
            self.bytes.clear();
            self.bytes.shrink_to(FEW_UNSENT);
            self.sent = 0;
        } else if self.sent > MOST_UNSENT && self.sent > self.bytes.len() / 2 {
            self.bytes.drain(..self.sent);
            self.sent = 0;
        }
    }

    fn change(&mut self) -> Change {
        let was_stuffed = self.is_stuffed;
        self.is_stuffed = match self.unsent() {
            unsent if unsent > MOST_UNSENT => true,
            unsent if unsent <= FEW_UNSENT => false,
            _ => was_stuffed,
        };
        match (was_stuffed, self.is_stuffed) {
            (false, false) => Change::Free,
            (true, true) => Change::Stuffed,
            (false, true) => Change::BecameStuffed,
            (true, false) => Change::BecameFree,
        }
    }
}

#[cfg(test)]
mod tests {
    use super::*;

    /// A writer that takes so many bytes, and then none for now.
    struct Room(usize, Vec<u8>);

    impl Write for Room {
        fn write(&mut self, data: &[u8]) -> io::Result<usize> {
            let count = data.len().min(self.0);
            if count == 0 {
                return Err(ErrorKind::WouldBlock.into());
            }
            self.0 -= count;
            self.1.extend_from_slice(&data[..count]);
            Ok(count)
        }

        fn flush(&mut self) -> io::Result<()> {
            Ok(())
        }
    }

    #[test]
    fn bytes_are_written_in_their_order() {
        let (mut outbox, mut writer) = (Outbox::default(), Room(5, Vec::new()));
        outbox.push(b"first ");
        outbox.push(b"second");
        assert_eq!(outbox.flush(&mut writer).unwrap(), Change::Free);
        assert_eq!(outbox.unsent(), 7);
        outbox.push(b" third");
        writer.0 = 100;
        assert_eq!(outbox.flush(&mut writer).unwrap(), Change::Free);
        assert_eq!(writer.1, b"first second third");
        assert!(outbox.is_empty());
    }

    #[test]
    fn an_outbox_is_stuffed_until_little_is_unsent() {
        let (mut outbox, mut writer) = (Outbox::default(), Room(0, Vec::new()));
        outbox.push(&[b'a'; MOST_UNSENT]);
        assert_eq!(outbox.flush(&mut writer).unwrap(), Change::Free);
        outbox.push(b"a");
        assert_eq!(outbox.flush(&mut writer).unwrap(), Change::BecameStuffed);
        writer.0 = MOST_UNSENT - FEW_UNSENT;
        assert_eq!(outbox.flush(&mut writer).unwrap(), Change::Stuffed);
        writer.0 = 1;
        assert_eq!(outbox.flush(&mut writer).unwrap(), Change::BecameFree);
        assert_eq!(outbox.unsent(), FEW_UNSENT);
    }

    #[test]
    fn the_end_of_the_other_side_is_an_error() {
        struct Ended;

        impl Write for Ended {
            fn write(&mut self, _: &[u8]) -> io::Result<usize> {
                Err(ErrorKind::BrokenPipe.into())
            }

            fn flush(&mut self) -> io::Result<()> {
                Ok(())
            }
        }
        let mut outbox = Outbox::default();
        assert!(outbox.flush(&mut Ended).is_ok());
        outbox.push(b"a");
        assert!(outbox.flush(&mut Ended).is_err());
    }
}
