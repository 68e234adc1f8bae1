//! The digest of what `redo-stamp` reads.

use std::io::{self, ErrorKind, Read};

use redo_files::sha256::Sha256;
use redo_wire::Digest;

const MOST_READ: usize = 1 << 16;

/// Returns the digest of standard input.
pub fn digest_of_input() -> io::Result<Digest> {
    digest_of(&mut io::stdin().lock())
}

fn digest_of(input: &mut impl Read) -> io::Result<Digest> {
    let mut hash = Sha256::new();
    let mut room = vec![0; MOST_READ];
    loop {
        match input.read(&mut room) {
            Ok(0) => return Ok(Digest(hash.end())),
            Ok(count) => hash.take(&room[..count]),
            Err(cause) if cause.kind() == ErrorKind::Interrupted => {}
            Err(cause) => return Err(cause),
        }
    }
}

#[cfg(test)]
mod tests {
    use super::*;
    use redo_files::sha256;

    /// Gives a text in pieces, each after an interruption.
    struct Interrupted<'a> {
        text: &'a [u8],
        is_next: bool,
    }

    impl Read for Interrupted<'_> {
        fn read(&mut self, room: &mut [u8]) -> io::Result<usize> {
            self.is_next = !self.is_next;
            if self.is_next {
                return Err(ErrorKind::Interrupted.into());
            }
            let most = room.len().min(1000);
            self.text.read(&mut room[..most])
        }
    }

    #[test]
    fn all_is_read_that_comes_in_pieces() {
        let text: Vec<u8> = (0..200_000).map(|place: u32| (place % 251) as u8).collect();
        let mut input = Interrupted {
            text: &text,
            is_next: false,
        };
        let digest = digest_of(&mut input).unwrap();
        assert_eq!(digest, Digest(sha256::digest(&text)));
    }

    #[test]
    fn what_can_not_be_read_is_an_error() {
        struct Broken;
        impl Read for Broken {
            fn read(&mut self, _: &mut [u8]) -> io::Result<usize> {
                Err(ErrorKind::BrokenPipe.into())
            }
        }
        assert!(digest_of(&mut Broken).is_err());
    }
}
