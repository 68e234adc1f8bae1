//! The stamp of a file: what the database compares to see whether a file changed.

use std::fmt;

use blake2b_simd::{Params, State};

const TAG: &[u8] = b"b2-";
const FOLDER: &[u8] = b"folder";
const DIGEST_BYTES: usize = 28;

/// What is at a path.
#[derive(Clone, Copy, Debug, PartialEq, Eq, Hash)]
pub enum Stamp {
    /// A folder, whatever is in it. It is written `folder`.
    Folder,
    /// Anything else: `b2-` and its digest, in hexadecimal digits.
    Digest(Digest),
}

/// A BLAKE2b digest of 28 bytes.
#[derive(Clone, Copy, Debug, PartialEq, Eq, Hash)]
pub struct Digest([u8; DIGEST_BYTES]);

impl Digest {
    /// Returns the digest of these bytes; None if there are others than 28.
    pub fn from_bytes(bytes: &[u8]) -> Option<Digest> {
        bytes.try_into().ok().map(Digest)
    }

    /// Its bytes.
    pub fn bytes(&self) -> &[u8; DIGEST_BYTES] {
        &self.0
    }
}

/// A digest of bytes that come one after the other.
#[derive(Clone, Debug)]
pub struct Digesting(State);

impl Stamp {
    /// Returns the stamp of what is told by these bytes.
    pub fn of(told: &[u8]) -> Stamp {
        let mut digesting = Digesting::new();
        digesting.update(told);
        digesting.stamp()
    }

    /// Reads what `Display` writes. There are other stamps in a database: those of files that
    /// somebody else reported.
    pub fn parse(text: &[u8]) -> Option<Stamp> {
        if text == FOLDER {
            return Some(Stamp::Folder);
        }
        let digits = text
            .strip_prefix(TAG)
            .filter(|digits| digits.len() == 2 * DIGEST_BYTES)?;
        let mut bytes = [0; DIGEST_BYTES];
        for (byte, pair) in bytes.iter_mut().zip(digits.chunks_exact(2)) {
            *byte = digit(pair[0])? << 4 | digit(pair[1])?;
        }
        Some(Stamp::Digest(Digest(bytes)))
    }
}

impl fmt::Display for Stamp {
    fn fmt(&self, formatter: &mut fmt::Formatter<'_>) -> fmt::Result {
        match self {
            Stamp::Folder => formatter.write_str("folder"),
            Stamp::Digest(Digest(bytes)) => write!(formatter, "b2-{}", Hexadecimal(bytes)),
        }
    }
}

impl Digesting {
    /// Nothing was told yet.
    pub fn new() -> Digesting {
        Digesting(Params::new().hash_length(DIGEST_BYTES).to_state())
    }

    /// Tells more bytes.
    pub fn update(&mut self, told: &[u8]) {
        self.0.update(told);
    }

    /// Returns the stamp of what was told.
    pub fn stamp(&self) -> Stamp {
        let mut bytes = [0; DIGEST_BYTES];
        bytes.copy_from_slice(self.0.finalize().as_bytes());
        Stamp::Digest(Digest(bytes))
    }
}

impl Default for Digesting {
    fn default() -> Digesting {
        Digesting::new()
    }
}

/// Bytes, written as two digits each, `0` to `9` and `a` to `f`.
struct Hexadecimal<'a>(&'a [u8]);

impl fmt::Display for Hexadecimal<'_> {
    fn fmt(&self, formatter: &mut fmt::Formatter<'_>) -> fmt::Result {
        const DIGITS: &[u8; 16] = b"0123456789abcdef";
        let digit = |number: u8| char::from(DIGITS[usize::from(number)]);
        let digits = self.0.iter().map(|byte| [byte >> 4, byte & 15]);
        // at once: a server writes one for each name when it starts
        formatter.write_str(&digits.flatten().map(digit).collect::<String>())
    }
}

fn digit(byte: u8) -> Option<u8> {
    match byte {
        b'0'..=b'9' => Some(byte - b'0'),
        b'a'..=b'f' => Some(byte - b'a' + 10),
        _ => None,
    }
}

#[cfg(test)]
mod tests {
    use super::*;

    /// `printf 'file 0\0' | b2sum -l 224` of coreutils prints it: an empty file.
    const EMPTY_FILE: &str = "6dc621987d9986a6f40faa3b0c2b26567c448945b5474762230aa99a";

    #[test]
    fn a_stamp_is_the_digest_of_what_is_told() {
        assert_eq!(
            Stamp::of(b"file 0\0").to_string(),
            format!("b2-{EMPTY_FILE}")
        );
    }

    #[test]
    fn a_stamp_is_read_as_it_is_written() {
        for stamp in [Stamp::Folder, Stamp::of(b""), Stamp::of(b"1")] {
            assert_eq!(Stamp::parse(stamp.to_string().as_bytes()), Some(stamp));
        }
        let upper = Stamp::of(b"").to_string().to_uppercase();
        for text in ["", "b2-", "b2-00", "Folder", "10", &upper] {
            assert_eq!(Stamp::parse(text.as_bytes()), None, "{text}");
        }
    }
}
