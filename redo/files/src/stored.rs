//! The file `.redo/stamps`: stamps that outlast the server, with the keys under which they were
//! read.
//!
//! The first line is `redodb-stamps 1 BOOT`. Then comes a line `KEY STAMP NAME` for each file, and
//! at last `end DIGEST`, the digest of all bytes before that line: BLAKE2b of 16 bytes. A file that
//! is damaged, or of another boot of the machine, has nothing.

use std::fmt;
use std::io::Write;

use blake2b_simd::Params;

use crate::key::Key;
use crate::names;
use crate::stamp::Stamp;

const HEADER: &[u8] = b"redodb-stamps 1 ";
const END: &[u8] = b"end ";
const DIGEST_BYTES: usize = 16;

/// A stamp that was found, and the key under which it was.
#[derive(Clone, Debug, PartialEq, Eq)]
pub struct Kept {
    /// The key.
    pub key: Key,
    /// The stamp.
    pub stamp: Stamp,
}

/// Returns the paths of a stored text, with what is kept of each: none if the text isn't whole, or
/// of another boot. Lines that this program can't read are passed over.
pub fn parse(text: &[u8], boot: &[u8]) -> Vec<(Vec<u8>, Kept)> {
    match whole_lines(text, boot) {
        Some(lines) => lines
            .split(|byte| *byte == b'\n')
            .filter_map(parse_line)
            .collect(),
        None => Vec::new(),
    }
}

/// Returns the text to be stored of paths, with what is kept of each. Those whose names would be
/// too long are passed over.
pub fn text<'a>(boot: &[u8], entries: impl Iterator<Item = (&'a [u8], &'a Kept)>) -> Vec<u8> {
    let mut text = [HEADER, boot, b"\n"].concat();
    for (path, kept) in entries {
        if let Ok(name) = names::escape(path) {
            put(&mut text, format_args!("{} {} ", kept.key, kept.stamp));
            text.extend_from_slice(&name);
            text.push(b'\n');
        }
    }
    let end = digest(&text);
    put(&mut text, format_args!("end {end}\n"));
    text
}

/// Returns the lines of a text that is whole and of this boot, without the first and the last.
fn whole_lines<'a>(text: &'a [u8], boot: &[u8]) -> Option<&'a [u8]> {
    let last = text
        .strip_suffix(b"\n")?
        .rsplit(|byte| *byte == b'\n')
        .next()?;
    let body = &text[..text.len() - last.len() - 1];
    if last.strip_prefix(END)? != digest(body).as_bytes() {
        return None;
    }
    body.strip_prefix(HEADER)?
        .strip_prefix(boot)?
        .strip_prefix(b"\n")
}

fn parse_line(line: &[u8]) -> Option<(Vec<u8>, Kept)> {
    let mut words = line.split(|byte| *byte == b' ');
    let (key, stamp, name) = (words.next()?, words.next()?, words.next()?);
    let kept = Kept {
        key: Key::parse(key)?,
        stamp: Stamp::parse(stamp)?,
    };
    Some((names::unescape(name).ok()?.into_owned(), kept))
}

fn digest(text: &[u8]) -> String {
    Params::new()
        .hash_length(DIGEST_BYTES)
        .hash(text)
        .to_hex()
        .to_string()
}

/// Adds to a text, which can't fail.
fn put(text: &mut Vec<u8>, more: fmt::Arguments<'_>) {
    text.write_fmt(more)
        .expect("a vector takes all that is written");
}

#[cfg(test)]
mod tests {
    use super::*;
    use crate::key::{FileKey, Time};

    const BOOT: &[u8] = b"this-boot";

    fn kept(size: i64) -> Kept {
        let changed = Time::from_nanoseconds(3);
        let modified = Time::from_nanoseconds(2);
        let key = FileKey {
            size,
            modified,
            changed,
            inode: 4,
            device: 5,
            mode: 0o100644,
        };
        Kept {
            key: Key::Plain(key),
            stamp: Stamp::of(b""),
        }
    }

    fn stored() -> (Vec<(Vec<u8>, Kept)>, Vec<u8>) {
        let entries = vec![
            (b"a b".to_vec(), kept(1)),
            (b"%\xff\n".to_vec(), kept(2)),
            (b"../c".to_vec(), kept(3)),
        ];
        let text = text(
            BOOT,
            entries.iter().map(|(path, kept)| (path.as_slice(), kept)),
        );
        (entries, text)
    }

    #[test]
    fn a_text_is_read_as_it_is_written() {
        let (entries, text) = stored();
        assert_eq!(parse(&text, BOOT), entries);
        assert!(text.starts_with(b"redodb-stamps 1 this-boot\n1-2-3-4-5-33188 b2-"));
        let lines: Vec<&[u8]> = text.split(|byte| *byte == b'\n').collect();
        assert!(lines[2].ends_with(b" %25%FF%0A"));
        assert_eq!(lines[4].len(), "end ".len() + 32);
    }

    /// `printf 'redodb-stamps 1 b\n' | b2sum -l 128` of coreutils prints the digest.
    #[test]
    fn a_text_without_files_has_two_lines() {
        let wanted = b"redodb-stamps 1 b\nend 5eb92460e0bac64c36d71051fcb9f45d\n";
        assert_eq!(text(b"b", std::iter::empty()), wanted);
    }

    #[test]
    fn a_text_of_another_boot_has_nothing() {
        let (_, text) = stored();
        for boot in [b"another".as_slice(), b"this", b"this-boot2", b""] {
            assert!(parse(&text, boot).is_empty());
        }
    }

    #[test]
    fn a_damaged_text_has_nothing() {
        let (_, text) = stored();
        for at in 0..text.len() {
            assert!(parse(&text[..at], BOOT).is_empty(), "cut at {at}");
            let mut changed = text.clone();
            changed[at] ^= 1;
            assert!(parse(&changed, BOOT).is_empty(), "changed at {at}");
        }
    }
}
