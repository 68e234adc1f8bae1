//! What `lstat` says of a file: while it stays the same, the file need not be read again.

use std::fmt;

use crate::system::{Folder, Kind, Status};

const MOST_DIGITS_OF_U64: usize = 19;

/// In nanoseconds.
const SECOND: i64 = 1_000_000_000;

/// A time in nanoseconds since 1970, before it or after. It takes 12 bytes, since a tree has many.
#[derive(Clone, Copy, Debug, PartialEq, Eq, PartialOrd, Ord)]
pub struct Time {
    /// The upper half of the seconds.
    high: i32,
    /// The lower half of the seconds.
    low: u32,
    /// Below 1,000,000,000.
    nanoseconds: u32,
}

impl Time {
    /// Returns the time so many seconds and nanoseconds after 1970.
    pub fn new(seconds: i64, nanoseconds: i64) -> Time {
        let seconds = seconds.saturating_add(nanoseconds.div_euclid(SECOND));
        Time {
            high: (seconds >> 32) as i32,
            low: seconds as u32,
            nanoseconds: nanoseconds.rem_euclid(SECOND) as u32,
        }
    }

    /// Returns the time so many nanoseconds after 1970, or the one next to it whose seconds have
    /// 64 bits.
    pub fn from_nanoseconds(nanoseconds: i128) -> Time {
        if let Ok(nanoseconds) = i64::try_from(nanoseconds) {
            return Time::new(0, nanoseconds);
        }
        let second = i128::from(SECOND);
        let far = if nanoseconds < 0 { i64::MIN } else { i64::MAX };
        let seconds = i64::try_from(nanoseconds.div_euclid(second)).unwrap_or(far);
        Time::new(seconds, nanoseconds.rem_euclid(second) as i64)
    }

    fn seconds(self) -> i64 {
        i64::from(self.high) << 32 | i64::from(self.low)
    }
}

impl fmt::Display for Time {
    fn fmt(&self, formatter: &mut fmt::Formatter<'_>) -> fmt::Result {
        let seconds = i128::from(self.seconds()) * i128::from(SECOND);
        (seconds + i128::from(self.nanoseconds)).fmt(formatter)
    }
}

/// What `lstat` says of a plain file or of a link itself.
#[derive(Clone, Copy, Debug, PartialEq, Eq)]
pub struct FileKey {
    /// In bytes.
    pub size: i64,
    /// When its content changed last.
    pub modified: Time,
    /// When anything of it changed last.
    pub changed: Time,
    /// Its number in its file system.
    pub inode: u64,
    /// The number of its file system.
    pub device: u64,
    /// Its kind and its rights.
    pub mode: u32,
}

/// The key under which a stamp was read.
#[derive(Clone, Debug, PartialEq, Eq)]
pub enum Key {
    /// A plain file.
    Plain(FileKey),
    /// A link, and the plain file that it leads to.
    Link(Box<LinkKey>),
}

/// The keys of a link and of the plain file that it leads to.
#[derive(Clone, Debug, PartialEq, Eq)]
pub struct LinkKey {
    /// The link.
    pub itself: FileKey,
    /// What it leads to.
    pub end: FileKey,
}

impl FileKey {
    /// Reads what `Display` writes, and returns it with the rest of the text.
    fn parse(text: &[u8]) -> Option<(FileKey, &[u8])> {
        let (size, rest) = number(text)?;
        let (modified, rest) = number(behind_dash(rest)?)?;
        let (changed, rest) = number(behind_dash(rest)?)?;
        let (inode, rest) = number(behind_dash(rest)?)?;
        let (device, rest) = number(behind_dash(rest)?)?;
        let (mode, rest) = number(behind_dash(rest)?)?;
        let key = FileKey {
            size: size.try_into().ok()?,
            modified: Time::from_nanoseconds(modified),
            changed: Time::from_nanoseconds(changed),
            inode: inode.try_into().ok()?,
            device: device.try_into().ok()?,
            mode: mode.try_into().ok()?,
        };
        Some((key, rest))
    }
}

impl From<&Status> for FileKey {
    fn from(status: &Status) -> FileKey {
        FileKey {
            size: status.size,
            modified: status.modified,
            changed: status.changed,
            inode: status.inode,
            device: status.device,
            mode: status.mode,
        }
    }
}

/// Six decimal numbers with `-` between them.
impl fmt::Display for FileKey {
    fn fmt(&self, formatter: &mut fmt::Formatter<'_>) -> fmt::Result {
        let FileKey {
            size,
            modified,
            changed,
            inode,
            device,
            mode,
        } = self;
        write!(
            formatter,
            "{size}-{modified}-{changed}-{inode}-{device}-{mode}"
        )
    }
}

impl Key {
    /// Returns the key of what is at a path now, or None if it is no plain file and no link to one.
    pub fn at(folder: &Folder, path: &[u8]) -> Option<Key> {
        let status = folder.lstat(path).ok()?;
        let itself = FileKey::from(&status);
        match status.kind() {
            Kind::Regular => Some(Key::Plain(itself)),
            Kind::Link => {
                let end = folder
                    .stat(path)
                    .ok()
                    .filter(|end| end.kind() == Kind::Regular)?;
                Some(Key::of_link(itself, FileKey::from(&end)))
            }
            _ => None,
        }
    }

    /// Returns the key of a link and of the plain file that it leads to.
    pub fn of_link(itself: FileKey, end: FileKey) -> Key {
        Key::Link(Box::new(LinkKey { itself, end }))
    }

    /// Says whether something is true of each file that the key is about.
    pub fn all(&self, holds: impl Fn(&FileKey) -> bool) -> bool {
        match self {
            Key::Plain(file) => holds(file),
            Key::Link(link) => holds(&link.itself) && holds(&link.end),
        }
    }

    /// Reads what `Display` writes, and nothing else.
    pub fn parse(text: &[u8]) -> Option<Key> {
        let (itself, rest) = FileKey::parse(text)?;
        if rest.is_empty() {
            return Some(Key::Plain(itself));
        }
        let (end, rest) = FileKey::parse(behind_dash(rest)?)?;
        rest.is_empty().then(|| Key::of_link(itself, end))
    }
}

/// The numbers of each file, with `-` between them.
impl fmt::Display for Key {
    fn fmt(&self, formatter: &mut fmt::Formatter<'_>) -> fmt::Result {
        match self {
            Key::Plain(file) => file.fmt(formatter),
            Key::Link(link) => write!(formatter, "{}-{}", link.itself, link.end),
        }
    }
}

/// Reads a decimal number, which may have a `-` before it, and returns it with the rest.
fn number(text: &[u8]) -> Option<(i128, &[u8])> {
    let is_negative = text.first() == Some(&b'-');
    let text = &text[usize::from(is_negative)..];
    let count = text.iter().take_while(|byte| byte.is_ascii_digit()).count();
    let (digits, rest) = text.split_at(count);
    let number = if digits.len() <= MOST_DIGITS_OF_U64 {
        short(digits)?
    } else {
        long(digits)?
    };
    Some((if is_negative { -number } else { number }, rest))
}

/// Reads so few digits that their number is below 2^64.
fn short(digits: &[u8]) -> Option<i128> {
    let number = digits
        .iter()
        .fold(0_u64, |number, digit| 10 * number + u64::from(digit - b'0'));
    (!digits.is_empty()).then_some(i128::from(number))
}

fn long(digits: &[u8]) -> Option<i128> {
    std::str::from_utf8(digits).ok()?.parse().ok()
}

fn behind_dash(text: &[u8]) -> Option<&[u8]> {
    text.strip_prefix(b"-")
}

#[cfg(test)]
mod tests {
    use super::*;

    fn key(size: i64, modified: i128) -> FileKey {
        let modified = Time::from_nanoseconds(modified);
        FileKey {
            size,
            modified,
            changed: Time::new(0, 3),
            inode: 4,
            device: 5,
            mode: 0o100644,
        }
    }

    #[test]
    fn a_key_is_six_numbers_of_each_file() {
        let plain = Key::Plain(key(1, -2));
        assert_eq!(plain.to_string(), "1--2-3-4-5-33188");
        let link = Key::of_link(key(1, 2), key(7, 8));
        assert_eq!(link.to_string(), "1-2-3-4-5-33188-7-8-3-4-5-33188");
        for key in [plain, link] {
            assert_eq!(Key::parse(key.to_string().as_bytes()), Some(key));
        }
    }

    #[test]
    fn a_text_that_is_no_key_has_none() {
        for text in [
            "",
            "1",
            "1-2-3-4-5",
            "1-2-3-4-5-",
            "1-2-3-4-5-6-",
            "1-2-3--4-5-6",
            "a",
        ] {
            assert_eq!(Key::parse(text.as_bytes()), None, "{text}");
        }
        assert_eq!(Key::parse(b"1-2-3-4-5-4294967296"), None);
        assert_eq!(
            Key::parse(b"99999999999999999999999999999999999999999-2-3-4-5-6"),
            None
        );
    }

    #[test]
    fn a_time_is_in_nanoseconds() {
        assert_eq!(Time::new(1, 5), Time::from_nanoseconds(1_000_000_005));
        assert_eq!(Time::new(-1, 5), Time::from_nanoseconds(-999_999_995));
        assert_eq!(
            Time::new(i64::MAX, 0).to_string(),
            "9223372036854775807000000000"
        );
    }
}
