// A history, as it is read.
use crate::lines::{Command, Line, Listing, Part, Reply, Stamp};
use crate::names::{Names, MOST_NAMES};
use crate::sha1::sha1;
use std::num::NonZeroU8;

pub struct History<'a> {
    pub text: &'a [u8],
    pub names: Names<'a>,
    pub lines: Vec<Line>,
    // the names in all lists
    pub listed: Vec<u32>,
    pub digests: Vec<[u8; 20]>,
    at: usize,
}

// up to eight bytes as a number
const fn key(word: &[u8]) -> u64 {
    let mut key = 0;
    let mut at = 0;
    while at < word.len() && at < 8 {
        key = key << 8 | word[at] as u64;
        at += 1;
    }
    key
}

// the visible bytes that a text begins with
fn visible(text: &[u8]) -> &[u8] {
    let end = text.iter().position(|byte| !(33..=126).contains(byte));
    &text[..end.unwrap_or(text.len())]
}

// a number above 0, with no leading zero
fn number_of(word: &[u8]) -> Option<u32> {
    if word.is_empty() || word[0] == b'0' {
        return None;
    }
    word.iter().try_fold(0u32, |number, byte| {
        let digit = byte.is_ascii_digit().then(|| u32::from(byte - b'0'))?;
        number.checked_mul(10)?.checked_add(digit)
    })
}

fn digit_of(byte: u8) -> Option<u8> {
    char::from(byte).to_digit(16).map(|digit| digit as u8)
}

fn bytes_of(digits: &[u8]) -> Option<Vec<u8>> {
    let (twos, rest) = digits.as_chunks::<2>();
    let is_even = rest.is_empty() && !twos.is_empty();
    is_even.then(|| twos.iter().map(|[a, b]| Some(digit_of(*a)? << 4 | digit_of(*b)?)).collect())?
}

impl<'a> History<'a> {
    fn passes(&mut self, text: &[u8]) -> Option<()> {
        let is_next = self.is_next(text);
        self.at += if is_next { text.len() } else { 0 };
        is_next.then_some(())
    }

    fn word(&mut self) -> &'a [u8] {
        let word = visible(&self.text[self.at..]);
        self.at += word.len();
        word
    }

    fn next_word(&mut self) -> Option<&'a [u8]> {
        self.passes(b" ")?;
        Some(self.word())
    }

    fn name(&mut self) -> Option<u32> {
        let word = self.next_word()?;
        self.names.add(word, MOST_NAMES)
    }

    fn is_next(&self, text: &[u8]) -> bool {
        self.text[self.at..].starts_with(text)
    }

    // names up to what doesn't begin with a space, or to the arrow
    fn names(&mut self) -> Option<Part> {
        let from = self.listed.len();
        while self.is_next(b" ") && !self.is_next(b" => ") {
            let name = self.name()?;
            self.listed.push(name);
        }
        Some(Part { at: from as u32, len: (self.listed.len() - from) as u32 })
    }

    fn names_behind(&mut self) -> Option<(u32, Part)> {
        let target = self.name()?;
        let names = self.names()?;
        (1..=64).contains(&names.len).then_some((target, names))
    }

    fn stamp(&mut self) -> Option<Stamp> {
        let word = self.next_word()?;
        let len = NonZeroU8::new(word.len().try_into().ok()?)?;
        let is_stamp = word.len() <= 64 && word != b"-" && word != b"=>";
        is_stamp.then_some(Stamp { at: (self.at - word.len()) as u32, len })
    }

    fn done_stamp(&mut self) -> Option<Option<Stamp>> {
        if self.is_next(b" - ") {
            self.at += 2;
            return Some(None);
        }
        self.stamp().map(Some)
    }

    fn digest_of_content(&mut self) -> Option<u32> {
        let word = self.next_word()?;
        let content = if word == b"-" { Vec::new() } else { bytes_of(word)? };
        self.digests.push(sha1(&content));
        Some(self.digests.len() as u32 - 1)
    }

    fn command(&mut self) -> Option<Command> {
        const FILE: u64 = key(b"file");
        const GONE: u64 = key(b"gone");
        const LOCK: u64 = key(b"lock");
        const UNLOCK: u64 = key(b"unlock");
        const START: u64 = key(b"start");
        const IFCHANGE: u64 = key(b"ifchange");
        const IFCREATE: u64 = key(b"ifcreate");
        const ALWAYS: u64 = key(b"always");
        const STAMP: u64 = key(b"stamp");
        const DONE: u64 = key(b"done");
        const FAILED: u64 = key(b"failed");
        const OOD: u64 = key(b"ood");
        const TARGETS: u64 = key(b"targets");
        const SOURCES: u64 = key(b"sources");
        let word = self.word();
        if word.len() > 8 {
            return None;
        }
        Some(match key(word) {
            FILE => Command::File(self.name()?, self.stamp()?),
            GONE => Command::Gone(self.name()?),
            LOCK => Command::Lock(self.name()?),
            UNLOCK => Command::Unlock(self.name()?),
            START => Command::Start(self.name()?),
            IFCHANGE => self.names_behind().map(|(t, names)| Command::IfChange(t, names))?,
            IFCREATE => self.names_behind().map(|(t, names)| Command::IfCreate(t, names))?,
            ALWAYS => Command::Always(self.name()?),
            STAMP => Command::Stamp(self.name()?, self.digest_of_content()?),
            DONE => Command::Done(self.name()?, self.done_stamp()?),
            FAILED => Command::Failed(self.name()?),
            OOD => Command::Ood,
            TARGETS => Command::Targets,
            SOURCES => Command::Sources,
            _ => return None,
        })
    }

    fn grant(&mut self) -> Option<u32> {
        self.next_word().and_then(number_of)
    }

    fn digest(&mut self) -> Option<u32> {
        let word = self.next_word()?;
        let is_digest = word.len() == 40 && !word.iter().any(u8::is_ascii_uppercase);
        let bytes = is_digest.then(|| bytes_of(word))??;
        self.digests.push(bytes.try_into().ok()?);
        Some(self.digests.len() as u32 - 1)
    }

    fn refusal(&mut self) -> Option<Reply> {
        Some(match self.next_word()? {
            b"not-locked" => Reply::NotLocked,
            b"building" => Reply::Building,
            b"not-building" => Reply::NotBuilding,
            b"self" => Reply::Itself,
            b"exists" => Reply::Exists(self.name()?),
            _ => return None,
        })
    }

    fn reply(&mut self) -> Option<Reply> {
        Some(match self.word() {
            b"ok" => Reply::Okay,
            b"granted" => Reply::Granted(self.grant()?),
            b"busy" => Reply::Busy(self.grant()?),
            b"stamped" => Reply::Stamped(self.digest()?),
            b"stale" => {
                let names = self.names().filter(|names| names.len > 0)?;
                Reply::Listed(Listing::Stale, names)
            }
            b"ood" => Reply::Listed(Listing::Ood, self.names()?),
            b"targets" => Reply::Listed(Listing::Targets, self.names()?),
            b"sources" => Reply::Listed(Listing::Sources, self.names()?),
            b"refused" => self.refusal()?,
            _ => return None,
        })
    }

    fn line(&mut self) -> Option<Line> {
        let session = number_of(self.word()).filter(|session| *session <= 64)? as u16;
        self.passes(b" ")?;
        let from = self.at;
        let command = self.command()?;
        if self.at - from > 8192 {
            return None;
        }
        self.passes(b" => ")?;
        let reply = self.reply()?;
        self.passes(b"\n")?;
        Some(Line { session, command, reply })
    }

    fn header(&mut self) -> Option<usize> {
        self.passes(b"history ")?;
        let word = self.word();
        let count = if word == b"0" { 0 } else { number_of(word)? as usize };
        self.passes(b"\n")?;
        (count <= 1_048_576).then_some(count)
    }

    // the history that a text begins with; else the number of the faulty line, 0 for the header
    pub fn read(text: &'a [u8]) -> Result<History<'a>, usize> {
        let mut history = History {
            text,
            names: Names::default(),
            lines: Vec::new(),
            listed: Vec::new(),
            digests: Vec::new(),
            at: 0,
        };
        let count = history.header().ok_or(0usize)?;
        // a line has 12 bytes or more
        history.lines.reserve_exact(count.min(text.len() / 12));
        for number in 1..=count {
            let line = history.line().ok_or(number)?;
            history.lines.push(line);
        }
        Ok(history)
    }
}
