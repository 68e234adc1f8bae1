// The text of a command, as it is read: the form of its words, or its fault.
use crate::database::Database;
use crate::lines::{Command, Part, Stamp};
use std::num::NonZeroU8;

pub type Fault = &'static str;

const MOST_NAMES: usize = 1 << 24;

// what follows the names of a command
#[derive(Clone, Copy, PartialEq)]
enum Last {
    Nothing,
    Stamp,
    StampOrNone,
    Content,
}

fn is_visible_word(word: &[u8], limit: usize) -> bool {
    (1..=limit).contains(&word.len()) && word != b"-" && word != b"=>"
}

pub fn is_name(word: &[u8]) -> bool {
    is_visible_word(word, 255) && word[0] != b'#'
}

fn is_stamp(word: &[u8]) -> bool {
    is_visible_word(word, 64)
}

fn are_digits(word: &[u8]) -> bool {
    !word.is_empty() && word.len() % 2 == 0 && word.iter().all(u8::is_ascii_hexdigit)
}

fn content_of(word: &[u8]) -> Vec<u8> {
    let digit = |byte: u8| char::from(byte).to_digit(16).expect("a digit") as u8;
    let digits = if word == b"-" { &[] } else { word };
    digits.chunks_exact(2).map(|two| digit(two[0]) << 4 | digit(two[1])).collect()
}

pub fn fault_of_bytes(text: &[u8]) -> Option<Fault> {
    if text.len() > 8192 {
        return Some("line-too-long");
    }
    let is_bad = text.iter().any(|byte| !(32..=126).contains(byte));
    is_bad.then_some("bad-byte")
}

// how many names, and what follows them, if this many words follow the keyword
fn form_of(keyword: &[u8], words: usize) -> Option<(usize, Last)> {
    Some(match keyword {
        b"file" => (1, Last::Stamp),
        b"done" => (1, Last::StampOrNone),
        b"stamp" => (1, Last::Content),
        b"gone" | b"lock" | b"unlock" | b"start" | b"always" | b"failed" => (1, Last::Nothing),
        b"ifchange" | b"ifcreate" => (words.max(2), Last::Nothing),
        b"ood" | b"targets" | b"sources" => (0, Last::Nothing),
        _ => return None,
    })
}

fn fault_of_last(last: Last, word: &[u8]) -> Option<Fault> {
    match last {
        Last::Stamp => (!is_stamp(word)).then_some("bad-stamp"),
        Last::StampOrNone => (word != b"-" && !is_stamp(word)).then_some("bad-stamp"),
        Last::Content => (word != b"-" && !are_digits(word)).then_some("bad-hex"),
        Last::Nothing => None,
    }
}

impl Database {
    // whether all names of a text are known, or fit
    fn has_room<'a>(&self, words: impl Iterator<Item = &'a [u8]>) -> bool {
        let mut new: Vec<&[u8]> =
            words.filter(|word| !self.names.numbers.contains_key(word)).collect();
        new.sort_unstable();
        new.dedup();
        self.names.texts.len() + new.len() <= MOST_NAMES
    }

    // the number of a name; a new one is kept as long as the program lives
    fn number(&mut self, word: &[u8]) -> u32 {
        if let Some(number) = self.names.numbers.get(word) {
            return *number;
        }
        self.store.grow();
        let kept: &'static [u8] = word.to_vec().leak();
        self.names.add(kept, MOST_NAMES).expect("a name, and room")
    }

    fn stamp(&mut self, word: &[u8]) -> Stamp {
        let text = self.store.graph.text.to_mut();
        let len = NonZeroU8::new(word.len() as u8).expect("a byte or more");
        let stamp = Stamp { at: text.len() as u32, len };
        text.extend_from_slice(word);
        stamp
    }

    fn digest(&mut self, word: &[u8]) -> u32 {
        let digests = self.store.graph.digests.to_mut();
        digests.push(crate::sha1::sha1(&content_of(word)));
        digests.len() as u32 - 1
    }

    // The command that a text says; its names are known then. A fault adds none.
    pub fn command(&mut self, text: &[u8]) -> Result<Command, Fault> {
        fault_of_bytes(text).map_or(Ok(()), Err)?;
        let count = text.iter().filter(|byte| **byte == b' ').count();
        let mut words = text.split(|byte| *byte == b' ');
        let keyword = words.next().expect("a word");
        let (names, last) = form_of(keyword, count).ok_or("unknown-command")?;
        if count != names + usize::from(last != Last::Nothing) {
            return Err("wrong-words");
        }
        if names > 65 {
            return Err("too-many-names");
        }
        if !words.clone().take(names).all(is_name) {
            return Err("bad-name");
        }
        let last_word = words.clone().nth(names).unwrap_or_default();
        fault_of_last(last, last_word).map_or(Ok(()), Err)?;
        if self.names.texts.len() + names > MOST_NAMES && !self.has_room(words.clone().take(names))
        {
            return Err("too-many-names");
        }
        self.lists.clear();
        for word in words.take(names) {
            let number = self.number(word);
            self.lists.push(number);
        }
        Ok(self.said_by(keyword, last_word))
    }

    // the command of this keyword, whose names were read
    fn said_by(&mut self, keyword: &[u8], last: &[u8]) -> Command {
        let first = self.lists.first().copied().unwrap_or_default();
        let others = Part { at: 1, len: (self.lists.len() as u32).saturating_sub(1) };
        match keyword {
            b"file" => Command::File(first, self.stamp(last)),
            b"gone" => Command::Gone(first),
            b"lock" => Command::Lock(first),
            b"unlock" => Command::Unlock(first),
            b"start" => Command::Start(first),
            b"ifchange" => Command::IfChange(first, others),
            b"ifcreate" => Command::IfCreate(first, others),
            b"always" => Command::Always(first),
            b"stamp" => Command::Stamp(first, self.digest(last)),
            b"done" if last == b"-" => Command::Done(first, None),
            b"done" => Command::Done(first, Some(self.stamp(last))),
            b"failed" => Command::Failed(first),
            b"ood" => Command::Ood,
            b"targets" => Command::Targets,
            _ => Command::Sources,
        }
    }
}
