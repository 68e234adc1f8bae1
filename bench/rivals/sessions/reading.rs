// Session files, as they are read.
use crate::lines::{Command, Part, Stamp};
use crate::names::{Folded, Names, MOST_NAMES};
use crate::sha1::sha1;
use std::collections::HashMap;
use std::hash::BuildHasherDefault;
use std::num::NonZeroU8;
use std::ops::Range;

// a line of a session file
pub struct Item {
    pub command: Command,
    pub is_guarded: bool,
}

pub type Script = Vec<Item>;

pub struct Reader<'a> {
    // all files, one after the other
    pub text: &'a [u8],
    pub names: Names<'a>,
    // the names in all lists
    pub lists: Vec<u32>,
    // the content of each `stamp` as it is written, and its digest
    pub contents: Vec<&'a [u8]>,
    pub digests: Vec<[u8; 20]>,
    // the first place of each file stamp: the same stamp is at the same place
    stamps: HashMap<&'a [u8], Stamp, BuildHasherDefault<Folded>>,
}

fn is_word(text: &[u8], limit: usize) -> bool {
    let is_visible = text.iter().all(|byte| (33..=126).contains(byte));
    is_visible && (1..=limit).contains(&text.len()) && text != b"-" && text != b"=>"
}

fn content_of(text: &[u8]) -> Option<Vec<u8>> {
    if text == b"-" {
        return Some(Vec::new());
    }
    let (twos, rest) = text.as_chunks::<2>();
    if twos.is_empty() || !rest.is_empty() {
        return None;
    }
    let digit = |byte: u8| (byte as char).to_digit(16).map(|digit| digit as u8);
    twos.iter().map(|[a, b]| Some(digit(*a)? * 16 + digit(*b)?)).collect()
}

impl<'a> Reader<'a> {
    pub fn new(text: &'a [u8]) -> Reader<'a> {
        Reader {
            text,
            names: Names::default(),
            lists: Vec::new(),
            contents: Vec::new(),
            digests: Vec::new(),
            stamps: HashMap::default(),
        }
    }

    fn name(&mut self, word: &'a [u8]) -> Option<u32> {
        is_word(word, 255).then(|| self.names.add(word, MOST_NAMES))?
    }

    fn names(&mut self, words: &[&'a [u8]]) -> Option<Part> {
        let at = self.lists.len() as u32;
        for word in words {
            let name = self.name(word)?;
            self.lists.push(name);
        }
        let len = words.len() as u32;
        (1..=64).contains(&len).then_some(Part { at, len })
    }

    fn stamp(&mut self, word: &'a [u8]) -> Option<Stamp> {
        let len = is_word(word, 64).then(|| NonZeroU8::new(word.len() as u8))??;
        let at = (word.as_ptr() as usize - self.text.as_ptr() as usize) as u32;
        Some(*self.stamps.entry(word).or_insert(Stamp { at, len }))
    }

    fn digest(&mut self, word: &'a [u8]) -> Option<u32> {
        self.digests.push(sha1(&content_of(word)?));
        self.contents.push(word);
        Some(self.contents.len() as u32 - 1)
    }

    fn command(&mut self, words: &[&'a [u8]]) -> Option<Command> {
        Some(match words {
            [b"file", n, s] => Command::File(self.name(n)?, self.stamp(s)?),
            [b"gone", n] => Command::Gone(self.name(n)?),
            [b"lock", t] => Command::Lock(self.name(t)?),
            [b"unlock", t] => Command::Unlock(self.name(t)?),
            [b"start", t] => Command::Start(self.name(t)?),
            [b"ifchange", t, names @ ..] => Command::IfChange(self.name(t)?, self.names(names)?),
            [b"ifcreate", t, names @ ..] => Command::IfCreate(self.name(t)?, self.names(names)?),
            [b"always", t] => Command::Always(self.name(t)?),
            [b"stamp", t, c] => Command::Stamp(self.name(t)?, self.digest(c)?),
            [b"done", t, b"-"] => Command::Done(self.name(t)?, None),
            [b"done", t, s] => Command::Done(self.name(t)?, Some(self.stamp(s)?)),
            [b"failed", t] => Command::Failed(self.name(t)?),
            [b"ood"] => Command::Ood,
            [b"targets"] => Command::Targets,
            [b"sources"] => Command::Sources,
            _ => return None,
        })
    }

    // the lines of the file at this place
    pub fn script(&mut self, place: Range<usize>) -> Option<Script> {
        let mut script = Vec::new();
        let mut words = Vec::new();
        for line in self.text[place].split(|byte| *byte == b'\n') {
            if line.len() > 8192 {
                return None;
            }
            if line.is_empty() || line[0] == b'#' {
                continue;
            }
            if script.len() == 4096 {
                return None;
            }
            let unguarded = line.strip_prefix(b"? ");
            words.clear();
            words.extend(unguarded.unwrap_or(line).split(|byte| *byte == b' '));
            let command = self.command(&words)?;
            script.push(Item { command, is_guarded: unguarded.is_some() });
        }
        Some(script)
    }
}
