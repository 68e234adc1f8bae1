//! What the lines of the database tell.

use std::rc::Rc;
use std::str::FromStr;

use redo_core::{Name, Stamp};
use redo_files::names::{is_internal, EDITED, LEFT};

use crate::conversation::Told;
use crate::groups::from_digits;
use crate::known::Known;
use crate::names::{Facts, FileStamp, Made};
use crate::sha1::Sum;

/// What a command tells of its first name.
#[derive(Clone, Copy, Debug, PartialEq, Eq)]
enum Telling<'a> {
    File(&'a [u8]),
    Gone,
    Start,
    /// With the SHA-1 of the content, which the reply has.
    Stamp(&'a [u8], &'a [u8]),
    Done(&'a [u8]),
    Failed,
}

impl Known {
    /// Learns a line of the database, and expects of its names what it says.
    pub fn learn(&mut self, told: &Told<'_>) {
        for name in self.take(told) {
            self.expect(name);
        }
    }

    /// Learns a line that others than runs have asked. Returns the name that it is about if that has
    /// another file or another mark now.
    pub fn learn_from_others(&mut self, told: &Told<'_>) -> Option<Name> {
        let about = told.command.split(|byte| *byte == b' ').nth(1);
        let name = about.and_then(|name| self.names.number(name));
        let before = name.map(|name| *self.names.facts(name));
        self.learn(told);
        let name = name?;
        let now = self.names.facts(name);
        let is_same = before.map_or(true, |before| {
            before.stamp == now.stamp && before.mark() == now.mark()
        });
        (!is_same).then_some(name)
    }

    /// Learns all that the database knows: the answer to `names`, `K NAME FILE STATE BUILDS DONE
    /// DIGEST ..`. Says whether it is one.
    pub fn learn_all(&mut self, answer: &[u8]) -> bool {
        let mut words = answer.split(|byte| *byte == b' ');
        let count = words.next().and_then(number_in::<usize>);
        let mut names = Vec::new();
        while let Some(name) = words.next() {
            match self.take_name(name, &mut words) {
                Some(number) => names.push(number),
                None => return false,
            }
        }
        if count != Some(names.len()) {
            return false;
        }
        names.into_iter().for_each(|name| self.expect(name));
        true
    }

    /// Learns what is known of a name: the five words after it.
    fn take_name<'a>(
        &mut self,
        name: &[u8],
        words: &mut impl Iterator<Item = &'a [u8]>,
    ) -> Option<Name> {
        let mut next = || words.next().filter(|word| !word.is_empty());
        let name = Some(name).filter(|name| !name.is_empty())?;
        let (stamp, state, builds) = (next()?, next()?, next()?);
        let (done, digest) = (next()?, next()?);
        let (is_building, has_failed) = match state {
            b"idle" | b"built" => (false, false),
            b"building" => (true, false),
            b"failed" => (false, true),
            _ => return None,
        };
        let builds = number_in(builds)?;
        let digest = match digest {
            b"-" => None,
            digits => Some(self.sum_numbered(&sum_in(digits)?)),
        };
        let done = self.parse_stamp_or_none(done);
        let made = match builds {
            0 => Made::Never,
            _ => done.map_or(Made::NoFile, Made::File),
        };
        let stamp = self.parse_stamp_or_none(stamp);
        let (number, _) = self.names.add(name);
        *self.names.facts_mut(number) = Facts {
            stamp,
            made,
            digest,
            builds,
            is_building,
            has_failed,
            is_told: true,
        };
        Some(number)
    }

    /// Learns a line, and returns the names of which something else is expected from now on.
    fn take(&mut self, told: &Told<'_>) -> Vec<Name> {
        let words: Vec<&[u8]> = told.command.split(|byte| *byte == b' ').collect();
        let telling = match words[..] {
            [b"file", name, stamp] => (name, Telling::File(stamp)),
            [b"gone", name] => (name, Telling::Gone),
            [b"start", name] => (name, Telling::Start),
            [b"stamp", name, content] => match told.reply.strip_prefix(b"stamped ") {
                Some(sum) => (name, Telling::Stamp(content, sum)),
                None => return Vec::new(),
            },
            [b"done", name, stamp] => (name, Telling::Done(stamp)),
            [b"failed", name] => (name, Telling::Failed),
            [b"lock" | b"ifchange" | b"ifcreate", ..] => return self.take_names(&words[1..]),
            _ => return Vec::new(),
        };
        if told.reply != b"ok" && !matches!(telling.1, Telling::Stamp(..)) {
            return Vec::new();
        }
        let (number, _) = self.names.add(telling.0);
        self.apply(number, telling.1);
        self.names.facts_mut(number).is_told = true;
        vec![number]
    }

    fn apply(&mut self, number: Name, telling: Telling<'_>) {
        let mut facts = *self.names.facts(number);
        match telling {
            Telling::File(stamp) => facts.stamp = Some(self.parse_stamp(stamp)),
            Telling::Gone => facts.stamp = None,
            Telling::Start => (facts.is_building, facts.digest) = (true, None),
            Telling::Stamp(content, sum) => facts.digest = self.parse_content(content, sum),
            Telling::Failed => (facts.is_building, facts.has_failed) = (false, true),
            Telling::Done(stamp) => {
                facts.stamp = self.parse_stamp_or_none(stamp);
                facts.made = facts.stamp.map_or(Made::NoFile, Made::File);
                facts.builds = facts.builds.saturating_add(1);
                (facts.is_building, facts.has_failed) = (false, false);
            }
        }
        *self.names.facts_mut(number) = facts;
    }

    fn parse_stamp(&mut self, word: &[u8]) -> Stamp {
        self.stamp_numbered(&FileStamp::parse(word))
    }

    fn parse_stamp_or_none(&mut self, word: &[u8]) -> Option<Stamp> {
        (word != b"-").then(|| self.parse_stamp(word))
    }

    /// Reads content as a command has it, and its SHA-1 as the reply has that. Content of no bytes
    /// is `-`.
    fn parse_content(&mut self, word: &[u8], sum: &[u8]) -> Option<u32> {
        let number = self.sum_numbered(&sum_in(sum)?);
        self.note_told(number, &from_digits(word).unwrap_or_default());
        Some(number)
    }

    /// Learns of names that were spoken of, and returns those that are new.
    fn take_names(&mut self, names: &[&[u8]]) -> Vec<Name> {
        let mut new = Vec::new();
        for name in names {
            let (number, _) = self.names.add(name);
            let facts = self.names.facts_mut(number);
            if !std::mem::replace(&mut facts.is_told, true) {
                new.push(number);
            }
        }
        new
    }

    /// Expects the file of a name to be what is known of it, unless it is building.
    pub(super) fn expect(&mut self, number: Name) {
        let name = self.names.name(number).clone();
        if is_internal(&name) {
            if let Some(target) = name.strip_prefix(LEFT) {
                self.note_edited(&target.into());
            } else if name.starts_with(EDITED) {
                self.shadows.insert(number);
            }
            return;
        }
        let facts = self.names.facts(number);
        if facts.is_building {
            self.expected.drop(&name);
            self.edited.remove(&name);
            return;
        }
        let stamp = facts.stamp.map(|stamp| self.text_of(stamp));
        self.expected
            .put(&name, stamp.as_deref().map(str::as_bytes));
        if facts.made != Made::Never || facts.has_failed {
            self.note_edited(&name);
        }
    }

    pub(super) fn note_edited(&mut self, target: &Rc<[u8]>) {
        if self.is_edited(target, self.known_stamp(target)) {
            self.edited.insert(target.clone());
        } else {
            self.edited.remove(target);
        }
    }
}

/// Reads a SHA-1 in hexadecimal digits.
fn sum_in(digits: &[u8]) -> Option<Sum> {
    from_digits(digits)?.try_into().ok()
}

fn number_in<T: FromStr>(digits: &[u8]) -> Option<T> {
    std::str::from_utf8(digits).ok()?.parse().ok()
}
