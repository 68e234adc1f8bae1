//! Commands as lines, and what the answers of the database say.

use redo_core::{Command, Stamp, Subject};

use crate::store::Store;
use crate::wire::{partition, write_content};

/// An answer to a command.
#[derive(Clone, Debug, PartialEq, Eq)]
pub enum Answer<'a> {
    /// `ok`, or `stamped D`.
    Done,
    Granted(u64),
    /// `busy G`: somebody has the lock.
    Busy,
    Stale(Vec<&'a [u8]>),
    /// `refused exists N`.
    Exists(&'a [u8]),
    /// The command wasn't done.
    Other(&'a [u8]),
}

impl<'a> Answer<'a> {
    pub fn parse(answer: &'a [u8]) -> Answer<'a> {
        match partition(answer) {
            (b"ok", b"") | (b"stamped", _) => Answer::Done,
            (b"granted", grant) => match number(grant) {
                Some(grant) => Answer::Granted(grant),
                None => Answer::Other(answer),
            },
            (b"busy", _) => Answer::Busy,
            (b"stale", names) => Answer::Stale(names.split(|byte| *byte == b' ').collect()),
            (b"refused", why) => match partition(why) {
                (b"exists", name) => Answer::Exists(name),
                _ => Answer::Other(answer),
            },
            _ => Answer::Other(answer),
        }
    }
}

/// The names of the change rows in the answer to `deps`, `change COUNT N.. created ..`.
pub fn needs_in(answer: &[u8]) -> Vec<&[u8]> {
    counted(&mut answer.split(|byte| *byte == b' '))
}

/// The targets in the answer to `users`, `change COUNT T.. created COUNT T..`: of change rows, and
/// of created rows.
pub fn users_in(answer: &[u8]) -> (Vec<&[u8]>, Vec<&[u8]>) {
    let mut words = answer.split(|byte| *byte == b' ');
    let changes = counted(&mut words);
    (changes, counted(&mut words))
}

/// The words that follow a word and their count.
fn counted<'a>(words: &mut impl Iterator<Item = &'a [u8]>) -> Vec<&'a [u8]> {
    let count = words.nth(1).and_then(number).unwrap_or_default();
    let count = usize::try_from(count).unwrap_or(usize::MAX);
    words.take(count).collect()
}

impl Store {
    /// A command as the database reads it.
    pub(super) fn line_of(&self, command: &Command) -> Vec<u8> {
        let mut line = Vec::new();
        self.write_command(command, &mut line);
        line
    }

    /// Writes a command behind a line.
    pub(super) fn write_command(&self, command: &Command, line: &mut Vec<u8>) {
        let file = |name: &_| Subject::File(*name);
        match command {
            Command::File(subject, stamp) => {
                self.words(line, b"file", [*subject]);
                self.stamp(line, Some(*stamp));
            }
            Command::Gone(subject) => self.words(line, b"gone", [*subject]),
            Command::Lock(name) => self.words(line, b"lock", [file(name)]),
            Command::Unlock(name) => self.words(line, b"unlock", [file(name)]),
            Command::Start(name) => self.words(line, b"start", [file(name)]),
            Command::IfChange(name, subjects) => {
                let first = std::iter::once(file(name));
                self.words(line, b"ifchange", first.chain(subjects.iter().copied()));
            }
            Command::IfCreate(name, names) => {
                let first = std::iter::once(file(name));
                self.words(line, b"ifcreate", first.chain(names.iter().map(file)));
            }
            Command::Always(name) => self.words(line, b"always", [file(name)]),
            Command::Stamp(name, digest) => {
                self.words(line, b"stamp", [file(name)]);
                line.push(b' ');
                write_content(self.known.digest_told(*name, *digest), line);
            }
            Command::Done(name, stamp) => {
                self.words(line, b"done", [file(name)]);
                self.stamp(line, *stamp);
            }
            Command::Failed(name) => self.words(line, b"failed", [file(name)]),
        }
    }

    fn words(&self, line: &mut Vec<u8>, word: &[u8], subjects: impl IntoIterator<Item = Subject>) {
        line.extend_from_slice(word);
        for subject in subjects {
            line.push(b' ');
            match subject {
                Subject::File(name) => line.extend_from_slice(self.known.names.name(name)),
                other => line.extend_from_slice(&self.text_of(other)),
            }
        }
    }

    fn stamp(&self, line: &mut Vec<u8>, stamp: Option<Stamp>) {
        line.push(b' ');
        match stamp {
            None => line.push(b'-'),
            Some(stamp) => line.extend_from_slice(self.known.text_of(stamp).as_bytes()),
        }
    }
}

fn number(digits: &[u8]) -> Option<u64> {
    std::str::from_utf8(digits).ok()?.parse().ok()
}

#[cfg(test)]
mod tests {
    use super::*;

    #[test]
    fn answers_are_those_of_the_rules() {
        assert_eq!(Answer::parse(b"ok"), Answer::Done);
        assert_eq!(Answer::parse(b"stamped 00ff"), Answer::Done);
        assert_eq!(Answer::parse(b"granted 12"), Answer::Granted(12));
        assert_eq!(Answer::parse(b"stale a b"), Answer::Stale(vec![b"a", b"b"]));
        assert_eq!(Answer::parse(b"refused exists a"), Answer::Exists(b"a"));
        assert_eq!(Answer::parse(b"busy 1"), Answer::Busy);
        for other in [&b"refused building"[..], b"fault memory", b"granted x", b""] {
            assert_eq!(Answer::parse(other), Answer::Other(other));
        }
    }

    #[test]
    fn needs_are_the_names_of_change_rows() {
        let answer = b"change 2 a //always created 1 b always 0";
        assert_eq!(needs_in(answer), [&b"a"[..], b"//always"]);
        assert!(needs_in(b"change 0 created 0 always 0").is_empty());
        assert!(needs_in(b"refused").is_empty());
    }

    #[test]
    fn users_are_the_targets_of_both_kinds_of_rows() {
        let none = Vec::new();
        for (answer, changes, created) in [
            (
                "change 2 a created created 0",
                vec![&b"a"[..], b"created"],
                none.clone(),
            ),
            ("change 0 created 1 a", none.clone(), vec![&b"a"[..]]),
            ("fault worn", none.clone(), none.clone()),
        ] {
            assert_eq!(users_in(answer.as_bytes()), (changes, created), "{answer}");
        }
    }

    #[test]
    fn content_has_two_digits_for_each_byte() {
        let mut line = Vec::new();
        write_content(&[0, 0xaf], &mut line);
        write_content(&[], &mut line);
        assert_eq!(line, b"00af-");
    }
}
