//! What builds say that their content is. The database keeps its SHA-1, and so does this: after a
//! restart a content has the same number that it gets if it is told once more.
//!
//! A target whose `.do` file is gone is told with its content again. That of a file is found out
//! from the file. The others, of `redo-stamp`, are in the file `.redo/contents` while no server is
//! there, each on a line, as `stamp` has it: in hexadecimal digits, or as `-` if it is empty. It may
//! be lost: then what depends on such a target is built once more.

use std::collections::{BTreeSet, HashSet};

use redo_core::{Digest, Name, Stamp};
use redo_files::private::Home;
use redo_files::stamp::{Digest as LookDigest, Stamp as LookStamp};
use redo_files::FileError;

use crate::groups::from_digits;
use crate::known::Known;
use crate::names::{Facts, FileStamp, Made};
use crate::sha1::{sum_of, Sum};
use crate::wire::write_content;

/// Begins a content among the stamps: no stamp has a space.
const CONTENT: &[u8] = b"content ";

impl Known {
    /// Returns the number of a content, by the bytes that are told of it.
    pub fn digest_numbered(&mut self, told: &[u8]) -> Digest {
        let number = self.sum_numbered(&sum_of(told));
        self.note_told(number, told);
        Digest(u64::from(number))
    }

    /// Returns the bytes that are told of the content of a target. Of one that an older server was
    /// told, they are known if they are those of the file that the last build left. Else they are
    /// made up: to who depends on the target, that is another content.
    pub fn digest_told(&self, target: Name, digest: Digest) -> &[u8] {
        let number = u32::try_from(digest.0).ok();
        let sum = number.and_then(|number| self.sums.thing(number));
        let told = number.and_then(|number| self.told.get(&number));
        let is_it = |bytes: &&[u8]| Some(&sum_of(bytes)) == sum;
        told.and_then(|stamp| self.bytes_of(*stamp))
            .or_else(|| self.bytes_made(self.names.facts(target)).filter(is_it))
            .or_else(|| sum.map(Sum::as_slice))
            .unwrap_or_default()
    }

    /// Returns the number of the content that a look found in a target's file. A folder has none.
    pub fn content_of(&mut self, stamp: Option<Stamp>) -> Option<Digest> {
        match self.stamps.thing(stamp?.0)? {
            FileStamp::Look(LookStamp::Digest(digest)) => {
                let told = *digest.bytes();
                Some(self.digest_numbered(&told))
            }
            _ => None,
        }
    }

    /// Returns the number of a content, by its SHA-1.
    pub(super) fn sum_numbered(&mut self, sum: &Sum) -> u32 {
        self.sums.number(sum)
    }

    /// Notes what was told of a content.
    pub(super) fn note_told(&mut self, number: u32, told: &[u8]) {
        let content = match LookDigest::from_bytes(told) {
            Some(digest) => FileStamp::Look(LookStamp::Digest(digest)),
            None => FileStamp::Word([CONTENT, told].concat().into()),
        };
        let content = self.stamps.number(&content);
        self.told.insert(number, content);
    }

    /// Forgets contents that no target has.
    pub(super) fn forget_unused_sums(&mut self) {
        let facts = self.names.iter().map(|(_, _, facts)| facts);
        let used: HashSet<u32> = facts.filter_map(|facts| facts.digest).collect();
        self.sums.keep(|number| used.contains(&number));
        self.told.retain(|number, _| used.contains(number));
    }

    /// Takes the contents that an older server stored in a file of `.redo`.
    pub fn load_told(&mut self, home: &Home, file: &[u8]) {
        let text = home.read(file).unwrap_or_default();
        for line in text.split(|byte| *byte == b'\n') {
            let told = match line {
                b"" => None, // behind the last LF
                b"-" => Some(Vec::new()),
                digits => from_digits(digits),
            };
            if let Some(told) = told {
                self.digest_numbered(&told);
            }
        }
    }

    /// Stores in a file of `.redo` the contents of targets that aren't those of their files. Fails
    /// if the file can't be written.
    pub fn store_told(&self, home: &Home, file: &[u8]) -> Result<(), FileError> {
        let all = self.names.iter().map(|(_, _, facts)| facts);
        let told: BTreeSet<&[u8]> = all.filter_map(|facts| self.told_alone(facts)).collect();
        let mut text = Vec::new();
        for content in told {
            write_content(content, &mut text);
            text.push(b'\n');
        }
        if home.read(file).unwrap_or_default() == text {
            return Ok(());
        }
        home.replace(file, &text)
    }

    /// The content that was told of a target, if it isn't that of its file.
    fn told_alone(&self, facts: &Facts) -> Option<&[u8]> {
        let told = self.bytes_of(*self.told.get(&facts.digest?)?)?;
        (self.bytes_made(facts) != Some(told)).then_some(told)
    }

    /// The bytes of the content of the file that a target's last build left.
    fn bytes_made(&self, facts: &Facts) -> Option<&[u8]> {
        match facts.made {
            Made::File(made) => self.bytes_of(made.0),
            Made::Never | Made::NoFile => None,
        }
    }

    /// The bytes of a content among the stamps.
    fn bytes_of(&self, stamp: u32) -> Option<&[u8]> {
        match self.stamps.thing(stamp)? {
            FileStamp::Look(LookStamp::Digest(digest)) => Some(digest.bytes()),
            FileStamp::Look(LookStamp::Folder) => None,
            FileStamp::Word(word) => word.strip_prefix(CONTENT),
        }
    }
}
