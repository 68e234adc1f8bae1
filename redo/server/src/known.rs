//! What the database knows of the files, learnt from its own lines.

mod contents_told;
mod learning;
mod looking;

use std::collections::{BTreeSet, HashMap, HashSet};
use std::rc::Rc;

use redo_core::{Name, Stamp};
use redo_files::contents::Contents;
use redo_files::expected::Expected;
use redo_files::names::{EDITED, LEFT};
use redo_files::stamp::Stamp as LookStamp;

use crate::interned::Interned;
use crate::names::{Facts, FileStamp, Made, Names};
use crate::sha1::Sum;

/// The stamp of `//left/NAME` where a failed build left no file.
const NO_FILE: &[u8] = b"none";

/// Each name's file stamp, which names are building, and what the last `done` of each target said,
/// after the lines that were learnt; and with it what the files are to look like.
#[derive(Debug)]
pub struct Known {
    pub names: Names,
    pub contents: Contents,
    /// The stamps of files, and the contents that this server was told.
    stamps: Interned<FileStamp>,
    /// What builds said that their content is, as the database keeps it.
    sums: Interned<Sum>,
    /// The contents of sums, among the stamps, as far as this server was told them.
    told: HashMap<u32, u32>,
    expected: Expected,
    /// The targets that have a file which no build of them left.
    edited: BTreeSet<Rc<[u8]>>,
    /// The names of redo's own for the content of edited targets, in their order.
    shadows: BTreeSet<Name>,
}

/// A file that isn't as the database knows it.
#[derive(Clone, Copy, Debug, PartialEq, Eq)]
pub struct Change {
    pub name: Name,
    /// That of the file as it is.
    pub stamp: Option<Stamp>,
}

impl Known {
    pub fn new(contents: Contents) -> Known {
        Known {
            names: Names::new(),
            contents,
            stamps: Interned::new([
                FileStamp::parse(NO_FILE),
                FileStamp::Look(LookStamp::Folder),
            ]),
            sums: Interned::new([]),
            told: HashMap::new(),
            expected: Expected::new(),
            edited: BTreeSet::new(),
            shadows: BTreeSet::new(),
        }
    }

    /// The stamp that the last `done` of a name gave, or `-`.
    pub fn made(&self, name: &[u8]) -> String {
        match self.names.facts_of(name).map(|facts| facts.made) {
            Some(Made::File(stamp)) => self.text_of(stamp),
            _ => "-".to_owned(),
        }
    }

    /// Returns the number of a name. The database may not know it yet.
    pub fn intern(&mut self, name: &[u8]) -> Name {
        self.names.add(name).0
    }

    /// Returns a stamp as the database has it.
    pub fn text_of(&self, stamp: Stamp) -> String {
        let stamp = self.stamps.thing(stamp.0);
        stamp.map_or_else(|| "-".to_owned(), FileStamp::to_string)
    }

    /// Returns the number of a stamp.
    pub fn stamp_numbered(&mut self, stamp: &FileStamp) -> Stamp {
        Stamp(self.stamps.number(stamp))
    }

    /// Forgets stamps and contents that no name has, if there are many.
    pub fn forget_unused(&mut self) {
        if self.stamps.is_crowded() || self.sums.is_crowded() {
            self.forget_unused_sums();
            let facts = self.names.iter().map(|(_, _, facts)| facts);
            let mut used: HashSet<u32> = facts.flat_map(stamps_of).map(|stamp| stamp.0).collect();
            used.extend(self.told.values());
            let kept = [redo_core::NO_FILE.0, redo_core::FOLDER.0];
            self.stamps
                .keep(|number| used.contains(&number) || kept.contains(&number));
        }
    }

    /// The targets that are edited, as far as the database was told.
    pub fn edited_targets(&self) -> Vec<Name> {
        let told = self.shadows.iter().filter_map(|shadow| {
            let is_told = self.names.facts(*shadow).stamp.is_some();
            let target = self.names.name(*shadow).strip_prefix(EDITED)?;
            self.names.number(target).filter(|_| is_told)
        });
        told.collect()
    }

    /// The targets of which the database wasn't told yet whether they are edited.
    pub fn untold_edits(&self) -> Vec<Name> {
        let shadows = self.shadows.iter();
        let told = shadows.filter_map(|shadow| self.names.name(*shadow).strip_prefix(EDITED));
        let all = told.chain(self.edited.iter().map(|target| &**target));
        let untold = all.filter(|target| {
            let edited = self.edited.contains(*target);
            let stamp = self.known_stamp(target).filter(|_| edited);
            stamp != self.known_stamp(&[EDITED, target].concat())
        });
        let names: BTreeSet<Name> = untold.filter_map(|name| self.names.number(name)).collect();
        names.into_iter().collect()
    }

    /// Says whether a target is edited.
    pub fn has_edited(&self) -> bool {
        !self.edited.is_empty()
    }

    /// Says whether a target's file is none that its builds left.
    pub fn is_edited_now(&self, target: Name) -> bool {
        self.edited.contains(&**self.names.name(target))
    }

    /// Those of these targets, or of all, whose file no build of them left.
    pub fn edited(&self, names: &[Vec<u8>]) -> Vec<Vec<u8>> {
        if names.is_empty() {
            return self.edited.iter().map(|name| name.to_vec()).collect();
        }
        let edited = names
            .iter()
            .filter(|name| self.edited.contains(name.as_slice()));
        edited.cloned().collect()
    }

    /// Says whether a target's file, which has this stamp, is none that its builds left. Of a build
    /// that was broken off it isn't known what it left.
    fn is_edited(&self, target: &[u8], stamp: Option<Stamp>) -> bool {
        if stamp.map_or(true, |stamp| stamp == redo_core::FOLDER) {
            return false;
        }
        let facts = match self.names.facts_of(target) {
            Some(facts) if !facts.is_building => facts,
            _ => return false,
        };
        let is_left = if facts.has_failed {
            let left = self.known_stamp(&[LEFT, target].concat());
            left.is_none() || left == stamp
        } else {
            facts.made == Made::Never
        };
        !is_left && !has_made(facts, stamp)
    }

    fn known_stamp(&self, name: &[u8]) -> Option<Stamp> {
        self.names.facts_of(name)?.stamp
    }
}

/// Says whether the last `done` of a target gave this stamp.
fn has_made(facts: &Facts, stamp: Option<Stamp>) -> bool {
    matches!(facts.made, Made::File(made) if stamp == Some(made))
}

fn stamps_of(facts: &Facts) -> impl Iterator<Item = Stamp> {
    let made = match facts.made {
        Made::File(made) => Some(made),
        Made::Never | Made::NoFile => None,
    };
    facts.stamp.into_iter().chain(made)
}

#[cfg(test)]
mod tests;
