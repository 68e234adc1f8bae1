//! The names that the database has spoken of, numbered in the order in which they came.

use std::collections::HashMap;
use std::fmt;
use std::rc::Rc;

use redo_core::{Digest, Mark, Name, Stamp};
use redo_files::stamp::Stamp as LookStamp;

/// The stamp of a file as the database has it.
#[derive(Clone, Debug, PartialEq, Eq, Hash)]
pub enum FileStamp {
    /// One that a look gives.
    Look(LookStamp),
    /// Another word, which somebody else reported.
    Word(Box<[u8]>),
}

impl FileStamp {
    pub fn parse(word: &[u8]) -> FileStamp {
        match LookStamp::parse(word) {
            Some(stamp) => FileStamp::Look(stamp),
            None => FileStamp::Word(word.into()),
        }
    }
}

impl fmt::Display for FileStamp {
    fn fmt(&self, formatter: &mut fmt::Formatter<'_>) -> fmt::Result {
        match self {
            FileStamp::Look(stamp) => stamp.fmt(formatter),
            FileStamp::Word(word) => formatter.write_str(&String::from_utf8_lossy(word)),
        }
    }
}

/// What the last `done` of a name said.
#[derive(Clone, Copy, Debug, Default, PartialEq, Eq)]
pub enum Made {
    /// There was none.
    #[default]
    Never,
    /// It was built without a file.
    NoFile,
    File(Stamp),
}

/// What is known of a name. A new one has no file, and is no target.
#[derive(Clone, Copy, Debug, Default, PartialEq, Eq)]
pub struct Facts {
    pub stamp: Option<Stamp>,
    pub made: Made,
    /// What its latest build said that its content is, by its number.
    pub digest: Option<u32>,
    /// How often it was built.
    pub builds: u32,
    pub is_building: bool,
    pub has_failed: bool,
    /// Whether the database has heard of the name.
    pub is_told: bool,
}

impl Facts {
    /// Says whether a build of the name was ever begun.
    pub fn is_target(&self) -> bool {
        self.made != Made::Never || self.is_building || self.has_failed
    }

    /// Says whether its file, or the lack of one, is what its last `done` gave. Of a name without
    /// a `done`: whether it has no file.
    pub fn is_as_built(&self) -> bool {
        match self.made {
            Made::File(made) => self.stamp == Some(made),
            Made::Never | Made::NoFile => self.stamp.is_none(),
        }
    }

    /// What it looks like to who depends on it.
    pub fn mark(&self) -> Mark {
        if self.is_building || self.has_failed {
            return Mark::Pending;
        }
        match (self.made, self.digest) {
            (Made::Never, _) => self.stamp.map_or(Mark::Absent, Mark::File),
            (_, Some(digest)) => Mark::Digest(Digest(digest.into())),
            (_, None) => Mark::Builds(self.builds),
        }
    }
}

/// All names that are known. They have numbers in the order in which they came.
#[derive(Debug, Default)]
pub struct Names {
    numbers: HashMap<Rc<[u8]>, Name>,
    facts: Vec<(Rc<[u8]>, Facts)>,
}

impl Names {
    pub fn new() -> Names {
        Names::default()
    }

    /// Returns the number of a name, if it is known.
    pub fn number(&self, name: &[u8]) -> Option<Name> {
        self.numbers.get(name).copied()
    }

    /// Returns the number of a name, which is known from now on, and whether it was not before.
    pub fn add(&mut self, name: &[u8]) -> (Name, bool) {
        if let Some(number) = self.number(name) {
            return (number, false);
        }
        let number = Name(u32::try_from(self.facts.len()).unwrap_or(u32::MAX));
        let name: Rc<[u8]> = name.into();
        self.numbers.insert(name.clone(), number);
        self.facts.push((name, Facts::default()));
        (number, true)
    }

    pub fn name(&self, number: Name) -> &Rc<[u8]> {
        &self.facts[number.0 as usize].0
    }

    pub fn facts(&self, number: Name) -> &Facts {
        &self.facts[number.0 as usize].1
    }

    pub fn facts_mut(&mut self, number: Name) -> &mut Facts {
        &mut self.facts[number.0 as usize].1
    }

    /// Returns what is known of a name, if it is.
    pub fn facts_of(&self, name: &[u8]) -> Option<&Facts> {
        self.number(name).map(|number| self.facts(number))
    }

    /// All names with what is known of them, in the order in which they came.
    pub fn iter(&self) -> impl Iterator<Item = (Name, &Rc<[u8]>, &Facts)> {
        let numbers = (0..).map(Name);
        numbers
            .zip(&self.facts)
            .map(|(number, (name, facts))| (number, name, facts))
    }
}
