//! Looks at files, and how they differ from what the database knows.

use std::collections::BTreeSet;
use std::rc::Rc;

use redo_core::{Name, Stamp};
use redo_files::key::{Key, Time};
use redo_files::names::{is_internal, unescape, EDITED};

use crate::known::{has_made, Change, Known};
use crate::names::{Facts, FileStamp};
use crate::wire::Fault;

impl Known {
    /// Looks at the file of a name. Returns its stamp, and when it changed.
    pub fn look_with_time(&mut self, name: Name) -> (Option<Stamp>, Option<Time>) {
        let path = match unescape(self.names.name(name)) {
            Ok(path) => path.into_owned(),
            Err(_) => return (None, None),
        };
        let look = self.contents.look(&path);
        let stamp = look
            .stamp
            .map(|stamp| self.stamp_numbered(&FileStamp::Look(stamp)));
        let changed = match look.key {
            Some(Key::Plain(key)) => Some(key.changed),
            Some(Key::Link(key)) => Some(key.itself.changed.max(key.end.changed)),
            None => self.changed(self.names.name(name)),
        };
        (stamp, changed)
    }

    /// The time of the file system, by a file of `.redo` that is changed for it.
    pub fn time_now(&mut self, probe: &[u8]) -> Option<Time> {
        self.contents.begin_look();
        let path = [b".redo/", probe].concat();
        let status = self.contents.folder().lstat(&path).ok()?;
        Some(status.changed)
    }

    /// Looks at the file of a name. Returns its stamp.
    pub fn look_at(&mut self, name: Name) -> Option<Stamp> {
        let name = self.names.name(name).clone();
        let found = self.look(&name).ok().flatten()?;
        Some(self.stamp_numbered(&found))
    }

    /// When the file of a name changed, or what a link leads to, if that is later.
    pub fn changed_at(&self, name: Name) -> Option<Time> {
        self.changed(self.names.name(name))
    }

    /// Those of these names that are no targets, and whose files changed at this time or later.
    pub fn late(&self, names: &[Vec<u8>], since: Time) -> Vec<Vec<u8>> {
        let is_late = |name: &&Vec<u8>| {
            !is_internal(name)
                && !self.names.facts_of(name).map_or(false, Facts::is_target)
                && self.changed(name).map_or(false, |changed| changed >= since)
        };
        names.iter().filter(is_late).cloned().collect()
    }

    /// Looks at the files of these names, and returns the commands that report to the database how
    /// they differ from what it knows. Fails if one of them is no name.
    pub fn differing(&mut self, names: &[Vec<u8>]) -> Result<Vec<Vec<u8>>, Fault> {
        self.contents.begin_look();
        let mut commands = Vec::new();
        let mut seen = BTreeSet::new();
        for name in names.iter().filter(|name| seen.insert(name.as_slice())) {
            commands.extend(self.compared(name)?);
        }
        let shadows = self.shadow_names();
        let others = shadows.iter().filter(|name| !seen.contains(&***name));
        let others = others.cloned().collect::<Vec<_>>();
        commands.extend(
            others
                .iter()
                .filter_map(|name| self.compared(name).ok().flatten()),
        );
        Ok(commands)
    }

    /// Looks at the files of all names that are known and aren't building, and returns the
    /// commands that report to the database how they differ from what it knows.
    pub fn all_differing(&mut self) -> Vec<Vec<u8>> {
        let changes = self.changes();
        let mut commands: Vec<Vec<u8>> = changes.iter().map(|change| self.report(change)).collect();
        for name in self.shadow_names() {
            commands.extend(self.compared(&name).ok().flatten());
        }
        commands
    }

    /// Looks at these files, and returns those that differ from what the database knows.
    pub fn changes(&mut self) -> Vec<Change> {
        self.contents.begin_look();
        let suspects = self.expected.suspects(&mut self.contents).into_iter();
        let mut numbers: Vec<Name> = suspects
            .filter_map(|name| self.names.number(&name))
            .collect();
        numbers.sort_unstable();
        let changes = numbers.into_iter();
        changes.filter_map(|name| self.change_of(name)).collect()
    }

    /// Expects nothing of a file that the database can't know, so that no look is at it.
    pub fn overlook(&mut self, name: Name) {
        self.expected.drop(self.names.name(name));
    }

    /// Returns how the file of a name differs from what the database knows. If it doesn't, it is
    /// expected to stay so.
    pub(super) fn change_of(&mut self, name: Name) -> Option<Change> {
        let stamp = self.look_at(name);
        if stamp == self.names.facts(name).stamp {
            self.expect(name);
            return None;
        }
        Some(Change { name, stamp })
    }

    /// Returns the command that reports a change.
    pub fn report(&self, change: &Change) -> Vec<u8> {
        let name = self.names.name(change.name);
        match change.stamp {
            None => [b"gone ", &**name].concat(),
            Some(stamp) => [b"file ", &**name, b" ", self.text_of(stamp).as_bytes()].concat(),
        }
    }

    /// Says whether a target's file is neither what its last build left, nor known already.
    pub fn is_unlike(&mut self, target: Name) -> bool {
        let found = self.look_at(target);
        let facts = self.names.facts(target);
        let is_new = found.is_some() && facts.stamp != found && !has_made(facts, found);
        !facts.is_building && !facts.has_failed && is_new
    }

    pub(super) fn shadow_names(&self) -> Vec<Rc<[u8]>> {
        let names = self
            .shadows
            .iter()
            .map(|number| self.names.name(*number).clone());
        names.collect()
    }

    /// Returns the command that reports a file to the database, or None if it knows.
    pub(super) fn compared(&mut self, name: &[u8]) -> Result<Option<Vec<u8>>, Fault> {
        let found = if !is_internal(name) {
            self.stamp_at(name)?
        } else if let Some(target) = name.strip_prefix(EDITED) {
            let found = self.stamp_at(target)?;
            found.filter(|found| self.is_edited(target, Some(*found)))
        } else {
            return Ok(None);
        };
        if found == self.known_stamp(name) {
            return Ok(None);
        }
        Ok(Some(match found {
            None => [b"gone ", name].concat(),
            Some(stamp) => [b"file ", name, b" ", self.text_of(stamp).as_bytes()].concat(),
        }))
    }

    pub(super) fn stamp_at(&mut self, name: &[u8]) -> Result<Option<Stamp>, Fault> {
        let found = self.look(name)?;
        Ok(found.map(|found| self.stamp_numbered(&found)))
    }

    pub(super) fn look(&mut self, name: &[u8]) -> Result<Option<FileStamp>, Fault> {
        let path = unescape(name).map_err(|_| Fault::BadName)?;
        Ok(self.contents.stamp(&path).map(FileStamp::Look))
    }

    /// When the file of a name changed, or what a link leads to, if that is later.
    pub(super) fn changed(&self, name: &[u8]) -> Option<Time> {
        let path = unescape(name).ok()?;
        let own = self.contents.folder().lstat(&path).ok()?.changed;
        let end = self.contents.folder().stat(&path);
        Some(end.map_or(own, |end| end.changed.max(own)))
    }
}
