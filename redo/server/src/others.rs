//! What others than runs have done to names, of which the machine isn't told yet.

use std::collections::BTreeSet;

use redo_core::{Event, Name, RunId};

/// The names that clients have changed who speak lines of text, and those that they have unlocked.
#[derive(Debug, Default)]
pub struct Others {
    touched: BTreeSet<Name>,
    unlocked: BTreeSet<Name>,
}

impl Others {
    /// Takes it that a name had another file or another mark, for a while at least.
    pub fn touch(&mut self, name: Name) {
        self.touched.insert(name);
    }

    pub fn unlock(&mut self, name: Name) {
        self.unlocked.insert(name);
    }

    /// Says whether the machine knows all.
    pub fn is_empty(&self) -> bool {
        self.touched.is_empty() && self.unlocked.is_empty()
    }

    /// Takes what the machine is told next. `run` is any that is open.
    pub fn next(&mut self, run: RunId) -> Option<Event> {
        if let Some(name) = take_first(&mut self.touched) {
            return Some(Event::Touched { run, name });
        }
        let name = take_first(&mut self.unlocked)?;
        Some(Event::Unlocked { name })
    }
}

fn take_first(names: &mut BTreeSet<Name>) -> Option<Name> {
    let first = names.iter().next().copied()?;
    names.take(&first)
}

#[cfg(test)]
mod tests {
    use super::*;

    #[test]
    fn a_name_is_told_once_and_its_change_before_its_lock() {
        let (run, name) = (RunId(1), Name(7));
        let mut others = Others::default();
        assert!(others.is_empty());
        others.unlock(name);
        others.touch(name);
        others.touch(name);
        assert_eq!(others.next(run), Some(Event::Touched { run, name }));
        assert!(!others.is_empty());
        assert_eq!(others.next(run), Some(Event::Unlocked { name }));
        assert_eq!(others.next(run), None);
    }
}
