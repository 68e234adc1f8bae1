//! What is shown of targets that can't be made.

use crate::display::{BuildId, Display};
use crate::ending::Failure;
use crate::text::{joined, shown};

/// What is said of a target that failed.
#[derive(Debug)]
pub(super) struct Told {
    lines: Vec<Vec<u8>>,
    /// The line of the summary.
    short: Vec<u8>,
}

impl Told {
    fn of(shown: &[u8], failure: &Failure) -> Told {
        let line = |text: &[u8]| joined(&[shown, b": ", text]);
        Told {
            lines: failure.lines().iter().map(|text| line(text)).collect(),
            short: line(&failure.in_short()),
        }
    }
}

impl Display {
    /// Shows at once why a target can't be made, where its asker is shown.
    pub fn refuse(&mut self, asker: Option<BuildId>, text: &[u8]) {
        self.complain(asker, text);
        self.failures.push(text.to_vec());
    }

    /// Ends a build that failed, and whose target's file has this stamp.
    pub fn fail(&mut self, id: BuildId, failure: &Failure, stamp: Option<&[u8]>) {
        let told = Told::of(&shown(&self.builds[id.0].path), failure);
        told.lines.iter().for_each(|line| self.say(Some(id), line));
        self.failures.push(told.short);
        self.close(id, failure.status(), stamp);
        self.show_now(id);
    }

    /// Ends a build that failed, and that nobody has asked for. Why it did is held back.
    pub fn fail_unasked(&mut self, id: BuildId, failure: &Failure, stamp: Option<&[u8]>) {
        let build = &self.builds[id.0];
        let (name, path) = (build.name.clone(), shown(&build.path));
        self.hold(&name, &path, failure);
        self.close(id, failure.status(), stamp);
    }

    /// Holds back why a target failed, until somebody asks for it.
    pub fn hold(&mut self, name: &[u8], shown: &[u8], failure: &Failure) {
        self.held.insert(name.to_vec(), Told::of(shown, failure));
    }

    /// Shows what was held back of a target, where its asker is shown. Says whether there was
    /// something.
    pub fn tell_held(&mut self, asker: Option<BuildId>, name: &[u8]) -> bool {
        let told = match self.held.remove(name) {
            Some(told) => told,
            None => return false,
        };
        told.lines
            .iter()
            .for_each(|line| self.complain(asker, line));
        self.failures.push(told.short);
        true
    }
}
