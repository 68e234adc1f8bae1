//! What programs and users are told of requests.

use redo_core::{Database, Name, RunId, Say as Saying, Subject, TaskId, FOLDER};
use redo_files::names;
use redo_files::paths::{relative, shown};
use redo_wire::{Said, Say, ToProgram};

use crate::server::programs::FAILED;
use crate::server::Server;

impl Server {
    pub(super) fn tell_run(&mut self, run: RunId, message: &ToProgram) {
        if let Some(record) = self.calls.runs.get_mut(&run) {
            record.is_told = true;
            let client = record.client;
            self.send(client, message);
        }
    }

    /// Answers a request of a program. A run that was told nothing ends at once if all is right.
    pub(super) fn answer_request(&mut self, request: u64, right: bool) {
        let asked = match self.calls.asked.remove(&request) {
            Some(asked) => asked,
            None => return,
        };
        if asked.script.is_some() {
            self.end_program(asked.client, if right { 0 } else { FAILED });
            return;
        }
        let record = self.calls.runs.get(&asked.run);
        if right && record.map_or(false, |record| !record.is_told) {
            self.end_program(asked.client, 0);
            self.close_run(asked.run);
        } else {
            self.tell_run(asked.run, &ToProgram::Answer { right });
        }
    }

    /// Says something to who asks: to the program that does, if it is about how it was called; else
    /// where the run shows what the script asks for.
    pub(super) fn say_of(&mut self, request: u64, what: &Saying) {
        let asked = match self.calls.asked.get(&request) {
            Some(asked) => asked.clone(),
            None => return,
        };
        if asked.script.is_some() && self.is_there_without_rule(what) {
            return;
        }
        let said = match self.take_obstacle(asked.run, what) {
            Some(text) => Say::Text(text),
            None => self.said(asked.run, what),
        };
        if matches!(what, Saying::Itself(_) | Saying::Exists(_)) {
            let folder = self
                .calls
                .runs
                .get(&asked.run)
                .map(|record| record.folder.clone());
            let folder = folder.unwrap_or_default();
            let text = said.line(|path| shown(&relative(path, &folder)));
            let line = [asked.program.name().as_bytes(), b": ", &text].concat();
            self.send(asked.client, &ToProgram::Error(line));
        } else {
            self.say_to_run(asked.run, asked.script, said);
        }
    }

    pub(super) fn say_to_run(&mut self, run: RunId, asker: Option<TaskId>, what: Say) {
        let asker = asker.map(|task| task.0);
        self.tell_run(run, &ToProgram::Say(Said { asker, what }));
    }

    /// Why a target failed that nobody had asked for before, if its script couldn't be run.
    fn take_obstacle(&mut self, run: RunId, what: &Saying) -> Option<Vec<u8>> {
        match what {
            Saying::FailedBefore(name) => self.calls.runs.get_mut(&run)?.obstacles.remove(name),
            _ => None,
        }
    }

    /// What the machine says, with paths.
    fn said(&self, run: RunId, what: &Saying) -> Say {
        let path = |name: &Name| self.path_of(*name);
        match what {
            Saying::Ring(names) => Say::Ring(names.iter().map(path).collect()),
            Saying::FailedBefore(name) => Say::FailedBefore(path(name)),
            Saying::NoRule(name) => self.said_of_no_rule(run, *name),
            Saying::ByHand(name) => Say::ByHand(path(name)),
            Saying::Gone(name) => Say::Gone(path(name)),
            Saying::Itself(name) => Say::Itself(path(name)),
            Saying::Source(name) => Say::Source(path(name)),
            Saying::RuleFailed { target, do_file } => Say::RuleFailed {
                target: path(target),
                do_file: path(do_file),
            },
            Saying::Exists(name) => Say::Exists(path(name)),
        }
    }

    /// Says whether something has no rule, and stays as it is: no script is told of that.
    fn is_there_without_rule(&self, what: &Saying) -> bool {
        match what {
            Saying::NoRule(name) => self.machine.database().file(Subject::File(*name)).is_some(),
            _ => false,
        }
    }

    /// What is said of a name without a rule that can be run.
    fn said_of_no_rule(&self, run: RunId, name: Name) -> Say {
        let record = self.calls.runs.get(&run);
        if let Some(text) = record.and_then(|record| record.obstacles.get(&name)) {
            return Say::Text(text.clone());
        }
        let what: &[u8] = match self.machine.database().file(Subject::File(name)) {
            None => return Say::NoRule(self.path_of(name)),
            Some(FOLDER) => b" is a folder",
            Some(_) => b" is there",
        };
        let shown = self.shown(run, name);
        Say::Text([&shown, what, b", and there is no rule to make it"].concat())
    }

    /// The absolute path of a name; a name that no path has stays as it is.
    pub(super) fn path_of(&self, name: Name) -> Vec<u8> {
        let name = self.machine.database().known.names.name(name);
        names::path_of(name, self.taken.home.top()).unwrap_or_else(|_| name.to_vec())
    }

    /// A name as a run shows it.
    pub(super) fn shown(&self, run: RunId, name: Name) -> Vec<u8> {
        let path = self.path_of(name);
        match self.calls.runs.get(&run) {
            Some(record) => shown(&relative(&path, &record.folder)),
            None => shown(&path),
        }
    }
}
