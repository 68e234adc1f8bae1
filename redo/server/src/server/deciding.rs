//! The machine: it is told what happens, and what it wants is done.

use redo_core::{Action, Event, Name, RequestId, Task, TaskId};
use redo_files::{names, rules, FileError};
use redo_wire::ToProgram;

use crate::error::Failure;
use crate::naming::name_of_resolved;
use crate::others::Others;
use crate::server::{Server, State};

impl Server {
    pub(super) fn is_ready(&self) -> bool {
        self.state == State::Ready
    }

    /// Tells the machine what has happened, and does what it wants.
    pub(super) fn feed(&mut self, event: Event) {
        self.settle_clients();
        if self.is_ready() {
            self.tell_of_others();
            self.step_all(event);
            self.obey_all();
        }
    }

    /// Tells the machine what others than runs have done, and does what it wants.
    pub(super) fn feed_others(&mut self) {
        if self.others.is_empty() {
            return;
        }
        self.settle_clients();
        if self.is_ready() {
            self.tell_of_others();
            self.obey_all();
        }
    }

    /// Without a run, nothing rests on what others do: the next one finds out.
    fn tell_of_others(&mut self) {
        match self.machine.runs().keys().next().copied() {
            Some(run) => {
                while let Some(event) = self.others.next(run) {
                    self.step_all(event);
                }
            }
            None => self.others = Others::default(),
        }
    }

    fn obey_all(&mut self) {
        while let Some(action) = self.actions.pop_front() {
            self.obey(action);
        }
        self.note_failure();
    }

    /// Has all answered that others have asked, so that nobody else talks to the database.
    pub(super) fn settle_clients(&mut self) {
        while self.is_ready() && self.machine.database().live.is_busy() {
            self.flush_live();
            if self.machine.database().live.wait().is_err() {
                return;
            }
            self.hear_database();
        }
    }

    pub(super) fn step_all(&mut self, event: Event) {
        self.machine.event(event);
        while self.machine.step() {}
        self.actions.extend(self.machine.take_actions());
        self.tell_notes();
        for target in self.machine.database_mut().take_released() {
            let name = self.machine.database().known.names.name(target).clone();
            self.waits.released(&name);
            self.settle_waits();
        }
        for (run, told) in self.machine.database_mut().take_broken() {
            self.stop_run(run, &told);
        }
    }

    /// Takes it that redodb-live has ended, if that was found out.
    pub(super) fn note_failure(&mut self) {
        if self.machine.database_mut().take_failure().is_none() {
            return;
        }
        self.actions.clear();
        let program = self.machine.database_mut().live.take_program(&self.poll);
        if let Some(program) = program {
            self.live_ended(Failure::Ended(program.last_words()));
        }
    }

    fn obey(&mut self, action: Action) {
        if self.machine.database().has_failed() {
            return;
        }
        match action {
            Action::Look { task, target } => self.look_at_target(task, target),
            Action::Search { task, target } => self.search(task, target),
            Action::Run {
                task,
                run,
                target,
                do_file,
                asker,
            } => self.run_script((task, run), target, do_file, asker),
            Action::Answer {
                request: RequestId::Program(request),
                right,
            } => self.answer_request(request, right),
            Action::Say {
                request: RequestId::Program(request),
                what,
            } => self.say_of(request, &what),
            Action::Answer { .. } | Action::Say { .. } => {}
            Action::Want { run, slots } => {
                let slots = u32::try_from(slots).unwrap_or(u32::MAX);
                self.tell_run(run, &ToProgram::Want { slots });
            }
            Action::Return { run, slots } => self.tell_run(run, &ToProgram::Return { slots }),
        }
    }

    fn look_at_target(&mut self, task: TaskId, target: Name) {
        let known = &mut self.machine.database_mut().known;
        known.contents.begin_look();
        let stamp = known.look_at(target);
        self.step_all(Event::Looked { task, stamp });
    }

    /// Searches the `.do` file of a target. One that can't be run is found, and its script fails.
    fn search(&mut self, task: TaskId, target: Name) {
        let Task { run, forced, .. } = self.machine.tasks()[&task];
        self.tell_reason(run, target, forced);
        let found = self.searched(task, target);
        let (rule, missing) = match found {
            Ok(found) => found,
            Err(error) => self.obstructed(task, target, &error),
        };
        let known = &mut self.machine.database_mut().known;
        let rule = rule.and_then(|name| Some((name, known.look_at(name)?)));
        self.step_all(Event::Found {
            task,
            rule,
            missing,
        });
    }

    fn searched(
        &mut self,
        task: TaskId,
        target: Name,
    ) -> Result<(Option<Name>, Vec<Name>), FileError> {
        let run = self.machine.tasks()[&task].run;
        let (top, trust) = (
            self.taken.home.top().to_vec(),
            self.taken.home.trust().clone(),
        );
        let name = self.machine.database().known.names.name(target).clone();
        if let Some(record) = self.calls.runs.get_mut(&run) {
            record.obstacles.remove(&target);
            record.folders.check_inside(&name, &top)?;
        }
        let path = names::path_of(&name, &top)?;
        let found = rules::search(&path, &top, &trust)?;
        let missing = found.missing.iter().map(|path| self.name_inside(path));
        let missing = missing.collect::<Result<Vec<Name>, FileError>>()?;
        let rule = found.rule.map(|rule| self.name_inside(&rule.do_file));
        Ok((rule.transpose()?, missing))
    }

    /// The name of a path in a folder of the tree, or above it, which has no link on its way.
    fn name_inside(&mut self, path: &[u8]) -> Result<Name, FileError> {
        let name = name_of_resolved(path, self.taken.home.top())?;
        Ok(self.machine.database_mut().known.intern(&name))
    }

    /// Notes why a target has no rule that can be run, and returns what stands in its place.
    fn obstructed(
        &mut self,
        task: TaskId,
        target: Name,
        error: &FileError,
    ) -> (Option<Name>, Vec<Name>) {
        let run = self.machine.tasks()[&task].run;
        let text = [self.shown(run, target).as_slice(), b": ", &error.text()].concat();
        if let Some(record) = self.calls.runs.get_mut(&run) {
            record.obstacles.insert(target, text);
        }
        let place = match error {
            FileError::NoRule { do_file, .. } => self.name_inside(do_file).ok(),
            _ => None,
        };
        (place, Vec::new())
    }
}
