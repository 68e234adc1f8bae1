//! Scripts that the machine wants to be run.

use redo_core::{Database, Event, Name, RequestId, RunId, Subject, Task, TaskId, Who};
use redo_files::names;
use redo_files::rules::{self, Rule};
use redo_files::top::places;
use redo_wire::{Say, Script as WireScript, Surroundings, ToProgram};

use crate::calls::{Asked, Script};
use crate::server::Server;

impl Server {
    /// Has a run start a script. That of a rule that can't be run has failed.
    pub(super) fn run_script(
        &mut self,
        (task, run): (TaskId, RunId),
        target: Name,
        do_file: Name,
        asker: Option<Who>,
    ) {
        let obstacle = match self.calls.runs.get_mut(&run) {
            Some(record) => record.obstacles.remove(&target),
            None => return,
        };
        let parent = self.script_above(asker);
        self.note_built_before(run, target, asker);
        let script = self
            .rule_of(target, do_file)
            .map(|rule| self.script(task, target, rule));
        match (obstacle, script) {
            (None, Some(mut script)) => {
                script.asker = parent.map(|task| task.0);
                self.begin_script(task, run, target, script);
            }
            (obstacle, _) => {
                let text = obstacle.unwrap_or_else(|| self.shown(run, target));
                self.tell_obstacle(task, parent, text);
                let stamp = self.machine.database_mut().known.look_at(target);
                self.step_all(Event::Ended {
                    task,
                    ok: false,
                    stamp,
                    content: None,
                });
            }
        }
    }

    fn begin_script(&mut self, task: TaskId, run: RunId, target: Name, script: WireScript) {
        let began = self.machine.database_mut().known.time_now(places::LOCK);
        let script_begun = Script {
            target,
            began,
            is_guess: script.is_guess,
        };
        if let Some(record) = self.calls.runs.get_mut(&run) {
            record.scripts.insert(task, script_begun);
        }
        self.tell_run(run, &ToProgram::Run(Box::new(script)));
    }

    fn rule_of(&self, target: Name, do_file: Name) -> Option<Rule> {
        let (top, store) = (self.taken.home.top(), self.machine.database());
        let path = names::path_of(store.known.names.name(target), top).ok()?;
        let do_path = names::path_of(store.known.names.name(do_file), top).ok()?;
        rules::candidates(&path, top).find(|rule| rule.do_file == do_path)
    }

    fn script(&mut self, task: TaskId, target: Name, rule: Rule) -> WireScript {
        let store = self.machine.database();
        let stamp = store.file(Subject::File(target));
        let run = self.machine.tasks()[&task].run;
        let surroundings = self.surroundings_for(task, run);
        let record = self.calls.runs.get_mut(&run);
        let before = record.and_then(|record| record.built_before.remove(&task));
        let name = |name: Name| store.known.names.name(name).to_vec();
        WireScript {
            task: task.0,
            target: name(target),
            do_file: rule.do_file,
            folder: rule.folder,
            first: rule.first,
            second: rule.second,
            grant: store.grant(target),
            asker: None,
            surroundings,
            stamp: stamp.map(|stamp| store.known.text_of(stamp).into_bytes()),
            built_before: before.unwrap_or_default().into_iter().map(name).collect(),
            is_guess: self.firm_asker(task).is_none(),
        }
    }

    /// Says why a script can't be run, once somebody has asked for its target.
    fn tell_obstacle(&mut self, task: TaskId, parent: Option<TaskId>, text: Vec<u8>) {
        let Task { run, target, .. } = self.machine.tasks()[&task];
        if self.firm_asker(task).is_some() {
            self.say_to_run(run, parent, Say::Text(text));
        } else if let Some(record) = self.calls.runs.get_mut(&run) {
            record.obstacles.insert(target, text);
        }
    }

    /// Has the run say why a script has failed that was run as a guess, if by now somebody has
    /// asked for its target.
    pub(super) fn tell_failed_guess(&mut self, task: TaskId) {
        let Task { run, target, .. } = self.machine.tasks()[&task];
        if let Some(asked) = self.firm_asker(task) {
            let (asker, path) = (asked.script, self.path_of(target));
            self.say_to_run(run, asker, Say::FailedBefore(path));
        }
    }

    /// Who asks for a task, if it isn't all a guess.
    fn firm_asker(&self, task: TaskId) -> Option<&Asked> {
        let askers = self.machine.tasks().get(&task)?.askers.iter();
        let mut firm = askers.filter_map(|asker| match asker {
            RequestId::Program(request) => self.calls.asked.get(request),
            RequestId::Own(_) => match self.machine.requests().get(asker)?.who {
                Who::Rule(above) => self.firm_asker(above),
                _ => None,
            },
        });
        firm.next()
    }

    /// What a script inherits from who asks for its target first, if that isn't the run itself.
    fn surroundings_for(&self, task: TaskId, run: RunId) -> Option<Surroundings> {
        let asked = self.asked_first(task)?;
        let record = self.calls.runs.get(&run)?;
        let is_other = asked.script.is_some() && *asked.surroundings != *record.surroundings;
        is_other.then(|| (*asked.surroundings).clone())
    }

    /// The request of a program for which a task is there, first of all.
    fn asked_first(&self, task: TaskId) -> Option<&Asked> {
        let mut task = task;
        loop {
            let asker = *self.machine.tasks().get(&task)?.askers.iter().next()?;
            match (asker, self.machine.requests().get(&asker)?.who) {
                (RequestId::Program(request), _) => return self.calls.asked.get(&request),
                (_, Who::Guess(above) | Who::Rule(above)) => task = above,
                _ => return None,
            }
        }
    }

    /// The script that asks for something, if it isn't a user.
    fn script_above(&self, asker: Option<Who>) -> Option<TaskId> {
        match asker? {
            Who::User => None,
            Who::Script(task) => Some(task),
            Who::Guess(task) | Who::Rule(task) => self.asked_first(task)?.script,
        }
    }

    fn note_built_before(&mut self, run: RunId, target: Name, asker: Option<Who>) {
        if let (Some(Who::Guess(task) | Who::Rule(task)), Some(record)) =
            (asker, self.calls.runs.get_mut(&run))
        {
            record.built_before.entry(task).or_default().push(target);
        }
    }
}
