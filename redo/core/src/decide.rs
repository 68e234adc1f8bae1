//! What is done about a target, after a look at its file; its lock is held, so nobody builds it.
use crate::action::{Action, Say};
use crate::chore::Chore;
use crate::database::{Database, Mark, State};
use crate::event::Who;
use crate::machine::Machine;
use crate::name::{Name, RunId, Stamp, Subject, TaskId, FOLDER};
use crate::run::{Outcome, Run};
use crate::task::{Ending, Phase, Task};

/// What is to be done about a target.
#[derive(Clone, Copy, PartialEq, Eq, Debug)]
enum Verdict {
    /// No build made it.
    Source,
    /// It is up to date.
    Nothing,
    /// Somebody edited it.
    Leave,
    /// What it needs is out of date, and nothing else.
    Needs,
    Build,
}

impl<D: Database> Machine<D> {
    fn judge(&self, id: TaskId) -> Verdict {
        let Task { run, target, forced, overwrites, .. } = *self.task(id);
        let overwrites = overwrites && !self.was_built(run, target);
        let file = self.database.file(Subject::File(target));
        let is_file = file.map_or(false, |stamp| stamp != FOLDER);
        match self.database.state(target) {
            State::Idle if is_file && !overwrites => Verdict::Source,
            State::Idle => Verdict::Build,
            _ if self.is_edited(target) && !overwrites => Verdict::Leave,
            State::Failed => Verdict::Build,
            _ if forced => Verdict::Build,
            _ if !self.is_out_of_date(target) => Verdict::Nothing,
            _ if self.database.has_reason(target) => Verdict::Build,
            _ => Verdict::Needs,
        }
    }

    /// Decides by what the database says now: after the look, and once more after the search.
    pub(crate) fn decide(&mut self, id: TaskId, searched: bool) {
        let verdict = self.judge(id);
        let task = self.task_mut(id);
        task.phase = Phase::Busy;
        let (run, target) = (task.run, task.target);
        if task.askers.is_empty() {
            self.end(id, Ending::Unmade);
            return;
        }
        let is_gone = self.was_built(run, target);
        match verdict {
            Verdict::Source => self.source(id),
            Verdict::Nothing => self.end(id, Ending::Right),
            Verdict::Leave => self.leave(id),
            Verdict::Needs | Verdict::Build if is_gone => self.refuse_to_build_again(id),
            Verdict::Needs => self.needs(id, searched),
            Verdict::Build if searched => self.proceed(id),
            Verdict::Build => self.search(id),
        }
    }

    fn end(&mut self, task: TaskId, ending: Ending) {
        self.agenda.push_back(Chore::Unlock { task, ending });
    }

    fn search(&mut self, id: TaskId) {
        let task = self.task_mut(id);
        task.phase = Phase::Searching;
        let target = task.target;
        self.actions.push(Action::Search { task: id, target });
    }

    fn source(&mut self, id: TaskId) {
        let Task { target, forced, .. } = *self.task(id);
        if forced {
            self.say_of(id, &Say::Source(target));
        }
        self.end(id, Ending::Right);
    }

    /// A target that somebody edited stays as it is, with its rows.
    fn leave(&mut self, id: TaskId) {
        let Task { run, target, .. } = *self.task(id);
        let askers: Vec<_> = self.task(id).askers.iter().copied().collect();
        for asker in askers {
            self.warn(run, target, asker);
        }
        self.run_mut(run).left.insert(target);
        self.end(id, Ending::Right);
    }

    /// It was built in this run, and its file is gone.
    fn refuse_to_build_again(&mut self, id: TaskId) {
        let Task { run, target, .. } = *self.task(id);
        self.say_of(id, &Say::Gone(target));
        self.run_mut(run).outcomes.insert(target, Outcome::Failed);
        self.end(id, Ending::Failed);
    }

    /// What the target needed when it was last built, and is out of date, comes first.
    fn needs(&mut self, id: TaskId, searched: bool) {
        let task = self.task(id);
        let run = &self.runs[&task.run];
        let failed = |name: &Name| run.outcomes.get(name) == Some(&Outcome::Failed);
        let stops = !run.keep_going && task.tried.iter().any(failed);
        let names = if stops { Vec::new() } else { self.untried_needs(task, run) };
        if names.is_empty() {
            if searched {
                self.proceed(id);
            } else {
                self.search(id);
            }
            return;
        }
        self.task_mut(id).tried.extend(&names);
        self.release(id);
        let request = self.ask_inside(Who::Guess(id), id, names);
        self.task_mut(id).phase = Phase::Needing(request);
    }

    fn untried_needs(&self, task: &Task, run: &Run) -> Vec<Name> {
        let needs = self.database.needs(task.target).into_iter();
        let names = needs.filter_map(|subject| match subject {
            Subject::File(name) => Some(name),
            _ => None,
        });
        names
            .filter(|name| !task.tried.contains(name) && !run.left.contains(name))
            .filter(|name| !run.outcomes.contains_key(name))
            .filter(|name| self.is_out_of_date(*name))
            .collect()
    }

    /// The target is to be built, and the search has ended.
    fn proceed(&mut self, id: TaskId) {
        let Task { run, failed_rule, .. } = *self.task(id);
        let rule = match &self.task(id).rule {
            Some(rule) => rule,
            None => {
                self.without_rule(id);
                return;
            }
        };
        let do_file = rule.do_file;
        if failed_rule == Some(do_file) {
            self.fail_by_rule(id, do_file);
        } else if self.comes_first(run, do_file) {
            self.release(id);
            let request = self.ask_inside(Who::Rule(id), id, vec![do_file]);
            self.task_mut(id).phase = Phase::Preparing(request);
        } else {
            self.start(id);
            self.agenda.push_back(Chore::Launch(id));
        }
    }

    /// Whether a `.do` file is a target that is to be built, or left, first.
    fn comes_first(&self, run: RunId, do_file: Name) -> bool {
        let is_target = self.database.state(do_file) != State::Idle;
        is_target
            && !self.is_left(run, do_file)
            && !self.is_built(run, do_file)
            && (self.is_out_of_date(do_file) || self.is_edited(do_file))
    }

    /// Begins a build: it depends on its `.do` file, and on the absence of those that would win.
    fn start(&mut self, task: TaskId) {
        let Task { target, .. } = *self.task(task);
        let rule = self.task(task).rule.clone().expect("a rule was found");
        self.forget_left(task, target);
        self.agenda.push_back(Chore::Start(task));
        let subjects = vec![self.dependency(rule.do_file)];
        self.agenda.push_back(Chore::Rows { task, request: None, subjects });
        let absences = self.absences(task, rule.missing.iter().copied());
        self.agenda.extend(absences);
    }

    fn forget_left(&mut self, task: TaskId, target: Name) {
        if self.database.file(Subject::Left(target)).is_some() {
            self.agenda.push_back(Chore::ForgetLeft(task));
        }
    }

    /// Runs the script. It has read its `.do` file: the row on that stays.
    pub(crate) fn launch(&mut self, id: TaskId) {
        let task = self.task_mut(id);
        task.phase = Phase::Running;
        let (run, target, first) = (task.run, task.target, task.askers.iter().next().copied());
        let do_file = task.rule.as_ref().expect("a rule was found").do_file;
        task.answered.insert(do_file);
        self.readers.entry(do_file).or_default().insert(id);
        let asker = first.map(|asker| self.requests[&asker].who);
        self.actions.push(Action::Run { task: id, run, target, do_file, asker });
    }

    /// The `.do` file can't be made: so the target has failed, and is tried again with it.
    fn fail_by_rule(&mut self, id: TaskId, do_file: Name) {
        let Task { target, .. } = *self.task(id);
        self.say_of(id, &Say::RuleFailed { target, do_file });
        self.start(id);
        let stamp = self.database.file(Subject::File(target));
        self.end_failed(id, stamp);
    }

    fn without_rule(&mut self, id: TaskId) {
        let Task { run, target, .. } = *self.task(id);
        let is_idle = self.database.state(target) == State::Idle;
        match self.database.file(Subject::File(target)) {
            Some(_) if is_idle => {
                self.say_of(id, &Say::NoRule(target));
                self.end(id, Ending::Right);
            }
            _ if !self.is_firm(id) => self.end(id, Ending::Unmade),
            Some(stamp) => self.keep(id, stamp),
            None => {
                self.say_of(id, &Say::NoRule(target));
                self.run_mut(run).outcomes.insert(target, Outcome::Failed);
                self.end(id, Ending::Failed);
            }
        }
    }

    /// A target without a rule is kept as it is. It depends on the absence of a rule alone, and
    /// its mark stays, if it is known what that was.
    fn keep(&mut self, task: TaskId, stamp: Stamp) {
        let Task { run, target, .. } = *self.task(task);
        let mark = self.database.mark(Subject::File(target));
        let missing = self.runs[&run].missing.get(&target).cloned().unwrap_or_default();
        self.forget_left(task, target);
        self.task_mut(task).phase = Phase::Keeping;
        self.agenda.push_back(Chore::StartKept(task));
        let absences = self.absences(task, missing.into_iter());
        self.agenda.extend(absences);
        if let (Mark::Digest(digest), true) = (mark, self.database.is_as_built(target)) {
            self.agenda.push_back(Chore::Stamp { task, digest });
        }
        self.agenda.push_back(Chore::DoneKept { task, stamp: Some(stamp) });
        self.end(task, Ending::Built);
    }

    /// Whether somebody asks for a task by more than a guess.
    pub(crate) fn is_firm(&self, id: TaskId) -> bool {
        let mut askers = self.task(id).askers.iter();
        askers.any(|asker| !matches!(self.requests[asker].who, Who::Guess(_)))
    }
}
