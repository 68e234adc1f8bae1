//! Rows: what a target depends on, and whether that has changed while it was built.
use crate::action::{Action, Say};
use crate::chore::Chore;
use crate::database::{Command, Database, Reply, State, MOST_NAMES};
use crate::event::Who;
use crate::machine::Machine;
use crate::name::{Name, RequestId, RunId, Stamp, Subject, TaskId};
use crate::request::Request;
use crate::run::Outcome;
use crate::task::Task;
use std::collections::BTreeSet;

impl<D: Database> Machine<D> {
    /// Has the database told of a file, if it is news.
    pub(crate) fn tell(&mut self, run: RunId, subject: Subject, stamp: Option<Stamp>) {
        if self.runs.contains_key(&run) {
            self.agenda.push_back(Chore::Report { run, subject, stamp });
        }
    }

    pub(crate) fn report(&mut self, run: RunId, subject: Subject, stamp: Option<Stamp>) {
        if self.database.file(subject) == stamp {
            return;
        }
        self.database.obey(run, &file_command(subject, stamp));
        if let Subject::File(name) = subject {
            self.changed(run, name);
        }
    }

    /// A command was about this name: it may be edited now, or not any more, and it may have
    /// changed while scripts run that were answered for it.
    pub(crate) fn changed(&mut self, run: RunId, name: Name) {
        if self.shadow(name) != self.database.file(Subject::Edited(name)) {
            self.agenda.push_front(Chore::Shadow { run, target: name });
        }
        self.doubt_readers(name);
    }

    /// Somebody who is no run has changed a name: the scripts may have read it so that were answered
    /// for it before, whatever it is by now.
    pub(crate) fn touched(&mut self, run: RunId, name: Name) {
        for reader in self.readers.get(&name).cloned().unwrap_or_default() {
            self.task_mut(reader).doubtful = true;
        }
        if self.runs.contains_key(&run) {
            self.changed(run, name);
        }
    }

    /// Of a script that was answered for this name, the target is to be built once more, whatever
    /// the script makes of both, and whatever comes after.
    fn doubt_readers(&mut self, name: Name) {
        let readers = match self.readers.get(&name) {
            Some(readers) => readers,
            None => return,
        };
        let doubtful: Vec<TaskId> = readers
            .iter()
            .copied()
            .filter(|reader| !self.agrees(self.task(*reader).target, name))
            .collect();
        for task in doubtful {
            self.task_mut(task).doubtful = true;
        }
    }

    /// Whether a row is on a name as it is now.
    pub(crate) fn agrees(&self, target: Name, name: Name) -> bool {
        let subject = self.dependency(name);
        let is_built = subject == Subject::File(name) && self.database.state(name) == State::Built;
        self.database.row(target, subject) == Some(self.database.mark(subject))
            && (!is_built || self.database.is_as_built(name))
    }

    /// Puts the rows of a request on the agenda, but for names that the script was answered for
    /// before: it may have read those.
    pub(crate) fn note_rows(&mut self, id: RequestId) {
        let request = &self.requests[&id];
        let task = match request.who {
            Who::Script(task) => task,
            _ => return,
        };
        let answered = &self.task(task).answered;
        let new = request.names.iter().filter(|name| !answered.contains(name));
        let mut chores = self.rows(task, Some(id), new.copied());
        chores.push(Chore::Depend(id));
        self.first(chores);
    }

    /// The rows of now, for names that were begun for a script, which reads them from now on. Other
    /// names were right when it asked: it may have read them before, so their rows stay.
    pub(crate) fn renewed(&self, task: TaskId, request: &Request) -> Vec<Chore> {
        let answered = &self.task(task).answered;
        let begun = request.names.iter().filter(|name| request.wanted.contains(name));
        let renewed = begun.filter(|name| !answered.contains(name));
        self.rows(task, None, renewed.copied())
    }

    fn rows(
        &self,
        task: TaskId,
        request: Option<RequestId>,
        names: impl Iterator<Item = Name>,
    ) -> Vec<Chore> {
        let subjects: Vec<Subject> = names.map(|name| self.dependency(name)).collect();
        let parts = subjects.chunks(MOST_NAMES);
        parts.map(|part| Chore::Rows { task, request, subjects: part.to_vec() }).collect()
    }

    /// Puts the rows of some names, and notes which of them are stale for a request.
    pub(crate) fn put_rows(
        &mut self,
        task: TaskId,
        request: Option<RequestId>,
        subjects: Vec<Subject>,
    ) {
        let target = self.task(task).target;
        let reply = self.call(task, &Command::IfChange(target, subjects));
        if let (Reply::Stale(subjects), Some(request)) = (reply, request) {
            let names = subjects.into_iter().filter_map(|subject| match subject {
                Subject::File(name) => Some(name),
                _ => None,
            });
            self.request_mut(request).stale.extend(names);
        }
    }

    /// The rows on the absence of `.do` files.
    pub(crate) fn absences(&self, task: TaskId, names: impl Iterator<Item = Name>) -> Vec<Chore> {
        let Task { target, .. } = *self.task(task);
        let names: Vec<Name> = names.filter(|name| *name != target).collect();
        let parts = names.chunks(MOST_NAMES);
        parts.map(|part| Chore::Absent { task, names: part.to_vec() }).collect()
    }

    /// Notes that names have no file. If one of them has by now, the target is doubtful.
    pub(crate) fn note_absence(&mut self, task: TaskId, names: Vec<Name>) {
        let Task { target, .. } = *self.task(task);
        if let Reply::Exists(_) = self.call(task, &Command::IfCreate(target, names)) {
            self.task_mut(task).doubtful = true;
        }
    }

    /// Notes that names have no file, as far as one command can, and answers the script once all
    /// are noted.
    pub(crate) fn if_create(&mut self, task: TaskId, request: RequestId, mut names: Vec<Name>) {
        let Task { target, .. } = *self.task(task);
        let rest = names.split_off(names.len().min(MOST_NAMES));
        let what = if names.contains(&target) {
            Some(Say::Itself(target))
        } else {
            self.no_file(task, names)
        };
        if what.is_none() && !rest.is_empty() {
            self.agenda.push_front(Chore::IfCreate { task, request, names: rest });
            return;
        }
        let right = what.is_none();
        self.actions.extend(what.map(|what| Action::Say { request, what }));
        self.actions.push(Action::Answer { request, right });
    }

    /// Has rows that names have no file. Returns what is to be said if one has.
    fn no_file(&mut self, task: TaskId, names: Vec<Name>) -> Option<Say> {
        let Task { target, .. } = *self.task(task);
        if names.is_empty() {
            return None;
        }
        match self.call(task, &Command::IfCreate(target, names)) {
            Reply::Exists(name) => Some(Say::Exists(name)),
            _ => None,
        }
    }

    /// Tells the stamp that `//always` has in this run.
    pub(crate) fn tell_always(&mut self, id: RunId) {
        let run = self.run_mut(id);
        let stamp = run.always;
        run.has_told_always = true;
        self.tell(id, Subject::Always, Some(stamp));
    }

    /// The target depends on the one name whose stamp is another in each run. If that is the stamp
    /// of a run that began later, the target is doubtful: that run builds it once more.
    pub(crate) fn always(&mut self, id: RunId, task: TaskId) {
        let told = self.database.file(Subject::Always);
        if !self.runs[&id].has_told_always {
            self.tell_always(id);
        } else if told != Some(self.runs[&id].always) {
            self.task_mut(task).doubtful = true;
        }
        let subjects = vec![Subject::Always];
        self.agenda.push_back(Chore::Rows { task, request: None, subjects });
    }

    // ---- edited targets

    /// Whether the file of a target is neither what its last build left, nor a folder. Of a build
    /// that was broken off it isn't known what it left.
    pub(crate) fn is_edited(&self, target: Name) -> bool {
        self.shadow(target).is_some()
    }

    /// Edited, left as it is in this run before, and not failed there.
    pub(crate) fn is_left(&self, id: RunId, name: Name) -> bool {
        let run = &self.runs[&id];
        run.left.contains(&name)
            && run.outcomes.get(&name) != Some(&Outcome::Failed)
            && self.is_edited(name)
    }

    /// The stamp that `//edited/TARGET` should have.
    fn shadow(&self, target: Name) -> Option<Stamp> {
        let file = self.database.file(Subject::File(target))?;
        let is_unlike = file != crate::FOLDER && !self.database.is_as_built(target);
        let is_edited = is_unlike
            && match self.database.state(target) {
                State::Idle | State::Building(_) => false,
                State::Built => true,
                State::Failed => {
                    let left = self.database.file(Subject::Left(target));
                    left.map_or(false, |left| left != file)
                }
            };
        is_edited.then_some(file)
    }

    /// What a row on a name is on: on the content of an edited target, else on the name itself.
    pub(crate) fn dependency(&self, name: Name) -> Subject {
        if self.is_edited(name) && self.database.has_own_names(name) {
            Subject::Edited(name)
        } else {
            Subject::File(name)
        }
    }

    pub(crate) fn tell_shadow(&mut self, run: RunId, target: Name) {
        let stamp = self.shadow(target);
        let subject = Subject::Edited(target);
        if self.database.has_own_names(target) && self.database.file(subject) != stamp {
            self.database.obey(run, &file_command(subject, stamp));
            self.doubt_readers(target);
        }
    }

    /// Says once in a run that a target is edited: not to a guess, which says nothing.
    pub(crate) fn warn(&mut self, run: RunId, target: Name, asker: RequestId) {
        let is_new = !self.runs[&run].warned.contains(&target);
        if is_new && self.say(asker, &Say::ByHand(target)) {
            self.run_mut(run).warned.insert(target);
        }
    }

    /// Warns of the edited targets that a user's names are built from.
    pub(crate) fn warn_of_edited(&mut self, id: RequestId) {
        let run = self.requests[&id].run;
        let left = self.runs[&run].left.iter().copied();
        let left = left.filter(|name| self.is_edited(*name));
        let edited: BTreeSet<Name> = self.database.edited().into_iter().chain(left).collect();
        if edited.is_empty() {
            return;
        }
        let names = self.requests[&id].names.clone();
        for name in self.built_from(names).intersection(&edited) {
            self.warn(run, *name, id);
        }
    }

    /// Names, and all that they were built from.
    fn built_from(&self, names: Vec<Name>) -> BTreeSet<Name> {
        let mut seen: BTreeSet<Name> = names.iter().copied().collect();
        let mut line = names;
        while let Some(name) = line.pop() {
            let needs = self.database.needs(name).into_iter().filter_map(|subject| match subject {
                Subject::File(need) | Subject::Edited(need) => Some(need),
                Subject::Left(_) | Subject::Always => None,
            });
            line.extend(needs.filter(|need| seen.insert(*need)));
        }
        seen
    }
}

fn file_command(subject: Subject, stamp: Option<Stamp>) -> Command {
    stamp.map_or(Command::Gone(subject), |stamp| Command::File(subject, stamp))
}
