//! Requests: rows are noted for a script, what is stale is begun, and then there is an answer.
use crate::action::{Action, Say};
use crate::chore::Chore;
use crate::database::{Database, Mark, State};
use crate::event::{Look, Want, Who};
use crate::machine::{Machine, Note};
use crate::name::{Name, RequestId, RunId, Subject, TaskId};
use crate::request::{Request, Stage};
use crate::run::{Outcome, Waiter};
use crate::task::Task;
use std::collections::{BTreeSet, VecDeque};

impl<D: Database> Machine<D> {
    /// Whether the run is open, and the script runs that asks.
    pub(crate) fn may_ask(&self, run: RunId, who: Who) -> bool {
        let is_there = match who {
            Who::User => true,
            Who::Script(task) => self.is_running(task) && self.task(task).run == run,
            Who::Guess(_) | Who::Rule(_) => false,
        };
        is_there && self.runs.contains_key(&run)
    }

    pub(crate) fn depth_of(&self, who: Who) -> u32 {
        match who {
            Who::User => 0,
            Who::Script(task) | Who::Guess(task) | Who::Rule(task) => self.task(task).depth + 1,
        }
    }

    /// Takes a request. What it asks for is begun at once, or after its rows.
    pub(crate) fn ask(&mut self, id: RequestId, mut request: Request) {
        let mut seen = BTreeSet::new();
        request.names.retain(|name| seen.insert(*name));
        self.run_mut(request.run).requests.insert(id);
        if let Who::Script(task) = request.who {
            self.task_mut(task).requests.insert(id);
        }
        let (notes_rows, names) = (request.notes_rows(), request.names.clone());
        self.requests.insert(id, request);
        if !notes_rows {
            self.go(id, names.into());
        }
    }

    /// Tells the database of the files that a script asks for, if their rows are to be noted.
    pub(crate) fn note_looks(&mut self, id: RequestId, names: &[Name], looks: &[Look]) {
        let request = &self.requests[&id];
        let task = match request.who {
            Who::Script(task) => task,
            _ => return,
        };
        let Task { run, target, .. } = *self.task(task);
        if !request.notes_rows() {
            return;
        }
        if names.contains(&target) {
            self.agenda.push_back(Chore::Refuse(id));
            return;
        }
        for (name, look) in names.iter().zip(looks) {
            self.tell(run, Subject::File(*name), look.stamp);
            self.note_late(task, *name, *look);
        }
        self.agenda.push_back(Chore::Note(id));
    }

    /// A file that no build made was changed after the script began, which may have read it before:
    /// that counts if the script asks for it for the first time.
    fn note_late(&mut self, task: TaskId, name: Name, look: Look) {
        let is_source = self.database.state(name) == State::Idle;
        let task = self.task_mut(task);
        task.doubtful |= look.late && is_source && !task.answered.contains(&name);
    }

    /// Begins what a script asks for and isn't right. If all is, the script is answered.
    pub(crate) fn depend(&mut self, id: RequestId) {
        let Request { run, .. } = self.requests[&id];
        let names = self.requests[&id].names.clone();
        let absent: BTreeSet<Name> =
            names.iter().copied().filter(|name| self.is_absent(*name)).collect();
        let (right, todo): (Vec<Name>, Vec<Name>) =
            names.into_iter().partition(|name| self.is_right(run, id, *name));
        let todo = VecDeque::from(todo);
        right.into_iter().for_each(|name| self.note(Note::Passed(run, name)));
        let request = self.request_mut(id);
        request.absent = absent;
        request.wanted = todo.iter().copied().collect();
        if todo.is_empty() {
            self.settle(id);
        } else {
            self.go(id, todo);
        }
    }

    /// Idle, and without a file.
    fn is_absent(&self, name: Name) -> bool {
        self.database.state(name) == State::Idle
            && self.database.file(Subject::File(name)).is_none()
    }

    /// Whether a name is right without a look at it: neither stale nor edited, or built or left in
    /// this run. Whether it is stale was answered when its row was noted.
    fn is_right(&self, run: RunId, id: RequestId, name: Name) -> bool {
        if self.is_edited(name) {
            return self.is_left(run, name);
        }
        let task = match self.requests[&id].who {
            Who::Script(task) => task,
            _ => return false,
        };
        let is_stale = if self.task(task).answered.contains(&name) {
            self.is_out_of_date(name) || self.is_absent(name)
        } else {
            self.requests[&id].stale.contains(&name)
        };
        !is_stale || self.is_built(run, name)
    }

    /// Whether a name is out of date: no source is.
    pub(crate) fn is_out_of_date(&self, name: Name) -> bool {
        self.database.state(name) != State::Idle && self.database.is_out_of_date(name)
    }

    /// Built in this run, and its file is what that build left.
    pub(crate) fn is_built(&self, run: RunId, name: Name) -> bool {
        self.was_built(run, name) && self.database.is_as_built(name)
    }

    /// Built in this run, or kept as it was without a rule, whatever its file is by now.
    pub(crate) fn was_built(&self, run: RunId, name: Name) -> bool {
        self.runs[&run].outcomes.get(&name) == Some(&Outcome::Built)
    }

    /// Has names begun, one after the other, as slots come. The script's own slot is the first.
    pub(crate) fn go(&mut self, id: RequestId, todo: VecDeque<Name>) {
        let is_empty = todo.is_empty();
        let request = self.request_mut(id);
        request.todo = todo;
        request.stage = Stage::Going;
        let (who, depth) = (request.who, request.depth);
        if is_empty {
            self.agenda.push_back(Chore::Over(id));
            return;
        }
        if let Who::Script(task) = who {
            self.answer_without_slot(task);
            self.release(task);
        }
        self.queue(Waiter::Begin(id), depth);
    }

    /// A script asks once more while its slot is on its way back: it gets the answers without.
    fn answer_without_slot(&mut self, task: TaskId) {
        self.leave_queue_of(task);
        self.reply_all(task);
    }

    /// Has a script answered whose slot has come, for all requests that are done.
    pub(crate) fn reply_all(&mut self, task: TaskId) {
        let requests = self.task(task).requests.iter().copied();
        let done = requests.filter(|id| self.requests[id].stage == Stage::Back);
        let replies: Vec<Chore> = done.map(Chore::Reply).collect();
        self.agenda.extend(replies);
    }

    /// Looks whether all names of a request are begun, and all its tasks have ended.
    pub(crate) fn over(&mut self, id: RequestId) {
        let request = match self.requests.get(&id) {
            Some(request) => request,
            None => return,
        };
        let is_done = request.todo.is_empty() && request.open.is_empty();
        if request.stage != Stage::Going || !is_done {
            return;
        }
        let (who, depth, right) = (request.who, request.depth, request.failed.is_empty());
        self.leave_queue(id);
        match who {
            Who::User => {
                self.warn_of_edited(id);
                self.remove_request(id);
                self.actions.push(Action::Answer { request: id, right });
            }
            Who::Guess(task) | Who::Rule(task) => self.over_inside(id, task),
            Who::Script(task) => {
                self.request_mut(id).stage = Stage::Back;
                if self.has_going(task) {
                    self.agenda.push_back(Chore::Reply(id));
                } else if self.task(task).turn.is_none() {
                    self.queue(Waiter::Back(task), depth + 1);
                }
            }
        }
    }

    /// Whether a request of a script still goes on.
    pub(crate) fn has_going(&self, task: TaskId) -> bool {
        let mut requests = self.task(task).requests.iter();
        requests.any(|id| self.requests[id].stage == Stage::Going)
    }

    /// A request of a task itself is over: the task goes on with a look.
    fn over_inside(&mut self, id: RequestId, task: TaskId) {
        let request = self.remove_request(id);
        if let Who::Rule(_) = request.who {
            self.task_mut(task).failed_rule = request.failed.iter().next().copied();
        }
        self.want_slot(task);
    }

    /// The rows of what the script reads from now on; then the answer.
    pub(crate) fn reply(&mut self, id: RequestId) {
        let request = match self.requests.get(&id) {
            Some(request) => request,
            None => return,
        };
        let task = match request.who {
            Who::Script(task) => task,
            _ => return,
        };
        let mut chores = match (request.notes_rows(), request.failed.is_empty()) {
            (false, _) => Vec::new(),
            (true, true) => self.renewed(task, request),
            (true, false) => self.absences(task, request.missing.iter().copied()),
        };
        chores.push(Chore::Settle(id));
        self.first(chores);
    }

    /// Answers a script.
    pub(crate) fn settle(&mut self, id: RequestId) {
        let request = self.remove_request(id);
        let task = match request.who {
            Who::Script(task) => task,
            _ => return,
        };
        if request.notes_rows() {
            self.settle_rows(task, &request);
        }
        let right = request.failed.is_empty();
        self.actions.push(Action::Answer { request: id, right });
    }

    /// From now on the script was answered for these names. It may have read what wasn't there
    /// when it asked, or isn't any more.
    fn settle_rows(&mut self, task: TaskId, request: &Request) {
        let target = self.task(task).target;
        let right = request.failed.is_empty();
        let is_new = |name: &&Name| !self.task(task).answered.contains(name);
        let new: Vec<Name> = request.names.iter().filter(is_new).copied().collect();
        let vanished_or_came = |name: &Name| match self.database.mark(Subject::File(*name)) {
            Mark::Absent => true,
            Mark::File(_) => request.absent.contains(name),
            _ => false,
        };
        let hidden = |name: &Name| !self.shows_failure(target, *name, request);
        let doubtful = right && new.iter().any(vanished_or_came)
            || new.iter().any(|name| !self.agrees(target, *name))
            || request.failed.iter().any(hidden);
        self.task_mut(task).doubtful |= doubtful;
        self.task_mut(task).answered.extend(&new);
        for name in new {
            self.readers.entry(name).or_default().insert(task);
        }
    }

    /// Whether a row shows that a name which the script did without can be had one day.
    fn shows_failure(&self, target: Name, name: Name, request: &Request) -> bool {
        let mark = self.database.mark(self.dependency(name));
        let has_no_rule = self.runs[&request.run].missing.contains_key(&name);
        mark == Mark::Pending || mark == Mark::Absent && has_no_rule || !self.agrees(target, name)
    }

    /// A name of a request can't be made right. Without keep-going, no more of them are begun.
    pub(crate) fn failed(&mut self, id: RequestId, name: Name) {
        let request = match self.requests.get_mut(&id) {
            Some(request) => request,
            None => return,
        };
        request.failed.insert(name);
        let run = &self.runs[&request.run];
        request.missing.extend(run.missing.get(&name).into_iter().flatten());
        if !run.keep_going {
            request.todo.clear();
        }
    }

    /// A script asks for its own target: it learns nothing of the other names.
    pub(crate) fn refuse(&mut self, id: RequestId) {
        if let Who::Script(task) = self.requests[&id].who {
            let target = self.task(task).target;
            self.say(id, &Say::Itself(target));
        }
        self.remove_request(id);
        self.actions.push(Action::Answer { request: id, right: false });
    }

    /// Takes a request off all lists but those of the tasks that it waits for.
    pub(crate) fn remove_request(&mut self, id: RequestId) -> Request {
        self.leave_queue(id);
        let request = self.requests.remove(&id).expect("a request that is open");
        self.run_mut(request.run).requests.remove(&id);
        if let Who::Script(task) = request.who {
            self.task_mut(task).requests.remove(&id);
        }
        request
    }

    /// A request of a task itself.
    pub(crate) fn ask_inside(&mut self, who: Who, task: TaskId, names: Vec<Name>) -> RequestId {
        self.requests_made += 1;
        let id = RequestId::Own(self.requests_made);
        let Task { run, .. } = *self.task(task);
        self.ask(id, Request::new(run, who, Want::UpToDate, self.depth_of(who), names));
        id
    }
}
