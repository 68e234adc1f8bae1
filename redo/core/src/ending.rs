//! The end of a script, of a task, of a request whose program is gone, and of a run.
use crate::chore::Chore;
use crate::database::{Command, Database};
use crate::event::Who;
use crate::machine::{Machine, Note};
use crate::name::{Digest, Name, RequestId, RunId, Stamp, Subject, TaskId, NO_FILE};
use crate::run::{Outcome, Waiter};
use crate::task::{Ending, Phase, Task};

impl<D: Database> Machine<D> {
    /// A script has ended. Its requests are answered to nobody, and it gets no slot back.
    pub(crate) fn ended(
        &mut self,
        id: TaskId,
        ok: bool,
        stamp: Option<Stamp>,
        content: Option<Digest>,
    ) {
        let requests: Vec<RequestId> = self.task(id).requests.iter().copied().collect();
        for request in requests {
            self.cancel(request);
        }
        self.leave_queue_of(id);
        self.forget_reader(id);
        let task = self.task_mut(id);
        task.phase = Phase::Busy;
        if ok {
            let (doubtful, is_stamped) = (task.doubtful, task.is_stamped);
            self.end_well(id, stamp, content.filter(|_| !is_stamped), doubtful);
        } else {
            self.end_failed(id, stamp);
        }
    }

    fn end_well(
        &mut self,
        task: TaskId,
        stamp: Option<Stamp>,
        content: Option<Digest>,
        doubtful: bool,
    ) {
        if doubtful {
            self.agenda.push_back(Chore::Doubt(task));
        }
        self.agenda.extend(content.map(|digest| Chore::Stamp { task, digest }));
        self.agenda.push_back(Chore::Done { task, stamp });
        self.agenda.push_back(Chore::Unlock { task, ending: Ending::Built });
    }

    /// A build has failed: what it left is no edit.
    pub(crate) fn end_failed(&mut self, task: TaskId, stamp: Option<Stamp>) {
        let Task { run, target, .. } = *self.task(task);
        if self.database.has_own_names(target) {
            self.tell(run, Subject::Left(target), Some(stamp.unwrap_or(NO_FILE)));
        }
        self.tell(run, Subject::File(target), stamp);
        self.agenda.push_back(Chore::Fail(task));
        self.agenda.push_back(Chore::Unlock { task, ending: Ending::Failed });
    }

    fn forget_reader(&mut self, id: TaskId) {
        let answered = std::mem::take(&mut self.task_mut(id).answered);
        for name in answered {
            if let Some(readers) = self.readers.get_mut(&name) {
                readers.remove(&id);
            }
            if self.readers.get(&name).map_or(false, |readers| readers.is_empty()) {
                self.readers.remove(&name);
            }
        }
    }

    pub(crate) fn done(&mut self, id: TaskId, stamp: Option<Stamp>) {
        self.task_mut(id).phase = Phase::Busy;
        let Task { run, target, .. } = *self.task(id);
        self.call(id, &Command::Done(target, stamp));
        let run = self.run_mut(run);
        run.outcomes.insert(target, Outcome::Built);
        run.missing.remove(&target);
    }

    pub(crate) fn fail(&mut self, id: TaskId) {
        let Task { run, target, .. } = *self.task(id);
        self.call(id, &Command::Failed(target));
        self.run_mut(run).outcomes.insert(target, Outcome::Failed);
    }

    /// The end of a task: its lock goes to the next in line, its slot to the queue, and what came
    /// of it to who asked.
    pub(crate) fn unlock(&mut self, id: TaskId, ending: Ending) {
        if ending == Ending::Unmade && self.is_firm(id) {
            // somebody has asked since nobody did: from the beginning
            let task = self.task_mut(id);
            task.tried.clear();
            task.failed_rule = None;
            self.release(id);
            self.want_slot(id);
            return;
        }
        let target = self.task(id).target;
        self.call(id, &Command::Unlock(target));
        let task = self.remove_task(id);
        self.note(Note::Finished(task.run, target, ending));
        self.owners.remove(&target);
        for asker in task.askers {
            self.request_mut(asker).open.remove(&id);
            if ending == Ending::Failed {
                self.failed(asker, target);
            }
            self.agenda.push_back(Chore::Over(asker));
        }
        if task.has_slot {
            // after those who asked: what they do next is the deepest
            self.run_mut(task.run).free += 1;
            self.agenda.push_back(Chore::Serve(task.run));
        }
        self.next_in_line(target);
    }

    fn remove_task(&mut self, id: TaskId) -> Task {
        let task = self.tasks.remove(&id).expect("a task that hasn't ended");
        self.wanted.remove(&(task.run, task.target));
        self.run_mut(task.run).tasks.remove(&id);
        task
    }

    // ---- what is gone

    /// The program of a request is gone. If its script waits for no other, it has its slot again.
    pub(crate) fn left(&mut self, id: RequestId) {
        let request = match self.requests.get(&id) {
            Some(request) => request,
            None => return,
        };
        let (who, depth) = (request.who, request.depth);
        self.cancel(id);
        if let Who::Script(task) = who {
            let has_turn = self.task(task).turn.is_some();
            if !self.has_going(task) && !has_turn && !self.task(task).has_slot {
                self.queue(Waiter::Back(task), depth + 1);
            }
        }
    }

    /// Ends a request without an answer. Tasks that nobody asks for any more end as soon as they
    /// can.
    fn cancel(&mut self, id: RequestId) {
        let request = self.remove_request(id);
        for task in request.open {
            self.task_mut(task).askers.remove(&id);
            self.abandon(task);
        }
    }

    /// Ends a task as soon as it can, if nobody asks for it. A script that runs goes on.
    pub(crate) fn abandon(&mut self, id: TaskId) {
        let Task { phase, .. } = *self.task(id);
        if !self.task(id).askers.is_empty() {
            return;
        }
        match phase {
            Phase::Parked => {
                self.leave_line(id);
                self.remove_task(id);
            }
            Phase::Barred => {
                let target = self.remove_task(id).target;
                self.pass_on(target);
            }
            Phase::Wants => {
                self.leave_queue_of(id);
                self.end_unasked(id);
            }
            Phase::Needing(request) | Phase::Preparing(request) => {
                self.cancel(request);
                self.end_unasked(id);
            }
            Phase::Looking | Phase::Searching | Phase::Running => {}
            Phase::Busy | Phase::Keeping => {}
        }
    }

    fn end_unasked(&mut self, task: TaskId) {
        self.task_mut(task).phase = Phase::Busy;
        self.agenda.push_back(Chore::Unlock { task, ending: Ending::Unmade });
    }

    fn leave_line(&mut self, id: TaskId) {
        let target = self.task(id).target;
        if let Some(line) = self.lines.get_mut(&target) {
            line.retain(|other| *other != id);
        }
        self.drop_empty_line(target);
    }

    /// The run is over: what it builds has failed, and what it holds is unlocked.
    pub(crate) fn close(&mut self, run: RunId) {
        let state = match self.runs.get_mut(&run) {
            Some(state) => state,
            None => return,
        };
        let tasks: Vec<TaskId> = state.tasks.iter().copied().collect();
        for request in std::mem::take(&mut state.requests) {
            self.requests.remove(&request);
        }
        tasks.into_iter().for_each(|task| self.close_task(task));
        self.agenda.push_back(Chore::Forget(run));
    }

    fn close_task(&mut self, id: TaskId) {
        self.forget_reader(id);
        self.leave_line(id);
        let Task { run, target, phase, .. } = self.remove_task(id);
        if phase == Phase::Running {
            self.agenda.push_back(Chore::CloseFail { run, target });
        }
        match phase {
            Phase::Parked => {}
            Phase::Barred => self.pass_on(target),
            _ => self.agenda.push_back(Chore::CloseUnlock { run, target }),
        }
    }

    pub(crate) fn close_fail(&mut self, run: RunId, target: Name) {
        self.database.obey(run, &Command::Failed(target));
        self.changed(run, target);
    }

    pub(crate) fn close_unlock(&mut self, run: RunId, target: Name) {
        self.database.obey(run, &Command::Unlock(target));
        self.pass_on(target);
    }

    /// The first in the line for a lock leaves it.
    fn pass_on(&mut self, target: Name) {
        self.owners.remove(&target);
        self.next_in_line(target);
    }
}
