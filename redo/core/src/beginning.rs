//! A name of a request is begun: it is right already, or joins a task, or gets one.
use crate::action::{Action, Say};
use crate::chore::Chore;
use crate::database::{Command, Database, Reply};
use crate::event::{Want, Who};
use crate::machine::{Machine, Note};
use crate::name::{Name, RequestId, RunId, TaskId};
use crate::request::Request;
use crate::run::Outcome;
use crate::task::{Phase, Task};

impl<D: Database> Machine<D> {
    /// Begins a name. A slot is free.
    pub(crate) fn begin_name(&mut self, id: RequestId, name: Name) {
        self.note(Note::Begun(id, name));
        let Request { run, who, want, .. } = self.requests[&id];
        if self.is_known(id, name) {
            return;
        }
        let joined = self.wanted.get(&(run, name)).copied();
        let other = joined.or_else(|| self.owners.get(&name).copied());
        if let (Some(other), Who::Script(task) | Who::Guess(task) | Who::Rule(task)) = (other, who)
        {
            if self.closes_ring(id, task, other) {
                return;
            }
        }
        let task = joined.unwrap_or_else(|| self.make_task(run, name));
        self.join(id, task, want);
        if joined.is_none() {
            self.take_or_park(task, other.is_some());
        }
    }

    /// Whether it is known what came of a name in this run.
    fn is_known(&mut self, id: RequestId, name: Name) -> bool {
        let Request { run, want, .. } = self.requests[&id];
        match self.runs[&run].outcomes.get(&name) {
            Some(Outcome::Failed) => {
                self.say(id, &Say::FailedBefore(name));
                self.failed(id, name);
                true
            }
            Some(Outcome::Built) if self.is_built(run, name) => true,
            _ if self.is_left(run, name) && want != Want::Overwritten => {
                self.warn(run, name, id);
                true
            }
            _ => false,
        }
    }

    fn make_task(&mut self, run: RunId, name: Name) -> TaskId {
        self.tasks_made += 1;
        let task = TaskId(self.tasks_made);
        self.tasks.insert(task, Task::new(run, name));
        self.wanted.insert((run, name), task);
        self.run_mut(run).tasks.insert(task);
        task
    }

    fn join(&mut self, id: RequestId, task_id: TaskId, want: Want) {
        let request = self.request_mut(id);
        request.open.insert(task_id);
        let depth = request.depth;
        let task = self.task_mut(task_id);
        task.askers.insert(id);
        task.forced |= want != Want::UpToDate;
        task.overwrites |= want == Want::Overwritten;
        task.depth = task.depth.max(depth);
    }

    /// A new task gets in line for its lock; or it takes that, which is free, and the free slot.
    fn take_or_park(&mut self, id: TaskId, has_owner: bool) {
        let Task { run, target, .. } = *self.task(id);
        if has_owner {
            self.lines.entry(target).or_default().push_back(id);
            return;
        }
        self.owners.insert(target, id);
        self.run_mut(run).free -= 1;
        let task = self.task_mut(id);
        (task.has_slot, task.phase) = (true, Phase::Busy);
        self.agenda.push_back(Chore::Take(id));
    }

    /// Locks the target of a task, which is its owner.
    pub(crate) fn take(&mut self, id: TaskId) {
        let target = self.task(id).target;
        let reply = self.call(id, &Command::Lock(target));
        if reply == Reply::Busy {
            self.task_mut(id).phase = Phase::Barred;
            self.release(id);
            self.abandon(id);
        } else if self.task(id).has_slot {
            self.task_mut(id).phase = Phase::Looking;
            self.actions.push(Action::Look { task: id, target });
        } else {
            self.want_slot(id);
        }
    }

    /// The lock of a name may be free, which somebody had who is no run.
    pub(crate) fn unlocked(&mut self, name: Name) {
        let id = match self.owners.get(&name).copied() {
            Some(id) => id,
            None => return,
        };
        if self.task(id).phase == Phase::Barred {
            self.task_mut(id).phase = Phase::Busy;
            self.agenda.push_back(Chore::Take(id));
        }
    }

    /// The lock of a name is free: the next in line has it.
    pub(crate) fn next_in_line(&mut self, name: Name) {
        let next = self.lines.get_mut(&name).and_then(|line| line.pop_front());
        self.drop_empty_line(name);
        if let Some(task) = next {
            self.owners.insert(name, task);
            self.task_mut(task).phase = Phase::Busy;
            self.agenda.push_back(Chore::Take(task));
        }
    }

    pub(crate) fn drop_empty_line(&mut self, name: Name) {
        if self.lines.get(&name).map_or(false, |line| line.is_empty()) {
            self.lines.remove(&name);
        }
    }
}
