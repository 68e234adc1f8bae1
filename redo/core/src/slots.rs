//! Slots, and the queue for them. Who holds a slot waits for nothing but the shell.
use crate::action::Action;
use crate::chore::Chore;
use crate::database::Database;
use crate::machine::Machine;
use crate::name::{RequestId, RunId, TaskId};
use crate::run::{Turn, Waiter};
use crate::task::Phase;
use std::cmp::Reverse;

impl<D: Database> Machine<D> {
    /// Takes a place in the queue of the run.
    pub(crate) fn queue(&mut self, waiter: Waiter, depth: u32) {
        self.turns += 1;
        let turn: Turn = (Reverse(depth), self.turns);
        let run = match waiter {
            Waiter::Begin(id) => {
                let request = self.request_mut(id);
                request.turn = Some(turn);
                request.run
            }
            Waiter::Go(id) | Waiter::Back(id) => {
                let task = self.task_mut(id);
                task.turn = Some(turn);
                task.run
            }
        };
        self.run_mut(run).queue.insert(turn, waiter);
        self.agenda.push_back(Chore::Serve(run));
    }

    /// Gives up the place of a request.
    pub(crate) fn leave_queue(&mut self, id: RequestId) {
        let request = self.request_mut(id);
        let (run, turn) = (request.run, request.turn.take());
        if let Some(turn) = turn {
            self.run_mut(run).queue.remove(&turn);
        }
    }

    /// Gives up the place of a task.
    pub(crate) fn leave_queue_of(&mut self, id: TaskId) {
        let task = self.task_mut(id);
        let (run, turn) = (task.run, task.turn.take());
        if let Some(turn) = turn {
            self.run_mut(run).queue.remove(&turn);
        }
    }

    /// A task has its lock, and goes on once it has a slot.
    pub(crate) fn want_slot(&mut self, id: TaskId) {
        let task = self.task_mut(id);
        task.phase = Phase::Wants;
        let depth = task.depth;
        self.queue(Waiter::Go(id), depth);
    }

    /// Gives the slot of a task back, if it has one.
    pub(crate) fn release(&mut self, id: TaskId) {
        let task = self.task_mut(id);
        let run = task.run;
        if std::mem::take(&mut task.has_slot) {
            self.run_mut(run).free += 1;
            self.agenda.push_back(Chore::Serve(run));
        }
    }

    /// If a slot is free, the first in the queue has its turn. A turn that needs no slot leaves it
    /// to the next.
    pub(crate) fn serve(&mut self, id: RunId) {
        let run = match self.runs.get_mut(&id) {
            Some(run) => run,
            None => return,
        };
        let first = run.queue.keys().next().copied().filter(|_| run.free > 0);
        if let Some(waiter) = first.and_then(|turn| run.queue.remove(&turn)) {
            self.agenda.push_front(Chore::Serve(id));
            match waiter {
                Waiter::Begin(request) => self.begin(request),
                Waiter::Go(task) => self.go_on(task),
                Waiter::Back(task) => self.give_back(task),
            }
            return;
        }
        let wanted = run.queue.len();
        if wanted != run.told {
            run.told = wanted;
            self.actions.push(Action::Want { run: id, slots: wanted });
        }
        let spare = run.take_spare();
        if spare > 0 {
            self.actions.push(Action::Return { run: id, slots: spare });
        }
    }

    fn begin(&mut self, id: RequestId) {
        let request = self.request_mut(id);
        request.turn = None;
        let name = match request.todo.pop_front() {
            Some(name) => name,
            None => return,
        };
        let (depth, has_more) = (request.depth, !request.todo.is_empty());
        if has_more {
            self.queue(Waiter::Begin(id), depth);
        }
        self.begin_name(id, name);
        self.agenda.push_back(Chore::Over(id));
    }

    /// A task takes a slot, for a look.
    pub(crate) fn go_on(&mut self, id: TaskId) {
        let task = self.task_mut(id);
        task.turn = None;
        task.has_slot = true;
        task.phase = Phase::Looking;
        let (run, target) = (task.run, task.target);
        self.run_mut(run).free -= 1;
        self.actions.push(Action::Look { task: id, target });
    }

    /// A script gets its slot back, and then its answers.
    fn give_back(&mut self, id: TaskId) {
        let task = self.task_mut(id);
        task.turn = None;
        task.has_slot = true;
        let run = task.run;
        self.run_mut(run).free -= 1;
        self.reply_all(id);
    }
}
