//! The graph of waits: which task waits for which, and what is done before a wait closes a ring.
use crate::action::Say;
use crate::chore::Chore;
use crate::database::Database;
use crate::event::Who;
use crate::machine::{Machine, Note};
use crate::name::{Name, RequestId, TaskId};
use crate::task::Phase;
use std::collections::{BTreeMap, VecDeque};

/// Which waits count.
#[derive(Clone, Copy, PartialEq, Eq, Debug)]
pub enum Waits {
    /// Those of scripts, for `.do` files and for locks.
    Firm,
    /// These, and guesses.
    All,
}

impl<D: Database> Machine<D> {
    /// The tasks that a task waits for, in a fixed order.
    pub fn waits_for(&self, id: TaskId, waits: Waits) -> Vec<TaskId> {
        let task = self.task(id);
        match task.phase {
            Phase::Parked => self.owners.get(&task.target).copied().into_iter().collect(),
            Phase::Needing(request) if waits == Waits::All => self.open_of(request),
            Phase::Preparing(request) => self.open_of(request),
            Phase::Running => task.requests.iter().flat_map(|id| self.open_of(*id)).collect(),
            _ => Vec::new(),
        }
    }

    fn open_of(&self, request: RequestId) -> Vec<TaskId> {
        self.requests[&request].open.iter().copied().collect()
    }

    /// A shortest path of waits: both ends, and what is between them.
    pub fn path(&self, from: TaskId, to: TaskId, waits: Waits) -> Option<Vec<TaskId>> {
        let mut came = BTreeMap::from([(from, from)]);
        let mut line = VecDeque::from([from]);
        while let Some(task) = line.pop_front() {
            if task == to {
                return Some(way_back(&came, from, to));
            }
            let next = self.waits_for(task, waits).into_iter();
            let new: Vec<TaskId> = next.filter(|next| !came.contains_key(next)).collect();
            came.extend(new.iter().map(|next| (*next, task)));
            line.extend(new);
        }
        None
    }

    /// Refuses a name whose wait would close a ring, and says whether it did. Guesses end instead;
    /// if nobody asks for the waiting task any more then, its request is gone, and its wait too.
    pub(crate) fn closes_ring(&mut self, id: RequestId, from: TaskId, to: TaskId) -> bool {
        let (run, target) = (self.requests[&id].run, self.task(to).target);
        if let Who::Guess(_) = self.requests[&id].who {
            let closes = self.path(to, from, Waits::All).is_some();
            if closes {
                self.note(Note::Skipped(run, target));
            }
            return closes;
        }
        if let Some(path) = self.path(to, from, Waits::Firm) {
            let ring = self.names_of_ring(&path);
            self.say(id, &Say::Ring(ring));
            self.failed(id, target);
            return true;
        }
        while let Some(path) = self.path(to, from, Waits::All) {
            self.give_guess_up(&path);
        }
        !self.requests.contains_key(&id)
    }

    /// The targets of a path that is closed to a ring: the first comes again at the end. A task
    /// that waits for the lock of its target is the same name twice.
    fn names_of_ring(&self, path: &[TaskId]) -> Vec<Name> {
        let mut names: Vec<Name> = path.iter().map(|id| self.task(*id).target).collect();
        names.dedup();
        if names.len() == 1 || names.first() != names.last() {
            names.push(names[0]);
        }
        names
    }

    /// Gives up the first guess on a path.
    fn give_guess_up(&mut self, path: &[TaskId]) {
        let guess = path.windows(2).find_map(|pair| match self.task(pair[0]).phase {
            Phase::Needing(request) => Some((request, pair[1])),
            _ => None,
        });
        let (request, need) = guess.expect("no path of firm waits is left");
        self.request_mut(request).open.remove(&need);
        self.task_mut(need).askers.remove(&request);
        let (run, target) = (self.task(need).run, self.task(need).target);
        self.note(Note::Skipped(run, target));
        self.agenda.push_back(Chore::Over(request));
        self.abandon(need);
    }
}

/// The path to a task, by where the search came from.
fn way_back(came: &BTreeMap<TaskId, TaskId>, from: TaskId, to: TaskId) -> Vec<TaskId> {
    let mut path = vec![to];
    let mut at = to;
    while at != from {
        at = came[&at];
        path.push(at);
    }
    path.reverse();
    path
}
