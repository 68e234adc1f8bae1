//! A run: its slots, the queue for them, and what came of the targets that it wanted.
use crate::name::{Name, RequestId, Stamp, TaskId};
use std::cmp::Reverse;
use std::collections::{BTreeMap, BTreeSet};

/// A place in the queue: the deepest comes first, and of these who came first.
pub type Turn = (Reverse<u32>, u64);

/// What a slot is wanted for.
#[derive(Clone, Copy, PartialEq, Eq, Debug)]
pub enum Waiter {
    /// The next name of this request is to be begun.
    Begin(RequestId),
    /// This task goes on, by a look at its target.
    Go(TaskId),
    /// The script of this task gets its slot back, and then its answers.
    Back(TaskId),
}

/// What came of a target in a run.
#[derive(Clone, Copy, PartialEq, Eq, Debug)]
pub enum Outcome {
    Built,
    Failed,
}

/// A run.
#[derive(Clone, PartialEq, Debug)]
pub struct Run {
    pub keep_going: bool,
    /// Slots that nobody holds, and how many of all are lent by a jobserver.
    pub free: u32,
    pub borrowed: u32,
    pub queue: BTreeMap<Turn, Waiter>,
    /// How many slots the shell was told to want.
    pub told: usize,
    pub outcomes: BTreeMap<Name, Outcome>,
    /// For each name without a rule, the `.do` files that would make it.
    pub missing: BTreeMap<Name, Vec<Name>>,
    /// The targets that somebody edited, and that were left as they are; and those that the run
    /// has warned of.
    pub left: BTreeSet<Name>,
    pub warned: BTreeSet<Name>,
    /// The stamp that `//always` has in this run, and whether the database was told.
    pub always: Stamp,
    pub has_told_always: bool,
    pub tasks: BTreeSet<TaskId>,
    pub requests: BTreeSet<RequestId>,
}

impl Run {
    /// A run that has just begun, with a slot of its own.
    pub fn new(keep_going: bool, always: Stamp) -> Run {
        Run {
            keep_going,
            free: 1,
            borrowed: 0,
            queue: BTreeMap::new(),
            told: 0,
            outcomes: BTreeMap::new(),
            missing: BTreeMap::new(),
            left: BTreeSet::new(),
            warned: BTreeSet::new(),
            always,
            has_told_always: false,
            tasks: BTreeSet::new(),
            requests: BTreeSet::new(),
        }
    }

    /// Takes what nobody wants: how many slots go back to the jobserver.
    pub fn take_spare(&mut self) -> u32 {
        let spare = if self.queue.is_empty() { self.free.min(self.borrowed) } else { 0 };
        self.free -= spare;
        self.borrowed -= spare;
        spare
    }
}
