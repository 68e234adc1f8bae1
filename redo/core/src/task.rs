//! A task: a target that a run wants, from the first request for it to its end.
use crate::name::{Name, RequestId, RunId};
use crate::run::Turn;
use std::collections::BTreeSet;

/// Where a task is. The crate's page has the table.
#[derive(Clone, Copy, PartialEq, Eq, Debug)]
pub enum Phase {
    /// In the line for the lock of its target, which a task of another run has.
    Parked,
    /// First in the line for the lock of its target, which somebody has who is no run.
    Barred,
    /// Has the lock, and waits for a slot.
    Wants,
    /// The shell looks at the target's file.
    Looking,
    /// Waits for a guess: what its target needed when it was last built.
    Needing(RequestId),
    /// The shell searches the rule.
    Searching,
    /// Waits for its `.do` file, which is a target.
    Preparing(RequestId),
    /// The script runs.
    Running,
    /// Chores of it are on the agenda: never between two events.
    Busy,
    /// So it is, and its target is kept as it is: nobody doubts that meanwhile.
    Keeping,
}

/// How a task ended.
#[derive(Clone, Copy, PartialEq, Eq, Debug)]
pub enum Ending {
    /// Nothing was to be done, or the target was left as it is.
    Right,
    Built,
    Failed,
    /// Nobody asks any more; or nobody but guesses asked, and there is no rule.
    Unmade,
}

/// A `.do` file, and those that would win and aren't there.
#[derive(Clone, PartialEq, Eq, Debug)]
pub struct Rule {
    pub do_file: Name,
    pub missing: Vec<Name>,
}

/// A target that a run wants.
#[derive(Clone, PartialEq, Debug)]
pub struct Task {
    pub run: RunId,
    pub target: Name,
    pub phase: Phase,
    pub has_slot: bool,
    /// It is built in any case.
    pub forced: bool,
    /// It is built although somebody edited it, or although it is a source.
    pub overwrites: bool,
    /// The deepest request for it.
    pub depth: u32,
    /// The requests that wait for it.
    pub askers: BTreeSet<RequestId>,
    /// The open requests of its script.
    pub requests: BTreeSet<RequestId>,
    /// The needs that came first, or were to.
    pub tried: BTreeSet<Name>,
    /// What a request of its script was answered for, right or failed: these rows stay.
    pub answered: BTreeSet<Name>,
    /// What it was answered for has changed while it ran.
    pub doubtful: bool,
    /// Its script has called `redo-stamp`.
    pub is_stamped: bool,
    /// Of what the search found, if it found a rule.
    pub rule: Option<Rule>,
    /// A `.do` file that couldn't be made.
    pub failed_rule: Option<Name>,
    /// Its place in the queue of its run.
    pub turn: Option<Turn>,
}

impl Task {
    /// A task that waits for the lock of its target.
    pub fn new(run: RunId, target: Name) -> Task {
        Task {
            run,
            target,
            phase: Phase::Parked,
            has_slot: false,
            forced: false,
            overwrites: false,
            depth: 0,
            askers: BTreeSet::new(),
            requests: BTreeSet::new(),
            tried: BTreeSet::new(),
            answered: BTreeSet::new(),
            doubtful: false,
            is_stamped: false,
            rule: None,
            failed_rule: None,
            turn: None,
        }
    }
}
