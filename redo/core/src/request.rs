//! A request: names that somebody waits for.
use crate::event::{Want, Who};
use crate::name::{Name, RunId, TaskId};
use crate::run::Turn;
use std::collections::{BTreeSet, VecDeque};

/// Where a request is.
#[derive(Clone, Copy, PartialEq, Eq, Debug)]
pub enum Stage {
    /// Its rows are on the agenda: never between two events.
    Asked,
    /// Names are to be begun, or tasks to end.
    Going,
    /// All is done, but for the slot that the script gets back before the answer.
    Back,
}

/// Names that somebody waits for.
#[derive(Clone, PartialEq, Debug)]
pub struct Request {
    pub run: RunId,
    pub who: Who,
    pub want: Want,
    pub stage: Stage,
    pub depth: u32,
    /// All names, in the order in which they were asked for, each once.
    pub names: Vec<Name>,
    /// Those that are still to be begun, in this order.
    pub todo: VecDeque<Name>,
    /// The tasks that it waits for.
    pub open: BTreeSet<TaskId>,
    /// Those that can't be made right.
    pub failed: BTreeSet<Name>,
    /// Those that were stale when it came, as far as rows on them were noted then.
    pub stale: BTreeSet<Name>,
    /// Those that had no file, and were no targets, when it came.
    pub absent: BTreeSet<Name>,
    /// Those that were to be begun.
    pub wanted: BTreeSet<Name>,
    /// The `.do` files that would have made what has no rule.
    pub missing: BTreeSet<Name>,
    /// Its place in the queue of its run.
    pub turn: Option<Turn>,
}

impl Request {
    /// A request that has just come.
    pub fn new(run: RunId, who: Who, want: Want, depth: u32, names: Vec<Name>) -> Request {
        Request {
            run,
            who,
            want,
            stage: Stage::Asked,
            depth,
            names,
            todo: VecDeque::new(),
            open: BTreeSet::new(),
            failed: BTreeSet::new(),
            stale: BTreeSet::new(),
            absent: BTreeSet::new(),
            wanted: BTreeSet::new(),
            missing: BTreeSet::new(),
            turn: None,
        }
    }

    /// Whether rows are noted: a script asks for names that are to be up to date.
    pub fn notes_rows(&self) -> bool {
        matches!(self.who, Who::Script(_)) && self.want == Want::UpToDate
    }
}
