//! What the machine tells the shell to do.
use crate::event::Who;
use crate::name::{Name, RequestId, RunId, TaskId};

/// Something for the shell to do. Each `Look`, `Search` and `Run` is to be answered by one event.
#[derive(Clone, PartialEq, Eq, Debug)]
pub enum Action {
    /// Look at the target's file: `Looked`.
    Look { task: TaskId, target: Name },
    /// Search the target's `.do` file: `Found`.
    Search { task: TaskId, target: Name },
    /// Run the script of a target: `Ended`. `asker` asks for it, first of all.
    Run { task: TaskId, run: RunId, target: Name, do_file: Name, asker: Option<Who> },
    /// A request is over; `right` if all that it asked for is as it should be.
    Answer { request: RequestId, right: bool },
    /// A line for who asked.
    Say { request: RequestId, what: Say },
    /// So many slots more could be used. The latest number counts.
    Want { run: RunId, slots: usize },
    /// Give so many tokens back to the jobserver.
    Return { run: RunId, slots: u32 },
}

/// What is to be said.
#[derive(Clone, PartialEq, Eq, Debug)]
pub enum Say {
    /// Each needs the next; the first is the last, too.
    Ring(Vec<Name>),
    /// It failed before in this run.
    FailedBefore(Name),
    /// There is no rule to make it. What is there, a folder say, stays as it is.
    NoRule(Name),
    /// It was changed by hand: it stays as it is.
    ByHand(Name),
    /// It was built in this run, and its file is gone.
    Gone(Name),
    /// The target's script asks for the target.
    Itself(Name),
    /// It is there, and no build made it: it stays as it is, although a build was asked for.
    Source(Name),
    /// The `.do` file of the target is a target itself, and can't be made.
    RuleFailed { target: Name, do_file: Name },
    /// `redo-ifcreate` was called for a file that is there.
    Exists(Name),
}
