//! The steps of the machine, each with at most one command of the database.
use crate::name::{Digest, Name, RequestId, RunId, Stamp, Subject, TaskId};
use crate::task::Ending;

/// A step that is on the agenda.
#[derive(Clone, PartialEq, Debug)]
pub enum Chore {
    /// Tells the database of a file, if it is news.
    Report {
        run: RunId,
        subject: Subject,
        stamp: Option<Stamp>,
    },
    /// Tells it whether a target is edited.
    Shadow {
        run: RunId,
        target: Name,
    },
    /// Puts the rows of a script's request on the agenda, and what comes after them.
    Note(RequestId),
    /// One `ifchange` of a task's target. The request is told which of the names are stale.
    Rows {
        task: TaskId,
        request: Option<RequestId>,
        subjects: Vec<Subject>,
    },
    /// One `ifcreate` of a task's target.
    Absent {
        task: TaskId,
        names: Vec<Name>,
    },
    /// What a script's request asks for and is stale is to be begun.
    Depend(RequestId),
    /// A script asks for its own target.
    Refuse(RequestId),
    /// The first in the queue of a run has a slot, if one is free.
    Serve(RunId),
    /// Locks the target of a task.
    Take(TaskId),
    /// After a look, or after a search.
    Decide {
        task: TaskId,
        searched: bool,
    },
    /// It isn't known any more what a failed build left.
    ForgetLeft(TaskId),
    Start(TaskId),
    /// Runs the script.
    Launch(TaskId),
    /// A target without a rule is kept as it is, as if it were built.
    StartKept(TaskId),
    DoneKept {
        task: TaskId,
        stamp: Option<Stamp>,
    },
    /// The target is to be built once more, whatever comes.
    Doubt(TaskId),
    Stamp {
        task: TaskId,
        digest: Digest,
    },
    Done {
        task: TaskId,
        stamp: Option<Stamp>,
    },
    Fail(TaskId),
    /// The end of a task.
    Unlock {
        task: TaskId,
        ending: Ending,
    },
    /// Looks whether a request is over.
    Over(RequestId),
    /// Puts the rows on the agenda with which a script is answered.
    Reply(RequestId),
    /// Answers a script.
    Settle(RequestId),
    /// One `ifcreate` that a script asks for; more of them, or the answer, come after it.
    IfCreate {
        task: TaskId,
        request: RequestId,
        names: Vec<Name>,
    },
    /// Answers a request.
    Answer {
        request: RequestId,
        right: bool,
    },
    CloseFail {
        run: RunId,
        target: Name,
    },
    CloseUnlock {
        run: RunId,
        target: Name,
    },
    Forget(RunId),
}
