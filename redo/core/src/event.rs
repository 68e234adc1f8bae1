//! What the shell tells the machine.
use crate::name::{Digest, Name, RequestId, RunId, Stamp, TaskId};

/// A look at a file that a script asks for.
#[derive(Clone, Copy, PartialEq, Eq, Debug)]
pub struct Look {
    /// None if there is no file.
    pub stamp: Option<Stamp>,
    /// Whether the file was changed after the script that asks had begun.
    pub late: bool,
}

/// Who asks.
#[derive(Clone, Copy, PartialEq, Eq, Debug)]
pub enum Who {
    /// Somebody at a shell.
    User,
    /// The script of this task.
    Script(TaskId),
    /// This task itself, for what its target needed when it was last built. The script may need it
    /// no more.
    Guess(TaskId),
    /// This task itself, for its `.do` file, which is a target.
    Rule(TaskId),
}

/// What is wanted of the targets of a request.
#[derive(Clone, Copy, PartialEq, Eq, Debug)]
pub enum Want {
    /// Those are built that are out of date: `redo-ifchange`.
    UpToDate,
    /// Each target is built: `redo`.
    Built,
    /// Each target is built, also one that somebody edited: `redo --overwrite`.
    Overwritten,
}

/// Something that happened. The machine takes an event once the chores of the former one are done.
///
/// An event about a run or a task that is over changes nothing, but that who asks is answered.
#[derive(Clone, PartialEq, Eq, Debug)]
pub enum Event {
    /// A user calls. `always` is a stamp that [`Subject::Always`](crate::Subject) never had. The
    /// shell then looks at all names that the database knows, and tells of each by `File`.
    Open { run: RunId, keep_going: bool, always: Stamp },
    /// A jobserver's token has come. One slot of its own is a run's from the start.
    Slot { run: RunId },
    /// A file as it is now.
    File { run: RunId, name: Name, stamp: Option<Stamp> },
    /// Somebody who is no run told the database of a name, which had another file or another mark
    /// then, and may have the former ones again. `run` is any that is open.
    Touched { run: RunId, name: Name },
    /// Somebody who is no run has released the lock of a name.
    Unlocked { name: Name },
    /// A program asks.
    Ask {
        run: RunId,
        request: RequestId,
        who: Who,
        want: Want,
        names: Vec<Name>,
        /// One for each name, made after the request came, if a script asks for names that are to
        /// be up to date; else none.
        looks: Vec<Look>,
    },
    /// The program that asked is gone.
    Left { request: RequestId },
    /// The answer to [`Action::Look`](crate::Action).
    Looked { task: TaskId, stamp: Option<Stamp> },
    /// The answer to [`Action::Search`](crate::Action): the `.do` file that is there, and those
    /// that would win and aren't.
    Found { task: TaskId, rule: Option<(Name, Stamp)>, missing: Vec<Name> },
    /// A script calls `redo-ifcreate`. `stamps` has a look at each name, made after the request
    /// came.
    IfCreate { task: TaskId, request: RequestId, names: Vec<Name>, stamps: Vec<Option<Stamp>> },
    /// A script calls `redo-always`.
    Always { task: TaskId, request: RequestId },
    /// A script calls `redo-stamp`.
    Stamp { task: TaskId, request: RequestId, digest: Digest },
    /// A script has ended. If it ended well, its output is the target; `content` is the digest of
    /// that, None without a file. `stamp` is the target's file as it is now.
    Ended { task: TaskId, ok: bool, stamp: Option<Stamp>, content: Option<Digest> },
    /// The run is over, and none of its scripts runs any more.
    Close { run: RunId },
}
