//! What the machine wants of the database: commands, one for each step, and questions.
use crate::name::{Digest, Name, RunId, Stamp, Subject};

/// The names that one `ifchange` or `ifcreate` takes at most.
pub const MOST_NAMES: usize = 64;

/// A command of the database, as docs/RULES.md has it.
#[derive(Clone, PartialEq, Eq, Debug)]
pub enum Command {
    File(Subject, Stamp),
    Gone(Subject),
    Lock(Name),
    Unlock(Name),
    Start(Name),
    /// At least one name, and at most [`MOST_NAMES`].
    IfChange(Name, Vec<Subject>),
    /// At least one name, and at most [`MOST_NAMES`].
    IfCreate(Name, Vec<Name>),
    Always(Name),
    Stamp(Name, Digest),
    Done(Name, Option<Stamp>),
    Failed(Name),
}

/// The reply, as far as the machine looks at it.
#[derive(Clone, PartialEq, Eq, Debug)]
pub enum Reply {
    /// `ok`, `granted` or `stamped`: the command was done.
    Done,
    /// `stale N..`: the `ifchange` was done, and these of its names are stale.
    Stale(Vec<Subject>),
    /// `busy`: somebody else holds the lock.
    Busy,
    /// `refused exists N`
    Exists(Name),
    /// Another refusal. It shows a mistake of the machine.
    Refused,
}

/// The state of a name.
#[derive(Clone, Copy, PartialEq, Eq, Debug)]
pub enum State {
    Idle,
    Building(RunId),
    Built,
    Failed,
}

/// What a name looks like to those who depend on it.
#[derive(Clone, Copy, PartialEq, Eq, Debug)]
pub enum Mark {
    Absent,
    File(Stamp),
    /// It is building, or it failed.
    Pending,
    /// How often it was built.
    Builds(u32),
    Digest(Digest),
}

/// The database of one tree, with all runs as its sessions.
///
/// What decides can be asked of `redodb-live`, by the question that each function names. State,
/// file and holder are also known from the lines that the server wrote itself. The rest may come
/// from these lines alone: what [`Database::needs`] says orders the work, and [`Database::mark`]
/// and [`Database::row`] make a target doubtful, which is then built once more.
pub trait Database {
    /// Does a command in the session of a run: `SESSION COMMAND`.
    fn obey(&mut self, run: RunId, command: &Command) -> Reply;

    /// `SESSION why T` isn't answered by `clean`. It is asked of targets alone.
    fn is_out_of_date(&self, target: Name) -> bool;

    /// `SESSION why T` is answered by a chain of T alone. It is asked of what is out of date.
    fn has_reason(&self, target: Name) -> bool;

    /// The STATE of `SESSION state N`.
    fn state(&self, name: Name) -> State;

    /// The STAMP of `SESSION state N`.
    fn file(&self, subject: Subject) -> Option<Stamp>;

    /// Whether the stamp of the target's file, or the lack of one, is what its last `done` gave:
    /// whether `edited` is no reason for `SESSION why T`. Of a name without a `done`: whether it
    /// has no file.
    fn is_as_built(&self, target: Name) -> bool;

    /// Whether the names `//edited/NAME` and `//left/NAME` are short enough.
    fn has_own_names(&self, name: Name) -> bool;

    /// The names that the target has change rows on, in any fixed order: `SESSION deps T`.
    fn needs(&self, target: Name) -> Vec<Subject>;

    /// The targets whose [`Subject::Edited`] has a file, in any fixed order.
    fn edited(&self) -> Vec<Name>;

    /// The mark of a name.
    fn mark(&self, subject: Subject) -> Mark;

    /// The change row of a target on a name.
    fn row(&self, target: Name, subject: Subject) -> Option<Mark>;
}
