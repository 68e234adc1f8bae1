//! What events, commands and rows are about. The shell gives the numbers.

/// A file of the tree: a target, a source, or one that isn't there.
#[derive(Clone, Copy, PartialEq, Eq, PartialOrd, Ord, Debug)]
pub struct Name(pub u32);

/// What a command of the database or a row is about: a file, or one of redo's own names, which no
/// file has.
#[derive(Clone, Copy, PartialEq, Eq, PartialOrd, Ord, Debug)]
pub enum Subject {
    File(Name),
    /// `//edited/NAME`: has the stamp of the target's file while somebody has edited it, else no
    /// file. What is built from an edited target has its row here.
    Edited(Name),
    /// `//left/NAME`: the stamp of what the target's last build left when it failed ([`NO_FILE`]
    /// for no file), or no file where nobody knows.
    Left(Name),
    /// `//always`: has another stamp in each run.
    Always,
}

/// A session of the database: one call of `redo` or of `redo-ifchange`.
#[derive(Clone, Copy, PartialEq, Eq, PartialOrd, Ord, Debug)]
pub struct RunId(pub u32);

/// A target that a run wants. The machine gives the numbers, from 1 on, and uses none twice.
#[derive(Clone, Copy, PartialEq, Eq, PartialOrd, Ord, Debug)]
pub struct TaskId(pub u64);

/// A request: of a program that the shell gave a number, or of the machine itself.
#[derive(Clone, Copy, PartialEq, Eq, PartialOrd, Ord, Debug)]
pub enum RequestId {
    Program(u64),
    Own(u64),
}

/// A file's content, kind and bits of execution: equal numbers, equal files.
#[derive(Clone, Copy, PartialEq, Eq, PartialOrd, Ord, Debug)]
pub struct Stamp(pub u32);

/// The stamp of each folder.
pub const FOLDER: Stamp = Stamp(1);

/// The stamp of [`Subject::Left`] where a failed build left no file.
pub const NO_FILE: Stamp = Stamp(0);

/// What a build says its content is: equal numbers, equal contents.
#[derive(Clone, Copy, PartialEq, Eq, PartialOrd, Ord, Debug)]
pub struct Digest(pub u64);
