//! Decides which script of a redo build runs when, and who is answered what.
//!
//! There is one [`Machine`] for a tree, for all runs of it. It opens no file and reads no clock.
//! The shell tells it [`Event`]s, and obeys its [`Action`]s in their order. An event puts
//! [`Chore`]s on an agenda, and each step does one of them, with at most one [`Command`] of the
//! [`Database`]. The next event is taken once the agenda is empty.
//!
//! # Tasks
//!
//! A task is a target that a run wants. There is one for each run and target; whoever else in the
//! run asks for the target joins it.
//!
//! | [`Phase`] | Has its lock | Has a slot | Waits for | Goes on as |
//! |---|---|---|---|---|
//! | Parked | no | no | the task of another run that has the lock | Wants |
//! | Barred | no | no | somebody who has the lock, and is no run | Wants |
//! | Wants | yes | no | a slot of its run | Looking |
//! | Looking | yes | yes | the shell's look at the file | it decides |
//! | Needing | yes | no | a guess: what the target needed when it was last built | Wants |
//! | Searching | yes | yes | the shell's search for the `.do` file | it decides again |
//! | Preparing | yes | no | its `.do` file, which is a target | Wants |
//! | Running | yes | unless it asks | its script, and what that asks for | it has ended |
//!
//! Others than runs may use the database, too: they take locks, and report files. A Barred task is
//! the first of the runs in the line for its lock. The shell says when the lock may be free.
//!
//! Who holds a slot waits for nothing but the shell. A task that nobody asks for any more ends as
//! soon as it can, but for one whose script runs.
//!
//! # Decisions
//!
//! A task decides with the lock held, after a look at its file, and once more after the search:
//!
//! | The database says | What is done |
//! |---|---|
//! | no target, but a file | nothing: it is a source |
//! | no target, and no file or a folder | search, and run |
//! | its file isn't what its last build left | nothing: somebody edited it, and it stays |
//! | it failed | search, and run |
//! | up to date | nothing, unless its build is asked for in any case |
//! | it has a reason of its own to be built | search, and run |
//! | out of date by its needs alone | these first, as a guess; then it decides anew |
//! | it was built in this run, and its file is gone | it fails: nothing is built twice in a run |
//! | to be run, and there is no rule | it fails; with a file, it is kept as it is |
//! | to be run, and its `.do` file is a target out of date | that first; then it decides anew |
//!
//! # Requests, slots and runs
//!
//! A [`Request`] has its names begun one after the other, in the order in which they were asked
//! for, as slots come. A script that waits lends its slot to what it waits for, and gets one back
//! before its answer. In the queue of a [`Run`] the deepest comes first, so at one slot all is done
//! in the order of a recursion. Without keep-going, a request begins nothing more after a failure.
//! A script that ends takes its open requests along: nobody is answered, and no slot comes back.
//!
//! # Waits and rings
//!
//! The graph of waits is over tasks. A Parked one waits for the owner of its lock, a Running one
//! for the tasks of its requests, a Preparing one for that of its `.do` file: these waits are firm.
//! A Needing one waits for the tasks of its guess. Before a firm wait is added, the graph is
//! searched for a way back. If firm waits lead back, the name is refused, and the ring is named.
//! Else each guess on a way back is given up. A guess that would close a ring isn't made. So the
//! graph never has a ring, and a name is refused exactly if scripts wait for each other. Of a guess
//! that fails nothing is said: the script finds out whether it still needs the name.
//!
//! # Rows
//!
//! A target that is up to date was built from what is there now.
//!
//! - A script's request puts a row on each name when it comes; and on those that had to be begun
//!   once more when it is answered right: the script reads them from then on.
//! - A row on a name that the script was answered for stays, however often it asks again.
//! - If such a name has another mark than its row at any time while the script runs, or its file
//!   isn't what its build left, or somebody who is no run changes it, the target is *doubtful*: it
//!   gets an always row before it is done,
//!   and is built once more. So do targets whose script asked late for a source that was changed
//!   after the script began, or did without a name although no row shows when it can be had.
//!   `redo-always` puts a row on `//always` instead, so an always row says this alone: changed
//!   while it was built.
//! - A name without a rule puts rows on the absence of the `.do` files that would do.
//! - A row on a target that somebody edited is on `//edited/NAME`, which has the stamp of its
//!   content while it is edited. So what is built from it follows each edit.
//! - A script that ends well leaves the digest of its target's content as the mark, unless it
//!   called `redo-stamp`. So the same content builds nothing above it.
#![forbid(unsafe_code)]

mod action;
mod asking;
mod beginning;
mod chore;
mod database;
mod decide;
mod ending;
mod event;
mod machine;
mod name;
mod request;
mod rows;
mod run;
mod slots;
mod task;
mod view;
mod waits;

pub use action::{Action, Say};
pub use chore::Chore;
pub use database::{Command, Database, Mark, Reply, State, MOST_NAMES};
pub use event::{Event, Look, Want, Who};
pub use machine::{Machine, Note};
pub use name::{Digest, Name, RequestId, RunId, Stamp, Subject, TaskId, FOLDER, NO_FILE};
pub use request::{Request, Stage};
pub use run::{Outcome, Run, Turn, Waiter};
pub use task::{Ending, Phase, Rule, Task};
pub use waits::Waits;
