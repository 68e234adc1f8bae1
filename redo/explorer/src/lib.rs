//! Drives redo-core by random traces, and checks each.
//!
//! A trace has files that change, scripts that are functions of what they read, users, many runs,
//! a jobserver, programs that leave, runs that are killed, and a stranger who uses the database and
//! is no run, in any order. These promises of the
//! shell it keeps: looks are told in their order; each look and search is answered once; no script
//! outlives its run; a script reads what it was answered for, or a source that it asks for later;
//! and no old content of a source comes back while scripts run.
//!
//! What is checked, by the database and by what scripts and users saw:
//!
//! - (a) An answer is right: each name was up to date, or built or left in the run, since it was
//!   asked for.
//! - (b) No script runs that needn't, nor before what its target needed was tried.
//! - (c) A run builds a target once at most, and nobody else builds it meanwhile.
//! - (d) Nobody waits for nothing, no wait closes a ring, no slot is lost, and a ring that is named
//!   is one.
//! - (e) An event has a bounded number of chores.
//! - (f) No change is lost: if something isn't, or wasn't while the script ran, as it was when the
//!   script was answered, the target is out of date.
//! - (g) After a run without edits, each target is what a build from scratch makes.
//! - (h) A target that somebody edited is neither built nor failed. `//edited/..`, `//left/..` say
//!   what they should.
//! - (i) A `.do` file that is a target is built before it is run.
//! - (j) Names are begun in the order in which they were asked for.
//! - (k) Of a guess nothing is said.
//! - (l) A target has the digest of its content, or of `redo-stamp`.
//! - (m) A run warns of the edited targets that it wants, and of those that these are built from.
//! - (n) A target is doubtful for a reason alone.
//! - (p) Without an edit, a second run builds nothing but what failed, what is built in each run,
//!   and what is doubtful.
#![forbid(unsafe_code)]

pub mod answers;
pub mod chance;
pub mod check;
pub mod counts;
pub mod explore;
pub mod history;
pub mod model;
pub mod quiet;
pub mod random;
pub mod scratch;
pub mod script;
pub mod setup;
pub mod sha1;
pub mod shell;
pub mod steps;
pub mod stranger;
pub mod world;
