//! How redo runs scripts.
//!
//! A server decides which scripts run; the process that a user started runs them, with the parts
//! of this crate. Nothing here waits, and nothing is global but the signals of the process: a loop
//! waits for the descriptors that the parts give it, and calls them.
//!
//! | Module | What it is about |
//! |---|---|
//! | [`builder`] | a target from the order to build it to its file in its place |
//! | [`script`], [`surroundings`] | how a `.do` file is called, and what it inherits |
//! | [`processes`], [`program`] | scripts as processes: started, ended, stopped, and how they end |
//! | [`output`], [`folder`], [`removal`] | what a script wrote, and how that becomes the target |
//! | [`ending`] | how builds end, and what is said of it |
//! | [`jobserver`], [`jobwords`] | GNU make's jobserver, and the words of MAKEFLAGS about it |
//! | [`journal`], [`strays`] | what a run builds, and what one that was killed has left |
//! | [`log`], [`lines`], [`stored`] | logs of builds: written, read, and shown by `redo-log` |
//! | [`display`], [`terminal`] | what is shown of a run |
//! | [`script_terminal`] | the terminal that a script sees |
//! | [`signals`] | Ctrl-C, Ctrl-Z, and the others |
//! | [`system`] | the calls of the kernel; all `unsafe` of the crate |
//! | [`text`] | small things |
//!
//! A loop does this, as `examples/run.rs` shows it:
//!
//! 1. [`Signals`](signals::Signals), [`Surroundings::of_process`](surroundings::Surroundings), and
//!    [`Builder::new`](builder::Builder), in this order: the builder takes as many files as may be
//!    open, which scripts aren't to inherit.
//! 2. It waits for the signals, the jobserver if tokens are wanted, and the terminals of scripts,
//!    at most a tenth of a second, since a log shows by no descriptor that it grows.
//! 3. It asks each for what came, starts what is to be started, and has the display look.

#![deny(unsafe_code)]

pub mod builder;
pub mod display;
pub mod ending;
pub mod folder;
pub mod jobserver;
pub mod jobwords;
pub mod journal;
pub mod lines;
pub mod log;
pub mod output;
pub mod processes;
pub mod program;
pub mod removal;
pub mod script;
pub mod script_terminal;
pub mod signals;
pub mod stored;
pub mod strays;
pub mod surroundings;
#[allow(unsafe_code)]
pub mod system;
pub mod terminal;
pub mod text;

#[cfg(test)]
mod scratch;
