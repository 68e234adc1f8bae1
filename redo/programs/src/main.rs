//! The program `redo`, and those beside it: one file, which is called by their names.
//!
//! | Module | What it is about |
//! |---|---|
//! | [`inner`] | a program that a script calls: one message to the server, and its answer |
//! | [`outer`] | a program that a user calls |
//! | [`help`] | what `--help` and `--version` print |
//! | [`reach`], [`server`] | the server of a tree, which is started if there is none |
//! | [`link`] | a connection to it |
//! | [`asking`] | a call: what is sent, what is printed, and what is said if no answer comes |
//! | [`run`] | a call that builds: where the scripts are run |
//! | [`whichdo`], [`logs`], [`hashing`] | what some programs do themselves |
//! | [`failure`] | what can go wrong, as it is said to people |
//! | [`system`] | calls of the kernel; all `unsafe` of the program |

#![deny(unsafe_code)]

mod asking;
mod failure;
mod hashing;
mod help;
mod inner;
mod link;
mod logs;
mod outer;
mod reach;
mod run;
mod server;
mod system;
mod text;
mod whichdo;

use std::env;
use std::os::unix::ffi::OsStringExt;
use std::process::ExitCode;

use redo_wire::Program;

use crate::inner::Caller;

fn main() -> ExitCode {
    let mut words = env::args_os().map(OsStringExt::into_vec);
    let called = words.next().unwrap_or_default();
    let words: Vec<Vec<u8>> = words.collect();
    let program = match Program::named(text::last_part(&called)) {
        Some(program) => program,
        None => return text::unknown_program(&called),
    };
    if let Some(asked) = help::asked(&words) {
        return help::print(program, asked);
    }
    match Caller::of_process() {
        Some(caller) if program.is_for_scripts() => inner::call(program, words, &caller),
        _ => outer::call(program, words),
    }
}
