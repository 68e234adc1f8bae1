//! A program that a user calls.

use std::env;
use std::os::unix::ffi::OsStringExt;
use std::process::ExitCode;

use redo_wire::options::{jobs_of, taken_out, targets_of, Options};
use redo_wire::{Program, ToServer};

use crate::asking::{call_of_process, print, Patience, Printed, Sign};
use crate::failure::Failure;
use crate::logs;
use crate::reach::Tree;
use crate::run::{self, RunStart};
use crate::text::complain;
use crate::whichdo;

/// Does what a program does, says what goes wrong, and returns the status.
pub fn call(program: Program, words: Vec<Vec<u8>>) -> ExitCode {
    let status = done(program, words).unwrap_or_else(|failure| {
        if let Some(text) = failure.text() {
            complain(program, &with_hint(program, &failure, text));
        }
        failure.status()
    });
    ExitCode::from(status)
}

fn with_hint(program: Program, failure: &Failure, text: Vec<u8>) -> Vec<u8> {
    match failure {
        Failure::Usage(_) => {
            let hint = format!("; see {} --help", program.name());
            [text, hint.into_bytes()].concat()
        }
        _ => text,
    }
}

fn done(program: Program, words: Vec<Vec<u8>>) -> Result<u8, Failure> {
    match program {
        Program::Redo => {
            let options = Options::of_redo(&words)?;
            build(program, words, options)
        }
        Program::IfChange => {
            let options = Options::of_targets(&words)?;
            build(program, words, options)
        }
        Program::IfCreate | Program::Always | Program::Stamp => usage("it is for .do files"),
        Program::Ood | Program::Sources | Program::Targets => list(program, words),
        Program::Why => why(words),
        Program::WhichDo => whichdo::call(&words),
        Program::Log => logs::call(&words),
    }
}

fn usage<T>(text: &str) -> Result<T, Failure> {
    Err(Failure::Usage(text.as_bytes().to_vec()))
}

/// Builds targets. What isn't to be done only by the server is a run's.
fn build(program: Program, words: Vec<Vec<u8>>, options: Options) -> Result<u8, Failure> {
    let jobs = env::var_os("REDO_JOBS").filter(|value| !value.is_empty());
    let jobs = jobs
        .map(|value| jobs_of("REDO_JOBS", &value.into_vec()))
        .transpose()?;
    let tree = Tree::found_or_made()?;
    let call = call_of_process(program, words, None, None)?;
    let folder = call.folder.clone();
    let mut patience = Patience::new(tree.top(), Sign::Unread);
    let (mut link, mut message) = tree.ask(&ToServer::Call(Box::new(call)), &mut patience)?;
    loop {
        match print(message)? {
            Printed::Done => {}
            Printed::End(status) => return Ok(status),
            Printed::Other(first) => {
                let start = RunStart {
                    tree,
                    folder,
                    options,
                    jobs,
                    patience,
                };
                return run::go_on(start, link, first);
            }
        }
        message = patience.next_message(&mut link)?.ok_or(Failure::Ended)?;
    }
}

/// Prints one of the three lists of the database. If nothing was ever built, it is empty.
fn list(program: Program, words: Vec<Vec<u8>>) -> Result<u8, Failure> {
    let own: &[&[u8]] = if program == Program::Targets {
        &[b"--edited"]
    } else {
        &[]
    };
    let (_, rest) = taken_out(&words, own);
    if rest != [b"-0"] && !targets_of(&rest)?.is_empty() {
        return usage("it takes no arguments");
    }
    match Tree::found()? {
        Some(tree) => question(program, words, &tree),
        None => Ok(0),
    }
}

fn why(words: Vec<Vec<u8>>) -> Result<u8, Failure> {
    let (_, rest) = taken_out(&words, &[b"--json", b"--users"]);
    if targets_of(&rest)?.is_empty() {
        return usage("it takes a target");
    }
    match Tree::found()? {
        Some(tree) => question(Program::Why, words, &tree),
        None => usage("nothing was ever built here"),
    }
}

/// Has the server answer.
fn question(program: Program, words: Vec<Vec<u8>>, tree: &Tree) -> Result<u8, Failure> {
    let call = call_of_process(program, words, None, None)?;
    let mut patience = Patience::new(tree.top(), Sign::Silence);
    let (mut link, mut message) = tree.ask(&ToServer::Call(Box::new(call)), &mut patience)?;
    loop {
        match print(message)? {
            Printed::Done => {}
            Printed::End(status) => return Ok(status),
            Printed::Other(_) => return Err(Failure::Text(b"the server wants a build".to_vec())),
        }
        message = patience.next_message(&mut link)?.ok_or(Failure::Ended)?;
    }
}
