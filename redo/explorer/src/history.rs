//! The commands of a trace as a history that `redodb replay` reads.
use crate::model::{Line, Model, Told};
use redo_core::{Command, Digest, Name, Stamp, Subject, NO_FILE};

/// The history of a database that kept one.
pub fn history(model: &Model) -> String {
    let lines: &[Line] = model.history.as_deref().unwrap_or_default();
    let head = format!("history {}\n", lines.len());
    lines.iter().map(line).fold(head, |text, line| text + &line)
}

fn line((run, command, told): &Line) -> String {
    format!("{} {} => {}\n", run.0, command_text(command), told_text(command, told))
}

fn name(name: Name) -> String {
    format!("n{:03}", name.0)
}

fn subject(subject: Subject) -> String {
    match subject {
        Subject::File(file) => name(file),
        Subject::Edited(file) => format!("//edited/{}", name(file)),
        Subject::Left(file) => format!("//left/{}", name(file)),
        Subject::Always => "//always".to_string(),
    }
}

fn stamp(stamp: Stamp) -> String {
    if stamp == NO_FILE {
        "none".to_string()
    } else {
        format!("s{}", stamp.0)
    }
}

fn content(digest: Digest) -> String {
    format!("{:016x}", digest.0)
}

fn words<T: Copy>(values: &[T], text: impl Fn(T) -> String) -> String {
    values.iter().map(|value| text(*value)).collect::<Vec<String>>().join(" ")
}

fn command_text(command: &Command) -> String {
    match command {
        Command::File(about, value) => format!("file {} {}", subject(*about), stamp(*value)),
        Command::Gone(about) => format!("gone {}", subject(*about)),
        Command::Lock(target) => format!("lock {}", name(*target)),
        Command::Unlock(target) => format!("unlock {}", name(*target)),
        Command::Start(target) => format!("start {}", name(*target)),
        Command::IfChange(target, names) => {
            format!("ifchange {} {}", name(*target), words(names, subject))
        }
        Command::IfCreate(target, names) => {
            format!("ifcreate {} {}", name(*target), words(names, name))
        }
        Command::Always(target) => format!("always {}", name(*target)),
        Command::Stamp(target, digest) => format!("stamp {} {}", name(*target), content(*digest)),
        Command::Done(target, None) => format!("done {} -", name(*target)),
        Command::Done(target, Some(value)) => format!("done {} {}", name(*target), stamp(*value)),
        Command::Failed(target) => format!("failed {}", name(*target)),
    }
}

fn told_text(command: &Command, told: &Told) -> String {
    match told {
        Told::Ok => "ok".to_string(),
        Told::Granted(grant) => format!("granted {grant}"),
        Told::Busy(grant) => format!("busy {grant}"),
        Told::Stale(names) => format!("stale {}", words(names, subject)),
        Told::Stamped(digest) => format!("stamped {}", crate::sha1::hex(&digest.0.to_be_bytes())),
        Told::Refused("exists") => unreachable!("{command:?}"),
        Told::Refused(word) => format!("refused {word}"),
        Told::Exists(file) => format!("refused exists {}", name(*file)),
    }
}
