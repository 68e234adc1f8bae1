//! Runs by the program `examples/run.rs`.

use std::fs::{self, File};
use std::os::unix::process::ExitStatusExt;
use std::process::{Child, Command, Stdio};
use std::time::{Duration, Instant};

use super::{ended, example, processes_with, Tree};

/// How a run ended.
pub struct Ended {
    pub status: Option<i32>,
    pub signal: Option<i32>,
    pub errors: String,
}

impl Tree {
    pub fn command(&self, words: &[&str]) -> Command {
        let mut command = example("run");
        command.args(words).current_dir(self.top());
        for name in ["MAKEFLAGS", "NO_COLOR"] {
            command.env_remove(name);
        }
        command
    }

    /// Starts a run, whose standard error goes to the file `errors`.
    pub fn start(&self, words: &[&str]) -> Child {
        self.start_by(self.command(words))
    }

    pub fn start_by(&self, mut command: Command) -> Child {
        let errors = File::create(self.at("errors")).unwrap();
        command.stdin(Stdio::null()).stderr(errors).spawn().unwrap()
    }

    pub fn end(&self, mut run: Child) -> Ended {
        let status = ended(&mut run);
        Ended {
            status: status.code(),
            signal: status.signal(),
            errors: self.read("errors"),
        }
    }

    pub fn run(&self, words: &[&str]) -> Ended {
        self.end(self.start(words))
    }

    /// What builds have left beside their targets.
    pub fn left_over(&self) -> Vec<String> {
        let names = fs::read_dir(self.top()).unwrap().flatten();
        let names = names.map(|entry| entry.file_name().into_string().unwrap());
        let runs = fs::read_dir(self.at(".redo/run")).unwrap().flatten();
        let runs = runs.map(|entry| entry.file_name().into_string().unwrap());
        names
            .filter(|name| name.contains(".redo."))
            .chain(runs)
            .collect()
    }

    /// The processes of scripts that go on.
    pub fn scripts(&self) -> Vec<String> {
        processes_with(&format!("REDO_TOP={}", self.top().display()))
    }
}

pub fn signal(run: &Child, name: &str) {
    let words = [format!("-{name}"), run.id().to_string()];
    assert!(Command::new("kill").args(words).status().unwrap().success());
}

pub fn within(most: Duration, what: &str, act: impl FnOnce()) {
    let began = Instant::now();
    act();
    assert!(began.elapsed() < most, "{what} took {:?}", began.elapsed());
}
