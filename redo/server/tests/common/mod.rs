//! A tree with a server, and runs in which a test plays the scripts.
#![allow(dead_code)]

pub mod link;
pub mod run;

use std::env;
use std::fs::{self, Permissions};
use std::os::unix::ffi::OsStrExt;
use std::os::unix::fs::PermissionsExt;
use std::path::{Path, PathBuf};
use std::process::{Child, Command, Stdio};
use std::sync::atomic::{AtomicU32, Ordering};
use std::sync::Mutex;
use std::thread;
use std::time::{Duration, Instant, SystemTime};

use redo_wire::{Call, Program, Surroundings, ToProgram};

use link::Link;
use run::{Playing, Ran};

const LONGEST: Duration = Duration::from_secs(20);

static COUNT: AtomicU32 = AtomicU32::new(0);
static LIVE: Mutex<Option<PathBuf>> = Mutex::new(None);

/// So many clients have a session of the server of a test, unless it is about very many.
pub const RUNS: u32 = 63;

/// A tree, and its server.
pub struct Tree {
    folder: PathBuf,
    server: Child,
}

impl Tree {
    pub fn new() -> Tree {
        let number = COUNT.fetch_add(1, Ordering::Relaxed);
        let name = format!("redo-machine-{}-{number}", std::process::id());
        let folder = env::temp_dir().canonicalize().unwrap().join(name);
        fs::create_dir_all(folder.join(".redo")).unwrap();
        let server = start(&folder, &live());
        Tree { folder, server }
    }

    pub fn at(&self, path: &str) -> PathBuf {
        self.folder.join(path)
    }

    pub fn write(&self, path: &str, text: &str) {
        fs::create_dir_all(self.at(path).parent().unwrap()).unwrap();
        fs::write(self.at(path), text).unwrap();
    }

    pub fn read(&self, path: &str) -> String {
        fs::read_to_string(self.at(path)).unwrap()
    }

    pub fn remove(&self, path: &str) {
        fs::remove_file(self.at(path)).unwrap();
    }

    /// Lets so much time pass that what is written now changes later than what was before.
    pub fn let_time_pass(&self) {
        thread::sleep(Duration::from_millis(30));
    }

    /// How a program is called in the top folder.
    pub fn call(&self, program: Program, words: &[&str], task: Option<u64>) -> Call {
        let environment = vec![b"PATH=/bin".to_vec()];
        Call {
            program,
            folder: self.folder.as_os_str().as_bytes().to_vec(),
            words: words.iter().map(|word| word.as_bytes().to_vec()).collect(),
            surroundings: Surroundings {
                environment,
                umask: 0o22,
                ..Surroundings::default()
            },
            task,
            content: None,
            terminal: false,
        }
    }

    pub fn link(&self) -> Link {
        Link::to(&self.at(".redo/server/socket"))
    }

    /// Does a run of `redo`, one script at a time.
    pub fn redo(&self, words: &[&str]) -> Ran {
        Playing::new(self).run(self.call(Program::Redo, words, None))
    }

    /// Does a run of `redo-ifchange`, one script at a time.
    pub fn ifchange(&self, words: &[&str]) -> Ran {
        Playing::new(self).run(self.call(Program::IfChange, words, None))
    }

    /// Asks a question: what is printed, and the status.
    pub fn ask(&self, program: Program, words: &[&str]) -> (String, u8) {
        let mut link = self.link();
        link.call(self.call(program, words, None));
        let mut printed = String::new();
        loop {
            match link.message() {
                Some(ToProgram::Output(text)) => printed += &String::from_utf8(text).unwrap(),
                Some(ToProgram::Error(text)) => printed += &String::from_utf8(text).unwrap(),
                Some(ToProgram::End { status }) => return (printed, status),
                other => panic!("{other:?}"),
            }
        }
    }

    /// Ends the server by a signal, and starts another one.
    pub fn restart(&mut self, signal: &str) {
        self.signal(signal);
        self.server.wait().unwrap();
        self.server = start(&self.folder, &live());
    }

    /// Starts another server, whose database answers otherwise: each line as `sed` edits it.
    pub fn restart_with_edited_answers(&mut self, edit: &str) {
        let live = live();
        let line = format!("#!/bin/sh\n'{}' \"$@\" | sed -u '{edit}'\n", live.display());
        self.restart_with("-TERM", &line);
    }

    /// Ends the server by a signal, and starts another one, whose database is this script.
    pub fn restart_with(&mut self, signal: &str, script: &str) {
        self.signal(signal);
        self.server.wait().unwrap();
        let program = self.at("database");
        self.write("database", script);
        fs::set_permissions(&program, Permissions::from_mode(0o755)).unwrap();
        self.server = start(&self.folder, &program);
    }

    /// Kills the database of the server.
    pub fn kill_database(&self) {
        let parent = self.server.id().to_string();
        let status = Command::new("pkill")
            .args(["-KILL", "-P", &parent])
            .status();
        assert!(status.unwrap().success());
    }

    fn signal(&self, signal: &str) {
        let pid = self.server.id().to_string();
        Command::new("kill").args([signal, &pid]).status().unwrap();
    }
}

impl Drop for Tree {
    fn drop(&mut self) {
        self.signal("-TERM");
        let _ = self.server.wait();
        let _ = fs::remove_dir_all(&self.folder);
    }
}

fn start(folder: &Path, live: &Path) -> Child {
    let mut command = Command::new(env!("CARGO_BIN_EXE_redo-server"));
    command.arg("--top").arg(folder).args(["--idle", "30"]);
    command.arg("--runs").arg(RUNS.to_string());
    command.env("REDODB_LIVE", live).stdin(Stdio::null());
    let server = command.spawn().unwrap();
    let socket = folder.join(".redo/server/socket");
    let end = Instant::now() + LONGEST;
    while std::os::unix::net::UnixStream::connect(&socket).is_err() {
        assert!(Instant::now() < end, "the server doesn't begin");
        thread::sleep(Duration::from_millis(2));
    }
    server
}

/// The database: REDODB_LIVE, else the stand-in in plain Rust.
fn live() -> PathBuf {
    let mut live = LIVE.lock().unwrap();
    live.get_or_insert_with(|| env::var_os("REDODB_LIVE").map_or_else(stand_in, PathBuf::from))
        .clone()
}

/// The stand-in that `redo/build` has built, or that of an earlier test; else it is compiled now.
fn stand_in() -> PathBuf {
    let here = Path::new(env!("CARGO_MANIFEST_DIR"));
    let sources = here.join("../../bench/rivals");
    let built = here.join("../target/release/redodb-live-plain");
    let made = Path::new(env!("CARGO_TARGET_TMPDIR")).join("redodb-live-plain");
    let changed = last_change(&sources);
    let is_new = |program: &&PathBuf| program.exists() && last_change(program) > changed;
    if let Some(program) = [&built, &made].into_iter().find(is_new) {
        return program.clone();
    }
    let mut command = Command::new("rustc");
    command.args(["--edition", "2021", "-O"]);
    command.arg(sources.join("live/plain.rs"));
    assert!(command.arg("-o").arg(&made).status().unwrap().success());
    made
}

/// When a file was changed, or the last one of a folder.
fn last_change(path: &Path) -> SystemTime {
    let own = fs::metadata(path).unwrap().modified().unwrap();
    let parts = fs::read_dir(path).into_iter().flatten();
    let changes = parts.map(|part| last_change(&part.unwrap().path()));
    changes.fold(own, SystemTime::max)
}
