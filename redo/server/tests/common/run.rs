//! A run in which the test plays the scripts.
//!
//! Each line of a `.do` file is one step: `ifchange NAME..`, `redo NAME..`, `ifcreate NAME..` and
//! `always` ask the server, `stamp BYTE` tells one as the digest, `cat NAME..` and `echo TEXT`
//! write output, `wait NAME` waits for a file, `edit NAME TEXT` writes one, and `fail` fails. A
//! step that begins with `-` may fail.

use std::collections::BTreeMap;
use std::fs;
use std::net::Shutdown;
use std::os::unix::ffi::{OsStrExt, OsStringExt};
use std::os::unix::net::UnixStream;
use std::path::PathBuf;
use std::sync::{Arc, Mutex};
use std::thread;
use std::time::{Duration, Instant};

use redo_files::look::Reader;
use redo_files::Folder;
use redo_wire::{Call, Digest, Program, Said, Script, Surroundings, ToProgram, ToServer};

use super::link::{send, Link};
use super::{Tree, LONGEST};

/// What came of a run.
#[derive(Debug, Default, PartialEq, Eq)]
pub struct Ran {
    /// Whether all is right. None if the server has ended.
    pub right: Option<bool>,
    /// The targets whose scripts ran, in the order in which they began.
    pub scripts: Vec<String>,
    /// What was said, each with `$` where the top is.
    pub said: Vec<String>,
    /// What the scripts of each target were told.
    pub errors: Vec<String>,
}

/// A run that is played.
#[derive(Clone)]
pub struct Playing {
    top: PathBuf,
    jobs: u32,
    /// A file whose coming ends the run as if it were killed.
    killed_by: Option<PathBuf>,
    /// A target that somebody edits as soon as it is in its place.
    edits_after: Option<PathBuf>,
    environments: Arc<Mutex<BTreeMap<String, Option<Surroundings>>>>,
    errors: Arc<Mutex<Vec<String>>>,
}

impl Playing {
    pub fn new(tree: &Tree) -> Playing {
        Playing {
            top: tree.at(""),
            jobs: 1,
            killed_by: None,
            edits_after: None,
            environments: Arc::default(),
            errors: Arc::default(),
        }
    }

    /// So many scripts may run at once.
    pub fn jobs(mut self, jobs: u32) -> Playing {
        self.jobs = jobs;
        self
    }

    /// The connection ends once a script of this target runs.
    pub fn killed_at(mut self, target: &str) -> Playing {
        self.killed_by = Some(PathBuf::from(target));
        self
    }

    /// This target is edited as soon as it is in its place.
    pub fn edited_after(mut self, target: &str) -> Playing {
        self.edits_after = Some(PathBuf::from(target));
        self
    }

    /// What the scripts were to inherit, by their targets.
    pub fn inherited(&self) -> BTreeMap<String, Option<Surroundings>> {
        self.environments.lock().unwrap().clone()
    }

    /// Does a run.
    pub fn run(&self, call: Call) -> Ran {
        let mut link = Link::to(&self.top.join(".redo/server/socket"));
        link.call(call);
        let mut ran = Ran::default();
        let mut slots = 1;
        while let Some(message) = link.message() {
            match message {
                ToProgram::Run(script) => {
                    ran.scripts.push(text(&script.target));
                    if self.killed_by.as_deref() == Some(text(&script.target).as_ref()) {
                        link.socket.shutdown(Shutdown::Both).unwrap();
                        return ran;
                    }
                    self.begin(*script, link.socket.try_clone().unwrap());
                }
                ToProgram::Say(said) => ran.said.push(self.line(&said)),
                ToProgram::Error(line) => ran.said.push(text(&line)),
                ToProgram::Want { slots: wanted } if wanted > 0 && slots < self.jobs => {
                    slots += 1;
                    send(&mut link.socket, &ToServer::Slot);
                }
                ToProgram::Return { slots: back } => slots -= back,
                ToProgram::End { status } => ran.right = Some(status == 0),
                ToProgram::Answer { right } => {
                    ran.right = Some(right);
                    send(&mut link.socket, &ToServer::Close);
                }
                ToProgram::Want { .. } | ToProgram::Stop | ToProgram::Output(_) => {}
            }
        }
        ran.errors = self.errors.lock().unwrap().clone();
        ran
    }

    fn line(&self, said: &Said) -> String {
        let top = self.top.as_os_str().to_str().unwrap().trim_end_matches('/');
        let line = text(&said.what.line(|path| path.to_vec()));
        let asker = said.asker.map_or(String::new(), |_| "script: ".to_owned());
        format!("{asker}{}", line.replace(&format!("{top}/"), ""))
    }

    fn begin(&self, script: Script, mut socket: UnixStream) {
        let inherited = (text(&script.target), script.surroundings.clone());
        self.environments.lock().unwrap().extend([inherited]);
        let playing = self.clone();
        thread::spawn(move || {
            let made = playing.play(&script);
            let (task, ok) = (script.task, made.is_some());
            let stamp = made.flatten();
            send(&mut socket, &ToServer::Ended { task, ok, stamp });
        });
    }

    /// Plays a script, and puts its output in its place if all steps go well. Returns its stamp, if
    /// there is output.
    fn play(&self, script: &Script) -> Option<Option<Vec<u8>>> {
        let mut output = String::new();
        let steps = fs::read_to_string(path(&script.do_file)).unwrap();
        for step in steps.lines() {
            let (may_fail, step) = match step.strip_prefix('-') {
                Some(step) => (true, step),
                None => (false, step),
            };
            if !self.step(script, step, &mut output) && !may_fail {
                return None;
            }
        }
        let target = path(&script.folder).join(path(&script.first));
        if output.is_empty() {
            let _ = fs::remove_file(target);
            return Some(None);
        }
        let third = target.with_extension("third");
        fs::write(&third, output).unwrap();
        let stamp = stamp_of(&third);
        fs::rename(third, &target).unwrap();
        if self.edits_after.as_deref() == Some(text(&script.target).as_ref()) {
            fs::write(target, "by hand").unwrap();
        }
        Some(Some(stamp))
    }

    fn step(&self, script: &Script, step: &str, output: &mut String) -> bool {
        let (word, rest) = step.split_once(' ').unwrap_or((step, ""));
        let words: Vec<&str> = rest.split_whitespace().collect();
        let folder = path(&script.folder);
        match word {
            "ifchange" => self.asks(script, Program::IfChange, &words),
            "redo" => self.asks(script, Program::Redo, &words),
            "ifcreate" => self.asks(script, Program::IfCreate, &words),
            "always" => self.asks(script, Program::Always, &words),
            "stamp" => self.asks(script, Program::Stamp, &words),
            "cat" => words
                .iter()
                .all(|name| match fs::read_to_string(folder.join(name)) {
                    Ok(text) => {
                        output.push_str(&text);
                        true
                    }
                    Err(_) => false,
                }),
            "echo" => {
                output.push_str(rest);
                true
            }
            "edit" => fs::write(folder.join(words[0]), words[1]).is_ok(),
            "wait" => waits_for(&folder.join(words[0])),
            _ => false,
        }
    }

    fn asks(&self, script: &Script, program: Program, words: &[&str]) -> bool {
        let mut link = Link::to(&self.top.join(".redo/server/socket"));
        let is_stamp = program == Program::Stamp;
        let content = is_stamp.then(|| Digest([words[0].as_bytes()[0]; 32]));
        let words = if is_stamp { &[] } else { words };
        link.call(Call {
            program,
            folder: script.folder.clone(),
            words: words.iter().map(|word| word.as_bytes().to_vec()).collect(),
            surroundings: Surroundings {
                environment: vec![[b"ASKER=", script.target.as_slice()].concat()],
                ..Surroundings::default()
            },
            task: Some(script.task),
            content,
            terminal: false,
        });
        loop {
            match link.message() {
                Some(ToProgram::Error(line)) => self.errors.lock().unwrap().push(text(&line)),
                Some(ToProgram::End { status }) => return status == 0,
                None => return false,
                other => panic!("{other:?}"),
            }
        }
    }
}

/// The stamp of a file.
pub fn stamp_of(file: &std::path::Path) -> Vec<u8> {
    let root = Folder::open(b"/").unwrap();
    let look = Reader::new().look_at(&root, file.as_os_str().as_bytes());
    look.stamp.unwrap().to_string().into_bytes()
}

fn waits_for(path: &std::path::Path) -> bool {
    let end = Instant::now() + LONGEST;
    while !path.exists() {
        if Instant::now() > end {
            return false;
        }
        thread::sleep(Duration::from_millis(2));
    }
    true
}

fn path(bytes: &[u8]) -> PathBuf {
    std::ffi::OsString::from_vec(bytes.to_vec()).into()
}

fn text(bytes: &[u8]) -> String {
    String::from_utf8_lossy(bytes).into_owned()
}
