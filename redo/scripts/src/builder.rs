//! Runs the scripts of targets, from their beginning to the target in its place.

use std::cmp::Reverse;
use std::collections::HashMap;
use std::io;
use std::os::unix::io::AsRawFd;
use std::time::Instant;

use redo_files::error::FileError;
use redo_files::look::Reader;
use redo_files::names;
use redo_files::paths;
use redo_files::private::Home;
use redo_files::rules::Rule;
use redo_files::stamp::Stamp;

use crate::display::{Begun, BuildId, Display};
use crate::ending::{Ending, Failure};
use crate::folder::Manifest;
use crate::journal::Journal;
use crate::output::{self, Before, Ended, Outputs};
use crate::processes::{Group, Processes, Start};
use crate::program::Exit;
use crate::script::{self, ScriptError, ShellFlags};
use crate::signals;
use crate::surroundings::{RunVariables, ScriptVariables, Surroundings};
use crate::system;
use crate::text::{last_part, shown};

/// A target that is to be built.
#[derive(Clone, Copy, Debug)]
pub struct Order<'a> {
    pub name: &'a [u8],
    /// How often its lock was granted, by which its output files have their names.
    pub grant: u64,
    pub rule: &'a Rule,
    /// Whose script asked for it, if no user did.
    pub asker: Option<BuildId>,
    /// What the script inherits from who asked.
    pub surroundings: &'a Surroundings,
    /// More variables for the script, each as `NAME=VALUE`.
    pub variables: &'a [Vec<u8>],
    pub flags: ShellFlags,
    /// The stamp of the target's file.
    pub stamp: Option<&'a [u8]>,
    /// Names that were built before, for this target.
    pub built_before: &'a [Vec<u8>],
    /// Nobody has asked for it yet: why it fails is held back.
    pub is_guess: bool,
}

/// How it ended with a target.
#[derive(Debug)]
pub struct Finished {
    pub name: Vec<u8>,
    pub grant: u64,
    pub outcome: Outcome,
}

#[derive(Debug)]
pub enum Outcome {
    /// The target is right. Its file has this stamp, if there is one.
    Built(Option<Stamp>),
    /// The target is as it was, and its file has the stamp `left`, if there is one.
    Failed {
        failure: Failure,
        left: Option<Stamp>,
    },
}

impl Outcome {
    /// Returns the stamp of what is in the target's place.
    pub fn stamp(&self) -> Option<Stamp> {
        match self {
            Outcome::Built(stamp) => *stamp,
            Outcome::Failed { left, .. } => *left,
        }
    }
}

/// Builds the targets of a run.
pub struct Builder {
    home: Home,
    /// The folder from which paths are shown.
    here: Vec<u8>,
    variables: RunVariables,
    own_umask: u32,
    pub processes: Processes,
    pub display: Display,
    journal: Journal,
    running: HashMap<Group, (Build, BuildId)>,
    reader: Reader,
    is_ending: bool,
}

/// A target that is built.
#[derive(Debug)]
struct Build {
    name: Vec<u8>,
    grant: u64,
    path: Vec<u8>,
    script: Vec<u8>,
    outputs: Outputs,
    before: Before,
    is_guess: bool,
}

impl Builder {
    /// Begins a run in a tree. Takes a place in `.redo/run`.
    pub fn new(
        home: &Home,
        here: &[u8],
        variables: RunVariables,
        display: Display,
    ) -> Result<Builder, FileError> {
        let journal = Journal::take(home)?;
        let run = journal.path().to_vec();
        let processes = Processes::new().map_err(|cause| FileError::system(&run, cause))?;
        Ok(Builder {
            home: home.clone(),
            here: here.to_vec(),
            variables: RunVariables { run, ..variables },
            own_umask: system::umask(),
            processes,
            display,
            journal,
            running: HashMap::new(),
            reader: Reader::new(),
            is_ending: false,
        })
    }

    /// Starts the script of a target, and returns what is shown of its build. If it can't be
    /// started, the build has failed.
    pub fn start(&mut self, order: &Order) -> Result<BuildId, Finished> {
        let path = names::path_of(order.name, self.home.top());
        let path = match path {
            Ok(path) => paths::normalized(&path),
            Err(cause) => return Err(self.refuse(order, None, Failure::from(cause))),
        };
        let outputs = Outputs::of(&path, order.grant);
        if let Some(there) = outputs.there() {
            let failure = Failure::InTheWay(paths::relative(there, &self.here));
            return Err(self.refuse(order, Some(&path), failure));
        }
        self.journal.begun(order.name, order.grant);
        let begun = self.display.begin(&Begun {
            name: order.name,
            path: &names::relative_path(order.name, self.home.top(), &self.here),
            asker: order.asker,
            stamp: order.stamp,
            built_before: order.built_before,
        });
        let id = match begun {
            Ok(id) => id,
            Err(cause) => {
                self.journal.ended(order.name, order.grant);
                return Err(self.refuse(order, Some(&path), Failure::from(cause)));
            }
        };
        let build = Build {
            name: order.name.to_vec(),
            grant: order.grant,
            before: Before::of(&path),
            script: last_part(&order.rule.do_file).to_vec(),
            path,
            outputs,
            is_guess: order.is_guess,
        };
        self.run(order, build, id)
    }

    /// Takes the scripts that have ended, and makes their outputs the targets. It is to be called
    /// after each SIGCHLD.
    pub fn on_child(&mut self) -> io::Result<Vec<Finished>> {
        let ended = self.processes.ended()?;
        Ok(ended
            .into_iter()
            .filter_map(|(group, exit)| self.finish(group, exit))
            .collect())
    }

    /// Says that scripts are to end: none that ends from now on ends well.
    pub fn end_all(&mut self, now: Instant) {
        self.is_ending = true;
        self.processes.end_all(now);
    }

    /// Stops the scripts and this process, as Ctrl-Z does, and returns once it goes on with them.
    pub fn suspend(&mut self) {
        self.processes.suspend();
        self.display.progress(b"");
        signals::stop_here();
        self.processes.resume();
    }

    /// Returns the names of the targets whose scripts run, the latest first.
    pub fn running(&self) -> Vec<&[u8]> {
        let mut builds: Vec<&(Build, BuildId)> = self.running.values().collect();
        builds.sort_by_key(|(_, id)| Reverse(*id));
        builds
            .into_iter()
            .map(|(build, _)| build.name.as_slice())
            .collect()
    }

    /// Returns a name as it is shown.
    pub fn shown(&self, name: &[u8]) -> Vec<u8> {
        shown(&names::relative_path(name, self.home.top(), &self.here))
    }

    /// Ends a build that didn't begin.
    fn refuse(&mut self, order: &Order, path: Option<&[u8]>, failure: Failure) -> Finished {
        let left = path.and_then(|path| self.left(path));
        let shown = self.shown(order.name);
        self.display.hold(order.name, &shown, &failure);
        if !order.is_guess {
            self.display.tell_held(order.asker, order.name);
        }
        Finished {
            name: order.name.to_vec(),
            grant: order.grant,
            outcome: Outcome::Failed { failure, left },
        }
    }

    fn run(&mut self, order: &Order, build: Build, id: BuildId) -> Result<BuildId, Finished> {
        match self.spawn(order, &build, id) {
            Ok(group) => {
                self.journal.started(&build.name, build.grant, group);
                self.running.insert(group, (build, id));
                Ok(id)
            }
            Err(failure) => Err(self.failed(build, id, failure)),
        }
    }

    /// Starts the script; if that fails, nothing is left of it.
    fn spawn(&mut self, order: &Order, build: &Build, id: BuildId) -> Result<Group, Failure> {
        let words = script::command_line(order.rule, &build.outputs.third, order.flags)?;
        let script = ScriptVariables {
            target: order.name,
            depth: self.display.depth_of(id),
            more: order.variables,
        };
        let environment = self.variables.environment(order.surroundings, &script);
        let output = build
            .outputs
            .open_standard(order.surroundings.umask, self.own_umask)?;
        let started = self.processes.start(&Start {
            words: &words,
            folder: &order.rule.folder,
            environment: &environment,
            umask: order.surroundings.umask,
            limits: &order.surroundings.limits,
            output: output.as_raw_fd(),
            errors: self.display.errors_of(id),
        });
        self.display.started(id);
        started.map_err(|error| {
            let _ = build.outputs.remove(); // it is empty
            Failure::CantRun(ScriptError::Unstarted {
                script: shown(&build.script),
                what: error.what,
                cause: error.cause,
            })
        })
    }

    fn finish(&mut self, group: Group, exit: Exit) -> Option<Finished> {
        let (build, id) = self.running.remove(&group)?;
        let name = self.shown(&build.name);
        let manifest = Manifest::new(&self.home, &build.name, &name);
        let script = shown(&build.script);
        let ended = Ended {
            name: &script,
            target: &build.path,
            before: build.before,
            exit,
            is_stopped: self.is_ending,
        };
        let ending = build.outputs.settle(&ended, &manifest, &mut self.reader);
        Some(match ending {
            Ending::Built { stamp, said } => {
                let told = stamp.map(|stamp| stamp.to_string());
                self.display
                    .end(id, &said, told.as_deref().map(str::as_bytes));
                self.finished(build, Outcome::Built(stamp))
            }
            Ending::Failed(failure) => self.failed(build, id, failure),
        })
    }

    fn failed(&mut self, build: Build, id: BuildId, failure: Failure) -> Finished {
        let left = self.left(&build.path);
        let told = left.map(|stamp| stamp.to_string());
        let told = told.as_deref().map(str::as_bytes);
        if build.is_guess {
            self.display.fail_unasked(id, &failure, told);
        } else {
            self.display.fail(id, &failure, told);
        }
        self.finished(build, Outcome::Failed { failure, left })
    }

    fn finished(&mut self, build: Build, outcome: Outcome) -> Finished {
        self.journal.ended(&build.name, build.grant);
        Finished {
            name: build.name,
            grant: build.grant,
            outcome,
        }
    }

    /// Returns the stamp of what is in the place of a target.
    fn left(&mut self, path: &[u8]) -> Option<Stamp> {
        output::stamp_of(path, &mut self.reader).unwrap_or(None)
    }
}
