//! The calls of programs that aren't answered yet: runs, and what scripts ask.

use std::collections::{BTreeMap, BTreeSet};
use std::rc::Rc;
use std::time::Duration;

use redo_core::{Name, RunId, TaskId, Want};
use redo_files::key::Time;
use redo_files::top::SeenFolders;
use redo_wire::options::Options;
use redo_wire::{Call, Program, Surroundings};

use crate::client::ClientId;
use crate::sessions::Session;

const VARIABLE: &[u8] = b"REDO_PATIENCE=";
const PATIENCE: f64 = 30.0;
const LEAST: f64 = 0.05;
const MOST: f64 = 1e6;

/// Returns how long a program waits before it is told what for.
pub fn patience(surroundings: &Surroundings) -> Duration {
    let mut values = surroundings.environment.iter();
    let value = values.find_map(|one| one.strip_prefix(VARIABLE));
    let text = value.and_then(|value| std::str::from_utf8(value).ok());
    let seconds = text.and_then(|text| text.trim().parse::<f64>().ok());
    let seconds = seconds.filter(|seconds| !seconds.is_nan());
    Duration::from_secs_f64(seconds.unwrap_or(PATIENCE).clamp(LEAST, MOST))
}

/// A call of `redo` or `redo-ifchange` by a user.
#[derive(Debug)]
pub struct Run {
    pub client: ClientId,
    pub session: Session,
    /// The working folder of the caller, absolute.
    pub folder: Vec<u8>,
    pub options: Options,
    pub surroundings: Rc<Surroundings>,
    /// Folders that are in no other tree.
    pub folders: SeenFolders,
    /// The scripts that run.
    pub scripts: BTreeMap<TaskId, Script>,
    /// Of targets whose `.do` file can't be run: why not.
    pub obstacles: BTreeMap<Name, Vec<u8>>,
    /// The targets that were built as a guess, by the task that they were built for.
    pub built_before: BTreeMap<TaskId, Vec<Name>>,
    /// The targets of which it was told why they are to be built.
    pub explained: BTreeSet<Name>,
    /// How long it waits before it is told what for.
    pub patience: Duration,
    /// The tasks that waited for locks of others when that was looked at, and whether they had
    /// the time before.
    pub parked: BTreeMap<TaskId, bool>,
    /// It was told to do something: so it ends by itself.
    pub is_told: bool,
    /// It was told to stop.
    pub is_stopped: bool,
}

/// A script that runs.
#[derive(Clone, Debug)]
pub struct Script {
    pub target: Name,
    /// When it began, by the clock of the file system.
    pub began: Option<Time>,
    /// Nobody had asked for the target then.
    pub is_guess: bool,
}

/// A request that isn't answered.
#[derive(Clone, Debug)]
pub struct Asked {
    pub client: ClientId,
    pub run: RunId,
    pub program: Program,
    /// The script that asks, if no user does.
    pub script: Option<TaskId>,
    /// What scripts inherit that run for it.
    pub surroundings: Rc<Surroundings>,
}

/// All calls that aren't answered.
#[derive(Debug, Default)]
pub struct Calls {
    pub runs: BTreeMap<RunId, Run>,
    /// By the numbers of the requests.
    pub asked: BTreeMap<u64, Asked>,
    requests: u64,
}

impl Run {
    /// The run of a call, which was told nothing yet.
    pub fn new(
        client: ClientId,
        session: Session,
        call: &Call,
        options: Options,
        folders: SeenFolders,
    ) -> Run {
        Run {
            client,
            session,
            folder: call.folder.clone(),
            options,
            surroundings: Rc::new(call.surroundings.clone()),
            folders,
            scripts: BTreeMap::new(),
            obstacles: BTreeMap::new(),
            built_before: BTreeMap::new(),
            explained: BTreeSet::new(),
            patience: patience(&call.surroundings),
            parked: BTreeMap::new(),
            is_told: false,
            is_stopped: false,
        }
    }

    /// Returns what its user wants of the targets.
    pub fn want(&self, program: Program) -> Want {
        match program {
            Program::Redo if self.options.overwrites => Want::Overwritten,
            Program::Redo => Want::Built,
            _ => Want::UpToDate,
        }
    }
}

impl Calls {
    /// Takes a request, and returns its number.
    pub fn ask(&mut self, asked: Asked) -> u64 {
        self.requests += 1;
        self.asked.insert(self.requests, asked);
        self.requests
    }

    /// Returns the run of a script, and the script.
    pub fn script(&self, task: TaskId) -> Option<(RunId, &Script)> {
        let mut runs = self.runs.iter();
        runs.find_map(|(id, run)| run.scripts.get(&task).map(|script| (*id, script)))
    }

    /// Takes the requests away that are those of a run, and of its script if that is given.
    pub fn take_asked(&mut self, run: RunId, script: Option<TaskId>) -> Vec<Asked> {
        let is_meant = |asked: &Asked| {
            asked.run == run
                && asked.script.is_some()
                && (script.is_none() || script == asked.script)
        };
        let all = self.asked.iter();
        let numbers: Vec<u64> = all
            .filter(|(_, asked)| is_meant(asked))
            .map(|(number, _)| *number)
            .collect();
        let taken = numbers
            .iter()
            .filter_map(|number| self.asked.remove(number));
        taken.collect()
    }
}

#[cfg(test)]
mod tests {
    use super::*;

    fn patience_of(value: &str) -> f64 {
        let environment = vec![[VARIABLE, value.as_bytes()].concat()];
        let surroundings = Surroundings {
            environment,
            ..Surroundings::default()
        };
        patience(&surroundings).as_secs_f64()
    }

    #[test]
    fn patience_is_a_number_of_seconds() {
        assert_eq!(patience(&Surroundings::default()).as_secs_f64(), PATIENCE);
        for (value, wanted) in [
            ("2.5", 2.5),
            ("", PATIENCE),
            ("x", PATIENCE),
            ("nan", PATIENCE),
            ("-1", LEAST),
            ("inf", MOST),
            ("1e99", MOST),
        ] {
            assert_eq!(patience_of(value), wanted, "{value}");
        }
    }
}
