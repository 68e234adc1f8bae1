//! The database as the machine uses it: redodb-live, and what is known of what it was told.

pub(crate) mod lines;

use std::cell::{Cell, RefCell};
use std::collections::BTreeMap;
use std::io;

use redo_core::{Command, Database, Mark, Name, Reply, RunId, Stamp, State, Subject};
use redo_files::names::{is_internal, ALWAYS, EDITED, LEFT, MOST_BYTES};

use crate::conversation::Told;
use crate::known::Known;
use crate::live::Live;
use crate::names::{Facts, FileStamp};
use crate::sessions::Session;
use crate::wire::partition;

use lines::{needs_in, Answer};

/// The builder of a target that a client builds who speaks lines of text.
const OTHER_BUILDER: RunId = RunId(0);

/// The rows of a target that a run builds, with their marks.
#[derive(Debug)]
struct Build {
    run: RunId,
    rows: BTreeMap<Name, Mark>,
}

/// Why a target is out of date, as far as the machine asks.
#[derive(Clone, Copy, Debug, PartialEq, Eq)]
enum Why {
    Clean,
    OwnReason,
    ByOthers,
}

/// redodb-live, and what is known of what it was told.
///
/// Each command of the machine is one line, whose answer is waited for. Before that, all is to be
/// answered that others have asked.
#[derive(Debug)]
pub struct Store {
    pub live: Live,
    pub known: Known,
    grants: BTreeMap<Name, u64>,
    builds: BTreeMap<Name, Build>,
    /// The targets that were unlocked, of which those are to know who wait for locks.
    released: Vec<Name>,
    /// The runs in which the database didn't do what it was told, and the first such answer.
    broken: BTreeMap<RunId, Vec<u8>>,
    /// Why redodb-live can't be talked to any more. Then all answers of the database are made up,
    /// and nothing may come of them.
    failure: RefCell<Option<io::Error>>,
    line: RefCell<Vec<u8>>,
    answer: RefCell<Vec<u8>>,
    /// The last answer about what is out of date, while nothing has changed.
    why: Cell<Option<(Name, Why)>>,
}

impl Store {
    /// A database that isn't there yet, of which this is known.
    pub fn new(known: Known) -> Store {
        Store {
            live: Live::default(),
            known,
            grants: BTreeMap::new(),
            builds: BTreeMap::new(),
            released: Vec::new(),
            broken: BTreeMap::new(),
            failure: RefCell::new(None),
            line: RefCell::new(Vec::new()),
            answer: RefCell::new(Vec::new()),
            why: Cell::new(None),
        }
    }

    /// How often the lock of a target was granted, which a run has.
    pub fn grant(&self, target: Name) -> u64 {
        self.grants.get(&target).copied().unwrap_or_default()
    }

    /// The targets that were unlocked since this was asked.
    pub fn take_released(&mut self) -> Vec<Name> {
        std::mem::take(&mut self.released)
    }

    /// The runs in which the database didn't do what it was told, with what it said.
    pub fn take_broken(&mut self) -> BTreeMap<RunId, Vec<u8>> {
        std::mem::take(&mut self.broken)
    }

    /// Says whether redodb-live can't be talked to any more.
    pub fn has_failed(&self) -> bool {
        self.failure.borrow().is_some()
    }

    /// Why redodb-live can't be talked to any more.
    pub fn take_failure(&mut self) -> Option<io::Error> {
        self.failure.take()
    }

    /// A stamp that no run had for `//always`.
    pub fn run_stamp(&mut self, text: &str) -> Stamp {
        self.known
            .stamp_numbered(&FileStamp::parse(text.as_bytes()))
    }

    /// The name of a subject as the database has it.
    pub fn text_of(&self, subject: Subject) -> Vec<u8> {
        let name = |name: Name| self.known.names.name(name);
        match subject {
            Subject::File(file) => name(file).to_vec(),
            Subject::Edited(target) => [EDITED, &**name(target)].concat(),
            Subject::Left(target) => [LEFT, &**name(target)].concat(),
            Subject::Always => ALWAYS.to_vec(),
        }
    }

    /// Asks a question that belongs to no run, and returns the answer; None if there is none.
    pub fn ask(&self, question: &[&[u8]]) -> Option<Vec<u8>> {
        let mut line = self.line.borrow_mut();
        begin_line(&mut line, Session::QUESTIONS.number());
        question
            .iter()
            .for_each(|part| line.extend_from_slice(part));
        line.push(b'\n');
        let answer = self.exchange(&line)?;
        Some(Told::parse(&answer).reply.to_vec())
    }

    /// Tells the database something for no run. What it answers counts, as if a client had told it.
    pub fn tell(&mut self, command: &[u8]) {
        self.why.set(None);
        let mut line = Vec::new();
        begin_line(&mut line, Session::QUESTIONS.number());
        line.extend_from_slice(command);
        line.push(b'\n');
        if let Some(answer) = self.exchange(&line) {
            self.known.learn(&Told::parse(&answer));
        }
    }

    /// Sends a line, and returns the answer, without its LF.
    fn exchange(&self, line: &[u8]) -> Option<Vec<u8>> {
        if self.failure.borrow().is_some() {
            return None;
        }
        let mut answer = self.answer.take();
        match self.live.ask_now(line, 1, &mut answer) {
            Ok(()) => {
                answer.pop();
                Some(answer)
            }
            Err(cause) => {
                self.failure.replace(Some(cause));
                None
            }
        }
    }

    /// The subject of a name as the database has it.
    fn subject_of(&mut self, name: &[u8]) -> Subject {
        if name == ALWAYS {
            return Subject::Always;
        }
        match (name.strip_prefix(EDITED), name.strip_prefix(LEFT)) {
            (Some(target), _) => Subject::Edited(self.known.intern(target)),
            (None, Some(target)) => Subject::Left(self.known.intern(target)),
            (None, None) => Subject::File(self.known.intern(name)),
        }
    }

    fn facts(&self, subject: Subject) -> Facts {
        let names = &self.known.names;
        match subject {
            Subject::File(name) => *names.facts(name),
            other => names
                .facts_of(&self.text_of(other))
                .copied()
                .unwrap_or_default(),
        }
    }

    fn why(&self, target: Name) -> Why {
        match self.why.get() {
            Some((asked, why)) if asked == target => return why,
            _ => {}
        }
        let name = self.known.names.name(target);
        let why = self
            .ask(&[b"why ", name])
            .map_or(Why::Clean, |answer| why_in(&answer));
        self.why.set(Some((target, why)));
        why
    }

    /// Notes what a command of a run has done besides what is known of files.
    fn note(&mut self, run: RunId, command: &Command, marks: Vec<(Name, Mark)>) {
        match command {
            Command::Unlock(target) => {
                self.grants.remove(target);
                self.released.push(*target);
            }
            Command::Start(target) => {
                let rows = BTreeMap::new();
                self.builds.insert(*target, Build { run, rows });
            }
            Command::IfChange(target, _) => {
                if let Some(build) = self.builds.get_mut(target) {
                    build.rows.extend(marks);
                }
            }
            Command::Done(target, _) | Command::Failed(target) => {
                self.builds.remove(target);
            }
            _ => {}
        }
    }

    /// The marks of now of what an `ifchange` is about.
    fn marks_of(&mut self, command: &Command) -> Vec<(Name, Mark)> {
        let subjects = match command {
            Command::IfChange(_, subjects) => subjects,
            _ => return Vec::new(),
        };
        let marks = subjects.iter().map(|subject| {
            let name = self.text_of(*subject);
            (self.known.intern(&name), self.mark(*subject))
        });
        marks.collect()
    }

    fn reply_in(&mut self, run: RunId, command: &Command, answer: Answer<'_>) -> Reply {
        match (command, answer) {
            (_, Answer::Done) => Reply::Done,
            (Command::Lock(target), Answer::Granted(grant)) => {
                self.grants.insert(*target, grant);
                Reply::Done
            }
            (Command::Lock(_), Answer::Busy) => Reply::Busy,
            (Command::IfChange(..), Answer::Stale(names)) => {
                Reply::Stale(names.iter().map(|name| self.subject_of(name)).collect())
            }
            (Command::IfCreate(..), Answer::Exists(name)) => Reply::Exists(self.known.intern(name)),
            (_, Answer::Granted(_) | Answer::Busy | Answer::Stale(_) | Answer::Exists(_)) => {
                self.break_run(run, command, b"another answer");
                Reply::Done
            }
            (_, Answer::Other(text)) => {
                self.break_run(run, command, text);
                if let Command::File(Subject::File(name), _) = command {
                    self.known.overlook(*name);
                }
                Reply::Done
            }
        }
    }

    /// Takes it that the database hasn't done a command of a run, which is to end therefore.
    fn break_run(&mut self, run: RunId, command: &Command, answer: &[u8]) {
        let text = self.line_of(command);
        let told = [text.as_slice(), b" => ", answer].concat();
        self.broken.entry(run).or_insert(told);
    }
}

impl Database for Store {
    fn obey(&mut self, run: RunId, command: &Command) -> Reply {
        self.why.set(None);
        let marks = self.marks_of(command);
        let mut line = self.line.take();
        begin_line(&mut line, run.0);
        self.write_command(command, &mut line);
        line.push(b'\n');
        let told = self.exchange(&line);
        self.line.replace(line);
        let answer = match told {
            Some(answer) => answer,
            None => return Reply::Done,
        };
        let told = Told::parse(&answer);
        self.known.learn(&told);
        let reply = self.reply_in(run, command, Answer::parse(told.reply));
        if matches!(reply, Reply::Done | Reply::Stale(_)) {
            self.note(run, command, marks);
        }
        self.answer.replace(answer);
        reply
    }

    fn is_out_of_date(&self, target: Name) -> bool {
        let facts = self.known.names.facts(target);
        match state_of(facts) {
            State::Idle => false,
            State::Building(_) | State::Failed => true,
            State::Built => !facts.is_as_built() || self.why(target) != Why::Clean,
        }
    }

    fn has_reason(&self, target: Name) -> bool {
        let facts = self.known.names.facts(target);
        match state_of(facts) {
            State::Idle => false,
            State::Building(_) | State::Failed => true,
            State::Built => !facts.is_as_built() || self.why(target) == Why::OwnReason,
        }
    }

    fn state(&self, name: Name) -> State {
        match state_of(self.known.names.facts(name)) {
            State::Building(_) => {
                let build = self.builds.get(&name);
                State::Building(build.map_or(OTHER_BUILDER, |build| build.run))
            }
            other => other,
        }
    }

    fn file(&self, subject: Subject) -> Option<Stamp> {
        self.facts(subject).stamp
    }

    fn is_as_built(&self, target: Name) -> bool {
        self.known.names.facts(target).is_as_built()
    }

    fn has_own_names(&self, name: Name) -> bool {
        self.known.names.name(name).len() + EDITED.len().max(LEFT.len()) <= MOST_BYTES
    }

    fn needs(&self, target: Name) -> Vec<Subject> {
        let name = self.known.names.name(target);
        let answer = self.ask(&[b"deps ", name]).unwrap_or_default();
        let names = needs_in(&answer).into_iter();
        names.filter_map(|name| self.known_subject(name)).collect()
    }

    fn edited(&self) -> Vec<Name> {
        self.known.edited_targets()
    }

    fn mark(&self, subject: Subject) -> Mark {
        self.facts(subject).mark()
    }

    fn row(&self, target: Name, subject: Subject) -> Option<Mark> {
        let name = match subject {
            Subject::File(name) => name,
            other => self.known.names.number(&self.text_of(other))?,
        };
        self.builds.get(&target)?.rows.get(&name).copied()
    }
}

impl Store {
    /// The subject of a name that is known.
    fn known_subject(&self, name: &[u8]) -> Option<Subject> {
        let number = |name: &[u8]| self.known.names.number(name);
        if !is_internal(name) {
            return number(name).map(Subject::File);
        }
        match (name.strip_prefix(EDITED), name.strip_prefix(LEFT)) {
            (Some(target), _) => number(target).map(Subject::Edited),
            (None, Some(target)) => number(target).map(Subject::Left),
            (None, None) => (name == ALWAYS).then_some(Subject::Always),
        }
    }
}

fn state_of(facts: &Facts) -> State {
    if facts.is_building {
        State::Building(OTHER_BUILDER)
    } else if facts.has_failed {
        State::Failed
    } else if facts.is_target() {
        State::Built
    } else {
        State::Idle
    }
}

/// Reads the answer to `why`: `clean`, or a reason, a name, and a chain of targets.
fn why_in(answer: &[u8]) -> Why {
    let (reason, rest) = partition(answer);
    let chain = rest.split(|byte| *byte == b' ').skip(1).count();
    match (reason, chain) {
        (b"clean", _) => Why::Clean,
        (_, 0 | 1) => Why::OwnReason,
        _ => Why::ByOthers,
    }
}

fn begin_line(line: &mut Vec<u8>, session: u32) {
    line.clear();
    line.extend_from_slice(session.to_string().as_bytes());
    line.push(b' ');
}
