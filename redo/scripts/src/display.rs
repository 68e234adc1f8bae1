//! Shows what builds say, in the order in which they were asked for.
//!
//! What a build says is shown below its line, and the builds that it asks for where it asks. A
//! build that is behind another one waits with what it says, but for errors: when a build fails,
//! all that it has said is shown at once.

use std::collections::{BTreeSet, HashMap, VecDeque};
use std::os::unix::io::{AsRawFd, RawFd};

use redo_files::error::FileError;
use redo_files::private::Home;

use crate::lines::{is_redos, Line, Lines};
use crate::log::{self, Keys, Log, Mark};
use crate::script_terminal::ScriptTerminal;
use crate::terminal::Terminal;
use crate::text::{joined, shown};

const REDO: &[u8] = b"redo: ";
const ERRORS: RawFd = 2;

/// Where what scripts write to standard error goes.
#[derive(Clone, Copy, Debug, PartialEq, Eq)]
pub enum Errors {
    /// To this process's standard error, at once. No log is kept.
    Direct,
    /// To logs.
    Logs,
    /// To logs, through terminals that are as large as that of this process's standard error.
    Terminals,
}

/// A build that is shown.
#[derive(Clone, Copy, Debug, PartialEq, Eq, Hash, PartialOrd, Ord)]
pub struct BuildId(usize);

/// What is known of a build when it begins.
#[derive(Clone, Copy, Debug)]
pub struct Begun<'a> {
    pub name: &'a [u8],
    /// The path of the target, as it is shown.
    pub path: &'a [u8],
    /// The build whose script asked for it, if no user did.
    pub asker: Option<BuildId>,
    /// The stamp of the target's file.
    pub stamp: Option<&'a [u8]>,
    /// Names that were built before, for this build. In the stored log they belong to it.
    pub built_before: &'a [Vec<u8>],
}

/// Shows the builds of a run.
pub struct Display {
    terminal: Terminal,
    home: Home,
    errors: Errors,
    keys: Keys,
    builds: Vec<Build>,
    running: BTreeSet<BuildId>,
    by_name: HashMap<Vec<u8>, BuildId>,
    /// Those that users asked for, and that aren't shown yet.
    waiting: VecDeque<BuildId>,
    /// The build that is shown, behind the one that asked for it.
    stack: Vec<BuildId>,
    failures: Vec<Vec<u8>>,
    /// Whether what scripts write is shown.
    shows_details: bool,
    /// Why targets failed that nobody has asked for yet, by their names.
    held: HashMap<Vec<u8>, failing::Told>,
}

struct Build {
    path: Vec<u8>,
    name: Vec<u8>,
    depth: usize,
    log: Option<Log>,
    mark: Vec<u8>,
    terminal: Option<ScriptTerminal>,
    lines: Option<Lines>,
    /// Builds that it asked for, and that are shown before its further lines.
    children: VecDeque<BuildId>,
    has_line: bool,
    was_entered: bool,
}

/// What is shown next.
enum Step {
    Text(Vec<u8>),
    Build(BuildId),
    Leave,
    Nothing,
    Wait,
}

impl Display {
    pub fn new(terminal: Terminal, home: &Home, errors: Errors) -> Display {
        Display {
            terminal,
            home: home.clone(),
            errors,
            keys: Keys::default(),
            builds: Vec::new(),
            running: BTreeSet::new(),
            by_name: HashMap::new(),
            waiting: VecDeque::new(),
            stack: Vec::new(),
            failures: Vec::new(),
            shows_details: true,
            held: HashMap::new(),
        }
    }

    /// Shows lines of redo alone from now on: what scripts write is in their logs.
    pub fn hide_details(&mut self) {
        self.shows_details = false;
    }

    /// Begins the log of a build, and has it shown where its asker is shown.
    pub fn begin(&mut self, begun: &Begun) -> Result<BuildId, FileError> {
        let depth = begun
            .asker
            .map_or(0, |asker| self.builds[asker.0].depth + 1);
        let mut log = self.begin_log(begun)?;
        if let Some(log) = &mut log {
            begun.built_before.iter().for_each(|name| log.built(name));
        }
        let id = BuildId(self.builds.len());
        self.by_name.insert(begun.name.to_vec(), id);
        self.running.insert(id);
        self.builds.push(Build {
            path: begun.path.to_vec(),
            name: begun.name.to_vec(),
            depth,
            mark: log.as_ref().map_or(Vec::new(), |log| log.mark().to_vec()),
            terminal: log.as_ref().and_then(|_| self.script_terminal()),
            log,
            lines: None,
            children: VecDeque::new(),
            has_line: false,
            was_entered: false,
        });
        self.place(id, begun);
        Ok(id)
    }

    /// Returns the file that a build's script has as its standard error.
    pub fn errors_of(&self, id: BuildId) -> RawFd {
        let build = &self.builds[id.0];
        let terminal = build.terminal.as_ref().and_then(ScriptTerminal::far);
        terminal
            .or_else(|| build.log.as_ref().map(AsRawFd::as_raw_fd))
            .unwrap_or(ERRORS)
    }

    /// Returns how deep a build is below the user's request.
    pub fn depth_of(&self, id: BuildId) -> usize {
        self.builds[id.0].depth
    }

    /// Says that the script of a build was started.
    pub fn started(&mut self, id: BuildId) {
        if let Some(terminal) = &mut self.builds[id.0].terminal {
            terminal.started();
        }
    }

    /// Shows a line of redo's own where a build is shown, or at once if it is about none.
    pub fn say(&mut self, id: Option<BuildId>, text: &[u8]) {
        let line = joined(&[REDO, text]);
        match id.map(|id| &mut self.builds[id.0]) {
            Some(build) if build.log.is_some() => build.say(&line),
            _ => self.terminal.message(&line),
        }
        self.pump();
    }

    /// Shows an error where a build is shown, at once.
    pub fn complain(&mut self, id: Option<BuildId>, text: &[u8]) {
        self.say(id, text);
        id.into_iter().for_each(|id| self.show_now(id));
    }

    /// Notes names that were up to date when the script of a build asked for them.
    pub fn unchanged<'a>(&mut self, id: BuildId, names: impl IntoIterator<Item = &'a [u8]>) {
        let build = &mut self.builds[id.0];
        build.drain();
        if let Some(log) = &mut build.log {
            log.unchanged(names);
        }
    }

    /// Ends a build whose target is right, and whose file has this stamp.
    pub fn end(&mut self, id: BuildId, said: &[Vec<u8>], stamp: Option<&[u8]>) {
        let path = shown(&self.builds[id.0].path);
        said.iter()
            .for_each(|text| self.say(Some(id), &joined(&[&path, b": ", text])));
        self.close(id, 0, stamp);
    }

    /// Returns what to wait for until [`Display::on_readable`] has something to show. What goes to
    /// logs shows itself by no descriptor: [`Display::pump`] looks.
    pub fn descriptors(&self) -> impl Iterator<Item = RawFd> + '_ {
        let builds = self.running.iter().map(|id| &self.builds[id.0]);
        let terminals = builds.filter_map(|build| build.terminal.as_ref());
        terminals.filter_map(ScriptTerminal::descriptor)
    }

    /// Takes what scripts have written to their terminals.
    pub fn on_readable(&mut self) {
        for id in &self.running {
            self.builds[id.0].drain();
        }
        self.pump();
    }

    /// Shows how far the run is, behind all lines; an empty text takes that away.
    pub fn progress(&mut self, text: &[u8]) {
        self.terminal.progress(text);
    }

    /// Shows what there is still, and with `sums_up` the failures of the run.
    pub fn finish(&mut self, sums_up: bool) {
        self.pump();
        self.terminal.progress(b"");
        if sums_up && !self.failures.is_empty() {
            let what = if self.failures.len() == 1 {
                "failure"
            } else {
                "failures"
            };
            let count = format!("redo: {} {what}:", self.failures.len());
            self.terminal.message(count.as_bytes());
            let lines = self
                .failures
                .iter()
                .map(|text| joined(&[b"redo:   ", text]));
            lines.for_each(|line| self.terminal.message(&line));
        }
    }

    /// Shows all that can be shown by now.
    pub fn pump(&mut self) {
        loop {
            match self.step() {
                Step::Text(line) => self.show_text(&line),
                Step::Build(id) => self.enter(id),
                Step::Leave => self.leave(),
                Step::Nothing => {}
                Step::Wait => return,
            }
        }
    }

    fn show_text(&mut self, text: &[u8]) {
        if self.shows_details || is_redos(text) {
            self.terminal.text(text);
        }
    }

    fn close(&mut self, id: BuildId, status: i32, stamp: Option<&[u8]>) {
        self.running.remove(&id);
        self.builds[id.0].end(status, stamp);
        self.pump();
    }

    fn begin_log(&mut self, begun: &Begun) -> Result<Option<Log>, FileError> {
        if self.errors == Errors::Direct {
            log::note(&self.home, begun.name, begun.stamp)?;
            return Ok(None);
        }
        Log::begin(&self.home, begun.name, begun.stamp, &mut self.keys).map(Some)
    }

    /// Returns a terminal for a script. Without one it has its log.
    fn script_terminal(&self) -> Option<ScriptTerminal> {
        let wants_one = self.errors == Errors::Terminals;
        wants_one
            .then(|| ScriptTerminal::like(ERRORS).ok())
            .flatten()
    }

    /// Has a build shown where it was asked for.
    fn place(&mut self, id: BuildId, begun: &Begun) {
        if self.builds[id.0].log.is_none() {
            let build = &mut self.builds[id.0];
            build.has_line = true;
            self.terminal.begun(&build.path, build.depth);
            return;
        }
        match begun.asker.map(|asker| &mut self.builds[asker.0]) {
            Some(asker) if asker.log.is_some() => asker.asks_for(begun.name),
            _ => self.waiting.push_back(id),
        }
        self.pump();
    }

    fn step(&mut self) -> Step {
        let id = match self.stack.last() {
            Some(id) => *id,
            None => return self.waiting.pop_front().map_or(Step::Wait, Step::Build),
        };
        let build = &mut self.builds[id.0];
        if let Some(child) = build.children.pop_front() {
            return Step::Build(child);
        }
        match build.next() {
            Some(Line::Text(text)) => Step::Text(text),
            Some(Line::Mark(Mark::Built(name))) => self
                .by_name
                .get(&name)
                .map_or(Step::Nothing, |child| Step::Build(*child)),
            Some(Line::Mark(_)) => Step::Nothing,
            None if build.log.is_some() => Step::Wait,
            None => Step::Leave,
        }
    }

    fn enter(&mut self, id: BuildId) {
        if !std::mem::replace(&mut self.builds[id.0].was_entered, true) {
            self.open(id);
            self.stack.push(id);
        }
    }

    fn leave(&mut self) {
        let left = self.stack.pop();
        left.into_iter()
            .for_each(|id| self.builds[id.0].lines = None);
    }

    /// Shows the line of a build, if it wasn't shown, and opens its log.
    fn open(&mut self, id: BuildId) {
        let build = &mut self.builds[id.0];
        if !std::mem::replace(&mut build.has_line, true) {
            self.terminal.begun(&build.path, build.depth);
            build.lines = Lines::open(&self.home, &build.name, Some(&build.mark)).ok();
        }
    }

    /// Shows all that a build has said, also if another one is shown now. The builds that it asked
    /// for follow when it is its turn.
    fn show_now(&mut self, id: BuildId) {
        self.open(id);
        while let Some(line) = self.builds[id.0].next() {
            match line {
                Line::Text(text) => self.show_text(&text),
                Line::Mark(Mark::Built(name)) => {
                    let child = self.by_name.get(&name).copied();
                    self.builds[id.0].children.extend(child);
                }
                Line::Mark(_) => {}
            }
        }
    }
}

impl Build {
    /// Returns the next line of its log, if there is one by now.
    fn next(&mut self) -> Option<Line> {
        let grows = self.log.is_some();
        self.lines.as_mut()?.next(grows).unwrap_or(None)
    }

    fn say(&mut self, line: &[u8]) {
        self.drain();
        self.log.iter_mut().for_each(|log| log.say(line));
    }

    fn asks_for(&mut self, name: &[u8]) {
        self.drain();
        self.log.iter_mut().for_each(|log| log.built(name));
    }

    fn end(&mut self, status: i32, stamp: Option<&[u8]>) {
        self.drain();
        self.terminal = None;
        self.log
            .take()
            .into_iter()
            .for_each(|log| log.end(status, stamp));
    }

    /// Moves what the script has written to its terminal to its log.
    fn drain(&mut self) {
        if let (Some(terminal), Some(log)) = (&mut self.terminal, &mut self.log) {
            log.write(&terminal.read());
        }
    }
}

mod failing;

#[cfg(test)]
mod drawn;
#[cfg(test)]
mod tests;
