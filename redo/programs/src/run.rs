//! A call that builds: it runs the scripts that the server tells it to run.

mod beginning;
mod jobs;
mod orders;

use std::collections::HashMap;
use std::os::unix::io::{AsRawFd, RawFd};
use std::time::{Duration, Instant};

use redo_files::stamp::Stamp;
use redo_files::{names, paths};
use redo_scripts::builder::{Builder, Finished, Order, Outcome};
use redo_scripts::display::BuildId;
use redo_scripts::jobserver::Jobserver;
use redo_scripts::script::ShellFlags;
use redo_scripts::signals::{self, Notice, Signals, Stopping};
use redo_scripts::surroundings::Surroundings;
use redo_scripts::system;
use redo_scripts::terminal::{self, Progress};
use redo_wire::options::Options;
use redo_wire::{Said, Say, Script, ToProgram, ToServer};

use crate::asking::Patience;
use crate::failure::{Failure, FAILED};
use crate::link::Link;
use crate::reach::Tree;
use crate::text::print_output;

const TICK: Duration = Duration::from_millis(100);
const ERRORS: RawFd = 2;
const REDO: &[u8] = b"redo: ";

/// What a run begins with.
#[derive(Debug)]
pub struct RunStart {
    /// The tree that it builds in.
    pub tree: Tree,
    /// The working folder of whoever calls, absolute.
    pub folder: Vec<u8>,
    /// What it was called for.
    pub options: Options,
    /// How many scripts may run at once, if neither the options say that, nor a jobserver.
    pub jobs: Option<u32>,
    /// What is said if the server doesn't answer.
    pub patience: Patience,
}

/// How a run goes on.
#[derive(Clone, Copy, Debug, PartialEq, Eq)]
enum Course {
    Building,
    /// All that it was called for is done.
    Answered {
        right: bool,
    },
    /// A signal ends it.
    Stopped(Stopping),
    /// The server has it end, or is gone.
    Lost,
}

struct Run {
    link: Link,
    signals: Signals,
    builder: Builder,
    jobserver: Option<Jobserver>,
    folder: Vec<u8>,
    top: Vec<u8>,
    socket: Vec<u8>,
    flags: ShellFlags,
    /// What scripts inherit from who has called the run.
    own: Surroundings,
    /// What is shown of the scripts, by their tasks.
    builds: HashMap<u64, BuildId>,
    /// The tasks of the scripts that run, by the names of the targets and the numbers of grants.
    tasks: HashMap<(Vec<u8>, u64), u64>,
    done: usize,
    wanted: u32,
    course: Course,
    /// Whether the server still sends.
    is_heard: bool,
    patience: Patience,
    unread_since: Option<Instant>,
    sums_up: bool,
}

/// Does what the server tells, from the first message on, and returns the status.
pub fn go_on(start: RunStart, link: Link, first: ToProgram) -> Result<u8, Failure> {
    let mut run = Run::new(start, link)?;
    let worked = run
        .obey(first)
        .and_then(|()| run.hear())
        .and_then(|()| run.build());
    let failure = worked.err();
    if failure.is_some() {
        run.course = Course::Lost;
        run.is_heard = false;
        run.builder.end_all(Instant::now());
        run.build()?; // what scripts have left is removed as they end
    }
    match (run.end(), failure) {
        (_, Some(failure)) => Err(failure),
        (Course::Stopped(stopping), None) => signals::die_by(stopping),
        (Course::Answered { right: true }, None) => Ok(0),
        (Course::Answered { .. } | Course::Building | Course::Lost, None) => Ok(FAILED),
    }
}

impl Run {
    fn new(start: RunStart, link: Link) -> Result<Run, Failure> {
        let options = &start.options;
        let signals = Signals::new()?;
        let own = Surroundings::of_process();
        let mut display = beginning::display(options, &own, &start.tree)?;
        let makeflags = own.variable(b"MAKEFLAGS");
        let jobserver = jobs::jobserver(options.jobs, start.jobs, makeflags);
        let jobserver = jobserver.unwrap_or_else(|error| {
            display.say(None, &error.text());
            None
        });
        let builder = beginning::builder(&start, jobserver.as_ref(), display)?;
        Ok(Run {
            link,
            signals,
            builder,
            jobserver,
            top: start.tree.top().to_vec(),
            socket: start.tree.socket(),
            flags: ShellFlags {
                is_verbose: options.flags.is_verbose,
                traces: options.flags.traces,
            },
            own,
            builds: HashMap::new(),
            tasks: HashMap::new(),
            done: 0,
            wanted: 0,
            course: Course::Building,
            is_heard: true,
            patience: start.patience,
            unread_since: None,
            sums_up: options.keeps_going,
            folder: start.folder,
        })
    }

    /// Works until all is done, and no script runs.
    fn build(&mut self) -> Result<(), Failure> {
        while self.course == Course::Building || self.builder.processes.count() > 0 {
            self.wait()?;
            for notice in self.signals.on_readable() {
                self.answer(notice)?;
            }
            self.builder.processes.on_deadline(Instant::now());
            self.hear()?;
            self.take_tokens()?;
            self.builder.display.on_readable();
            self.watch();
        }
        Ok(())
    }

    /// Tells the server that nothing runs any more, and shows what is left to show.
    fn end(mut self) -> Course {
        if matches!(self.course, Course::Answered { .. }) {
            let _ = self.link.send(&ToServer::Close); // it finds out by the end of the connection
        }
        self.builder.display.finish(self.sums_up);
        self.course
    }

    /// Waits until there is something to do.
    fn wait(&mut self) -> Result<(), Failure> {
        let progress = Progress {
            done: self.done,
            running: self.builder.running(),
            left: usize::try_from(self.wanted).unwrap_or(usize::MAX),
        };
        let text = progress.text(terminal::columns(ERRORS));
        self.builder.display.progress(&text);
        let mut files = vec![self.signals.as_raw_fd()];
        files.extend(self.is_heard.then(|| self.link.as_raw_fd()));
        files.extend(self.jobserver.as_ref().and_then(Jobserver::descriptor));
        files.extend(self.builder.display.descriptors());
        system::wait_readable(&files, Some(TICK))?;
        Ok(())
    }

    /// Does what the server has told by now.
    fn hear(&mut self) -> Result<(), Failure> {
        while self.is_heard {
            match self.link.taken()? {
                Some(message) => self.obey(message)?,
                None if !self.link.wait(Duration::ZERO)? => break,
                None if self.link.receive()? => {}
                None => {
                    self.is_heard = false;
                    self.lose(b"the server has ended");
                }
            }
        }
        Ok(())
    }

    fn obey(&mut self, message: ToProgram) -> Result<(), Failure> {
        match message {
            ToProgram::Run(script) => self.start(&script)?,
            ToProgram::Want { slots } => {
                self.wanted = slots;
                let slots = usize::try_from(slots).unwrap_or(usize::MAX);
                self.jobserver
                    .iter_mut()
                    .for_each(|jobserver| jobserver.want(slots));
            }
            ToProgram::Return { slots } => self.give_back(slots)?,
            ToProgram::Say(said) => self.say(&said),
            ToProgram::Error(line) => {
                let text = line.strip_prefix(REDO).unwrap_or(&line);
                self.builder.display.say(None, text);
            }
            ToProgram::Output(bytes) => print_output(&bytes)?,
            ToProgram::Answer { right } if self.course == Course::Building => {
                self.course = Course::Answered { right };
            }
            ToProgram::End { status } if self.course == Course::Building => {
                self.course = Course::Answered { right: status == 0 };
            }
            ToProgram::Answer { .. } | ToProgram::End { .. } => {}
            ToProgram::Stop => self.lose(b"the server ends this run"),
        }
        Ok(())
    }

    fn start(&mut self, script: &Script) -> Result<(), Failure> {
        if matches!(self.course, Course::Stopped(_) | Course::Lost) {
            return self.tell_failure(script.task);
        }
        let order = Order {
            name: &script.target,
            grant: script.grant,
            rule: &orders::rule_of(script),
            asker: script
                .asker
                .and_then(|asker| self.builds.get(&asker).copied()),
            surroundings: &orders::surroundings_of(script, &self.own),
            variables: &orders::variables_of(script, &self.socket),
            flags: self.flags,
            stamp: script.stamp.as_deref(),
            built_before: &script.built_before,
            is_guess: script.is_guess,
        };
        match self.builder.start(&order) {
            Ok(id) => {
                self.builds.insert(script.task, id);
                self.tasks
                    .insert((script.target.clone(), script.grant), script.task);
                Ok(())
            }
            Err(_) => self.tell_failure(script.task), // the builder has said why
        }
    }

    fn tell_failure(&mut self, task: u64) -> Result<(), Failure> {
        self.tell_end(task, false, None)
    }

    fn tell_end(&mut self, task: u64, ok: bool, stamp: Option<Stamp>) -> Result<(), Failure> {
        let stamp = stamp.map(|stamp| stamp.to_string().into_bytes());
        self.done += 1;
        self.link.send(&ToServer::Ended { task, ok, stamp })
    }

    fn finish(&mut self, finished: Finished) -> Result<(), Failure> {
        let task = self.tasks.remove(&(finished.name, finished.grant));
        match (task, finished.outcome) {
            (Some(task), Outcome::Built(stamp)) => self.tell_end(task, true, stamp),
            (Some(task), Outcome::Failed { .. }) => self.tell_failure(task),
            (None, _) => Ok(()),
        }
    }

    fn answer(&mut self, notice: Notice) -> Result<(), Failure> {
        match notice {
            Notice::ChildChanged => {
                let finished = self.builder.on_child()?;
                finished.into_iter().try_for_each(|one| self.finish(one))?;
            }
            Notice::Stop(stopping) => {
                if !matches!(self.course, Course::Stopped(_)) {
                    self.course = Course::Stopped(stopping);
                }
                self.builder.end_all(Instant::now());
            }
            Notice::Suspend => {
                self.builder.suspend();
                self.unread_since = None;
            }
            Notice::Resized => {}
        }
        Ok(())
    }

    /// Ends all scripts, since the server isn't there for them.
    fn lose(&mut self, text: &[u8]) {
        match self.course {
            Course::Stopped(_) | Course::Lost => return, // they end already
            Course::Answered { .. } => {}
            Course::Building => {
                self.builder.display.say(None, text);
                self.course = Course::Lost;
            }
        }
        self.builder.end_all(Instant::now());
    }

    /// Tells of the tokens that have come. How many more are wanted is told anew then.
    fn take_tokens(&mut self) -> Result<(), Failure> {
        let came = match &mut self.jobserver {
            Some(jobserver) if jobserver.descriptor().is_some() => jobserver.on_readable()?,
            _ => 0,
        };
        (0..came).try_for_each(|_| self.link.send(&ToServer::Slot))
    }

    fn give_back(&mut self, slots: u32) -> Result<(), Failure> {
        let slots = usize::try_from(slots).unwrap_or(usize::MAX);
        match &mut self.jobserver {
            Some(jobserver) => Ok(jobserver.give_back(slots)?),
            None => Ok(()),
        }
    }

    fn say(&mut self, said: &Said) {
        let asker = said
            .asker
            .and_then(|asker| self.builds.get(&asker).copied());
        let line = said
            .what
            .line(|path| paths::shown(&paths::relative(path, &self.folder)));
        match &said.what {
            Say::FailedBefore(path) if self.tells_held(asker, path) => {}
            Say::ByHand(_) | Say::Source(_) | Say::Text(_) => {
                self.builder.display.say(asker, &line);
            }
            _ => self.builder.display.refuse(asker, &line),
        }
    }

    /// Shows why a target failed that nobody had asked for, and says whether it is one.
    fn tells_held(&mut self, asker: Option<BuildId>, path: &[u8]) -> bool {
        let name = names::name_of(path, &self.top);
        name.map_or(false, |name| self.builder.display.tell_held(asker, &name))
    }

    /// Says so if the server doesn't read what it is told.
    fn watch(&mut self) {
        if !self.is_heard || !self.link.has_unread() {
            self.unread_since = None;
            return;
        }
        let since = *self.unread_since.get_or_insert_with(Instant::now);
        if self.patience.is_over(since) {
            self.builder.display.say(None, &self.patience.text());
        }
    }
}
