//! Builds targets by their `.do` files, each in any case, in the working folder.
//!
//! No script can ask for a target here: that takes a server. All else is as in a run of redo.
//!
//!     run [-jN] [-k] [-x] [--no-log] [--grant=N] TARGET..

use std::collections::VecDeque;
use std::env;
use std::error::Error;
use std::os::unix::ffi::OsStringExt;
use std::os::unix::io::AsRawFd;
use std::process::exit;
use std::time::{Duration, Instant};

use redo_files::names::{name_of, path_of};
use redo_files::private::Home;
use redo_files::rules;
use redo_files::trust::Trust;
use redo_scripts::builder::{Builder, Finished, Order, Outcome};
use redo_scripts::display::{Display, Errors};
use redo_scripts::jobserver::{Jobserver, NoJobserver};
use redo_scripts::journal;
use redo_scripts::script::ShellFlags;
use redo_scripts::signals::{self, Notice, Signals, Stopping};
use redo_scripts::surroundings::{RunVariables, Surroundings};
use redo_scripts::system;
use redo_scripts::terminal::{self, Progress, Style, Terminal};

const TICK: Duration = Duration::from_millis(100);
const ERRORS: i32 = 2;

struct Options {
    jobs: Option<usize>,
    keeps_going: bool,
    keeps_logs: bool,
    flags: ShellFlags,
    grant: u64,
    targets: VecDeque<Vec<u8>>,
}

struct Run {
    options: Options,
    home: Home,
    surroundings: Surroundings,
    builder: Builder,
    jobserver: Option<Jobserver>,
    signals: Signals,
    done: usize,
    has_failed: bool,
    stopped: Option<Stopping>,
}

fn main() {
    match Run::new(Options::of_process()).and_then(Run::run) {
        Ok((_, Some(stopping))) => signals::die_by(stopping),
        Ok((has_failed, None)) => exit(i32::from(has_failed)),
        Err(error) => {
            eprintln!("run: {error}");
            exit(2)
        }
    }
}

impl Options {
    fn of_process() -> Options {
        let (mut options, words) = (Options::default(), env::args_os().skip(1));
        for word in words {
            match word.to_str() {
                Some("-k") => options.keeps_going = true,
                Some("-x") => options.flags.traces = true,
                Some("--no-log") => options.keeps_logs = false,
                Some(word) if word.starts_with("-j") => options.jobs = word[2..].parse().ok(),
                Some(word) if word.starts_with("--grant=") => {
                    options.grant = word[8..].parse().unwrap_or(1);
                }
                _ => options.targets.push_back(word.into_vec()),
            }
        }
        options
    }
}

impl Default for Options {
    fn default() -> Options {
        Options {
            jobs: None,
            keeps_going: false,
            keeps_logs: true,
            flags: ShellFlags::default(),
            grant: 1,
            targets: VecDeque::new(),
        }
    }
}

fn display(options: &Options, surroundings: &Surroundings, home: &Home) -> Display {
    let (no_color, term) = (
        surroundings.variable(b"NO_COLOR"),
        surroundings.variable(b"TERM"),
    );
    let style = Style::of(ERRORS, no_color, term);
    let errors = match (options.keeps_logs, style.has_colours) {
        (false, _) => Errors::Direct,
        (true, true) => Errors::Terminals,
        (true, false) => Errors::Logs,
    };
    Display::new(Terminal::of_errors(style), home, errors)
}

fn jobserver(
    options: &Options,
    surroundings: &Surroundings,
) -> Result<Option<Jobserver>, NoJobserver> {
    match options.jobs {
        None => Jobserver::joined(surroundings.variable(b"MAKEFLAGS").unwrap_or_default()),
        Some(1) => Ok(None),
        Some(jobs) => Jobserver::served(jobs).map(Some),
    }
}

impl Run {
    fn new(options: Options) -> Result<Run, Box<dyn Error>> {
        let signals = Signals::new()?;
        let surroundings = Surroundings::of_process();
        let home = Home::new(&surroundings.folder, &Trust::of_process());
        home.make()?;
        let mut display = display(&options, &surroundings, &home);
        journal::clear(&home)?
            .iter()
            .for_each(|text| display.say(None, text));
        let jobserver = jobserver(&options, &surroundings).unwrap_or_else(|error| {
            display.say(None, &error.text());
            None
        });
        let variables = RunVariables {
            top: home.top().to_vec(),
            job_words: jobserver.as_ref().map(|here| here.job_words().to_vec()),
            ..RunVariables::default()
        };
        let here = &surroundings.folder;
        Ok(Run {
            builder: Builder::new(&home, here, variables, display)?,
            options,
            home,
            surroundings,
            jobserver,
            signals,
            done: 0,
            has_failed: false,
            stopped: None,
        })
    }

    /// Returns whether a target failed, and the signal that ended the run.
    fn run(mut self) -> Result<(bool, Option<Stopping>), Box<dyn Error>> {
        self.start_more()?;
        while !self.is_over() {
            self.wait()?;
            for notice in self.signals.on_readable() {
                self.answer(notice)?;
            }
            self.builder.processes.on_deadline(Instant::now());
            self.builder.display.on_readable();
            self.start_more()?;
        }
        self.builder.display.finish(self.options.keeps_going);
        Ok((self.has_failed, self.stopped))
    }

    fn is_over(&self) -> bool {
        let may_begin = self.stopped.is_none() && (self.options.keeps_going || !self.has_failed);
        let has_more = may_begin && !self.options.targets.is_empty();
        self.builder.processes.count() == 0 && !has_more
    }

    fn wait(&mut self) -> Result<(), Box<dyn Error>> {
        let progress = Progress {
            done: self.done,
            running: self.builder.running(),
            left: self.options.targets.len(),
        };
        let text = progress.text(terminal::columns(ERRORS));
        self.builder.display.progress(&text);
        let mut files = vec![self.signals.as_raw_fd()];
        files.extend(self.jobserver.as_ref().and_then(Jobserver::descriptor));
        files.extend(self.builder.display.descriptors());
        system::wait_readable(&files, Some(TICK))?;
        Ok(())
    }

    fn answer(&mut self, notice: Notice) -> Result<(), Box<dyn Error>> {
        match notice {
            Notice::ChildChanged => {
                let finished = self.builder.on_child()?;
                finished
                    .into_iter()
                    .for_each(|finished| self.note(finished));
            }
            Notice::Stop(stopping) => {
                self.stopped = self.stopped.or(Some(stopping));
                self.builder.end_all(Instant::now());
            }
            Notice::Suspend => self.builder.suspend(),
            Notice::Resized => {}
        }
        Ok(())
    }

    fn note(&mut self, finished: Finished) {
        self.done += 1;
        self.has_failed |= matches!(finished.outcome, Outcome::Failed { .. });
        if let Some(jobserver) = &mut self.jobserver {
            let needed = self.builder.processes.count().saturating_sub(1);
            let _ = jobserver.give_back(jobserver.held().saturating_sub(needed));
        }
    }

    /// Starts as many scripts as there are jobs for.
    fn start_more(&mut self) -> Result<(), Box<dyn Error>> {
        while !self.options.targets.is_empty() && self.may_start()? {
            let target = self.options.targets.pop_front().unwrap_or_default();
            self.start(&target)?;
        }
        Ok(())
    }

    fn may_start(&mut self) -> Result<bool, Box<dyn Error>> {
        if self.stopped.is_some() || (self.has_failed && !self.options.keeps_going) {
            return Ok(false);
        }
        let count = self.builder.processes.count();
        match &mut self.jobserver {
            _ if count == 0 => Ok(true),
            None => Ok(false),
            Some(jobserver) => {
                jobserver.want(usize::from(jobserver.held() < count));
                jobserver.on_readable()?;
                Ok(jobserver.held() >= count)
            }
        }
    }

    fn start(&mut self, target: &[u8]) -> Result<(), Box<dyn Error>> {
        let name = name_of(target, self.home.top())?;
        let path = path_of(&name, self.home.top())?;
        let search = rules::search(&path, self.home.top(), self.home.trust())?;
        let shown = self.builder.shown(&name);
        let rule = match &search.rule {
            Some(rule) => rule,
            None => {
                self.has_failed = true;
                self.builder
                    .display
                    .refuse(None, &[b"no rule to make ", &shown[..]].concat());
                return Ok(());
            }
        };
        let started = self.builder.start(&Order {
            name: &name,
            grant: self.options.grant,
            rule,
            asker: None,
            surroundings: &self.surroundings,
            variables: &[],
            flags: self.options.flags,
            stamp: None,
            built_before: &[],
            is_guess: false,
        });
        if let Err(finished) = started {
            self.note(finished);
        }
        Ok(())
    }
}
