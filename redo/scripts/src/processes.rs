//! The processes of scripts: each leads a process group, and all of them die with the run.

use std::collections::HashMap;
use std::ffi::CString;
use std::fmt;
use std::fs::File;
use std::io;
use std::os::raw::c_int;
use std::os::unix::io::{AsRawFd, OwnedFd, RawFd};
use std::time::{Duration, Instant};

use crate::program::{Exit, Limit, Program, Unstarted};
use crate::system::{self, Starter};

/// The number under which scripts have the end of a pipe open, so that they die with the run.
const PLACE: RawFd = 187;
/// How long scripts have between SIGTERM and SIGKILL.
const GRACE: Duration = Duration::from_secs(1);

/// The process group of a script, which has the number of its leader.
#[derive(Clone, Copy, Debug, PartialEq, Eq, Hash, PartialOrd, Ord)]
pub struct Group(c_int);

/// A script to be started. Paths are absolute.
#[derive(Debug)]
pub struct Start<'a> {
    pub words: &'a [Vec<u8>],
    /// The folder in which it runs.
    pub folder: &'a [u8],
    pub environment: &'a [CString],
    pub umask: u32,
    pub limits: &'a [Limit],
    /// Its standard output.
    pub output: RawFd,
    /// Its standard error.
    pub errors: RawFd,
}

/// A script that can't be started: at what that failed, and why.
#[derive(Debug)]
pub struct CantStart {
    pub what: Vec<u8>,
    pub cause: io::Error,
}

/// The scripts of a run.
#[derive(Debug)]
pub struct Processes {
    starter: Starter,
    nothing: File,
    place: RawFd,
    running: HashMap<Group, Lifeline>,
    /// Groups whose leaders ended when all were to end.
    left: Vec<(Group, Lifeline)>,
    ending: Ending,
}

/// Whether all scripts are to end.
#[derive(Clone, Copy, Debug, PartialEq, Eq)]
enum Ending {
    NotYet,
    /// They got SIGTERM, and get SIGKILL then.
    Until(Instant),
    Killed,
}

/// A pipe whose writing end the run alone has, and the script the reading one.
///
/// When the run dies, the kernel closes the writing end, and kills the group of the script: it
/// knows the group itself, not its number. The reading end is at a number that scripts don't use.
#[derive(Debug)]
struct Lifeline {
    reading: OwnedFd,
    _writing: OwnedFd,
}

impl Group {
    pub fn number(self) -> i32 {
        self.0
    }
}

impl fmt::Display for Group {
    fn fmt(&self, formatter: &mut fmt::Formatter<'_>) -> fmt::Result {
        self.0.fmt(formatter)
    }
}

impl Processes {
    /// Begins without a script. Takes as many files as may be open, since each script that waits
    /// costs some; what scripts inherit of limits is to be asked for before.
    pub fn new() -> io::Result<Processes> {
        let is_of_files = |limit: &Limit| limit.resource == libc::RLIMIT_NOFILE;
        let files = system::limits().into_iter().find(is_of_files);
        if let Some(Limit { resource, hard, .. }) = files {
            let soft = hard;
            system::set_limit(&Limit {
                resource,
                soft,
                hard,
            });
        }
        let most = files.map_or(PLACE, |limit| limit.hard.min(PLACE as u64 + 1) as RawFd - 1);
        Ok(Processes {
            starter: Starter::default(),
            nothing: File::open("/dev/null")?,
            place: PLACE.min(most),
            running: HashMap::new(),
            left: Vec::new(),
            ending: Ending::NotYet,
        })
    }

    /// Starts a script. Its standard input is empty.
    pub fn start(&mut self, start: &Start) -> Result<Group, CantStart> {
        let program = || start.words.first().cloned().unwrap_or_default();
        let failed = |what: Vec<u8>, cause| CantStart { what, cause };
        let lifeline = Lifeline::new().map_err(|cause| failed(program(), cause))?;
        let texts = start.words.iter().map(|word| CString::new(word.clone()));
        let words = texts.collect::<Result<Vec<_>, _>>();
        let words = words.map_err(|cause| failed(program(), cause.into()))?;
        let folder = CString::new(start.folder);
        let folder = folder.map_err(|cause| failed(start.folder.to_vec(), cause.into()))?;
        let begun = self.starter.start(&Program {
            words: &words,
            environment: start.environment,
            folder: &folder,
            umask: start.umask,
            limits: start.limits,
            input: self.nothing.as_raw_fd(),
            output: start.output,
            errors: start.errors,
            lifeline: lifeline.reading.as_raw_fd(),
            place: self.place,
        });
        let group = Group(begun.map_err(|unstarted| match unstarted {
            Unstarted::Folder(cause) => failed(start.folder.to_vec(), cause),
            Unstarted::Process(cause) | Unstarted::Program(cause) => failed(program(), cause),
        })?);
        self.running.insert(group, lifeline);
        Ok(group)
    }

    /// Returns the scripts that have ended, and how. It is to be called after each SIGCHLD.
    ///
    /// What a script left in the background goes on, unless the scripts are to end: then it is
    /// killed once all of them have ended.
    pub fn ended(&mut self) -> io::Result<Vec<(Group, Exit)>> {
        let mut ended = Vec::new();
        while let Some(group) = self.next_ended()? {
            let goes_on = self.ending == Ending::NotYet;
            if let Some(exit) = system::wait_for(group.0, goes_on)? {
                self.let_go(group, goes_on);
                ended.push((group, exit));
            }
        }
        if self.running.is_empty() {
            self.left
                .drain(..)
                .for_each(|(group, _)| send(group, libc::SIGKILL));
        }
        Ok(ended)
    }

    /// Forgets a script that has ended. If what it left isn't to go on, the number of its group
    /// stays taken, since its leader isn't reaped.
    fn let_go(&mut self, group: Group, goes_on: bool) {
        match self.running.remove(&group) {
            Some(lifeline) if goes_on => lifeline.untie(),
            Some(lifeline) => self.left.push((group, lifeline)),
            None => {}
        }
    }

    /// Returns a script that has ended, and isn't reaped yet.
    fn next_ended(&self) -> io::Result<Option<Group>> {
        if self.running.is_empty() {
            return Ok(None);
        }
        let first = system::ended_child()?.map(Group);
        if first.map_or(true, |group| self.running.contains_key(&group)) {
            return Ok(first);
        }
        let mut groups = self.running.keys(); // a child that is no script, or one that is kept
        let ended = groups.find(|group| matches!(system::wait_for(group.0, false), Ok(Some(_))));
        Ok(ended.copied())
    }

    /// Ends all scripts: SIGTERM now, and SIGKILL a second later. A second call kills at once.
    pub fn end_all(&mut self, now: Instant) {
        if self.ending == Ending::NotYet {
            self.ending = Ending::Until(now + GRACE);
            self.signal_all(libc::SIGTERM);
            self.signal_all(libc::SIGCONT);
        } else {
            self.kill_all();
        }
    }

    /// Returns when [`Processes::on_deadline`] is to be called.
    pub fn deadline(&self) -> Option<Instant> {
        match self.ending {
            Ending::Until(deadline) => Some(deadline),
            Ending::NotYet | Ending::Killed => None,
        }
    }

    /// Kills what hasn't ended by its time.
    pub fn on_deadline(&mut self, now: Instant) {
        if self.deadline().map_or(false, |deadline| deadline <= now) {
            self.kill_all();
        }
    }

    /// Stops all scripts, as Ctrl-Z does.
    pub fn suspend(&self) {
        self.signal_all(libc::SIGTSTP);
    }

    /// Has all scripts go on.
    pub fn resume(&self) {
        self.signal_all(libc::SIGCONT);
    }

    /// Returns how many scripts run.
    pub fn count(&self) -> usize {
        self.running.len()
    }

    fn kill_all(&mut self) {
        self.ending = Ending::Killed;
        self.signal_all(libc::SIGKILL);
    }

    fn signal_all(&self, signal: c_int) {
        self.running.keys().for_each(|group| send(*group, signal));
    }
}

fn send(group: Group, signal: c_int) {
    let _ = system::signal_group(group.0, signal); // it may be gone by now
}

impl Lifeline {
    fn new() -> io::Result<Lifeline> {
        let (reading, writing) = system::pipe()?;
        system::set_deadly(&reading, true)?;
        Ok(Lifeline {
            reading,
            _writing: writing,
        })
    }

    /// Lets the group live on when this ends.
    fn untie(self) {
        let _ = system::set_deadly(&self.reading, false); // it can't fail for an open pipe
    }
}
