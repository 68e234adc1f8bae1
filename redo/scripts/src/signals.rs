//! The signals that a run answers.

use std::fs::File;
use std::io::{self, Read};
use std::os::raw::c_int;
use std::os::unix::io::{AsRawFd, RawFd};

use libc::{SIGCHLD, SIGHUP, SIGINT, SIGSTOP, SIGTERM, SIGTSTP, SIGWINCH};

use crate::system;

/// So large is what the kernel tells of a signal (`signalfd_siginfo`); it begins with the number.
const RECORD: usize = 128;
const RECORDS: usize = 8;

/// A signal that ends a run.
#[derive(Clone, Copy, Debug, PartialEq, Eq)]
pub enum Stopping {
    Interrupted,
    Terminated,
    HungUp,
}

/// What a signal says.
#[derive(Clone, Copy, Debug, PartialEq, Eq)]
pub enum Notice {
    /// A script may have ended.
    ChildChanged,
    /// The run is to end.
    Stop(Stopping),
    /// The run is to stop until it is continued: Ctrl-Z.
    Suspend,
    /// The terminal has another size.
    Resized,
}

/// Reports the signals of this process.
#[derive(Debug)]
pub struct Signals(File);

impl Signals {
    /// Takes the signals, which are blocked from then on. It is to be called before threads begin.
    ///
    /// Those that end a run or stop it, and that its parent has it ignore, stay ignored.
    pub fn new() -> io::Result<Signals> {
        let may_be_ignored = [SIGINT, SIGTERM, SIGHUP, SIGTSTP];
        let answered = may_be_ignored
            .into_iter()
            .filter(|signal| !system::ignores(*signal));
        let signals = answered.chain([SIGCHLD, SIGWINCH]);
        system::signal_file(signals).map(File::from).map(Signals)
    }

    /// Returns what came, once [`Signals::as_raw_fd`] can be read. It doesn't wait.
    pub fn on_readable(&mut self) -> Vec<Notice> {
        let mut told = [0; RECORD * RECORDS];
        let count = self.0.read(&mut told).unwrap_or(0);
        told[..count]
            .chunks_exact(RECORD)
            .filter_map(number)
            .filter_map(notice)
            .collect()
    }
}

impl AsRawFd for Signals {
    fn as_raw_fd(&self) -> RawFd {
        self.0.as_raw_fd()
    }
}

impl Stopping {
    fn number(self) -> c_int {
        match self {
            Stopping::Interrupted => SIGINT,
            Stopping::Terminated => SIGTERM,
            Stopping::HungUp => SIGHUP,
        }
    }
}

/// Ends this process by a signal, so that its parent knows why.
pub fn die_by(stopping: Stopping) -> ! {
    system::raise(stopping.number());
    std::process::exit(128 + stopping.number()) // a signal that doesn't end it
}

/// Stops this process, and returns once it is continued.
pub fn stop_here() {
    system::raise(SIGSTOP);
}

fn number(record: &[u8]) -> Option<c_int> {
    let number = record.get(..4)?.try_into().ok()?;
    Some(c_int::from_ne_bytes(number))
}

fn notice(signal: c_int) -> Option<Notice> {
    match signal {
        SIGCHLD => Some(Notice::ChildChanged),
        SIGINT => Some(Notice::Stop(Stopping::Interrupted)),
        SIGTERM => Some(Notice::Stop(Stopping::Terminated)),
        SIGHUP => Some(Notice::Stop(Stopping::HungUp)),
        SIGTSTP => Some(Notice::Suspend),
        SIGWINCH => Some(Notice::Resized),
        _ => None,
    }
}
