//! What a program is started with, and how it ends.

use std::ffi::{CStr, CString};
use std::fmt;
use std::io;
use std::os::raw::c_int;
use std::os::unix::io::RawFd;

const NAMES: [(c_int, &str); 31] = [
    (libc::SIGHUP, "SIGHUP"),
    (libc::SIGINT, "SIGINT"),
    (libc::SIGQUIT, "SIGQUIT"),
    (libc::SIGILL, "SIGILL"),
    (libc::SIGTRAP, "SIGTRAP"),
    (libc::SIGABRT, "SIGABRT"),
    (libc::SIGBUS, "SIGBUS"),
    (libc::SIGFPE, "SIGFPE"),
    (libc::SIGKILL, "SIGKILL"),
    (libc::SIGUSR1, "SIGUSR1"),
    (libc::SIGSEGV, "SIGSEGV"),
    (libc::SIGUSR2, "SIGUSR2"),
    (libc::SIGPIPE, "SIGPIPE"),
    (libc::SIGALRM, "SIGALRM"),
    (libc::SIGTERM, "SIGTERM"),
    (libc::SIGSTKFLT, "SIGSTKFLT"),
    (libc::SIGCHLD, "SIGCHLD"),
    (libc::SIGCONT, "SIGCONT"),
    (libc::SIGSTOP, "SIGSTOP"),
    (libc::SIGTSTP, "SIGTSTP"),
    (libc::SIGTTIN, "SIGTTIN"),
    (libc::SIGTTOU, "SIGTTOU"),
    (libc::SIGURG, "SIGURG"),
    (libc::SIGXCPU, "SIGXCPU"),
    (libc::SIGXFSZ, "SIGXFSZ"),
    (libc::SIGVTALRM, "SIGVTALRM"),
    (libc::SIGPROF, "SIGPROF"),
    (libc::SIGWINCH, "SIGWINCH"),
    (libc::SIGIO, "SIGIO"),
    (libc::SIGPWR, "SIGPWR"),
    (libc::SIGSYS, "SIGSYS"),
];

/// A limit of a process, as `setrlimit` has it.
#[derive(Clone, Copy, Debug, PartialEq, Eq)]
pub struct Limit {
    pub resource: u32,
    pub soft: libc::rlim_t,
    pub hard: libc::rlim_t,
}

/// How a process ended.
#[derive(Clone, Copy, Debug, PartialEq, Eq, PartialOrd, Ord)]
pub enum Exit {
    Status(c_int),
    Signal(c_int),
}

/// A program to be started, in all that it inherits.
#[derive(Debug)]
pub struct Program<'a> {
    /// The first one is its path.
    pub words: &'a [CString],
    pub environment: &'a [CString],
    pub folder: &'a CStr,
    pub umask: u32,
    pub limits: &'a [Limit],
    pub input: RawFd,
    pub output: RawFd,
    pub errors: RawFd,
    /// The reading end of a pipe. Its group is to get SIGKILL once the other end is closed.
    pub lifeline: RawFd,
    /// The number that the reading end has in the program.
    pub place: RawFd,
}

/// What a program that can't be started failed at.
#[derive(Debug)]
pub enum Unstarted {
    Process(io::Error),
    Folder(io::Error),
    Program(io::Error),
}

impl fmt::Display for Exit {
    fn fmt(&self, formatter: &mut fmt::Formatter<'_>) -> fmt::Result {
        match self {
            Exit::Status(status) => write!(formatter, "status {status}"),
            Exit::Signal(signal) => match signal_name(*signal) {
                Some(name) => write!(formatter, "killed by {name}"),
                None => write!(formatter, "killed by signal {signal}"),
            },
        }
    }
}

/// Returns what a signal is called.
fn signal_name(signal: c_int) -> Option<&'static str> {
    let mut names = NAMES.iter();
    names.find_map(|(number, name)| (*number == signal).then_some(*name))
}

#[cfg(test)]
mod tests {
    use super::*;

    #[test]
    fn an_exit_is_told_in_words() {
        assert_eq!(Exit::Status(3).to_string(), "status 3");
        assert_eq!(Exit::Signal(libc::SIGKILL).to_string(), "killed by SIGKILL");
        assert_eq!(Exit::Signal(libc::SIGSEGV).to_string(), "killed by SIGSEGV");
        assert_eq!(Exit::Signal(50).to_string(), "killed by signal 50");
    }
}
