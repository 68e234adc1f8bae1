//! The calls of the kernel that std doesn't have. All `unsafe` of the crate is here.
//!
//! Each call gets room for what it writes, and descriptors that are open while it runs.

use std::fs::{self, File};
use std::io::{self, ErrorKind};
use std::os::raw::c_int;
use std::os::unix::io::{AsRawFd, FromRawFd, OwnedFd};
use std::os::unix::net::{UnixListener, UnixStream};
use std::os::unix::process::CommandExt;
use std::process::Command;
use std::time::Duration;

const FIRST_OTHER: c_int = 3;
const MOST_READY: usize = 64;
#[cfg(target_env = "gnu")]
const LARGE_PIECE: c_int = 1 << 17;

/// What is waited for on a descriptor.
#[derive(Clone, Copy, Debug, Default, PartialEq, Eq)]
pub struct Interest {
    pub reads: bool,
    pub writes: bool,
}

impl Interest {
    pub const NOTHING: Interest = Interest {
        reads: false,
        writes: false,
    };
    pub const READS: Interest = Interest {
        reads: true,
        writes: false,
    };

    fn events(self) -> u32 {
        let reads = if self.reads { libc::EPOLLIN } else { 0 };
        let writes = if self.writes { libc::EPOLLOUT } else { 0 };
        (reads | writes) as u32
    }
}

/// A descriptor that is ready, by its number. At the end of the other side it is ready for both.
#[derive(Clone, Copy, Debug, PartialEq, Eq)]
pub struct Ready {
    pub number: u64,
    pub reads: bool,
    pub writes: bool,
}

/// Descriptors that are waited for, each with a number of the caller's.
#[derive(Debug)]
pub struct Poll(OwnedFd);

impl Poll {
    pub fn new() -> io::Result<Poll> {
        // SAFETY: epoll_create1 takes flags alone.
        let made = checked(unsafe { libc::epoll_create1(libc::EPOLL_CLOEXEC) })?;
        // SAFETY: epoll_create1 has made this descriptor, and nobody else has it.
        Ok(Poll(unsafe { OwnedFd::from_raw_fd(made) }))
    }

    /// Waits for something else on a descriptor than before.
    pub fn change(
        &self,
        file: &impl AsRawFd,
        number: u64,
        before: Interest,
        after: Interest,
    ) -> io::Result<()> {
        let how = match (before == Interest::NOTHING, after == Interest::NOTHING) {
            (true, true) => return Ok(()),
            (true, false) => libc::EPOLL_CTL_ADD,
            (false, true) => libc::EPOLL_CTL_DEL,
            (false, false) => libc::EPOLL_CTL_MOD,
        };
        let mut event = libc::epoll_event {
            events: after.events(),
            u64: number,
        };
        let (poll, file) = (self.0.as_raw_fd(), file.as_raw_fd());
        // SAFETY: the event is read until the call returns.
        checked(unsafe { libc::epoll_ctl(poll, how, file, &mut event) }).map(drop)
    }

    /// Waits until a descriptor is ready, or for this time, and returns those that are.
    pub fn wait(&self, time: Option<Duration>) -> io::Result<Vec<Ready>> {
        let mut events = [libc::epoll_event { events: 0, u64: 0 }; MOST_READY];
        let (poll, place, room) = (self.0.as_raw_fd(), events.as_mut_ptr(), MOST_READY as c_int);
        // SAFETY: there is room for as many events as `room` says.
        let count = checked(unsafe { libc::epoll_wait(poll, place, room, milliseconds(time)) });
        match count {
            Ok(count) => Ok(events.iter().take(count as usize).map(ready).collect()),
            Err(cause) if cause.kind() == ErrorKind::Interrupted => Ok(Vec::new()),
            Err(cause) => Err(cause),
        }
    }
}

/// Waits until there is something to read from a descriptor, or its other side has ended.
pub fn wait_readable(file: &impl AsRawFd) -> io::Result<()> {
    wait_for(file, libc::POLLIN)
}

/// Waits until there is room to write to a descriptor, or its other side has ended.
pub fn wait_writable(file: &impl AsRawFd) -> io::Result<()> {
    wait_for(file, libc::POLLOUT)
}

fn wait_for(file: &impl AsRawFd, events: libc::c_short) -> io::Result<()> {
    let mut waited = libc::pollfd {
        fd: file.as_raw_fd(),
        events,
        revents: 0,
    };
    // SAFETY: there is one pollfd.
    match checked(unsafe { libc::poll(&mut waited, 1, -1) }) {
        Err(cause) if cause.kind() != ErrorKind::Interrupted => Err(cause),
        _ => Ok(()),
    }
}

/// Which process goes on after a fork.
#[derive(Clone, Copy, Debug, PartialEq, Eq)]
pub enum Fork {
    Parent,
    Child,
}

/// Goes on in two processes. The caller has one thread.
pub fn fork() -> io::Result<Fork> {
    // SAFETY: with one thread, the child may go on with all that the parent had.
    match checked(unsafe { libc::fork() })? {
        0 => Ok(Fork::Child),
        _ => Ok(Fork::Parent),
    }
}

/// Begins a session of processes, so that no terminal signals this one.
pub fn begin_session() -> io::Result<()> {
    // SAFETY: setsid takes nothing.
    checked(unsafe { libc::setsid() }).map(drop)
}

/// Has a program begin a session of processes of its own.
pub fn in_own_session(command: &mut Command) -> &mut Command {
    // SAFETY: setsid may be called between fork and exec, and nothing else is done there.
    unsafe { command.pre_exec(begin_session) }
}

/// Closes what the process has open besides the three standard files. It is called before anything
/// is opened.
pub fn close_others() {
    let entries = fs::read_dir("/proc/self/fd").into_iter().flatten();
    let numbers = entries.filter_map(|entry| entry.ok()?.file_name().to_str()?.parse().ok());
    let others: Vec<c_int> = numbers.filter(|number| *number >= FIRST_OTHER).collect();
    for number in others {
        // SAFETY: nothing in this process owns a descriptor yet; one that is closed is an error.
        unsafe { libc::close(number) };
    }
}

/// Takes the lock of a file, unless somebody else has it. Says whether this process has it now.
pub fn lock(file: &File) -> io::Result<bool> {
    // SAFETY: flock takes numbers alone.
    match checked(unsafe { libc::flock(file.as_raw_fd(), libc::LOCK_EX | libc::LOCK_NB) }) {
        Err(cause) if cause.kind() == ErrorKind::WouldBlock => Ok(false),
        other => other.map(|_| true),
    }
}

/// Has reads and writes of a descriptor return at once.
pub fn set_nonblocking(file: &impl AsRawFd) -> io::Result<()> {
    let file = file.as_raw_fd();
    // SAFETY: F_GETFL takes nothing else.
    let flags = checked(unsafe { libc::fcntl(file, libc::F_GETFL) })?;
    // SAFETY: F_SETFL takes flags alone.
    checked(unsafe { libc::fcntl(file, libc::F_SETFL, flags | libc::O_NONBLOCK) }).map(drop)
}

/// Binds a socket that its owner alone may use, and lets so many clients wait for it.
pub fn listen(path: &str, backlog: c_int) -> io::Result<UnixListener> {
    // SAFETY: umask takes a number, and can't fail; this process has one thread.
    let before = unsafe { libc::umask(0o177) };
    let listener = UnixListener::bind(path);
    // SAFETY: as above.
    unsafe { libc::umask(before) };
    let listener = listener?;
    // SAFETY: listen takes numbers alone; of a socket that listens it changes the second one.
    checked(unsafe { libc::listen(listener.as_raw_fd(), backlog) })?;
    Ok(listener)
}

/// Returns the number of the process that connected the other end of a socket, 0 if it is of
/// another namespace.
pub fn peer_process(connection: &UnixStream) -> io::Result<i32> {
    let mut told = libc::ucred {
        pid: 0,
        uid: 0,
        gid: 0,
    };
    let mut room = std::mem::size_of::<libc::ucred>() as libc::socklen_t;
    let (socket, level, option) = (connection.as_raw_fd(), libc::SOL_SOCKET, libc::SO_PEERCRED);
    let place: *mut libc::ucred = &mut told;
    // SAFETY: there is room for a ucred, and `room` says how much.
    checked(unsafe { libc::getsockopt(socket, level, option, place.cast(), &mut room) })?;
    Ok(told.pid)
}

/// Returns the process group of this process.
pub fn own_group() -> i32 {
    // SAFETY: getpgrp takes nothing, and can't fail.
    unsafe { libc::getpgrp() }
}

/// What is sent to a process group.
#[derive(Clone, Copy, Debug, PartialEq, Eq)]
pub enum Signal {
    /// Nothing: it is asked whether a process is there.
    Probe,
    Kill,
}

/// Sends a signal to a process group above 1. Says whether a process got it.
pub fn signal_group(group: i32, signal: Signal) -> bool {
    let number = match signal {
        Signal::Probe => 0,
        Signal::Kill => libc::SIGKILL,
    };
    // SAFETY: kill takes numbers alone.
    group > 1 && unsafe { libc::kill(-group, number) } == 0
}

/// Returns how many descriptors this process may have.
pub fn most_files() -> u64 {
    limit_of_files().map_or(0, |limit| limit.rlim_cur)
}

/// Has this process have as many descriptors as it may allow itself.
pub fn allow_most_files() {
    if let Ok(mut limit) = limit_of_files() {
        limit.rlim_cur = limit.rlim_max;
        // SAFETY: the limit is read until the call returns. If that fails, all stays as it is.
        unsafe { libc::setrlimit(libc::RLIMIT_NOFILE, &limit) };
    }
}

fn limit_of_files() -> io::Result<libc::rlimit> {
    let mut limit = libc::rlimit {
        rlim_cur: 0,
        rlim_max: 0,
    };
    // SAFETY: there is room for an rlimit.
    checked(unsafe { libc::getrlimit(libc::RLIMIT_NOFILE, &mut limit) }).map(|_| limit)
}

/// Has large pieces of memory go back to the kernel when they are freed.
pub fn give_back_memory() {
    // SAFETY: mallopt takes numbers alone, and is called before anything else runs.
    #[cfg(target_env = "gnu")]
    unsafe {
        libc::mallopt(libc::M_MMAP_THRESHOLD, LARGE_PIECE);
    }
}

fn ready(event: &libc::epoll_event) -> Ready {
    let events = event.events as c_int;
    Ready {
        number: event.u64,
        reads: events & !libc::EPOLLOUT != 0,
        writes: events & !libc::EPOLLIN != 0,
    }
}

/// Returns a time in milliseconds, rounded up, as epoll_wait takes it.
fn milliseconds(time: Option<Duration>) -> c_int {
    match time {
        Some(time) => c_int::try_from((time.as_micros() + 999) / 1000).unwrap_or(c_int::MAX),
        None => -1,
    }
}

/// Returns what a call returned, or why it failed.
fn checked(returned: c_int) -> io::Result<c_int> {
    if returned < 0 {
        return Err(io::Error::last_os_error());
    }
    Ok(returned)
}
