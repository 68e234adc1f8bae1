//! The calls of the kernel that the standard library lacks; all `unsafe` of the crate.

use std::ffi::CString;
use std::fs::File;
use std::io::{self, ErrorKind};
use std::mem::MaybeUninit;
use std::os::raw::{c_char, c_int, c_void};
use std::os::unix::io::{AsRawFd, FromRawFd, OwnedFd, RawFd};
use std::time::Duration;

use crate::program::{Exit, Limit, Program, Unstarted};
use libc::{O_ASYNC, O_CLOEXEC, O_NOCTTY, O_NONBLOCK, O_RDWR, SFD_CLOEXEC, SFD_NONBLOCK};
use libc::{SIG_BLOCK, SIG_SETMASK, SIG_UNBLOCK};

/// Room for the functions that a new process calls before its program begins.
const STACK: usize = 64 << 10;
const SIGNALS: c_int = 64;
const LIMITS: u32 = 16;
/// As the kernel's header `fcntl.h` has it.
const F_SETSIG: c_int = 10;

type Failed = fn(io::Error) -> Unstarted;

/// What the new process and this one share until the program begins.
struct Start {
    words: Vec<*const c_char>,
    environment: Vec<*const c_char>,
    folder: *const c_char,
    umask: u32,
    limits: Vec<Limit>,
    files: [(RawFd, RawFd); 4],
    lifeline: RawFd,
    failed: Option<(Failed, c_int)>,
}

/// Starts programs, each as the leader of a process group of its own.
#[derive(Debug, Default)]
pub struct Starter {
    stack: Vec<u8>,
}

impl Starter {
    /// Starts a program, and returns its process, which is its group too. It begins without
    /// blocked signals, and ignores those that this process was told to ignore by its parent.
    ///
    /// The new process has this one's memory until its program begins; meanwhile this one waits.
    /// So nothing is copied, however large this process is.
    pub fn start(&mut self, program: &Program) -> Result<c_int, Unstarted> {
        let mut start = Start {
            words: pointers(program.words),
            environment: pointers(program.environment),
            folder: program.folder.as_ptr(),
            umask: program.umask,
            limits: program.limits.to_vec(),
            files: [
                (program.input, 0),
                (program.output, 1),
                (program.errors, 2),
                (program.lifeline, program.place),
            ],
            lifeline: program.lifeline,
            failed: None,
        };
        self.stack.resize(STACK, 0);
        let place: *mut Start = &mut start;
        let flags = libc::CLONE_VM | libc::CLONE_VFORK | libc::SIGCHLD;
        // SAFETY: the end of the stack is one past the last byte; stacks grow downwards from there.
        let end = unsafe { self.stack.as_mut_ptr().add(STACK) };
        let end = (end as usize & !15) as *mut c_void;
        let before = change_mask(SIG_SETMASK, &set_of(1..=SIGNALS));
        // SAFETY: CLONE_VFORK has this process wait while `begin` uses `start` and the stack.
        let process = checked(|| unsafe { libc::clone(begin, end, flags, place.cast()) });
        change_mask(SIG_SETMASK, &before);
        let process = process.map_err(Unstarted::Process)?;
        if let Some((unstarted, number)) = start.failed {
            let _ = wait_for(process, true); // it has ended, as `begin` does
            return Err(unstarted(io::Error::from_raw_os_error(number)));
        }
        Ok(process)
    }
}

/// Begins a program in the new process: no function here allocates or takes a lock.
extern "C" fn begin(place: *mut c_void) -> c_int {
    // SAFETY: it is the `Start` of `Starter::start`, which waits and doesn't touch it.
    let start = unsafe { &mut *place.cast::<Start>() };
    reset_signals();
    // SAFETY: these calls get numbers alone, and change this new process alone.
    unsafe {
        libc::setpgid(0, 0);
        libc::fcntl(start.lifeline, libc::F_SETOWN, -libc::getpid());
        libc::umask(start.umask as libc::mode_t);
    }
    start.files.iter().for_each(place_file);
    start.limits.iter().for_each(set_limit);
    // SAFETY: the folder ends with NUL, and so do the words and the variables, whose lists end
    // with a null pointer; all are borrowed by `Starter::start`.
    unsafe {
        if libc::chdir(start.folder) != 0 {
            start.failed = Some((Unstarted::Folder, last_error()));
        } else {
            change_mask(SIG_SETMASK, &set_of([]));
            libc::execve(
                start.words[0],
                start.words.as_ptr(),
                start.environment.as_ptr(),
            );
            start.failed = Some((Unstarted::Program, last_error()));
        }
        libc::_exit(127)
    }
}

/// Gives a file a number, under which the program inherits it.
fn place_file(&(file, number): &(RawFd, RawFd)) {
    // SAFETY: these calls get numbers alone, and the file is open.
    unsafe {
        if file == number {
            libc::fcntl(file, libc::F_SETFD, 0);
        } else {
            libc::dup2(file, number);
        }
    }
}

/// Lets no function of this process answer a signal, so that none runs in the memory of another.
/// SIGPIPE is as it is in programs that aren't written in Rust.
fn reset_signals() {
    let is_answered = |signal: &c_int| match answer_to(*signal) {
        libc::SIG_IGN => *signal == libc::SIGPIPE,
        answer => answer != libc::SIG_DFL,
    };
    let default = MaybeUninit::<libc::sigaction>::zeroed();
    for signal in (1..=SIGNALS).filter(is_answered) {
        // SAFETY: an action of zeros is the default one.
        unsafe { libc::sigaction(signal, default.as_ptr(), std::ptr::null_mut()) };
    }
}

/// Returns what answers a signal: a function, SIG_IGN, or SIG_DFL as for one that isn't known.
fn answer_to(signal: c_int) -> libc::sighandler_t {
    let mut action = MaybeUninit::<libc::sigaction>::zeroed();
    // SAFETY: there is room for an action, and one of zeros is the default one.
    unsafe {
        libc::sigaction(signal, std::ptr::null(), action.as_mut_ptr());
        (*action.as_ptr()).sa_sigaction
    }
}

/// Says whether this process ignores a signal.
pub fn ignores(signal: c_int) -> bool {
    answer_to(signal) == libc::SIG_IGN
}

/// Sets a limit of this process; one that it may not raise stays as it is.
pub fn set_limit(limit: &Limit) {
    let told = libc::rlimit {
        rlim_cur: limit.soft,
        rlim_max: limit.hard,
    };
    // SAFETY: the limit is read only.
    unsafe { libc::setrlimit(limit.resource as _, &told) };
}

fn pointers(texts: &[CString]) -> Vec<*const c_char> {
    let texts = texts.iter().map(|text| text.as_ptr());
    texts.chain([std::ptr::null()]).collect()
}

fn set_of(signals: impl IntoIterator<Item = c_int>) -> libc::sigset_t {
    let mut set = MaybeUninit::uninit();
    // SAFETY: sigemptyset fills the set, and sigaddset adds to it.
    unsafe {
        libc::sigemptyset(set.as_mut_ptr());
        for signal in signals {
            libc::sigaddset(set.as_mut_ptr(), signal);
        }
        set.assume_init()
    }
}

/// Changes which signals are blocked, and returns those that were blocked before.
fn change_mask(how: c_int, signals: &libc::sigset_t) -> libc::sigset_t {
    let mut before = MaybeUninit::uninit();
    // SAFETY: one set is read, and the other one is filled. It can't fail with these values.
    unsafe {
        libc::sigprocmask(how, signals, before.as_mut_ptr());
        before.assume_init()
    }
}

fn last_error() -> c_int {
    // SAFETY: the place of errno is always there.
    unsafe { *libc::__errno_location() }
}

/// Blocks signals, and returns a file that has them: a `signalfd_siginfo` each. It doesn't wait.
pub fn signal_file(signals: impl IntoIterator<Item = c_int>) -> io::Result<OwnedFd> {
    let set = set_of(signals);
    change_mask(SIG_BLOCK, &set);
    // SAFETY: the set is read only.
    checked(|| unsafe { libc::signalfd(-1, &set, SFD_CLOEXEC | SFD_NONBLOCK) }).map(owned)
}

/// Sends this process a signal, which is blocked no more.
pub fn raise(signal: c_int) {
    change_mask(SIG_UNBLOCK, &set_of([signal]));
    // SAFETY: raise gets a number alone.
    unsafe { libc::raise(signal) };
}

/// Returns how a child ended, or None if it goes on. With `reaps`, it is forgotten then; else its
/// number stays taken.
pub fn wait_for(process: c_int, reaps: bool) -> io::Result<Option<Exit>> {
    Ok(wait(libc::P_PID, process as libc::id_t, reaps)?.map(|(_, exit)| exit))
}

/// Returns a child that has ended, which isn't forgotten, or None if there is none.
pub fn ended_child() -> io::Result<Option<c_int>> {
    Ok(wait(libc::P_ALL, 0, false)?.map(|(process, _)| process))
}

fn wait(kind: libc::idtype_t, id: libc::id_t, reaps: bool) -> io::Result<Option<(c_int, Exit)>> {
    let keeps = if reaps { 0 } else { libc::WNOWAIT };
    let how = libc::WEXITED | libc::WNOHANG | keeps;
    let mut told = MaybeUninit::<libc::siginfo_t>::zeroed();
    // SAFETY: there is room for what waitid tells.
    checked(|| unsafe { libc::waitid(kind, id, told.as_mut_ptr(), how) })?;
    // SAFETY: it was zeroed, and waitid has filled what it tells of a child.
    let (process, status, code) = unsafe {
        let told = told.assume_init();
        (told.si_pid(), told.si_status(), told.si_code)
    };
    let exit = if code == libc::CLD_EXITED {
        Exit::Status(status)
    } else {
        Exit::Signal(status)
    };
    Ok((process != 0).then_some((process, exit)))
}

/// Sends a signal to a group. Fails if there is none, or none that may be sent signals.
pub fn signal_group(group: c_int, signal: c_int) -> io::Result<()> {
    // SAFETY: killpg gets numbers alone.
    checked(|| unsafe { libc::killpg(group, signal) }).map(drop)
}

/// Makes a pipe whose ends no program inherits, and returns the reading and the writing one.
pub fn pipe() -> io::Result<(OwnedFd, OwnedFd)> {
    let mut ends = [0; 2];
    // SAFETY: there is room for two numbers.
    checked(|| unsafe { libc::pipe2(ends.as_mut_ptr(), O_CLOEXEC) })?;
    Ok((owned(ends[0]), owned(ends[1])))
}

/// Returns how many bytes a pipe holds.
pub fn pipe_size(end: &impl AsRawFd) -> io::Result<usize> {
    fcntl(end.as_raw_fd(), libc::F_GETPIPE_SZ, 0).map(|size| size as usize)
}

/// Has the reading end of a pipe send SIGKILL to its owner once the other end is closed, or not.
pub fn set_deadly(end: &impl AsRawFd, is_deadly: bool) -> io::Result<()> {
    let tells = if is_deadly { O_ASYNC } else { 0 };
    fcntl(end.as_raw_fd(), F_SETSIG, libc::SIGKILL)?;
    fcntl(end.as_raw_fd(), libc::F_SETFL, O_NONBLOCK | tells).map(drop)
}

/// Has each write to a file go behind its end.
pub fn set_append(file: &File) -> io::Result<()> {
    fcntl(file.as_raw_fd(), libc::F_SETFL, libc::O_APPEND).map(drop)
}

/// Has programs inherit an open file.
pub fn set_inherited(file: RawFd) -> io::Result<()> {
    fcntl(file, libc::F_SETFD, 0).map(drop)
}

/// Opens a number that this process has inherited once more. Fails if nothing is open there.
pub fn duplicate(file: RawFd) -> io::Result<OwnedFd> {
    fcntl(file, libc::F_DUPFD_CLOEXEC, 3).map(owned)
}

/// Does a command of fcntl that takes a number, if any.
fn fcntl(file: RawFd, command: c_int, number: c_int) -> io::Result<c_int> {
    // SAFETY: the commands of this file read and write no memory.
    checked(|| unsafe { libc::fcntl(file, command, number) })
}

/// Waits until one of these files can be read or has ended, or until the time is over, in whole
/// milliseconds: no time is no wait. Returns which ones; none also after a signal.
pub fn wait_readable(files: &[RawFd], most: Option<Duration>) -> io::Result<Vec<RawFd>> {
    let (events, revents) = (libc::POLLIN, 0);
    let polled = files.iter().map(|fd| libc::pollfd {
        fd: *fd,
        events,
        revents,
    });
    let mut polled: Vec<libc::pollfd> = polled.collect();
    let whole =
        |most: Duration| c_int::try_from((most.as_micros() + 999) / 1000).unwrap_or(c_int::MAX);
    let (count, most) = (polled.len() as libc::nfds_t, most.map_or(-1, whole));
    // SAFETY: there are so many of them, and poll writes to their `revents`.
    let returned = unsafe { libc::poll(polled.as_mut_ptr(), count, most) };
    if returned < 0 && last_error() != libc::EINTR {
        return Err(io::Error::last_os_error());
    }
    let ready = polled.iter().filter(|one| returned > 0 && one.revents != 0);
    Ok(ready.map(|one| one.fd).collect())
}

/// Takes the lock of a file, and says whether nobody else had it.
pub fn lock(file: &File) -> io::Result<bool> {
    let how = libc::LOCK_EX | libc::LOCK_NB;
    // SAFETY: flock gets numbers alone.
    match checked(|| unsafe { libc::flock(file.as_raw_fd(), how) }) {
        Err(cause) if cause.kind() == ErrorKind::WouldBlock => Ok(false),
        other => other.map(|_| true),
    }
}

/// Returns the limits of this process.
pub fn limits() -> Vec<Limit> {
    let limit = |resource| {
        let mut told = MaybeUninit::<libc::rlimit>::zeroed();
        // SAFETY: there is room for a limit; one of zeros is one as well.
        let (failed, told) = unsafe {
            let failed = libc::getrlimit(resource as _, told.as_mut_ptr());
            (failed, told.assume_init())
        };
        let (soft, hard) = (told.rlim_cur, told.rlim_max);
        (failed == 0).then_some(Limit {
            resource,
            soft,
            hard,
        })
    };
    (0..LIMITS).filter_map(limit).collect()
}

/// Returns the umask of this process. No other thread may make a file meanwhile.
pub fn umask() -> u32 {
    // SAFETY: umask can't fail, and gets a number alone.
    unsafe {
        let mask = libc::umask(0o077);
        libc::umask(mask);
        mask
    }
}

/// Returns the size of an open file that is a terminal.
pub fn window(file: RawFd) -> Option<libc::winsize> {
    let mut told = MaybeUninit::<libc::winsize>::zeroed();
    // SAFETY: there is room for a size; one of zeros is one as well.
    unsafe {
        let failed = libc::ioctl(file, libc::TIOCGWINSZ, told.as_mut_ptr());
        (failed == 0).then_some(told.assume_init())
    }
}

/// Opens a new terminal of this size, and returns the end that sees what is written to the other.
/// What is written passes as it is.
pub fn open_terminal(size: &libc::winsize) -> io::Result<(OwnedFd, OwnedFd)> {
    let flags = O_RDWR | O_NOCTTY | O_CLOEXEC;
    // SAFETY: posix_openpt gets flags alone.
    let near = owned(checked(|| unsafe {
        libc::posix_openpt(flags | O_NONBLOCK)
    })?);
    let mut settings = MaybeUninit::<libc::termios>::zeroed();
    // SAFETY: the terminal is open; its settings have room, and are read before they are written.
    unsafe {
        checked(|| libc::unlockpt(near.as_raw_fd()))?;
        let far = owned(checked(|| {
            libc::ioctl(near.as_raw_fd(), libc::TIOCGPTPEER, flags)
        })?);
        checked(|| libc::tcgetattr(far.as_raw_fd(), settings.as_mut_ptr()))?;
        (*settings.as_mut_ptr()).c_oflag &= !libc::OPOST;
        checked(|| libc::tcsetattr(far.as_raw_fd(), libc::TCSANOW, settings.as_ptr()))?;
        checked(|| libc::ioctl(near.as_raw_fd(), libc::TIOCSWINSZ, size))?;
        Ok((near, far))
    }
}

fn owned(file: c_int) -> OwnedFd {
    // SAFETY: the kernel has just given this number to this process, and nobody else has it.
    unsafe { OwnedFd::from_raw_fd(file) }
}

/// Does a call, again if a signal came, and returns what it returned or why it failed.
fn checked(mut call: impl FnMut() -> c_int) -> io::Result<c_int> {
    loop {
        let returned = call();
        if returned >= 0 {
            return Ok(returned);
        }
        let cause = io::Error::last_os_error();
        if cause.kind() != ErrorKind::Interrupted {
            return Err(cause);
        }
    }
}
