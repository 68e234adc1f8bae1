//! Finds what is left of the scripts of a run that was killed.
//!
//! The kernel kills the scripts of a run with the run. What is found here has closed the end of
//! the pipe by which it does so.

use std::fs;
use std::os::unix::ffi::OsStrExt;
use std::thread;
use std::time::{Duration, Instant};

use crate::system;
use crate::text::{joined, path};

/// A process, as /proc has it.
#[derive(Clone, Copy, Debug, PartialEq, Eq)]
struct Process {
    number: i32,
    /// A letter, as `Z` for one that has ended, and whose parent doesn't know it yet.
    state: u8,
    group: i32,
    session: i32,
}

/// So long what was killed may take to end.
const MOST_WAIT: Duration = Duration::from_millis(500);
const PAUSE: Duration = Duration::from_millis(2);

/// Kills the groups of a run that are named, and those that a script leads, if they have a process
/// with the run's path in its environment. What an ended script left in the background leads none.
///
/// Waits until all of these processes have ended: one that is killed in the midst of a call may
/// make a file yet.
pub fn kill(run: &[u8], groups: &[i32]) {
    if !is_proc_ours() {
        return;
    }
    let began = Instant::now();
    let variable = joined(&[b"REDO_RUN=", run]);
    loop {
        let strays = strays_with(&variable, groups);
        if strays.is_empty() || began.elapsed() > MOST_WAIT {
            return;
        }
        for stray in strays {
            let _ = system::signal_group(stray.group, libc::SIGKILL); // it may be gone by now
        }
        thread::sleep(PAUSE);
    }
}

/// Returns the processes that have a variable, and are of one of the groups or of one that a script
/// leads. One that has ended has no variables.
fn strays_with(variable: &[u8], groups: &[i32]) -> Vec<Process> {
    let mut strays = processes_with(variable);
    strays.retain(|process| {
        let leads = process.number == process.group && process.group != process.session;
        leads || groups.contains(&process.group)
    });
    strays
}

/// Says whether a process is there and hasn't ended, as far as /proc tells that.
pub fn is_there(number: i32) -> bool {
    let is_ended = |process: Process| matches!(process.state, b'Z' | b'X');
    !is_proc_ours() || process(number).map_or(false, |process| !is_ended(process))
}

/// Says whether /proc has the numbers of this process's PID namespace.
fn is_proc_ours() -> bool {
    let itself = fs::read_link("/proc/self").ok();
    let number = std::process::id().to_string();
    itself.map_or(false, |itself| {
        itself.as_os_str().as_bytes() == number.as_bytes()
    })
}

/// Returns the processes whose environment has a variable, `NAME=VALUE`.
fn processes_with(variable: &[u8]) -> Vec<Process> {
    let has_it = |number: &i32| {
        let environment = fs::read(format!("/proc/{number}/environ")).unwrap_or_default();
        environment
            .split(|byte| *byte == 0)
            .any(|one| one == variable)
    };
    let found = fs::read_dir(path(b"/proc")).into_iter().flatten().flatten();
    let numbers = found.filter_map(|entry| entry.file_name().to_str()?.parse().ok());
    numbers.filter(has_it).filter_map(process).collect()
}

fn process(number: i32) -> Option<Process> {
    let text = fs::read_to_string(format!("/proc/{number}/stat")).ok()?;
    let (_, fields) = text.rsplit_once(") ")?; // a program's name may have anything in it
    let mut fields = fields.split(' ');
    let state = *fields.next()?.as_bytes().first()?;
    let mut fields = fields.skip(1); // the parent
    let group = fields.next()?.parse().ok()?;
    let session = fields.next()?.parse().ok()?;
    Some(Process {
        number,
        state,
        group,
        session,
    })
}

#[cfg(test)]
mod tests {
    use std::process::Command;

    use super::*;

    #[test]
    fn a_process_is_known_by_its_number() {
        let own = std::process::id() as i32;
        let found = process(own).unwrap();
        assert!(found.number == own && found.group > 0 && found.session >= 0);
        assert_eq!(process(i32::MAX), None);
        assert!(is_there(own) && !is_there(i32::MAX));
        assert!(is_proc_ours());
    }

    #[test]
    fn what_is_killed_has_ended_then() {
        let run = format!("/no/such/run.{}", std::process::id());
        for _ in 0..50 {
            let mut script = Command::new("setsid")
                .args(["sh", "-c", "while :; do : >/dev/null; done"])
                .env("REDO_RUN", &run)
                .spawn()
                .unwrap();
            let number = script.id() as i32;
            while process(number).map_or(true, |found| found.group != number) {
                thread::sleep(PAUSE);
            }
            kill(run.as_bytes(), &[number]);
            assert!(!is_there(number));
            script.wait().unwrap();
        }
    }

    #[test]
    fn no_process_has_a_variable_that_nobody_set() {
        assert_eq!(processes_with(b"REDO_RUN=/no/such/run"), []);
    }
}
