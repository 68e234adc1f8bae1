//! A call: what is sent to the server, what is printed, and what is said if no answer comes.

use std::env;
use std::ffi::OsString;
use std::os::unix::ffi::OsStringExt;
use std::os::unix::io::RawFd;
use std::time::{Duration, Instant};

use redo_files::paths::shown;
use redo_scripts::system;
use redo_scripts::terminal::is_terminal;
use redo_wire::{Call, Digest, Limit, Program, Surroundings, ToProgram, LIMITS};

use crate::failure::Failure;
use crate::link::Link;
use crate::text::{print_error, print_output};

const ERRORS: RawFd = 2;
const PATIENCE: f64 = 30.0;
const MOST_PATIENCE: f64 = 1e6;
/// A program that was stopped itself finds its time over: then it waits so long once more.
const A_MOMENT: Duration = Duration::from_millis(200);

/// Returns how this process was called, as a message. `task` is that whose script calls it.
pub fn call_of_process(
    program: Program,
    words: Vec<Vec<u8>>,
    task: Option<u64>,
    content: Option<Digest>,
) -> Result<Call, Failure> {
    let folder = env::current_dir().map_err(|cause| Failure::System { path: None, cause })?;
    Ok(Call {
        program,
        folder: folder.into_os_string().into_vec(),
        words,
        surroundings: Surroundings {
            environment: env::vars_os().map(assigned).collect(),
            umask: system::umask(),
            limits: limits(),
        },
        task,
        content,
        terminal: is_terminal(ERRORS),
    })
}

/// Returns the limits by the numbers of the resources. What the kernel doesn't know is unlimited.
fn limits() -> [Limit; LIMITS] {
    const UNLIMITED: Limit = Limit {
        soft: u64::MAX,
        hard: u64::MAX,
    };
    let mut limits = [UNLIMITED; LIMITS];
    for told in system::limits() {
        let place = usize::try_from(told.resource).ok();
        if let Some(limit) = place.and_then(|place| limits.get_mut(place)) {
            (limit.soft, limit.hard) = (told.soft, told.hard);
        }
    }
    limits
}

fn assigned((name, value): (OsString, OsString)) -> Vec<u8> {
    let mut text = name.into_vec();
    text.push(b'=');
    text.extend(value.into_vec());
    text
}

/// Returns the seconds that a variable of the environment has, from 0 to `most`; what isn't a
/// number counts as `otherwise`.
pub fn seconds_of(variable: &str, otherwise: f64, most: f64) -> Duration {
    let told = env::var(variable)
        .ok()
        .and_then(|text| text.trim().parse::<f64>().ok());
    let seconds = told
        .filter(|seconds| !seconds.is_nan())
        .unwrap_or(otherwise);
    Duration::from_secs_f64(seconds.clamp(0.0, most))
}

/// What it means that the server doesn't work.
#[derive(Clone, Copy, Debug, PartialEq, Eq)]
pub enum Sign {
    /// No message comes.
    Silence,
    /// What was sent isn't read. Messages may take as long as builds.
    Unread,
}

/// Says once that the server of a tree doesn't answer.
#[derive(Debug)]
pub struct Patience {
    top: Vec<u8>,
    sign: Sign,
    time: Duration,
    was_told: bool,
}

impl Patience {
    /// `top` is the top of the tree.
    pub fn new(top: &[u8], sign: Sign) -> Patience {
        Patience {
            top: top.to_vec(),
            sign,
            time: seconds_of("REDO_PATIENCE", PATIENCE, MOST_PATIENCE),
            was_told: false,
        }
    }

    /// Waits for the next message. None if the server has ended.
    pub fn next_message(&mut self, link: &mut Link) -> Result<Option<ToProgram>, Failure> {
        loop {
            if let Some(message) = link.taken()? {
                return Ok(Some(message));
            }
            self.wait(link)?;
            if !link.receive()? {
                return Ok(None);
            }
        }
    }

    /// Waits until something comes, or until that has to be said; then there is no more to wait
    /// for but the message.
    fn wait(&mut self, link: &Link) -> Result<(), Failure> {
        while !self.was_told && !link.wait(self.time)? && !link.wait(A_MOMENT)? {
            if self.sign == Sign::Silence || link.has_unread() {
                print_error(&[b"redo: ", self.text().as_slice()].concat());
                self.was_told = true;
            }
        }
        Ok(())
    }

    /// Returns what is said of the server, behind `redo: `.
    pub fn text(&self) -> Vec<u8> {
        let lock = [self.top.as_slice(), b"/.redo/server/lock"].concat();
        let number = std::fs::read(OsString::from_vec(lock)).unwrap_or_default();
        let number = String::from_utf8_lossy(&number).trim().to_string();
        let is_number = !number.is_empty() && number.bytes().all(|byte| byte.is_ascii_digit());
        let process = if is_number {
            format!(" (process {number})")
        } else {
            String::new()
        };
        let top = shown(&self.top);
        [
            b"waiting for the server of ",
            top.as_slice(),
            process.as_bytes(),
        ]
        .concat()
    }

    /// Says whether it is time to say so, if a run has found since when messages aren't read.
    pub fn is_over(&mut self, since: Instant) -> bool {
        let is_over = !self.was_told && since.elapsed() >= self.time;
        self.was_told |= is_over;
        is_over
    }
}

/// What a message means for a program that only prints.
#[derive(Debug)]
pub enum Printed {
    /// It was printed.
    Done,
    /// The program ends with this status.
    End(u8),
    /// It is for a run.
    Other(ToProgram),
}

/// Prints what a message has to print.
pub fn print(message: ToProgram) -> Result<Printed, Failure> {
    match message {
        ToProgram::Error(line) => {
            print_error(&line);
            Ok(Printed::Done)
        }
        ToProgram::Output(bytes) => {
            print_output(&bytes)?;
            Ok(Printed::Done)
        }
        ToProgram::End { status } => Ok(Printed::End(status)),
        other => Ok(Printed::Other(other)),
    }
}
