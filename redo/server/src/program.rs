//! The process redodb-live.

use std::ffi::OsStr;
use std::fs::File;
use std::io::{ErrorKind, Read};
use std::os::unix::ffi::OsStrExt;
use std::os::unix::io::OwnedFd;
use std::os::unix::process::ExitStatusExt;
use std::process::{Child, ChildStderr, Command, ExitStatus, Stdio};
use std::thread;
use std::time::{Duration, Instant};
use std::{env, io};

use redo_files::FileError;

use crate::marks::Keeping;
use crate::system;

const LINGER: Duration = Duration::from_secs(5);
const PAUSE: Duration = Duration::from_millis(5);
const MOST_WORDS: usize = 1 << 16;

/// A redodb-live, and the pipes to its standard input and from its standard output.
#[derive(Debug)]
pub struct Program {
    process: Child,
    /// None once its input has ended.
    pub input: Option<File>,
    pub output: File,
    errors: ChildStderr,
}

impl Program {
    /// Starts the program, with the working folder and the environment of this process.
    pub fn start(program: &[u8], log: &[u8], keeping: Keeping) -> Result<Program, FileError> {
        let failed = |cause| FileError::system(program, cause);
        let mut command = Command::new(OsStr::from_bytes(program));
        command.arg("--log").arg(OsStr::from_bytes(log));
        if keeping == Keeping::Whole {
            command.arg("--whole");
        }
        if is_sync_asked_for() {
            command.arg("--sync");
        }
        command
            .stdin(Stdio::piped())
            .stdout(Stdio::piped())
            .stderr(Stdio::piped());
        let mut process = system::in_own_session(&mut command)
            .spawn()
            .map_err(failed)?;
        match (
            process.stdin.take(),
            process.stdout.take(),
            process.stderr.take(),
        ) {
            (Some(input), Some(output), Some(errors)) => {
                system::set_nonblocking(&input).map_err(failed)?;
                system::set_nonblocking(&output).map_err(failed)?;
                Ok(Program {
                    process,
                    input: Some(File::from(OwnedFd::from(input))),
                    output: File::from(OwnedFd::from(output)),
                    errors,
                })
            }
            _ => Err(failed(ErrorKind::BrokenPipe.into())),
        }
    }

    /// Kills the program, if it runs.
    pub fn kill(&mut self) {
        let _ = self.process.kill(); // it has ended already
        let _ = self.process.wait();
    }

    /// Waits for the end of the program, and returns what it said of it.
    pub fn last_words(mut self) -> String {
        self.input = None;
        let status = self.ended();
        match self.said() {
            said if !said.is_empty() => said,
            _ => format!("redodb-live ended with {}", described(status)),
        }
    }

    fn said(&mut self) -> String {
        let mut said = vec![0; MOST_WORDS];
        let count =
            system::set_nonblocking(&self.errors).and_then(|()| self.errors.read(&mut said));
        said.truncate(count.unwrap_or(0));
        String::from_utf8_lossy(&said).trim().replace('\n', "; ")
    }

    /// Returns the status of the program, which is about to end; one that lingers is killed.
    fn ended(&mut self) -> io::Result<ExitStatus> {
        let end = Instant::now() + LINGER;
        while Instant::now() < end {
            if let Some(status) = self.process.try_wait()? {
                return Ok(status);
            }
            thread::sleep(PAUSE);
        }
        self.process.kill()?;
        self.process.wait()
    }
}

fn described(status: io::Result<ExitStatus>) -> String {
    match status {
        Ok(status) => match (status.signal(), status.code()) {
            (Some(signal), _) => format!("signal {signal}"),
            (None, Some(code)) => format!("status {code}"),
            (None, None) => "no status".to_owned(),
        },
        Err(cause) => cause.to_string(),
    }
}

/// Says whether REDO_SYNC asks for a log that is on the disk before each answer.
fn is_sync_asked_for() -> bool {
    env::var_os("REDO_SYNC").map_or(false, |value| !value.is_empty() && value != "0")
}
