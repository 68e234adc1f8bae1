//! The tree that a program is called in, and its server, which is started if there is none.

use std::env;
use std::io::{self, ErrorKind, Read, Seek, SeekFrom};
use std::os::unix::ffi::OsStringExt;
use std::os::unix::io::AsRawFd;
use std::os::unix::net::UnixStream;
use std::process::{Command, Stdio};
use std::thread;
use std::time::{Duration, Instant};

use redo_files::private::{Home, Opening};
use redo_files::top::{find_top, places};
use redo_files::trust::Trust;
use redo_files::{paths, FileError};
use redo_wire::{ToProgram, ToServer};

use crate::asking::{seconds_of, Patience};
use crate::failure::Failure;
use crate::link::Link;
use crate::server::ServerProgram;
use crate::system;

/// So long a server is tried to be started.
const START: Duration = Duration::from_secs(10);
const PAUSE: Duration = Duration::from_millis(20);
const IDLE: f64 = 60.0;
const MOST_IDLE: f64 = 999_999_999.0;

/// A tree of targets.
#[derive(Debug)]
pub struct Tree {
    home: Home,
}

impl Tree {
    /// Returns the tree that the working folder is in, if it is in one.
    pub fn found() -> Result<Option<Tree>, Failure> {
        let trust = Trust::of_process();
        let top = find_top(b".", &trust)?;
        Ok(top.map(|top| Tree {
            home: Home::new(&top, &trust),
        }))
    }

    /// Returns the tree that the working folder is in. If it is in none, it becomes the top of one.
    pub fn found_or_made() -> Result<Tree, Failure> {
        if let Some(tree) = Tree::found()? {
            return Ok(tree);
        }
        let folder = env::current_dir().map_err(|cause| Failure::System { path: None, cause })?;
        let top = redo_files::links::resolved(&folder.into_os_string().into_vec())
            .map_err(|cause| Failure::System { path: None, cause })?;
        let tree = Tree {
            home: Home::new(&top, &Trust::of_process()),
        };
        tree.home.make()?;
        Ok(tree)
    }

    /// The top, absolute and without symbolic links.
    pub fn top(&self) -> &[u8] {
        self.home.top()
    }

    /// Its `.redo`.
    pub fn home(&self) -> &Home {
        &self.home
    }

    /// The path of the socket by which scripts reach the server.
    pub fn socket(&self) -> Vec<u8> {
        [self.top(), b"/.redo/", places::SOCKET].concat()
    }

    /// Sends a first message to the server, and waits for what it says first. A server that ends
    /// before it says anything has read nothing, or is broken: then another one is asked.
    pub fn ask(
        &self,
        first: &ToServer,
        patience: &mut Patience,
    ) -> Result<(Link, ToProgram), Failure> {
        let give_up = Instant::now() + START;
        loop {
            let socket = match self.dialled()? {
                Some(socket) => socket,
                None => self.started(give_up)?,
            };
            let mut link = Link::open(socket, first)?;
            if let Some(message) = patience.next_message(&mut link)? {
                return Ok((link, message));
            }
            if Instant::now() > give_up {
                return Err(self.server_failed("the server ended at once", 0));
            }
        }
    }

    /// Returns a connection to the server, if one listens. Fails if who listens isn't trusted.
    fn dialled(&self) -> Result<Option<UnixStream>, Failure> {
        match self.connected() {
            Ok(socket) => Ok(Some(socket)),
            Err(FileError::System { cause, .. }) if is_nobody(&cause) => Ok(None),
            Err(error) => Err(self.unreachable(error)),
        }
    }

    fn connected(&self) -> Result<UnixStream, FileError> {
        let path = self.socket();
        let place = self.home.open_socket(places::SOCKET)?;
        // its own path may be too long
        let socket = UnixStream::connect(format!("/proc/self/fd/{}", place.as_raw_fd()))
            .map_err(|cause| FileError::system(&path, cause))?;
        self.home.trust().check_peer(&socket, &path, self.top())?;
        Ok(socket)
    }

    /// Starts a server, and returns a connection to it. One program at a time tries.
    fn started(&self, give_up: Instant) -> Result<UnixStream, Failure> {
        self.home.make().map_err(|error| self.unreachable(error))?;
        let opening = Opening::READ_WRITE.making(0o600);
        let turn = self.home.open_file(places::STARTING, opening);
        let turn = turn.map_err(|error| self.unreachable(error))?;
        system::lock(&turn).map_err(|cause| self.cannot_reach(cause))?;
        loop {
            if let Some(socket) = self.dialled()? {
                return Ok(socket);
            }
            self.start()?;
            if let Some(socket) = self.dialled()? {
                return Ok(socket);
            }
            if Instant::now() > give_up {
                return Err(self.server_failed("the server can't be reached", 0));
            }
            thread::sleep(PAUSE); // another server is about to listen, or to end
        }
    }

    /// Starts a server in the background, and returns when it listens, or found another one there.
    fn start(&self) -> Result<(), Failure> {
        let errors = self
            .home
            .open_file(places::ERRORS, Opening::APPEND.making(0o600))
            .map_err(|error| self.unreachable(error))?;
        let before = errors.metadata().map_or(0, |status| status.len());
        let program = ServerProgram::found()?;
        program.tell_of_stand_in();
        let idle = seconds_of("REDO_IDLE", IDLE, MOST_IDLE).as_secs_f64();
        let mut command = Command::new(text_of(program.path()));
        command.args(["--detach", "--idle", &idle.to_string(), "--top"]);
        command.arg(text_of(self.top()));
        command.envs(program.live().map(|live| ("REDODB_LIVE", text_of(live))));
        command
            .stdin(Stdio::null())
            .stdout(Stdio::null())
            .stderr(errors);
        let status = system::in_own_session(&mut command).status();
        let status = status.map_err(|cause| Failure::System {
            path: Some(program.path().to_vec()),
            cause,
        })?;
        match status.success() {
            true => Ok(()),
            false => Err(self.server_failed("the server can't be started", before)),
        }
    }

    /// Returns the failure of a server, with the last line of its errors after so many bytes.
    fn server_failed(&self, what: &str, before: u64) -> Failure {
        let mut text = what.as_bytes().to_vec();
        if let Some(line) = self.last_error(before) {
            text.extend([b": ", line.as_slice()].concat());
        }
        Failure::Text(text)
    }

    fn last_error(&self, before: u64) -> Option<Vec<u8>> {
        let mut errors = self.home.open_file(places::ERRORS, Opening::READ).ok()?;
        errors.seek(SeekFrom::Start(before)).ok()?;
        let mut told = Vec::new();
        errors.read_to_end(&mut told).ok()?;
        let mut lines = told
            .split(|byte| *byte == b'\n')
            .filter(|line| !line.is_empty());
        lines.next_back().map(paths::shown)
    }

    fn unreachable(&self, error: FileError) -> Failure {
        match error {
            FileError::System { cause, .. } => self.cannot_reach(cause),
            other => Failure::File(other),
        }
    }

    fn cannot_reach(&self, cause: io::Error) -> Failure {
        Failure::Unreachable {
            top: self.top().to_vec(),
            cause,
        }
    }
}

/// Says whether this is the failure that nobody listens.
fn is_nobody(cause: &io::Error) -> bool {
    matches!(
        cause.kind(),
        ErrorKind::NotFound | ErrorKind::ConnectionRefused
    )
}

fn text_of(bytes: &[u8]) -> std::ffi::OsString {
    std::ffi::OsString::from_vec(bytes.to_vec())
}
