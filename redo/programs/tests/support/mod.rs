//! A tree in a folder of its own, a server that says what it is told to say, and calls of the
//! programs, each with a time limit.

pub mod building;

use std::fs;
use std::io::{ErrorKind, Read, Write};
use std::os::unix::fs::{DirBuilderExt, PermissionsExt};
use std::os::unix::net::{UnixListener, UnixStream};
use std::os::unix::process::{CommandExt, ExitStatusExt};
use std::path::{Path, PathBuf};
use std::process::{Child, Command, Stdio};
use std::sync::atomic::{AtomicU32, Ordering};
use std::sync::{Mutex, MutexGuard};
use std::thread::{self, JoinHandle};
use std::time::{Duration, Instant};

use redo_wire::{Call, FrameBuffer, ToProgram, ToServer, OPENING};

/// No program takes so long.
pub const LIMIT: Duration = Duration::from_secs(20);

/// Whoever writes a program or starts one has its turn: a program that is still open for writing,
/// as in a process that is about to begin, can't be started.
static TURN: Mutex<()> = Mutex::new(());
static NUMBER: AtomicU32 = AtomicU32::new(0);

/// A tree, which is removed in the end.
pub struct Tree(pub PathBuf);

impl Tree {
    /// A folder without `.redo`.
    pub fn bare() -> Tree {
        let number = NUMBER.fetch_add(1, Ordering::Relaxed);
        let name = format!("redo-programs-{}-{number}", std::process::id());
        let folder = std::env::temp_dir().join(name);
        fs::create_dir(&folder).unwrap();
        Tree(folder.canonicalize().unwrap())
    }

    /// A folder with `.redo`, in which no server was yet.
    pub fn new() -> Tree {
        let tree = Tree::bare();
        fs::create_dir(tree.path(".redo")).unwrap();
        tree
    }

    pub fn path(&self, name: &str) -> PathBuf {
        self.0.join(name)
    }

    pub fn socket(&self) -> PathBuf {
        self.path(".redo/server/socket")
    }

    pub fn write(&self, name: &str, text: &str) -> PathBuf {
        fs::write(self.path(name), text).unwrap();
        self.path(name)
    }

    pub fn write_program(&self, name: &str, text: &str) -> PathBuf {
        let _turn = turn();
        let path = self.write(name, text);
        fs::set_permissions(&path, fs::Permissions::from_mode(0o755)).unwrap();
        path
    }

    /// Listens as the server of the tree does.
    pub fn listen(&self) -> UnixListener {
        let mut maker = fs::DirBuilder::new();
        maker
            .mode(0o700)
            .recursive(true)
            .create(self.path(".redo/server"))
            .unwrap();
        UnixListener::bind(self.socket()).unwrap()
    }

    /// Serves one program for each of these answers, in this order.
    pub fn serve(&self, answers: Vec<Vec<ToProgram>>) -> Server {
        let listener = self.listen();
        Server(thread::spawn(move || {
            let served = answers
                .into_iter()
                .map(|answer| served(&listener, b"", answer));
            served.collect()
        }))
    }

    /// A program of redo, called in the tree.
    pub fn program(&self, name: &str) -> Command {
        let mut command = Command::new(env!("CARGO_BIN_EXE_redo"));
        command.arg0(name).current_dir(&self.0).stdin(Stdio::null());
        let mine = [
            "TASK", "SOCKET", "SERVER", "PATIENCE", "JOBS", "TRUST", "IDLE",
        ];
        for variable in mine {
            command.env_remove(format!("REDO_{variable}"));
        }
        command
    }

    /// A program of redo, called by the script of a task.
    pub fn script_program(&self, name: &str, task: u64) -> Command {
        let mut command = self.program(name);
        command
            .env("REDO_TASK", task.to_string())
            .env("REDO_SOCKET", self.socket());
        command
    }
}

impl Drop for Tree {
    fn drop(&mut self) {
        let _ = fs::remove_dir_all(&self.0);
    }
}

/// A server that serves some programs.
pub struct Server(JoinHandle<Vec<Call>>);

impl Server {
    /// Waits for the end, and returns the calls.
    pub fn calls(self) -> Vec<Call> {
        self.0.join().unwrap()
    }

    pub fn call(self) -> Call {
        let mut calls = self.calls();
        assert_eq!(calls.len(), 1);
        calls.remove(0)
    }
}

/// Takes the next program's call, and answers it, after a greeting.
pub fn served(listener: &UnixListener, greeting: &[u8], answer: Vec<ToProgram>) -> Call {
    let mut peer = Peer::accepted(listener);
    peer.socket.write_all(greeting).unwrap();
    let call = peer.call();
    answer.iter().for_each(|message| peer.send(message));
    call
}

/// The server's end of a connection.
pub struct Peer {
    pub socket: UnixStream,
    received: FrameBuffer,
}

impl Peer {
    pub fn accepted(listener: &UnixListener) -> Peer {
        listener.set_nonblocking(true).unwrap();
        let end = Instant::now() + LIMIT;
        let socket = loop {
            match listener.accept() {
                Ok((socket, _)) => break socket,
                Err(_) => thread::sleep(Duration::from_millis(2)),
            }
            assert!(Instant::now() < end, "nobody calls");
        };
        socket.set_nonblocking(false).unwrap();
        socket.set_read_timeout(Some(LIMIT)).unwrap();
        Peer {
            socket,
            received: FrameBuffer::default(),
        }
    }

    /// Returns the first message, after the byte that is before all.
    pub fn call(&mut self) -> Call {
        let mut opening = [1];
        self.socket.read_exact(&mut opening).unwrap();
        assert_eq!(opening, [OPENING]);
        match self.next() {
            Some(ToServer::Call(call)) => *call,
            other => panic!("{other:?}"),
        }
    }

    /// Returns the next message. None at the end, also if what was sent wasn't read.
    pub fn next(&mut self) -> Option<ToServer> {
        let mut room = [0; 4096];
        loop {
            if let Some(body) = self.received.next_body().unwrap() {
                return Some(ToServer::decode(&body).unwrap());
            }
            match self.socket.read(&mut room) {
                Ok(0) => return None,
                Ok(count) => self.received.push(&room[..count]),
                Err(cause) if cause.kind() == ErrorKind::ConnectionReset => return None,
                Err(cause) => panic!("{cause}"),
            }
        }
    }

    /// Sends a message. The program may be gone.
    pub fn send(&mut self, message: &ToProgram) {
        let mut bytes = Vec::new();
        message.encode(&mut bytes).unwrap();
        if let Err(cause) = self.socket.write_all(&bytes) {
            assert_eq!(cause.kind(), ErrorKind::BrokenPipe);
        }
    }
}

/// What a program did.
#[derive(Debug, PartialEq, Eq)]
pub struct Ended {
    /// A negative one is that of a signal.
    pub status: i32,
    pub output: String,
    pub errors: String,
}

/// The end of a program that printed this.
pub fn ended(status: i32, output: &str, errors: &str) -> Ended {
    Ended {
        status,
        output: output.to_string(),
        errors: errors.to_string(),
    }
}

fn turn() -> MutexGuard<'static, ()> {
    TURN.lock().unwrap_or_else(|failed| failed.into_inner())
}

/// Copies a program.
pub fn copy_program(from: &str, to: &Path) {
    let _turn = turn();
    fs::copy(from, to).unwrap();
}

/// Starts a program.
pub fn spawned(command: &mut Command) -> Child {
    let _turn = turn();
    command.spawn().unwrap()
}

/// Starts a program whose output is taken.
pub fn begun(command: &mut Command) -> Child {
    spawned(command.stdout(Stdio::piped()).stderr(Stdio::piped()))
}

/// Waits for the end of a program, and returns what it printed, as far as that was taken. If it
/// takes too long, it is killed.
pub fn finished(mut child: Child) -> Ended {
    let end = Instant::now() + LIMIT;
    let output = child.stdout.take().map(drained);
    let errors = child.stderr.take().map(drained);
    let status = loop {
        if let Some(status) = child.try_wait().unwrap() {
            break status;
        }
        if Instant::now() > end {
            child.kill().unwrap();
        }
        thread::sleep(Duration::from_millis(2));
    };
    Ended {
        status: status.code().unwrap_or_else(|| -status.signal().unwrap()),
        output: output.map_or_else(String::new, |text| text.join().unwrap()),
        errors: errors.map_or_else(String::new, |text| text.join().unwrap()),
    }
}

pub fn run(command: &mut Command) -> Ended {
    finished(begun(command))
}

/// Waits until something is true.
pub fn until(what: &str, is_true: impl Fn() -> bool) {
    let end = Instant::now() + LIMIT;
    while !is_true() {
        assert!(Instant::now() < end, "{what}");
        thread::sleep(Duration::from_millis(2));
    }
}

pub fn words(text: &str) -> Vec<Vec<u8>> {
    text.split_whitespace()
        .map(|word| word.as_bytes().to_vec())
        .collect()
}

pub fn bytes(path: &Path) -> Vec<u8> {
    path.to_str().unwrap().as_bytes().to_vec()
}

fn drained(mut file: impl Read + Send + 'static) -> JoinHandle<String> {
    thread::spawn(move || {
        let mut text = Vec::new();
        file.read_to_end(&mut text).unwrap();
        String::from_utf8(text).unwrap()
    })
}
