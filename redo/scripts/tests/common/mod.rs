//! A folder for a test, and waiting with an end.
#![allow(dead_code)] // each test file takes a part of it

pub mod runs;

use std::ffi::CString;
use std::fs::{self, File};
use std::io::ErrorKind;
use std::os::unix::ffi::OsStrExt;
use std::os::unix::io::AsRawFd;
use std::path::{Path, PathBuf};
use std::process::{Child, Command, ExitStatus};
use std::sync::atomic::{AtomicU32, Ordering};
use std::time::{Duration, Instant};

use redo_scripts::processes::{CantStart, Group, Processes, Start};
use redo_scripts::program::{Exit, Limit};

/// No test waits longer for anything.
pub const MOST: Duration = Duration::from_secs(60);
const STEP: Duration = Duration::from_millis(5);

static COUNT: AtomicU32 = AtomicU32::new(0);

/// A folder that is removed after the test.
pub struct Tree(PathBuf);

impl Tree {
    pub fn new() -> Tree {
        let number = COUNT.fetch_add(1, Ordering::Relaxed);
        let name = format!("redo-scripts-test-{}-{number}", std::process::id());
        let folder = std::env::temp_dir().canonicalize().unwrap().join(name);
        fs::create_dir(&folder).unwrap();
        Tree(folder)
    }

    pub fn top(&self) -> &Path {
        &self.0
    }

    pub fn at(&self, path: &str) -> PathBuf {
        self.0.join(path)
    }

    pub fn path(&self, path: &str) -> Vec<u8> {
        self.at(path).as_os_str().as_bytes().to_vec()
    }

    pub fn write(&self, path: &str, text: &str) {
        fs::write(self.at(path), text).unwrap();
    }

    pub fn read(&self, path: &str) -> String {
        match fs::read(self.at(path)) {
            Ok(text) => String::from_utf8_lossy(&text).into_owned(),
            Err(cause) if cause.kind() == ErrorKind::NotFound => String::new(),
            Err(cause) => panic!("{path}: {cause}"),
        }
    }

    pub fn has(&self, path: &str) -> bool {
        self.at(path).exists()
    }
}

impl Drop for Tree {
    fn drop(&mut self) {
        fs::remove_dir_all(&self.0).unwrap();
    }
}

/// Waits until something holds.
pub fn until(what: &str, mut holds: impl FnMut() -> bool) {
    let began = Instant::now();
    while !holds() {
        assert!(began.elapsed() < MOST, "waited too long: {what}");
        std::thread::sleep(STEP);
    }
}

/// Waits for a process, and kills it if it takes too long.
pub fn ended(child: &mut Child) -> ExitStatus {
    let began = Instant::now();
    loop {
        if let Some(status) = child.try_wait().unwrap() {
            return status;
        }
        if began.elapsed() > MOST {
            child.kill().unwrap();
            panic!("a process takes too long");
        }
        std::thread::sleep(STEP);
    }
}

/// Returns the processes that have a text among the arguments or in the environment.
pub fn processes_with(text: &str) -> Vec<String> {
    let has_it = |path: PathBuf| {
        let files = ["environ", "cmdline"].map(|name| fs::read(path.join(name)));
        let mut contents = files.into_iter().flatten();
        contents.any(|content| {
            content
                .windows(text.len())
                .any(|part| part == text.as_bytes())
        })
    };
    let found = fs::read_dir("/proc").unwrap().flatten();
    let numbers = found.filter(|entry| {
        let name = entry.file_name().into_string().unwrap_or_default();
        name.parse::<u32>().is_ok() && !is_zombie(&entry.path()) && has_it(entry.path())
    });
    numbers
        .map(|entry| entry.file_name().into_string().unwrap())
        .collect()
}

fn is_zombie(process: &Path) -> bool {
    let stat = fs::read_to_string(process.join("stat")).unwrap_or_default();
    let state = stat
        .rsplit(')')
        .next()
        .and_then(|rest| rest.split_whitespace().next());
    state.map_or(true, |state| state == "Z")
}

/// The state of a process, by the letter that the kernel has for it.
pub fn state_of(process: i32) -> String {
    let stat = fs::read_to_string(format!("/proc/{process}/stat")).unwrap_or_default();
    let rest = stat.rsplit(')').next().unwrap_or_default();
    rest.split_whitespace()
        .next()
        .unwrap_or_default()
        .to_string()
}

/// Scripts of a test, which run in its folder.
pub struct Scripts {
    pub processes: Processes,
    pub umask: u32,
    pub limits: Vec<Limit>,
    pub environment: Vec<CString>,
    output: File,
    folder: Vec<u8>,
}

impl Scripts {
    pub fn new(tree: &Tree) -> Scripts {
        let path = std::env::var("PATH").unwrap();
        Scripts {
            processes: Processes::new().unwrap(),
            umask: 0o22,
            limits: Vec::new(),
            environment: vec![CString::new(format!("PATH={path}")).unwrap()],
            output: File::create(tree.at("output")).unwrap(),
            folder: tree.path(""),
        }
    }

    /// Starts a shell that does this.
    pub fn shell(&mut self, text: &str) -> Group {
        self.words(&["/bin/sh", "-ec", text]).unwrap()
    }

    pub fn words(&mut self, words: &[&str]) -> Result<Group, CantStart> {
        let words: Vec<Vec<u8>> = words.iter().map(|word| word.as_bytes().to_vec()).collect();
        self.processes.start(&Start {
            words: &words,
            folder: &self.folder,
            environment: &self.environment,
            umask: self.umask,
            limits: &self.limits,
            output: self.output.as_raw_fd(),
            errors: self.output.as_raw_fd(),
        })
    }

    /// Waits for the end of all scripts.
    pub fn wait(&mut self) -> Vec<(Group, Exit)> {
        let mut all = Vec::new();
        until("the scripts end", || {
            self.processes.on_deadline(Instant::now());
            all.extend(self.processes.ended().unwrap());
            self.processes.count() == 0
        });
        all
    }

    /// Runs a shell that does this, to its end.
    pub fn run(&mut self, text: &str) -> Exit {
        self.shell(text);
        self.wait()[0].1
    }
}

/// Returns a program of this package's examples. A call of cargo for one test file alone doesn't
/// make it: `cargo build --examples` does.
pub fn example(name: &str) -> Command {
    let test = std::env::current_exe().unwrap();
    let folder = test.parent().and_then(Path::parent).unwrap();
    let program = folder.join("examples").join(name);
    assert!(
        program.exists(),
        "cargo build --examples makes {}",
        program.display()
    );
    Command::new(program)
}
