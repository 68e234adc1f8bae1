//! A tree for a test, which is removed after it.

use std::fs;
use std::os::unix::ffi::OsStrExt;
use std::path::PathBuf;
use std::process;
use std::sync::atomic::{AtomicU32, Ordering};

use redo_files::clock::Clock;
use redo_files::contents::Contents;
use redo_files::private::Home;
use redo_files::system::Folder;
use redo_files::trust::Trust;

use crate::conversation::Told;
use crate::known::Known;

/// The stamps of plain files that hold one digit: what `b2sum -l 224` of coreutils prints for
/// `file 0`, NUL and the digit.
pub const ONE: &str = "b2-3cabe295976694875c779c6c139e4d85d33540e6a0025283ffa6a3ca";
pub const TWO: &str = "b2-29732617a53822d1a9f1902ac6e6c3f4897e8a3371258bd8d5c35304";

static COUNT: AtomicU32 = AtomicU32::new(0);

/// A folder with a `.redo` that has a server's folder.
pub struct Tree {
    pub home: Home,
    folder: PathBuf,
}

impl Tree {
    pub fn new() -> Tree {
        let number = COUNT.fetch_add(1, Ordering::Relaxed);
        let name = format!("redo-server-{}-{number}", process::id());
        let folder = std::env::temp_dir().canonicalize().unwrap().join(name);
        fs::create_dir(&folder).unwrap();
        let home = Home::new(folder.as_os_str().as_bytes(), &Trust::of_process());
        home.make().unwrap();
        fs::create_dir(folder.join(".redo/logs")).unwrap();
        Tree { home, folder }
    }

    pub fn at(&self, path: &str) -> PathBuf {
        self.folder.join(path)
    }

    pub fn write(&self, path: &str, content: &str) {
        fs::write(self.at(path), content).unwrap();
    }

    pub fn remove(&self, path: &str) {
        fs::remove_file(self.at(path)).unwrap();
    }

    /// What is known after these lines, all of session 1.
    pub fn known(&self, lines: &[&str]) -> Known {
        let mut known = self.nothing_known();
        for line in lines {
            known.learn(&Told::parse(format!("1 {line}").as_bytes()));
        }
        known
    }

    /// What is known before the first line.
    pub fn nothing_known(&self) -> Known {
        let folder = Folder::open(self.home.top()).unwrap();
        Known::new(Contents::new(folder, Clock::new(b".redo/log"), b"boot"))
    }
}

impl Drop for Tree {
    fn drop(&mut self) {
        fs::remove_dir_all(&self.folder).unwrap();
    }
}

/// The commands of a list as texts.
pub fn texts(commands: &[Vec<u8>]) -> Vec<String> {
    commands
        .iter()
        .map(|command| String::from_utf8(command.clone()).unwrap())
        .collect()
}

/// The lines of a log by which a target was built, with this stamp.
pub fn built(target: &str, stamp: &str) -> [String; 3] {
    [
        format!("lock {target} => granted 1"),
        format!("start {target} => ok"),
        format!("done {target} {stamp} => ok"),
    ]
}
