//! What tests need: a folder that is removed after a test, and a place for what is shown.

use std::cell::RefCell;
use std::fs;
use std::io::{self, Write};
use std::os::unix::ffi::OsStrExt;
use std::os::unix::fs::symlink;
use std::path::{Path, PathBuf};
use std::rc::Rc;
use std::sync::atomic::{AtomicU32, Ordering};

static COUNT: AtomicU32 = AtomicU32::new(0);

pub struct Scratch(PathBuf);

impl Scratch {
    pub fn new() -> Scratch {
        let number = COUNT.fetch_add(1, Ordering::Relaxed);
        let name = format!("redo-scripts-{}-{number}", std::process::id());
        let folder = std::env::temp_dir().canonicalize().unwrap().join(name);
        fs::create_dir(&folder).unwrap();
        Scratch(folder)
    }

    /// The folder itself.
    pub fn top(&self) -> Vec<u8> {
        self.0.as_os_str().as_bytes().to_vec()
    }

    pub fn at(&self, path: &str) -> PathBuf {
        self.0.join(path)
    }

    /// A path in the folder, as bytes.
    pub fn path(&self, path: &str) -> Vec<u8> {
        self.at(path).as_os_str().as_bytes().to_vec()
    }

    pub fn folder(&self, path: &str) {
        fs::create_dir_all(self.at(path)).unwrap();
    }

    pub fn file(&self, path: impl AsRef<Path>, content: &[u8]) {
        fs::write(self.0.join(path), content).unwrap();
    }

    /// Makes a symbolic link with a text at a path.
    pub fn link(&self, text: &str, path: &str) {
        symlink(text, self.at(path)).unwrap();
    }
}

impl Drop for Scratch {
    fn drop(&mut self) {
        fs::remove_dir_all(&self.0).unwrap();
    }
}

/// What was written to it.
#[derive(Clone, Default)]
pub struct Shown(Rc<RefCell<Vec<u8>>>);

impl Shown {
    pub fn text(&self) -> String {
        String::from_utf8_lossy(&self.0.borrow()).into_owned()
    }
}

impl Write for Shown {
    fn write(&mut self, text: &[u8]) -> io::Result<usize> {
        self.0.borrow_mut().extend_from_slice(text);
        Ok(text.len())
    }

    fn flush(&mut self) -> io::Result<()> {
        Ok(())
    }
}
