//! The top of a tree, and what lies in its `.redo`.

use std::collections::HashSet;

use crate::error::FileError;
use crate::links;
use crate::names;
use crate::paths;
use crate::system::{self, Kind, Status};
use crate::trust::Trust;

/// The folder that makes the one it is in the top of a tree.
pub const HOME: &[u8] = b".redo";

/// Files of `.redo`, relative to it.
pub mod places {
    /// The log of the database.
    pub const LOG: &[u8] = b"log";
    /// What the stamps of files are.
    pub const STAMPS: &[u8] = b"stamps";
    /// What `redo-stamp` was told by the latest builds.
    pub const CONTENTS: &[u8] = b"contents";
    /// The server's folder, which is the owner's alone.
    pub const SERVER: &[u8] = b"server";
    /// The socket that the server listens on.
    pub const SOCKET: &[u8] = b"server/socket";
    /// Whoever has the lock of this file is the server.
    pub const LOCK: &[u8] = b"server/lock";
    /// Whoever has the lock of this file may start a server.
    pub const STARTING: &[u8] = b"server/starting";
    /// What servers wrote to standard error.
    pub const ERRORS: &[u8] = b"server/errors";
    /// The places of the runs, which are the owner's alone.
    pub const RUN: &[u8] = b"run";
    /// What builds have put into folders.
    pub const FOLDERS: &[u8] = b"folders";
}

/// Returns the nearest folder from this one upwards that has `.redo`, absolute and resolved, or
/// None. Fails if it is somebody else's, and if there is one more above it.
pub fn find_top(folder: &[u8], trust: &Trust) -> Result<Option<Vec<u8>>, FileError> {
    let start = links::resolved(folder).map_err(|cause| FileError::system(folder, cause))?;
    let mut top: Option<Vec<u8>> = None;
    let mut here = start.as_slice();
    loop {
        if let Some(home) = home_of(here) {
            match &top {
                None => {
                    trust.check_tree(here, Some(&home))?;
                    top = Some(here.to_vec());
                }
                Some(top) => trust.check_above(top, here, &home)?,
            }
        }
        let above = paths::parent(here);
        if above == here {
            return Ok(top);
        }
        here = above;
    }
}

/// Folders of a tree that were found to have no `.redo`, by their paths from the top.
#[derive(Clone, Debug, Default)]
pub struct SeenFolders(HashSet<Vec<u8>>);

impl SeenFolders {
    /// No folder was seen.
    pub fn new() -> SeenFolders {
        SeenFolders::default()
    }

    /// Returns the name of a path as [`names::name_of`]. Fails as that, and if the path is in a
    /// tree within this one.
    pub fn name_inside(&mut self, path: &[u8], top: &[u8]) -> Result<Vec<u8>, FileError> {
        let name = names::name_of(path, top)?;
        self.check_inside(&name, top)?;
        Ok(name)
    }

    /// Fails if a folder below the top, on the way to a name, has a `.redo`, and if no path has
    /// the name. Folders that were seen aren't looked at again.
    pub fn check_inside(&mut self, name: &[u8], top: &[u8]) -> Result<(), FileError> {
        if !name.contains(&b'/') || name.starts_with(b"../") || name.starts_with(b"/") {
            return Ok(()); // at the top, outside of it, or no file
        }
        let path = names::unescape(name)?;
        let mut looked_at = Vec::new();
        let mut folder = paths::parent(&path);
        while !folder.is_empty() && !self.0.contains(folder) {
            let inner = paths::join(top, folder);
            if has_home(&inner) {
                return Err(FileError::TwoTrees {
                    inner,
                    outer: top.to_vec(),
                });
            }
            looked_at.push(folder.to_vec());
            folder = paths::parent(folder);
        }
        self.0.extend(looked_at);
        Ok(())
    }
}

/// Returns what is known of `.redo` in a folder, if that is a folder or a link.
fn home_of(folder: &[u8]) -> Option<Status> {
    let home = system::lstat(&paths::join(folder, HOME)).ok()?;
    matches!(home.kind(), Kind::Folder | Kind::Link).then_some(home)
}

/// Says whether `.redo` of a folder is a folder, or leads to one.
fn has_home(folder: &[u8]) -> bool {
    system::stat(&[folder, b"/", HOME, b"/."].concat()).is_ok()
}

/// Returns what this boot of the machine is called.
pub fn boot() -> Vec<u8> {
    match std::fs::read_to_string("/proc/sys/kernel/random/boot_id") {
        Ok(text) => text.trim().as_bytes().to_vec(),
        Err(_) => b"unknown".to_vec(),
    }
}

#[cfg(test)]
mod tests {
    use super::*;
    use crate::error::{Distrust, Obstacle};
    use crate::scratch::Scratch;

    fn found(scratch: &Scratch, path: &str) -> Result<Option<Vec<u8>>, FileError> {
        find_top(&scratch.path(path), &Trust::of_process())
    }

    #[test]
    fn the_top_is_the_nearest_folder_with_a_home() {
        let scratch = Scratch::new();
        scratch.folder("a/b/c");
        assert_eq!(found(&scratch, "a").unwrap(), None);
        scratch.folder("a/b/.redo");
        assert_eq!(found(&scratch, "a/b/c").unwrap(), Some(scratch.path("a/b")));
        assert_eq!(found(&scratch, "a/b").unwrap(), Some(scratch.path("a/b")));
        scratch.folder(".redo");
        assert_eq!(found(&scratch, "a").unwrap(), Some(scratch.top()));
        let error = found(&scratch, "a/b/c").unwrap_err();
        assert!(matches!(&error, FileError::TwoTrees { inner, outer }
            if *inner == scratch.path("a/b") && *outer == scratch.top()));
    }

    #[test]
    fn the_top_is_resolved() {
        let scratch = Scratch::new();
        scratch.folder("a/.redo");
        scratch.folder("a/b");
        scratch.link("a", "link");
        assert_eq!(found(&scratch, "link/b").unwrap(), Some(scratch.path("a")));
    }

    #[test]
    fn a_link_is_no_home_and_a_file_is_passed_over() {
        let scratch = Scratch::new();
        scratch.folder("a/b");
        scratch.folder(".redo");
        scratch.file("a/b/.redo", b"");
        assert_eq!(found(&scratch, "a/b").unwrap(), Some(scratch.top()));
        scratch.link("../.redo", "a/.redo");
        let error = found(&scratch, "a/b").unwrap_err();
        let wanted = Distrust::Misplaced {
            path: scratch.path("a/.redo"),
            obstacle: Obstacle::Link,
        };
        assert!(matches!(error, FileError::Untrusted(found) if found == wanted));
    }

    #[test]
    fn a_name_is_in_no_tree_within() {
        let scratch = Scratch::new();
        scratch.folder("a/b/.redo");
        scratch.folder("a/b/c");
        let mut seen = SeenFolders::new();
        for name in ["x", "a/x", "a/b", "../x"] {
            let found = seen
                .name_inside(&scratch.path(name), &scratch.top())
                .unwrap();
            assert_eq!(found, name.as_bytes());
        }
        assert_eq!(seen.0, HashSet::from([b"a".to_vec()]));
        for path in ["a/b/x", "a/b/c/x", "a/b/x"] {
            let error = seen
                .name_inside(&scratch.path(path), &scratch.top())
                .unwrap_err();
            assert!(matches!(error, FileError::TwoTrees { .. }), "{error}");
        }
        seen.check_inside(names::ALWAYS, &scratch.top()).unwrap();
    }
}
