//! The stamps of files, each read once while `lstat` says the same of it.

use std::collections::HashMap;

use crate::clock::Clock;
use crate::error::FileError;
use crate::key::{FileKey, Key};
use crate::look::{Look, Reader};
use crate::names;
use crate::private::Home;
use crate::stamp::Stamp;
use crate::stored::{self, Kept};
use crate::system::Folder;

/// What is known of a file.
#[derive(Debug)]
struct Entry {
    kept: Kept,
    /// Whether the file was found to have the key, or somebody compares it with what `lstat` says. If
    /// the entry was stored, it wasn't yet.
    is_seen: bool,
}

impl Entry {
    fn stored(kept: Kept) -> Entry {
        Entry {
            kept,
            is_seen: false,
        }
    }

    fn read(kept: Kept) -> Entry {
        Entry {
            kept,
            is_seen: true,
        }
    }
}

/// The stamps of files by their paths from a folder, the top of the tree, and the keys under which
/// they were read.
///
/// They outlast the server in a file, which may be lost: then the files are read once more. It
/// holds for one boot of the machine, since after another one a file may not have the content that
/// it had when its key was seen.
#[derive(Debug)]
pub struct Contents {
    folder: Folder,
    clock: Clock,
    boot: Vec<u8>,
    reader: Reader,
    files: HashMap<Box<[u8]>, Entry>,
    has_unseen: bool,
    has_news: bool,
    reads: u64,
}

impl Contents {
    /// `boot` is what this boot of the machine is called, as [`crate::top::boot`] returns it.
    pub fn new(folder: Folder, clock: Clock, boot: &[u8]) -> Contents {
        Contents {
            folder,
            clock,
            boot: boot.to_vec(),
            reader: Reader::new(),
            files: HashMap::new(),
            has_unseen: false,
            has_news: false,
            reads: 0,
        }
    }

    /// The folder that paths start from.
    pub fn folder(&self) -> &Folder {
        &self.folder
    }

    /// How many paths were looked at anew, since nothing was known under their keys.
    pub fn reads(&self) -> u64 {
        self.reads
    }

    /// Takes it that a look begins: what changed in the granule before it may change again.
    pub fn begin_look(&mut self) {
        self.clock.begin_look(&self.folder);
    }

    /// Returns the stamp of the file at a path, or None if there is none.
    pub fn stamp(&mut self, path: &[u8]) -> Option<Stamp> {
        self.look(path).stamp
    }

    /// Returns the stamp of the file at a path, and its key, if the stamp lasts as long as that.
    pub fn look(&mut self, path: &[u8]) -> Look {
        if let Some(key) = Key::at(&self.folder, path) {
            if let Some(stamp) = self.kept(path, &key) {
                return Look {
                    stamp: Some(stamp),
                    key: Some(key),
                };
            }
        }
        self.look_anew(path)
    }

    /// Returns the key under which a plain file is stored with a stamp, if it wasn't looked at since.
    /// From now on it counts as looked at: who asks compares the key with what `lstat` says.
    pub fn stored_key(&mut self, path: &[u8], stamp: Stamp) -> Option<FileKey> {
        let entry = self.files.get_mut(path).filter(|entry| !entry.is_seen)?;
        match &entry.kept.key {
            Key::Plain(key) if entry.kept.stamp == stamp => {
                entry.is_seen = true;
                Some(*key)
            }
            _ => None,
        }
    }

    /// Forgets what was stored of files that were not looked at since: nothing is known of them.
    pub fn drop_unseen(&mut self) {
        if self.has_unseen {
            self.files.retain(|_, entry| entry.is_seen);
            self.has_unseen = false;
        }
    }

    /// Takes what was stored in a file of `.redo`, in place of all that is known. One that can't
    /// be read, or isn't whole, has nothing.
    pub fn load(&mut self, home: &Home, file: &[u8]) {
        let text = home.read(file).unwrap_or_default();
        let stored = stored::parse(&text, &self.boot).into_iter();
        self.files = stored
            .map(|(path, kept)| (path.into(), Entry::stored(kept)))
            .collect();
        self.has_unseen = !self.files.is_empty();
    }

    /// Stores in a file of `.redo`, if there is news, what is known of these names. Fails if the
    /// file can't be written, which does no harm: the one that was there stays.
    pub fn store(
        &self,
        home: &Home,
        file: &[u8],
        is_wanted: impl Fn(&[u8]) -> bool,
    ) -> Result<(), FileError> {
        if !self.has_news {
            return Ok(());
        }
        let is_wanted = |path: &[u8]| names::escape(path).map_or(false, |name| is_wanted(&name));
        let known = self
            .files
            .iter()
            .map(|(path, entry)| (&**path, &entry.kept));
        let mut entries: Vec<(&[u8], &Kept)> = known.filter(|(path, _)| is_wanted(path)).collect();
        entries.sort_unstable_by_key(|(path, _)| *path);
        home.replace(file, &stored::text(&self.boot, entries.into_iter()))
    }

    fn look_anew(&mut self, path: &[u8]) -> Look {
        self.reads += 1;
        let found = self.reader.look_at(&self.folder, path);
        match (found.stamp, found.key) {
            (Some(stamp), Some(key)) if self.clock.is_over(&key) => {
                self.has_news = true;
                let kept = Kept {
                    key: key.clone(),
                    stamp,
                };
                self.files.insert(path.into(), Entry::read(kept));
                Look {
                    stamp: Some(stamp),
                    key: Some(key),
                }
            }
            (stamp, _) => {
                self.files.remove(path);
                Look { stamp, key: None }
            }
        }
    }

    /// Returns the stamp that is known of a path under this key.
    fn kept(&mut self, path: &[u8], key: &Key) -> Option<Stamp> {
        let entry = self
            .files
            .get_mut(path)
            .filter(|entry| entry.kept.key == *key)?;
        entry.is_seen = true;
        Some(entry.kept.stamp)
    }
}

#[cfg(test)]
mod tests {
    use super::*;
    use crate::scratch::Scratch;
    use crate::trust::Trust;
    use std::fs::{self, set_permissions, Permissions};
    use std::os::unix::fs::PermissionsExt;
    use std::time::Duration;

    const BOOT: &[u8] = b"this-boot";

    /// A tree with the files `file` and `a b`, and a link to the first.
    struct World {
        scratch: Scratch,
        home: Home,
        contents: Contents,
    }

    impl World {
        fn new() -> World {
            let scratch = Scratch::new();
            let home = Home::new(&scratch.top(), &Trust::of_process());
            home.make().unwrap();
            scratch.file(".redo/server/lock", b"");
            scratch.file("file", b"1");
            scratch.file("a b", b"2");
            scratch.link("file", "to_file");
            let contents = World::contents(&scratch, BOOT);
            World {
                scratch,
                home,
                contents,
            }
        }

        fn contents(scratch: &Scratch, boot: &[u8]) -> Contents {
            let folder = Folder::open(&scratch.top()).unwrap();
            Contents::new(folder, Clock::new(b".redo/server/lock"), boot)
        }

        /// Has the next look be in a later granule than what was written.
        fn let_time_pass(&mut self) {
            std::thread::sleep(Duration::from_millis(30));
            self.contents.begin_look();
        }

        /// How many of the files are read if all are looked at.
        fn reads(&mut self) -> u64 {
            let before = self.contents.reads();
            for path in [b"file".as_slice(), b"a b", b"to_file"] {
                let wanted = Reader::new().look_at(self.contents.folder(), path).stamp;
                assert!(wanted.is_some());
                assert_eq!(self.contents.stamp(path), wanted);
            }
            self.contents.reads() - before
        }

        /// Takes what was stored, in the place of all that is known.
        fn load(&mut self, boot: &[u8]) {
            self.contents = World::contents(&self.scratch, boot);
            self.contents.load(&self.home, b"stamps");
            self.let_time_pass();
        }

        fn store(&self, names: &[&[u8]]) {
            let is_wanted = |name: &[u8]| names.contains(&name);
            self.contents
                .store(&self.home, b"stamps", is_wanted)
                .unwrap();
        }
    }

    #[test]
    fn a_file_is_read_once_while_its_key_stays() {
        let mut world = World::new();
        world.let_time_pass();
        assert_eq!([world.reads(), world.reads()], [3, 0]);
        world.scratch.file("a b", b"3");
        world.let_time_pass();
        assert_eq!([world.reads(), world.reads()], [1, 0]);
        set_permissions(world.scratch.at("file"), Permissions::from_mode(0o600)).unwrap();
        world.let_time_pass();
        assert_eq!([world.reads(), world.reads()], [2, 0]);
        fs::remove_file(world.scratch.at("a b")).unwrap();
        assert_eq!(world.contents.stamp(b"a b"), None);
    }

    #[test]
    fn what_changed_in_the_granule_of_the_look_is_read_again() {
        let mut world = World::new();
        world.let_time_pass();
        world.scratch.file("file", b"3");
        assert_eq!([world.reads(), world.reads()], [3, 2]);
        assert_eq!(world.contents.look(b"file").key, None);
    }

    #[test]
    fn what_is_stored_is_not_read_again() {
        let mut world = World::new();
        world.let_time_pass();
        world.reads();
        world.store(&[b"file", b"a%20b", b"to_file"]);
        world.load(BOOT);
        assert_eq!(world.reads(), 0);
        world.scratch.file("a b", b"3");
        world.load(BOOT);
        assert_eq!(world.reads(), 1);
        world.load(b"another-boot");
        assert_eq!(world.reads(), 3);
    }

    #[test]
    fn only_names_that_are_wanted_are_stored() {
        let mut world = World::new();
        world.let_time_pass();
        world.reads();
        world.store(&[b"file"]);
        world.load(BOOT);
        assert_eq!(world.reads(), 2);
        world.store(&[b"file", b"a%20b"]);
        world.load(BOOT);
        assert_eq!(world.reads(), 1);
    }

    #[test]
    fn what_was_not_seen_can_be_forgotten() {
        let mut world = World::new();
        world.let_time_pass();
        world.reads();
        world.store(&[b"file", b"a%20b", b"to_file"]);
        world.load(BOOT);
        world.contents.stamp(b"file");
        world.contents.drop_unseen();
        assert_eq!(world.reads(), 2);
    }

    #[test]
    fn without_news_nothing_is_stored() {
        let mut world = World::new();
        world.let_time_pass();
        world.reads();
        world.store(&[b"file", b"a%20b", b"to_file"]);
        world.load(BOOT);
        world.reads();
        world.store(&[]);
        world.load(BOOT);
        assert_eq!(world.reads(), 0);
    }
}
