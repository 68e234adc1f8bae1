//! What files are to look like, kept so that a look at very many takes little time.

use std::borrow::Cow;
use std::collections::BTreeMap;

use crate::contents::Contents;
use crate::key::{FileKey, Key};
use crate::names;
use crate::shares;
use crate::stamp::Stamp;
use crate::system::Folder;

/// What is to be at a path.
#[derive(Clone, Copy, Debug, PartialEq, Eq)]
enum Expectation {
    Nothing,
    /// A plain file, which was found to have the stamp that it is to have, under this key.
    Plain(FileKey),
    /// What has this stamp, and was not found to be a plain file of that stamp.
    Stamp(Stamp),
    /// What has a stamp that no look gives.
    Other,
}

/// The paths of names, with what is to be there.
///
/// A look is one `lstat` for each path. The key of a file is kept while its stamp is the one that
/// is expected, which it was found to have.
#[derive(Debug, Default)]
pub struct Expected {
    paths: BTreeMap<Box<[u8]>, Expectation>,
}

impl Expected {
    /// Expects nothing of any name.
    pub fn new() -> Expected {
        Expected::default()
    }

    /// Expects the file of a name to have this stamp, as the database has it, or none to be there.
    /// Names that no path has are passed over.
    pub fn put(&mut self, name: &[u8], stamp: Option<&[u8]>) {
        let expectation = match stamp {
            None => Expectation::Nothing,
            Some(stamp) => Stamp::parse(stamp).map_or(Expectation::Other, Expectation::Stamp),
        };
        if let Some(path) = path_of(name) {
            self.paths.insert(path.into(), expectation);
        }
    }

    /// Expects nothing of a name any more, so that no look is at it.
    pub fn drop(&mut self, name: &[u8]) {
        if let Some(path) = path_of(name) {
            self.paths.remove(path.as_slice());
        }
    }

    /// Returns the names whose files aren't as expected, or may not be. They are returned again by
    /// the next look, unless something else is put. Has what was stored of other files forgotten.
    pub fn suspects(&mut self, contents: &mut Contents) -> Vec<Vec<u8>> {
        let (mut known, mut suspects) = (Vec::new(), Vec::new());
        for (path, expectation) in &mut self.paths {
            expectation.take_stored(path, contents);
            if expectation.is_known() {
                known.push((path, &*expectation));
            } else if !expectation.is_met_now(path, contents) {
                suspects.push(path);
            }
        }
        contents.drop_unseen();
        let folder = contents.folder();
        let changed = shares::filtered(&known, |(path, expectation)| {
            !expectation.is_met(path, folder)
        });
        suspects.extend(changed.into_iter().map(|(path, _)| path));
        suspects
            .into_iter()
            .filter_map(|path| names::escape(path).ok())
            .map(Cow::into_owned)
            .collect()
    }
}

impl Expectation {
    /// Says whether `lstat` tells whether what is expected is there.
    fn is_known(&self) -> bool {
        matches!(self, Expectation::Nothing | Expectation::Plain(_))
    }

    /// Expects the key under which the file is stored with the stamp that is expected.
    fn take_stored(&mut self, path: &[u8], contents: &mut Contents) {
        if let Expectation::Stamp(stamp) = self {
            if let Some(key) = contents.stored_key(path, *stamp) {
                *self = Expectation::Plain(key);
            }
        }
    }

    /// Says whether what is at a path is what was found there before.
    fn is_met(&self, path: &[u8], folder: &Folder) -> bool {
        match (self, folder.lstat(path)) {
            (Expectation::Nothing, found) => found.is_err(),
            (Expectation::Plain(key), Ok(found)) => FileKey::from(&found) == *key,
            _ => false,
        }
    }

    /// Says whether what is at a path has the stamp that is expected. Of a plain file that has it,
    /// the key is expected from now on.
    fn is_met_now(&mut self, path: &[u8], contents: &mut Contents) -> bool {
        let look = contents.look(path);
        if !matches!(self, Expectation::Stamp(stamp) if look.stamp == Some(*stamp)) {
            return false;
        }
        if let Some(Key::Plain(key)) = look.key {
            *self = Expectation::Plain(key);
        }
        true
    }
}

/// Returns the path of a name, if a path has it.
fn path_of(name: &[u8]) -> Option<Vec<u8>> {
    if names::is_internal(name) {
        return None;
    }
    names::unescape(name).ok().map(Cow::into_owned)
}

#[cfg(test)]
mod tests {
    use super::*;
    use crate::clock::Clock;
    use crate::private::Home;
    use crate::scratch::Scratch;
    use crate::trust::Trust;
    use std::time::Duration;

    /// The digest of `file 0`, NUL and `1`, which `b2sum -l 224` of coreutils prints.
    const STAMP_OF_ONE: &[u8] = b"b2-3cabe295976694875c779c6c139e4d85d33540e6a0025283ffa6a3ca";

    struct World {
        scratch: Scratch,
        contents: Contents,
        expected: Expected,
    }

    impl World {
        /// A folder in which looks are later than what was written.
        fn new() -> World {
            let scratch = Scratch::new();
            scratch.file("probe", b"");
            scratch.file("one", b"1");
            scratch.file("a b", b"1");
            let folder = Folder::open(&scratch.top()).unwrap();
            let contents = Contents::new(folder, Clock::new(b"probe"), b"boot");
            let mut world = World {
                scratch,
                contents,
                expected: Expected::new(),
            };
            world.expected.put(b"one", Some(STAMP_OF_ONE));
            world.expected.put(b"a%20b", Some(STAMP_OF_ONE));
            world.expected.put(b"none", None);
            world
        }

        fn suspects(&mut self) -> Vec<String> {
            std::thread::sleep(Duration::from_millis(30));
            self.contents.begin_look();
            let found = self.expected.suspects(&mut self.contents);
            let mut names: Vec<String> = found
                .into_iter()
                .map(|name| String::from_utf8(name).unwrap())
                .collect();
            names.sort_unstable();
            names
        }
    }

    #[test]
    fn what_is_as_expected_is_read_once() {
        let mut world = World::new();
        assert!(world.suspects().is_empty());
        assert!(world.suspects().is_empty());
        assert_eq!(world.contents.reads(), 2);
    }

    #[test]
    fn what_is_stored_is_not_read_again_and_suspect_if_it_has_another_key() {
        let mut world = World::new();
        assert!(world.suspects().is_empty());
        let home = Home::new(&world.scratch.top(), &Trust::of_process());
        home.make().unwrap();
        world.contents.store(&home, b"stamps", |_| true).unwrap();
        let folder = Folder::open(&world.scratch.top()).unwrap();
        world.contents = Contents::new(folder, Clock::new(b"probe"), b"boot");
        world.contents.load(&home, b"stamps");
        world.expected = Expected::new();
        world.expected.put(b"one", Some(STAMP_OF_ONE));
        world.expected.put(b"a%20b", Some(STAMP_OF_ONE));
        world.scratch.file("a b", b"2");
        assert_eq!(world.suspects(), ["a%20b"]);
        assert_eq!(world.contents.reads(), 0);
    }

    #[test]
    fn what_changed_is_suspect() {
        let mut world = World::new();
        assert!(world.suspects().is_empty());
        world.scratch.file("one", b"2");
        world.scratch.file("none", b"");
        std::fs::remove_file(world.scratch.at("a b")).unwrap();
        assert_eq!(world.suspects(), ["a%20b", "none", "one"]);
        assert_eq!(world.suspects(), ["a%20b", "none", "one"]);
    }

    #[test]
    fn what_has_another_stamp_from_the_first_on_is_suspect() {
        let mut world = World::new();
        world.expected.put(b"one", Some(b"10"));
        world.expected.put(b"none", Some(b"folder"));
        world.expected.put(b"//always", Some(b"10"));
        world.expected.put(b"%00", Some(b"10"));
        assert_eq!(world.suspects(), ["none", "one"]);
        world.expected.drop(b"one");
        world.expected.put(b"none", None);
        assert!(world.suspects().is_empty());
    }

    #[test]
    fn folders_and_links_have_stamps_too() {
        let mut world = World::new();
        world.scratch.folder("folder");
        world.scratch.link("nowhere", "none");
        world.expected.put(b"folder", Some(b"folder"));
        assert_eq!(world.suspects(), ["none"]);
        world.scratch.folder("folder/inner");
        assert_eq!(world.suspects(), ["none"]);
    }

    #[test]
    fn of_very_many_the_changed_ones_are_found() {
        let mut world = World::new();
        for number in 0..10_000 {
            world
                .expected
                .put(format!("many/{number}").as_bytes(), None);
        }
        assert!(world.suspects().is_empty());
        world.scratch.folder("many");
        for number in [0, 4_999, 9_999] {
            world.scratch.file(format!("many/{number}"), b"");
        }
        assert_eq!(world.suspects(), ["many/0", "many/4999", "many/9999"]);
    }
}
