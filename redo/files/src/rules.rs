//! The `.do` file of a target: where it is looked for, and which arguments its script gets.

use crate::error::{FileError, Obstacle};
use crate::paths;
use crate::system::{self, Kind, Status};
use crate::trust::Trust;

/// A `.do` file that would build a target. The paths are absolute.
#[derive(Clone, Debug, PartialEq, Eq)]
pub struct Rule {
    /// The `.do` file.
    pub do_file: Vec<u8>,
    /// The folder of the `.do` file, in which its script runs.
    pub folder: Vec<u8>,
    /// `$1`: the target, from that folder.
    pub first: Vec<u8>,
    /// `$2`: the target without the extension of `default.EXT.do`.
    pub second: Vec<u8>,
}

/// What was found.
#[derive(Clone, Debug, PartialEq, Eq)]
pub struct Search {
    /// The rule, if there is one.
    pub rule: Option<Rule>,
    /// The absolute paths of the `.do` files that would have won and aren't there, in their order.
    pub missing: Vec<Vec<u8>>,
}

/// Returns the rule of an absolute path in the tree of this top. Fails if what is in the place of a
/// `.do` file can't be run, or is somebody else's.
pub fn search(target: &[u8], top: &[u8], trust: &Trust) -> Result<Search, FileError> {
    let mut missing = Vec::new();
    for rule in candidates(target, top) {
        if is_there(&rule.do_file, top, trust)? {
            return Ok(Search {
                rule: Some(rule),
                missing,
            });
        }
        missing.push(rule.do_file);
    }
    Ok(Search {
        rule: None,
        missing,
    })
}

/// Says whether there is this `.do` file. Fails as [`search`].
pub fn is_there(do_file: &[u8], top: &[u8], trust: &Trust) -> Result<bool, FileError> {
    let itself = match system::lstat(do_file) {
        Ok(status) => status,
        Err(_) => return Ok(false),
    };
    trust.check_owner(do_file, itself.owner, top)?;
    let end = match itself.kind() {
        Kind::Link => end_of(do_file, top, trust)?,
        _ => itself,
    };
    match end.kind() {
        Kind::Regular => Ok(true),
        Kind::Folder => Err(no_rule(do_file, Obstacle::Folder)),
        _ => Err(no_rule(do_file, Obstacle::NoRegularFile)),
    }
}

/// Returns the rules of an absolute path in the order in which they win, up to those of the top.
///
/// `T.do` is looked for in the folder of T alone; then default files, with the longest extension
/// first, in that folder and in each one above it. Outside of the tree there are none.
pub fn candidates(target: &[u8], top: &[u8]) -> Candidates {
    let (folder, name) = paths::split(target);
    let is_inside = folder == top || paths::is_below(folder, top);
    Candidates {
        top: top.to_vec(),
        name: name.to_vec(),
        folder: folder.to_vec(),
        below: Vec::new(),
        next: if is_inside {
            Next::OwnFile
        } else {
            Next::Nothing
        },
    }
}

/// The rules of a target, one after the other.
#[derive(Clone, Debug)]
pub struct Candidates {
    top: Vec<u8>,
    name: Vec<u8>,
    folder: Vec<u8>,
    /// The way from the folder to that of the target.
    below: Vec<u8>,
    next: Next,
}

/// Which rule is the next.
#[derive(Clone, Copy, Debug)]
enum Next {
    /// `T.do`.
    OwnFile,
    /// The default file of the extension that begins here in the target's name.
    Default {
        extension: usize,
    },
    Nothing,
}

impl Iterator for Candidates {
    type Item = Rule;

    fn next(&mut self) -> Option<Rule> {
        match self.next {
            Next::Nothing => None,
            Next::OwnFile => {
                self.next = Next::Default {
                    extension: self.extension_behind(0),
                };
                Some(self.rule(&self.name, &self.name))
            }
            Next::Default { extension } => {
                let (stem, ending) = self.name.split_at(extension);
                let ending = if ending == b"." { b"" } else { ending };
                let rule = self.rule(&[b"default", ending].concat(), stem);
                self.advance(extension);
                Some(rule)
            }
        }
    }
}

impl Candidates {
    /// Returns the rule of a `.do` file of the folder, for a target whose name has this stem.
    fn rule(&self, name_before_do: &[u8], stem: &[u8]) -> Rule {
        let do_file = [name_before_do, b".do"].concat();
        Rule {
            do_file: paths::join(&self.folder, &do_file),
            folder: self.folder.clone(),
            first: paths::join(&self.below, &self.name),
            second: paths::join(&self.below, stem),
        }
    }

    /// Goes on behind the rule of an extension, to the folder above if that is the empty one.
    fn advance(&mut self, extension: usize) {
        if extension < self.name.len() {
            self.next = Next::Default {
                extension: self.extension_behind(extension + 1),
            };
        } else if self.folder == self.top {
            self.next = Next::Nothing;
        } else {
            self.go_up();
        }
    }

    fn go_up(&mut self) {
        let (above, last) = paths::split(&self.folder);
        if above == self.folder {
            self.next = Next::Nothing;
            return;
        }
        self.below = if self.below.is_empty() {
            last.to_vec()
        } else {
            paths::join(last, &self.below)
        };
        self.folder = above.to_vec();
        self.next = Next::Default {
            extension: self.extension_behind(0),
        };
    }

    /// Returns where the next extension begins, from a place in the name on: at its end if none
    /// does. That of a dot with nothing behind it is empty.
    fn extension_behind(&self, from: usize) -> usize {
        let rest = &self.name[from..];
        rest.iter()
            .position(|byte| *byte == b'.')
            .map_or(self.name.len(), |at| from + at)
    }
}

/// Returns what a link in the place of a `.do` file leads to.
fn end_of(do_file: &[u8], top: &[u8], trust: &Trust) -> Result<Status, FileError> {
    let end = system::stat(do_file).map_err(|_| no_rule(do_file, Obstacle::LinkToNothing))?;
    trust.check_owner(do_file, end.owner, top)?;
    Ok(end)
}

fn no_rule(do_file: &[u8], obstacle: Obstacle) -> FileError {
    FileError::NoRule {
        do_file: do_file.to_vec(),
        obstacle,
    }
}

#[cfg(test)]
mod tests {
    use super::*;
    use crate::scratch::Scratch;

    fn texts(paths: impl IntoIterator<Item = Vec<u8>>) -> Vec<String> {
        paths
            .into_iter()
            .map(|path| String::from_utf8(path).unwrap())
            .collect()
    }

    fn do_files(target: &str, top: &str) -> Vec<String> {
        let found = candidates(target.as_bytes(), top.as_bytes());
        texts(found.map(|rule| rule.do_file))
    }

    fn second(target: &str, do_file: &str) -> String {
        let mut found = candidates(target.as_bytes(), b"/");
        let rule = found
            .find(|rule| rule.do_file == do_file.as_bytes())
            .unwrap();
        String::from_utf8(rule.second).unwrap()
    }

    #[test]
    fn candidates_are_in_the_order_of_the_manual_page() {
        let wanted = [
            "/a/b/c.x.y.do",
            "/a/b/default.x.y.do",
            "/a/b/default.y.do",
            "/a/b/default.do",
            "/a/default.x.y.do",
            "/a/default.y.do",
            "/a/default.do",
            "/default.x.y.do",
            "/default.y.do",
            "/default.do",
        ];
        assert_eq!(do_files("/a/b/c.x.y", "/"), wanted);
    }

    #[test]
    fn candidates_end_at_the_top() {
        assert_eq!(
            do_files("/a/b/c", "/a"),
            ["/a/b/c.do", "/a/b/default.do", "/a/default.do"]
        );
        for outside in ["/a/b", "/ab/c", "/c", "/a"] {
            assert!(do_files(outside, "/a/b").is_empty(), "{outside}");
        }
        assert_eq!(do_files("/a/b/c", "/a/").len(), 4);
    }

    #[test]
    fn the_script_gets_the_target_and_its_stem_from_its_folder() {
        let rule = candidates(b"/a/b/c.x.y", b"/").nth(5).unwrap();
        assert_eq!(
            texts([rule.do_file, rule.folder]),
            ["/a/default.y.do", "/a"]
        );
        assert_eq!(texts([rule.first, rule.second]), ["b/c.x.y", "b/c.x"]);
        assert_eq!(second("/a/b/c.x.y", "/a/b/c.x.y.do"), "c.x.y");
        assert_eq!(second("/a/b/c.x.y", "/a/b/default.x.y.do"), "c");
        assert_eq!(second("/a/b/c.x.y", "/default.do"), "a/b/c.x.y");
        assert_eq!(second("/a/.profile", "/default.profile.do"), "a/");
        assert_eq!(second("/a/b.", "/a/default.do"), "b");
    }

    #[test]
    fn the_first_is_found_and_those_before_it_are_told() {
        let scratch = Scratch::new();
        scratch.folder("d");
        scratch.file("default.o.do", b"");
        let found = search(&scratch.path("d/x.o"), &scratch.top(), &Trust::of_process()).unwrap();
        let rule = found.rule.unwrap();
        assert_eq!(rule.do_file, scratch.path("default.o.do"));
        assert_eq!(texts([rule.first, rule.second]), ["d/x.o", "d/x"]);
        let missing = ["d/x.o.do", "d/default.o.do", "d/default.do"];
        assert_eq!(found.missing, missing.map(|path| scratch.path(path)));
    }

    #[test]
    fn what_is_no_file_is_no_rule() {
        let scratch = Scratch::new();
        scratch.folder("d/x.do");
        scratch.link("nothing", "d/y.do");
        scratch.link("/dev/null", "d/z.do");
        scratch.file("default.do", b"");
        for (name, wanted) in [
            ("x", Obstacle::Folder),
            ("y", Obstacle::LinkToNothing),
            ("z", Obstacle::NoRegularFile),
        ] {
            let target = scratch.path(&format!("d/{name}"));
            let error = search(&target, &scratch.top(), &Trust::of_process()).unwrap_err();
            assert!(matches!(error, FileError::NoRule { obstacle, .. } if obstacle == wanted));
        }
        scratch.file("d/nothing", b"");
        let found = search(&scratch.path("d/y"), &scratch.top(), &Trust::of_process()).unwrap();
        assert!(found.rule.is_some());
    }
}
