//! What can be wrong with a path, a name or a file, as it is said to people.

use std::fmt;
use std::io;

use crate::names::MOST_BYTES;
use crate::paths::{join, shown};
use crate::system;
use crate::top::HOME;

/// What can be wrong with a path, a name or a file of a tree.
#[derive(Debug)]
pub enum FileError {
    /// An empty path has no name.
    EmptyPath,
    /// No file has a path with a NUL.
    NulInPath(Vec<u8>),
    /// These bytes are no name of the database.
    NoName(Vec<u8>),
    /// This name is one of redo's own.
    InternalName(Vec<u8>),
    /// No path has this name.
    NameOfNoPath(Vec<u8>),
    /// The name of a path is too long.
    NameTooLong {
        /// The path, relative to the top.
        path: Vec<u8>,
        /// So many bytes its name would have.
        bytes: usize,
    },
    /// A folder has a `.redo`, and so has one above it.
    TwoTrees {
        /// The lower folder.
        inner: Vec<u8>,
        /// The upper folder.
        outer: Vec<u8>,
    },
    /// A tree, or a file of it, may not be used.
    Untrusted(Distrust),
    /// What is in the place of a `.do` file can't be run.
    NoRule {
        /// The absolute path of the `.do` file.
        do_file: Vec<u8>,
        /// What is there.
        obstacle: Obstacle,
    },
    /// A call of the kernel failed.
    System {
        /// The path that it was about.
        path: Vec<u8>,
        /// Why it failed.
        cause: io::Error,
    },
}

/// Why a tree, or a file of it, may not be used. Paths are absolute; users are numbers of the
/// kernel.
#[derive(Clone, Debug, PartialEq, Eq)]
pub enum Distrust {
    /// All may make files in the folder that would be the top.
    SharedTop {
        /// The folder.
        top: Vec<u8>,
    },
    /// A tree belongs to somebody else.
    ForeignTree {
        /// The top or its `.redo`, which is somebody else's.
        path: Vec<u8>,
        /// The top.
        top: Vec<u8>,
        /// Whose the path is.
        owner: u32,
    },
    /// A file belongs to somebody else.
    ForeignFile {
        /// The file.
        path: Vec<u8>,
        /// Whose it is.
        owner: u32,
    },
    /// The other end of a socket is somebody else's.
    ForeignPeer {
        /// The socket.
        path: Vec<u8>,
        /// Whose the process at the other end is.
        user: u32,
    },
    /// A file of `.redo` has more than one name.
    ManyNames {
        /// The file.
        path: Vec<u8>,
        /// So many names it has.
        names: libc::nlink_t,
    },
    /// Something else is in the place of a file or a folder of `.redo`.
    Misplaced {
        /// The place.
        path: Vec<u8>,
        /// What is there.
        obstacle: Obstacle,
    },
}

/// What is where a file belongs, or a folder.
#[derive(Clone, Copy, Debug, PartialEq, Eq)]
pub enum Obstacle {
    /// A symbolic link.
    Link,
    /// A symbolic link that leads to no file.
    LinkToNothing,
    /// A folder, where a file belongs.
    Folder,
    /// A file of any kind, where a folder belongs.
    NoFolder,
    /// A FIFO, a socket or a device.
    NoRegularFile,
}

impl FileError {
    /// Returns the error that a call of the kernel on a path failed.
    pub fn system(path: &[u8], cause: io::Error) -> FileError {
        FileError::System {
            path: path.to_vec(),
            cause,
        }
    }

    /// Returns what is said of it: one line without LF, in which paths are as they are.
    pub fn text(&self) -> Vec<u8> {
        match self {
            FileError::EmptyPath => b"an empty path has no name".to_vec(),
            FileError::NulInPath(path) => line(&[b"no file has this path: ", &shown(path)]),
            FileError::NoName(name) => line(&[b"not a name: ", &shown(name)]),
            FileError::InternalName(name) => line(&[&shown(name), b" is the name of no file"]),
            FileError::NameOfNoPath(name) => line(&[b"not the name of a path: ", &shown(name)]),
            FileError::NameTooLong { path, bytes } => {
                let rest = format!(" has {bytes} bytes, over {MOST_BYTES}");
                line(&[b"the name of ", &shown(path), rest.as_bytes()])
            }
            FileError::TwoTrees { inner, outer } => about_two_trees(inner, outer),
            FileError::Untrusted(distrust) => distrust.text(),
            FileError::NoRule { do_file, obstacle } => {
                line(&[&shown(do_file), format!(" is {obstacle}").as_bytes()])
            }
            FileError::System { path, cause } => {
                line(&[&shown(path), format!(": {cause}").as_bytes()])
            }
        }
    }
}

impl fmt::Display for FileError {
    fn fmt(&self, formatter: &mut fmt::Formatter<'_>) -> fmt::Result {
        formatter.write_str(&String::from_utf8_lossy(&self.text()))
    }
}

impl std::error::Error for FileError {}

impl From<Distrust> for FileError {
    fn from(distrust: Distrust) -> FileError {
        FileError::Untrusted(distrust)
    }
}

impl Distrust {
    fn text(&self) -> Vec<u8> {
        match self {
            Distrust::SharedTop { top } => line(&[
                &shown(top),
                b" is no top of a tree, since all may write to it: mkdir .redo in a folder of",
                b" your own makes that one the top",
            ]),
            Distrust::ForeignTree { path, top, owner } => line(&[
                &belongs(path, *owner),
                b": if you trust it, set REDO_TRUST=",
                &quoted(&shown(top)),
                b"; else mkdir .redo in the top folder of your own tree",
            ]),
            Distrust::ForeignFile { path, owner } => belongs(path, *owner),
            Distrust::ForeignPeer { path, user } => line(&[
                &shown(path),
                b" is used by ",
                &described(*user),
                b", not by you",
            ]),
            Distrust::ManyNames { path, names } => {
                let rest = format!(" has {names} names: put a copy in its place");
                line(&[&shown(path), rest.as_bytes()])
            }
            Distrust::Misplaced { path, obstacle } => {
                let rest = format!(" is {obstacle}: redo makes no such thing there; remove it");
                line(&[&shown(path), rest.as_bytes()])
            }
        }
    }
}

impl fmt::Display for Obstacle {
    fn fmt(&self, formatter: &mut fmt::Formatter<'_>) -> fmt::Result {
        formatter.write_str(match self {
            Obstacle::Link => "a link",
            Obstacle::LinkToNothing => "a link that leads to no file",
            Obstacle::Folder => "a folder",
            Obstacle::NoFolder => "no folder",
            Obstacle::NoRegularFile => "no regular file",
        })
    }
}

fn line(parts: &[&[u8]]) -> Vec<u8> {
    parts.concat()
}

fn about_two_trees(inner: &[u8], outer: &[u8]) -> Vec<u8> {
    line(&[
        &shown(&join(inner, HOME)),
        b" lies in the tree of ",
        &shown(&join(outer, HOME)),
        b", and a tree has one database: remove one of the two, and the targets that it knows,",
        b" which are sources for the other",
    ])
}

fn belongs(path: &[u8], owner: u32) -> Vec<u8> {
    line(&[
        &shown(path),
        b" belongs to ",
        &described(owner),
        b", not to you",
    ])
}

fn described(user: u32) -> Vec<u8> {
    let number = format!("user {user}");
    match system::user_name(user) {
        Some(name) => line(&[number.as_bytes(), b" (", &name, b")"]),
        None => number.into_bytes(),
    }
}

/// Returns a text as a shell reads it as one word.
fn quoted(text: &[u8]) -> Vec<u8> {
    let is_safe = |byte: &u8| byte.is_ascii_alphanumeric() || b"_@%+=:,./-".contains(byte);
    if !text.is_empty() && text.iter().all(is_safe) {
        return text.to_vec();
    }
    let parts: Vec<&[u8]> = text.split(|byte| *byte == b'\'').collect();
    line(&[b"'", &parts.join(b"'\"'\"'".as_slice()), b"'"])
}

#[cfg(test)]
mod tests {
    use super::*;

    #[test]
    fn a_quoted_text_is_one_word_of_the_shell() {
        assert_eq!(quoted(b"/a/b-c"), b"/a/b-c");
        assert_eq!(quoted(b"a b"), b"'a b'");
        assert_eq!(quoted(b"a'b"), b"'a'\"'\"'b'");
        assert_eq!(quoted(b""), b"''");
    }

    #[test]
    fn a_user_is_told_by_number_and_name() {
        assert_eq!(described(0), b"user 0 (root)");
        assert_eq!(described(3_999_999_999), b"user 3999999999");
    }

    #[test]
    fn no_error_has_a_second_line() {
        let error = FileError::NoRule {
            do_file: b"/a\nb.do".to_vec(),
            obstacle: Obstacle::Folder,
        };
        assert_eq!(error.to_string(), "/a\\x0Ab.do is a folder");
    }
}
