//! A look at a file: its stamp says what is in it, so a copy has the stamp of its original, and no
//! time counts.

use std::fs::File;
use std::io::{self, ErrorKind, Read};
use std::os::raw::c_int;

use libc::{O_NOCTTY, O_NOFOLLOW, O_NONBLOCK, O_RDONLY};

use crate::key::{FileKey, Key, Time};
use crate::stamp::{Digesting, Stamp};
use crate::system::{self, Folder, Kind, Status};

const EXECUTION: u32 = 0o111;
const BLOCK: usize = 1 << 18;

/// What was found at a path.
#[derive(Clone, Debug, PartialEq, Eq)]
pub struct Look {
    /// The stamp, or None if no file can be seen there.
    pub stamp: Option<Stamp>,
    /// The key under which it was read. There is none if the file was changed meanwhile, and for
    /// what isn't read.
    pub key: Option<Key>,
}

impl Look {
    const NOTHING: Look = Look {
        stamp: None,
        key: None,
    };

    fn unread(stamp: Stamp) -> Look {
        Look {
            stamp: Some(stamp),
            key: None,
        }
    }
}

/// Reads files, one after the other.
#[derive(Debug)]
pub struct Reader {
    block: Vec<u8>,
}

impl Reader {
    /// Has room for 256 KiB, which all reads use.
    pub fn new() -> Reader {
        Reader {
            block: vec![0; BLOCK],
        }
    }

    /// Returns what is at a path of a folder.
    ///
    /// The stamp of a plain file is the digest of the line `file BITS`, NUL and its bytes; BITS are
    /// the bits of execution of its mode, in octal. That of a symbolic link is a digest of its text
    /// and of the stamp of what it leads to. A file that can't be read has a digest of its size,
    /// times and inode.
    pub fn look_at(&mut self, folder: &Folder, path: &[u8]) -> Look {
        match folder.lstat(path) {
            Err(_) => Look::NOTHING,
            Ok(status) if status.kind() == Kind::Link => self.look_at_link(folder, path, &status),
            Ok(status) => self.look_at_file(folder, path, &status, O_NOFOLLOW),
        }
    }

    fn look_at_link(&mut self, folder: &Folder, path: &[u8], link: &Status) -> Look {
        let text = match folder.read_link(path) {
            Ok(text) => text,
            Err(_) => return Look::NOTHING,
        };
        let end = match folder.stat(path) {
            Ok(end) => self.look_at_file(folder, path, &end, 0),
            Err(_) => Look::NOTHING, // it leads nowhere that can be seen
        };
        let stamp = end.stamp.map(|stamp| stamp.to_string()).unwrap_or_default();
        let told = [b"link\0", text.as_slice(), b"\0", stamp.as_bytes()].concat();
        let key = match end.key {
            Some(Key::Plain(end)) => Some(Key::of_link(FileKey::from(link), end)),
            _ => None,
        };
        Look {
            stamp: Some(Stamp::of(&told)),
            key,
        }
    }

    /// Returns what is at a path, which has this status, and is no link.
    fn look_at_file(
        &mut self,
        folder: &Folder,
        path: &[u8],
        status: &Status,
        flags: c_int,
    ) -> Look {
        match status.kind() {
            Kind::Folder => return Look::unread(Stamp::Folder),
            Kind::Regular => {}
            _ => return Look::unread(stamp_of_other(status)),
        }
        let flags = O_RDONLY | O_NONBLOCK | O_NOCTTY | flags;
        match folder.open_file(path, flags, 0) {
            Ok(file) => self
                .read(file)
                .unwrap_or_else(|_| Look::unread(stamp_of_unread(status))),
            Err(cause) if cause.kind() == ErrorKind::NotFound => Look::NOTHING,
            Err(_) => Look::unread(stamp_of_unread(status)),
        }
    }

    /// Reads an open plain file. Of one that grows meanwhile little more is read than it had, for
    /// there may be no end of it.
    fn read(&mut self, mut file: File) -> io::Result<Look> {
        let before = system::status_of(&file)?;
        let mut content = Digesting::new();
        content.update(format!("file {:o}\0", before.mode & EXECUTION).as_bytes());
        let mut rest = before.size.saturating_add(BLOCK as i64);
        while rest > 0 {
            let count = read_some(&mut file, &mut self.block)?;
            if count == 0 {
                break;
            }
            content.update(&self.block[..count]);
            rest -= count as i64;
        }
        let key = FileKey::from(&before);
        let is_same = FileKey::from(&system::status_of(&file)?) == key;
        Ok(Look {
            stamp: Some(content.stamp()),
            key: is_same.then_some(Key::Plain(key)),
        })
    }
}

impl Default for Reader {
    fn default() -> Reader {
        Reader::new()
    }
}

/// Reads what is there, again if a signal came.
fn read_some(file: &mut File, block: &mut [u8]) -> io::Result<usize> {
    loop {
        match file.read(block) {
            Err(cause) if cause.kind() == ErrorKind::Interrupted => {}
            other => return other,
        }
    }
}

fn stamp_of_other(status: &Status) -> Stamp {
    let kind = status.mode & libc::S_IFMT;
    Stamp::of(format!("other {kind:o} {}\0", status.is_device).as_bytes())
}

fn stamp_of_unread(status: &Status) -> Stamp {
    let Status {
        size,
        modified,
        changed,
        inode,
        ..
    } = status;
    Stamp::of(format!("unread {size} {modified} {changed} {inode}\0").as_bytes())
}

/// Returns when a file last changed, or what a link leads to, if that changed later. Of what can't
/// be seen there is no time.
pub fn last_change(folder: &Folder, path: &[u8]) -> Option<Time> {
    let itself = folder.lstat(path).ok()?.changed;
    Some(
        folder
            .stat(path)
            .map_or(itself, |end| end.changed.max(itself)),
    )
}

#[cfg(test)]
mod tests {
    use super::*;
    use crate::scratch::Scratch;
    use std::fs::{set_permissions, Permissions};
    use std::io::{Seek, SeekFrom, Write};
    use std::os::unix::fs::PermissionsExt;
    use std::sync::atomic::{AtomicBool, Ordering};
    use std::thread;

    /// What `b2sum -l 224` of coreutils prints of `file 0`, NUL and `1`.
    const ONE: &str = "3cabe295976694875c779c6c139e4d85d33540e6a0025283ffa6a3ca";
    /// The same of `file 111`, NUL and `1`.
    const ONE_TO_RUN: &str = "95b025e20c221fd3005e124046543ff6376bc55927643d7d31a8c369";
    /// The same of `file 0`, NUL and 600,000 times `x`.
    const LARGE: &str = "feaa7f350d7e00af97438a587ca42f990681b6f0fe3693245de67575";
    /// The same of `link`, NUL, `file`, NUL, and the stamp of that file, which is `ONE`'s.
    const LINK_TO_ONE: &str = "e859b56d88c22c62b65b501ca7023ba51518b7250505776fd07041a7";
    /// The same of `link`, NUL, `folder`, NUL, and `folder`.
    const LINK_TO_FOLDER: &str = "9007861fad66a0cd04cc3a869fe9ac8e173afaf1f858434d5b4ca194";
    /// The same of `link`, NUL, `nowhere`, and NUL.
    const LINK_TO_NOTHING: &str = "1b7aa8df1fa9f9e14518ec1065d4d3b706b64c27f16cdfa039036f96";
    /// The same of `other 20000 259`, and NUL: the device 1, 3.
    const DEVICE: &str = "8ba7500990d9c0173d8904eacbeb106b11e4c584969603c4ee49c0ca";

    fn stamp(scratch: &Scratch, path: &str) -> Option<String> {
        let folder = Folder::open(&scratch.top()).unwrap();
        let look = Reader::new().look_at(&folder, path.as_bytes());
        look.stamp.map(|stamp| stamp.to_string())
    }

    fn is_read(scratch: &Scratch, path: &str) -> bool {
        let folder = Folder::open(&scratch.top()).unwrap();
        let key = Reader::new().look_at(&folder, path.as_bytes()).key;
        assert!(key.is_none() || key == Key::at(&folder, path.as_bytes()));
        key.is_some()
    }

    #[test]
    fn the_stamp_of_a_file_is_that_of_its_content_and_bits_of_execution() {
        let scratch = Scratch::new();
        scratch.file("file", b"1");
        set_permissions(scratch.at("file"), Permissions::from_mode(0o640)).unwrap();
        assert_eq!(stamp(&scratch, "file"), Some(format!("b2-{ONE}")));
        set_permissions(scratch.at("file"), Permissions::from_mode(0o755)).unwrap();
        assert_eq!(stamp(&scratch, "file"), Some(format!("b2-{ONE_TO_RUN}")));
        assert!(is_read(&scratch, "file"));
        scratch.file("large", &[b'x'; 600_000]);
        assert_eq!(stamp(&scratch, "large"), Some(format!("b2-{LARGE}")));
    }

    #[test]
    fn the_stamp_of_a_link_is_that_of_its_text_and_its_end() {
        let scratch = Scratch::new();
        scratch.file("file", b"1");
        scratch.folder("folder");
        for (text, wanted, has_key) in [
            ("file", LINK_TO_ONE, true),
            ("folder", LINK_TO_FOLDER, false),
            ("nowhere", LINK_TO_NOTHING, false),
        ] {
            let path = format!("to_{text}");
            scratch.link(text, &path);
            assert_eq!(stamp(&scratch, &path), Some(format!("b2-{wanted}")));
            assert_eq!(is_read(&scratch, &path), has_key);
        }
    }

    #[test]
    fn what_is_not_read_has_a_stamp_and_no_key() {
        let scratch = Scratch::new();
        scratch.folder("folder");
        assert_eq!(stamp(&scratch, "folder"), Some("folder".to_string()));
        assert_eq!(stamp(&scratch, "/dev/null"), Some(format!("b2-{DEVICE}")));
        assert!(!is_read(&scratch, "folder") && !is_read(&scratch, "/dev/null"));
    }

    #[test]
    fn a_file_that_is_changed_while_it_is_read_has_no_key() {
        let scratch = Scratch::new();
        let mut file = File::create(scratch.at("file")).unwrap();
        file.set_len(10_000_000).unwrap();
        file.seek(SeekFrom::End(0)).unwrap();
        let (is_done, folder) = (
            AtomicBool::new(false),
            Folder::open(&scratch.top()).unwrap(),
        );
        let has_none = thread::scope(|scope| {
            scope.spawn(|| {
                while !is_done.load(Ordering::Relaxed) {
                    file.write_all(b"1").unwrap();
                }
            });
            let mut looks = (0..100).map(|_| Reader::new().look_at(&folder, b"file"));
            let has_none = looks.any(|look| look.stamp.is_some() && look.key.is_none());
            is_done.store(true, Ordering::Relaxed);
            has_none
        });
        assert!(has_none);
    }

    #[test]
    fn what_can_not_be_seen_has_no_stamp() {
        let scratch = Scratch::new();
        scratch.file("file", b"1");
        for path in ["none", "file/x", "none/x", "nul\0", "", &"x".repeat(256)] {
            assert_eq!(stamp(&scratch, path), None, "{path:?}");
        }
    }

    #[test]
    fn a_link_changed_when_it_or_its_end_did() {
        let scratch = Scratch::new();
        scratch.link("file", "link");
        let folder = Folder::open(&scratch.top()).unwrap();
        let before = last_change(&folder, b"link");
        std::thread::sleep(std::time::Duration::from_millis(30));
        scratch.file("file", b"1");
        assert!(last_change(&folder, b"link") > before);
        assert_eq!(last_change(&folder, b"link"), last_change(&folder, b"file"));
        assert_eq!(last_change(&folder, b"none"), None);
    }
}
