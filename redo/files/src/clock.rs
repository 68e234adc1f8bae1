//! What time it is for the files of a tree.

use std::io;
use std::time::{SystemTime, UNIX_EPOCH};

use crate::key::{FileKey, Key, Time};
use crate::system::Folder;

/// No file system that we know of has coarser times, in nanoseconds.
const GRANULE: i128 = 2_000_000_000;

/// When the look that runs has begun.
///
/// A file that changed in the granule of a look may change again in it, and have the same times
/// afterwards. So what a look found is kept only for files that had changed before its granule.
#[derive(Debug)]
pub struct Clock {
    probe: Vec<u8>,
    /// The file system of the probe, and what time it was there.
    here: Option<(u64, Time)>,
    elsewhere: Time,
}

impl Clock {
    /// Takes the time of the file system from a file of the folder, which is changed for it.
    pub fn new(probe: &[u8]) -> Clock {
        Clock {
            probe: probe.to_vec(),
            here: None,
            elsewhere: Time::from_nanoseconds(0),
        }
    }

    /// Takes it that a look begins. Without the probe, times of two seconds ago count as new.
    pub fn begin_look(&mut self, folder: &Folder) {
        self.elsewhere = Time::from_nanoseconds(now() - GRANULE);
        self.here = self.probed(folder).ok();
    }

    /// Says whether a file with this key changed before the granule of the look.
    pub fn is_over(&self, key: &Key) -> bool {
        key.all(|file| file.changed < self.now_on(file))
    }

    fn now_on(&self, file: &FileKey) -> Time {
        match self.here {
            Some((device, now)) if device == file.device => now,
            _ => self.elsewhere,
        }
    }

    fn probed(&self, folder: &Folder) -> io::Result<(u64, Time)> {
        folder.touch(&self.probe)?;
        let status = folder.lstat(&self.probe)?;
        Ok((status.device, status.changed))
    }
}

/// Returns the time of the machine in nanoseconds, 0 if it is before 1970.
fn now() -> i128 {
    let passed = SystemTime::now()
        .duration_since(UNIX_EPOCH)
        .unwrap_or_default();
    i128::try_from(passed.as_nanos()).unwrap_or(i128::MAX)
}

#[cfg(test)]
mod tests {
    use super::*;
    use crate::scratch::Scratch;

    /// A clock whose look has begun, and the key of a file that changes with the probe.
    fn started(scratch: &Scratch) -> (Clock, FileKey) {
        scratch.file("probe", b"");
        let folder = Folder::open(&scratch.top()).unwrap();
        let mut clock = Clock::new(b"probe");
        clock.begin_look(&folder);
        let key = FileKey::from(&folder.lstat(b"probe").unwrap());
        (clock, key)
    }

    fn earlier(key: FileKey, nanoseconds: i128) -> FileKey {
        let changed: i128 = key.changed.to_string().parse().unwrap();
        FileKey {
            changed: Time::from_nanoseconds(changed - nanoseconds),
            ..key
        }
    }

    #[test]
    fn what_changed_before_the_granule_is_over() {
        let scratch = Scratch::new();
        let (clock, key) = started(&scratch);
        assert!(clock.is_over(&Key::Plain(earlier(key, 1))));
        assert!(!clock.is_over(&Key::Plain(key)));
        assert!(!clock.is_over(&Key::Plain(earlier(key, -1))));
    }

    #[test]
    fn elsewhere_two_seconds_have_to_pass() {
        let scratch = Scratch::new();
        let (clock, key) = started(&scratch);
        let key = FileKey {
            device: key.device + 1,
            ..key
        };
        assert!(clock.is_over(&Key::Plain(earlier(key, 3_000_000_000))));
        assert!(!clock.is_over(&Key::Plain(earlier(key, 1_000_000_000))));
    }

    #[test]
    fn without_a_probe_two_seconds_have_to_pass() {
        let scratch = Scratch::new();
        let (mut clock, key) = started(&scratch);
        std::fs::remove_file(scratch.at("probe")).unwrap();
        clock.begin_look(&Folder::open(&scratch.top()).unwrap());
        assert!(clock.is_over(&Key::Plain(earlier(key, 3_000_000_000))));
        assert!(!clock.is_over(&Key::Plain(earlier(key, 1_000_000_000))));
    }

    #[test]
    fn both_files_of_a_link_count() {
        let scratch = Scratch::new();
        let (clock, new) = started(&scratch);
        let old = earlier(new, 1);
        assert!(clock.is_over(&Key::of_link(old, old)));
        assert!(!clock.is_over(&Key::of_link(old, new)));
        assert!(!clock.is_over(&Key::of_link(new, old)));
    }
}
