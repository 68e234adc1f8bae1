// Commands and replies, as they are printed. No command that is printed has a digest.
use crate::lines::{Command, Listing, Reply, Stamp};

pub struct Printer<'a> {
    pub names: &'a [&'a [u8]],
    // where the stamps are
    pub stamps: &'a [u8],
    pub digests: &'a [[u8; 20]],
    pub text: Vec<u8>,
}

impl Printer<'_> {
    pub fn put(&mut self, word: impl AsRef<[u8]>) {
        self.text.extend_from_slice(word.as_ref());
    }

    pub fn put_names(&mut self, word: &str, names: &[u32]) {
        self.put(word);
        for n in names {
            self.put(" ");
            self.put(self.names[*n as usize]);
        }
    }

    pub fn put_stamp(&mut self, stamp: Option<Stamp>) {
        self.put(" ");
        self.put(stamp.map_or(b"-".as_slice(), |stamp| stamp.of(self.stamps)));
    }

    pub fn put_command(&mut self, command: Command, lists: &[u32]) {
        match command {
            Command::File(n, stamp) => {
                self.put_names("file", &[n]);
                self.put_stamp(Some(stamp));
            }
            Command::Gone(n) => self.put_names("gone", &[n]),
            Command::Lock(t) => self.put_names("lock", &[t]),
            Command::Unlock(t) => self.put_names("unlock", &[t]),
            Command::Start(t) => self.put_names("start", &[t]),
            Command::IfChange(t, names) => {
                self.put_names("ifchange", &[t]);
                self.put_names("", names.of(lists));
            }
            Command::IfCreate(t, names) => {
                self.put_names("ifcreate", &[t]);
                self.put_names("", names.of(lists));
            }
            Command::Always(t) => self.put_names("always", &[t]),
            Command::Stamp(t, _) => self.put_names("stamp", &[t]),
            Command::Done(t, stamp) => {
                self.put_names("done", &[t]);
                self.put_stamp(stamp);
            }
            Command::Failed(t) => self.put_names("failed", &[t]),
            Command::Ood => self.put("ood"),
            Command::Targets => self.put("targets"),
            Command::Sources => self.put("sources"),
        }
    }

    pub fn put_reply(&mut self, reply: Reply, listed: &[u32]) {
        match reply {
            Reply::Okay => self.put("ok"),
            Reply::Granted(g) => self.put(format!("granted {g}")),
            Reply::Busy(g) => self.put(format!("busy {g}")),
            Reply::Stamped(digest) => {
                let bytes = self.digests[digest as usize];
                self.put("stamped ");
                bytes.iter().for_each(|byte| self.put(format!("{byte:02x}")));
            }
            Reply::Listed(Listing::Stale, names) => self.put_names("stale", names.of(listed)),
            Reply::Listed(Listing::Ood, names) => self.put_names("ood", names.of(listed)),
            Reply::Listed(Listing::Targets, names) => self.put_names("targets", names.of(listed)),
            Reply::Listed(Listing::Sources, names) => self.put_names("sources", names.of(listed)),
            Reply::NotLocked => self.put("refused not-locked"),
            Reply::Building => self.put("refused building"),
            Reply::NotBuilding => self.put("refused not-building"),
            Reply::Itself => self.put("refused self"),
            Reply::Exists(n) => self.put_names("refused exists", &[n]),
        }
    }
}
