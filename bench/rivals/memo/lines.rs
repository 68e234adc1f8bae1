// The lines of a history, in numbers and places.
use std::num::NonZeroU8;

// a file stamp: a word of the text that was read
#[derive(Clone, Copy, PartialEq)]
pub struct Stamp {
    pub at: u32,
    pub len: NonZeroU8,
}

impl Stamp {
    pub fn of(self, text: &[u8]) -> &[u8] {
        &text[self.at as usize..][..usize::from(self.len.get())]
    }
}

// a part of a list of names
#[derive(Clone, Copy, PartialEq)]
pub struct Part {
    pub at: u32,
    pub len: u32,
}

impl Part {
    pub fn of(self, names: &[u32]) -> &[u32] {
        &names[self.at as usize..][..self.len as usize]
    }
}

// the digest of a stamp is the number of one
#[derive(Clone, Copy)]
pub enum Command {
    File(u32, Stamp),
    Gone(u32),
    Lock(u32),
    Unlock(u32),
    Start(u32),
    IfChange(u32, Part),
    IfCreate(u32, Part),
    Always(u32),
    Stamp(u32, u32),
    Done(u32, Option<Stamp>),
    Failed(u32),
    Ood,
    Targets,
    Sources,
}

#[derive(Clone, Copy, PartialEq)]
pub enum Listing {
    Stale,
    Ood,
    Targets,
    Sources,
}

#[derive(Clone, Copy, PartialEq)]
pub enum Reply {
    Okay,
    Granted(u32),
    Busy(u32),
    Stamped(u32),
    Listed(Listing, Part),
    NotLocked,
    Building,
    NotBuilding,
    Itself,
    Exists(u32),
}

impl Reply {
    // whether a guarded line after it is done
    pub fn lets_through(self) -> bool {
        !matches!(
            self,
            Reply::Busy(_)
                | Reply::NotLocked
                | Reply::Building
                | Reply::NotBuilding
                | Reply::Itself
                | Reply::Exists(_)
        )
    }
}

#[derive(Clone, Copy)]
pub struct Line {
    pub session: u16,
    pub command: Command,
    pub reply: Reply,
}
