// The database without a memo.
use crate::lines::{Command, Listing, Part, Reply, Stamp};
use crate::sessions::Database;
use std::collections::HashMap;

#[derive(Clone, Copy, PartialEq)]
enum Mark {
    Digest([u8; 20]),
    Builds(u32),
    Pending,
    File(Stamp),
    Absent,
}

#[derive(Clone, Copy, Default, PartialEq)]
enum State {
    #[default]
    Idle,
    Building(u8),
    Built,
    Failed,
}

#[derive(Clone, Default)]
struct Known {
    file: Option<Stamp>,
    state: State,
    builds: u32,
    done: Option<Stamp>,
    digest: Option<[u8; 20]>,
    holder: Option<u8>,
    grants: u32,
    // the rows of a target, each list by ascending number
    changes: Vec<(u32, Mark)>,
    created: Vec<u32>,
    always: bool,
    // how many rows are on the name
    rows: u32,
}

impl Known {
    fn mark(&self) -> Mark {
        match (self.state, self.file) {
            (State::Idle, Some(stamp)) => Mark::File(stamp),
            (State::Idle, None) => Mark::Absent,
            (State::Built, _) => self.digest.map_or(Mark::Builds(self.builds), Mark::Digest),
            _ => Mark::Pending,
        }
    }
}

pub struct Search<'a> {
    digests: &'a [[u8; 20]],
    known: Vec<Known>,
    // the place of each name in the order of the names' bytes
    ranks: Vec<u32>,
    // all names that were ever started
    targets: Vec<u32>,
    // the names that the search met: those with this turn
    met: Vec<u32>,
    turn: u32,
    // the names that the latest reply lists
    listed: Vec<u32>,
}

impl<'a> Search<'a> {
    // over names whose numbers are sorted by the names' bytes
    pub fn new(digests: &'a [[u8; 20]], sorted: &[u32]) -> Search<'a> {
        let count = sorted.len();
        let mut ranks = vec![0; count];
        for (rank, n) in (0..).zip(sorted) {
            ranks[*n as usize] = rank;
        }
        let (targets, listed) = (Vec::new(), Vec::new());
        Search { digests, known: vec![Known::default(); count], ranks, targets, met: vec![0; count], turn: 0, listed }
    }

    fn at(&self, n: u32) -> &Known {
        &self.known[n as usize]
    }

    fn at_mut(&mut self, n: u32) -> &mut Known {
        &mut self.known[n as usize]
    }

    fn in_order(&self, mut list: Vec<u32>) -> Vec<u32> {
        list.sort_unstable_by_key(|n| self.ranks[*n as usize]);
        list.dedup();
        list
    }

    fn has_reason(&self, t: u32) -> bool {
        let target = self.at(t);
        match target.state {
            State::Idle => false,
            State::Building(_) | State::Failed => true,
            State::Built => {
                target.file != target.done
                    || target.always
                    || target.created.iter().any(|n| self.at(*n).file.is_some())
                    || target.changes.iter().any(|(n, mark)| self.at(*n).mark() != *mark)
            }
        }
    }

    // whether a chain of change rows leads to a reason; what was met in this turn before leads to none
    fn is_out_of_date(&mut self, target: u32) -> bool {
        let mut next = vec![target];
        while let Some(t) = next.pop() {
            if self.met[t as usize] == self.turn {
                continue;
            }
            self.met[t as usize] = self.turn;
            if self.has_reason(t) {
                self.turn += 1;
                return true;
            }
            let targets = self.at(t).changes.iter().map(|row| row.0).filter(|n| self.at(*n).state != State::Idle);
            next.extend(targets);
        }
        false
    }

    fn stale(&mut self, names: &[u32]) -> Vec<u32> {
        self.turn += 1;
        let mut list = Vec::new();
        for n in names {
            let is_stale = match self.at(*n).state {
                State::Idle => self.at(*n).file.is_none(),
                _ => self.is_out_of_date(*n),
            };
            if is_stale {
                list.push(*n);
            }
        }
        self.in_order(list)
    }

    fn ood(&self) -> Vec<u32> {
        let mut found: Vec<u32> = self.targets.iter().copied().filter(|t| self.has_reason(*t)).collect();
        if found.is_empty() {
            return found;
        }
        let mut is_found = vec![false; self.known.len()];
        for t in &found {
            is_found[*t as usize] = true;
        }
        let mut needed_by: HashMap<u32, Vec<u32>> = HashMap::new();
        for t in self.targets.iter().filter(|t| !is_found[**t as usize]) {
            for (n, _) in self.at(*t).changes.iter().filter(|(n, _)| self.at(*n).state != State::Idle) {
                needed_by.entry(*n).or_default().push(*t);
            }
        }
        let mut next = 0;
        while next < found.len() {
            for t in needed_by.get(&found[next]).into_iter().flatten() {
                if !is_found[*t as usize] {
                    is_found[*t as usize] = true;
                    found.push(*t);
                }
            }
            next += 1;
        }
        found.retain(|t| self.at(*t).file.is_some());
        self.in_order(found)
    }

    fn targets(&self) -> Vec<u32> {
        self.in_order(self.targets.iter().copied().filter(|t| self.at(*t).file.is_some()).collect())
    }

    fn sources(&self) -> Vec<u32> {
        let is_source = |known: &Known| known.state == State::Idle && known.file.is_some() && known.rows > 0;
        let all = 0..self.known.len() as u32;
        self.in_order(all.filter(|n| is_source(self.at(*n))).collect())
    }

    fn lock(&mut self, session: u8, t: u32) -> Reply {
        let known = self.at_mut(t);
        if known.holder.is_some() {
            return Reply::Busy(known.grants);
        }
        known.holder = Some(session);
        known.grants += 1;
        Reply::Granted(known.grants)
    }

    fn start(&mut self, session: u8, t: u32) {
        if self.at(t).state == State::Idle {
            self.targets.push(t);
        }
        let known = self.at_mut(t);
        known.state = State::Building(session);
        known.digest = None;
        known.always = false;
        let changes = std::mem::take(&mut known.changes);
        let created = std::mem::take(&mut known.created);
        for n in changes.iter().map(|row| row.0).chain(created) {
            self.at_mut(n).rows -= 1;
        }
    }

    fn put_changes(&mut self, t: u32, names: &[u32]) {
        for n in names {
            let mark = self.at(*n).mark();
            let changes = &mut self.at_mut(t).changes;
            match changes.binary_search_by_key(n, |row| row.0) {
                Ok(at) => changes[at].1 = mark,
                Err(at) => {
                    changes.insert(at, (*n, mark));
                    self.at_mut(*n).rows += 1;
                }
            }
        }
    }

    fn put_created(&mut self, t: u32, names: &[u32]) {
        for n in names {
            let created = &mut self.at_mut(t).created;
            if let Err(at) = created.binary_search(n) {
                created.insert(at, *n);
                self.at_mut(*n).rows += 1;
            }
        }
    }

    fn done(&mut self, t: u32, stamp: Option<Stamp>) {
        let known = self.at_mut(t);
        known.state = State::Built;
        known.builds += 1;
        known.file = stamp;
        known.done = stamp;
    }

    fn refusal(&self, session: u8, command: Command, lists: &[u32]) -> Option<Reply> {
        match command {
            Command::Unlock(t) | Command::Start(t) if self.at(t).holder != Some(session) => Some(Reply::NotLocked),
            Command::Unlock(t) | Command::Start(t) if self.is_building(t) => Some(Reply::Building),
            Command::IfChange(t, _)
            | Command::IfCreate(t, _)
            | Command::Always(t)
            | Command::Stamp(t, _)
            | Command::Done(t, _)
            | Command::Failed(t)
                if self.at(t).state != State::Building(session) =>
            {
                Some(Reply::NotBuilding)
            }
            Command::IfChange(t, names) | Command::IfCreate(t, names) if names.of(lists).contains(&t) => {
                Some(Reply::Itself)
            }
            Command::IfCreate(_, names) => {
                let found = names.of(lists).iter().find(|n| self.at(**n).file.is_some())?;
                Some(Reply::Exists(*found))
            }
            _ => None,
        }
    }

    fn list(&mut self, listing: Listing, names: Vec<u32>) -> Reply {
        self.listed = names;
        Reply::Listed(listing, Part { at: 0, len: self.listed.len() as u32 })
    }
}

impl Database for Search<'_> {
    fn listed(&self) -> &[u32] {
        &self.listed
    }

    fn is_building(&self, target: u32) -> bool {
        matches!(self.at(target).state, State::Building(_))
    }

    fn call(&mut self, session: u8, command: Command, lists: &[u32]) -> Reply {
        if let Some(refusal) = self.refusal(session, command, lists) {
            return refusal;
        }
        match command {
            Command::File(n, stamp) => self.at_mut(n).file = Some(stamp),
            Command::Gone(n) => self.at_mut(n).file = None,
            Command::Lock(t) => return self.lock(session, t),
            Command::Unlock(t) => self.at_mut(t).holder = None,
            Command::Start(t) => self.start(session, t),
            Command::IfChange(t, names) => {
                let stale = self.stale(names.of(lists));
                self.put_changes(t, names.of(lists));
                if !stale.is_empty() {
                    return self.list(Listing::Stale, stale);
                }
            }
            Command::IfCreate(t, names) => self.put_created(t, names.of(lists)),
            Command::Always(t) => self.at_mut(t).always = true,
            Command::Stamp(t, digest) => {
                self.at_mut(t).digest = Some(self.digests[digest as usize]);
                return Reply::Stamped(digest);
            }
            Command::Done(t, stamp) => self.done(t, stamp),
            Command::Failed(t) => self.at_mut(t).state = State::Failed,
            Command::Ood => return self.list(Listing::Ood, self.ood()),
            Command::Targets => return self.list(Listing::Targets, self.targets()),
            Command::Sources => return self.list(Listing::Sources, self.sources()),
        }
        Reply::Okay
    }
}
