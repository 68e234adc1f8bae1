// The database.
use crate::bits::Bits;
use crate::graph::{Graph, State};
use crate::lines::{Command, Listing, Part, Reply, Stamp};
use crate::memo::Memo;

pub struct Store<'a> {
    pub graph: Graph<'a>,
    pub memo: Memo,
    // the place of each name in the order of the names' bytes, and the names in that order
    pub ranks: Vec<u32>,
    pub sorted: Vec<u32>,
    // by these places: what has a file, what is a target, and what is out of date
    pub files: Bits,
    pub targets: Bits,
    pub out: Bits,
    // where a target's row on a name is, if it was noted in this turn
    pub noted: Vec<(u32, u32)>,
    turn: u32,
    // the names that the latest reply lists
    pub listed: Vec<u32>,
}

impl<'a> Store<'a> {
    // an empty one over names whose numbers are sorted by the names' bytes
    pub fn new(text: &'a [u8], digests: &'a [[u8; 20]], sorted: Vec<u32>) -> Store<'a> {
        let count = sorted.len();
        let mut ranks = vec![0; count];
        for (rank, n) in (0..).zip(&sorted) {
            ranks[*n as usize] = rank;
        }
        Store {
            graph: Graph::new(text, digests, count),
            memo: Memo::new(count),
            ranks,
            sorted,
            files: Bits::new(count),
            targets: Bits::new(count),
            out: Bits::new(count),
            noted: vec![(0, 0); count],
            turn: 0,
            listed: Vec::new(),
        }
    }

    pub fn listed(&self) -> &[u32] {
        &self.listed
    }

    // whether the latest reply is another one, whose names are among others
    pub fn is_same(&self, mine: Reply, other: Reply, others: &[u32]) -> bool {
        match (mine, other) {
            (Reply::Listed(a, mine), Reply::Listed(b, names)) => {
                a == b && mine.of(&self.listed) == names.of(others)
            }
            (Reply::Stamped(a), Reply::Stamped(b)) => self.graph.is_same_digest(a, b),
            _ => mine == other,
        }
    }

    fn refresh(&mut self, seed: u32) {
        let (out, ranks) = (&mut self.out, &self.ranks);
        self.memo.refresh(&self.graph, seed, |t, is_out| out.set(ranks[t as usize], is_out));
    }

    fn set_file(&mut self, n: u32, file: Option<Stamp>) {
        if !self.graph.is_same_stamp(self.graph.cell(n).file, file) {
            self.graph.change(n, |cell| cell.file = file);
            self.files.set(self.ranks[n as usize], file.is_some());
            self.refresh(n);
        }
    }

    fn lock(&mut self, session: u16, t: u32) -> Reply {
        let cell = self.graph.cell_mut(t);
        if cell.holder.is_some() {
            return Reply::Busy(cell.grants);
        }
        cell.holder = Some(session);
        cell.grants += 1;
        Reply::Granted(cell.grants)
    }

    fn start(&mut self, session: u16, t: u32) {
        self.targets.set(self.ranks[t as usize], true);
        self.graph.changes.clear(t);
        self.graph.created.clear(t);
        self.graph.change(t, |cell| {
            cell.state = State::Building(session);
            cell.digest = None;
            cell.always = false;
        });
        self.refresh(t);
    }

    fn done(&mut self, t: u32, stamp: Option<Stamp>) {
        self.files.set(self.ranks[t as usize], stamp.is_some());
        self.graph.change(t, |cell| {
            cell.state = State::Built;
            cell.builds += 1;
            cell.file = stamp;
            cell.done = stamp;
        });
        self.refresh(t);
    }

    fn put_changes(&mut self, t: u32, names: &[u32]) {
        self.turn += 1;
        for (at, row) in (0..).zip(self.graph.changes.of(t)) {
            self.noted[row.name as usize] = (self.turn, at);
        }
        for n in names {
            let mark = self.graph.mark(*n);
            let rows = &mut self.graph.changes;
            let (turn, at) = self.noted[*n as usize];
            if turn == self.turn {
                rows.set(t, at as usize, mark);
            } else {
                self.noted[*n as usize] = (self.turn, rows.of(t).len() as u32);
                rows.push(t, *n, mark);
            }
        }
        self.refresh(t);
    }

    fn put_created(&mut self, t: u32, names: &[u32]) {
        self.turn += 1;
        let rows = &mut self.graph.created;
        for row in rows.of(t) {
            self.noted[row.name as usize].0 = self.turn;
        }
        for n in names {
            let turn = &mut self.noted[*n as usize].0;
            if *turn != self.turn {
                *turn = self.turn;
                rows.push(t, *n, ());
            }
        }
        self.refresh(t);
    }

    fn stale(&mut self, names: &[u32]) {
        self.listed.clear();
        let is_stale = |n: u32| match self.graph.cell(n).state {
            State::Idle => self.graph.cell(n).file.is_none(),
            _ => self.memo.is_out(n),
        };
        self.listed.extend(names.iter().copied().filter(|n| is_stale(*n)));
        self.listed.sort_unstable_by_key(|n| self.ranks[*n as usize]);
        self.listed.dedup();
    }

    // lists what has a file and is in a set
    fn list(&mut self, listing: Listing) -> Reply {
        let all = match listing {
            Listing::Ood => &self.out,
            Listing::Targets => &self.targets,
            _ => &self.files,
        };
        self.listed.clear();
        self.listed.extend(self.files.in_both(all).map(|rank| self.sorted[rank as usize]));
        if listing == Listing::Sources {
            let graph = &self.graph;
            self.listed.retain(|n| graph.is_source(*n));
        }
        self.reply_listed(listing)
    }

    fn reply_listed(&self, listing: Listing) -> Reply {
        Reply::Listed(listing, Part { at: 0, len: self.listed.len() as u32 })
    }

    fn needs_lock(&self, session: u16, t: u32) -> Option<Reply> {
        let cell = self.graph.cell(t);
        match cell.state {
            _ if cell.holder != Some(session) => Some(Reply::NotLocked),
            State::Building(_) => Some(Reply::Building),
            _ => None,
        }
    }

    fn needs_build(&self, session: u16, t: u32) -> Option<Reply> {
        let is_building = self.graph.cell(t).state == State::Building(session);
        (!is_building).then_some(Reply::NotBuilding)
    }

    fn refusal(&self, session: u16, command: Command, lists: &[u32]) -> Option<Reply> {
        let is_among = |t, names: Part| names.of(lists).contains(&t).then_some(Reply::Itself);
        let has_file = |n: &u32| self.graph.cell(*n).file.is_some();
        match command {
            Command::Unlock(t) | Command::Start(t) => self.needs_lock(session, t),
            Command::Always(t) | Command::Failed(t) => self.needs_build(session, t),
            Command::Stamp(t, _) => self.needs_build(session, t),
            Command::Done(t, _) => self.needs_build(session, t),
            Command::IfChange(t, names) => {
                self.needs_build(session, t).or_else(|| is_among(t, names))
            }
            Command::IfCreate(t, names) => {
                let exists = || names.of(lists).iter().copied().find(has_file).map(Reply::Exists);
                self.needs_build(session, t).or_else(|| is_among(t, names)).or_else(exists)
            }
            _ => None,
        }
    }

    fn accepted(&mut self, session: u16, command: Command, lists: &[u32]) -> Reply {
        match command {
            Command::File(n, stamp) => self.set_file(n, Some(stamp)),
            Command::Gone(n) => self.set_file(n, None),
            Command::Lock(t) => return self.lock(session, t),
            Command::Unlock(t) => self.graph.cell_mut(t).holder = None,
            Command::Start(t) => self.start(session, t),
            Command::IfChange(t, names) => {
                self.stale(names.of(lists));
                self.put_changes(t, names.of(lists));
                if !self.listed.is_empty() {
                    return self.reply_listed(Listing::Stale);
                }
            }
            Command::IfCreate(t, names) => self.put_created(t, names.of(lists)),
            Command::Always(t) => {
                self.graph.cell_mut(t).always = true;
                self.refresh(t);
            }
            Command::Stamp(t, digest) => {
                // the target is building, so this changes no mark
                self.graph.cell_mut(t).digest = Some(digest);
                return Reply::Stamped(digest);
            }
            Command::Done(t, stamp) => self.done(t, stamp),
            Command::Failed(t) => {
                self.graph.change(t, |cell| cell.state = State::Failed);
                self.refresh(t);
            }
            Command::Ood => return self.list(Listing::Ood),
            Command::Targets => return self.list(Listing::Targets),
            Command::Sources => return self.list(Listing::Sources),
        }
        Reply::Okay
    }

    // Does a command, whose names are among these lists.
    pub fn call(&mut self, session: u16, command: Command, lists: &[u32]) -> Reply {
        let refusal = self.refusal(session, command, lists);
        refusal.unwrap_or_else(|| self.accepted(session, command, lists))
    }
}
