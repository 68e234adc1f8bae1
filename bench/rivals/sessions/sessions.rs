// The sessions, each on a thread of its own, with one database under one Mutex.
use crate::graph::State;
use crate::lines::{Command, Part, Reply};
use crate::reading::{Reader, Script};
use crate::store::Store;
use std::collections::BTreeSet;
use std::sync::Mutex;
use std::thread;

pub trait Database {
    // does a command, whose names are among these lists
    fn call(&mut self, session: u8, command: Command, lists: &[u32]) -> Reply;
    // the names that the latest reply lists
    fn listed(&self) -> &[u32];
    fn is_building(&self, target: u32) -> bool;
}

impl Database for Store<'_> {
    fn call(&mut self, session: u8, command: Command, lists: &[u32]) -> Reply {
        Store::call(self, u16::from(session), command, lists)
    }

    fn listed(&self) -> &[u32] {
        Store::listed(self)
    }

    fn is_building(&self, target: u32) -> bool {
        matches!(self.graph.cell(target).state, State::Building(_))
    }
}

// what a session did: the number of the line, which of a closing command is beyond those of the file
pub struct Entry {
    pub line: usize,
    pub command: Command,
    pub reply: Reply,
}

// all that a session did, and the names in its replies' lists
#[derive(Default)]
pub struct Journal {
    pub entries: Vec<Entry>,
    pub listed: Vec<u32>,
}

// the sessions of all commands in order, and what each session did
pub struct Done {
    pub history: Vec<u8>,
    pub journals: Vec<Journal>,
}

struct Shared<D> {
    database: D,
    history: Vec<u8>,
}

struct Session<'a, D> {
    shared: &'a Mutex<Shared<D>>,
    reader: &'a Reader<'a>,
    number: u8,
    held: BTreeSet<u32>,
    journal: Journal,
}

impl<D: Database> Session<'_, D> {
    fn call(&mut self, line: usize, command: Command) -> Reply {
        let listed = &mut self.journal.listed;
        let at = listed.len() as u32;
        let mut shared = self.shared.lock().expect("no panic");
        let mut reply = shared.database.call(self.number, command, &self.reader.lists);
        if let Reply::Listed(_, part) = &mut reply {
            listed.extend_from_slice(part.of(shared.database.listed()));
            *part = Part { at, ..*part };
        }
        shared.history.push(self.number);
        drop(shared);
        match (command, reply) {
            (Command::Lock(t), Reply::Granted(_)) => self.held.insert(t),
            (Command::Unlock(t), Reply::Okay) => self.held.remove(&t),
            _ => false,
        };
        self.journal.entries.push(Entry { line, command, reply });
        reply
    }

    fn file(&mut self, script: &Script) {
        let mut lets_through = true;
        for (line, item) in script.iter().enumerate() {
            if lets_through || !item.is_guarded {
                lets_through = self.call(line, item.command).lets_through();
            }
        }
    }

    // fails what the session builds, and unlocks what it holds, by the names' bytes
    fn close(&mut self, lines: usize) {
        let mut held: Vec<u32> = self.held.iter().copied().collect();
        held.sort_unstable_by_key(|t| self.reader.names.texts[*t as usize]);
        for t in held {
            if self.shared.lock().expect("no panic").database.is_building(t) {
                self.call(lines, Command::Failed(t));
            }
            self.call(lines, Command::Unlock(t));
        }
    }

    fn journal(mut self, script: &Script) -> Journal {
        self.journal.entries.reserve_exact(script.len());
        self.file(script);
        self.close(script.len());
        self.journal
    }
}

// All that the sessions of the scripts do.
pub fn done_by<D: Database + Send>(database: D, reader: &Reader, scripts: &[Script]) -> Done {
    let history = Vec::with_capacity(scripts.iter().map(Vec::len).sum());
    let shared = Mutex::new(Shared { database, history });
    let journals = thread::scope(|scope| {
        let start = |(number, script)| {
            let (held, journal) = (BTreeSet::new(), Journal::default());
            let session = Session { shared: &shared, reader, number, held, journal };
            scope.spawn(move || session.journal(script))
        };
        let threads: Vec<_> = (0..).zip(scripts).map(start).collect();
        threads.into_iter().map(|thread| thread.join().expect("no panic")).collect()
    });
    Done { history: shared.into_inner().expect("no panic").history, journals }
}
