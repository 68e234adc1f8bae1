//! The server: one database, all clients, and its end.

mod asking;
mod clients;
mod database;
mod debugging;
mod deciding;
mod patience;
mod programs;
mod questions;
mod replies;
mod requests;
mod runs;
mod saying;
mod scripts;
mod users;

use std::collections::{HashMap, VecDeque};
use std::io::Read;
use std::os::unix::net::UnixStream;
use std::time::Duration;

use crate::calls::Calls;
use crate::client::{Client, ClientId};
use crate::error::ServerError;
use crate::known::Known;
use crate::live;
use crate::marks::Marks;
use crate::others::Others;
use crate::sessions::{Session, Sessions};
use crate::store::Store;
use crate::system::{self, Interest, Poll, Ready};
use crate::taking::Taken;
use crate::timers::{Alarm, Timers};
use crate::waits::Waits;
use crate::wire::RequestId;

use redo_core::{Action, Machine};
use redo_files::clock::Clock;
use redo_files::contents::Contents;
use redo_files::system::Folder;
use redo_files::top::{self, places};

/// The numbers of what is waited for, besides redodb-live and the clients.
const LISTENER: u64 = 0;
const SIGNALS: u64 = 1;
const FIRST_CLIENT: u64 = 16;

/// The first client may take so long to come.
const FIRST_WAIT: Duration = Duration::from_secs(10);
/// So many descriptors are left for the files that are looked at, and for redodb-live.
const FILES_KEPT: u64 = 32;
const MOST_READ: usize = 1 << 16;
const MOST_SIGNALS: usize = 64;

/// Whose a wait for a lock is.
#[derive(Clone, Debug, PartialEq, Eq)]
struct Owner {
    client: ClientId,
    request: RequestId,
    session: Session,
}

/// How far the server is.
#[derive(Clone, Debug, PartialEq, Eq)]
enum State {
    /// redodb-live reads its log, and says what it knows.
    Starting,
    /// Clients are served.
    Ready,
    /// It can't go on, and says why to all who come, until nobody does.
    Failed,
    /// Nobody is let in any more; it ends when redodb-live has.
    Ending,
    Stopped,
}

/// How a server ended.
#[derive(Clone, Debug, PartialEq, Eq)]
pub enum Outcome {
    InOrder,
    /// With what the clients were told.
    Failed(String),
}

/// What a server is started with.
#[derive(Debug)]
pub struct Start {
    pub taken: Taken,
    pub live: Vec<u8>,
    /// It ends so long after its last client.
    pub idle: Duration,
    /// So many clients have a session at a time.
    pub runs: u32,
    /// Something comes here when a signal ends the server.
    pub signals: UnixStream,
}

/// The server of a tree.
pub struct Server {
    poll: Poll,
    timers: Timers,
    signals: UnixStream,
    taken: Taken,
    listening: Interest,
    marks: Marks,
    program: Vec<u8>,
    idle: Duration,
    state: State,
    /// Why it can't go on, as clients are told.
    failure: Option<String>,
    /// Whether all was well until the end, so that the log may be marked.
    was_ready: bool,
    is_told: bool,
    starts: u32,
    machine: Machine<Store>,
    /// What the machine wants to be done, and isn't yet.
    actions: VecDeque<Action>,
    /// What the machine isn't told yet.
    others: Others,
    calls: Calls,
    sessions: Sessions<ClientId>,
    waits: Waits<Owner>,
    clients: HashMap<ClientId, Client>,
    touched: VecDeque<ClientId>,
    next_client: u64,
    most_clients: usize,
    room: Vec<u8>,
}

impl Server {
    /// Makes the server of a tree whose place was taken.
    pub fn new(start: Start) -> Result<Server, ServerError> {
        let Start {
            taken,
            live,
            idle,
            runs,
            signals,
        } = start;
        let boot = top::boot();
        Ok(Server {
            poll: Poll::new().map_err(ServerError::system("epoll"))?,
            timers: Timers::default(),
            signals,
            listening: Interest::NOTHING,
            marks: Marks::new(&taken.home, &boot),
            program: live,
            idle,
            state: State::Starting,
            failure: None,
            was_ready: false,
            is_told: false,
            starts: 0,
            machine: Machine::new(Store::new(known_of(taken.home.top(), &boot)?), false),
            actions: VecDeque::new(),
            others: Others::default(),
            calls: Calls::default(),
            sessions: Sessions::new(runs),
            waits: Waits::new(),
            clients: HashMap::new(),
            touched: VecDeque::new(),
            next_client: FIRST_CLIENT,
            most_clients: most_clients(),
            room: vec![0; MOST_READ],
            taken,
        })
    }

    /// Serves until the end.
    pub fn run(mut self) -> Result<Outcome, ServerError> {
        let failed = ServerError::system("epoll");
        self.start_live();
        let known = &mut self.machine.database_mut().known;
        known.contents.load(&self.taken.home, places::STAMPS);
        known.load_told(&self.taken.home, places::CONTENTS);
        self.timers.set(Alarm::Close, self.idle.max(FIRST_WAIT));
        self.poll
            .change(&self.signals, SIGNALS, Interest::NOTHING, Interest::READS)
            .map_err(&failed)?;
        self.listen(Interest::READS);
        self.do_what_is_due();
        while self.state != State::Stopped {
            let ready = self.poll.wait(self.timers.left()).map_err(&failed)?;
            ready.into_iter().for_each(|ready| self.attend(ready));
            self.do_what_is_due();
        }
        Ok(self.outcome())
    }

    /// Does what can be done without a wait.
    fn do_what_is_due(&mut self) {
        self.feed_others();
        self.ring_alarms();
        self.welcome();
        self.flush();
    }

    fn attend(&mut self, ready: Ready) {
        match ready.number {
            LISTENER => self.let_in(),
            SIGNALS => self.take_signal(),
            live::INPUT => {} // it is flushed with all else
            live::OUTPUT => self.hear_database(),
            number => self.attend_client(ClientId(number), ready),
        }
    }

    fn take_signal(&mut self) {
        let _ = self.signals.read(&mut [0; MOST_SIGNALS]); // what comes is a byte for each signal
        self.close();
    }

    fn ring_alarms(&mut self) {
        while let Some(alarm) = self.timers.take_due() {
            match alarm {
                Alarm::Close => self.close(),
                Alarm::Start => self.start_live(),
                Alarm::Listen => self.listen(Interest::READS),
                Alarm::Drop(client) => self.lose(client),
                Alarm::Turn(client) => self.tell_of_turn(client),
                Alarm::Locks(run) => self.tell_of_locks(run),
            }
        }
    }

    /// Writes what was gathered for redodb-live and for the clients.
    fn flush(&mut self) {
        self.flush_live();
        while let Some(client) = self.touched.pop_front() {
            self.flush_client(client);
            if self.touched.is_empty() {
                self.flush_live(); // a client may have asked more, now that it reads
            }
        }
    }

    /// Ends: nobody is let in any more, and redodb-live ends when it has answered all.
    fn close(&mut self) {
        if matches!(self.state, State::Ending | State::Stopped) {
            return;
        }
        self.was_ready = self.state == State::Ready;
        self.state = State::Ending;
        self.listen(Interest::NOTHING);
        self.taken.close();
        let message = self.failure.clone();
        let message = message.unwrap_or_else(|| "the server was told to end".to_owned());
        self.fail_clients(&message);
        if self.failure.is_some() || !self.machine.database_mut().live.end() {
            self.state = State::Stopped;
        }
    }

    /// Leaves for the next server what this one knows. If that can't be, it finds out anew.
    fn outcome(self) -> Outcome {
        if let Some(message) = self.failure {
            return Outcome::Failed(message);
        }
        if self.was_ready && self.taken.stands() {
            let known = &self.machine.database().known;
            let names = &known.names;
            let is_known = |name: &[u8]| names.number(name).is_some();
            let contents = &known.contents;
            let _ = contents.store(&self.taken.home, places::STAMPS, is_known);
            let _ = known.store_told(&self.taken.home, places::CONTENTS);
            let _ = self.marks.end();
        }
        Outcome::InOrder
    }
}

/// Nothing is known yet of a tree.
fn known_of(top: &[u8], boot: &[u8]) -> Result<Known, ServerError> {
    let tree = Folder::open(top).map_err(ServerError::system("top"))?;
    let clock = Clock::new(b".redo/server/lock");
    Ok(Known::new(Contents::new(tree, clock, boot)))
}

/// Returns how many clients may be there at once.
fn most_clients() -> usize {
    let files = system::most_files().saturating_sub(FILES_KEPT);
    usize::try_from(files).unwrap_or(usize::MAX)
}
