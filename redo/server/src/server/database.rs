//! The server's side of redodb-live: its start, what it says, and its end.

use std::time::Duration;

use redo_files::names::LEFT;
use redo_files::top::places;

use crate::conversation::{is_greeting, Addressee, Span, Told};
use crate::error::Failure;
use crate::live::Came;
use crate::outbox::Change;
use crate::program::Program;
use crate::recovering;
use crate::server::{Server, State};
use crate::sessions::Session;
use crate::steps::{After, Taker};
use crate::system::Interest;
use crate::timers::Alarm;
use crate::wire::partition;

const MOST_STARTS: u32 = 100;
const PAUSE: Duration = Duration::from_millis(50);
/// So many bytes are shown of an answer that isn't one.
const MOST_SHOWN: usize = 200;

impl Server {
    /// Starts redodb-live.
    pub(super) fn start_live(&mut self) {
        let log = self.taken.whole(places::LOG);
        let keeping = self.marks.open();
        let started = Program::start(&self.program, &log, keeping).and_then(|program| {
            let begun = self.machine.database_mut().live.begin(program, &self.poll);
            begun.map_err(|cause| redo_files::FileError::system(&self.program, cause))
        });
        if let Err(error) = started {
            self.live_ended(Failure::NotStarted(error));
        }
    }

    /// Takes what redodb-live says.
    pub(super) fn hear_database(&mut self) {
        match self.machine.database_mut().live.receive(&mut self.room) {
            Came::Nothing => {}
            Came::Bytes(count) => {
                let lines = self
                    .machine
                    .database_mut()
                    .live
                    .whole_lines(&self.room[..count]);
                self.hear_lines(&lines);
                self.follow_log(count);
            }
            Came::End => {
                let program = self.machine.database_mut().live.take_program(&self.poll);
                if let Some(program) = program {
                    self.live_ended(Failure::Ended(program.last_words()));
                }
            }
        }
    }

    /// Marks it if redodb-live, which has answered so many bytes more, has compacted the log.
    fn follow_log(&mut self, bytes: usize) {
        if self.state != State::Ready {
            return;
        }
        if let Err(error) = self.marks.follow(bytes) {
            self.fail_live(Failure::Mark(error));
        }
    }

    /// Writes what redodb-live was asked. While it doesn't take its lines, no client's are worked
    /// on.
    pub(super) fn flush_live(&mut self) {
        if self.machine.database_mut().live.flush(&self.poll) == Change::BecameFree {
            let clients: Vec<_> = self.clients.keys().copied().collect();
            clients.into_iter().for_each(|client| self.work(client));
        }
    }

    /// Asks the database for nobody.
    pub(super) fn tell(&mut self, session: Session, command: &[u8]) {
        let conversation = &mut self.machine.database_mut().live.conversation;
        conversation.ask(session, command, Span::OneLine, Taker::Nobody);
    }

    /// Ends a session, which is free when that is answered.
    pub(super) fn end_session(&mut self, session: Session) {
        let conversation = &mut self.machine.database_mut().live.conversation;
        conversation.ask(session, b"end", Span::UpToEnd, Taker::End(session));
    }

    /// Does something when all that was asked so far is answered; at once if it is.
    pub(super) fn then(&mut self, after: After) {
        if let Some(after) = self.machine.database_mut().live.conversation.then(after) {
            self.go_on(after);
        }
    }

    /// Ends redodb-live at once, and takes it that it has ended for this.
    pub(super) fn fail_live(&mut self, failure: Failure) {
        if let Some(mut program) = self.machine.database_mut().live.take_program(&self.poll) {
            program.kill();
            self.live_ended(failure);
        }
    }

    /// Lets clients begin, now that the database is as the files are.
    pub(super) fn begin(&mut self) {
        if self.state != State::Starting {
            return;
        }
        if let Err(error) = self.marks.begin() {
            self.fail_live(Failure::Mark(error));
            return;
        }
        self.state = State::Ready;
        self.let_ask();
        self.welcome();
        self.hear_programs();
    }

    fn hear_lines(&mut self, lines: &[u8]) {
        for line in lines
            .split(|byte| *byte == b'\n')
            .filter(|line| !line.is_empty())
        {
            if !self.machine.database_mut().live.is_there() {
                return;
            }
            if self.machine.database_mut().live.is_greeted() {
                self.hear_line(line);
            } else if is_greeting(line) {
                self.machine.database_mut().live.greet();
                self.ask_names();
            } else {
                self.fail_live(Failure::NoGreeting(line.to_vec()));
            }
        }
    }

    /// Learns from a line, and hands it to whom it is for.
    fn hear_line(&mut self, line: &[u8]) {
        let told = Told::parse(line);
        self.learn(&told);
        match self.machine.database_mut().live.conversation.take(&told) {
            Addressee::Nobody => {}
            Addressee::Taker(taker) => self.take_reply(taker, told.reply),
            Addressee::Unasked => self.fail_live(Failure::Unasked(line.to_vec())),
        }
        while let Some(after) = self.machine.database_mut().live.conversation.next_due() {
            self.go_on(after);
        }
    }

    /// Learns from a line that no run has asked.
    fn learn(&mut self, told: &Told<'_>) {
        let known = &mut self.machine.database_mut().known;
        if let Some(name) = known.learn_from_others(told) {
            self.others.touch(name);
        }
        match partition(told.command) {
            (b"unlock", target) if told.reply == b"ok" => {
                let unlocked = self.machine.database().known.names.number(target);
                unlocked
                    .into_iter()
                    .for_each(|name| self.others.unlock(name));
                self.waits.released(target);
                self.settle_waits();
            }
            (b"start", target) if told.reply == b"ok" => self.forget_left(target),
            _ => {}
        }
    }

    /// What an earlier failed build has left counts no more: somebody else builds the target, and
    /// nobody knows what that leaves if it is broken off.
    fn forget_left(&mut self, target: &[u8]) {
        let name = [LEFT, target].concat();
        let facts = self.machine.database().known.names.facts_of(&name);
        if facts.map_or(false, |facts| facts.stamp.is_some()) {
            self.tell(Session::QUESTIONS, &[b"gone ", name.as_slice()].concat());
        }
    }

    /// Asks redodb-live for all that it knows.
    fn ask_names(&mut self) {
        let conversation = &mut self.machine.database_mut().live.conversation;
        let session = Session::QUESTIONS;
        conversation.ask(session, b"names", Span::OneLine, Taker::Names);
    }

    /// Learns all that redodb-live knows. If its log isn't whole, tells it what the files say.
    pub(super) fn take_names(&mut self, reply: &[u8]) {
        let known = &mut self.machine.database_mut().known;
        if !known.learn_all(reply) {
            let beginning = reply[..reply.len().min(MOST_SHOWN)].to_vec();
            return self.fail_live(Failure::NoNames(beginning));
        }
        let commands = recovering::commands(known, self.marks.log(), &self.taken.home);
        for command in commands {
            self.tell(Session::QUESTIONS, &command);
        }
        self.then(After::Begin);
    }

    /// Takes it that redodb-live has ended. If the log is in use, that is by the one of a server
    /// that was killed, and ends as well.
    pub(super) fn live_ended(&mut self, failure: Failure) {
        let may_start = self.state == State::Starting && self.starts < MOST_STARTS;
        match self.state {
            State::Ending | State::Stopped => self.state = State::Stopped,
            _ if may_start && failure.is_log_in_use() => {
                self.starts += 1;
                self.timers.set(Alarm::Start, PAUSE);
            }
            _ if self.failure.is_some() => {}
            _ => {
                if failure.is_log_damaged() {
                    self.marks.give_up();
                }
                self.fail(&failure);
            }
        }
    }

    /// Tells all clients why the server can't go on. If there was none yet, the first one is told;
    /// if there is none any more, the next one takes the next server.
    fn fail(&mut self, failure: &Failure) {
        let message = self.with_way_out(failure);
        let was_ready = self.state == State::Ready;
        if was_ready {
            self.listen(Interest::NOTHING);
            self.taken.close(); // who comes now takes the next server
        }
        self.is_told = was_ready || !self.clients.is_empty();
        self.state = State::Failed;
        self.failure = Some(message.clone());
        self.fail_clients(&message);
        if self.clients.is_empty() {
            self.end_later();
        }
    }

    /// Adds to what redodb-live said of a damaged log how to go on.
    fn with_way_out(&self, failure: &Failure) -> String {
        let log = self.taken.whole(places::LOG);
        if failure.is_dump_damaged() {
            let words = [b"mv", log.as_slice(), &[&log, &b".lost"[..]].concat()];
            return format!("{failure}; to begin without it: {}", command_of(&words));
        }
        if !failure.is_log_damaged() {
            return failure.to_string();
        }
        let [salvage, whole] = [b"--salvage".as_slice(), b"--whole"]; // the marks know this file
        let words = [self.program.as_slice(), b"--log", &log, salvage, whole];
        let how = "to cut it before that line, after a copy of it all";
        format!("{failure}; {how}: {} </dev/null", command_of(&words))
    }
}

/// Returns a command as it is given to a shell, on one line.
fn command_of(words: &[&[u8]]) -> String {
    let words: Vec<String> = words.iter().map(|word| quoted(word)).collect();
    words.join(" ").replace('\n', "?")
}

/// Returns a text as a shell reads it as one word.
fn quoted(text: &[u8]) -> String {
    let text = String::from_utf8_lossy(text);
    let is_safe = |one: char| one.is_ascii_alphanumeric() || "_@%+=:,./-".contains(one);
    if !text.is_empty() && text.chars().all(is_safe) {
        return text.into_owned();
    }
    format!("'{}'", text.replace('\'', "'\"'\"'"))
}
