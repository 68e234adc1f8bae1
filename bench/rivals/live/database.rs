// The database that is talked to: it answers line by line, and names come as they are spoken of.
use crate::graph::State;
use crate::lines::{Command, Reply};
use crate::names::Names;
use crate::printing::Printer;
use crate::questions::{Question, Search};
use crate::store::Store;
use std::collections::BTreeSet;

pub const MOST_SESSIONS: u16 = 65_535;

pub struct Database {
    pub names: Names<'static>,
    pub store: Store<'static>,
    // the names of the command that is read
    pub lists: Vec<u32>,
    pub search: Search,
    // what each session holds
    held: Vec<BTreeSet<u32>>,
    calls: u64,
}

// what is answered, and what of it is to be logged
#[derive(Default)]
pub struct Answers {
    pub said: Vec<u8>,
    pub logged: Vec<u8>,
}

impl Answers {
    pub fn is_long(&self) -> bool {
        self.said.len() >= 1 << 20
    }

    fn fault(&mut self, session: u16, word: &str) {
        self.said.extend_from_slice(format!("{session} fault {word}\n").as_bytes());
    }
}

// the session that a line names, and the rest of the line
fn session_of(line: &[u8]) -> Option<(u16, &[u8])> {
    let length = line.iter().take(6).position(|byte| *byte == b' ')?;
    let (digits, text) = (&line[..length], &line[length + 1..]);
    let is_number = digits.iter().all(u8::is_ascii_digit) && digits.first() != Some(&b'0');
    let session = std::str::from_utf8(digits).ok().filter(|_| is_number)?.parse().ok()?;
    Some((session, text))
}

impl Database {
    pub fn new() -> Database {
        let (text, digests): (&[u8], &[[u8; 20]]) = (&[], &[]);
        Database {
            names: Names::default(),
            store: Store::new(text, digests, Vec::new()),
            lists: Vec::new(),
            search: Search::default(),
            held: vec![BTreeSet::new(); usize::from(MOST_SESSIONS) + 1],
            calls: 0,
        }
    }

    // whether a command changes what is known, if it is neither busy nor refused
    fn is_change(&self, command: Command) -> bool {
        let graph = &self.store.graph;
        match command {
            Command::File(n, stamp) => !graph.is_same_stamp(graph.cell(n).file, Some(stamp)),
            Command::Gone(n) => graph.cell(n).file.is_some(),
            Command::Ood | Command::Targets | Command::Sources => false,
            _ => true,
        }
    }

    fn note(&mut self, session: u16, command: Command, reply: Reply) {
        let held = &mut self.held[usize::from(session)];
        match (command, reply) {
            (Command::Lock(t), Reply::Granted(_)) => held.insert(t),
            (Command::Unlock(t), Reply::Okay) => held.remove(&t),
            _ => false,
        };
    }

    // does a command, and prints its reply; returns whether it changed something
    fn call(&mut self, session: u16, command: Command, said: &mut Vec<u8>) -> bool {
        self.calls += 1;
        let is_change = self.is_change(command);
        let reply = self.store.call(session, command, &self.lists);
        self.note(session, command, reply);
        let (texts, store) = (&self.names.texts, &mut self.store);
        if matches!(reply, Reply::Listed(..)) {
            store.listed.sort_unstable_by_key(|n| texts[*n as usize]);
        }
        let (stamps, digests) = (&store.graph.text, &store.graph.digests);
        let mut printer = Printer { names: texts, stamps, digests, text: std::mem::take(said) };
        printer.put(" => ");
        printer.put_reply(reply, &store.listed);
        printer.put("\n");
        *said = printer.text;
        is_change && reply.lets_through()
    }

    // a command that was read from a line, whose text was said already from there on
    fn reply(&mut self, session: u16, command: Command, from: usize, answers: &mut Answers) {
        let graph = &self.store.graph;
        let (mut stamps, mut digests) = (graph.text.len(), graph.digests.len());
        if self.call(session, command, &mut answers.said) {
            answers.logged.extend_from_slice(&answers.said[from..]);
            return;
        }
        // nothing refers to the stamp or the digest of a line that changed nothing
        match command {
            Command::File(_, stamp) | Command::Done(_, Some(stamp)) => stamps = stamp.at as usize,
            Command::Stamp(_, digest) => digests = digest as usize,
            _ => {}
        }
        self.store.graph.text.to_mut().truncate(stamps);
        self.store.graph.digests.to_mut().truncate(digests);
    }

    // Answers a line without its LF. Of a line of 8,199 bytes the rest may be lacking.
    pub fn answer(&mut self, line: &[u8], answers: &mut Answers) {
        match session_of(line) {
            Some((session, b"end")) => {
                self.close(session, answers);
                answers.said.extend_from_slice(format!("{session} end => ok\n").as_bytes());
            }
            Some((_, b"names")) => {
                answers.said.extend_from_slice(line);
                self.tell_all(&mut answers.said);
            }
            Some((session, text)) => match Question::of(text) {
                Some(Ok(question)) => {
                    answers.said.extend_from_slice(line);
                    self.tell(&question, &mut answers.said);
                }
                Some(Err(fault)) => answers.fault(session, fault),
                None => self.answer_command(line, answers),
            },
            None => self.answer_command(line, answers),
        }
    }

    // The same for a line that is neither the end of a session nor a question.
    pub fn answer_command(&mut self, line: &[u8], answers: &mut Answers) {
        let (session, text) = match session_of(line) {
            Some(known) => known,
            None => return answers.fault(0, "bad-session"),
        };
        // what `end` needs is left over
        if self.calls + 2 * (self.names.texts.len() as u64 + 65) >= (1 << 32) - 1 {
            return answers.fault(session, "worn");
        }
        match self.command(text) {
            Err(fault) => answers.fault(session, fault),
            Ok(command) => {
                let from = answers.said.len();
                answers.said.extend_from_slice(line);
                if matches!(command, Command::Stamp(..)) {
                    let content = text.rsplit(|byte| *byte == b' ').next().map_or(0, <[u8]>::len);
                    let at = answers.said.len() - content;
                    answers.said[at..].make_ascii_lowercase();
                }
                self.reply(session, command, from, answers);
            }
        }
    }

    fn close_by(&mut self, session: u16, word: &str, command: Command, t: u32, to: &mut Answers) {
        let from = to.said.len();
        to.said.extend_from_slice(format!("{session} {word} ").as_bytes());
        to.said.extend_from_slice(self.names.texts[t as usize]);
        self.reply(session, command, from, to);
    }

    // Does the closing commands of a session: it fails what it builds, and unlocks what it holds.
    pub fn close(&mut self, session: u16, answers: &mut Answers) {
        let mut held: Vec<u32> = self.held[usize::from(session)].iter().copied().collect();
        held.sort_unstable_by_key(|t| self.names.texts[*t as usize]);
        for t in held {
            if matches!(self.store.graph.cell(t).state, State::Building(_)) {
                self.close_by(session, "failed", Command::Failed(t), t, answers);
            }
            self.close_by(session, "unlock", Command::Unlock(t), t, answers);
        }
    }
}
