//! What clients ask for.

use crate::client::{ClientId, Course, Standing};
use crate::conversation::Span;
use crate::server::{Owner, Server};
use crate::steps::{After, Answer, Taker};
use crate::waits::GivenUp;
use crate::wire::{
    may_be_long, needs_no_session, parted, Fault, Inbox, Request, RequestId, MOST_LINE,
};

/// So many lines are worked on before their answers are waited for, which bounds what is kept.
const MOST_AHEAD: usize = 512;
/// So many waits are kept of all clients together.
const MOST_WAITS: usize = 1 << 20;
/// So many process groups are kept of a client.
const MOST_GROUPS: usize = 1 << 16;

impl Server {
    /// Works on the whole lines that have come from a client, as far as none has to wait.
    pub(super) fn work(&mut self, id: ClientId) {
        let mut inbox = match self.clients.get_mut(&id) {
            Some(client) => std::mem::take(&mut client.inbox),
            None => return,
        };
        let mut is_empty = false;
        while !is_empty && self.can_work(id) {
            match inbox.next_line() {
                Some(line) => self.work_on(id, &line),
                None => is_empty = true,
            }
        }
        if is_empty {
            inbox.cut();
        }
        self.put_back(id, inbox, is_empty);
    }

    fn can_work(&self, id: ClientId) -> bool {
        !self.machine.database().live.is_stuffed()
            && self
                .clients
                .get(&id)
                .map_or(false, |client| client.can_work())
    }

    /// Puts the inbox of a client back. One that sends no more, and has nothing left, goes.
    fn put_back(&mut self, id: ClientId, inbox: Inbox, is_empty: bool) {
        let is_over = match self.clients.get_mut(&id) {
            Some(client) => {
                client.inbox = inbox;
                is_empty && client.course == Course::Ended
            }
            None => return,
        };
        self.touch(id);
        if is_over {
            self.then(After::Finish(id));
        }
    }

    /// Works on a line.
    fn work_on(&mut self, id: ClientId, line: &[u8]) {
        let (request, text) = match parted(line) {
            Some(parted) => parted,
            None => return self.refuse(id, RequestId::none(), Fault::BadId),
        };
        let has_session = match self.clients.get_mut(&id) {
            Some(client) => {
                client.ahead += 1;
                client.standing.session().is_some()
            }
            None => return,
        };
        let parsed = match text {
            _ if !has_session && !needs_no_session(text) => Err(Fault::NoSession),
            _ if line.len() >= MOST_LINE => Ok(Request::Database(text)),
            _ => Request::parse(text),
        };
        match parsed {
            Ok(asked) => self.serve(id, request, asked),
            Err(fault) => self.refuse(id, request, fault),
        }
        self.bound_ahead(id, text);
    }

    /// Waits for the answers to what was asked, if they may be many, or long.
    fn bound_ahead(&mut self, id: ClientId, text: &[u8]) {
        let is_much = match self.clients.get_mut(&id) {
            Some(client) => client.ahead >= MOST_AHEAD || may_be_long(text),
            None => false,
        };
        if is_much {
            self.hold(id, After::GoOn(id));
        }
    }

    fn serve(&mut self, id: ClientId, request: RequestId, asked: Request<'_>) {
        match asked {
            Request::Database(text) => self.ask(id, request, text, Span::OneLine),
            Request::End => self.ask(id, request, b"end", Span::UpToEnd),
            Request::Wait { target, parent } => self.wait(id, request, target, parent),
            Request::Forget { target, parent } => self.forget(id, request, (target, parent)),
            Request::Made(name) => self.answer_then(id, request, Answer::Made(name.to_vec())),
            Request::Edited(names) => {
                self.answer_then(id, request, Answer::Edited(owned(&names)));
            }
            Request::Late { since, names } => {
                let names = owned(&names);
                self.answer_then(id, request, Answer::Late { names, since });
            }
            Request::Look(names) => self.look(id, request, owned(&names)),
            Request::Group(words) => self.group(id, request, &words),
            Request::Ungroup(words) => self.ungroup(id, request, &words),
            Request::Session => self.give_session(id, request),
            Request::Turn => self.take_turn(id, request),
        }
    }

    /// Asks the database, which answers the client.
    fn ask(&mut self, id: ClientId, request: RequestId, text: &[u8], span: Span) {
        let standing = self.clients.get(&id).map(|client| &client.standing);
        if let Some(session) = standing.and_then(Standing::asks_in) {
            let taker = Taker::Client(id, request);
            self.machine
                .database_mut()
                .live
                .conversation
                .ask(session, text, span, taker);
        }
    }

    /// Answers after all that was asked before.
    fn answer_then(&mut self, id: ClientId, request: RequestId, answer: Answer) {
        self.then(After::Answer(id, request, answer));
    }

    fn answer_text(&mut self, id: ClientId, request: RequestId, text: String) {
        self.answer_then(id, request, Answer::Text(text));
    }

    fn refuse(&mut self, id: ClientId, request: RequestId, fault: Fault) {
        self.answer_text(id, request, fault.to_string());
    }

    fn answer_ok(&mut self, id: ClientId, request: RequestId, fault: Option<Fault>) {
        let answer = fault.map_or("ok".to_owned(), |fault| fault.to_string());
        self.answer_text(id, request, answer);
    }

    /// Works on no more lines of a client until something is done.
    fn hold(&mut self, id: ClientId, after: After) {
        if let Some(client) = self.clients.get_mut(&id) {
            client.is_held = true;
            client.ahead = 0;
        }
        self.then(after);
    }

    fn wait(&mut self, id: ClientId, request: RequestId, target: &[u8], parent: &[u8]) {
        if self.waits.count() >= MOST_WAITS {
            return self.refuse(id, request, Fault::Memory);
        }
        let client = match self.clients.get_mut(&id) {
            Some(client) => client,
            None => return,
        };
        if let Some(session) = client.standing.session() {
            let owner = Owner {
                client: id,
                request: request.clone(),
                session,
            };
            let wait = self.waits.add(owner, target, parent);
            client.waits.push((wait, request));
            self.settle_waits();
        }
    }

    fn forget(&mut self, id: ClientId, request: RequestId, names: (&[u8], &[u8])) {
        let client = match self.clients.get_mut(&id) {
            Some(client) => client,
            None => return,
        };
        let mut waits = client.waits.iter();
        let place = waits.position(|(wait, _)| self.waits.names(*wait) == Some(names));
        match place.map(|place| client.waits.remove(place)) {
            Some((wait, asked)) => {
                self.waits.give_up(wait, GivenUp::Forgotten);
                self.answer(id, &asked, b"forgotten");
                self.answer_ok(id, request, None);
            }
            None => self.refuse(id, request, Fault::NotWaiting),
        }
    }

    /// Looks when all stamps are known; at all files when it is known too what is building.
    fn look(&mut self, id: ClientId, request: RequestId, names: Vec<Vec<u8>>) {
        if !names.is_empty() && self.machine.database_mut().live.conversation.knows_stamps() {
            self.look_now(id, request, &names);
        } else {
            self.hold(id, After::Look(id, request, names));
        }
    }

    fn group(&mut self, id: ClientId, request: RequestId, words: &[&[u8]]) {
        if let Some(client) = self.clients.get_mut(&id) {
            let fault = if client.groups.count() >= MOST_GROUPS {
                Some(Fault::Memory)
            } else {
                let is_good = client.groups.add(words, &client.socket);
                (!is_good).then_some(Fault::BadGroup)
            };
            self.answer_ok(id, request, fault);
        }
    }

    fn ungroup(&mut self, id: ClientId, request: RequestId, words: &[&[u8]]) {
        if let Some(client) = self.clients.get_mut(&id) {
            let is_good = client.groups.remove(words);
            self.answer_ok(id, request, (!is_good).then_some(Fault::BadGroup));
        }
    }

    /// Gives a client a session, if it has none and one is free.
    fn give_session(&mut self, id: ClientId, request: RequestId) {
        let client = match self.clients.get_mut(&id) {
            Some(client) => client,
            None => return,
        };
        let session = client.standing.session().or_else(|| self.sessions.take());
        if let Some(session) = session {
            client.standing = Standing::Has(session);
        }
        let answer = session.map_or("busy".to_owned(), |session| format!("session {session}"));
        self.answer_text(id, request, answer);
    }

    /// Gives a client a session as soon as it can have one. Meanwhile it isn't served.
    fn take_turn(&mut self, id: ClientId, request: RequestId) {
        match self.clients.get_mut(&id) {
            Some(client) if client.standing.session().is_none() => {
                client.standing = Standing::InTurn(request);
                self.sessions.wait(id);
                self.welcome();
            }
            _ => self.give_session(id, request),
        }
    }
}

fn owned(words: &[&[u8]]) -> Vec<Vec<u8>> {
    words.iter().map(|word| word.to_vec()).collect()
}
