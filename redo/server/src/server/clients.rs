//! The clients of the server: how they come, get their sessions, and go.

use std::io::ErrorKind;
use std::time::Duration;

use redo_wire::{FrameBuffer, OPENING};

use crate::client::{Came, Client, ClientId, Course, Role, Standing};
use crate::outbox::Change;
use crate::server::{Server, State, LISTENER};
use crate::steps::{After, Answer};
use crate::system::{Interest, Ready};
use crate::timers::Alarm;
use crate::waits::GivenUp;

const BREATH: Duration = Duration::from_secs(1);
const LINGER: Duration = Duration::from_secs(5);
const MOST_AT_ONCE: usize = 100;
/// A client for which more bytes are kept is looked at more closely.
const MUCH_KEPT: usize = 1 << 16;
/// So many bytes may be kept for all clients together.
const MOST_KEPT_IN_ALL: usize = 1 << 27;

impl Server {
    /// Waits for clients to come, or doesn't.
    pub(super) fn listen(&mut self, wanted: Interest) {
        if let Some(listener) = &self.taken.listener {
            let changed = self.poll.change(listener, LISTENER, self.listening, wanted);
            if changed.is_ok() {
                self.listening = wanted;
            }
        }
    }

    /// Lets clients in that are waiting. If there is no file for one, tries again soon.
    pub(super) fn let_in(&mut self) {
        for _ in 0..MOST_AT_ONCE {
            if self.clients.len() >= self.most_clients {
                self.listen(Interest::NOTHING);
                return;
            }
            let accepted = match &self.taken.listener {
                Some(listener) => listener.accept(),
                None => return,
            };
            match accepted {
                Ok((socket, _)) => {
                    if self.taken.lets_in(&socket) && socket.set_nonblocking(true).is_ok() {
                        self.join(Client::new(socket));
                    }
                }
                Err(cause) if cause.kind() == ErrorKind::Interrupted => {}
                Err(cause) if cause.kind() == ErrorKind::ConnectionAborted => {}
                Err(cause) if cause.kind() == ErrorKind::WouldBlock => return,
                Err(_) => {
                    self.listen(Interest::NOTHING);
                    self.timers.set(Alarm::Listen, BREATH);
                    return;
                }
            }
        }
    }

    /// Reads from a client, and has it flushed.
    pub(super) fn attend_client(&mut self, id: ClientId, ready: Ready) {
        if ready.writes {
            self.touch(id);
        }
        if ready.reads {
            self.hear_client(id);
        }
    }

    /// Gives free sessions to those who wait for one.
    pub(super) fn welcome(&mut self) {
        while self.state == State::Ready {
            let (id, session) = match self.sessions.take_next() {
                Some(next) => next,
                None => return,
            };
            let before = match self.clients.get_mut(&id) {
                Some(client) => std::mem::replace(&mut client.standing, Standing::Has(session)),
                None => {
                    self.sessions.give_back(session);
                    continue;
                }
            };
            let greeting = format!("session {session}");
            match before {
                Standing::Program(Role::Waiting(call)) => {
                    self.begin_run(id, session, *call);
                    continue;
                }
                Standing::InTurn(request) => {
                    self.then(After::Answer(id, request, Answer::Text(greeting)));
                }
                _ => self.say(id, greeting.as_bytes()),
            }
            self.work(id);
        }
    }

    /// Lets those ask who want no session.
    pub(super) fn let_ask(&mut self) {
        let clients = self.clients.iter();
        let waiting = clients.filter(|(_, client)| client.standing == Standing::WillAsk);
        let mut ids: Vec<ClientId> = waiting.map(|(id, _)| *id).collect();
        ids.sort_unstable();
        for id in ids {
            if let Some(client) = self.clients.get_mut(&id) {
                client.standing = Standing::Asks;
            }
            self.say(id, b"session 0");
            self.work(id);
        }
    }

    /// Tells a client a line.
    pub(super) fn say(&mut self, id: ClientId, line: &[u8]) {
        if let Some(client) = self.clients.get_mut(&id) {
            client.say(line);
        }
        self.touch(id);
    }

    /// Has a client flushed before the next wait.
    pub(super) fn touch(&mut self, id: ClientId) {
        if let Some(client) = self.clients.get_mut(&id) {
            if !client.is_touched {
                client.is_touched = true;
                self.touched.push_back(id);
            }
        }
    }

    /// Writes what a client is told, and waits for what is to come.
    pub(super) fn flush_client(&mut self, id: ClientId) {
        let client = match self.clients.get_mut(&id) {
            Some(client) => client,
            None => return,
        };
        client.is_touched = false;
        let change = client.outbox.flush(&mut client.socket);
        let is_over = client.course == Course::Closing && client.outbox.is_empty();
        let is_well = client.regulate(id, &self.poll).is_ok();
        let kept = client.kept();
        match change {
            Ok(_) if is_over || !is_well => self.lose(id),
            Err(_) => self.lose(id),
            Ok(Change::BecameFree) => self.work(id),
            Ok(_) if kept > MUCH_KEPT => self.bound_kept(),
            Ok(_) => {}
        }
    }

    /// Tells all clients that the server can't go on, and ends their connections.
    pub(super) fn fail_clients(&mut self, message: &str) {
        let mut ids: Vec<ClientId> = self.clients.keys().copied().collect();
        ids.sort_unstable();
        for id in ids {
            self.fail_client(id, message);
        }
    }

    /// Ends the connection of a client when all that it was told is written.
    pub(super) fn finish(&mut self, id: ClientId) {
        if let Some(client) = self.clients.get_mut(&id) {
            client.course = Course::Closing;
            self.flush_client(id);
        }
    }

    /// Takes it that a client is gone: its session ends, and is then free.
    pub(super) fn lose(&mut self, id: ClientId) {
        let mut client = match self.clients.remove(&id) {
            Some(client) => client,
            None => return,
        };
        client.course = Course::Closing;
        client.inbox.clear();
        client.frames = FrameBuffer::default();
        client.outbox.clear();
        let _ = client.regulate(id, &self.poll); // its socket is closed in any case
        for (wait, _) in &client.waits {
            self.waits.give_up(*wait, GivenUp::Lost);
        }
        client.groups.kill();
        if let Some(session) = client.standing.session() {
            self.end_session(session);
        }
        self.sessions.forget(&id);
        if let Standing::Program(role) = client.standing {
            self.lose_program(role);
        }
        self.timers.drop(Alarm::Drop(id));
        self.timers.drop(Alarm::Turn(id));
        if self.listening == Interest::NOTHING {
            self.listen(Interest::READS);
        }
        if self.clients.is_empty() {
            self.end_later();
        }
    }

    /// Ends in a while, if no client comes; at once if one was told of a failure.
    pub(super) fn end_later(&mut self) {
        let time = if self.is_told {
            Duration::ZERO
        } else {
            self.idle
        };
        self.timers.set(Alarm::Close, time);
    }

    /// Takes a client whose first line is [`crate::wire::ONLY_ASKS`]. A session that it has wasn't
    /// used yet, and is free.
    fn only_asks(&mut self, id: ClientId) {
        self.stand(id, Standing::WillAsk);
        if self.state == State::Ready {
            self.let_ask();
            self.welcome();
        }
    }

    /// Takes it that a client wants no session. One that it has wasn't used yet, and is free.
    pub(super) fn stand(&mut self, id: ClientId, standing: Standing) {
        let session = match self.clients.get_mut(&id) {
            Some(client) => std::mem::replace(&mut client.standing, standing).session(),
            None => None,
        };
        self.sessions.forget(&id);
        if let Some(session) = session {
            self.sessions.give_back(session);
        }
    }

    /// Lets a client in. One that comes at the end gets no word, and so takes the next server.
    fn join(&mut self, client: Client) {
        if matches!(self.state, State::Ending | State::Stopped) {
            return;
        }
        let id = ClientId(self.next_client);
        self.next_client += 1;
        self.clients.insert(id, client);
        self.timers.drop(Alarm::Close);
        if let Some(message) = self.failure.clone() {
            self.is_told = true;
            self.fail_client(id, &message);
            return;
        }
        self.sessions.wait(id);
        self.hear_client(id);
        self.touch(id);
        self.welcome();
    }

    fn hear_client(&mut self, id: ClientId) {
        let client = match self.clients.get_mut(&id) {
            Some(client) => client,
            None => return,
        };
        match client.receive(&mut self.room) {
            Came::Nothing => {}
            Came::Loss => self.lose(id),
            Came::End if client.standing.asks_in().is_none() => self.lose(id),
            Came::End => {
                client.course = Course::Ended;
                self.work(id);
            }
            Came::Bytes(count) => {
                let is_first = client.is_new && client.inbox.is_empty();
                let opens = is_first && self.room.first() == Some(&OPENING);
                if opens || client.is_program() {
                    self.take_frames(id, count, opens);
                    return;
                }
                client.inbox.push(&self.room[..count]);
                self.take_first_line(id);
                self.work(id);
            }
        }
    }

    /// Reads from a client's first line whether it wants a session.
    fn take_first_line(&mut self, id: ClientId) {
        let client = match self.clients.get_mut(&id) {
            Some(client) if client.is_new => client,
            _ => return,
        };
        match client.inbox.begins_with_question() {
            None => {}
            Some(only_asks) => {
                client.is_new = false;
                if only_asks {
                    self.only_asks(id);
                }
            }
        }
    }

    /// Tells a client that the server can't go on, and ends the connection.
    fn fail_client(&mut self, id: ClientId, message: &str) {
        if let Some(client) = self.clients.get_mut(&id) {
            client.groups.kill();
            if client.is_program() {
                self.fail_program(id, message);
            } else {
                client.say(format!("0 failed {message}").as_bytes());
            }
            self.timers.set(Alarm::Drop(id), LINGER);
            self.finish(id);
        }
    }

    /// Ends the connection of the client for which most is kept, if that is too much in all.
    fn bound_kept(&mut self) {
        let kept = self.clients.iter().map(|(id, client)| (client.kept(), *id));
        let sum: usize = kept.clone().map(|(kept, _)| kept).sum();
        if let Some((_, most)) = kept.max().filter(|_| sum > MOST_KEPT_IN_ALL) {
            self.lose(most);
        }
    }
}
