//! What is done with the replies of the database.

use redo_files::key::Time;

use crate::client::ClientId;
use crate::conversation::Span;
use crate::error::Failure;
use crate::server::Server;
use crate::sessions::Session;
use crate::steps::{After, Answer, Look, Taker};
use crate::waits::Effect;
use crate::wire::RequestId;

const OK: &[u8] = b"ok";

impl Server {
    /// Hands a reply of the database to whom it is for.
    pub(super) fn take_reply(&mut self, taker: Taker, reply: &[u8]) {
        match taker {
            Taker::Nobody => {}
            Taker::Names => self.take_names(reply),
            Taker::Client(client, request) => self.answer(client, &request, reply),
            Taker::Look(look) => self.take_look(look, reply),
            Taker::Lock(wait) => {
                self.waits.replied(wait, reply);
                self.settle_waits();
            }
            Taker::End(session) if reply == OK => {
                self.sessions.give_back(session);
                self.forget_unused();
                self.welcome();
            }
            Taker::End(session) => self.fail_live(Failure::Session {
                session,
                reply: reply.to_vec(),
            }),
        }
    }

    /// Does what waited until all before was answered.
    pub(super) fn go_on(&mut self, after: After) {
        match after {
            After::Begin => self.begin(),
            After::Answer(client, request, answer) => {
                let text = self.text_of(answer);
                self.answer(client, &request, &text);
            }
            After::GoOn(client) => self.release(client),
            After::Look(client, request, names) => {
                self.look_now(client, request, &names);
                self.release(client);
            }
            After::Finish(client) => self.finish(client),
        }
    }

    /// Answers a request.
    pub(super) fn answer(&mut self, id: ClientId, request: &RequestId, answer: &[u8]) {
        if let Some(client) = self.clients.get_mut(&id) {
            client.say(&[request.digits(), b" ", answer].concat());
            self.touch(id);
        }
    }

    /// Does what the waits want to be done.
    pub(super) fn settle_waits(&mut self) {
        while let Some(effect) = self.waits.next_effect() {
            match effect {
                Effect::Lock {
                    wait,
                    owner,
                    target,
                } => {
                    let command = [b"lock ", &*target].concat();
                    let conversation = &mut self.machine.database_mut().live.conversation;
                    conversation.ask(owner.session, &command, Span::OneLine, Taker::Lock(wait));
                }
                Effect::Unlock { owner, target } => {
                    self.tell(owner.session, &[b"unlock ", &*target].concat());
                }
                Effect::Answer {
                    wait,
                    owner,
                    answer,
                } => {
                    if let Some(client) = self.clients.get_mut(&owner.client) {
                        client.waits.retain(|(other, _)| *other != wait);
                    }
                    self.answer(owner.client, &owner.request, &answer);
                }
            }
        }
    }

    /// Looks at the files of these names, or of all that are known, and answers how many differ
    /// when the database knows.
    pub(super) fn look_now(&mut self, id: ClientId, request: RequestId, names: &[Vec<u8>]) {
        let session = self
            .clients
            .get(&id)
            .and_then(|client| client.standing.asks_in());
        let session = session.unwrap_or(Session::QUESTIONS);
        let commands = if names.is_empty() {
            Ok(self.machine.database_mut().known.all_differing())
        } else {
            self.machine.database_mut().known.differing(names)
        };
        match commands {
            Ok(commands) if commands.is_empty() => {
                let answer = Answer::Text("ok 0".to_owned());
                self.then(After::Answer(id, request, answer));
            }
            Ok(commands) => self.report(id, &request, session, &commands),
            Err(fault) => {
                let answer = Answer::Text(fault.to_string());
                self.then(After::Answer(id, request, answer));
            }
        }
    }

    /// Reports files to the database for a look.
    fn report(
        &mut self,
        client: ClientId,
        request: &RequestId,
        session: Session,
        commands: &[Vec<u8>],
    ) {
        for (place, command) in commands.iter().enumerate() {
            let is_last = place + 1 == commands.len();
            let taker = Taker::Look(Look {
                client,
                request: request.clone(),
                count: is_last.then_some(commands.len()),
            });
            self.machine.database_mut().live.conversation.ask(
                session,
                command,
                Span::OneLine,
                taker,
            );
        }
    }

    fn take_look(&mut self, look: Look, reply: &[u8]) {
        let client = match self.clients.get_mut(&look.client) {
            Some(client) => client,
            None => return,
        };
        if reply != OK {
            client.look_fault.get_or_insert_with(|| reply.to_vec());
        }
        if let Some(count) = look.count {
            let fault = client.look_fault.take();
            let answer = fault.unwrap_or_else(|| format!("ok {count}").into_bytes());
            self.answer(look.client, &look.request, &answer);
        }
    }

    fn text_of(&self, answer: Answer) -> Vec<u8> {
        let known = &self.machine.database().known;
        match answer {
            Answer::Text(text) => text.into_bytes(),
            Answer::Made(name) => format!("made {}", known.made(&name)).into_bytes(),
            Answer::Edited(names) => listed(b"edited", &known.edited(&names)),
            Answer::Late { names, since } => {
                let since = Time::from_nanoseconds(since);
                listed(b"late", &known.late(&names, since))
            }
        }
    }

    /// Works on the lines of a client again.
    fn release(&mut self, id: ClientId) {
        if let Some(client) = self.clients.get_mut(&id) {
            client.is_held = false;
            self.work(id);
        }
    }
}

/// Returns a word and names, with a space before each.
fn listed(word: &[u8], names: &[Vec<u8>]) -> Vec<u8> {
    let names = names.iter().map(Vec::as_slice);
    std::iter::once(word)
        .chain(names)
        .collect::<Vec<_>>()
        .join(&b' ')
}
