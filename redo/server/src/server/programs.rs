//! Programs that speak frames.

use redo_core::TaskId;
use redo_files::stamp::Stamp as LookStamp;
use redo_wire::{Call, Program, ToProgram, ToServer, WireError};

use crate::client::{size_of, ClientId, Role, Standing};
use crate::server::{Server, State};

/// So many bytes of output has a message at most.
const MOST_OUTPUT: usize = 1 << 20;

pub(super) const FAILED: u8 = 1;
pub(super) const USAGE: u8 = 2;

impl Server {
    /// Takes bytes of a program, the first of which it opens by.
    pub(super) fn take_frames(&mut self, id: ClientId, count: usize, opens: bool) {
        if opens {
            self.stand(id, Standing::Program(Role::New));
        }
        if let Some(client) = self.clients.get_mut(&id) {
            client.is_new = false;
            client.frames.push(&self.room[usize::from(opens)..count]);
        }
        self.hear_program(id);
    }

    /// Works on the messages of all programs that have come.
    pub(super) fn hear_programs(&mut self) {
        let programs = self
            .clients
            .iter()
            .filter(|(_, client)| client.is_program());
        let mut ids: Vec<ClientId> = programs.map(|(id, _)| *id).collect();
        ids.sort_unstable();
        ids.into_iter().for_each(|id| self.hear_program(id));
    }

    /// Works on the messages of a program, as far as none has to wait.
    pub(super) fn hear_program(&mut self, id: ClientId) {
        while self.state == State::Ready {
            let message = match self.clients.get_mut(&id) {
                Some(client) if client.hears_frames() => client.frames.next_body(),
                _ => break,
            };
            let message = message.and_then(|body| match body {
                Some(body) => ToServer::decode(&body).map(Some),
                None => Ok(None),
            });
            match message {
                Ok(None) => break,
                Ok(Some(message)) => self.take_message(id, message),
                Err(error) => self.refuse_program(id, &error.to_string()),
            }
        }
        self.touch(id);
    }

    fn take_message(&mut self, id: ClientId, message: ToServer) {
        let role = match self.clients.get(&id).map(|client| &client.standing) {
            Some(Standing::Program(role)) => role.clone(),
            _ => return,
        };
        match (role, message) {
            (Role::New, ToServer::Call(call)) => self.take_call(id, call),
            (Role::Run(run), ToServer::Slot) => self.take_slot(run),
            (Role::Run(run), ToServer::Ended { task, ok, stamp }) => {
                let made = match stamp.map(|stamp| LookStamp::parse(&stamp)) {
                    Some(None) => return self.refuse_program(id, "no stamp"),
                    Some(made) => made,
                    None => None,
                };
                self.take_end(id, run, TaskId(task), ok.then_some(made));
            }
            (Role::Run(run), ToServer::Close) => {
                self.set_role(id, Role::Done);
                self.close_run(run);
                self.finish(id);
            }
            _ => self.refuse_program(id, "a message out of place"),
        }
    }

    fn take_call(&mut self, id: ClientId, call: Box<Call>) {
        if let Some(client) = self.clients.get_mut(&id) {
            client.call_size = size_of(&call);
        }
        match (call.program, call.task) {
            (program, Some(task)) if program.is_for_scripts() => {
                self.call_of_script(id, call, task)
            }
            (Program::Redo | Program::IfChange, _) => self.call_of_run(id, call),
            (Program::IfCreate | Program::Always | Program::Stamp, _) => {
                self.end_with(id, &call, "it is for .do files; see --help", USAGE);
            }
            _ => self.question(id, &call),
        }
    }

    pub(super) fn set_role(&mut self, id: ClientId, role: Role) {
        if let Some(client) = self.clients.get_mut(&id) {
            client.standing = Standing::Program(role);
        }
    }

    /// Tells a program something. What is too long for a message is said to be so.
    pub(super) fn send(&mut self, id: ClientId, message: &ToProgram) {
        let client = match self.clients.get_mut(&id) {
            Some(client) => client,
            None => return,
        };
        if let Err(error @ WireError::TooLong(_)) = client.tell(message) {
            let line = format!("redo: the server has {error} to send");
            let _ = client.tell(&ToProgram::Error(line.into_bytes())); // which is short
        }
        self.touch(id);
    }

    /// Has a program print bytes.
    pub(super) fn send_output(&mut self, id: ClientId, bytes: &[u8]) {
        for part in bytes.chunks(MOST_OUTPUT) {
            self.send(id, &ToProgram::Output(part.to_vec()));
        }
    }

    /// Has a program end.
    pub(super) fn end_program(&mut self, id: ClientId, status: u8) {
        self.set_role(id, Role::Done);
        self.send(id, &ToProgram::End { status });
        self.then_finish(id);
    }

    /// Has a program say a line after its name, and end.
    pub(super) fn end_with(&mut self, id: ClientId, call: &Call, text: &str, status: u8) {
        self.end_with_bytes(id, call.program, text.as_bytes(), status);
    }

    /// Has a program say a line after its name, and end. There is no LF in a line.
    pub(super) fn end_with_bytes(
        &mut self,
        id: ClientId,
        program: Program,
        text: &[u8],
        status: u8,
    ) {
        let mut line = [program.name().as_bytes(), b": ", text].concat();
        line.iter_mut()
            .filter(|byte| **byte == b'\n')
            .for_each(|byte| *byte = b' ');
        self.send(id, &ToProgram::Error(line));
        self.end_program(id, status);
    }

    /// Tells a program that the server can't go on. A run ends its scripts then.
    pub(super) fn fail_program(&mut self, id: ClientId, message: &str) {
        let role = match self.clients.get(&id).map(|client| &client.standing) {
            Some(Standing::Program(role)) => role.clone(),
            _ => return,
        };
        if role == Role::Done {
            return;
        }
        let line = format!("redo: {message}");
        self.send(id, &ToProgram::Error(line.into_bytes()));
        match role {
            Role::Run(_) => self.send(id, &ToProgram::Stop),
            _ => self.send(id, &ToProgram::End { status: FAILED }),
        }
    }

    /// Ends the connection of a program that doesn't speak as it should.
    pub(super) fn refuse_program(&mut self, id: ClientId, why: &str) {
        let line = format!("redo: the server was sent {why}");
        self.send(id, &ToProgram::Error(line.into_bytes()));
        let role = match self.clients.get_mut(&id) {
            Some(client) => {
                let standing = Standing::Program(Role::Done);
                std::mem::replace(&mut client.standing, standing)
            }
            None => return,
        };
        if let Standing::Program(role) = role {
            self.lose_program(role);
        }
        self.end_program(id, USAGE);
    }

    /// Takes it that a program is gone.
    pub(super) fn lose_program(&mut self, role: Role) {
        match role {
            Role::Run(run) => self.lose_run(run),
            Role::Asks(request) => self.lose_request(request),
            Role::New | Role::Waiting(_) | Role::Done => {}
        }
    }

    /// Ends the connection of a program once all is written.
    fn then_finish(&mut self, id: ClientId) {
        if let Some(client) = self.clients.get_mut(&id) {
            client.course = crate::client::Course::Closing;
        }
        self.touch(id);
    }
}
