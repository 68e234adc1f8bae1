//! One client of the server.

use std::io::{self, Read};
use std::mem;
use std::os::unix::net::UnixStream;

use redo_wire::{Call, FrameBuffer, ToProgram, WireError};

use crate::groups::Groups;
use crate::live::is_passing;
use crate::outbox::Outbox;
use crate::sessions::Session;
use crate::system::{Interest, Poll};
use crate::waits::WaitId;
use crate::wire::{Inbox, RequestId};

/// A client. No two clients of a server have the same.
#[derive(Clone, Copy, Debug, PartialEq, Eq, PartialOrd, Ord, Hash)]
pub struct ClientId(pub u64);

/// What a client may ask.
#[derive(Clone, Debug, PartialEq, Eq)]
pub enum Standing {
    /// Nothing yet: it waits for its greeting, with a session.
    InLine,
    /// Nothing yet: it wants no session, and waits for the database.
    WillAsk,
    /// Questions.
    Asks,
    /// Nothing: it waits for a session, since it has asked for one in its turn.
    InTurn(RequestId),
    /// All.
    Has(Session),
    /// What its messages say: it is a program that speaks frames.
    Program(Role),
}

/// What a program wants.
#[derive(Clone, Debug, PartialEq, Eq)]
pub enum Role {
    /// Its first message hasn't come.
    New,
    /// To build, as soon as there is a session for it.
    Waiting(Box<Call>),
    /// It is this run.
    Run(redo_core::RunId),
    /// The answer to this request.
    Asks(u64),
    /// Nothing any more: it was told how it ends.
    Done,
}

impl Standing {
    /// Returns the session in which its lines are asked, if they may be.
    pub fn asks_in(&self) -> Option<Session> {
        match self {
            Standing::Has(session) => Some(*session),
            Standing::Asks => Some(Session::QUESTIONS),
            Standing::InLine | Standing::WillAsk | Standing::InTurn(_) | Standing::Program(_) => {
                None
            }
        }
    }

    /// Returns the session that is its own.
    pub fn session(&self) -> Option<Session> {
        match self {
            Standing::Has(session) => Some(*session),
            _ => None,
        }
    }
}

/// How a client's connection is.
#[derive(Clone, Copy, Debug, PartialEq, Eq)]
pub enum Course {
    Open,
    /// It sends no more; what it has sent is worked on.
    Ended,
    /// It gets what was said, and then the connection ends.
    Closing,
}

/// A client, its lines and what it is told.
#[derive(Debug)]
pub struct Client {
    pub socket: UnixStream,
    pub standing: Standing,
    pub course: Course,
    pub inbox: Inbox,
    pub frames: FrameBuffer,
    /// So many bytes has the call of a program.
    pub call_size: usize,
    pub outbox: Outbox,
    pub groups: Groups,
    /// The waits that aren't answered, each with its request.
    pub waits: Vec<(WaitId, RequestId)>,
    /// Whether no line has come yet.
    pub is_new: bool,
    /// Whether what comes waits until all before is answered.
    pub is_held: bool,
    /// Whether it is to be flushed.
    pub is_touched: bool,
    /// How many lines were worked on since it was held.
    pub ahead: usize,
    /// The first fault of the look that runs.
    pub look_fault: Option<Vec<u8>>,
    interest: Interest,
}

/// How many bytes a call has, of which each of its texts needs some more.
pub fn size_of(call: &Call) -> usize {
    let texts = call.words.iter().chain(&call.surroundings.environment);
    texts.map(|text| text.len() + mem::size_of_val(text)).sum()
}

/// What came from a client.
#[derive(Debug)]
pub enum Came {
    Nothing,
    Bytes(usize),
    /// It sends no more.
    End,
    /// The connection is broken.
    Loss,
}

impl Client {
    pub fn new(socket: UnixStream) -> Client {
        Client {
            socket,
            standing: Standing::InLine,
            course: Course::Open,
            inbox: Inbox::default(),
            frames: FrameBuffer::default(),
            call_size: 0,
            outbox: Outbox::default(),
            groups: Groups::default(),
            waits: Vec::new(),
            is_new: true,
            is_held: false,
            is_touched: false,
            ahead: 0,
            look_fault: None,
            interest: Interest::NOTHING,
        }
    }

    /// Says whether its lines may be worked on now.
    pub fn can_work(&self) -> bool {
        self.standing.asks_in().is_some()
            && !self.is_held
            && !self.outbox.is_stuffed()
            && self.course != Course::Closing
    }

    /// Reads what is there.
    pub fn receive(&mut self, room: &mut [u8]) -> Came {
        if self.course != Course::Open {
            return Came::Nothing;
        }
        match self.socket.read(room) {
            Ok(0) => Came::End,
            Ok(count) => Came::Bytes(count),
            Err(cause) if is_passing(&cause) => Came::Nothing,
            Err(_) => Came::Loss,
        }
    }

    /// Has the client wait to be told a line.
    pub fn say(&mut self, line: &[u8]) {
        self.outbox.push(line);
        self.outbox.push(b"\n");
    }

    /// Has a program wait to be told a message.
    pub fn tell(&mut self, message: &ToProgram) -> Result<(), WireError> {
        let mut frame = Vec::new();
        message.encode(&mut frame)?;
        self.outbox.push(&frame);
        Ok(())
    }

    /// Says whether a message of it may be worked on now.
    pub fn hears_frames(&self) -> bool {
        let hears = matches!(
            self.standing,
            Standing::Program(Role::New | Role::Run(_) | Role::Asks(_))
        );
        hears && self.course != Course::Closing
    }

    /// How many bytes are kept for it: of what it has sent, and of what it is told.
    pub fn kept(&self) -> usize {
        self.frames.rest().len() + self.call_size + self.outbox.unsent()
    }

    pub fn is_program(&self) -> bool {
        matches!(self.standing, Standing::Program(_))
    }

    /// Waits for what is to come now, and for room for what is to go.
    pub fn regulate(&mut self, id: ClientId, poll: &Poll) -> io::Result<()> {
        let wanted = Interest {
            reads: self.course == Course::Open && !self.inbox.is_full() && !self.frames.is_full(),
            writes: !self.outbox.is_empty(),
        };
        if wanted != self.interest {
            poll.change(&self.socket, id.0, self.interest, wanted)?;
            self.interest = wanted;
        }
        Ok(())
    }
}
