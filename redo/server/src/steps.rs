//! What is done with the replies of the database.

use crate::client::ClientId;
use crate::sessions::Session;
use crate::waits::WaitId;
use crate::wire::RequestId;

/// Who takes a reply of the database.
#[derive(Clone, Debug, PartialEq, Eq)]
pub enum Taker {
    Nobody,
    /// The server, which learns all that the database knows.
    Names,
    /// The client that asked, as it is.
    Client(ClientId, RequestId),
    /// A look of a client, of which this reports one file.
    Look(Look),
    /// A wait for a lock.
    Lock(WaitId),
    /// The session has ended, and is free.
    End(Session),
}

/// A report of a look, of which the last one answers it.
#[derive(Clone, Debug, PartialEq, Eq)]
pub struct Look {
    pub client: ClientId,
    pub request: RequestId,
    /// How many reports it has; none for all but the last.
    pub count: Option<usize>,
}

/// What is done when all that was asked before is answered.
#[derive(Clone, Debug, PartialEq, Eq)]
pub enum After {
    /// Clients are let in.
    Begin,
    /// A client is answered.
    Answer(ClientId, RequestId, Answer),
    /// A client's lines are worked on again.
    GoOn(ClientId),
    /// Files are looked at for a client, whose lines are worked on again afterwards.
    Look(ClientId, RequestId, Vec<Vec<u8>>),
    /// A client that sends no more gets its last answers, and is gone.
    Finish(ClientId),
}

/// An answer of the server's own.
#[derive(Clone, Debug, PartialEq, Eq)]
pub enum Answer {
    Text(String),
    /// The stamp that the last `done` of a name gave.
    Made(Vec<u8>),
    /// Those of these targets, or of all, that were edited.
    Edited(Vec<Vec<u8>>),
    /// Those of these names that are late.
    Late {
        names: Vec<Vec<u8>>,
        since: i128,
    },
}
