//! What redo's programs and the server of a tree tell each other.
//!
//! A program connects to `.redo/server/socket`, and sends the byte [`OPENING`], by which the server
//! tells it from a client that speaks lines of text. Then both sides send frames: the number of
//! bytes of the body, at most [`MOST_BODY`], as a `u32`, and the body. A body is a byte for the kind
//! of the message, and its fields. All numbers are little-endian. A text is a `u32` with its number
//! of bytes, and the bytes; a list is a `u32` with the number of its elements, and these.
//!
//! | Message | From | What it says |
//! |---|---|---|
//! | [`ToServer::Call`] | each program | how it was called: the first message, and the only one but of a run |
//! | [`ToProgram::Output`], [`ToProgram::Error`] | server | what to print |
//! | [`ToProgram::End`] | server | the status, and nothing follows |
//! | [`ToProgram::Run`], [`Want`](ToProgram::Want), [`Return`](ToProgram::Return), [`Say`](ToProgram::Say), [`Answer`](ToProgram::Answer), [`Stop`](ToProgram::Stop) | server | to a run: what it is to do |
//! | [`ToServer::Slot`], [`Ended`](ToServer::Ended), [`Close`](ToServer::Close) | run | how far it is |
//!
//! A run is a call of `redo` or of `redo-ifchange` by a user. If there is nothing to do, it gets
//! `End` at once. Else it gets no `End`: it starts the scripts of `Run` messages, and tells how
//! each ended. After `Answer`, once none of them runs any more, it sends `Close`, and is over. A
//! connection that breaks before means that the run is gone, and its scripts with it.
//!
//! Decoding takes any bytes: what is no message is a [`WireError`], and no list is taken for longer
//! than its bytes are.
//!
//! ```
//! use redo_wire::{FrameBuffer, ToProgram};
//!
//! let mut sent = Vec::new();
//! ToProgram::Output(b"all\n".to_vec()).encode(&mut sent)?;
//! ToProgram::End { status: 0 }.encode(&mut sent)?;
//! let mut received = FrameBuffer::default();
//! received.push(&sent);
//! let first = received.next_body()?.unwrap();
//! assert_eq!(ToProgram::decode(&first)?, ToProgram::Output(b"all\n".to_vec()));
//! # Ok::<(), redo_wire::WireError>(())
//! ```

#![forbid(unsafe_code)]
#![warn(missing_docs)]

mod call;
mod error;
mod field;
mod frames;
pub mod options;
mod program;
mod said;
mod to_program;
mod to_server;

pub use call::{Call, Digest, Limit, Surroundings, LIMITS};
pub use error::WireError;
pub use frames::{FrameBuffer, MOST_BODY, OPENING};
pub use program::Program;
pub use said::{Said, Say};
pub use to_program::{Script, ToProgram};
pub use to_server::ToServer;

/// The number of this form of the messages. A program and a server with other numbers don't
/// understand each other.
pub const VERSION: u32 = 1;
