//! redodb-live, and what is said to it.

use std::fs::File;
use std::io::{self, ErrorKind, Read, Write};

use crate::conversation::Conversation;
use crate::outbox::Change;
use crate::program::Program;
use crate::steps::{After, Taker};
use crate::system::{self, Interest, Poll};

/// The numbers of its two pipes.
pub const INPUT: u64 = 2;
pub const OUTPUT: u64 = 3;

const MOST_READ: usize = 1 << 12;

/// The program, if one runs, and the conversation with it.
#[derive(Debug, Default)]
pub struct Live {
    pub conversation: Conversation<Taker, After>,
    program: Option<Program>,
    /// The beginning of a line whose end hasn't come.
    rest: Vec<u8>,
    is_greeted: bool,
    /// Nothing is asked any more.
    is_ending: bool,
    writing: Interest,
}

/// What came from the program.
#[derive(Debug)]
pub enum Came {
    /// Nothing, for now.
    Nothing,
    /// So many bytes.
    Bytes(usize),
    /// Its end.
    End,
}

impl Live {
    /// Talks with a program that was started.
    pub fn begin(&mut self, program: Program, poll: &Poll) -> io::Result<()> {
        poll.change(&program.output, OUTPUT, Interest::NOTHING, Interest::READS)?;
        self.program = Some(program);
        self.rest.clear();
        self.is_greeted = false;
        self.writing = Interest::NOTHING;
        Ok(())
    }

    /// Takes it that the program has greeted: what was asked before is written now.
    pub fn greet(&mut self) {
        self.is_greeted = true;
    }

    pub fn is_greeted(&self) -> bool {
        self.is_greeted
    }

    pub fn is_there(&self) -> bool {
        self.program.is_some()
    }

    /// Says whether the program doesn't take its lines.
    pub fn is_stuffed(&self) -> bool {
        self.conversation.out.is_stuffed()
    }

    /// Takes the program, which has ended, or is to.
    pub fn take_program(&mut self, poll: &Poll) -> Option<Program> {
        let program = self.program.take()?;
        let _ = poll.change(&program.output, OUTPUT, Interest::READS, Interest::NOTHING);
        if let Some(input) = &program.input {
            let _ = poll.change(input, INPUT, self.writing, Interest::NOTHING);
        }
        self.writing = Interest::NOTHING;
        Some(program)
    }

    /// Ends the input of the program when all is written, after which it ends. Says whether it was
    /// there.
    pub fn end(&mut self) -> bool {
        self.is_ending = self.program.is_some();
        self.is_ending
    }

    /// Reads what is there.
    pub fn receive(&mut self, room: &mut [u8]) -> Came {
        let program = match &mut self.program {
            Some(program) => program,
            None => return Came::Nothing,
        };
        match program.output.read(room) {
            Ok(0) => Came::End,
            Ok(count) => Came::Bytes(count),
            Err(cause) if is_passing(&cause) => Came::Nothing,
            Err(_) => Came::End,
        }
    }

    /// Says whether something is to be written, or an answer is due.
    pub fn is_busy(&self) -> bool {
        !self.conversation.out.is_empty() || self.conversation.is_due()
    }

    /// Waits until the program has said something, or takes what is to be written.
    pub fn wait(&self) -> io::Result<()> {
        match &self.program {
            Some(program) if self.conversation.is_due() => system::wait_readable(&program.output),
            _ => Ok(()),
        }
    }

    /// Asks so many lines, and waits for their answers, one line each, which are put into
    /// `answers`. Nothing else is to be written, and no other answer is due. The lines are few
    /// enough for a pipe.
    pub fn ask_now(&self, lines: &[u8], count: usize, answers: &mut Vec<u8>) -> io::Result<()> {
        let program = self.program.as_ref().ok_or(ErrorKind::BrokenPipe)?;
        let input = program.input.as_ref().ok_or(ErrorKind::BrokenPipe)?;
        write_now(input, lines)?;
        answers.clear();
        let mut come = 0;
        while come < count {
            let before = answers.len();
            read_now(&program.output, answers)?;
            come += answers[before..]
                .iter()
                .filter(|byte| **byte == b'\n')
                .count();
        }
        Ok(())
    }

    /// Returns the whole lines that have come, with an LF after each.
    pub fn whole_lines(&mut self, data: &[u8]) -> Vec<u8> {
        match data.iter().rposition(|byte| *byte == b'\n') {
            None => {
                self.rest.extend_from_slice(data);
                Vec::new()
            }
            Some(end) => {
                let mut lines = std::mem::take(&mut self.rest);
                lines.extend_from_slice(&data[..=end]);
                self.rest.extend_from_slice(&data[end + 1..]);
                lines
            }
        }
    }

    /// Writes what was asked, as far as it goes without waiting.
    pub fn flush(&mut self, poll: &Poll) -> Change {
        let program = match &mut self.program {
            Some(program) if self.is_greeted || self.is_ending => program,
            _ => return Change::Free,
        };
        let input = match &mut program.input {
            Some(input) => input,
            None => return Change::Free,
        };
        let out = &mut self.conversation.out;
        let change = out.flush(input).unwrap_or_else(|_| {
            out.clear(); // its output ends as well, and says why
            Change::Free
        });
        let wanted = Interest {
            reads: false,
            writes: !out.is_empty(),
        };
        if wanted != self.writing && poll.change(input, INPUT, self.writing, wanted).is_ok() {
            self.writing = wanted;
        }
        if self.is_ending && self.conversation.out.is_empty() {
            program.input = None;
        }
        change
    }
}

/// Writes all of some lines, waiting for room.
fn write_now(mut input: &File, mut lines: &[u8]) -> io::Result<()> {
    while !lines.is_empty() {
        match input.write(lines) {
            Ok(0) => return Err(ErrorKind::WriteZero.into()),
            Ok(count) => lines = &lines[count..],
            Err(cause) if is_passing(&cause) => system::wait_writable(input)?,
            Err(cause) => return Err(cause),
        }
    }
    Ok(())
}

/// Reads what has come behind what was read before, waiting for it.
fn read_now(mut output: &File, answers: &mut Vec<u8>) -> io::Result<()> {
    let mut room = [0; MOST_READ];
    loop {
        system::wait_readable(output)?;
        match output.read(&mut room) {
            Ok(0) => return Err(ErrorKind::UnexpectedEof.into()),
            Ok(count) => {
                answers.extend_from_slice(&room[..count]);
                return Ok(());
            }
            Err(cause) if is_passing(&cause) => {}
            Err(cause) => return Err(cause),
        }
    }
}

/// Says whether a read may be tried again later.
pub fn is_passing(cause: &io::Error) -> bool {
    matches!(cause.kind(), ErrorKind::WouldBlock | ErrorKind::Interrupted)
}
