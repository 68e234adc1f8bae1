//! The conversation with the database: a command goes in, and its reply comes out.
//!
//! The database answers line by line, in order, so the line of those who asked says whose a reply
//! is. Nothing is read or written here: [`Conversation::out`] has what is to be written.

use std::collections::VecDeque;

use crate::outbox::Outbox;
use crate::sessions::Session;
use crate::wire::{is_stamping, partition};

const ARROW: &[u8] = b" => ";

/// Whether a request is answered by the first line, or by the last of several.
#[derive(Clone, Copy, Debug, PartialEq, Eq)]
pub enum Span {
    OneLine,
    /// The closing commands of a session come first, each on a line of its own.
    UpToEnd,
}

/// A line that the database has answered.
#[derive(Clone, Copy, Debug, PartialEq, Eq)]
pub struct Told<'a> {
    /// The command, or nothing if the line is a fault.
    pub command: &'a [u8],
    pub reply: &'a [u8],
}

impl<'a> Told<'a> {
    /// Reads a line `SESSION COMMAND => REPLY` or `SESSION fault WORD`.
    pub fn parse(line: &'a [u8]) -> Told<'a> {
        let (_, text) = partition(line);
        match text.windows(ARROW.len()).position(|part| part == ARROW) {
            Some(at) => Told {
                command: &text[..at],
                reply: &text[at + ARROW.len()..],
            },
            None => Told {
                command: b"",
                reply: text,
            },
        }
    }

    /// Says whether the closing commands of a session end with this line.
    fn is_end(&self) -> bool {
        self.command.is_empty() || partition(self.command).0 == b"end"
    }
}

/// Whom a line of the database is for.
#[derive(Debug, PartialEq, Eq)]
pub enum Addressee<T> {
    /// This one waits for it.
    Taker(T),
    /// It is a closing command: the answer comes later.
    Nobody,
    /// Nothing was asked.
    Unasked,
}

/// What is due, in its order. `T` takes a reply, `A` is done when all before it is answered.
#[derive(Debug)]
enum Due<T, A> {
    Reply(T, Span),
    Then(A),
}

/// The lines that were asked, and who takes the reply to each.
#[derive(Debug)]
pub struct Conversation<T, A> {
    /// What is to be written to the database.
    pub out: Outbox,
    due: VecDeque<Due<T, A>>,
    asked: u64,
    answered: u64,
    /// How many were asked up to the last one that may give a file another stamp.
    stamping: u64,
}

impl<T, A> Conversation<T, A> {
    pub fn new() -> Conversation<T, A> {
        Conversation {
            out: Outbox::default(),
            due: VecDeque::new(),
            asked: 0,
            answered: 0,
            stamping: 0,
        }
    }

    /// Asks for a session. The reply is for the taker.
    pub fn ask(&mut self, session: Session, request: &[u8], span: Span, taker: T) {
        self.out.push(session.to_string().as_bytes());
        self.out.push(b" ");
        self.out.push(request);
        self.out.push(b"\n");
        self.due.push_back(Due::Reply(taker, span));
        self.asked += 1;
        if is_stamping(request) {
            self.stamping = self.asked;
        }
    }

    /// Has something done when all that was asked so far is answered. Returns it if all is, so
    /// that it is done now.
    pub fn then(&mut self, after: A) -> Option<A> {
        if self.due.is_empty() {
            return Some(after);
        }
        self.due.push_back(Due::Then(after));
        None
    }

    /// Says whether all is answered that can give a file another stamp.
    pub fn knows_stamps(&self) -> bool {
        self.stamping <= self.answered
    }

    /// Says whether an answer is due.
    pub fn is_due(&self) -> bool {
        !self.due.is_empty()
    }

    /// Takes a line that the database has answered, and says whom it is for.
    pub fn take(&mut self, told: &Told<'_>) -> Addressee<T> {
        match self.due.front() {
            Some(Due::Reply(_, Span::UpToEnd)) if !told.is_end() => return Addressee::Nobody,
            Some(Due::Reply(..)) => {}
            Some(Due::Then(_)) | None => return Addressee::Unasked,
        }
        match self.due.pop_front() {
            Some(Due::Reply(taker, _)) => {
                self.answered += 1;
                Addressee::Taker(taker)
            }
            _ => Addressee::Unasked,
        }
    }

    /// Returns the next that is to be done, since all before it is answered.
    pub fn next_due(&mut self) -> Option<A> {
        if !matches!(self.due.front(), Some(Due::Then(_))) {
            return None;
        }
        match self.due.pop_front() {
            Some(Due::Then(after)) => Some(after),
            _ => None,
        }
    }
}

impl<T, A> Default for Conversation<T, A> {
    fn default() -> Self {
        Conversation::new()
    }
}

/// Says whether a line is `redodb-live VERSION restored NUMBER`.
pub fn is_greeting(line: &[u8]) -> bool {
    let words: Vec<&[u8]> = line.split(|byte| *byte == b' ').collect();
    matches!(words[..], [b"redodb-live", _, b"restored", number]
        if !number.is_empty() && number.iter().all(u8::is_ascii_digit))
}

#[cfg(test)]
mod tests {
    use super::*;

    fn session() -> Session {
        Session::QUESTIONS
    }

    fn taken(
        conversation: &mut Conversation<&'static str, &'static str>,
        line: &str,
    ) -> (Addressee<&'static str>, String) {
        let told = Told::parse(line.as_bytes());
        let reply = String::from_utf8(told.reply.to_vec()).unwrap();
        (conversation.take(&told), reply)
    }

    #[test]
    fn replies_come_to_those_who_asked_in_their_order() {
        let mut talk = Conversation::new();
        talk.ask(session(), b"lock a", Span::OneLine, "first");
        talk.ask(session(), b"oood", Span::OneLine, "second");
        assert_eq!(talk.out.unsent(), b"1024 lock a\n1024 oood\n".len());
        assert_eq!(
            taken(&mut talk, "1024 lock a => granted 1"),
            (Addressee::Taker("first"), "granted 1".to_owned())
        );
        assert_eq!(
            taken(&mut talk, "1024 fault unknown-command"),
            (
                Addressee::Taker("second"),
                "fault unknown-command".to_owned()
            )
        );
        assert_eq!(taken(&mut talk, "1024 ood => ood").0, Addressee::Unasked);
    }

    #[test]
    fn an_end_is_answered_after_the_closing_commands() {
        let mut talk = Conversation::new();
        talk.ask(session(), b"end", Span::UpToEnd, "end");
        for line in ["1024 failed a => ok", "1024 unlock a => ok"] {
            assert_eq!(taken(&mut talk, line).0, Addressee::Nobody);
        }
        assert_eq!(
            taken(&mut talk, "1024 end => ok").0,
            Addressee::Taker("end")
        );
    }

    #[test]
    fn an_end_may_be_a_fault() {
        let mut talk = Conversation::new();
        talk.ask(session(), b"end", Span::UpToEnd, "end");
        assert_eq!(
            taken(&mut talk, "1024 fault memory"),
            (Addressee::Taker("end"), "fault memory".to_owned())
        );
    }

    #[test]
    fn what_is_to_be_done_afterwards_stands_in_its_place() {
        let mut talk = Conversation::new();
        assert_eq!(talk.then("at once"), Some("at once"));
        talk.ask(session(), b"ood", Span::OneLine, "first");
        assert_eq!(talk.then("later"), None);
        talk.ask(session(), b"ood", Span::OneLine, "second");
        assert_eq!(talk.next_due(), None);
        assert_eq!(
            taken(&mut talk, "1024 ood => ood").0,
            Addressee::Taker("first")
        );
        assert_eq!(talk.next_due(), Some("later"));
        assert_eq!(talk.next_due(), None);
    }

    #[test]
    fn stamps_are_known_when_all_is_answered_that_gives_some() {
        let mut talk = Conversation::<&str, &str>::new();
        assert!(talk.knows_stamps());
        talk.ask(session(), b"lock a", Span::OneLine, "first");
        assert!(talk.knows_stamps());
        talk.ask(session(), b"done a 1", Span::OneLine, "second");
        talk.ask(session(), b"ood", Span::OneLine, "third");
        assert_eq!(
            taken(&mut talk, "1024 lock a => busy 1").0,
            Addressee::Taker("first")
        );
        assert!(!talk.knows_stamps());
        taken(&mut talk, "1024 done a 1 => refused not-building");
        assert!(talk.knows_stamps());
    }

    #[test]
    fn a_greeting_names_the_program_and_a_number() {
        assert!(is_greeting(b"redodb-live 0.3.0 restored 17"));
        for line in [
            "hello",
            "",
            "redodb-live 0.3.0 restored",
            "redodb-live 0.3.0 restored x",
            "redodb-live 0.3.0 restored 1 2",
        ] {
            assert!(!is_greeting(line.as_bytes()), "{line}");
        }
    }
}
