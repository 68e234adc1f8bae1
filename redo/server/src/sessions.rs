//! The sessions of the database, and the line of those who wait for one.

use std::collections::{BTreeSet, VecDeque};
use std::fmt;

/// So many clients have a session at a time, unless a server is called for fewer.
pub const MOST_RUNS: u32 = 1023;

/// A session of the database, by its number.
#[derive(Clone, Copy, Debug, PartialEq, Eq, PartialOrd, Ord, Hash)]
pub struct Session(u32);

impl Session {
    /// The one in which all clients without one ask.
    pub const QUESTIONS: Session = Session(MOST_RUNS + 1);

    /// Its number, from 1 on.
    pub fn number(self) -> u32 {
        self.0
    }
}

impl fmt::Display for Session {
    fn fmt(&self, formatter: &mut fmt::Formatter<'_>) -> fmt::Result {
        self.0.fmt(formatter)
    }
}

/// The sessions that are free, and the clients `C` that wait for one, first come, first served.
#[derive(Debug)]
pub struct Sessions<C> {
    runs: u32,
    free: BTreeSet<Session>,
    line: VecDeque<C>,
}

impl<C: PartialEq> Sessions<C> {
    /// So many are free, and at most [`MOST_RUNS`].
    pub fn new(runs: u32) -> Sessions<C> {
        let runs = runs.min(MOST_RUNS);
        Sessions {
            runs,
            free: (1..=runs).map(Session).collect(),
            line: VecDeque::new(),
        }
    }

    /// How many there are, free or not.
    pub fn count(&self) -> u32 {
        self.runs
    }

    /// Takes the lowest session that is free.
    pub fn take(&mut self) -> Option<Session> {
        let lowest = *self.free.iter().next()?;
        self.free.remove(&lowest);
        Some(lowest)
    }

    /// Takes a session, if one is free and nobody waits for it.
    pub fn take_at_once(&mut self) -> Option<Session> {
        if self.line.is_empty() {
            self.take()
        } else {
            None
        }
    }

    /// Takes a session back, which holds nothing.
    pub fn give_back(&mut self, session: Session) {
        self.free.insert(session);
    }

    /// Has a client wait behind those who wait already.
    pub fn wait(&mut self, client: C) {
        self.line.push_back(client);
    }

    /// Takes a client out of the line.
    pub fn forget(&mut self, client: &C) {
        self.line.retain(|other| other != client);
    }

    /// Takes the next client of the line, with its session, if one is free.
    pub fn take_next(&mut self) -> Option<(C, Session)> {
        if self.line.is_empty() {
            return None;
        }
        let session = self.take()?;
        self.line.pop_front().map(|client| (client, session))
    }
}

#[cfg(test)]
mod tests {
    use super::*;

    #[test]
    fn so_many_are_given_and_then_none() {
        assert_eq!(all(MOST_RUNS + 5).len(), 1023);
        let mut sessions = Sessions::<u8>::new(63);
        let given: Vec<String> = std::iter::from_fn(|| sessions.take())
            .map(|session| session.to_string())
            .collect();
        let wanted: Vec<String> = (1..64).map(|number| number.to_string()).collect();
        assert_eq!(given, wanted);
        assert_eq!(Session::QUESTIONS.to_string(), "1024");
    }

    fn all(runs: u32) -> Vec<Session> {
        let mut sessions = Sessions::<u8>::new(runs);
        std::iter::from_fn(|| sessions.take()).collect()
    }

    #[test]
    fn those_who_wait_are_served_in_their_order_by_the_lowest() {
        let mut sessions = Sessions::new(63);
        let all: Vec<Session> = std::iter::from_fn(|| sessions.take()).collect();
        sessions.wait("first");
        sessions.wait("gone");
        sessions.wait("second");
        assert_eq!(sessions.take_next(), None);
        sessions.forget(&"gone");
        sessions.give_back(all[40]);
        sessions.give_back(all[7]);
        assert_eq!(sessions.take_next(), Some(("first", all[7])));
        assert_eq!(sessions.take_next(), Some(("second", all[40])));
        assert_eq!(sessions.take_next(), None);
    }
}
