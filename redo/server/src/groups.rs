//! Process groups that end with a connection.

use std::collections::{BTreeMap, HashMap};
use std::os::unix::net::UnixStream;

use crate::processes::{groups_of_scripts, groups_with, Namespace, Process};
use crate::system::{self, Signal};

const SOCKET: &[u8] = b"REDO_SOCKET=";
const MOST_DIGITS: usize = 9;

/// What tells the leader of a group from others.
#[derive(Clone, Debug, PartialEq, Eq)]
struct Leader {
    began: Option<u64>,
    namespace: Option<Namespace>,
    /// The socket of the run that started it, which is in the environment of the group.
    socket: Option<Vec<u8>>,
}

/// The process groups of one client: when it is gone, they are killed.
///
/// A group that may be another one by now lives on: if its leader isn't the one that the client
/// saw, or is gone, and no process in it has the client's socket in its environment; and any group
/// of a PID namespace that isn't the server's, where numbers have another meaning.
#[derive(Debug, Default)]
pub struct Groups(BTreeMap<i32, Leader>);

impl Groups {
    /// How many groups there are.
    pub fn count(&self) -> usize {
        self.0.len()
    }

    /// Takes a group of a client: its number, and what is known of its leader. Says whether it can
    /// be one. Of a group that is given by its number alone, the server finds out by itself.
    pub fn add(&mut self, words: &[&[u8]], client: &UnixStream) -> bool {
        let number = words.first().copied().and_then(group_number);
        let leader = match *words {
            [_] => number.map(|number| Leader::find(number, client)),
            [_, began, namespace, socket] => Some(Leader {
                began: std::str::from_utf8(began)
                    .ok()
                    .and_then(|text| text.parse().ok()),
                namespace: Namespace::parse(namespace),
                socket: from_digits(socket).filter(|socket| !socket.is_empty()),
            }),
            _ => None,
        };
        match (number, leader) {
            (Some(number), Some(leader)) => {
                self.0.insert(number, leader);
                true
            }
            _ => false,
        }
    }

    /// Forgets a group. Says whether it was one of these.
    pub fn remove(&mut self, words: &[&[u8]]) -> bool {
        match *words {
            [number] => {
                group_number(number).map_or(false, |number| self.0.remove(&number).is_some())
            }
            _ => false,
        }
    }

    /// Kills what runs in the groups, and forgets them.
    pub fn kill(&mut self) {
        let groups = std::mem::take(&mut self.0);
        if groups.is_empty() {
            return;
        }
        let own = Namespace::own();
        let mut runs = Runs::default();
        for (number, leader) in groups {
            let is_here = own.is_some() && leader.namespace == own;
            if is_here
                && system::signal_group(number, Signal::Probe)
                && leader.leads(number, &mut runs)
            {
                system::signal_group(number, Signal::Kill);
            }
        }
    }
}

impl Leader {
    /// Finds out about the leader of a group of a client.
    fn find(number: i32, client: &UnixStream) -> Leader {
        let peer = system::peer_process(client).ok();
        Leader {
            began: Process::find(number).map(|process| process.began),
            namespace: peer.filter(|peer| *peer > 0).and_then(Namespace::of),
            socket: None,
        }
    }

    /// Says whether a group is still the one that it leads, or of the run that started it. While a
    /// process is in its group, no other has its number.
    fn leads(&self, number: i32, runs: &mut Runs) -> bool {
        let found = Process::find(number).map(|process| process.began);
        if found.is_some() && found == self.began {
            return true;
        }
        let socket = self.socket.as_ref();
        socket.map_or(false, |socket| runs.groups(socket).contains(&number))
    }
}

/// The groups of the processes that have the socket of a run in their environment, by the socket.
#[derive(Debug, Default)]
struct Runs(HashMap<Vec<u8>, Vec<i32>>);

impl Runs {
    fn groups(&mut self, socket: &[u8]) -> &[i32] {
        let find = || groups_with(&[SOCKET, socket].concat());
        self.0.entry(socket.to_vec()).or_insert_with(find)
    }
}

/// Kills the process groups of scripts, by the socket and the tasks in their environment.
pub fn kill_scripts(socket: &[u8], tasks: &[u64]) {
    let mut groups = groups_of_scripts(&[SOCKET, socket].concat(), tasks);
    groups.sort_unstable();
    groups.dedup();
    let own = system::own_group();
    for group in groups.into_iter().filter(|group| *group != own) {
        system::signal_group(group, Signal::Kill);
    }
}

/// Reads the number of a group that may be killed: not that of the server, nor all processes.
fn group_number(digits: &[u8]) -> Option<i32> {
    if digits.len() > MOST_DIGITS || !digits.iter().all(u8::is_ascii_digit) {
        return None;
    }
    let number: i32 = std::str::from_utf8(digits).ok()?.parse().ok()?;
    (number > 1 && number != system::own_group()).then_some(number)
}

/// Reads bytes that are written as two hexadecimal digits each.
pub fn from_digits(digits: &[u8]) -> Option<Vec<u8>> {
    let digit = |byte: &u8| char::from(*byte).to_digit(16);
    let pairs = digits.chunks(2).map(|pair| match pair {
        [high, low] => u8::try_from(digit(high)? << 4 | digit(low)?).ok(),
        _ => None,
    });
    pairs.collect()
}

#[cfg(test)]
mod tests {
    use super::*;

    fn client() -> UnixStream {
        UnixStream::pair().unwrap().0
    }

    #[test]
    fn a_group_has_a_number_that_may_be_killed() {
        let mut groups = Groups::default();
        let own = system::own_group().to_string();
        for number in ["0", "1", "", "-5", "x", "1234567890", &own] {
            assert!(!groups.add(&[number.as_bytes()], &client()), "{number}");
        }
        assert!(groups.add(&[b"99999999"], &client()));
        assert!(groups.remove(&[b"99999999"]));
        assert!(!groups.remove(&[b"99999999"]));
    }

    #[test]
    fn a_group_is_told_in_one_word_or_in_four() {
        let mut groups = Groups::default();
        assert!(groups.add(&[b"99999999", b"5", b"6", b"-"], &client()));
        assert!(!groups.add(&[b"99999999", b"5"], &client()));
        assert!(!groups.add(&[], &client()));
    }

    #[test]
    fn digits_are_pairs() {
        assert_eq!(from_digits(b"2f61"), Some(b"/a".to_vec()));
        assert_eq!(from_digits(b"-"), None);
        assert_eq!(from_digits(b"2x"), None);
    }
}
