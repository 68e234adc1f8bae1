//! Who waits for which lock, and which names need which others.

use std::collections::{HashMap, VecDeque};
use std::rc::Rc;

use crate::wire::TOP_LEVEL;

type Name = Rc<[u8]>;

/// A wait, by the order in which they came.
#[derive(Clone, Copy, Debug, PartialEq, Eq, PartialOrd, Ord, Hash)]
pub struct WaitId(u64);

/// Why nobody wants a wait any longer.
#[derive(Clone, Copy, Debug, PartialEq, Eq)]
pub enum GivenUp {
    /// Its client said so, and can still release a lock.
    Forgotten,
    /// Its client is gone, whose session ends.
    Lost,
}

/// What is to be done for a wait of an owner `O`, who is told of the answer.
#[derive(Clone, Debug, PartialEq, Eq)]
pub enum Effect<O> {
    /// The lock is to be asked for; the reply comes back by [`Waits::replied`].
    Lock {
        wait: WaitId,
        owner: O,
        target: Name,
    },
    /// A lock that was granted too late is to be released.
    Unlock { owner: O, target: Name },
    /// The owner is to be answered. The wait is answered once.
    Answer {
        wait: WaitId,
        owner: O,
        answer: Vec<u8>,
    },
}

#[derive(Debug)]
struct Wait<O> {
    target: Name,
    parent: Name,
    owner: O,
    given_up: Option<GivenUp>,
}

/// The waits of all sessions: a line for each lock, first come, first served.
///
/// A wait is an edge: its parent needs its target, from then on until the target is unlocked, or
/// the parent is.
#[derive(Debug)]
pub struct Waits<O> {
    waits: HashMap<WaitId, Wait<O>>,
    lines: HashMap<Name, VecDeque<WaitId>>,
    granted: HashMap<Name, WaitId>,
    needs: HashMap<Name, Vec<WaitId>>,
    arrivals: u64,
    effects: VecDeque<Effect<O>>,
}

impl<O: Clone> Waits<O> {
    pub fn new() -> Waits<O> {
        Waits {
            waits: HashMap::new(),
            lines: HashMap::new(),
            granted: HashMap::new(),
            needs: HashMap::new(),
            arrivals: 0,
            effects: VecDeque::new(),
        }
    }

    /// Begins a wait, which may be answered at once.
    pub fn add(&mut self, owner: O, target: &[u8], parent: &[u8]) -> WaitId {
        self.arrivals += 1;
        let wait = WaitId(self.arrivals);
        let begun = Wait {
            target: target.into(),
            parent: parent.into(),
            owner,
            given_up: None,
        };
        self.waits.insert(wait, begun);
        if target == parent {
            self.answer(wait, [b"ring ", target, b" ", target].concat());
            self.waits.remove(&wait);
        } else if self.lines.contains_key(target) {
            self.park(wait);
        } else {
            self.lock(wait);
        }
        wait
    }

    /// How many waits aren't over.
    pub fn count(&self) -> usize {
        self.waits.len()
    }

    /// Returns what is to be done next.
    pub fn next_effect(&mut self) -> Option<Effect<O>> {
        self.effects.pop_front()
    }

    /// Returns the target and the parent of a wait that isn't over.
    pub fn names(&self, wait: WaitId) -> Option<(&[u8], &[u8])> {
        let found = self.waits.get(&wait)?;
        Some((&found.target, &found.parent))
    }

    /// Takes the reply to the `lock` of a wait.
    pub fn replied(&mut self, wait: WaitId, reply: &[u8]) {
        let (target, given_up) = match self.waits.get(&wait) {
            Some(found) => (found.target.clone(), found.given_up),
            None => return,
        };
        let is_granted = reply.starts_with(b"granted ");
        match given_up {
            None if is_granted => self.grant(wait, reply),
            None if reply.starts_with(b"busy ") => self.park(wait),
            Some(_) if reply.starts_with(b"busy ") => self.drop_wait(wait),
            Some(GivenUp::Lost) if is_granted => self.drop_wait(wait),
            Some(GivenUp::Forgotten) if is_granted => self.unlock(wait),
            None => {
                self.answer(wait, reply.to_vec());
                self.drop_wait(wait);
                self.wake(&target);
            }
            Some(_) => {
                self.drop_wait(wait);
                self.wake(&target);
            }
        }
    }

    /// Takes it that a target was unlocked: the first one in its line asks for the lock.
    pub fn released(&mut self, target: &[u8]) {
        if let Some(wait) = self.granted.remove(target) {
            self.drop_wait(wait);
        }
        self.needs.remove(target);
        self.wake(target);
    }

    /// Ends a wait that wasn't answered. Nobody is answered by this.
    pub fn give_up(&mut self, wait: WaitId, why: GivenUp) {
        self.drop_edge(wait);
        let target = match self.waits.get_mut(&wait) {
            Some(found) => {
                found.given_up = Some(why);
                found.target.clone()
            }
            None => return,
        };
        let place = match self.lines.get(&target) {
            Some(line) => line.iter().position(|other| *other == wait),
            None => None,
        };
        if let Some(place) = place {
            self.take_from_line(&target, place);
            self.waits.remove(&wait);
        }
    }

    fn grant(&mut self, wait: WaitId, reply: &[u8]) {
        let target = self.waits.get(&wait).map(|found| found.target.clone());
        if let Some(before) = target.and_then(|target| self.granted.insert(target, wait)) {
            self.drop_wait(before);
        }
        self.add_edge(wait);
        self.answer(wait, reply.to_vec());
    }

    fn park(&mut self, wait: WaitId) {
        let (target, parent) = match self.waits.get(&wait) {
            Some(found) => (found.target.clone(), found.parent.clone()),
            None => return,
        };
        if let Some(path) = self.path(&target, &parent) {
            let names: Vec<&[u8]> = path.iter().chain([&target]).map(|name| &**name).collect();
            self.answer(wait, [b"ring ", names.join(&b' ').as_slice()].concat());
            self.drop_wait(wait);
            return;
        }
        self.add_edge(wait);
        let line = self.lines.entry(target).or_default();
        let later = line.iter().rev().take_while(|other| **other > wait).count();
        line.insert(line.len() - later, wait);
    }

    fn wake(&mut self, target: &[u8]) {
        if self.lines.contains_key(target) {
            if let Some(wait) = self.take_from_line(target, 0) {
                self.lock(wait);
            }
        }
    }

    fn take_from_line(&mut self, target: &[u8], place: usize) -> Option<WaitId> {
        let line = self.lines.get_mut(target)?;
        let wait = line.remove(place);
        if line.is_empty() {
            self.lines.remove(target);
        }
        wait
    }

    fn lock(&mut self, wait: WaitId) {
        if let Some(found) = self.waits.get(&wait) {
            self.effects.push_back(Effect::Lock {
                wait,
                owner: found.owner.clone(),
                target: found.target.clone(),
            });
        }
    }

    fn unlock(&mut self, wait: WaitId) {
        if let Some(found) = self.waits.get(&wait) {
            self.effects.push_back(Effect::Unlock {
                owner: found.owner.clone(),
                target: found.target.clone(),
            });
        }
        self.drop_wait(wait);
    }

    fn answer(&mut self, wait: WaitId, answer: Vec<u8>) {
        if let Some(found) = self.waits.get(&wait) {
            self.effects.push_back(Effect::Answer {
                wait,
                owner: found.owner.clone(),
                answer,
            });
        }
    }

    fn drop_wait(&mut self, wait: WaitId) {
        self.drop_edge(wait);
        self.waits.remove(&wait);
    }

    fn add_edge(&mut self, wait: WaitId) {
        if let Some(found) = self.waits.get(&wait) {
            let needs = self.needs.entry(found.parent.clone()).or_default();
            if !needs.contains(&wait) {
                needs.push(wait);
            }
        }
    }

    fn drop_edge(&mut self, wait: WaitId) {
        let parent = match self.waits.get(&wait) {
            Some(found) => found.parent.clone(),
            None => return,
        };
        if let Some(needs) = self.needs.get_mut(&parent) {
            needs.retain(|other| *other != wait);
            if needs.is_empty() {
                self.needs.remove(&parent);
            }
        }
    }

    /// Returns the shortest list from a name to another in which each needs the next, or None.
    fn path(&self, start: &Name, end: &Name) -> Option<Vec<Name>> {
        if **end == *TOP_LEVEL {
            return None;
        }
        let mut came_from = HashMap::from([(start.clone(), start.clone())]);
        let mut line = VecDeque::from([start.clone()]);
        while let Some(name) = line.pop_front() {
            if name == *end {
                return Some(way_back(&came_from, start, name));
            }
            let needed = self.needed_by(&name).into_iter();
            let new = needed.filter(|next| is_new(&mut came_from, next, &name));
            line.extend(new);
        }
        None
    }

    fn needed_by(&self, name: &[u8]) -> Vec<Name> {
        let needs = self.needs.get(name).into_iter().flatten();
        needs
            .filter_map(|wait| self.waits.get(wait))
            .map(|found| found.target.clone())
            .collect()
    }
}

impl<O: Clone> Default for Waits<O> {
    fn default() -> Self {
        Waits::new()
    }
}

/// Notes from which name a search came to another. Says whether it is there for the first time.
fn is_new(came_from: &mut HashMap<Name, Name>, name: &Name, before: &Name) -> bool {
    let is_new = !came_from.contains_key(name);
    if is_new {
        came_from.insert(name.clone(), before.clone());
    }
    is_new
}

/// Returns the names from the start of a search to one that was found.
fn way_back(came_from: &HashMap<Name, Name>, start: &Name, end: Name) -> Vec<Name> {
    let before = |name: &Name| came_from.get(name).filter(|_| name != start).cloned();
    let mut path: Vec<Name> = std::iter::successors(Some(end), before).collect();
    path.reverse();
    path
}

#[cfg(test)]
mod tests;
