//! Things that have numbers.

use std::collections::HashMap;
use std::hash::Hash;

/// Before so many are kept, none is looked for that nobody uses.
const FEW: usize = 1024;

/// Things, each kept once, with a number while somebody uses it.
#[derive(Debug)]
pub struct Interned<T> {
    numbers: HashMap<T, u32>,
    things: Vec<Option<T>>,
    /// Numbers of no thing.
    free: Vec<u32>,
    /// How many were in use when that was looked for.
    used: usize,
}

impl<T: Clone + Eq + Hash> Interned<T> {
    /// The first things, with the numbers from 0 on, are kept for good.
    pub fn new(first: impl IntoIterator<Item = T>) -> Interned<T> {
        let mut interned = Interned {
            numbers: HashMap::new(),
            things: Vec::new(),
            free: Vec::new(),
            used: 0,
        };
        for thing in first {
            interned.number(&thing);
        }
        interned
    }

    /// Returns the number of a thing, which has one from now on.
    pub fn number(&mut self, thing: &T) -> u32 {
        if let Some(number) = self.numbers.get(thing) {
            return *number;
        }
        let number = match self.free.pop() {
            Some(number) => number,
            None => {
                self.things.push(None);
                u32::try_from(self.things.len() - 1).unwrap_or(u32::MAX)
            }
        };
        self.things[number as usize] = Some(thing.clone());
        self.numbers.insert(thing.clone(), number);
        number
    }

    /// Returns the number of a thing, if it has one.
    pub fn known_number(&self, thing: &T) -> Option<u32> {
        self.numbers.get(thing).copied()
    }

    /// Returns the thing of a number that is in use.
    pub fn thing(&self, number: u32) -> Option<&T> {
        self.things.get(number as usize)?.as_ref()
    }

    /// Says whether so many are kept that it is time to look for those that nobody uses.
    pub fn is_crowded(&self) -> bool {
        self.numbers.len() > FEW.max(2 * self.used)
    }

    /// Forgets all things but those whose numbers are in use.
    pub fn keep(&mut self, is_used: impl Fn(u32) -> bool) {
        for (number, thing) in (0..).zip(&mut self.things) {
            if thing.is_some() && !is_used(number) {
                if let Some(thing) = thing.take() {
                    self.numbers.remove(&thing);
                }
                self.free.push(number);
            }
        }
        self.used = self.numbers.len();
    }
}

#[cfg(test)]
mod tests {
    use super::*;

    #[test]
    fn equal_things_have_one_number() {
        let mut words = Interned::new(["none"]);
        assert_eq!(words.number(&"none"), 0);
        let (first, second) = (words.number(&"a"), words.number(&"b"));
        assert_ne!(first, second);
        assert_eq!(words.number(&"a"), first);
        assert_eq!(words.thing(second), Some(&"b"));
        assert_eq!(words.thing(77), None);
    }

    #[test]
    fn the_number_of_what_nobody_uses_is_given_again() {
        let mut numbers = Interned::new([]);
        for thing in 0..=FEW {
            assert!(!numbers.is_crowded());
            numbers.number(&thing);
        }
        assert!(numbers.is_crowded());
        numbers.keep(|number| number != 5);
        assert!(!numbers.is_crowded());
        assert_eq!(numbers.thing(5), None);
        assert_eq!(numbers.number(&5000), 5);
        assert_eq!(numbers.known_number(&6), Some(6));
    }
}
