//! Numbers that nobody knows before.

use std::collections::hash_map::RandomState;
use std::hash::{BuildHasher, Hasher};

/// A source of such numbers.
#[derive(Debug)]
pub struct Random {
    state: RandomState,
    count: u64,
}

impl Random {
    /// It gives others than each one before.
    pub fn new() -> Random {
        Random {
            state: RandomState::new(),
            count: 0,
        }
    }

    fn next(&mut self) -> u64 {
        self.count += 1;
        let mut hasher = self.state.build_hasher();
        hasher.write_u64(self.count);
        hasher.finish()
    }

    /// Returns 24 hexadecimal digits.
    pub fn digits(&mut self) -> String {
        let (high, low) = (self.next(), self.next() as u32);
        format!("{high:016x}{low:08x}")
    }

    /// Brings things into any order.
    pub fn shuffle<T>(&mut self, things: &mut [T]) {
        for last in (1..things.len()).rev() {
            let place = self.next() % (last as u64 + 1);
            things.swap(last, place as usize);
        }
    }
}

impl Default for Random {
    fn default() -> Random {
        Random::new()
    }
}

#[cfg(test)]
mod tests {
    use super::*;

    #[test]
    fn digits_are_others_each_time() {
        let (first, second) = (Random::new().digits(), Random::new().digits());
        assert_eq!((first.len(), second.len()), (24, 24));
        assert_ne!(first, second);
    }

    #[test]
    fn what_is_shuffled_is_all_there() {
        let mut numbers: Vec<u32> = (0..1000).collect();
        Random::new().shuffle(&mut numbers);
        assert!(numbers.windows(2).any(|pair| pair[0] > pair[1]));
        numbers.sort_unstable();
        assert_eq!(numbers, (0..1000).collect::<Vec<u32>>());
    }
}
