//! A search that threads share, if there is much to search.

use std::thread;

const MOST_SHARES: usize = 4;
const LEAST_IN_SHARE: usize = 2048;

/// Returns those of the things of which something is true, in their order.
pub fn filtered<T: Copy + Sync + Send>(
    things: &[T],
    is_wanted: impl Fn(T) -> bool + Sync,
) -> Vec<T> {
    let search = |share: &[T]| -> Vec<T> {
        share
            .iter()
            .copied()
            .filter(|thing| is_wanted(*thing))
            .collect()
    };
    let shares = shares_of(things.len());
    let (own, others) = things.split_at((things.len() + shares - 1) / shares);
    let search = &search;
    thread::scope(|scope| {
        let others: Vec<_> = others
            .chunks(own.len().max(1))
            .map(|share| {
                (
                    share,
                    thread::Builder::new().spawn_scoped(scope, move || search(share)),
                )
            })
            .collect();
        let mut found = search(own);
        for (share, started) in others {
            let searched = started.ok().and_then(|thread| thread.join().ok());
            found.extend(searched.unwrap_or_else(|| search(share)));
        }
        found
    })
}

/// Returns in how many shares to search this many things: it takes time to start a thread.
fn shares_of(count: usize) -> usize {
    let processors = thread::available_parallelism().map_or(1, usize::from);
    (count / LEAST_IN_SHARE)
        .min(processors)
        .clamp(1, MOST_SHARES)
}

#[cfg(test)]
mod tests {
    use super::*;

    #[test]
    fn all_that_is_wanted_is_found_in_its_order() {
        for count in [0, 1, 2047, 2048, 4095, 4097, 10_001, 50_003] {
            let numbers: Vec<usize> = (0..count).collect();
            let found = filtered(&numbers, |number| number % 3 == 1);
            let wanted: Vec<usize> = (1..count).step_by(3).collect();
            assert_eq!(found, wanted, "{count}");
        }
    }

    #[test]
    fn few_things_are_searched_by_one() {
        assert_eq!(shares_of(0), 1);
        assert_eq!(shares_of(LEAST_IN_SHARE), 1);
        assert!(shares_of(usize::MAX) <= MOST_SHARES);
    }
}
