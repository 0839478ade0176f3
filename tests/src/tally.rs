//! Counting which numbers a test has met, so that a generator that misses a case shows.

use crate::generate::images::CHANGES;
use crate::random::Random;
use std::collections::BTreeMap;

/// How often each number was given; success is 0.
#[derive(Clone, Debug, Default, PartialEq, Eq)]
pub struct Tally {
    times: BTreeMap<u32, usize>,
}

impl Tally {
    /// Tallies the numbers that a trial gives so many times over, from a seed.
    pub fn of(seed: u64, count: usize, mut trial: impl FnMut(&mut Random) -> u32) -> Self {
        let mut random = Random::new(seed);
        let mut tally = Tally::default();
        for _ in 0..count {
            tally.note(trial(&mut random));
        }
        tally
    }

    /// Notes a number.
    pub fn note(&mut self, number: u32) {
        *self.times.entry(number).or_default() += 1;
    }

    /// Gives the numbers met, in ascending order.
    pub fn numbers(&self) -> Vec<u32> {
        self.times.keys().copied().collect()
    }

    /// Says how often a number was met.
    pub fn times(&self, number: u32) -> usize {
        self.times.get(&number).copied().unwrap_or(0)
    }
}

/// Judges so many images of each way to change one, made from a seed, and asserts that all
/// numbers that belong to the way have come and no others.
pub fn judge_changed_images(
    seed: u64,
    count: usize,
    make: impl Fn(&mut Random) -> Vec<u8>,
    judge: impl Fn(&[u8]) -> u32,
) {
    for change in &CHANGES {
        let tally = Tally::of(seed, count, |random| {
            let image = make(random);
            judge(&(change.apply)(random, &image))
        });
        assert_eq!(tally.numbers(), change.numbers, "{}", change.name);
    }
}
