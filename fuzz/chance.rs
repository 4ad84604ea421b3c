//! Random numbers from a seed (splitmix64): the same seed, the same requests.

use crate::rules::{MOST_BOATS, MOST_LEGS, MOST_PIERS, MOST_WALKS, NAME_END, TIME_END};

/// What numbers are compared with in one place or another; 2^40 is where a place no longer fits into the code.
const BOUNDS: [u64; 9] = [0, MOST_BOATS, MOST_PIERS, MOST_LEGS, MOST_WALKS, NAME_END, TIME_END, 1 << 40, u64::MAX];

pub struct Chance(u64);

impl Chance {
    pub fn of(seed: u64) -> Chance {
        Chance(seed)
    }

    pub fn next(&mut self) -> u64 {
        self.0 = self.0.wrapping_add(0x9e37_79b9_7f4a_7c15);
        let mut z = self.0;
        z = (z ^ (z >> 30)).wrapping_mul(0xbf58_476d_1ce4_e5b9);
        z = (z ^ (z >> 27)).wrapping_mul(0x94d0_49bb_1331_11eb);
        z ^ (z >> 31)
    }

    /// Below the bound; 0 where that is 0.
    pub fn below(&mut self, bound: u64) -> u64 {
        if bound == 0 { 0 } else { self.next() % bound }
    }

    pub fn index(&mut self, length: usize) -> usize {
        self.below(length as u64) as usize
    }

    pub fn between(&mut self, low: u64, high: u64) -> u64 {
        low + self.below(high - low + 1)
    }

    pub fn one_in(&mut self, n: u64) -> bool {
        self.below(n) == 0
    }

    pub fn of_these<T: Copy>(&mut self, these: &[T]) -> T {
        these[self.index(these.len())]
    }

    /// A number at some bound, or one beside it.
    pub fn about_a_bound(&mut self) -> u64 {
        let bound = self.of_these(&BOUNDS);
        bound.wrapping_add(self.below(3)).wrapping_sub(1)
    }

    pub fn shuffle<T>(&mut self, row: &mut [T]) {
        for i in (1..row.len()).rev() {
            row.swap(i, self.index(i + 1));
        }
    }
}
