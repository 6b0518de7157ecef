//! A small random number generator (SplitMix64), so that a seed and an index give the same case everywhere.

use std::cell::Cell;

/// The state is in a cell, so that a number can be drawn while another is being asked for.
pub struct Rng(Cell<u64>);

impl Rng {
    /// Each seed and index start a row of their own, so that any case can be made again without those before it.
    pub fn new(seed: u64, index: u64) -> Rng {
        let rng = Rng(Cell::new(seed));
        let start = rng.next() ^ index.wrapping_mul(0xd1b5_4a32_d192_ed03);
        Rng(Cell::new(start))
    }

    pub fn next(&self) -> u64 {
        self.0.set(self.0.get().wrapping_add(0x9e37_79b9_7f4a_7c15));
        let mut mixed = self.0.get();
        mixed = (mixed ^ mixed >> 30).wrapping_mul(0xbf58_476d_1ce4_e5b9);
        mixed = (mixed ^ mixed >> 27).wrapping_mul(0x94d0_49bb_1331_11eb);
        mixed ^ mixed >> 31
    }

    /// From 0 to one under `end`, which is above 0.
    pub fn below(&self, end: u64) -> u64 {
        self.next() % end
    }

    /// From `low` to `high`, both included; `low` where `high` is less.
    pub fn between(&self, low: i64, high: i64) -> i64 {
        if high <= low { low } else { low + self.below((high - low + 1) as u64) as i64 }
    }

    /// True once in so many times.
    pub fn once_in(&self, times: u64) -> bool {
        self.below(times) == 0
    }

    pub fn pick<T: Copy>(&self, of: &[T]) -> T {
        of[self.below(of.len() as u64) as usize]
    }

    /// From `low` to `high`, small numbers as likely as great ones.
    pub fn scaled(&self, low: i64, high: i64) -> i64 {
        let most = self.pick(&[high, high / 10, high / 100, high / 1_000]);
        self.between(low, most.max(low))
    }

    pub fn byte(&self) -> u8 {
        self.next() as u8
    }

    pub fn bytes(&self, length: usize) -> Vec<u8> {
        (0..length).map(|_| self.byte()).collect()
    }
}
