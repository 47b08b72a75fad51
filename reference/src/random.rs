//! A small generator of random numbers (splitmix64), the same for the same seed everywhere.

use std::cell::Cell;

/// The generator's state; a cell, so that one draw may stand within another.
#[derive(Clone, Debug)]
pub struct Random(Cell<u64>);

impl Random {
    /// A generator for this seed.
    pub fn new(seed: u64) -> Random {
        Random(Cell::new(seed))
    }

    /// Any word.
    pub fn word(&self) -> u64 {
        let next = self.0.get().wrapping_add(0x9e37_79b9_7f4a_7c15);
        self.0.set(next);
        let mixed = (next ^ (next >> 30)).wrapping_mul(0xbf58_476d_1ce4_e5b9);
        let mixed = (mixed ^ (mixed >> 27)).wrapping_mul(0x94d0_49bb_1331_11eb);
        mixed ^ (mixed >> 31)
    }

    /// A number below `bound`, which is not 0.
    pub fn below(&self, bound: u64) -> u64 {
        ((self.word() as u128 * bound as u128) >> 64) as u64
    }

    /// True `part` times in `whole`.
    pub fn chance(&self, part: u64, whole: u64) -> bool {
        self.below(whole) < part
    }

    /// A number of 1 to 20 digits, each count alike, now and then the least or the greatest of its count.
    pub fn digits(&self) -> u64 {
        let tens = self.below(20) as u32;
        let least = if tens == 0 { 0 } else { 10u64.pow(tens) };
        let most = 10u64.checked_pow(tens + 1).map_or(u64::MAX, |next| next - 1);
        match self.below(8) {
            0 => least,
            1 => most,
            _ => least + self.below(most - least + 1),
        }
    }

    /// One of these.
    pub fn pick<T: Copy>(&self, of: &[T]) -> T {
        of[self.below(of.len() as u64) as usize]
    }
}
