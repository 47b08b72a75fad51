//! Rows of other lengths than a board's, and headers that are no board's.

use super::Script;
use crate::damage::{Damage, ROOM_WORDS};

impl Script {
    /// The rows' lengths with one of them, or memory's and the cache's alike, another.
    pub(super) fn lengths_fault(&mut self) -> Damage {
        let [mut memory, mut cache] = [self.board.memory.len(), self.board.cache.len()].map(|length| length as u64);
        match self.random.below(4) {
            0 => memory = self.other_length(memory),
            1 => cache = self.other_length(cache),
            2 => {
                memory = self.other_length(memory);
                cache = memory;
            }
            _ => {
                memory = self.random.pick(&[0, 8, 8, 15, 16, 17, 4088, 4096, ROOM_WORDS, ROOM_WORDS]);
                cache = memory;
            }
        }
        Damage::Lengths { memory, cache }
    }

    /// Another length of a row of words.
    fn other_length(&self, length: u64) -> u64 {
        let change = self.random.pick(&[1, 1, 2, 7, 8, 8, 9, 16]);
        let shorter = length.saturating_sub(change);
        self.random.pick(&[shorter, (length + change).min(ROOM_WORDS)])
    }

    /// A word of memory's header that no board has, put there.
    pub(super) fn header_fault(&mut self) {
        let damage = self.header_damage();
        self.damage(damage);
    }

    /// A word of memory's header that no board has.
    pub(super) fn header_damage(&mut self) -> Damage {
        let random = &self.random;
        let lines = (self.board.memory.len() as u64 / 8).saturating_sub(1);
        let (at, word) = match random.below(8) {
            0 => (0, 0),
            1 | 2 => (1, random.pick(&[0, lines.wrapping_sub(1), lines + 1, lines + 65_536, lines + 65_536, u64::MAX])),
            3 | 4 => (2, random.pick(&[0, 9, 2 * lines, 2 * lines + 1, 257, 65_537, u64::MAX])),
            _ => (3 + random.below(5), random.pick(&[1, random.word(), u64::MAX, 1 << 32])),
        };
        Damage::Memory { at, word }
    }
}
