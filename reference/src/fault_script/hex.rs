//! HEX texts: memory written, its text changed byte by byte, and read back into the same memory or another.

use super::Script;
use crate::board::Phase;
use crate::call::Call;
use crate::damage::Damage;
use crate::drill::Command;
use crate::fault::MOST_HEX_ROOM;
use crate::hex::text_bytes;
use crate::random::Random;
use crate::say::{drill_line, line};
use crate::texts::spell::bytes_of;
use crate::texts::spellings::{READ, SPOILED};

/// The most bytes of a text that one change of it makes others, among texts alone and among lines of every kind.
const MOST_CHANGES: usize = 160;
const FEW_CHANGES: usize = 10;

impl Script {
    /// A memory worth a text, the text written, changed and read back some times, and the board that comes of it.
    pub(super) fn hex_texts(&mut self) {
        self.memory_for_text();
        self.write_text();
        for _ in 0..1 + self.random.below(3) {
            let bytes = self.changed_text(MOST_CHANGES);
            if self.random.chance(3, 4) {
                self.other_memory();
            }
            self.read_text(bytes);
            self.sum();
            if self.random.chance(1, 2) {
                self.write_text();
            }
        }
        if self.random.chance(2, 3) {
            self.start_after_text();
        }
    }

    /// The board's memory written, its text changed a little and read back; seldom more.
    pub(super) fn some_text(&mut self) {
        if self.random.chance(1, 4) {
            self.swap_memory();
        } else if self.random.chance(1, 3) {
            self.ground(0);
        }
        self.write_text();
        let bytes = self.changed_text(FEW_CHANGES);
        if self.random.chance(1, 2) {
            self.other_memory();
        }
        self.read_text(bytes);
        if self.random.chance(1, 2) {
            self.call(Call::Recovery);
        }
    }

    /// A board that worked, often with a checkpoint; or foreign memory, rows of another length, or the board as it is.
    fn memory_for_text(&mut self) {
        match self.random.below(8) {
            0 => self.swap_memory(),
            1 => {
                let damage = self.lengths_fault();
                self.damage(damage);
            }
            2 | 3 => {}
            _ => {
                self.work(12);
                self.call(Call::Request);
                if self.sound() && self.board.state.requested && self.lines() < 8 {
                    self.all_wait();
                    self.whole_checkpoint();
                }
            }
        }
    }

    /// The bytes that memory's text needs, as far as a text may have them.
    fn text_need(&self) -> u64 {
        (text_bytes(self.board.memory.len()) as u64).min(MOST_HEX_ROOM)
    }

    /// Memory written in a text about the bytes that it needs, mostly enough.
    pub(super) fn write_text(&mut self) {
        let (random, need) = (&self.random, self.text_need());
        let fewer = random.pick(&[need.saturating_sub(1), need.saturating_sub(1), 0, random.below(need)]);
        let more = random.pick(&[1, 11, 44, 400]);
        let room = match random.below(20) {
            0..=2 => fewer,
            3..=7 => need + more,
            8 => random.pick(&[MOST_HEX_ROOM, MOST_HEX_ROOM + 1, MOST_HEX_ROOM - 1]),
            _ => need,
        };
        self.put(line('h', &[room]));
    }

    /// The text as it is, some bytes of it made others, or all of it spelled otherwise; how many of its bytes then count.
    fn changed_text(&mut self, most: usize) -> u64 {
        let need = self.text_need().min(self.board.text.len() as u64);
        match self.random.below(8) {
            0..=2 => need,
            3 | 4 => {
                (0..1 + self.random.below(2)).for_each(|_| self.change_byte(need));
                need
            }
            _ => self.respelled(most).unwrap_or(need),
        }
    }

    /// A byte of the text made another: a digit, its other case, a byte beside the digits, or any.
    fn change_byte(&mut self, need: u64) {
        let random = &self.random;
        let at = random.below(need.max(1));
        let old = self.board.text.get(at as usize).copied().unwrap_or(0);
        let flipped = old ^ 1 << random.below(8);
        let byte = random.pick(&[random.pick(b"0123456789ABCDEF"), old ^ 0x20, random.pick(b"/:@G`g\r\n "), flipped]);
        self.damage(Damage::Text { at, byte: byte.into() });
    }

    /// Memory's text spelled otherwise or spoiled, by changing each byte that differs; how many bytes it has. None where
    /// that is too much.
    fn respelled(&mut self, most: usize) -> Option<u64> {
        let data = bytes_of(&self.board.memory);
        if !(128..=256).contains(&data.len()) {
            return None;
        }
        let mut spelled = (0..12).map(|_| spelling(&self.random, &data));
        let text = spelled.find(|text| self.changes(text).len() < most)?;
        if self.board.text.len() < text.len() {
            self.put(line('h', &[text.len() as u64 + self.random.below(3)]));
        }
        for (at, byte) in self.changes(&text) {
            self.damage(Damage::Text { at: at as u64, byte: byte.into() });
        }
        Some(text.len() as u64)
    }

    /// Where the text differs from another, and what the other has there.
    fn changes(&self, other: &[u8]) -> Vec<(usize, u8)> {
        let differs = |(at, byte): &(usize, u8)| self.board.text.get(*at) != Some(byte);
        other.iter().copied().enumerate().filter(differs).collect()
    }

    /// Memory made another, so that reading shows: some words, a fresh board, or rows of another length.
    fn other_memory(&mut self) {
        let words = (self.board.memory.len() as u64).max(1);
        match self.random.below(8) {
            0 => {
                let damage = self.lengths_fault();
                self.damage(damage);
            }
            1 => self.format(0),
            2 => self.put(drill_line(&Command::Cut)),
            _ => {
                for _ in 0..1 + self.random.below(3) {
                    self.damage(Damage::Memory { at: self.random.below(words), word: self.word() });
                }
            }
        }
    }

    /// So many bytes of the text read, or some others.
    fn read_text(&mut self, bytes: u64) {
        let (random, length) = (&self.random, self.board.text.len() as u64);
        let bytes = match random.below(16) {
            0 => random.pick(&[bytes.saturating_sub(1), bytes.saturating_sub(12), bytes + 1, 0]),
            1 => random.pick(&[length, length + 1, random.below(length + 1), u64::MAX]),
            _ => bytes,
        };
        self.put(line('y', &[bytes]));
    }

    /// A recovery's start on what was read, its steps, and some work.
    fn start_after_text(&mut self) {
        if self.random.chance(1, 8) {
            let words = self.board.memory.len() as u64;
            self.damage(Damage::Lengths { memory: words, cache: words });
        }
        self.call(Call::Recovery);
        if self.board.state.phase == Phase::Recovering && self.lines() < 6 && self.random.chance(1, 3) {
            return self.work_on_it();
        }
        self.steps(12);
        for _ in 0..self.random.below(4) {
            self.any_call();
        }
    }

    /// An `h`, `Y` or `y` with a number that cannot be put there.
    pub(super) fn text_of_another_form(&mut self) {
        let length = self.board.text.len() as u64;
        let past = self.random.pick(&[0, 0, 1, 65_536, 1 << 32, u64::MAX - MOST_HEX_ROOM - 1]);
        let text = match self.random.below(5) {
            0 => line('h', &[MOST_HEX_ROOM + 1 + past]),
            1 => line('Y', &[length + past, self.random.below(256)]),
            2 => line('Y', &[self.random.below(length.max(1)), 256 + past]),
            3 => line('y', &[length + 1 + past]),
            _ => line('y', &[length]),
        };
        self.put(text);
    }
}

/// Some spelling of this data, right or spoiled.
fn spelling(random: &Random, data: &[u8]) -> Vec<u8> {
    let table = random.pick(&[&READ[..], &SPOILED]);
    random.pick(table).1(random, data)
}
