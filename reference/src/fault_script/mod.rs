//! `script --fault`: a random script for the fault program, made beside a board. Stretches of sensible work alternate
//! with damage and with lines that nothing reads, and everything is summed up every few lines.

mod aim;
mod away;
mod bits;
mod foreign;
mod hex;
mod locks;
mod odd;
mod other_form;
mod page;
mod record;
mod rows;
mod stretch;

use crate::bits::count;
use crate::board::{Board, Phase};
use crate::call::Call;
use crate::damage::Damage;
use crate::drill::Command;
use crate::explore::garbage;
use crate::fault::Fault;
use crate::line::{cells, sizes_allowed};
use crate::program::answer;
use crate::random::Random;
use crate::say::{call_line, damage_line, drill_line, line, spoil};
use crate::work::some_workers;

/// A script being written, and the board that it leads to.
struct Script {
    random: Random,
    board: Board,
    text: Vec<u8>,
    left: u64,
    /// Lines until the next checksum.
    until_sum: u64,
}

/// A script of stretches of every kind.
pub fn script(seed: u64, lines: u64) -> Vec<u8> {
    write(seed, lines, Script::before_a_format, Script::stretch)
}

/// A script of nothing but foreign memories, without a format.
pub fn foreign_script(seed: u64, lines: u64) -> Vec<u8> {
    write(seed, lines, |_| {}, Script::foreign_memory)
}

/// A script of nothing but line bits: checkpoints of several lines in several words, counts, bits that must not be set.
pub fn bits_script(seed: u64, lines: u64) -> Vec<u8> {
    write(seed, lines, |_| {}, Script::line_bits)
}

/// A script of nothing but locks: taken, given back, updates with and without them, holders that must not be.
pub fn locks_script(seed: u64, lines: u64) -> Vec<u8> {
    write(seed, lines, |_| {}, Script::locks)
}

/// A script of nothing but HEX texts: written, changed, read back, and the boards that come of them.
pub fn hex_script(seed: u64, lines: u64) -> Vec<u8> {
    write(seed, lines, |_| {}, Script::hex_texts)
}

/// So many lines, the last a checksum; those of odd seeds end without a line feed.
fn write(seed: u64, lines: u64, first: fn(&mut Script), stretch: fn(&mut Script)) -> Vec<u8> {
    let random = Random::new(seed);
    let mut script = Script { random, board: Board::empty(None), text: Vec::new(), left: lines, until_sum: 8 };
    first(&mut script);
    while script.left > 1 {
        stretch(&mut script);
    }
    script.put(line('T', &[]));
    if seed % 2 == 1 {
        script.text.pop();
    }
    script.text
}

impl Script {
    /// The next line, unless there are enough, with a checksum after some.
    fn put(&mut self, line_of_text: Vec<u8>) {
        let last = self.left == 1 && line_of_text != b"T";
        if self.left == 0 || last {
            return;
        }
        self.left -= 1;
        self.until_sum = self.until_sum.saturating_sub(1);
        let _ = answer::<Fault>(&mut self.board, &line_of_text);
        self.text.extend_from_slice(&line_of_text);
        self.text.push(b'\n');
        if self.until_sum == 0 {
            self.sum();
        }
    }

    /// A checksum, unless the last line was one.
    fn sum(&mut self) {
        self.until_sum = 8 + self.random.below(8);
        if self.left > 1 && !self.text.ends_with(b"\nT\n") {
            self.put(line('T', &[]));
        }
    }

    /// A call, seldom with a spoiled form of its line before it.
    fn call(&mut self, call: Call) {
        if self.random.chance(1, 60) {
            self.put(spoil(&self.random, call_line(&call)));
        }
        self.put(call_line(&call));
    }

    /// Some damage.
    fn damage(&mut self, damage: Damage) {
        self.put(damage_line(&damage));
    }

    /// The record's field k := number.
    fn field(&mut self, k: u64, number: u64) {
        self.damage(Damage::Field { k, number });
    }

    /// Some L, mostly small.
    fn some_lines(&self) -> u64 {
        let random = &self.random;
        match random.below(24) {
            0 => 511 - random.below(3),
            1 | 2 => 5 + random.below(40),
            3..=7 => 1,
            _ => 2 + random.below(3),
        }
    }

    /// A format to the end, of a board with that many workers or more.
    fn format(&mut self, least_workers: u64) {
        let lines = self.some_lines().max(least_workers / 2 + 1);
        let workers = some_workers(&self.random, lines).max(least_workers);
        self.put(drill_line(&Command::Format { lines, workers }));
    }

    /// A board that runs, with rows that fit: this one, or a fresh one.
    fn ground(&mut self, least_workers: u64) {
        if !self.sound() || (self.board.state.workers as u64) < least_workers {
            self.format(least_workers);
        }
    }

    /// The board runs and no fault of record or rows shows.
    fn sound(&self) -> bool {
        self.board.cause(&Call::Read { cell: 0 }) == 0
    }

    /// The record's L.
    fn lines(&self) -> u64 {
        self.board.state.lines.into()
    }

    /// The record's W.
    fn workers(&self) -> u64 {
        self.board.state.workers.into()
    }

    /// 2L
    fn cells(&self) -> u64 {
        cells(self.lines())
    }

    /// How many lines are set.
    fn n(&self) -> u64 {
        count(&self.board.state.line_bits).into()
    }

    /// The phase is running.
    fn running(&self) -> bool {
        self.board.state.phase == Phase::Running
    }

    /// Any value, small ones more often.
    fn word(&self) -> u64 {
        garbage::word(&self.random)
    }

    /// Lines before the first format, when rows are empty and the phase is off.
    fn before_a_format(&mut self) {
        for _ in 0..self.random.below(8) {
            match self.random.below(4) {
                0 => self.another_form(),
                1 => self.odd_damage(),
                _ => self.any_call(),
            }
        }
        if self.random.chance(1, 3) {
            self.foreign_board();
        }
    }

    /// Any call, its arguments about their limits.
    fn any_call(&mut self) {
        let call = garbage::call(&self.random, &self.board.state);
        match (call, self.random.below(20)) {
            (Call::Format { lines, workers }, 0..=9) => self.put(drill_line(&Command::Format { lines, workers })),
            (_, 0) => self.put(drill_line(&Command::Cut)),
            _ => self.call(call),
        }
    }

    /// Both sizes are within the limits.
    fn sizes_kept(&self) -> bool {
        sizes_allowed(self.lines(), self.workers())
    }
}
