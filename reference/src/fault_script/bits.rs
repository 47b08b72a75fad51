//! Line bits put there or set by marks, checkpoints of several lines, counts, and bits that must not be set.

use super::away::AWAY;
use super::Script;
use crate::bits::LineBits;
use crate::call::Call;
use crate::damage::Damage;
use crate::drill::Command;
use crate::explore::garbage::{allowed_bits, line_astray};
use crate::say::drill_line;
use crate::work::some_workers;

/// Sizes about those whose last line stands at an end of a word.
const SIZES: [u64; 11] = [2, 62, 63, 64, 127, 128, 447, 448, 449, 510, 511];

impl Script {
    /// One stretch about line bits.
    pub(super) fn line_bits(&mut self) {
        self.wide_ground();
        match self.random.below(6) {
            0 | 1 => self.refused_counts(),
            2 => self.bits_at_an_end(),
            _ => self.checkpoint_of_lines(),
        }
    }

    /// A board that runs, mostly of more lines than a word has.
    fn wide_ground(&mut self) {
        self.ground(0);
        if self.lines() < 64 && self.random.chance(3, 4) {
            let lines = self.random.pick(&SIZES);
            let workers = some_workers(&self.random, lines);
            self.put(drill_line(&Command::Format { lines, workers }));
        }
    }

    /// The words of the record's bits that are others.
    pub(super) fn put_bits(&mut self, bits: LineBits) {
        for (at, word) in (0..).zip(bits) {
            if self.board.state.line_bits[at as usize] != word {
                self.damage(Damage::Bits { at, word });
            }
        }
    }

    /// A bit more in the word that it stands in.
    fn bit_of(&self, line: u64) -> Damage {
        let at = line / 64;
        Damage::Bits { at, word: self.board.state.line_bits[at as usize] | 1 << (line % 64) }
    }

    /// A bit of line 0, or of a line past L.
    pub(super) fn bit_astray(&self) -> Damage {
        self.bit_of(line_astray(&self.random, self.lines()))
    }

    /// A word of bits: of allowed lines, of line L, of a line astray, or any.
    pub(super) fn odd_bits(&self) -> Damage {
        match self.random.below(5) {
            0 => self.bit_astray(),
            1 => self.bit_of(self.lines().min(511)),
            2 | 3 => {
                let at = self.random.below(self.lines() / 64 + 1).min(7);
                Damage::Bits { at, word: allowed_bits(&self.random, self.lines())[at as usize] }
            }
            _ => Damage::Bits { at: self.random.below(8), word: self.word() },
        }
    }

    /// A count that the board takes, with a request or without, at any place that it may have.
    pub(super) fn prepare_count(&mut self) -> Call {
        if self.random.chance(1, 2) {
            let bits = allowed_bits(&self.random, self.lines());
            self.put_bits(bits);
        }
        if self.random.chance(1, 2) {
            self.field(4, self.random.below(self.n() + 3));
            self.field(6, self.random.below(2));
        }
        Call::Count
    }

    /// A bit that must not be set, or another reason to refuse a count, calls on such a board, and counts once it is
    /// repaired.
    fn refused_counts(&mut self) {
        let damage = match self.random.below(6) {
            0 | 5 => self.lengths_fault(),
            1 => Damage::Field { k: 0, number: self.random.below(3) },
            _ => self.bit_astray(),
        };
        let repair = damage.repair(&self.board);
        let cell = self.random.below(self.cells());
        let calls = [Call::Count, Call::Step, Call::Read { cell }, Call::Request, Call::Count];
        self.damage(damage);
        calls.iter().take(2 + self.random.below(4) as usize).for_each(|call| self.call(*call));
        self.damage(repair);
        self.call(Call::Count);
        let last = self.bit_of(self.lines());
        self.damage(last);
        self.call(self.random.pick(&calls));
        self.call(Call::Count);
    }

    /// The last step of a format or recovery, a start, or a cut, with lines set.
    fn bits_at_an_end(&mut self) {
        let bits = allowed_bits(&self.random, self.lines());
        self.put_bits(bits);
        let last = self.random.pick(&[(1, self.lines() + 1), (2, self.cells() - 1)]);
        match self.random.below(4) {
            0 => self.call(Call::Recovery),
            1 => self.put(drill_line(&Command::Cut)),
            _ => {
                self.field(0, last.0);
                self.field(4, last.1);
                self.field(5, self.random.pick(&[0, 2]));
                self.steps(3);
            }
        }
        self.sum();
        self.call(Call::Count);
    }

    /// Lines set by marks and put there, a count, and the checkpoint from its request to its release.
    fn checkpoint_of_lines(&mut self) {
        if self.random.chance(1, 2) {
            let bits = allowed_bits(&self.random, self.lines());
            self.put_bits(bits);
        }
        self.make_free(0);
        (0..self.random.below(4)).for_each(|_| self.mark_a_pair());
        self.call(Call::Count);
        for worker in 0..self.workers() {
            let numbers = self.random.pick(&[AWAY, [1, 0, 0, 0]]);
            self.damage(Damage::Worker { worker, numbers });
        }
        if self.random.chance(1, 2) {
            let damage = self.worker_from_w_on();
            self.damage(damage);
        }
        self.call(Call::Count);
        self.field(6, 0);
        self.call(Call::Request);
        self.call(Call::Count);
        self.lines_written();
        self.call(Call::Count);
    }

    /// Updates of both cells of a line, or of one, up to their marks or to their ends.
    fn mark_a_pair(&mut self) {
        let workers = self.workers();
        let any = workers + self.random.below(self.cells() - workers);
        let last = self.cells() - 1 - self.random.below(4.min(self.cells() - workers));
        let (cell, value) = (self.random.pick(&[any, any, last]), self.word());
        for cell in [cell, (cell ^ 1).max(workers)] {
            self.locked_update(0, cell, value, 3);
            if self.random.chance(1, 2) {
                return;
            }
        }
    }

    /// A checkpoint's steps with counts, write-backs and workers' tries between them; of many lines only some, the last among them.
    fn lines_written(&mut self) {
        for left in (0..18).rev() {
            let n = self.n();
            if left == 8 && n > 20 {
                self.field(4, self.random.pick(&[n - 2, n - 1, self.random.below(n)]));
            }
            match self.random.below(7) {
                0 => self.call(Call::Count),
                2 if self.board.state.place > 0 => self.tries(),
                1 => self.call(Call::WriteBack { line: self.random.pick(&[0, 1 + self.random.below(self.lines())]) }),
                _ => {}
            }
            self.call(Call::Step);
            if !self.board.state.requested {
                return;
            }
        }
    }
}
