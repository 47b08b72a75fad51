//! Memory from another kiosk, put there word by word: refused by 14 and by 5, taken, and worked on.

use super::Script;
use crate::board::Phase;
use crate::call::Call;
use crate::damage::Damage;
use crate::drill::Command;
use crate::line::{mark_at, record_at, row_words};
use crate::say::drill_line;
use crate::work::{some_workers, Leave};

impl Script {
    /// Foreign memory in a board of any condition, a recovery's start on it, and work on it once it is taken.
    pub(super) fn foreign_memory(&mut self) {
        self.swap_memory();
        let repairs = self.spoil_memory();
        self.odd_rest();
        self.start_on_it(repairs);
        if self.board.state.phase == Phase::Recovering {
            self.work_on_it();
        }
    }

    /// Rows that fit, a header, cells with marks up to its epoch, and anything in words 6 and 7.
    pub(super) fn swap_memory(&mut self) {
        let lines = if self.random.chance(1, 16) { self.some_lines() } else { self.random.pick(&[1, 1, 1, 2, 2, 3]) };
        let workers = some_workers(&self.random, lines);
        let words = row_words(lines);
        self.damage(Damage::Lengths { memory: words, cache: words });
        let any = self.random.pick(&[self.random.word(), self.random.below(100)]).max(1);
        let epoch = self.random.pick(&[1, 2, 3, any, u64::MAX - 1, u64::MAX]);
        self.header(&[epoch, lines, workers, 0, 0, 0, 0, 0]);
        for cell in 0..(2 * lines as usize).min(6) {
            self.swap_cell(cell, epoch);
        }
        let line = 1 + self.random.below(lines);
        for at in [8 * line + 6, 8 * line + 7] {
            self.damage(Damage::Memory { at, word: self.word() });
        }
    }

    /// The words of memory's header that are others.
    fn header(&mut self, words: &[u64; 8]) {
        for (at, word) in words.iter().enumerate() {
            if self.board.memory.get(at) != Some(word) {
                self.damage(Damage::Memory { at: at as u64, word: *word });
            }
        }
    }

    /// A cell's record, backup and mark, which is the epoch, one below it, or further below.
    fn swap_cell(&mut self, cell: usize, epoch: u64) {
        let below = self.random.below(epoch);
        let mark = self.random.pick(&[epoch, epoch, epoch - 1, below, 0]);
        let at = record_at(cell) as u64;
        for (at, word) in [(at, self.word()), (at + 1, self.word()), (at + 2, mark)] {
            self.damage(Damage::Memory { at, word });
        }
    }

    /// Nothing, marks past the epoch, a header that is no board's, or both; and what puts it right again.
    fn spoil_memory(&mut self) -> Vec<Damage> {
        let (past, headers) = self.random.pick(&[(0, 0), (0, 0), (1, 0), (1, 0), (1, 1), (0, 1), (3, 1), (2, 0)]);
        let mut repairs = Vec::new();
        for at in 0..past + headers {
            let damages = if at < past { self.mark_past() } else { vec![self.header_damage()] };
            for damage in damages {
                repairs.push(damage.repair(&self.board));
                self.damage(damage);
            }
        }
        repairs
    }

    /// A mark past memory's epoch, mostly by one and often the last cell's; the last epoch has none, so it becomes lower.
    pub(super) fn mark_past(&mut self) -> Vec<Damage> {
        let cells = (self.board.memory.len() as u64 / 4).saturating_sub(2).max(1);
        let cell = self.random.pick(&[cells - 1, cells - 1, 0, self.random.below(cells)]) as usize;
        let at = mark_at(cell) as u64;
        let epoch = self.board.memory.first().copied().unwrap_or(0);
        let Some(next) = epoch.checked_add(1) else {
            return vec![Damage::Memory { at: 0, word: u64::MAX - 1 }, Damage::Memory { at, word: u64::MAX }];
        };
        let far = next + self.random.below(u64::MAX - epoch);
        vec![Damage::Memory { at, word: self.random.pick(&[next, next, next, far, u64::MAX]) }]
    }

    /// Cache and record as no work leaves them; the start is to look at none of them.
    fn odd_rest(&mut self) {
        let epoch = self.board.memory[0];
        for _ in 0..self.random.below(3) {
            let word = self.random.pick(&[self.word(), epoch.wrapping_add(1), epoch.wrapping_sub(1)]);
            self.damage(Damage::Cache { at: self.random.pick(&[0, 10, 14, 15]), word });
        }
        for _ in 0..self.random.below(3) {
            let damage = self.odd_worker();
            self.damage(damage);
        }
        if self.random.chance(1, 3) {
            self.field(self.random.pick(&[1, 2, 4]), 255);
        }
        if self.random.chance(1, 3) {
            let damage = self.odd_holder();
            self.damage(damage);
        }
        if self.random.chance(1, 3) {
            self.damage(Damage::Bits { at: self.random.below(8), word: self.word() });
        }
    }

    /// A recovery's start; while it is refused the repairs, the last damage's first, and a start after each.
    fn start_on_it(&mut self, repairs: Vec<Damage>) {
        self.call(Call::Recovery);
        for repair in repairs.into_iter().rev() {
            self.sum();
            self.damage(repair);
            self.call(Call::Recovery);
        }
    }

    /// Recovery to its end, work with a checkpoint, a cut, and the recovery of what is then its own memory.
    pub(super) fn work_on_it(&mut self) {
        self.recover_with_write_backs();
        self.sum();
        let leave = Leave { away: self.random.pick(&[0, 100]), back: 100 };
        for _ in 0..self.random.below(16) {
            self.good_line(20, leave);
        }
        self.call(Call::Request);
        if self.board.state.requested {
            self.all_wait();
            self.whole_checkpoint();
        }
        for _ in 0..self.random.below(8) {
            self.good_line(20, leave);
        }
        self.call(Call::WriteBack { line: self.random.below(self.lines() + 1) });
        self.put(drill_line(&Command::Cut));
        self.call(Call::Recovery);
        self.steps(30);
        for _ in 0..3 {
            self.call(Call::Read { cell: self.random.below(self.cells()) });
        }
    }

    /// The steps of a recovery with write-backs between them, seldom a cut and another start; large boards not to the end.
    fn recover_with_write_backs(&mut self) {
        for _ in 0..40 {
            match (self.board.state.phase, self.random.below(24)) {
                (Phase::Recovering, 0) => {
                    self.put(drill_line(&Command::Cut));
                    self.call(Call::Recovery);
                }
                (Phase::Recovering, 1..=3) => {
                    self.call(Call::WriteBack { line: self.random.below(self.lines() + 1) });
                }
                (Phase::Recovering, _) => self.call(Call::Step),
                _ => return,
            }
        }
    }
}
