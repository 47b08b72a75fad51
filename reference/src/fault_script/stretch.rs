//! The kinds of stretch that a script is made of.

use super::Script;
use crate::board::Phase;
use crate::call::Call;
use crate::damage::Damage;
use crate::drill::Command;
use crate::line::{line_of, mark_at, record_at, row_words};
use crate::say::drill_line;
use crate::work::{good_call_with_away, some_workers, Leave};

impl Script {
    /// One stretch, and a checksum after it.
    pub(super) fn stretch(&mut self) {
        match self.random.below(80) {
            0..=5 => self.work(40),
            6..=23 | 58..=66 | 71 => self.aimed(),
            24 | 25 => self.odd_record(),
            26..=28 => self.marked_cells(),
            29 => self.foreign_board(),
            30 => self.broken_format(),
            31 | 32 => self.other_forms(),
            33 | 34 | 46 | 69 | 79 => self.pages(),
            35 | 36 => self.leaving(),
            37 | 68 => self.odd_away(),
            38 | 39 | 67 | 70 => self.foreign_memory(),
            40..=45 => self.line_bits(),
            51..=57 | 77..=78 => self.locks(),
            72..=76 => self.some_text(),
            _ => self.odd_places(),
        }
        self.sum();
    }

    /// Sensible work on a board that runs, with cuts, recoveries and whole checkpoints.
    pub(super) fn work(&mut self, most: u64) {
        self.ground(0);
        let requests = self.random.pick(&[5, 60, 300]);
        let leave = Leave { away: self.random.pick(&[0, 0, 50, 200]), back: self.random.pick(&[20, 100]) };
        for _ in 0..5 + self.random.below(most) {
            self.good_line(requests, leave);
        }
    }

    /// A line that brings a board on from where it is.
    pub(super) fn good_line(&mut self, requests: u64, leave: Leave) {
        let (random, state) = (&self.random, &self.board.state);
        let patience = 40 + self.cells().min(30);
        if random.chance(1, patience) {
            return self.put(drill_line(&Command::Cut));
        }
        if random.chance(1, 12) {
            let at = random.pick(&[0, random.below(state.lines as u64 + 1)]);
            return self.call(Call::WriteBack { line: at });
        }
        if random.chance(1, 40) {
            return self.page();
        }
        if random.chance(1, 20) {
            return self.call(Call::Count);
        }
        let call = match state.phase {
            Phase::Off => Call::Recovery,
            Phase::Running if self.sizes_kept() => good_call_with_away(random, state, requests, leave, self.word()),
            _ => Call::Step,
        };
        self.call(call);
    }

    /// Steps until the phase changes or one is refused, at most so many.
    pub(super) fn steps(&mut self, most: u64) {
        let phase = self.board.state.phase;
        for _ in 0..most {
            let refused = self.board.cause(&Call::Step) != 0;
            self.call(Call::Step);
            if refused || self.board.state.phase != phase {
                return;
            }
        }
    }

    /// Records, backups, marks and epochs as no work leaves them, then updates on them or a recovery.
    fn marked_cells(&mut self) {
        self.ground(0);
        let cell = self.random.below(self.cells());
        for _ in 0..1 + self.random.below(5) {
            let other = self.random.below(self.cells());
            self.odd_cell(self.random.pick(&[cell, cell, other]) as usize);
        }
        if self.random.chance(1, 2) {
            self.odd_epoch();
        }
        match self.random.below(5) {
            0 | 1 => {
                self.field(0, 2);
                self.field(4, cell);
                self.field(5, self.random.pick(&[0, 0, 1, 2]));
            }
            2 => self.update(cell),
            _ => {
                if self.random.chance(1, 2) {
                    self.put(drill_line(&Command::Cut));
                }
                self.call(Call::Recovery);
            }
        }
        if self.random.chance(1, 4) {
            self.odd_epoch();
        }
        self.steps(self.random.below(20));
    }

    /// A record, a backup or a mark of this cell, in memory or in the cache.
    fn odd_cell(&mut self, cell: usize) {
        let epoch = self.random.pick(&[self.board.memory[0], self.board.cache[0]]);
        let mark = self.random.pick(&[epoch, epoch, epoch, 0, epoch.wrapping_add(1), epoch.wrapping_sub(1)]);
        let (at, word) = match self.random.below(3) {
            0 => (record_at(cell) + self.random.below(2) as usize, self.word()),
            _ => (mark_at(cell), mark),
        };
        let at = at as u64;
        let memory = self.random.chance(1, 2);
        self.damage(if memory { Damage::Memory { at, word } } else { Damage::Cache { at, word } });
        if self.random.chance(1, 4) {
            self.call(Call::WriteBack { line: line_of(cell) as u64 });
        }
    }

    /// Memory's or the cache's epoch another than the other's.
    fn odd_epoch(&mut self) {
        let (memory, cache) = (self.board.memory[0], self.board.cache[0]);
        let ahead = self.random.pick(&[1, 1, u64::MAX, 2]);
        self.damage(match self.random.below(3) {
            0 => Damage::Memory { at: 0, word: cache.wrapping_add(ahead) },
            _ => Damage::Cache { at: 0, word: memory.wrapping_add(ahead) },
        });
    }

    /// An update of this cell, or a restart point if it is one's own, and some advances.
    fn update(&mut self, cell: u64) {
        let (workers, value) = (self.workers(), self.word());
        let worker = if cell < workers { cell } else { self.random.below(workers) };
        let advances = self.random.below(4);
        if cell >= workers {
            return self.locked_update(worker, cell, value, advances);
        }
        self.let_go(worker);
        self.call(Call::RestartPoint { worker, value });
        (0..advances).for_each(|_| self.call(Call::Advance { worker }));
    }

    /// Rows and a header put there word by word, then a start and its steps.
    pub(super) fn foreign_board(&mut self) {
        let lines = self.some_lines();
        let workers = some_workers(&self.random, lines);
        let words = row_words(lines);
        self.damage(Damage::Lengths { memory: words, cache: words });
        let epoch = self.random.pick(&[1, 2, self.word(), u64::MAX, u64::MAX - 1]);
        for (at, word) in [epoch, lines, workers].into_iter().enumerate() {
            if self.random.chance(9, 10) {
                self.damage(Damage::Memory { at: at as u64, word });
            }
        }
        for _ in 0..self.random.below(6) {
            let at = 8 + self.random.below(words - 8);
            let word = self.random.pick(&[epoch, epoch, self.word()]);
            self.damage(Damage::Memory { at, word });
        }
        if self.random.chance(1, 4) {
            self.header_fault();
        }
        self.call(if self.random.chance(3, 4) { Call::Recovery } else { Call::Format { lines, workers } });
        self.steps(25);
        self.sum();
    }

    /// A format's start on rows as they are, some of its steps, and perhaps something between.
    fn broken_format(&mut self) {
        self.ground(0);
        let lines = self.lines();
        let workers = some_workers(&self.random, lines);
        self.call(Call::Format { lines, workers });
        self.odd_undo();
        self.steps(self.random.below(lines.min(12) + 3));
        match self.random.below(5) {
            0 => self.put(drill_line(&Command::Cut)),
            1 => self.odd_damage(),
            2 => self.field(4, lines + self.random.below(3)),
            _ => {}
        }
        if self.random.chance(1, 2) {
            self.call(Call::Recovery);
        }
        self.steps(15);
        for _ in 0..self.random.below(5) {
            self.any_call();
        }
    }

    /// Several lines that nothing reads, and the board unchanged by them.
    fn other_forms(&mut self) {
        for _ in 0..1 + self.random.below(6) {
            self.another_form();
        }
        self.sum();
    }
}
