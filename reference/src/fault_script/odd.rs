//! Damage that need not show: edges of what is allowed, records put together field by field, words anywhere.

use super::away::AWAY;
use super::Script;
use crate::call::Call;
use crate::damage::{Damage, ROOM_WORDS};
use crate::explore::garbage::allowed_bits;
use crate::record::FIELDS;

impl Script {
    /// One damage of any kind.
    pub(super) fn odd_damage(&mut self) {
        let damage = match self.random.below(9) {
            0 => self.lengths_fault(),
            1 | 2 => self.odd_field(),
            3 => self.odd_worker(),
            4 => self.header_damage(),
            5 => self.odd_bits(),
            8 => self.odd_holder(),
            6 => Damage::Memory { at: self.index(self.board.memory.len()), word: self.word() },
            _ => Damage::Cache { at: self.index(self.board.cache.len()), word: self.word() },
        };
        self.damage(damage);
    }

    /// An index of a row of that length, often one of its first.
    fn index(&self, length: usize) -> u64 {
        let length = (length as u64).max(1);
        self.random.pick(&[0, self.random.below(length), self.random.below(length.min(16))])
    }

    /// A number that fits a field of 16 bits, about a limit or at an end.
    fn about(&self, limit: u64) -> u64 {
        let random = &self.random;
        let near = (limit + random.below(3)).saturating_sub(1);
        random.pick(&[0, near, near, random.below(limit + 2), 65_535, random.below(65_536)]).min(65_535)
    }

    /// A field of the record with a number that it can hold.
    fn odd_field(&mut self) -> Damage {
        let k = self.random.pick(&FIELDS);
        let number = match k {
            0 => self.random.pick(&[0, 1, 2, 3, 3, 3]),
            1 => self.random.pick(&[self.about(self.lines()), self.about(511)]),
            2 => self.random.pick(&[self.about(self.workers()), self.about(8), 255]).min(255),
            4 => self.random.pick(&[self.about(self.lines() + 1), self.about(self.cells()), self.about(self.n() + 2)]),
            5 => self.random.below(3),
            _ => self.random.below(2),
        };
        Damage::Field { k, number }
    }

    /// A worker, under W or not, in any condition.
    pub(super) fn odd_worker(&mut self) -> Damage {
        let random = &self.random;
        let worker = random.pick(&[random.below(8), random.below(self.workers().clamp(1, 8))]);
        let cell = random.pick(&[self.about(self.cells()), random.below(self.cells().max(1)).min(65_535)]);
        let numbers = match random.below(5) {
            0 => [0; 4],
            1 => [1, 0, 0, 0],
            2 => AWAY,
            _ => [2, random.below(3), cell, self.word()],
        };
        Damage::Worker { worker, numbers }
    }

    /// Any lock with any holder.
    pub(super) fn odd_holder(&self) -> Damage {
        Damage::Holder { lock: self.random.below(16), holder: self.random.below(9) }
    }

    /// A worker that is not under W, if there is one, in the middle of an update or away.
    pub(super) fn worker_from_w_on(&mut self) -> Damage {
        let workers = self.workers().min(7);
        let worker = workers + self.random.below(8 - workers);
        let updating = [2, self.random.below(3), self.about(self.cells()), self.word()];
        Damage::Worker { worker, numbers: self.random.pick(&[updating, AWAY]) }
    }

    /// A record put together field by field, then calls of every kind.
    pub(super) fn odd_record(&mut self) {
        if self.random.chance(2, 3) {
            self.ground(0);
        }
        for _ in 0..1 + self.random.below(7) {
            let damage = match self.random.below(10) {
                0..=5 => self.odd_field(),
                6 => self.odd_holder(),
                _ => self.odd_worker(),
            };
            self.damage(damage);
        }
        self.sum();
        for _ in 0..2 + self.random.below(10) {
            self.any_call();
        }
        self.steps(self.random.below(6));
    }

    /// A board at an edge: every line set, odd bits, another W, or a place about its limit.
    pub(super) fn odd_places(&mut self) {
        self.ground(0);
        let cells = self.cells();
        match self.random.below(11) {
            0 | 1 => {
                let bits = allowed_bits(&self.random, self.lines());
                self.put_bits(bits);
            }
            2 => self.field(2, 1 + self.random.below(8.min(cells - 1))),
            3 | 4 => {
                let damage = self.odd_bits();
                self.damage(damage);
            }
            5 => self.field(4, self.random.below(65_536)),
            6 => self.one_line_too_many(),
            _ => self.odd_place(),
        }
        for _ in 0..self.random.pick(&[0, 0, 1, 3]) {
            let damage = self.odd_worker();
            self.damage(damage);
        }
        if self.random.chance(1, 3) {
            self.field(6, 1);
        }
        let line = self.random.below(self.lines() + 1);
        self.call(self.random.pick(&[Call::Step, Call::WriteBack { line }, Call::Read { cell: line }]));
        self.steps(2);
        for _ in 0..self.random.below(6) {
            self.any_call();
        }
        let worker = self.random.below(self.workers().max(1));
        self.call(Call::Advance { worker });
    }

    /// A board of 512 lines with rows that fit it: nothing is wrong but that L is over its limit.
    fn one_line_too_many(&mut self) {
        self.damage(Damage::Lengths { memory: ROOM_WORDS, cache: ROOM_WORDS });
        self.field(1, 512);
        if self.random.chance(1, 2) {
            self.damage(Damage::Memory { at: 1, word: 512 });
            self.call(self.random.pick(&[Call::Recovery, Call::Format { lines: 512, workers: 1 }]));
        }
    }

    /// A recovery's step other than the first, in whatever phase.
    pub(super) fn odd_undo(&mut self) {
        if self.random.chance(1, 3) {
            self.field(5, 1 + self.random.below(2));
        }
    }

    /// A format, a recovery or a checkpoint at the last place that it may have, or just past it.
    fn odd_place(&mut self) {
        let past = self.random.below(3);
        match self.random.below(3) {
            0 => {
                self.field(0, 1);
                self.field(4, self.lines() + past);
                self.odd_undo();
            }
            1 => {
                self.field(0, 2);
                self.field(4, self.cells() - 1 + past);
                self.field(5, self.random.below(3));
            }
            _ => {
                self.field(6, 1);
                self.field(4, self.n() + 1 + past);
                self.odd_undo();
            }
        }
    }
}
