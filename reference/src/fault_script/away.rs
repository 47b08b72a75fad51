//! Workers that go away and come back: conditions put there, and whole checkpoints with some or all of them away.

use super::Script;
use crate::board::{Condition, Phase};
use crate::call::Call;
use crate::damage::Damage;
use crate::drill::Command;
use crate::say::drill_line;

/// An away worker's numbers.
pub(super) const AWAY: [u64; 4] = [3, 0, 0, 0];

impl Script {
    /// A worker of the eight that is away, put there.
    pub(super) fn one_away(&mut self) {
        let worker = self.random.below(8);
        self.damage(Damage::Worker { worker, numbers: AWAY });
    }

    /// A worker that may come back: with no request at any place, or with one before the first step.
    pub(super) fn prepare_back(&mut self, worker: u64) -> Call {
        if self.random.chance(1, 2) {
            self.make_free(worker);
            self.let_go(worker);
            self.call(Call::GoAway { worker });
        } else {
            self.damage(Damage::Worker { worker, numbers: AWAY });
        }
        let requested = self.random.below(2);
        let place = self.random.pick(&[0, 1, self.n() + 2, self.n() + 3, 65_535]);
        self.field(6, requested);
        self.field(4, if requested == 1 { 0 } else { place });
        Call::ComeBack { worker }
    }

    /// A checkpoint that stands at a place past its first step.
    pub(super) fn under_way(&self) -> Vec<Damage> {
        let last = self.n().min(65_533) + 2;
        let place = self.random.pick(&[1, last, 1 + self.random.below(last)]);
        vec![Damage::Field { k: 4, number: place }, Damage::Field { k: 6, number: 1 }]
    }

    /// A checkpoint with some workers or all away; some of them try to come back before it, in it and after it.
    pub(super) fn leaving(&mut self) {
        self.ground(0);
        let all = self.random.chance(1, 2);
        for worker in 0..self.workers() {
            if all || self.random.chance(1, 2) {
                self.make_free(worker);
                self.let_go(worker);
                self.call(Call::GoAway { worker });
            }
        }
        if self.random.chance(1, 3) {
            self.call(Call::Step);
        }
        self.field(6, 0);
        self.call(Call::Request);
        if self.random.chance(1, 3) {
            self.held_up();
        }
        self.all_wait();
        self.whole_checkpoint();
        self.tries();
        if self.random.chance(1, 3) {
            self.put(drill_line(&Command::Cut));
            self.call(Call::Recovery);
            self.steps(20);
        }
    }

    /// One comes back before the first step, which holds the checkpoint up; it may go away again.
    fn held_up(&mut self) {
        let worker = self.random.below(self.workers());
        self.call(Call::ComeBack { worker });
        self.call(Call::Step);
        if self.random.chance(1, 2) {
            self.call(Call::GoAway { worker });
        }
    }

    /// A restart point of everybody under W who is not away, seldom of nobody.
    pub(super) fn all_wait(&mut self) {
        if self.random.chance(1, 8) {
            return;
        }
        for worker in 0..self.workers() {
            let busy = |script: &Script| matches!(script.board.state.worker[worker as usize], Condition::Updating(_));
            if self.board.state.worker[worker as usize] == Condition::Free {
                self.let_go(worker);
                self.call(Call::RestartPoint { worker, value: self.word() });
            }
            for _ in 0..3 {
                if busy(self) {
                    self.call(Call::Advance { worker });
                }
            }
        }
    }

    /// The steps of a checkpoint, tries between them.
    pub(super) fn whole_checkpoint(&mut self) {
        for _ in 0..(self.n() + 3).min(20) {
            if self.random.chance(1, 3) {
                self.tries();
            }
            self.call(Call::Step);
        }
    }

    /// A worker under W tries to come back, to go away or to do something else; coming back is tried most.
    pub(super) fn tries(&mut self) {
        let worker = self.random.below(self.workers().max(1));
        let value = self.word();
        let cell = self.workers() + self.random.below((self.cells() - self.workers()).max(1));
        let lock = self.random.below(16);
        self.call(match self.random.below(12) {
            10 => Call::Take { worker, lock },
            11 => Call::GiveBack { worker, lock },
            0 => Call::GoAway { worker },
            1 => Call::Update { worker, cell, value },
            2 => Call::RestartPoint { worker, value },
            3 => Call::Advance { worker },
            _ => Call::ComeBack { worker },
        });
    }

    /// Workers away over a place that no checkpoint stands at, or in a format or recovery that is about to end.
    pub(super) fn odd_away(&mut self) {
        self.ground(0);
        let (lines, cells) = (self.lines(), self.cells());
        (0..1 + self.random.below(4)).for_each(|_| self.one_away());
        match self.random.below(4) {
            0 => {
                self.field(0, 1);
                self.field(4, lines + 1);
            }
            1 => {
                self.field(0, 2);
                self.field(4, cells - 1);
                self.field(5, self.random.below(3));
            }
            _ => {
                self.field(6, 0);
                self.field(4, 1 + self.random.below(4));
            }
        }
        if self.board.state.phase != Phase::Running {
            self.steps(3);
        }
        (0..3).for_each(|_| self.tries());
    }
}
