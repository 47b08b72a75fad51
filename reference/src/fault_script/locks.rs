//! Locks: taken, given back and put there, updates with and without them, and holders that must not be.

use super::away::AWAY;
use super::Script;
use crate::board::{Condition, Phase};
use crate::call::Call;
use crate::damage::Damage;
use crate::drill::Command;
use crate::locks::{holds, lock_of, LOCKS, NOBODY};
use crate::say::drill_line;
use crate::work::{some_workers, Leave};

/// Sizes that have cells under all locks, several under some, or just not.
const SIZES: [u64; 8] = [5, 8, 9, 12, 13, 17, 40, 511];

/// Lock numbers that there are not, some of them small again when cut to fewer bits.
const PAST: [u64; 9] = [16, 16, 17, 255, 255, 256, 1 << 32, u64::MAX, u64::MAX];

impl Script {
    /// One stretch about locks.
    pub(super) fn locks(&mut self) {
        self.lock_ground();
        match self.random.below(13) {
            0 => self.lock_calls(),
            1 | 2 | 11 => self.update_under_lock(),
            3 => self.one_lock_for_two(),
            4 | 5 => self.still_under_locks(),
            6 | 7 => self.holder_from_w_on(),
            8 | 9 => self.locks_at_an_end(),
            10 => self.release_under_locks(),
            _ => {
                let leave = Leave { away: self.random.pick(&[0, 100]), back: 100 };
                (0..5 + self.random.below(30)).for_each(|_| self.good_line(40, leave));
            }
        }
    }

    /// A board that runs with two workers or more, mostly with cells past the eighth lock.
    fn lock_ground(&mut self) {
        self.ground(2);
        if self.lines() < 5 && self.random.chance(3, 4) {
            let lines = self.random.pick(&SIZES);
            let workers = some_workers(&self.random, lines).max(2);
            self.put(drill_line(&Command::Format { lines, workers }));
        }
    }

    /// Some lock, those at an end of the first or second eight more often.
    fn some_lock(&self) -> u64 {
        self.random.pick(&[0, 7, 8, 15, self.random.below(16), self.random.below(16)])
    }

    /// A lock number that there is not.
    pub(super) fn lock_past(&self) -> u64 {
        self.random.pick(&PAST)
    }

    /// Some data cell, one past the eighth lock or past the sixteenth more often.
    pub(super) fn data_cell(&self) -> u64 {
        let (workers, cells) = (self.workers(), self.cells());
        let any = workers + self.random.below((cells - workers).max(1));
        let far = self.random.pick(&[8, 15, 16, 23, 24, 31, any]);
        if far >= workers && far < cells {
            far
        } else {
            any
        }
    }

    /// This lock's holder, put there.
    pub(super) fn put_holder(&mut self, lock: u64, holder: u64) {
        self.damage(Damage::Holder { lock, holder });
    }

    /// The worker holds this lock: by a call if it may take it, or put there.
    pub(super) fn hold(&mut self, worker: u64, lock: u64) {
        if holds(&self.board.state.holders, worker, lock as usize) {
            return;
        }
        let call = Call::Take { worker, lock };
        if self.board.cause(&call) == 0 && self.random.chance(3, 4) {
            self.call(call);
        } else {
            self.put_holder(lock, worker);
        }
    }

    /// The worker holds no lock: given back if it may, or put there.
    pub(super) fn let_go(&mut self, worker: u64) {
        for lock in 0..LOCKS as u64 {
            if holds(&self.board.state.holders, worker, lock as usize) {
                let call = Call::GiveBack { worker, lock };
                if self.board.cause(&call) == 0 {
                    self.call(call);
                } else {
                    self.put_holder(lock, NOBODY.into());
                }
            }
        }
    }

    /// An update by a worker that is free, mostly with its lock taken before and given back after so many advances.
    pub(super) fn locked_update(&mut self, worker: u64, cell: u64, value: u64, advances: u64) {
        let lock = lock_of(cell) as u64;
        if self.random.chance(14, 15) {
            self.hold(worker, lock);
        }
        self.call(Call::Update { worker, cell, value });
        (0..advances).for_each(|_| self.call(Call::Advance { worker }));
        if self.random.chance(14, 15) {
            self.call(Call::GiveBack { worker, lock });
        }
    }

    /// A lock that the worker may take.
    pub(super) fn prepare_take(&mut self, worker: u64) -> Call {
        let lock = self.random.pick(&[lock_of(self.data_cell()) as u64, self.some_lock()]);
        self.make_free(worker);
        if self.board.state.holders[lock as usize] != NOBODY {
            self.put_holder(lock, NOBODY.into());
        }
        Call::Take { worker, lock }
    }

    /// A lock that the worker may give back, free or in the middle of an update that is not under it.
    pub(super) fn prepare_give_back(&mut self, worker: u64) -> Call {
        let lock = lock_of(self.data_cell()) as u64;
        self.make_free(worker);
        self.hold(worker, lock);
        let cell = self.random.pick(&[self.data_cell(), worker, worker]);
        let under = cell >= self.workers() && lock_of(cell) as u64 == lock;
        if !under && self.random.chance(1, 2) {
            self.damage(Damage::Worker { worker, numbers: [2, self.random.below(3), cell, self.word()] });
        }
        Call::GiveBack { worker, lock }
    }

    /// What turns a call down by 16: a lock not held, not free, or held.
    pub(super) fn wrong_lock(&self, call: &Call) -> Vec<Damage> {
        let others = self.workers().clamp(1, 8);
        let other = |worker: u64| (worker.min(7) + 1 + self.random.below(others)) % others;
        let lacking = |worker: u64| match other(worker) {
            same if same == worker => u64::from(NOBODY),
            other => self.random.pick(&[other, NOBODY.into()]),
        };
        let (lock, holder) = match *call {
            Call::Update { worker, cell, .. } => (lock_of(cell) as u64, lacking(worker)),
            Call::GiveBack { worker, lock } => (lock, lacking(worker)),
            Call::Take { worker, lock } => (lock, self.random.pick(&[worker.min(others - 1), other(worker)])),
            Call::RestartPoint { worker, .. } | Call::GoAway { worker } => (self.some_lock(), worker.min(others - 1)),
            _ => return Vec::new(),
        };
        vec![Damage::Holder { lock: lock.min(15), holder }]
    }

    /// A lock that is held by nobody under W, where there is somebody else.
    pub(super) fn holder_astray(&self) -> Damage {
        let workers = self.workers();
        if workers >= 8 {
            return self.bit_astray();
        }
        let holder = self.random.pick(&[workers, workers, 7, workers + self.random.below(8 - workers)]);
        Damage::Holder { lock: self.some_lock(), holder }
    }

    /// Locks taken and given back by anybody, with numbers about their limits.
    fn lock_calls(&mut self) {
        for _ in 0..4 + self.random.below(12) {
            let worker = self.random.below(self.workers());
            let lock = if self.random.chance(1, 8) { self.lock_past() } else { self.some_lock() };
            let again = self.random.chance(1, 2);
            self.call(Call::Take { worker, lock });
            if again {
                self.call(Call::Take { worker: self.random.pick(&[worker, self.random.below(self.workers())]), lock });
            }
            if self.random.chance(2, 3) {
                self.call(Call::GiveBack { worker: self.random.pick(&[worker, worker, 0]), lock });
            }
        }
        (0..self.workers()).for_each(|worker| self.let_go(worker));
    }

    /// An update under its lock with tries to give it back, and another lock, before each store.
    fn update_under_lock(&mut self) {
        let worker = self.random.below(self.workers());
        let (cell, value) = (self.data_cell(), self.word());
        let lock = lock_of(cell) as u64;
        let other = self.random.pick(&[lock ^ 8, lock ^ 8, self.some_lock()]);
        self.make_free(worker);
        if self.random.chance(2, 3) {
            self.hold(worker, other);
        }
        if self.random.chance(1, 2) {
            self.call(Call::Update { worker, cell, value });
        }
        self.hold(worker, lock);
        self.call(Call::Update { worker, cell, value });
        for _ in 0..3 {
            let lock = self.random.pick(&[lock, other, other]);
            match self.random.below(3) {
                0 => self.call(Call::GiveBack { worker, lock }),
                1 => self.call(Call::Take { worker, lock: other }),
                _ => {}
            }
            self.call(Call::Advance { worker });
        }
        self.call(Call::GiveBack { worker, lock });
        self.call(Call::GiveBack { worker, lock: other });
        self.call(Call::GiveBack { worker, lock });
    }

    /// Two workers and one lock: who has it updates, the other is turned down until it is given back.
    fn one_lock_for_two(&mut self) {
        let (workers, cell, value) = (self.workers(), self.data_cell(), self.word());
        let lock = lock_of(cell) as u64;
        let one = self.random.below(workers);
        let other = (one + 1) % workers;
        [one, other].into_iter().for_each(|worker| self.make_free(worker));
        self.hold(one, lock);
        self.call(Call::Update { worker: one, cell, value });
        self.call(Call::Update { worker: other, cell, value });
        if self.random.chance(1, 2) {
            self.put_holder(lock, other);
            self.call(Call::Update { worker: other, cell, value });
            self.call(Call::GiveBack { worker: one, lock });
            self.put_holder(lock, one);
        }
        (0..3).for_each(|_| self.call(Call::Advance { worker: one }));
        self.call(self.random.pick(&[Call::Take { worker: other, lock }, Call::GiveBack { worker: other, lock }]));
        self.call(Call::GiveBack { worker: one, lock });
        self.call(Call::Take { worker: other, lock });
        self.locked_update(other, cell, value, 1);
    }

    /// A restart point or going away under a lock, free or not, another updating that cell or not; then without the lock.
    fn still_under_locks(&mut self) {
        let (workers, lock) = (self.workers(), self.some_lock());
        let worker = self.random.below(workers);
        let calls = [Call::RestartPoint { worker, value: self.word() }, Call::GoAway { worker }];
        let call = self.random.pick(&calls);
        self.make_free(worker);
        self.hold(worker, lock);
        self.call(call);
        match self.random.below(3) {
            0 => {
                let numbers = self.random.pick(&[AWAY, [1, 0, 0, 0]]);
                self.damage(Damage::Worker { worker, numbers });
                calls.into_iter().for_each(|call| self.call(call));
                self.make_free(worker);
            }
            1 => {
                let other = (worker + 1) % workers;
                self.damage(Damage::Worker { worker: other, numbers: [2, self.random.below(3), worker, 1] });
                self.call(calls[0]);
                self.let_go(worker);
                self.call(calls[0]);
                self.make_free(other);
            }
            _ => {}
        }
        self.let_go(worker);
        self.call(call);
    }

    /// A holder from W on, in whatever phase, calls on such a record, and once it is put right.
    fn holder_from_w_on(&mut self) {
        let phase = self.random.pick(&[0, 1, 1, 2, 2, 3, 3]);
        self.field(4, 0);
        self.field(0, phase);
        let damage = self.holder_astray();
        let repair = damage.repair(&self.board);
        let (worker, lock) = (self.random.below(self.workers()), self.some_lock());
        let update = Call::Update { worker, cell: self.data_cell(), value: 1 };
        let back = Call::GiveBack { worker, lock };
        let calls = [Call::Step, update, Call::Take { worker, lock }, back, Call::WriteBack { line: 0 }, Call::Count];
        self.damage(damage);
        (0..2).for_each(|_| self.call(self.random.pick(&calls)));
        self.call(Call::Step);
        self.damage(repair);
        self.call(self.random.pick(&calls));
        self.field(0, 3);
    }

    /// The last step of a format or recovery, a start, or a cut, with locks held.
    fn locks_at_an_end(&mut self) {
        for _ in 0..1 + self.random.below(3) {
            let holder = self.random.below(self.workers());
            self.put_holder(self.some_lock(), holder);
        }
        let (lines, cells) = (self.lines(), self.cells());
        let workers = some_workers(&self.random, lines);
        match self.random.below(6) {
            0 => self.call(Call::Recovery),
            1 => self.call(Call::Format { lines, workers }),
            2 => {
                self.put(drill_line(&Command::Cut));
                self.sum();
                self.call(Call::Recovery);
            }
            _ => {
                let (phase, place) = self.random.pick(&[(1, lines + 1), (2, cells - 1)]);
                self.field(0, phase);
                self.field(4, place);
                self.field(5, self.random.pick(&[0, 2]));
            }
        }
        self.sum();
        self.steps(3);
        let worker = self.random.below(self.workers());
        self.call(Call::Take { worker, lock: self.some_lock() });
    }

    /// A checkpoint's last steps while locks are held, as no call lets it come to.
    fn release_under_locks(&mut self) {
        for worker in 0..self.workers() {
            let numbers = self.random.pick(&[AWAY, [1, 0, 0, 0], [1, 0, 0, 0]]);
            self.damage(Damage::Worker { worker, numbers });
            self.put_holder(self.random.below(16), worker);
        }
        let n = self.n();
        self.field(4, self.random.pick(&[n, n + 1, n + 2]));
        self.field(6, 1);
        self.steps(3);
        self.sum();
        let worker = self.random.below(self.workers());
        if self.board.state.worker[worker as usize] == Condition::Away {
            self.call(Call::ComeBack { worker });
        }
        self.call(Call::GoAway { worker });
        if self.board.state.phase == Phase::Running {
            (0..self.workers()).for_each(|worker| self.let_go(worker));
        }
    }
}
