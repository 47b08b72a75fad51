//! Damage aimed at one cause of one call, alone or among others of that call.

use std::cmp::Reverse;

use super::away::AWAY;
use super::Script;
use crate::board::Condition;
use crate::call::Call;
use crate::damage::Damage;
use crate::explore::garbage::allowed_bits;
use crate::explore::table::rank;
use crate::locks::lock_of;
use crate::reached::CAUSES;
use crate::work::some_workers;

/// A free worker's numbers.
const FREE: [u64; 4] = [0; 4];

/// A waiting worker's numbers.
const WAITING: [u64; 4] = [1, 0, 0, 0];

impl Script {
    /// A call's letter and the causes aimed at, late ones more often: arguments first, which others may go by, then the
    /// later causes before the earlier, so that repairs uncover one after the other.
    fn target(&self) -> (u8, Vec<u8>) {
        let random = &self.random;
        let begins = random.pick(b"UP");
        let begins = CAUSES.into_iter().find(|(letter, _)| *letter == begins).unwrap_or(CAUSES[0]);
        let (one, other) = (random.pick(&CAUSES), random.pick(&[begins, random.pick(&CAUSES), random.pick(&CAUSES)]));
        let (letter, causes) = if one.1.len() < other.1.len() && random.chance(1, 2) { other } else { one };
        let later = if random.chance(1, 3) { random.pick(causes) } else { 0 };
        let first = random.pick(causes);
        let first = if rank(later) > rank(first) { later } else { first };
        let others =
            if rank(first) > rank(8) { random.pick(&[0, 1, 1, 2]) } else { random.pick(&[0, 0, 0, 1, 1, 2, 3]) };
        let mut aims = vec![first];
        (0..others).for_each(|_| aims.push(random.pick(causes)));
        aims.sort_by_key(|cause| Reverse(if matches!(cause, 6 | 7 | 15) { usize::MAX } else { rank(*cause) }));
        (letter, aims)
    }

    /// A call that would be taken, damage that turns it down, and often the damage repaired bit by bit.
    pub(super) fn aimed(&mut self) {
        let (letter, aims) = self.target();
        if self.random.chance(1, 4) {
            self.work(12);
        }
        self.ground(if aims.contains(&9) { 2 } else { 0 });
        let good = self.prepare(letter, &aims);
        let mut call = good;
        let mut repairs = Vec::new();
        for cause in aims {
            for damage in self.fault(cause, &mut call) {
                repairs.push(damage.repair(&self.board));
                self.damage(damage);
            }
        }
        self.put_format_or(letter, call);
        if self.random.chance(2, 3) {
            self.repaired(letter, repairs, call, good);
        } else {
            (0..self.random.below(6)).for_each(|_| self.any_call());
        }
    }

    /// The repairs, the last damage's first, the call tried after each; at last with good arguments.
    fn repaired(&mut self, letter: u8, repairs: Vec<Damage>, call: Call, good: Call) {
        if self.random.chance(1, 2) {
            self.sum();
        }
        for repair in repairs.into_iter().rev() {
            self.damage(repair);
            self.put_format_or(letter, call);
        }
        self.put_format_or(letter, good);
    }

    /// The call, a format's start as `F` where that is the letter aimed at.
    fn put_format_or(&mut self, letter: u8, call: Call) {
        match call {
            Call::Format { lines, workers } if letter == b'F' => {
                self.put(crate::say::line('F', &[lines, workers]));
            }
            _ => self.call(call),
        }
    }

    /// A call of this letter that the board takes, the board brought there if need be.
    fn prepare(&mut self, letter: u8, aims: &[u8]) -> Call {
        let workers = self.workers().max(1);
        let worker = self.random.below(workers);
        match letter {
            b'F' | b'f' => Call::Format { lines: self.lines(), workers: some_workers(&self.random, self.lines()) },
            b'R' => self.prepare_recovery(),
            b'S' => self.prepare_step(aims),
            b'U' => {
                let cell = self.data_cell();
                self.make_free(worker);
                self.hold(worker, lock_of(cell) as u64);
                Call::Update { worker, cell, value: self.word() }
            }
            b'P' => {
                self.make_free(worker);
                self.let_go(worker);
                Call::RestartPoint { worker, value: self.word() }
            }
            b'A' => self.prepare_advance(worker),
            b'a' => {
                self.make_free(worker);
                self.let_go(worker);
                Call::GoAway { worker }
            }
            b'H' => self.prepare_take(worker),
            b'V' => self.prepare_give_back(worker),
            b'b' => self.prepare_back(worker),
            b'C' => self.prepare_request(),
            b'n' => self.prepare_count(),
            b'E' => Call::WriteBack { line: self.random.below(self.lines() + 1) },
            b'p' => self.prepare_page(),
            _ => Call::Read { cell: self.random.below(self.cells()) },
        }
    }

    /// A recovery's start with a header that it takes.
    fn prepare_recovery(&mut self) -> Call {
        if self.board.cause(&Call::Recovery) != 0 {
            self.format(0);
        }
        Call::Recovery
    }

    /// A request where none stands, over a place that no checkpoint left.
    fn prepare_request(&mut self) -> Call {
        self.field(6, 0);
        if self.random.chance(1, 3) {
            self.field(4, self.random.pick(&[1, self.n() + 2, self.n() + 3, 65_535]));
        }
        self.odd_undo();
        Call::Request
    }

    /// A worker made free if it is not.
    pub(super) fn make_free(&mut self, worker: u64) {
        if self.board.state.worker[worker as usize] != Condition::Free {
            self.damage(Damage::Worker { worker, numbers: FREE });
        }
    }

    /// An advance of an update, by a call or put there.
    fn prepare_advance(&mut self, worker: u64) -> Call {
        let workers = self.workers();
        let cell = workers + self.random.below(self.cells() - workers);
        if self.random.chance(1, 2) {
            self.make_free(worker);
            self.hold(worker, lock_of(cell) as u64);
            self.call(Call::Update { worker, cell, value: 7 });
        } else {
            let cell = self.random.pick(&[cell, worker]);
            self.damage(Damage::Worker { worker, numbers: [2, self.random.below(3), cell, self.word()] });
        }
        Call::Advance { worker }
    }

    /// A step of a format, a recovery or a checkpoint, at any place of it.
    fn prepare_step(&mut self, aims: &[u8]) -> Call {
        let (lines, cells) = (self.lines(), self.cells());
        let checkpoint = aims.iter().any(|cause| *cause >= 10);
        match self.random.below(4) {
            0 if !checkpoint => {
                self.field(0, 1);
                self.field(4, self.random.pick(&[0, lines, lines + 1, self.random.below(lines + 2)]));
                self.odd_undo();
            }
            1 if !checkpoint => {
                self.field(0, 2);
                self.field(4, self.random.pick(&[0, cells - 1, self.random.below(cells)]));
                self.field(5, self.random.below(3));
            }
            _ => self.prepare_checkpoint(),
        }
        if !self.running() && self.random.chance(1, 2) {
            self.one_away();
        }
        Call::Step
    }

    /// A requested checkpoint at any place of it, all workers waiting or away, with lines and words to write.
    fn prepare_checkpoint(&mut self) {
        let away = self.random.pick(&[0, 0, 1, 2]);
        for worker in 0..self.workers() {
            let numbers = if self.random.chance(away, 2) { AWAY } else { WAITING };
            self.damage(Damage::Worker { worker, numbers });
        }
        if self.random.chance(2, 3) {
            let bits = allowed_bits(&self.random, self.lines());
            self.put_bits(bits);
        }
        let n = self.n();
        let place = self.random.pick(&[0, n, n + 1, n + 2, self.random.below(n + 3)]);
        self.field(4, place);
        self.field(6, 1);
        self.odd_undo();
        if self.random.chance(1, 2) {
            let damage = self.worker_from_w_on();
            self.damage(damage);
        }
        for _ in 0..self.random.below(3) {
            let at = 8 + self.random.below(8 * self.lines());
            self.damage(Damage::Cache { at, word: self.word() });
        }
    }

    /// What turns this call down by that cause: damage, or other arguments of the call.
    fn fault(&mut self, cause: u8, call: &mut Call) -> Vec<Damage> {
        match cause {
            1 => *call = self.bad_format(),
            2 => return vec![Damage::Field { k: 0, number: self.wrong_phase(call) }],
            3 => return self.record_fault(call),
            4 => return self.rows_fault(call),
            5 => return vec![self.header_damage()],
            6 | 7 | 15 => *call = self.bad_arguments(cause, *call),
            8 => return self.wrong_condition(call),
            9 => return self.same_cell(call),
            10 => return self.request_fault(call),
            11 => return self.last_epoch(call),
            12 => *call = Call::Page { room: self.too_short() },
            13 => return self.under_way(),
            14 => return self.mark_past(),
            16 => return self.wrong_lock(call),
            _ => {}
        }
        Vec::new()
    }

    /// A format with L or W outside the limits.
    fn bad_format(&self) -> Call {
        let random = &self.random;
        let far = random.pick(&[512, 513, 65_537, (1 << 32) + 1, u64::MAX]);
        let lines = random.pick(&[1, 2, 3]);
        let sizes = [(0, 1), (far, 1), (lines, 2 * lines), (lines, 0), (7, 9), (511, far), (7, 257), (0, 0)];
        let (lines, workers) = random.pick(&sizes);
        Call::Format { lines, workers }
    }

    /// A phase in which the call is not allowed.
    fn wrong_phase(&self, call: &Call) -> u64 {
        match call {
            Call::Step => 0,
            Call::WriteBack { .. } => self.random.below(2),
            _ => self.random.below(3),
        }
    }

    /// A worker, a cell, a line or a lock past its limit, some of them small again when cut to fewer bits.
    fn bad_arguments(&self, cause: u8, call: Call) -> Call {
        let random = &self.random;
        let past =
            |limit: u64| random.pick(&[limit, limit, limit + 1, 256, 65_536, 65_537, 1 << 32, u64::MAX]).max(limit);
        let (workers, cells) = (self.workers(), self.cells());
        match call {
            Call::Update { cell, value, .. } if cause == 6 => Call::Update { worker: past(workers), cell, value },
            Call::Update { worker, value, .. } => {
                let cell = random.pick(&[past(cells), workers.saturating_sub(1), random.below(workers.max(1))]);
                Call::Update { worker, cell, value }
            }
            Call::RestartPoint { value, .. } => Call::RestartPoint { worker: past(workers), value },
            Call::Advance { .. } => Call::Advance { worker: past(workers) },
            Call::GoAway { .. } => Call::GoAway { worker: past(workers) },
            Call::ComeBack { .. } => Call::ComeBack { worker: past(workers) },
            Call::Take { worker, .. } if cause == 15 => Call::Take { worker, lock: self.lock_past() },
            Call::Take { lock, .. } => Call::Take { worker: past(workers), lock },
            Call::GiveBack { worker, .. } if cause == 15 => Call::GiveBack { worker, lock: self.lock_past() },
            Call::GiveBack { lock, .. } => Call::GiveBack { worker: past(workers), lock },
            Call::WriteBack { .. } => Call::WriteBack { line: past(self.lines() + 1) },
            Call::Read { .. } => Call::Read { cell: past(cells) },
            other => other,
        }
    }

    /// A worker that is not free, for an advance one without an update, for coming back one that is not away, for a lock
    /// given back one in the middle of an update under it.
    fn wrong_condition(&mut self, call: &Call) -> Vec<Damage> {
        let cell = self.random.below(self.cells().max(1));
        let updating = [2, self.random.below(3), cell, 1];
        let (worker, among) = match *call {
            Call::Update { worker, .. } | Call::RestartPoint { worker, .. } => (worker, [WAITING, updating, AWAY]),
            Call::GoAway { worker } | Call::Take { worker, .. } => (worker, [WAITING, updating, AWAY]),
            Call::GiveBack { worker, lock } => {
                let first = self.workers() + (lock + 16 - self.workers() % 16) % 16;
                (worker, [[2, self.random.below(3), first.min(65_535), 1]; 3])
            }
            Call::Advance { worker } => (worker, [FREE, WAITING, AWAY]),
            Call::ComeBack { worker } => (worker, [FREE, WAITING, updating]),
            _ => return Vec::new(),
        };
        let numbers = self.random.pick(&among);
        vec![Damage::Worker { worker: worker.min(7), numbers }]
    }

    /// Another worker's unfinished update of the same cell, under W or now and then not.
    fn same_cell(&mut self, call: &Call) -> Vec<Damage> {
        let (worker, cell) = match *call {
            Call::Update { worker, cell, .. } => (worker, cell),
            Call::RestartPoint { worker, .. } => (worker, worker),
            _ => return Vec::new(),
        };
        let among = if self.random.chance(1, 8) { 8 } else { self.workers().clamp(2, 8) };
        let other = (worker.min(7) + 1 + self.random.below(among - 1)) % among;
        vec![Damage::Worker { worker: other, numbers: [2, self.random.below(3), cell.min(65_535), self.word()] }]
    }

    /// A request that stands already; for a step one that does not, or a worker that does not wait.
    fn request_fault(&mut self, call: &Call) -> Vec<Damage> {
        if *call == Call::Request {
            return vec![Damage::Field { k: 6, number: 1 }, Damage::Field { k: 4, number: 0 }];
        }
        if self.random.chance(1, 3) {
            return vec![Damage::Field { k: 6, number: 0 }];
        }
        vec![self.not_waiting()]
    }

    /// A worker under W that does not wait.
    fn not_waiting(&self) -> Damage {
        let worker = self.random.below(self.workers().clamp(1, 8));
        let cell = self.random.below(self.cells().max(1));
        let numbers = self.random.pick(&[FREE, [2, self.random.below(3), cell, self.word()]]);
        Damage::Worker { worker, numbers }
    }

    /// The cache's epoch 2^64 − 1, or just under; for a step at the epoch's store, or at a place beside it,
    /// now and then with a worker that does not wait.
    fn last_epoch(&mut self, call: &Call) -> Vec<Damage> {
        let word = self.random.pick(&[u64::MAX, u64::MAX, u64::MAX, u64::MAX - 1]);
        let mut damages = vec![Damage::Cache { at: 0, word }];
        if *call == Call::Step {
            let place = self.random.pick(&[0, 0, 0, 0, 0, 0, 1, 2]);
            damages.push(Damage::Field { k: 4, number: self.n() + place });
            if self.random.chance(1, 5) {
                damages.push(self.not_waiting());
            }
        }
        damages
    }
}
