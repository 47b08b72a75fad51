//! Good calls on a running board, for random scripts and sequences.

use crate::board::{Condition, State};
use crate::call::Call;
use crate::line::cells;
use crate::locks::{holds, holds_any, lock_of, LOCKS, NOBODY};
use crate::random::Random;

/// A call that brings a running board on: a request so many times in a thousand, and what a requested checkpoint needs.
pub fn good_call(random: &Random, state: &State, requests: u64, value: u64) -> Call {
    let cells = cells(state.lines as u64);
    if random.chance(1, 20) {
        return Call::Read { cell: random.below(cells) };
    }
    if !state.requested && random.chance(requests, 1000) {
        return Call::Request;
    }
    let workers = state.workers as u64;
    let first = random.below(workers);
    let mut turn = (0..workers).map(|worker| (worker + first) % workers);
    let busy = |worker: &u64| !matches!(state.worker[*worker as usize], Condition::Waiting | Condition::Away);
    let Some(worker) = turn.find(busy) else {
        return Call::Step;
    };
    if state.worker[worker as usize] != Condition::Free {
        return if random.chance(1, 30) { give_back(random, state, worker) } else { Call::Advance { worker } };
    }
    if holds_any(&state.holders, worker as u8) {
        return under_locks(random, state, worker, value);
    }
    let restart_points = if state.requested { 4 } else { 1 };
    if random.chance(restart_points, 5) {
        return Call::RestartPoint { worker, value };
    }
    if random.chance(1, 25) {
        return Call::Update { worker, cell: data_cell(random, state), value };
    }
    take(random, state, worker)
}

/// Any data cell.
fn data_cell(random: &Random, state: &State) -> u64 {
    let workers = state.workers as u64;
    workers + random.below(cells(state.lines as u64) - workers)
}

/// The lock of a data cell taken, of one whose lock is free if there is one; seldom any lock.
fn take(random: &Random, state: &State, worker: u64) -> Call {
    if random.chance(1, 15) {
        return Call::Take { worker, lock: random.below(LOCKS as u64) };
    }
    let (cell, workers) = (data_cell(random, state), state.workers as u64);
    let after = (0..LOCKS as u64).map(|next| workers + (cell - workers + next) % (cells(state.lines as u64) - workers));
    let mut free = after.filter(|cell| state.holders[lock_of(*cell)] == NOBODY);
    Call::Take { worker, lock: lock_of(free.next().unwrap_or(cell)) as u64 }
}

/// A lock of this worker's given back, seldom any lock.
fn give_back(random: &Random, state: &State, worker: u64) -> Call {
    let first = random.below(LOCKS as u64);
    let mut after = (0..LOCKS as u64).map(|next| (first + next) % LOCKS as u64);
    let own = after.find(|lock| holds(&state.holders, worker, *lock as usize)).unwrap_or(first);
    Call::GiveBack { worker, lock: if random.chance(1, 15) { first } else { own } }
}

/// What a free worker does that holds locks: updates under them, one more lock, a lock given back; seldom what it must not.
fn under_locks(random: &Random, state: &State, worker: u64, value: u64) -> Call {
    let patience = if state.requested { 10 } else { 50 };
    match random.below(100) {
        roll if roll >= patience + 15 => give_back(random, state, worker),
        0 | 1 => Call::RestartPoint { worker, value },
        2 | 3 => Call::Update { worker, cell: data_cell(random, state), value },
        4 => Call::Take { worker, lock: random.below(LOCKS as u64) },
        5..=9 => take(random, state, worker),
        _ => {
            let first = data_cell(random, state);
            let mut after = (first..cells(state.lines as u64)).chain(state.workers as u64..first);
            match after.find(|cell| holds(&state.holders, worker, lock_of(*cell))) {
                Some(cell) => Call::Update { worker, cell, value },
                None => give_back(random, state, worker),
            }
        }
    }
}

/// How often a free worker goes away, and one that is away tries to come back, in a thousand calls.
#[derive(Clone, Copy, Debug)]
pub struct Leave {
    pub away: u64,
    pub back: u64,
}

/// A good call of workers that go away and come back, or seldom one that a worker away must not make. The drill has no
/// letters for these two, so its scripts keep to `good_call`.
pub fn good_call_with_away(random: &Random, state: &State, requests: u64, leave: Leave, value: u64) -> Call {
    let worker = random.below(state.workers as u64);
    let nobody = !state.requested && state.active_workers().iter().all(|condition| *condition == Condition::Away);
    let back = if nobody { leave.back.max(500) } else { leave.back };
    match state.worker[worker as usize] {
        Condition::Free if random.chance(leave.away, 1000) => leaves(random, state, worker),
        Condition::Away if random.chance(back, 1000) => Call::ComeBack { worker },
        Condition::Away if random.chance(1, 20) => of_one_away(random, state, worker, value),
        _ if nobody => Call::Request,
        _ => good_call(random, state, requests, value),
    }
}

/// A worker goes away, after it gave its locks back, or seldom before that.
fn leaves(random: &Random, state: &State, worker: u64) -> Call {
    if holds_any(&state.holders, worker as u8) && random.chance(9, 10) {
        return give_back(random, state, worker);
    }
    Call::GoAway { worker }
}

/// What a worker that is away must not do: an update, a restart point, an advance, a lock taken or given back.
fn of_one_away(random: &Random, state: &State, worker: u64, value: u64) -> Call {
    let (cell, lock) = (data_cell(random, state), random.below(LOCKS as u64));
    random.pick(&[
        Call::Update { worker, cell, value },
        Call::RestartPoint { worker, value },
        Call::Advance { worker },
        Call::Take { worker, lock },
        Call::GiveBack { worker, lock },
    ])
}

/// Some W that a board of so many lines may have.
pub fn some_workers(random: &Random, lines: u64) -> u64 {
    1 + random.below(8.min(cells(lines) - 1))
}
