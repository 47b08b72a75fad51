//! Ticket 6's own rules, each told by itself: who holds a lock after a call, who must hold one and who none, and that no
//! call is answered by 9.

use super::check::{ensure, Finding};
use crate::board::{Board, Condition, State};
use crate::call::Call;
use crate::machine::Machine;

/// A lock that nobody holds has the number after the eighth worker's.
const NOBODY: u8 = 8;

/// What holds after a taken call on any board: the two calls change their lock's holder and nothing else of record and
/// rows, the starts free all locks, and no other call changes a holder.
pub fn after_call(call: &Call, before: &Board, after: &Board) -> Finding {
    match *call {
        Call::Take { worker, lock } => one_holder(lock, [NOBODY, worker as u8], before, after),
        Call::GiveBack { worker, lock } => one_holder(lock, [worker as u8, NOBODY], before, after),
        _ => {
            let told = if call.is_start() { [NOBODY; 16] } else { before.state.holders };
            let found = after.state.holders;
            ensure(found == told, || format!("after {call:?} the locks' holders are {found:?}, not {told:?}"))
        }
    }
}

/// One lock passes from a holder to another, and nothing else changes.
fn one_holder(lock: u64, [from, to]: [u8; 2], before: &Board, after: &Board) -> Finding {
    let old = before.state.holders[lock as usize];
    ensure(old == from, || format!("lock {lock} was held by {old}, not {from}"))?;
    let mut told = before.clone();
    told.state.holders[lock as usize] = to;
    ensure(*after == told, || format!("lock {lock} passed to {to}, and something else changed"))
}

/// The two calls are nothing to the machine.
pub fn machine_stays(before: &Machine, after: &Machine) -> Finding {
    ensure(before == after, || "a lock taken or given back changed the machine".into())
}

/// "On a board that calls from a taken start led to, no call is answered by 9."
pub fn no_conflict(call: &Call, number: u8) -> Finding {
    ensure(number != 9, || format!("{call:?} was answered 9, and only calls from a taken start on led to this board"))
}

/// In a record that calls from a taken start led to: who updates a data cell holds its lock; who waits, is away or makes
/// its restart point holds none, and nobody from W on does.
pub fn held(state: &State) -> Finding {
    for (worker, condition) in (0u8..).zip(&state.worker) {
        let locks: Vec<usize> = (0..16).filter(|lock| state.holders[*lock] == worker).collect();
        let (holds, what) = match condition {
            _ if worker >= state.workers => (locks.is_empty(), "is not under W"),
            Condition::Free => (true, "is free"),
            Condition::Waiting => (locks.is_empty(), "waits"),
            Condition::Away => (locks.is_empty(), "is away"),
            Condition::Updating(update) if update.cell < state.workers.into() => {
                (locks.is_empty(), "is at a restart point")
            }
            Condition::Updating(update) => (locks.contains(&(update.cell as usize % 16)), "updates a data cell"),
        };
        ensure(holds, || format!("worker {worker} {what} and holds the locks {locks:?}: {condition:?}"))?;
    }
    Ok(())
}
