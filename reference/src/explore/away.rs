//! Ticket 2's own rules, each told by itself: who is away after a call, and what a checkpoint leaves of that.

use super::check::{ensure, Finding};
use crate::board::{Board, Condition, Phase, State};
use crate::call::Call;
use crate::line::MOST_WORKERS;

/// Who of the eight is away.
pub type Away = [bool; MOST_WORKERS];

/// Who is away in this record.
pub fn away(state: &State) -> Away {
    state.worker.map(|condition| condition == Condition::Away)
}

/// What holds after a taken call on any board.
pub fn after_call(call: &Call, before: &Board, after: &Board) -> Finding {
    match *call {
        Call::GoAway { worker } => one_condition(worker, [Condition::Free, Condition::Away], before, after)?,
        Call::ComeBack { worker } => one_condition(worker, [Condition::Away, Condition::Free], before, after)?,
        _ => {}
    }
    let (told, found) = (away_after(call, before, after), away(&after.state));
    ensure(found == told, || format!("after {call:?} {found:?} are away, not {told:?}"))
}

/// "A free worker may go away and come back free": one condition changes, and nothing else of record and rows.
fn one_condition(worker: u64, [from, to]: [Condition; 2], before: &Board, after: &Board) -> Finding {
    let old = before.state.worker[worker as usize];
    ensure(old == from, || format!("worker {worker} was {old:?}, not {from:?}"))?;
    let mut told = before.clone();
    told.state.worker[worker as usize] = to;
    ensure(*after == told, || format!("worker {worker} became {to:?}, and something else changed"))
}

/// Nobody after a start and after the end of a format or recovery; else who was before, the call's own worker aside.
fn away_after(call: &Call, before: &Board, after: &Board) -> Away {
    let ends = before.state.phase != Phase::Running && after.state.phase == Phase::Running;
    let stays = !call.is_start() && !ends;
    std::array::from_fn(|index| match *call {
        Call::GoAway { worker } if worker as usize == index => true,
        Call::ComeBack { worker } if worker as usize == index => false,
        _ => stays && before.state.worker[index] == Condition::Away,
    })
}

/// After a checkpoint: those that were away before its first step are away, all others of the eight free.
pub fn after_checkpoint(before: &Away, state: &State) -> Finding {
    let told = before.map(|away| if away { Condition::Away } else { Condition::Free });
    ensure(state.worker == told, || format!("a checkpoint left the workers {:?}, not {told:?}", state.worker))
}
