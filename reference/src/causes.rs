//! Why a call is turned down: the table of 01, tested in rising order of number, and what 02 adds to it: 14 directly
//! after 5, 15 after 7, and after 8 first 13, then 16.

use crate::board::{Condition, Lent, Phase, State};
use crate::call::Call;
use crate::effects::writes;
use crate::line::{cells, row_length_allowed, sizes_allowed, LINE_WORDS};
use crate::locks::{holds, holds_any, lock_of, LOCKS, NOBODY};
use crate::mistake::Mistake;
use crate::page::{page_bytes, page_lines};
use crate::sound::{record_sound, rows_fit};

/// The number of the first cause that holds, 0 for a call that is taken.
pub fn cause(call: &Call, state: &State, rows: &Lent, mistake: Option<Mistake>) -> u8 {
    if mistake == Some(Mistake::RefuseAll) {
        return 2;
    }
    match *call {
        Call::Format { lines, workers } => format_cause(lines, workers, rows),
        Call::Recovery => recovery_cause(rows, mistake),
        Call::Step => step_cause(state, rows, mistake),
        Call::Update { worker, cell, .. } => update_cause(worker, cell, state, rows, mistake),
        Call::RestartPoint { worker, .. } => restart_point_cause(worker, state, rows, mistake),
        Call::Advance { worker } => advance_cause(worker, state, rows, mistake),
        Call::Request => request_cause(state, rows, mistake),
        Call::WriteBack { line } => write_back_cause(line, state, rows, mistake),
        Call::Read { cell } => read_cause(cell, state, rows, mistake),
        Call::Page { room } => page_cause(room, state, rows, mistake),
        Call::GoAway { worker } => go_away_cause(worker, state, rows, mistake),
        Call::ComeBack { worker } => come_back_cause(worker, state, rows, mistake),
        Call::Count => running_cause(state, rows, mistake),
        Call::Take { worker, lock } => take_cause(worker, lock, state, rows, mistake),
        Call::GiveBack { worker, lock } => give_back_cause(worker, lock, state, rows, mistake),
    }
}

/// Format's start: cause 1, then 4 by its own L.
fn format_cause(lines: u64, workers: u64, rows: &Lent) -> u8 {
    if !sizes_allowed(lines, workers) {
        return 1;
    }
    if !rows_fit(lines, rows) {
        return 4;
    }
    0
}

/// Recovery's start: causes 4, 5 and 14.
fn recovery_cause(rows: &Lent, mistake: Option<Mistake>) -> u8 {
    if !row_length_allowed(rows.memory.len()) {
        return 4;
    }
    if rows.cache.len() != rows.memory.len() {
        return 4;
    }
    if mistake == Some(Mistake::Cause14First) && marked_past_epoch(rows, mistake) {
        return 14;
    }
    if !header_allowed(rows.memory) {
        return 5;
    }
    if marked_past_epoch(rows, mistake) {
        return 14;
    }
    0
}

/// "epoch 0, L not (words div 8) − 1, W outside the limits, or words 3 to 7 not all zero", turned round
fn header_allowed(memory: &[u64]) -> bool {
    let header = &memory[..LINE_WORDS];
    let lines = (memory.len() / LINE_WORDS - 1) as u64;
    header[0] != 0 && header[1] == lines && sizes_allowed(lines, header[2]) && header[3..] == [0; 5]
}

/// "memory with any mark greater than its epoch"
fn marked_past_epoch(rows: &Lent, mistake: Option<Mistake>) -> bool {
    let (memory, epoch) = (rows.memory, rows.memory[0]);
    match mistake {
        Some(Mistake::NoCause14) => false,
        Some(Mistake::Cause14AtEpoch) => any_mark(memory, |mark| mark >= epoch),
        Some(Mistake::Cause14ByCache) => any_mark(memory, |mark| mark > rows.cache[0]),
        Some(Mistake::Cause14LastCell) => {
            let last = memory.len() - LINE_WORDS;
            any_mark(&memory[..last], |mark| mark > epoch) || memory[last + 2] > epoch
        }
        _ => any_mark(memory, |mark| mark > epoch),
    }
}

/// The mark of one of memory's cells is such a one: a line's words 2 and 5, the header aside.
fn any_mark(memory: &[u64], is: impl Fn(u64) -> bool) -> bool {
    memory.chunks_exact(LINE_WORDS).skip(1).any(|line| is(line[2]) || is(line[5]))
}

/// A step of a format, a recovery or a checkpoint.
fn step_cause(state: &State, rows: &Lent, mistake: Option<Mistake>) -> u8 {
    if state.phase == Phase::Off {
        return 2;
    }
    let common = record_and_rows_cause(state, rows, mistake);
    if common != 0 || state.phase != Phase::Running {
        return common;
    }
    let released = mistake == Some(Mistake::EarlyRelease) && state.place == writes(state, mistake) + 2;
    let waiting = state.active_workers().iter().all(|condition| waits(condition, mistake));
    if !state.requested || !(waiting || released) {
        return 10;
    }
    if rows.cache[0] == u64::MAX && state.place == writes(state, mistake) {
        return 11;
    }
    0
}

/// "away counts as waiting"
fn waits(condition: &Condition, mistake: Option<Mistake>) -> bool {
    match condition {
        Condition::Waiting => true,
        Condition::Away => mistake != Some(Mistake::AwayNotWaiting),
        Condition::Free | Condition::Updating(_) => false,
    }
}

/// The start of an update: "A data cell's update needs its lock held at its start."
fn update_cause(worker: u64, cell: u64, state: &State, rows: &Lent, mistake: Option<Mistake>) -> u8 {
    let common = worker_cause(worker, state, rows, mistake);
    if common != 0 {
        return common;
    }
    if cell < state.workers as u64 || cell >= cells(state.lines as u64) {
        return 7;
    }
    let holders = &state.holders;
    let lacking = match mistake {
        Some(Mistake::NoLockAtUpdate) => false,
        Some(Mistake::LockMod8) => !holds(holders, worker, lock_of(cell % 8)),
        Some(Mistake::AnyHolder) => holders[lock_of(cell)] == NOBODY,
        _ => !holds(holders, worker, lock_of(cell)),
    };
    begin_cause(worker as usize, cell, lacking, state, mistake)
}

/// The start of a restart point, on the worker's own restart cell: 16 for a lock "held at a restart point".
fn restart_point_cause(worker: u64, state: &State, rows: &Lent, mistake: Option<Mistake>) -> u8 {
    let common = worker_cause(worker, state, rows, mistake);
    if common != 0 {
        return common;
    }
    let held = holds_any(&state.holders, worker as u8) && mistake != Some(Mistake::RestartUnderLock);
    begin_cause(worker as usize, worker, held, state, mistake)
}

/// "a worker not free" is 8; then 16 where a lock is wrong; "another worker under W has an unfinished update of the same
/// cell" is 9.
fn begin_cause(worker: usize, cell: u64, wrong_lock: bool, state: &State, mistake: Option<Mistake>) -> u8 {
    let away_begins = state.worker[worker] == Condition::Away && mistake == Some(Mistake::AwayUpdates);
    let busy = state.worker[worker] != Condition::Free && !away_begins;
    match mistake {
        Some(Mistake::Cause16First) if wrong_lock => 16,
        Some(Mistake::Cause9First) if !busy && updated_by_another(worker, cell, state, mistake) => 9,
        _ if busy => 8,
        _ if wrong_lock => 16,
        _ if updated_by_another(worker, cell, state, mistake) => 9,
        _ => 0,
    }
}

/// Another worker under W is in the middle of an update of this cell.
fn updated_by_another(worker: usize, cell: u64, state: &State, mistake: Option<Mistake>) -> bool {
    let dropped = matches!(mistake, Some(Mistake::NoCause9 | Mistake::NoLockAtUpdate));
    let mut others = state.active_workers().iter().enumerate().filter(|(other, _)| *other != worker);
    !dropped && others.any(|(_, condition)| condition.updates(|other| other == cell))
}

/// "A free worker, else 8, takes a free lock", else 16; "15 for a lock number of 16 or more".
fn take_cause(worker: u64, lock: u64, state: &State, rows: &Lent, mistake: Option<Mistake>) -> u8 {
    let common = lock_cause(worker, lock, state, rows, mistake);
    if common != 0 {
        return common;
    }
    let holder = state.holders[lock as usize];
    let again = mistake == Some(Mistake::TakeOwnTwice) && u64::from(holder) == worker;
    let busy = state.worker[worker as usize] != Condition::Free;
    eight_then_sixteen(busy, holder != NOBODY && !again, mistake)
}

/// "It gives it back when none of its updates under it is unfinished, else 8"; 16 for a lock "given back and not held".
fn give_back_cause(worker: u64, lock: u64, state: &State, rows: &Lent, mistake: Option<Mistake>) -> u8 {
    let common = lock_cause(worker, lock, state, rows, mistake);
    if common != 0 {
        return common;
    }
    let under = |cell: u64| cell >= state.workers as u64 && lock_of(cell) as u64 == lock;
    let unfinished = state.worker[worker as usize].updates(under) && mistake != Some(Mistake::GiveBackMidUpdate);
    let free = state.holders[lock as usize] == NOBODY && mistake == Some(Mistake::GiveBackFree);
    eight_then_sixteen(unfinished, !holds(&state.holders, worker, lock as usize) && !free, mistake)
}

/// Causes 2, 3, 4, 6 and 15 of a call that names a lock.
fn lock_cause(worker: u64, lock: u64, state: &State, rows: &Lent, mistake: Option<Mistake>) -> u8 {
    match worker_cause(worker, state, rows, mistake) {
        0 if lock >= LOCKS as u64 => 15,
        common => common,
    }
}

/// "16 ..., after 8"
fn eight_then_sixteen(wrong_condition: bool, wrong_lock: bool, mistake: Option<Mistake>) -> u8 {
    match (wrong_condition, wrong_lock) {
        (_, true) if mistake == Some(Mistake::Cause16First) => 16,
        (true, _) => 8,
        (false, true) => 16,
        (false, false) => 0,
    }
}

/// "advance of one free or waiting" is 8.
fn advance_cause(worker: u64, state: &State, rows: &Lent, mistake: Option<Mistake>) -> u8 {
    let common = worker_cause(worker, state, rows, mistake);
    if common != 0 {
        return common;
    }
    if !matches!(state.worker[worker as usize], Condition::Updating(_)) {
        return 8;
    }
    0
}

/// The request for a checkpoint.
fn request_cause(state: &State, rows: &Lent, mistake: Option<Mistake>) -> u8 {
    let common = running_cause(state, rows, mistake);
    if common != 0 {
        return common;
    }
    if state.requested {
        return 10;
    }
    if rows.cache[0] == u64::MAX {
        return 11;
    }
    0
}

/// "Write-back needs recovering or running"; "line over L" is 7.
fn write_back_cause(line: u64, state: &State, rows: &Lent, mistake: Option<Mistake>) -> u8 {
    if state.phase != Phase::Recovering && state.phase != Phase::Running {
        return 2;
    }
    let common = record_and_rows_cause(state, rows, mistake);
    if common != 0 {
        return common;
    }
    if line > last_line(state, mistake) || (line == 3 && mistake == Some(Mistake::WriteBackNot3)) {
        return 7;
    }
    0
}

/// "line over L": the last line that a write-back takes.
fn last_line(state: &State, mistake: Option<Mistake>) -> u64 {
    let lines = state.lines as u64;
    if mistake == Some(Mistake::WriteBackTo2L) {
        lines.max(cells(lines) - 1)
    } else {
        lines
    }
}

/// "read of 2L or more" is 7.
fn read_cause(cell: u64, state: &State, rows: &Lent, mistake: Option<Mistake>) -> u8 {
    let common = running_cause(state, rows, mistake);
    if common != 0 {
        return common;
    }
    let lines = state.lines as u64;
    let limit = if mistake == Some(Mistake::ReadTo2LSquared) { cells(lines * lines) } else { cells(lines) };
    if cell >= limit {
        return 7;
    }
    0
}

/// "12 where the row is too short, checked last"
fn page_cause(room: u64, state: &State, rows: &Lent, mistake: Option<Mistake>) -> u8 {
    let short = room < page_bytes(page_lines(state, rows, mistake));
    match running_cause(state, rows, mistake) {
        0 if short => 12,
        4 if short && mistake == Some(Mistake::PageTextFirst) => 12,
        common => common,
    }
}

/// "8 for going away when not free"; 16 for a lock "held ... on going away"
fn go_away_cause(worker: u64, state: &State, rows: &Lent, mistake: Option<Mistake>) -> u8 {
    let common = worker_cause(worker, state, rows, mistake);
    if common != 0 {
        return common;
    }
    let stays = match state.worker[worker as usize] {
        Condition::Free => false,
        Condition::Waiting => mistake != Some(Mistake::WaitingGoesAway),
        Condition::Away | Condition::Updating(_) => true,
    };
    let held = holds_any(&state.holders, worker as u8) && mistake != Some(Mistake::AwayUnderLock);
    eight_then_sixteen(stays, held, mistake)
}

/// "8 for ... coming back when not away; 13 for coming back after a checkpoint's first step ..., after 8"
fn come_back_cause(worker: u64, state: &State, rows: &Lent, mistake: Option<Mistake>) -> u8 {
    let common = worker_cause(worker, state, rows, mistake);
    if common != 0 {
        return common;
    }
    let away = match state.worker[worker as usize] {
        Condition::Away => true,
        Condition::Waiting => mistake == Some(Mistake::WaitingComesBack),
        Condition::Free | Condition::Updating(_) => false,
    };
    match (away, checkpoint_under_way(state, mistake)) {
        (_, true) if mistake == Some(Mistake::Cause13First) => 13,
        (false, _) => 8,
        (true, true) => 13,
        (true, false) => 0,
    }
}

/// "after a checkpoint's first step and before its release"
fn checkpoint_under_way(state: &State, mistake: Option<Mistake>) -> bool {
    match mistake {
        Some(Mistake::NoCause13) => false,
        Some(Mistake::Cause13Unrequested) => state.place > 0,
        Some(Mistake::Cause13AtRequest) => state.requested,
        _ => state.requested && state.place > 0,
    }
}

/// Causes 2, 3, 4 and 6 of a call that names a worker.
fn worker_cause(worker: u64, state: &State, rows: &Lent, mistake: Option<Mistake>) -> u8 {
    match running_cause(state, rows, mistake) {
        0 if worker >= state.workers as u64 => 6,
        common => common,
    }
}

/// Causes 2, 3 and 4 of a call that needs running.
fn running_cause(state: &State, rows: &Lent, mistake: Option<Mistake>) -> u8 {
    if state.phase != Phase::Running {
        return 2;
    }
    record_and_rows_cause(state, rows, mistake)
}

/// Causes 3 and 4 as they stand for every call but the starts.
fn record_and_rows_cause(state: &State, rows: &Lent, mistake: Option<Mistake>) -> u8 {
    if !record_sound(state, mistake) {
        return 3;
    }
    if !rows_fit(state.lines as u64, rows) {
        return 4;
    }
    0
}
