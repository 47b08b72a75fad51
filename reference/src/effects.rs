//! What a taken call does, sentence by sentence of 01's "Steps" and of what 02 adds to them.

use crate::bits::{self, LineBits, BIT_WORDS, NO_LINES};
use crate::board::{Condition, Phase, Rows, State, Store, UndoStep, Update};
use crate::call::Call;
use crate::line::{backup_at, cells, header, line_of, line_words, mark_at, record_at, LINE_WORDS};
use crate::locks::{ALL_FREE, NOBODY};
use crate::mistake::Mistake;

/// Take a call that no cause turns down; gives the value read or counted, 0 for all others.
pub fn take(call: &Call, state: &mut State, rows: &mut Rows, mistake: Option<Mistake>) -> u64 {
    match *call {
        Call::Format { lines, workers } => {
            *state = State::started(Phase::Formatting, lines as u16, workers as u8);
        }
        Call::Recovery => start_recovery(state, rows, mistake),
        Call::Step => match state.phase {
            Phase::Off => {}
            Phase::Formatting => format_step(state, rows, mistake),
            Phase::Recovering => recovery_step(state, rows, mistake),
            Phase::Running => checkpoint_step(state, rows, mistake),
        },
        Call::Update { worker, cell, value } => begin(worker, cell, value, state, rows, mistake),
        Call::RestartPoint { worker, value } => begin(worker, worker, value, state, rows, mistake),
        Call::Advance { worker } => advance(worker as usize, state, rows, mistake),
        Call::Request => {
            state.requested = true;
            state.reset_place();
        }
        Call::WriteBack { line } => write_back_call(line as usize, rows, mistake),
        Call::Read { cell } => return rows.cache.get(record_at(cell as usize)).copied().unwrap_or(0),
        Call::Page { .. } => {}
        Call::GoAway { worker } => state.worker[worker as usize] = Condition::Away,
        Call::ComeBack { worker } => state.worker[worker as usize] = back(mistake),
        Call::Count => return foretold(state, mistake),
        Call::Take { worker, lock } => state.holders[lock as usize] = worker as u8,
        Call::GiveBack { lock, .. } => state.holders[lock as usize] = NOBODY,
    }
    0
}

/// "come back free"
fn back(mistake: Option<Mistake>) -> Condition {
    if mistake == Some(Mistake::BackWaits) {
        Condition::Waiting
    } else {
        Condition::Free
    }
}

/// A write-back as a call of its own; the line is there on every board but a mistaken one.
fn write_back_call(line: usize, rows: &mut Rows, mistake: Option<Mistake>) {
    let there = line_words(line).end <= rows.memory.len();
    if there && !(line > 1 && mistake == Some(Mistake::WriteBackPast1)) {
        write_back(line, rows, mistake);
    }
}

/// "A write-back copies a whole line from cache to memory."
fn write_back(line: usize, rows: &mut Rows, mistake: Option<Mistake>) {
    if mistake != Some(Mistake::WriteBackNothing) {
        rows.memory[line_words(line)].copy_from_slice(&rows.cache[line_words(line)]);
    }
}

/// "Then L+2 steps: memory and cache line 0 become zeros; ..."
fn format_step(state: &mut State, rows: &mut Rows, mistake: Option<Mistake>) {
    let (place, lines) = (state.place, state.lines);
    if mistake == Some(Mistake::FormatAtOnce) {
        if place == 0 {
            (0..=lines + 1).for_each(|each| format_line(each, state, rows));
        }
    } else {
        format_line(place, state, rows);
    }
    if place <= lines {
        state.place += 1;
        spoil_undo(state, [Mistake::FormatSpoilsUndo, Mistake::FormatResetsUndo], mistake);
        if mistake == Some(Mistake::FormatSetsBit) && place > 0 {
            bits::set(&mut state.line_bits, place as usize);
        }
    } else {
        state.line_bits = NO_LINES;
        run(state, true);
    }
}

/// The other steps leave a recovery's step as it was: the first mistake spoils it, the second resets it.
fn spoil_undo(state: &mut State, [spoils, resets]: [Mistake; 2], mistake: Option<Mistake>) {
    match mistake {
        Some(made) if made == spoils => state.undo = UndoStep::Mark,
        Some(made) if made == resets => state.undo = UndoStep::Record,
        _ => {}
    }
}

/// The line that a format's step at this place writes, in memory and cache alike.
fn format_line(place: u16, state: &State, rows: &mut Rows) {
    let (line, words) = if place <= state.lines {
        (place as usize, [0; LINE_WORDS])
    } else {
        (0, header(1, state.lines as u64, state.workers as u64))
    };
    rows.memory[line_words(line)].copy_from_slice(&words);
    rows.cache[line_words(line)].copy_from_slice(&words);
}

/// The end of a format or a recovery: running, all free, the place 0.
fn run(state: &mut State, away_too: bool) {
    state.phase = Phase::Running;
    free_workers(state, away_too);
    state.reset_place();
}

/// Workers free: all eight, or those of them that are not away.
fn free_workers(state: &mut State, away_too: bool) {
    for condition in &mut state.worker {
        if away_too || *condition != Condition::Away {
            *condition = Condition::Free;
        }
    }
}

/// "The start copies memory to cache"; no bit is set, and no lock held.
fn start_recovery(state: &mut State, rows: &mut Rows, mistake: Option<Mistake>) {
    rows.cache.copy_from_slice(rows.memory);
    if mistake == Some(Mistake::RecoveryZeros) {
        (0..cells(rows.memory[1]) as usize).for_each(|cell| rows.cache[record_at(cell)..mark_at(cell)].fill(0));
    }
    if mistake == Some(Mistake::RecoveryClearsSpare) {
        rows.cache.chunks_exact_mut(LINE_WORDS).skip(1).for_each(|line| line[6..].fill(0));
    }
    let bits = if mistake == Some(Mistake::RecoveryKeepsBits) { state.line_bits } else { NO_LINES };
    let holders = if mistake == Some(Mistake::LocksKept) { state.holders } else { ALL_FREE };
    *state = State::started(Phase::Recovering, rows.memory[1] as u16, rows.memory[2] as u8);
    state.line_bits = bits;
    state.holders = holders;
}

/// "a cell whose mark equals the epoch takes three steps ..., any other ... one step that stores nothing"
fn recovery_step(state: &mut State, rows: &mut Rows, mistake: Option<Mistake>) {
    if mistake == Some(Mistake::RecoveryAtOnce) && state.place == 0 {
        (0..cells(state.lines as u64) as usize).for_each(|cell| undo_at_once(cell, rows));
    }
    let cell = state.place as usize;
    match state.undo {
        UndoStep::Record if rows.cache[mark_at(cell)] != rows.cache[0] => {
            spoil_unlogged(cell, rows, mistake);
            pass_cell(state, mistake);
        }
        UndoStep::Record => {
            undo_store(cell, mistake == Some(Mistake::RecoveryMarkFirst), rows, mistake);
            state.undo = UndoStep::Mark;
        }
        UndoStep::Mark => {
            undo_store(cell, mistake != Some(Mistake::RecoveryMarkFirst), rows, mistake);
            state.undo = UndoStep::WriteBack;
        }
        UndoStep::WriteBack => {
            if mistake != Some(Mistake::RecoveryCacheOnly) {
                write_back(line_of(cell), rows, mistake);
            }
            pass_cell(state, mistake);
        }
    }
}

/// "one step that stores nothing", and what mistaken recoveries do in it.
fn spoil_unlogged(cell: usize, rows: &mut Rows, mistake: Option<Mistake>) {
    match mistake {
        Some(Mistake::RecoveryDropsMarks) => rows.cache[mark_at(cell)] = 0,
        Some(Mistake::RecoveryWritesAll) => write_back(line_of(cell), rows, mistake),
        _ => {}
    }
}

/// "record := backup; mark := 0": one of the two.
fn undo_store(cell: usize, of_mark: bool, rows: &mut Rows, mistake: Option<Mistake>) {
    if !of_mark {
        rows.cache[record_at(cell)] = rows.cache[backup_at(cell)];
    } else if mistake == Some(Mistake::RecoveryMarksEarlier) {
        rows.cache[mark_at(cell)] = rows.cache[0].wrapping_sub(1);
    } else if mistake != Some(Mistake::RecoveryKeepsMarks) {
        rows.cache[mark_at(cell)] = 0;
    }
}

/// The mistaken recovery that does all of a cell's steps in one.
fn undo_at_once(cell: usize, rows: &mut Rows) {
    if rows.cache[mark_at(cell)] == rows.cache[0] {
        undo_store(cell, false, rows, None);
        undo_store(cell, true, rows, None);
        write_back(line_of(cell), rows, None);
    }
}

/// "cells from 0 up ... After the last cell: running in the same epoch, all free."
fn pass_cell(state: &mut State, mistake: Option<Mistake>) {
    state.undo = UndoStep::Record;
    state.place += 1;
    if state.place as u64 == cells(state.lines as u64) {
        run(state, mistake != Some(Mistake::RecoveryLeavesAway));
    }
}

/// The start of an update or restart point: one advance if the mark equals the cache's epoch, else three.
fn begin(worker: u64, cell: u64, value: u64, state: &mut State, rows: &mut Rows, mistake: Option<Mistake>) {
    let first = if mistake == Some(Mistake::MarkFirst) { Store::Mark } else { Store::Backup };
    let (mark, epoch) = (rows.cache[mark_at(cell as usize)], rows.cache[0]);
    let logged = mark == epoch || (mark > epoch && mistake == Some(Mistake::LaterMarkLogged));
    if !logged && mistake == Some(Mistake::BackupAtStart) {
        rows.cache[backup_at(cell as usize)] = rows.cache[record_at(cell as usize)];
    }
    let next = if logged { Store::Record } else { first };
    state.worker[worker as usize] = Condition::Updating(Update { cell: cell as u16, value, next });
}

/// "backup := record; mark := epoch, ...; record := value", with the mark its line's bit
fn advance(worker: usize, state: &mut State, rows: &mut Rows, mistake: Option<Mistake>) {
    let Condition::Updating(update) = state.worker[worker] else {
        return;
    };
    let cell = update.cell as usize;
    if mistake == Some(Mistake::Cause3Worker0) && mark_at(cell) >= rows.cache.len() {
        return;
    }
    let mark_first = mistake == Some(Mistake::MarkFirst);
    let next = match update.next {
        Store::Backup => {
            rows.cache[backup_at(cell)] = rows.cache[record_at(cell)];
            Some(if mark_first { Store::Record } else { Store::Mark })
        }
        Store::Mark => {
            rows.cache[mark_at(cell)] = rows.cache[0];
            set_bit(cell, state, mistake);
            Some(if mark_first { Store::Backup } else { Store::Record })
        }
        Store::Record => {
            rows.cache[record_at(cell)] = update.value;
            None
        }
    };
    state.worker[worker] = match next {
        Some(next) => Condition::Updating(Update { next, ..update }),
        None if state.requested && update.cell < state.workers as u16 => Condition::Waiting,
        None => Condition::Free,
    };
    spoil_advance(update, state, mistake);
}

/// What mistaken advances change besides.
fn spoil_advance(update: Update, state: &mut State, mistake: Option<Mistake>) {
    let first_of_data = update.next == Store::Backup && update.cell >= state.workers as u16;
    match mistake {
        Some(Mistake::StoreDropsRequest) if first_of_data => state.requested = false,
        Some(Mistake::AdvanceMovesPlace) if !state.requested => state.place = state.place.wrapping_add(1),
        Some(Mistake::AdvanceSpoilsUndo) => state.undo = UndoStep::Mark,
        _ => {}
    }
}

/// "Marking a cell now promises its line's bit too."
fn set_bit(cell: usize, state: &mut State, mistake: Option<Mistake>) {
    match mistake {
        Some(Mistake::MarkWithoutBit) => {}
        Some(Mistake::BitOfCell) => bits::set(&mut state.line_bits, cell % (64 * BIT_WORDS)),
        _ => bits::set(&mut state.line_bits, line_of(cell)),
    }
}

/// "the count of set bits"
fn set_count(bits: &LineBits, mistake: Option<Mistake>) -> u16 {
    let counted = if mistake == Some(Mistake::SevenWords) { BIT_WORDS - 1 } else { BIT_WORDS };
    bits::count(&bits[..counted])
}

/// How many line write-backs a checkpoint begins with.
pub fn writes(state: &State, mistake: Option<Mistake>) -> u16 {
    let n = set_count(&state.line_bits, mistake);
    if mistake == Some(Mistake::LineTwice) {
        n + n.min(1)
    } else {
        n
    }
}

/// "the count of set bits plus 3"
pub fn foretold(state: &State, mistake: Option<Mistake>) -> u64 {
    let others = if mistake == Some(Mistake::CountShort) { 2 } else { 3 };
    u64::from(set_count(&state.line_bits, mistake)) + others
}

/// What a checkpoint does at one place.
enum Act {
    WriteSet(u16),
    StoreEpoch,
    WriteHeader,
    Release,
    FreeWorkers,
    WriteHeaderAndEnd,
}

/// "A checkpoint writes the set lines in rising order; ...; epoch ...; line 0 ...; release": which comes at this place.
fn act_at(place: u16, n: u16, mistake: Option<Mistake>) -> Act {
    match mistake {
        Some(Mistake::CompleteEarly) if place == 0 => Act::StoreEpoch,
        Some(Mistake::CompleteEarly) if place == 1 => Act::WriteHeader,
        Some(Mistake::CompleteEarly) if place < n + 2 => Act::WriteSet(place - 2),
        Some(Mistake::EarlyRelease) if place == n + 1 => Act::FreeWorkers,
        Some(Mistake::EarlyRelease) if place > n + 1 => Act::WriteHeaderAndEnd,
        _ if place < n => Act::WriteSet(place),
        _ if place == n => Act::StoreEpoch,
        _ if place == n + 1 => Act::WriteHeader,
        _ => Act::Release,
    }
}

/// One step of a requested checkpoint, all workers waiting or away; "Release leaves it away".
fn checkpoint_step(state: &mut State, rows: &mut Rows, mistake: Option<Mistake>) {
    let act = act_at(state.place, writes(state, mistake), mistake);
    state.place += 1;
    spoil_undo(state, [Mistake::CheckpointSpoilsUndo, Mistake::CheckpointResetsUndo], mistake);
    match act {
        Act::WriteSet(before) => write_set_line(before, state, rows, mistake),
        Act::StoreEpoch => {
            let epoch = if mistake == Some(Mistake::EpochOfMemory) { rows.memory[0] } else { rows.cache[0] };
            rows.cache[0] = epoch.wrapping_add(1);
            if mistake == Some(Mistake::BitsClearedEarly) {
                state.line_bits = NO_LINES;
            }
        }
        Act::WriteHeader => {
            write_back(0, rows, mistake);
            if mistake == Some(Mistake::ReleaseWithHeader) {
                free_workers(state, false);
                end_checkpoint(state, mistake);
            }
        }
        Act::FreeWorkers => free_workers(state, false),
        Act::WriteHeaderAndEnd => {
            write_back(0, rows, mistake);
            end_checkpoint(state, mistake);
        }
        Act::Release => {
            free_workers(state, mistake == Some(Mistake::ReleaseFreesAway));
            end_checkpoint(state, mistake);
        }
    }
}

/// "writes the set lines in rising order": the one that has so many set ones before it.
fn write_set_line(before: u16, state: &State, rows: &mut Rows, mistake: Option<Mistake>) {
    let before = match mistake {
        Some(Mistake::HighestFirst) => bits::count(&state.line_bits) - 1 - before,
        Some(Mistake::LineTwice) => before.min(bits::count(&state.line_bits) - 1),
        _ => before,
    };
    let line = bits::set_line(&state.line_bits, before);
    if let Some(line) = line.filter(|line| *line <= state.lines as usize) {
        write_back(line, rows, mistake);
    }
}

/// "they stay set until release", "request gone", and the place 0.
fn end_checkpoint(state: &mut State, mistake: Option<Mistake>) {
    if mistake != Some(Mistake::BitsKept) {
        state.line_bits = NO_LINES;
    }
    state.requested = false;
    state.reset_place();
}
