//! What a taken call changes on any board, and that it changes nothing else: told call by call as a difference between
//! the board before and the board after, each field of the state record and each word of both rows.

use super::check::{ensure, Finding};
use super::differs::{backup_word, is, mark_word, record_word, Field, Pair};
use crate::board::{Board, Condition, Phase, State, Store, UndoStep, Update};
use crate::call::Call;

/// Everything a taken call changed is what the papers say of it.
pub fn named_alone(call: &Call, before: &Board, after: &Board) -> Finding {
    let pair = Pair { before, after };
    let finding = match *call {
        Call::Format { lines, workers } => begun(&pair, Phase::Formatting, [lines, workers], &before.cache),
        Call::Recovery => {
            let header = [before.memory[1], before.memory[2]];
            begun(&pair, Phase::Recovering, header, &before.memory)
        }
        Call::Step => stepped(&pair),
        Call::Update { worker, cell, value } => noted(&pair, worker, cell, value),
        Call::RestartPoint { worker, value } => noted(&pair, worker, worker, value),
        Call::Advance { worker } => advanced(&pair, worker),
        Call::Request => asked(&pair),
        Call::WriteBack { line } => pair.others_stay(&[]).and_then(|()| pair.line_written(line as usize)),
        Call::Read { .. } | Call::Count | Call::Page { .. } => pair.others_stay(&[]).and_then(|()| pair.rows_stay()),
        Call::GoAway { worker } => only_worker(&pair, worker, Condition::Away),
        Call::ComeBack { worker } => only_worker(&pair, worker, Condition::Free),
        Call::Take { worker, lock } => only_lock(&pair, lock, worker),
        Call::GiveBack { lock, .. } => only_lock(&pair, lock, 8),
    };
    finding.map_err(|text| format!("{call:?}: {text}"))
}

/// "Each of the two starts sets every field of the state record"; memory stays, and the cache is the row given.
fn begun(pair: &Pair, phase: Phase, [lines, workers]: [u64; 2], cache: &[u64]) -> Finding {
    let state = &pair.after.state;
    is("phase", state.phase, phase)?;
    is("L", state.lines.into(), lines)?;
    is("W", state.workers.into(), workers)?;
    is("holders", state.holders, [8; 16])?;
    is("lines' bits", state.line_bits, [0; 8])?;
    placed(state, 0, UndoStep::Record)?;
    is("request", state.requested, false)?;
    is("workers", state.worker, [Condition::Free; 8])?;
    ensure(pair.after.memory == pair.before.memory, || "memory changed".into())?;
    ensure(pair.after.cache == cache, || "the cache is not what the start leaves".into())
}

/// The place and a recovery's step.
fn placed(state: &State, place: u16, undo: UndoStep) -> Finding {
    is("place", state.place, place)?;
    is("recovery's step", state.undo, undo)
}

/// Of the record nothing changed but the place and a recovery's step.
fn only_place(pair: &Pair, place: u16, undo: UndoStep) -> Finding {
    pair.others_stay(&[Field::Place, Field::Undo])?;
    placed(&pair.after.state, place, undo)
}

/// A step of a format or checkpoint goes on to the next place and leaves a recovery's step.
fn goes_on(pair: &Pair) -> Finding {
    only_place(pair, pair.before.state.place + 1, pair.before.state.undo)
}

/// The end of a format or recovery: "running, all free", the place 0, these bits; L, W, holders and request stay.
fn opened(pair: &Pair, bits: [u64; 8]) -> Finding {
    let state = &pair.after.state;
    pair.others_stay(&[Field::Phase, Field::Workers, Field::Place, Field::Undo, Field::Bits])?;
    is("phase", state.phase, Phase::Running)?;
    is("workers", state.worker, [Condition::Free; 8])?;
    is("lines' bits", state.line_bits, bits)?;
    placed(state, 0, UndoStep::Record)
}

/// A step, by the phase.
fn stepped(pair: &Pair) -> Finding {
    match pair.before.state.phase {
        Phase::Off => Err("a step was taken while off".into()),
        Phase::Formatting => format_stepped(pair),
        Phase::Recovering => recovery_stepped(pair),
        Phase::Running => checkpoint_stepped(pair),
    }
}

/// "each of lines 1 to L, rising, becomes zeros in both; line 0 becomes epoch 1, L, W and zeros in both"
fn format_stepped(pair: &Pair) -> Finding {
    let State { place, lines, workers, .. } = pair.before.state;
    ensure(place <= lines + 1, || format!("a format of {lines} lines has no place {place}"))?;
    if place <= lines {
        pair.line_in_both(place.into(), [0; 8])?;
        return goes_on(pair);
    }
    pair.line_in_both(0, [1, lines.into(), workers.into(), 0, 0, 0, 0, 0])?;
    opened(pair, [0; 8])
}

/// "a cell whose mark equals the epoch takes three steps ..., any other ... one step that stores nothing"
fn recovery_stepped(pair: &Pair) -> Finding {
    let State { place, undo, .. } = pair.before.state;
    let cell = place.into();
    match undo {
        UndoStep::Record if pair.logged(cell) => {
            pair.word_stored(record_word(cell), pair.cached(backup_word(cell)))?;
            only_place(pair, place, UndoStep::Mark)
        }
        UndoStep::Record => pair.rows_stay().and_then(|()| past_cell(pair)),
        UndoStep::Mark => {
            pair.word_stored(mark_word(cell), 0)?;
            only_place(pair, place, UndoStep::WriteBack)
        }
        UndoStep::WriteBack => pair.line_written(1 + cell / 2).and_then(|()| past_cell(pair)),
    }
}

/// "cells from 0 up ... After the last cell: running in the same epoch, all free."
fn past_cell(pair: &Pair) -> Finding {
    let State { place, lines, line_bits, .. } = pair.before.state;
    if place + 1 < 2 * lines {
        only_place(pair, place + 1, UndoStep::Record)
    } else {
        opened(pair, line_bits)
    }
}

/// "writes the set lines in rising order", "epoch := epoch + 1 in the cache; line 0 written back; release"
fn checkpoint_stepped(pair: &Pair) -> Finding {
    let State { place, line_bits, .. } = pair.before.state;
    let n = line_bits.iter().map(|word| word.count_ones()).sum::<u32>();
    let past = u32::from(place).checked_sub(n);
    match past {
        None => pair.line_written(set_line(&line_bits, place)?)?,
        Some(0) => {
            let epoch = pair.cached(0).checked_add(1);
            pair.word_stored(0, epoch.ok_or("the last epoch has none after it")?)?;
        }
        Some(1) => pair.line_written(0)?,
        Some(2) => return released(pair),
        Some(_) => return Err(format!("a checkpoint of {n} lines has no place {place}")),
    }
    goes_on(pair)
}

/// The set line that has so many set ones before it.
fn set_line(bits: &[u64; 8], before: u16) -> Result<usize, String> {
    let mut set = (0..512).filter(|line| bit(bits, *line));
    set.nth(before.into()).ok_or_else(|| format!("no line has {before} set ones before it"))
}

/// "64 lines a word, the lowest bit first"
fn bit(bits: &[u64; 8], line: usize) -> bool {
    bits.get(line / 64).is_some_and(|word| word & (1 << (line % 64)) != 0)
}

/// "Release leaves it away": of the eight those away stay so, the others are free; bits and request are gone.
fn released(pair: &Pair) -> Finding {
    let (old, new) = (&pair.before.state, &pair.after.state);
    pair.rows_stay()?;
    pair.others_stay(&[Field::Workers, Field::Bits, Field::Request, Field::Place, Field::Undo])?;
    for (was, found) in old.worker.iter().zip(new.worker) {
        let told = if *was == Condition::Away { Condition::Away } else { Condition::Free };
        is("a worker", found, told)?;
    }
    is("lines' bits", new.line_bits, [0; 8])?;
    is("request", new.requested, false)?;
    placed(new, 0, UndoStep::Record)
}

/// "The start notes it": that worker's condition, three stores or the last alone, and nothing else.
fn noted(pair: &Pair, worker: u64, cell: u64, value: u64) -> Finding {
    let next = if pair.logged(cell as usize) { Store::Record } else { Store::Backup };
    only_worker(pair, worker, Condition::Updating(Update { cell: cell as u16, value, next }))
}

/// One worker's condition, and nothing else.
fn only_worker(pair: &Pair, worker: u64, told: Condition) -> Finding {
    pair.rows_stay()?;
    pair.others_stay(&[Field::Workers])?;
    one_condition(pair, worker, told)
}

/// Of the eight conditions only this worker's changed, and it is as told.
fn one_condition(pair: &Pair, worker: u64, told: Condition) -> Finding {
    for (index, (was, found)) in (0..).zip(pair.before.state.worker.iter().zip(pair.after.state.worker)) {
        is("a worker", found, if index == worker { told } else { *was })?;
    }
    Ok(())
}

/// "backup := record; mark := epoch ...; record := value": the store that is next, and the worker's condition then.
fn advanced(pair: &Pair, worker: u64) -> Finding {
    let Some(Condition::Updating(update)) = pair.before.state.worker.get(worker as usize).copied() else {
        return Err(format!("worker {worker} had no update"));
    };
    let cell = update.cell.into();
    let (word, value) = match update.next {
        Store::Backup => (backup_word(cell), pair.cached(record_word(cell))),
        Store::Mark => (mark_word(cell), pair.cached(0)),
        Store::Record => (record_word(cell), update.value),
    };
    pair.word_stored(word, value)?;
    pair.others_stay(&[Field::Workers, Field::Bits])?;
    one_condition(pair, worker, condition_after(update, &pair.before.state))?;
    let marked = (update.next == Store::Mark).then_some(1 + cell / 2);
    one_bit(pair, marked)
}

/// "At the last store the worker becomes waiting if a checkpoint is requested by then, else free": at a restart point.
fn condition_after(update: Update, state: &State) -> Condition {
    let must_wait = update.cell < u16::from(state.workers) && state.requested;
    match update.next {
        Store::Backup => Condition::Updating(Update { next: Store::Mark, ..update }),
        Store::Mark => Condition::Updating(Update { next: Store::Record, ..update }),
        Store::Record if must_wait => Condition::Waiting,
        Store::Record => Condition::Free,
    }
}

/// "Marking a cell now promises its line's bit too": that bit is set, and every other is as it was.
fn one_bit(pair: &Pair, line: Option<usize>) -> Finding {
    let mut told = pair.before.state.line_bits;
    if let Some(line) = line.filter(|line| *line < 512) {
        told[line / 64] |= 1 << (line % 64);
    }
    is("lines' bits", pair.after.state.line_bits, told)
}

/// A request stands, at place 0 with a recovery's first step, and nothing else changed.
fn asked(pair: &Pair) -> Finding {
    pair.rows_stay()?;
    pair.others_stay(&[Field::Request, Field::Place, Field::Undo])?;
    is("request", pair.after.state.requested, true)?;
    placed(&pair.after.state, 0, UndoStep::Record)
}

/// One lock's holder, 8 for nobody, and nothing else.
fn only_lock(pair: &Pair, lock: u64, told: u64) -> Finding {
    pair.rows_stay()?;
    pair.others_stay(&[Field::Holders])?;
    for (index, (was, found)) in (0..).zip(pair.before.state.holders.iter().zip(pair.after.state.holders)) {
        is("a lock's holder", u64::from(found), if index == lock { told } else { u64::from(*was) })?;
    }
    Ok(())
}
