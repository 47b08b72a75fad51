//! Statement 6: a call does at most one store or one write-back, and format and recovery start exactly their own.

use super::check::{ensure, Finding};
use crate::board::{Board, Phase};
use crate::call::Call;
use crate::line::{header, line_words, LINE_WORDS};

/// What a taken call did to the rows.
pub fn rows_changed(call: &Call, before: &Board, after: &Board) -> Finding {
    match call {
        Call::Format { .. } | Call::Page { .. } | Call::Count => unchanged(call, before, after),
        Call::GoAway { .. } | Call::ComeBack { .. } => unchanged(call, before, after),
        Call::Take { .. } | Call::GiveBack { .. } => unchanged(call, before, after),
        Call::Step if before.state.phase == Phase::Formatting => format_line(before, after),
        Call::Recovery => ensure(after.memory == before.memory && after.cache == before.memory, || {
            "a recovery's start copied something else than memory to cache".into()
        }),
        _ => one_store(before, after),
    }?;
    match *call {
        Call::WriteBack { line } => {
            let words = line_words(line as usize);
            let alike = after.memory.get(words.clone()) == after.cache.get(words);
            ensure(alike, || format!("line {line} was not written back"))
        }
        _ => Ok(()),
    }
}

/// "The start changes no row", nor does a page, a count, a lock taken or given back, or a worker that goes away or comes back.
fn unchanged(call: &Call, before: &Board, after: &Board) -> Finding {
    ensure(before.memory == after.memory && before.cache == after.cache, || format!("{call:?} changed a row"))
}

/// A format's step makes one line of both rows what 01 says, and nothing else.
fn format_line(before: &Board, after: &Board) -> Finding {
    let (place, lines) = (before.state.place, before.state.lines);
    let last = place > lines;
    let line = if last { 0 } else { place as usize };
    let words = if last { header(1, lines as u64, before.state.workers as u64) } else { [0; LINE_WORDS] };
    let (from, to) = (line_words(line).start, line_words(line).end);
    for (old, new) in [(&before.memory, &after.memory), (&before.cache, &after.cache)] {
        ensure(new[from..to] == words, || format!("format step {place} left line {line} wrong"))?;
        ensure(new[..from] == old[..from] && new[to..] == old[to..], || {
            format!("format step {place} wrote more than line {line}")
        })?;
    }
    Ok(())
}

/// "at most one word of the cache or one line of memory (which then equals the cache's), never both"
fn one_store(before: &Board, after: &Board) -> Finding {
    let stored = before.cache.iter().zip(&after.cache).filter(|(old, new)| old != new).count();
    let mut written = 0;
    for line in 0..before.memory.len().div_ceil(LINE_WORDS) {
        let words = line_words(line);
        if before.memory[words.clone()] != after.memory[words.clone()] {
            written += 1;
            ensure(after.memory[words.clone()] == after.cache[words], || {
                format!("line {line} of memory changed to other words than the cache's")
            })?;
        }
    }
    ensure(stored + written <= 1, || format!("one call changed {stored} cache words and {written} memory lines"))
}

/// Words 6 and 7 of each cell line.
pub fn spare(row: &[u64]) -> Vec<[u64; 2]> {
    row.chunks_exact(LINE_WORDS).skip(1).map(|line| [line[6], line[7]]).collect()
}

/// "Words 6 and 7 are never changed": as told in memory, and in the cache while recovering or running.
pub fn spare_words(board: &Board, cut: bool, told: &[[u64; 2]]) -> Finding {
    let live = !cut && matches!(board.state.phase, Phase::Recovering | Phase::Running);
    ensure(spare(&board.memory) == told, || "word 6 or 7 of a line of memory changed".into())?;
    ensure(!live || spare(&board.cache) == told, || "word 6 or 7 of a line of the cache is not memory's".into())
}
