//! Causes 3 and 4 as they stand for every call but recovery's start: the state record, and the rows by their L.

use crate::bits;
use crate::board::{Condition, Lent, Phase, State};
use crate::effects::writes;
use crate::line::{cells, row_words, sizes_allowed, MOST_WORKERS};
use crate::locks::holder_astray;
use crate::mistake::Mistake;

/// Cause 3, turned round.
pub fn record_sound(state: &State, mistake: Option<Mistake>) -> bool {
    let lines = state.lines as u64;
    if !sizes_allowed(lines, state.workers as u64) {
        return false;
    }
    if bit_astray(state, mistake) {
        return false;
    }
    if holder_astray(&state.holders, state.workers) && mistake != Some(Mistake::HolderW) {
        return false;
    }
    let place = state.place as u64;
    let placed = match state.phase {
        Phase::Off => true,
        Phase::Formatting if mistake == Some(Mistake::FormatPlaceTo2L) => place <= (lines + 1).max(cells(lines)),
        Phase::Formatting => place <= lines + 1,
        Phase::Recovering => place < cells(lines),
        Phase::Running => !state.requested || place <= u64::from(writes(state, mistake)) + 2,
    };
    placed && updates_sound(state, mistake)
}

/// "cell 2L or more in an update of a worker under W", turned round
fn updates_sound(state: &State, mistake: Option<Mistake>) -> bool {
    let seen = if mistake == Some(Mistake::Cause3Worker0) { 1 } else { MOST_WORKERS };
    state.active_workers().iter().take(seen).all(|condition| match condition {
        Condition::Updating(update) => (update.cell as u64) < cells(state.lines as u64),
        _ => true,
    })
}

/// "A bit set for line 0 or past L"
fn bit_astray(state: &State, mistake: Option<Mistake>) -> bool {
    let of_line_0 = state.line_bits[0] & 1 == 1;
    let (last, lines) = (bits::last(&state.line_bits).unwrap_or(0), state.lines as usize);
    match mistake {
        Some(Mistake::BitOfLine0Passes) => last > lines,
        Some(Mistake::BitsPastLPass) => of_line_0,
        Some(Mistake::BitOfLastLineRefused) => of_line_0 || last >= lines,
        _ => of_line_0 || last > lines,
    }
}

/// "cache or memory not 8×(L+1) words", turned round
pub fn rows_fit(lines: u64, rows: &Lent) -> bool {
    rows.memory.len() as u64 == row_words(lines) && rows.cache.len() as u64 == row_words(lines)
}
