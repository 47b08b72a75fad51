//! Which write-backs and reads are taken over a history with no cut since its last taken start: "line over L" and
//! "read of 2L or more" are refused, and nothing else is.

use super::check::{ensure, Finding};
use crate::board::{Board, Phase};
use crate::call::Call;

/// A call that was made: a write-back or read is answered by what it names alone, other calls are not looked at.
pub fn of_call(call: &Call, before: &Board, number: u8) -> Finding {
    let Some(taken) = told(call, before) else { return Ok(()) };
    ensure(taken == (number == 0), || format!("{call:?} answered {number}, taken is to be {taken}"))
}

/// What this board would answer about its limits, and to one more line and cell, others at each turn.
pub fn of_board(board: &Board, turn: u64) -> Finding {
    let lines = u64::from(board.state.lines);
    let more = [turn % (2 * lines + 2), turn % (2 * lines * lines + 3)];
    for line in [lines, lines + 1, more[0]] {
        asked(&Call::WriteBack { line }, board)?;
    }
    for cell in [2 * lines - 1, 2 * lines, more[1]] {
        asked(&Call::Read { cell }, board)?;
    }
    Ok(())
}

/// The answer that this board would give to a call.
fn asked(call: &Call, board: &Board) -> Finding {
    match told(call, board) {
        Some(_) => of_call(call, board, board.cause(call)),
        None => Ok(()),
    }
}

/// Whether this board is to take a write-back (recovering or running) or a read (running); none for all else.
fn told(call: &Call, board: &Board) -> Option<bool> {
    let lines = u64::from(board.state.lines);
    match (call, board.state.phase) {
        (Call::WriteBack { line }, Phase::Recovering | Phase::Running) => Some(*line <= lines),
        (Call::Read { cell }, Phase::Running) => Some(*cell < 2 * lines),
        _ => None,
    }
}
