//! Readings of 01 that only state records show which no lawful sequence leads to.
#![deny(warnings)]

use reference::board::{Board, Condition, Phase, State, Store, UndoStep, Update};
use reference::call::Call;

/// A board of this size with this phase, its rows after a format.
fn board(phase: Phase, lines: u64, workers: u64) -> Board {
    let mut board = Board::empty(None);
    board.resize(lines);
    for row in [&mut board.memory, &mut board.cache] {
        row[..3].copy_from_slice(&[1, lines, workers]);
    }
    board.state = State::started(phase, lines as u16, workers as u8);
    board
}

/// An unfinished update.
fn updating(cell: u16, next: Store) -> Condition {
    Condition::Updating(Update { cell, value: 5, next })
}

#[test]
fn a_formats_end_leaves_the_request() {
    let mut board = board(Phase::Formatting, 1, 1);
    board.state.place = 2;
    board.state.requested = true;
    board.state.line_bits[0] = 2;
    board.state.undo = UndoStep::Mark;
    board.state.worker = [Condition::Waiting; 8];
    assert_eq!(board.perform(&Call::Step).number, 0);
    let mut expected = State::started(Phase::Running, 1, 1);
    expected.requested = true;
    assert_eq!(board.state, expected);
}

#[test]
fn a_recoverys_end_leaves_bits_and_request() {
    let mut board = board(Phase::Recovering, 1, 1);
    board.state.place = 1;
    board.state.undo = UndoStep::WriteBack;
    board.state.requested = true;
    board.state.line_bits[0] = 2;
    board.state.worker = [Condition::Waiting; 8];
    assert_eq!(board.perform(&Call::Step).number, 0);
    let mut expected = State::started(Phase::Running, 1, 1);
    expected.requested = true;
    expected.line_bits[0] = 2;
    assert_eq!(board.state, expected);
}

#[test]
fn workers_from_w_on_are_never_looked_at() {
    let mut board = board(Phase::Running, 1, 1);
    board.state.worker[1] = updating(60_000, Store::Mark);
    assert_eq!(board.perform(&Call::Read { cell: 0 }).number, 0);
    board.state.worker[1] = updating(1, Store::Mark);
    board.state.holders[1] = 0;
    assert_eq!(board.perform(&Call::Update { worker: 0, cell: 1, value: 1 }).number, 0);
}

#[test]
fn a_worker_with_a_bad_cell_is_cause_3_in_every_phase() {
    for phase in [Phase::Formatting, Phase::Recovering, Phase::Running] {
        let mut board = board(phase, 1, 1);
        board.state.worker[0] = updating(2, Store::Record);
        assert_eq!(board.perform(&Call::Step).number, 3);
    }
}

#[test]
fn the_place_is_tested_while_a_request_stands() {
    let mut board = board(Phase::Running, 1, 1);
    board.state.place = 3;
    assert_eq!(board.perform(&Call::Read { cell: 0 }).number, 0);
    board.state.requested = true;
    assert_eq!(board.perform(&Call::Read { cell: 0 }).number, 3);
}

#[test]
fn the_epochs_store_at_the_last_epoch_is_11() {
    let mut board = board(Phase::Running, 1, 1);
    board.cache[0] = u64::MAX;
    board.state.requested = true;
    assert_eq!(board.perform(&Call::Step).number, 10);
    board.state.worker[0] = Condition::Waiting;
    assert_eq!(board.perform(&Call::Step).number, 11);
    board.state.place = 1;
    assert_eq!(board.perform(&Call::Step).number, 0);
}
