//! Ticket 2: a worker that is away.
#![deny(warnings)]

use reference::bench::{run, Workload};
use reference::board::{Board, Condition, Phase, State, Store, UndoStep, Update};
use reference::call::Call;

/// A board of this size after a finished format.
fn formatted(lines: u64, workers: u64) -> Board {
    let mut board = Board::empty(None);
    board.resize(lines);
    run_to_the_end(&mut board, Call::Format { lines, workers });
    board
}

/// A start and the steps until the board runs.
fn run_to_the_end(board: &mut Board, start: Call) {
    taken(board, &[start]);
    while board.state.phase != Phase::Running {
        taken(board, &[Call::Step]);
    }
}

/// Calls that are all taken.
fn taken(board: &mut Board, calls: &[Call]) {
    for call in calls {
        assert_eq!(board.perform(call).number, 0, "{call:?}");
    }
}

/// A call that is turned down by this cause and changes nothing.
fn refused(board: &mut Board, call: Call, cause: u8) {
    let before = board.clone();
    assert_eq!(board.perform(&call).number, cause, "{call:?}");
    assert_eq!(*board, before, "{call:?}");
}

/// A power cut, a recovery to its end, and what every cell then reads.
fn recovered(mut board: Board) -> Vec<u64> {
    board.cache.fill(0);
    board.state.phase = Phase::Off;
    run_to_the_end(&mut board, Call::Recovery);
    assert_eq!(board.state.worker, [Condition::Free; 8]);
    let cells = 2 * u64::from(board.state.lines);
    (0..cells).map(|cell| board.perform(&Call::Read { cell }).value).collect()
}

/// An update of a cell that is not marked, with its three advances and its lock.
fn update(worker: u64, cell: u64, value: u64) -> [Call; 6] {
    let (advance, lock) = (Call::Advance { worker }, cell % 16);
    let [take, give_back] = [Call::Take { worker, lock }, Call::GiveBack { worker, lock }];
    [take, Call::Update { worker, cell, value }, advance, advance, advance, give_back]
}

/// A restart point on a cell that is not marked, with its three advances.
fn restart_point(worker: u64, value: u64) -> [Call; 4] {
    let advance = Call::Advance { worker };
    [Call::RestartPoint { worker, value }, advance, advance, advance]
}

const AWAY: Call = Call::GoAway { worker: 0 };
const BACK: Call = Call::ComeBack { worker: 0 };

#[test]
fn with_everybody_away_a_checkpoint_completes_and_is_what_a_cut_brings_back() {
    let mut board = formatted(2, 3);
    taken(&mut board, &update(1, 3, 7));
    taken(&mut board, &[AWAY, Call::GoAway { worker: 1 }, Call::GoAway { worker: 2 }, Call::Request]);
    for steps in 0..4 {
        let mut early = board.clone();
        taken(&mut early, &vec![Call::Step; steps]);
        let value = if steps < 3 { 0 } else { 7 };
        assert_eq!(recovered(early), [0, 0, 0, value], "cut after {steps} of 4 steps");
    }
    taken(&mut board, &[Call::Step; 4]);
    assert!(!board.state.requested);
    assert_eq!(board.state.worker[..4], [Condition::Away, Condition::Away, Condition::Away, Condition::Free]);
    taken(&mut board, &[Call::ComeBack { worker: 1 }]);
    taken(&mut board, &update(1, 3, 9));
    taken(&mut board, &[Call::WriteBack { line: 2 }]);
    assert_eq!(recovered(board), [0, 0, 0, 7]);
}

#[test]
fn some_away_and_the_others_waiting() {
    let mut board = formatted(2, 2);
    taken(&mut board, &[AWAY, Call::Request]);
    refused(&mut board, Call::Step, 10);
    taken(&mut board, &restart_point(1, 5));
    assert_eq!(board.state.worker[..2], [Condition::Away, Condition::Waiting]);
    taken(&mut board, &[Call::Step; 4]);
    assert_eq!(board.state.worker[..2], [Condition::Away, Condition::Free]);
    assert_eq!(recovered(board), [0, 5, 0, 0]);
}

#[test]
fn all_away_and_no_request_is_10() {
    let mut board = formatted(1, 1);
    taken(&mut board, &[AWAY]);
    refused(&mut board, Call::Step, 10);
}

#[test]
fn one_that_comes_back_before_the_first_step_holds_the_checkpoint_up() {
    let mut board = formatted(1, 1);
    taken(&mut board, &[AWAY, Call::Request, BACK]);
    assert_eq!(board.state.worker[0], Condition::Free);
    refused(&mut board, Call::Step, 10);
    let mut again = board.clone();
    taken(&mut again, &[AWAY, Call::Step, Call::Step, Call::Step]);
    assert_eq!(again.memory[0], 2);
    taken(&mut board, &restart_point(0, 3));
    refused(&mut board, AWAY, 8);
    refused(&mut board, BACK, 8);
    taken(&mut board, &[Call::Step; 4]);
    assert_eq!((board.memory[0], board.state.worker[0]), (2, Condition::Free));
}

#[test]
fn coming_back_is_13_from_the_first_step_to_the_release() {
    let mut board = formatted(1, 1);
    taken(&mut board, &update(0, 1, 7));
    taken(&mut board, &[AWAY, Call::Request]);
    for place in 1..4 {
        taken(&mut board, &[Call::Step]);
        assert_eq!(board.state.place, place);
        refused(&mut board, BACK, 13);
    }
    taken(&mut board, &[Call::WriteBack { line: 0 }]);
    refused(&mut board, BACK, 13);
    taken(&mut board, &[Call::Step, BACK]);
    assert_eq!(board.state.worker[0], Condition::Free);
}

#[test]
fn with_no_line_set_the_epochs_store_is_the_first_step() {
    let mut board = formatted(1, 1);
    taken(&mut board, &[AWAY, Call::Request]);
    let mut before = board.clone();
    taken(&mut before, &[BACK]);
    taken(&mut board, &[Call::Step]);
    assert_eq!((board.cache[0], board.memory[0]), (2, 1));
    refused(&mut board, BACK, 13);
    taken(&mut board, &[Call::Step, Call::Step, BACK]);
}

#[test]
fn a_worker_away_begins_and_advances_nothing() {
    let mut board = formatted(2, 2);
    taken(&mut board, &[AWAY]);
    for requested in [false, true] {
        board.state.requested = requested;
        refused(&mut board, Call::Update { worker: 0, cell: 3, value: 1 }, 8);
        refused(&mut board, Call::RestartPoint { worker: 0, value: 1 }, 8);
        refused(&mut board, Call::Advance { worker: 0 }, 8);
        refused(&mut board, AWAY, 8);
    }
    taken(&mut board, &update(1, 3, 1));
}

#[test]
fn the_causes_in_their_order() {
    let mut board = formatted(2, 2);
    let updating = Condition::Updating(Update { cell: 3, value: 1, next: Store::Mark });
    board.state.requested = true;
    board.state.place = 1;
    for condition in [Condition::Free, Condition::Waiting, updating] {
        board.state.worker[0] = condition;
        refused(&mut board, BACK, 8);
    }
    for condition in [Condition::Waiting, updating, Condition::Away] {
        board.state.worker[0] = condition;
        refused(&mut board, AWAY, 8);
    }
    refused(&mut board, BACK, 13);
    for worker in [2, 7, 8, 256, u64::MAX] {
        refused(&mut board, Call::GoAway { worker }, 6);
        refused(&mut board, Call::ComeBack { worker }, 6);
    }
    for (cause, spoil) in FAULTS {
        let mut board = board.clone();
        spoil(&mut board);
        for call in [AWAY, BACK, Call::GoAway { worker: 2 }, Call::ComeBack { worker: 2 }] {
            refused(&mut board, call, cause);
        }
    }
}

/// A cause, and what brings it about.
type Fault = (u8, fn(&mut Board));

/// What turns every call of a worker down.
const FAULTS: [Fault; 7] = [
    (2, |board| board.state.phase = Phase::Off),
    (2, |board| board.state.phase = Phase::Recovering),
    (3, |board| board.state.lines = 0),
    (3, |board| board.state.line_bits[0] = 1),
    (3, |board| board.state.place = 3),
    (4, |board| board.cache.truncate(23)),
    (4, |board| board.memory.push(0)),
];

#[test]
fn without_a_request_no_place_keeps_a_worker_away() {
    for place in [1, 2, 3, u16::MAX] {
        let mut board = formatted(1, 1);
        board.state.worker[0] = Condition::Away;
        board.state.place = place;
        taken(&mut board, &[BACK, AWAY]);
        assert_eq!(board.state.place, place);
        board.state.requested = true;
        refused(&mut board, BACK, if place < 3 { 13 } else { 3 });
    }
}

#[test]
fn release_leaves_every_worker_of_the_eight_that_is_away() {
    let mut board = formatted(2, 2);
    board.state.worker = [Condition::Away; 8];
    board.state.worker[1] = Condition::Waiting;
    board.state.worker[4] = Condition::Waiting;
    board.state.worker[5] = Condition::Updating(Update { cell: 9, value: 1, next: Store::Mark });
    board.state.worker[6] = Condition::Free;
    let mut expected = board.state.worker;
    for worker in [1, 4, 5] {
        expected[worker] = Condition::Free;
    }
    taken(&mut board, &[Call::Request, Call::Step, Call::Step, Call::Step]);
    assert_eq!(board.state.worker, expected);
    refused(&mut board, Call::ComeBack { worker: 3 }, 6);
}

/// A board whose eight workers are away, one step before the end of a format or recovery.
fn about_to_run(phase: Phase, place: u16) -> Board {
    let mut board = formatted(1, 1);
    board.state.phase = phase;
    board.state.place = place;
    board.state.worker = [Condition::Away; 8];
    board
}

#[test]
fn a_start_and_the_end_of_a_format_or_recovery_free_all_eight() {
    for (phase, place) in [(Phase::Recovering, 1), (Phase::Formatting, 2)] {
        let mut board = about_to_run(phase, place);
        taken(&mut board, &[Call::Step]);
        assert_eq!(board.state, State::started(Phase::Running, 1, 1), "{phase:?}");
    }
    let mut board = about_to_run(Phase::Recovering, 0);
    taken(&mut board, &[Call::Step]);
    assert_eq!(board.state.worker, [Condition::Away; 8], "not before the last cell");
    assert_eq!((board.state.place, board.state.undo), (1, UndoStep::Record));
    for start in [Call::Recovery, Call::Format { lines: 1, workers: 1 }] {
        let mut board = about_to_run(Phase::Running, 0);
        taken(&mut board, &[start]);
        assert_eq!(board.state.worker, [Condition::Free; 8], "{start:?}");
    }
}

#[test]
fn the_workload_checkpoint_away_is_taken_throughout_and_has_one_restart_point() {
    let workload = Workload::named("checkpoint-away").unwrap();
    for (lines, workers, n) in [(1, 1u64, 1), (2, 1, 2), (2, 3, 3), (4, 4, 6), (64, 8, 68), (511, 8, 515)] {
        for rounds in [0, 1, 7] {
            let reads = (0..n - workers).map(|k| 2 * (workers.div_ceil(2) + k)).sum::<u64>() + 3;
            assert_eq!(run(workload, lines, workers, n, rounds, 5), Some(reads), "{lines} {workers} {n} {rounds}");
        }
    }
}
