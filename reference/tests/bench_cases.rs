//! K1 to K12 of 01, with ticket 6's lock about each update.
#![deny(warnings)]

use reference::board::{Board, Phase};
use reference::call::Call;

/// A board of this size after a finished format, and the steps it took.
fn formatted(lines: u64, workers: u64) -> (Board, u64) {
    let mut board = Board::empty(None);
    board.resize(lines);
    let steps = run_to_the_end(&mut board, Call::Format { lines, workers });
    (board, steps)
}

/// A start and the steps until the board runs.
fn run_to_the_end(board: &mut Board, start: Call) -> u64 {
    taken(board, &[start]);
    let mut steps = 0;
    while board.state.phase != Phase::Running {
        taken(board, &[Call::Step]);
        steps += 1;
    }
    steps
}

/// Calls that are all taken.
fn taken(board: &mut Board, calls: &[Call]) {
    for call in calls {
        assert_eq!(board.perform(call).number, 0, "{call:?}");
    }
}

/// A line of a row.
fn line(row: &[u64], line: usize) -> [u64; 8] {
    row[8 * line..8 * line + 8].try_into().unwrap()
}

/// A read that is taken.
fn read(board: &mut Board, cell: u64) -> u64 {
    let answer = board.perform(&Call::Read { cell });
    assert_eq!(answer.number, 0);
    answer.value
}

const ADVANCE: Call = Call::Advance { worker: 0 };

/// Lock 1, under which cell 1 lies.
const TAKE: Call = Call::Take { worker: 0, lock: 1 };
const GIVE_BACK: Call = Call::GiveBack { worker: 0, lock: 1 };

/// K4: lock 1, an update and two advances.
fn k4() -> Board {
    let (mut board, _) = formatted(1, 1);
    taken(&mut board, &[TAKE, Call::Update { worker: 0, cell: 1, value: 7 }, ADVANCE, ADVANCE]);
    board
}

/// K5: and the third, and the lock given back.
fn k5() -> Board {
    let mut board = k4();
    taken(&mut board, &[ADVANCE, GIVE_BACK]);
    board
}

/// K8 up to some of its four steps.
fn k8(steps: usize) -> Board {
    let mut board = k5();
    taken(&mut board, &[Call::Request, Call::RestartPoint { worker: 0, value: 3 }, ADVANCE, ADVANCE, ADVANCE]);
    taken(&mut board, &vec![Call::Step; steps]);
    board
}

#[test]
fn k1_format_takes_three_steps() {
    let (board, steps) = formatted(1, 1);
    assert_eq!(steps, 3);
    assert_eq!(line(&board.memory, 0), [1, 1, 1, 0, 0, 0, 0, 0]);
}

#[test]
fn k2_format_limits() {
    let (mut board, _) = formatted(1, 1);
    assert_eq!(board.perform(&Call::Format { lines: 1, workers: 2 }).number, 1);
    assert_eq!(board.perform(&Call::Format { lines: 512, workers: 1 }).number, 1);
    board.resize(511);
    assert_eq!((board.memory.len(), board.cache.len()), (4096, 4096));
    assert_eq!(board.perform(&Call::Format { lines: 511, workers: 8 }).number, 0);
}

#[test]
fn k3_recovery_of_what_is_no_board() {
    let mut board = Board::empty(None);
    board.memory = vec![0; 15];
    board.cache = vec![0; 15];
    assert_eq!(board.perform(&Call::Recovery).number, 4);
    board.memory = vec![0; 16];
    board.cache = vec![0; 16];
    assert_eq!(board.perform(&Call::Recovery).number, 5);
}

#[test]
fn k4_two_advances() {
    let board = k4();
    assert_eq!(line(&board.cache, 1), [0, 0, 0, 0, 0, 1, 0, 0]);
    assert_eq!(board.state.line_bits, [2, 0, 0, 0, 0, 0, 0, 0]);
    assert_eq!(board.state.holders, std::array::from_fn(|lock| if lock == 1 { 0 } else { 8 }));
    assert_eq!(board.cause(&GIVE_BACK), 8);
}

#[test]
fn k5_third_advance() {
    let board = k5();
    assert_eq!(line(&board.cache, 1), [0, 0, 0, 7, 0, 1, 0, 0]);
    assert_eq!(line(&board.memory, 1), [0; 8]);
    assert_eq!(board.state.holders, [8; 16]);
}

#[test]
fn k6_written_back_and_recovered() {
    let mut board = k5();
    taken(&mut board, &[Call::WriteBack { line: 1 }]);
    assert_eq!(run_to_the_end(&mut board, Call::Recovery), 4);
    assert_eq!(line(&board.memory, 1), [0; 8]);
}

#[test]
fn k7_second_update_in_one_epoch() {
    let mut board = k5();
    taken(&mut board, &[TAKE, Call::Update { worker: 0, cell: 1, value: 9 }, ADVANCE, GIVE_BACK]);
    assert_eq!(line(&board.cache, 1), [0, 0, 0, 9, 0, 1, 0, 0]);
    assert_eq!(board.perform(&ADVANCE).number, 8);
}

#[test]
fn k8_checkpoint() {
    let mut board = k8(4);
    assert_eq!(line(&board.memory, 0), [2, 1, 1, 0, 0, 0, 0, 0]);
    assert_eq!(line(&board.memory, 1), [3, 0, 1, 7, 0, 1, 0, 0]);
    assert_eq!(board.perform(&Call::Step).number, 10);
}

#[test]
fn k9_recovery_after_a_checkpoint() {
    let mut board = k8(4);
    assert_eq!(run_to_the_end(&mut board, Call::Recovery), 2);
    assert_eq!(read(&mut board, 1), 7);
}

#[test]
fn k10_cut_within_a_checkpoint() {
    let mut board = k8(2);
    run_to_the_end(&mut board, Call::Recovery);
    assert_eq!((read(&mut board, 0), read(&mut board, 1)), (0, 0));
    let mut board = k8(2);
    taken(&mut board, &[Call::WriteBack { line: 0 }]);
    run_to_the_end(&mut board, Call::Recovery);
    assert_eq!(read(&mut board, 1), 7);
}

#[test]
fn k11_the_last_epoch() {
    let (mut board, _) = formatted(1, 1);
    board.cache[0] = u64::MAX;
    assert_eq!(board.perform(&Call::Request).number, 11);
    board.cache[0] = u64::MAX - 1;
    assert_eq!(board.perform(&Call::Request).number, 0);
}

#[test]
fn k12_cells_that_no_update_may_name() {
    let (mut board, _) = formatted(1, 1);
    for cell in [0, 2] {
        assert_eq!(board.perform(&Call::Update { worker: 0, cell, value: 1 }).number, 7);
    }
}
