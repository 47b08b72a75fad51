//! Ticket 6: who holds the lock.
#![deny(warnings)]

use reference::bench::{run, Workload};
use reference::board::{Board, Condition, Phase, Store, Update};
use reference::call::Call;
use reference::explore::check::Check::{self, *};
use reference::explore::{explore, Options};
use reference::locks::{holder_astray, holds, holds_any, lock_of, ALL_FREE, NOBODY};
use reference::mistake::Mistake;

/// A board of this size after a finished format.
fn formatted(lines: u64, workers: u64) -> Board {
    let mut board = Board::empty(None);
    board.resize(lines);
    run_to_the_end(&mut board, Call::Format { lines, workers });
    board
}

/// A start and the steps until the board runs.
fn run_to_the_end(board: &mut Board, start: Call) {
    taken(board, &[start]);
    while board.state.phase != Phase::Running {
        taken(board, &[Call::Step]);
    }
}

/// Calls that are all taken.
fn taken(board: &mut Board, calls: &[Call]) {
    for call in calls {
        assert_eq!(board.perform(call).number, 0, "{call:?}");
    }
}

/// A call that is turned down by this cause and changes nothing.
fn refused(board: &mut Board, call: Call, cause: u8) {
    let before = board.clone();
    assert_eq!(board.perform(&call).number, cause, "{call:?}");
    assert_eq!(*board, before, "{call:?}");
}

/// Worker w takes lock k.
fn take(worker: u64, lock: u64) -> Call {
    Call::Take { worker, lock }
}

/// Worker w gives lock k back.
fn give_back(worker: u64, lock: u64) -> Call {
    Call::GiveBack { worker, lock }
}

/// Worker w begins an update of cell c.
fn update(worker: u64, cell: u64) -> Call {
    Call::Update { worker, cell, value: 5 }
}

/// The middle of an update.
fn updating(cell: u16) -> Condition {
    Condition::Updating(Update { cell, value: 1, next: Store::Mark })
}

#[test]
fn who_holds_what() {
    let mut holders = ALL_FREE;
    assert!(!holder_astray(&holders, 1) && (0..8).all(|worker| !holds_any(&holders, worker)));
    holders[15] = 3;
    assert!(holds(&holders, 3, 15) && !holds(&holders, 3, 14) && !holds(&holders, 4, 15));
    assert!(holds_any(&holders, 3) && !holds_any(&holders, 2));
    assert!((1..=8).all(|workers| holder_astray(&holders, workers) == (workers <= 3)));
    for lock in 0..16 {
        let mut holders = [0; 16];
        holders[lock] = 7;
        assert!(holder_astray(&holders, 7) && !holder_astray(&holders, 8));
        holders[lock] = NOBODY;
        assert!(!holder_astray(&holders, 1));
    }
    assert!((0..1022).all(|cell| lock_of(cell) as u64 == cell % 16));
}

#[test]
fn each_cell_needs_its_own_lock_and_no_other() {
    let board = formatted(40, 3);
    for cell in 3..80 {
        for lock in 0..16 {
            let mut board = board.clone();
            taken(&mut board, &[take(1, lock)]);
            let told = if cell % 16 == lock { 0 } else { 16 };
            assert_eq!(board.cause(&update(1, cell)), told, "cell {cell} under lock {lock}");
            assert_eq!(board.cause(&update(0, cell)), 16);
        }
    }
}

#[test]
fn a_lock_is_taken_by_one_and_given_back_by_that_one() {
    let mut board = formatted(2, 2);
    for lock in 0..16 {
        refused(&mut board, give_back(0, lock), 16);
        taken(&mut board, &[take(0, lock)]);
        refused(&mut board, take(0, lock), 16);
        refused(&mut board, take(1, lock), 16);
        refused(&mut board, give_back(1, lock), 16);
        taken(&mut board, &[give_back(0, lock), take(1, lock), give_back(1, lock)]);
    }
    assert_eq!(board, formatted(2, 2));
    (0..16).for_each(|lock| taken(&mut board, &[take(lock % 2, lock)]));
    assert_eq!(board.state.holders, std::array::from_fn(|lock| lock as u8 % 2));
}

#[test]
fn a_lock_stays_until_the_last_store_under_it() {
    let mut board = formatted(10, 2);
    taken(&mut board, &[take(0, 3), take(0, 11), take(0, 0), update(0, 3)]);
    for _ in 0..3 {
        refused(&mut board, give_back(0, 3), 8);
        refused(&mut board, give_back(0, 4), 16);
        refused(&mut board, take(0, 4), 8);
        refused(&mut board, take(0, 3), 8);
        refused(&mut board, update(1, 3), 16);
        refused(&mut board, take(1, 3), 16);
        let mut other = board.clone();
        taken(&mut other, &[give_back(0, 11), give_back(0, 0), take(1, 11), update(1, 11)]);
        taken(&mut board, &[Call::Advance { worker: 0 }]);
    }
    taken(&mut board, &[update(0, 3)]);
    refused(&mut board, give_back(0, 3), 8);
    taken(&mut board, &[Call::Advance { worker: 0 }, give_back(0, 3), give_back(0, 11), give_back(0, 0)]);
    assert_eq!(board.state.holders, ALL_FREE);
}

#[test]
fn restart_points_and_going_away_need_a_worker_without_locks() {
    for lock in 0..16 {
        let mut board = formatted(2, 2);
        taken(&mut board, &[take(0, lock)]);
        let (point, away) = (Call::RestartPoint { worker: 0, value: 1 }, Call::GoAway { worker: 0 });
        refused(&mut board, point, 16);
        refused(&mut board, away, 16);
        board.state.worker[1] = updating(0);
        refused(&mut board, point, 16);
        taken(&mut board, &[give_back(0, lock)]);
        refused(&mut board, point, 9);
        taken(&mut board, &[away]);
        refused(&mut board, take(0, lock), 8);
        refused(&mut board, give_back(0, lock), 16);
        board.state.holders[lock as usize] = 0;
        refused(&mut board, point, 8);
        refused(&mut board, away, 8);
    }
}

#[test]
fn the_causes_in_their_order() {
    let mut board = formatted(10, 2);
    board.state.holders[3] = 1;
    board.state.worker[0] = Condition::Waiting;
    for (lock, worker, cause) in [(16, 2, 6), (u64::MAX, 2, 6), (16, 0, 15), (255, 0, 15), (u64::MAX, 1, 15), (3, 0, 8)]
    {
        refused(&mut board, take(worker, lock), cause);
    }
    refused(&mut board, take(1, 3), 16);
    refused(&mut board, give_back(0, 3), 16);
    refused(&mut board, give_back(0, 16), 15);
    refused(&mut board, give_back(7, 16), 6);
    board.state.worker[0] = updating(3);
    refused(&mut board, give_back(0, 3), 8);
    refused(&mut board, give_back(0, 4), 16);
    board.state.worker[0] = updating(0);
    refused(&mut board, give_back(0, 0), 16);
    board.state.worker[0] = Condition::Free;
    board.state.worker[1] = updating(3);
    refused(&mut board, update(0, 1), 7);
    refused(&mut board, update(0, 3), 16);
    board.state.holders[3] = 0;
    refused(&mut board, update(0, 3), 9);
    board.state.worker[0] = Condition::Away;
    refused(&mut board, update(0, 3), 8);
    board.state.holders[15] = 2;
    for call in [update(0, 1), take(0, 16), give_back(0, 16), take(9, 0), Call::Step, Call::Count] {
        refused(&mut board, call, 3);
        let mut longer = board.clone();
        longer.cache.push(0);
        refused(&mut longer, call, 3);
    }
    board.state.holders[15] = 1;
    board.cache.push(0);
    [take(9, 16), give_back(9, 16)].into_iter().for_each(|call| refused(&mut board, call, 4));
    board.state.phase = Phase::Recovering;
    [take(9, 16), give_back(9, 16)].into_iter().for_each(|call| refused(&mut board, call, 2));
}

#[test]
fn only_the_starts_free_all_locks() {
    for start in [Call::Recovery, Call::Format { lines: 2, workers: 1 }] {
        let mut board = formatted(2, 2);
        board.state.holders = [7; 16];
        taken(&mut board, &[start]);
        assert_eq!(board.state.holders, ALL_FREE);
    }
    for (phase, place) in [(Phase::Formatting, 3), (Phase::Recovering, 3)] {
        let mut board = formatted(2, 2);
        (board.state.phase, board.state.place, board.state.holders) = (phase, place, [1; 16]);
        taken(&mut board, &[Call::Step]);
        assert_eq!((board.state.phase, board.state.holders), (Phase::Running, [1; 16]));
    }
    let mut board = formatted(2, 2);
    board.state.worker = [Condition::Waiting; 8];
    board.state.holders = [1; 16];
    taken(&mut board, &[Call::Request, Call::Step, Call::Step, Call::Step]);
    assert_eq!((board.state.requested, board.state.holders), (false, [1; 16]));
}

#[test]
fn a_cut_in_an_update_frees_its_lock_at_the_next_start() {
    let mut board = formatted(2, 2);
    let advance = Call::Advance { worker: 0 };
    taken(&mut board, &[take(0, 3), update(0, 3), advance, advance, advance, Call::WriteBack { line: 2 }]);
    run_to_the_end(&mut board, Call::Recovery);
    assert_eq!(board.perform(&Call::Read { cell: 3 }).value, 0);
    taken(&mut board, &[take(1, 3), update(1, 3)]);
}

/// The check that an exploration of this mistake violates, made alone.
fn violated(mistake: Mistake, check: Check) -> Option<Check> {
    let options = Options { seed: 61, calls: 3_000_000, mistake: Some(mistake), only: Some(check) };
    explore(&options).err().map(|caught| caught.violation.check)
}

#[test]
fn without_lock_and_cause_9_a_recovery_reads_a_wrong_value() {
    assert_eq!(violated(Mistake::NoLockAtUpdate, Recovery), Some(Recovery));
    assert_eq!(violated(Mistake::NoLockAtUpdate, TwoBoards), Some(TwoBoards));
    let mut board = formatted(2, 2);
    board.mistake = Some(Mistake::NoLockAtUpdate);
    let [one, other] = [0, 1].map(|worker| Call::Advance { worker });
    let second = Call::Update { worker: 1, cell: 3, value: 9 };
    taken(&mut board, &[update(0, 3), second, other, other, other, one, Call::WriteBack { line: 2 }]);
    run_to_the_end(&mut board, Call::Recovery);
    assert_eq!(board.perform(&Call::Read { cell: 3 }).value, 9, "0 was checkpointed");
}

#[test]
fn locks_are_measured_and_leave_the_checksums_as_they_were() {
    let sum =
        |name: &str, lines, workers, n, rounds| run(Workload::named(name).unwrap(), lines, workers, n, rounds, 77);
    for (lines, workers) in [(1, 1), (4, 7), (64, 1), (511, 8)] {
        assert_eq!(sum("locks", lines, workers, workers, 100), Some(0));
    }
    assert_eq!(sum("update", 511, 8, 64, 300), Some(5_741_922_451_639_411_535));
    assert_eq!(sum("again", 511, 8, 64, 300), Some(5_741_922_451_639_787_367));
}
