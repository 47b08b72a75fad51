//! Ticket 4: memory that another kiosk wrote.
#![deny(warnings)]

use reference::board::{Board, Phase, State};
use reference::call::Call;
use reference::explore::check::Check::{Reads, Recovery};
use reference::explore::exhaustive::exhaust;
use reference::explore::foreign::undo;
use reference::machine::Machine;
use reference::mistake::Mistake;

/// A cell: record, backup and mark.
type Cell = [u64; 3];

/// Memory of this epoch and W with these cells, 6 and 7 in each line's words 6 and 7.
fn memory(epoch: u64, workers: u64, cells: &[Cell]) -> Vec<u64> {
    let lines = cells.len() as u64 / 2;
    let mut words = vec![epoch, lines, workers, 0, 0, 0, 0, 0];
    for pair in cells.chunks(2) {
        words.extend(pair.concat());
        words.extend([6, 7]);
    }
    words
}

/// A board with this memory, all else as no work leaves it.
fn board(memory: Vec<u64>, mistake: Option<Mistake>) -> Board {
    let mut board = Board::empty(mistake);
    board.state = State::started(Phase::Running, 60_000, 200);
    board.cache = vec![99; memory.len()];
    board.state.line_bits = [u64::MAX; 8];
    board.memory = memory;
    board
}

/// Calls that are all taken.
fn taken(board: &mut Board, calls: &[Call]) {
    for call in calls {
        assert_eq!(board.perform(call).number, 0, "{call:?}");
    }
}

/// Recovery's start and the steps until the board runs; how many these are.
fn recovered(board: &mut Board) -> usize {
    taken(board, &[Call::Recovery]);
    let mut steps = 0;
    while board.state.phase == Phase::Recovering {
        taken(board, &[Call::Step]);
        steps += 1;
    }
    steps
}

/// A recovery's start that is turned down by this cause and changes nothing.
fn refused(mut board: Board, cause: u8) {
    let before = board.clone();
    assert_eq!(board.perform(&Call::Recovery).number, cause, "{:?}", board.memory);
    assert_eq!(board, before);
}

/// Every cell's read.
fn reads(board: &mut Board) -> Vec<u64> {
    let cells = 2 * u64::from(board.state.lines);
    (0..cells).map(|cell| board.perform(&Call::Read { cell })).map(|answer| answer.value).collect()
}

const AWAY: Call = Call::GoAway { worker: 0 };
const BACK: Call = Call::ComeBack { worker: 0 };

/// Lock 3, under which cell 3 lies.
const TAKE: Call = Call::Take { worker: 0, lock: 3 };
const GIVE_BACK: Call = Call::GiveBack { worker: 0, lock: 3 };

/// A checkpoint with nobody but worker 0, who is away, and no line set.
const CHECKPOINT: [Call; 6] = [AWAY, Call::Request, Call::Step, Call::Step, Call::Step, BACK];

#[test]
fn a_mark_past_the_epoch_is_14_in_whatever_cell() {
    for (lines, epoch) in [(1, 1), (2, 7), (3, u64::MAX - 1), (511, 5)] {
        for cell in [0, 1, lines - 1, lines, 2 * lines - 1] {
            let with = |mark: u64| {
                let mut cells = vec![[1, 2, epoch - 1]; 2 * lines];
                cells[cell][2] = mark;
                board(memory(epoch, 1, &cells), None)
            };
            for mark in [0, epoch - 1, epoch] {
                taken(&mut with(mark), &[Call::Recovery]);
            }
            refused(with(epoch + 1), 14);
            refused(with(u64::MAX), 14);
        }
    }
}

#[test]
fn neither_4_nor_5_gives_way_to_14() {
    let past = memory(3, 1, &[[1, 2, 4], [1, 2, 0]]);
    refused(board(past.clone(), None), 14);
    for (at, word) in [(0, 0), (1, 2), (2, 0), (2, 2), (3, 1), (7, 1)] {
        let mut words = past.clone();
        words[at] = word;
        refused(board(words, None), 5);
    }
    let mut short = board(past.clone(), None);
    short.cache.pop();
    refused(short, 4);
    let mut longer = board(past, None);
    longer.cache.push(0);
    refused(longer, 4);
}

#[test]
fn words_that_are_no_marks_may_be_past_the_epoch() {
    let mut words = memory(3, 2, &[[u64::MAX; 3]; 4]);
    (0..4).for_each(|cell| words[8 * (1 + cell / 2) + 3 * (cell % 2) + 2] = 3);
    words[14..16].fill(u64::MAX);
    assert_eq!(recovered(&mut board(words, None)), 12);
}

#[test]
fn the_cache_before_the_start_has_no_say() {
    for epoch in [0, 1, 4, u64::MAX] {
        let mut own = board(memory(3, 1, &[[1, 2, 3], [1, 2, 2]]), None);
        own.cache[0] = epoch;
        taken(&mut own, &[Call::Recovery]);
        let mut past = board(memory(3, 1, &[[1, 2, 3], [1, 2, 4]]), None);
        past.cache[0] = epoch;
        refused(past, 14);
    }
}

#[test]
fn its_own_undo_is_the_first_checkpoint() {
    let words = memory(5, 2, &[[10, 11, 5], [20, 21, 4], [30, 31, 0], [40, 41, 5]]);
    assert_eq!(undo(&words), [11, 20, 30, 41]);
    let mut first = board(words.clone(), None);
    assert_eq!(recovered(&mut first), 8);
    assert_eq!(reads(&mut first), [11, 20, 30, 41]);
    for steps in 0..8 {
        let mut cut = board(words.clone(), None);
        taken(&mut cut, &[Call::Recovery]);
        taken(&mut cut, &vec![Call::Step; steps]);
        cut.cache.fill(99);
        recovered(&mut cut);
        assert_eq!(reads(&mut cut), [11, 20, 30, 41], "cut after {steps} steps");
        assert_eq!(undo(&cut.memory), [11, 20, 30, 41]);
    }
}

#[test]
fn words_6_and_7_stay_until_a_format() {
    let mut board = board(memory(5, 1, &[[10, 11, 5], [20, 21, 4], [30, 31, 0], [40, 41, 5]]), None);
    recovered(&mut board);
    let advance = Call::Advance { worker: 0 };
    taken(&mut board, &[TAKE, Call::Update { worker: 0, cell: 3, value: 9 }, advance, advance, advance, GIVE_BACK]);
    taken(&mut board, &[AWAY, Call::Request]);
    taken(&mut board, &[Call::Step, Call::Step, Call::Step, Call::Step, Call::WriteBack { line: 1 }]);
    for line in [1, 2] {
        assert_eq!(board.memory[8 * line + 6..8 * line + 8], [6, 7]);
    }
    assert_eq!((recovered(&mut board), reads(&mut board)), (4, vec![11, 20, 30, 9]));
    taken(&mut board, &[Call::Format { lines: 2, workers: 1 }, Call::Step, Call::Step]);
    assert_eq!((&board.memory[14..16], &board.memory[22..24]), (&[0, 0][..], &[6, 7][..]));
}

#[test]
fn in_the_last_epoch_every_request_is_11() {
    let mut last = board(memory(u64::MAX, 1, &[[1, 2, u64::MAX], [3, 4, u64::MAX - 1]]), None);
    assert_eq!((recovered(&mut last), reads(&mut last)), (4, vec![2, 3]));
    assert_eq!(last.perform(&Call::Request).number, 11);
    let mut before = board(memory(u64::MAX - 1, 1, &[[1, 2, 0], [3, 4, 0]]), None);
    recovered(&mut before);
    taken(&mut before, &CHECKPOINT);
    assert_eq!(before.memory[0], u64::MAX);
    assert_eq!(before.perform(&Call::Request).number, 11);
}

/// The ticket's story up to the update: cell 3 is marked one past the epoch, a checkpoint, an update of that cell.
fn after_an_unlogged_update() -> Board {
    let words = memory(1, 1, &[[10, 10, 0], [20, 20, 0], [30, 30, 0], [40, 40, 2]]);
    refused(board(words.clone(), None), 14);
    let mut board = board(words, Some(Mistake::NoCause14));
    recovered(&mut board);
    taken(&mut board, &CHECKPOINT);
    taken(&mut board, &[TAKE, Call::Update { worker: 0, cell: 3, value: 50 }, Call::Advance { worker: 0 }]);
    board
}

#[test]
fn without_14_an_update_goes_unlogged_and_a_checkpoint_loses_it() {
    let mut board = after_an_unlogged_update();
    assert_eq!(board.perform(&Call::Advance { worker: 0 }).number, 8, "one store, where three log it");
    assert_eq!(board.state.line_bits, [0; 8], "its line is not set");
    assert_eq!(reads(&mut board), [10, 20, 30, 50]);
    taken(&mut board, &[GIVE_BACK]);
    taken(&mut board, &CHECKPOINT);
    assert_eq!(board.memory[0], 3);
    recovered(&mut board);
    assert_eq!(reads(&mut board), [10, 20, 30, 40], "the checkpointed 50 is lost");
}

#[test]
fn without_14_one_checkpoint_on_recovery_undoes_to_a_foreign_backup() {
    let words = memory(1, 1, &[[10, 10, 0], [40, 77, 2]]);
    let mut board = board(words, Some(Mistake::NoCause14));
    recovered(&mut board);
    assert_eq!(reads(&mut board), [10, 40]);
    taken(&mut board, &CHECKPOINT);
    recovered(&mut board);
    assert_eq!(reads(&mut board), [10, 77]);
}

/// The memory that a sequence found by the search began with.
fn first_memory(trace: &[String]) -> Vec<u64> {
    let words = trace[0].strip_prefix("Recovery on foreign memory [").and_then(|words| words.strip_suffix(']'));
    words.expect("it begins at a recovery's start").split(", ").map(|word| word.parse().unwrap()).collect()
}

#[test]
fn without_14_the_search_finds_the_tickets_story() {
    for (mistake, check, events) in [
        (Mistake::NoCause14, Recovery, 18),
        (Mistake::NoCause14, Reads, 12),
        (Mistake::Cause14LastCell, Recovery, 21),
        (Mistake::Cause14LastCell, Reads, 13),
    ] {
        let caught = exhaust(Some(mistake), Some(check)).expect_err("a wrong value is read");
        let trace = &caught.trace;
        assert_eq!((caught.violation.check, trace.len()), (check, events));
        let memory = first_memory(trace);
        assert_eq!((memory[8], memory[11]), (memory[9], memory[12]), "no wrong backup is needed");
        assert!(memory[10].max(memory[13]) == memory[0] + 1, "one past the epoch: {memory:?}");
        let begun = trace.iter().position(|event| event.starts_with("Update") || event.starts_with("Restart"));
        let begun = begun.expect("an update goes unlogged");
        let advances = trace.iter().filter(|event| event.starts_with("Advance")).count();
        assert_eq!(advances, 1, "one store, where three log it");
        let steps = trace[..begun].iter().filter(|event| *event == "Step").count();
        assert_eq!(steps, 2 + 3, "one checkpoint on");
    }
}

#[test]
fn the_machine_begins_with_both_values_and_nothing_else() {
    let machine = Machine::begin_with(&[4, 5]);
    for (value, told) in machine.values.iter().zip([4, 5]) {
        assert_eq!((value.current, value.checkpointed, value.marked), (told, told, false));
    }
    assert_eq!((machine.updates, machine.requested), ([None; 8], false));
    assert_eq!(Machine::begin(2), Machine::begin_with(&[0, 0]));
}
