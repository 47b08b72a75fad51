//! Ticket 5: a bit for each line, each line written once, and the count.
#![deny(warnings)]

use reference::bench::{run, Workload};
use reference::bits::{count, last, set, set_line, NO_LINES};
use reference::board::{Board, Condition, Phase, State, Store, Update};
use reference::call::{Answer, Call};

/// A board of this size after a finished format.
fn formatted(lines: u64, workers: u64) -> Board {
    let mut board = Board::empty(None);
    board.resize(lines);
    taken(&mut board, &[Call::Format { lines, workers }]);
    while board.state.phase != Phase::Running {
        taken(&mut board, &[Call::Step]);
    }
    board
}

/// Calls that are all taken.
fn taken(board: &mut Board, calls: &[Call]) {
    for call in calls {
        assert_eq!(board.perform(call).number, 0, "{call:?}");
    }
}

/// A count that is taken.
fn counted(board: &Board) -> u64 {
    let mut after = board.clone();
    let answer = after.perform(&Call::Count);
    assert_eq!((answer.number, &after), (0, board));
    answer.value
}

/// A count that is refused by this cause.
fn refused(board: &Board, cause: u8) {
    let mut after = board.clone();
    assert_eq!(after.perform(&Call::Count), Answer { number: cause, value: 0 });
    assert_eq!(after, *board);
}

/// Updates of these cells by worker 0, each to 1 more than its number.
fn updated(board: &mut Board, cells: &[u64]) {
    for cell in cells {
        let (advance, lock) = (Call::Advance { worker: 0 }, cell % 16);
        taken(board, &[Call::Take { worker: 0, lock }, Call::Update { worker: 0, cell: *cell, value: cell + 1 }]);
        taken(board, &[advance, advance, advance, Call::GiveBack { worker: 0, lock }]);
    }
}

/// The steps from a request to the release with worker 0 away, and after each the lines of memory that it changed.
fn steps(board: &mut Board) -> Vec<Vec<usize>> {
    taken(board, &[Call::GoAway { worker: 0 }, Call::Request]);
    let mut changed = Vec::new();
    while board.state.requested {
        let memory = board.memory.clone();
        taken(board, &[Call::Step]);
        let lines = 0..=usize::from(board.state.lines);
        changed.push(lines.filter(|l| board.memory[8 * l..8 * l + 8] != memory[8 * l..8 * l + 8]).collect());
    }
    changed
}

#[test]
fn a_lines_bit_stands_in_word_l_div_64_from_the_lowest() {
    for line in 0..512 {
        let mut bits = NO_LINES;
        set(&mut bits, line);
        set(&mut bits, line);
        let told: [u64; 8] = std::array::from_fn(|at| if at == line / 64 { 1 << (line % 64) } else { 0 });
        assert_eq!(bits, told);
        assert_eq!(
            (count(&bits), last(&bits), set_line(&bits, 0), set_line(&bits, 1)),
            (1, Some(line), Some(line), None)
        );
    }
    assert_eq!((count(&NO_LINES), last(&NO_LINES), set_line(&NO_LINES, 0)), (0, None, None));
}

#[test]
fn set_lines_come_rising() {
    let lines = [1, 2, 62, 63, 64, 65, 127, 128, 300, 447, 448, 510, 511];
    let mut bits = NO_LINES;
    lines.iter().rev().for_each(|line| set(&mut bits, *line));
    let found: Vec<usize> = (0..14).map_while(|before| set_line(&bits, before)).collect();
    assert_eq!((found.as_slice(), count(&bits), last(&bits)), (&lines[..], 13, Some(511)));
    let all = [u64::MAX; 8];
    assert!((0..512).all(|line| set_line(&all, line as u16) == Some(line)));
}

#[test]
fn the_marks_store_sets_the_bit_and_no_other_does() {
    let mut board = formatted(511, 1);
    for cell in [1, 126, 127, 128, 1020, 1021] {
        let line = 1 + cell as usize / 2;
        let before = board.state.line_bits;
        let mut after = before;
        set(&mut after, line);
        let lock = cell % 16;
        taken(&mut board, &[Call::Take { worker: 0, lock }, Call::Update { worker: 0, cell, value: 5 }]);
        for bits in [before, after, after] {
            taken(&mut board, &[Call::Advance { worker: 0 }]);
            assert_eq!(board.state.line_bits, bits, "cell {cell}");
        }
        taken(&mut board, &[Call::Update { worker: 0, cell, value: 6 }, Call::Advance { worker: 0 }]);
        assert_eq!(board.state.line_bits, after);
        taken(&mut board, &[Call::GiveBack { worker: 0, lock }]);
    }
    assert_eq!(board.state.line_bits, [2, 3, 0, 0, 0, 0, 0, 1 << 63]);
    assert_eq!(counted(&board), 7);
}

#[test]
fn each_line_is_written_once_in_rising_order() {
    let mut board = formatted(511, 1);
    updated(&mut board, &[1021, 5, 300, 4, 301, 1020, 1]);
    assert_eq!(counted(&board), 4 + 3);
    let told: [Vec<usize>; 7] = [vec![1], vec![3], vec![151], vec![511], vec![], vec![0], vec![]];
    assert_eq!(steps(&mut board), told);
    assert_eq!((board.state.line_bits, counted(&board)), (NO_LINES, 3));
    assert_eq!(board.memory[..3], [2, 511, 1]);
}

#[test]
fn bits_stay_until_the_release() {
    let mut board = formatted(2, 1);
    updated(&mut board, &[1, 2, 3]);
    taken(&mut board, &[Call::GoAway { worker: 0 }, Call::Request]);
    for _ in 0..4 {
        taken(&mut board, &[Call::Step]);
        assert_eq!((board.state.line_bits[0], counted(&board)), (6, 5));
    }
    taken(&mut board, &[Call::Step]);
    assert_eq!((board.state.line_bits, board.state.requested, counted(&board)), (NO_LINES, false, 3));
}

#[test]
fn the_count_of_every_line_is_l_and_3() {
    for lines in [1, 2, 63, 64, 65, 448, 511] {
        let mut board = formatted(lines, 1);
        for line in 1..=lines {
            set(&mut board.state.line_bits, line as usize);
            assert_eq!(counted(&board), line + 3);
        }
        assert_eq!(steps(&mut board).len() as u64, lines + 3);
    }
}

#[test]
fn the_counts_causes_in_their_order() {
    let mut board = formatted(2, 2);
    board.state.line_bits[0] = 6;
    board.cache.pop();
    board.state.lines = 512;
    board.state.phase = Phase::Recovering;
    refused(&board, 2);
    board.state.phase = Phase::Running;
    refused(&board, 3);
    board.state.lines = 2;
    refused(&board, 4);
    board.cache.push(0);
    assert_eq!(counted(&board), 5);
    for phase in [Phase::Off, Phase::Formatting, Phase::Recovering] {
        board.state.phase = phase;
        refused(&board, 2);
    }
}

#[test]
fn a_bit_of_line_0_or_past_l_is_3_for_every_call_but_the_starts() {
    for lines in [1, 63, 64, 447, 448, 510, 511] {
        let board = formatted(lines, 1);
        for line in 0..512 {
            let mut board = board.clone();
            set(&mut board.state.line_bits, line);
            let allowed = (1..=lines as usize).contains(&line);
            assert_eq!(board.cause(&Call::Count), if allowed { 0 } else { 3 }, "{line} of {lines}");
        }
    }
    let mut board = formatted(1, 1);
    board.state.line_bits[7] = 1;
    board.state.worker[0] = Condition::Updating(Update { cell: 1, value: 5, next: Store::Mark });
    let calls = [Call::Step, Call::Advance { worker: 0 }, Call::Request, Call::WriteBack { line: 0 }];
    let others = [Call::Read { cell: 0 }, Call::Page { room: 204 }, Call::GoAway { worker: 0 }, Call::Count];
    assert!(calls.iter().chain(&others).all(|call| board.cause(call) == 3));
    assert!([Call::Recovery, Call::Format { lines: 1, workers: 1 }].iter().all(|call| board.cause(call) == 0));
}

#[test]
fn a_place_goes_up_to_n_and_2() {
    let mut board = formatted(100, 1);
    board.state.line_bits[1] = 7;
    board.state.requested = true;
    for (place, cause) in [(0, 0), (3, 0), (5, 0), (6, 3), (u16::MAX, 3)] {
        board.state.place = place;
        assert_eq!(board.cause(&Call::Count), cause, "{place}");
    }
    board.state.requested = false;
    assert_eq!(counted(&board), 6);
}

#[test]
fn starts_and_a_formats_end_clear_the_bits_and_a_recoverys_end_does_not() {
    for (phase, place, bits) in [(Phase::Formatting, 3, 0), (Phase::Recovering, 3, 6)] {
        let mut board = formatted(2, 1);
        board.state = State { phase, place, ..board.state };
        board.state.line_bits[0] = 6;
        taken(&mut board, &[Call::Step]);
        assert_eq!((board.state.phase, board.state.line_bits[0]), (Phase::Running, bits));
    }
    for start in [Call::Recovery, Call::Format { lines: 2, workers: 1 }] {
        let mut board = formatted(2, 1);
        board.state.line_bits = [u64::MAX; 8];
        taken(&mut board, &[start]);
        assert_eq!(board.state.line_bits, NO_LINES);
    }
}

#[test]
fn the_count_is_learned_before_or_after_the_request_and_write_backs_change_nothing() {
    let mut board = formatted(3, 2);
    updated(&mut board, &[2, 3, 5]);
    taken(&mut board, &[Call::GoAway { worker: 0 }, Call::GoAway { worker: 1 }]);
    let early = counted(&board);
    taken(&mut board, &[Call::WriteBack { line: 2 }, Call::Request]);
    let late = counted(&board);
    let mut steps = 0;
    while board.state.requested {
        taken(&mut board, &[Call::WriteBack { line: steps % 4 }, Call::Count, Call::Step]);
        steps += 1;
    }
    assert_eq!((early, late, steps), (5, 5, 5));
}

#[test]
fn the_workloads_of_checkpoints_are_taken_throughout() {
    let spread = |workers: u64, n: u64| (0..n - workers).map(|k| 2 * (workers.div_ceil(2) + k)).sum::<u64>();
    let pairs = |workers: u64, n: u64| (workers..n).sum::<u64>();
    for (lines, workers, n) in [(1, 1, 1), (64, 1, 2), (64, 1, 64), (511, 1, 64), (511, 1, 511), (511, 8, 64)] {
        let sum = run(Workload::named("checkpoint").unwrap(), lines, workers, n, 3, 5);
        assert_eq!(sum, Some(spread(workers, n) + 3 * workers), "{lines} {workers} {n}");
    }
    for (lines, workers, n) in [(1, 1, 1), (1, 1, 2), (64, 1, 64), (511, 1, 1022), (511, 8, 64), (511, 7, 63)] {
        let sum = run(Workload::named("checkpoint-pairs").unwrap(), lines, workers, n, 3, 5);
        assert_eq!(sum, Some(pairs(workers, n) + 3 * workers), "{lines} {workers} {n}");
    }
    for (lines, workers, n) in [(1, 1, 2), (64, 1, 65), (511, 1, 512), (4, 8, 8 + 1), (511, 8, 516)] {
        assert_eq!(run(Workload::named("checkpoint").unwrap(), lines, workers, n, 1, 5), None);
    }
}
