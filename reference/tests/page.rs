//! The page, with its text written out by hand.
#![deny(warnings)]

use reference::board::{Board, Condition, Phase, Store, Update};
use reference::call::Call;
use reference::drill::Drill;
use reference::program::answer;

/// The page of a board of one line after its format.
const FRESH: &str = "\
cell               record               backup                 mark
   0                    0                    0                    0
   1                    0                    0                    0
";

/// A board after these lines of the drill, blanks for tabs.
fn board(script: &str) -> Board {
    let mut board = Board::empty(None);
    for line in script.lines() {
        assert_eq!(answer::<Drill>(&mut board, line.replace(' ', "\t").as_bytes()).unwrap().number, 0, "{line}");
    }
    board
}

/// The page of a board in a text row of just its length, or the number that turns it down.
fn page(board: &Board) -> Result<String, u8> {
    let mut text = vec![0; 68 * (1 + 2 * board.state.lines as usize)];
    match board.page(&mut text) {
        0 => Ok(String::from_utf8(text).unwrap()),
        number => Err(number),
    }
}

/// A cell's record, backup and mark put into the cache.
fn put(board: &mut Board, cell: usize, words: [u64; 3]) {
    let at = 8 * (1 + cell / 2) + 3 * (cell % 2);
    board.cache[at..at + 3].copy_from_slice(&words);
}

/// The cells in the order of their lines.
fn order(board: &Board) -> Vec<u64> {
    let text = page(board).unwrap();
    text.lines().skip(1).map(|line| line.split_whitespace().next().unwrap().parse().unwrap()).collect()
}

#[test]
fn a_fresh_board() {
    assert_eq!(page(&board("F 1 1")).unwrap(), FRESH);
    assert_eq!(FRESH.len(), 3 * 68);
}

#[test]
fn numbers_of_one_to_twenty_digits_and_marks_newest_first() {
    let mut board = board("F 2 1");
    put(&mut board, 0, [3, 0, 2]);
    put(&mut board, 1, [u64::MAX, 7, u64::MAX]);
    put(&mut board, 2, [0, 10_000_000_000_000_000_000, 2]);
    put(&mut board, 3, [999, 1000, 0]);
    let expected = "\
cell               record               backup                 mark
   1 18446744073709551615                    7 18446744073709551615
   0                    3                    0                    2
   2                    0 10000000000000000000                    2
   3                  999                 1000                    0
";
    assert_eq!(page(&board).unwrap(), expected);
}

#[test]
fn each_count_of_digits_at_both_its_ends() {
    let mut board = board("F 2 1");
    put(&mut board, 0, [1, 9, 10]);
    put(&mut board, 1, [99, 100, 9_999_999_999]);
    put(&mut board, 2, [10_000_000_000, 1_234_567_890_123, 9_999_999_999_999_999_999]);
    put(&mut board, 3, [1_000_000_000_000_000_000, 99_999_999_999_999_999, 4_294_967_296]);
    let expected = "\
cell               record               backup                 mark
   2          10000000000        1234567890123  9999999999999999999
   1                   99                  100           9999999999
   3  1000000000000000000    99999999999999999           4294967296
   0                    1                    9                   10
";
    assert_eq!(page(&board).unwrap(), expected);
}

#[test]
fn marks_compare_as_numbers_and_not_as_text_or_with_a_sign() {
    let mut board = board("F 3 1");
    for (cell, mark) in [9, 10, (1 << 63) - 1, 1 << 63, 1 << 32, 100].into_iter().enumerate() {
        put(&mut board, cell, [0, 0, mark]);
    }
    assert_eq!(order(&board), [3, 2, 4, 5, 1, 0]);
}

#[test]
fn equal_marks_by_rising_cell_number() {
    let mut board = board("F 8 8");
    assert_eq!(order(&board), (0..16).collect::<Vec<_>>());
    for cell in 0..16 {
        put(&mut board, cell, [50 - cell as u64, cell as u64, cell as u64 % 3]);
    }
    assert_eq!(order(&board), [2, 5, 8, 11, 14, 1, 4, 7, 10, 13, 0, 3, 6, 9, 12, 15]);
    for cell in 0..16 {
        put(&mut board, cell, [0, 0, cell as u64]);
    }
    assert_eq!(order(&board), (0..16).rev().collect::<Vec<_>>());
}

#[test]
fn among_equal_marks_cells_whose_record_differs_from_backup_come_first() {
    let mut board = board("F 4 1");
    let cells = [[5, 5, 2], [9, 9, 1], [7, 7, 2], [6, 5, 2], [1, 2, 1], [4, 3, 1], [0, 0, 3], [0, 1 << 63, 2]];
    for (cell, words) in cells.into_iter().enumerate() {
        put(&mut board, cell, words);
    }
    assert_eq!(order(&board), [6, 3, 7, 0, 2, 4, 5, 1]);
    for cell in 0..8 {
        put(&mut board, cell, [10 + cell as u64 % 2, 10, 0]);
    }
    assert_eq!(order(&board), [1, 3, 5, 7, 0, 2, 4, 6]);
}

#[test]
fn the_worked_page_of_the_table() {
    let mut board = board("F 3 1");
    let cells = [[10, 10, 1], [99, 99, 2], [0, 0, 1], [7, u64::MAX, 2], [100, 0, 2], [8, 0, 1]];
    for (cell, words) in cells.into_iter().enumerate() {
        put(&mut board, cell, words);
    }
    let expected = "\
cell               record               backup                 mark
   3                    7 18446744073709551615                    2
   4                  100                    0                    2
   1                   99                   99                    2
   5                    8                    0                    1
   0                   10                   10                    1
   2                    0                    0                    1
";
    assert_eq!(page(&board).unwrap(), expected);
}

#[test]
fn a_record_and_a_backup_that_differ_in_one_bit_differ() {
    let mut board = board("F 1 1");
    for bit in 0..64 {
        for words in [[1 << bit, 0, 0], [0, 1 << bit, 0], [!(1 << bit), u64::MAX, 0]] {
            put(&mut board, 1, words);
            assert_eq!(order(&board), [1, 0], "{words:?}");
        }
        put(&mut board, 1, [1 << bit, 1 << bit, 0]);
        assert_eq!(order(&board), [0, 1], "{bit}");
    }
}

#[test]
fn an_update_to_the_value_that_was_there_and_a_restart_point_that_moved() {
    let expected = "\
cell               record               backup                 mark
   2                    8                    0                    1
   1                    0                    0                    1
   0                    0                    0                    0
   3                    0                    0                    0
";
    let script = "F 2 1\nH 0 1\nU 0 1 0\nA 0\nA 0\nA 0\nV 0 1\nH 0 2\nU 0 2 8\nA 0\nA 0\nA 0\nV 0 2";
    assert_eq!(page(&board(script)).unwrap(), expected);
    let restarted = "\
cell               record               backup                 mark
   0                    3                    0                    1
   2                    8                    0                    1
   1                    0                    0                    1
   3                    0                    0                    0
";
    assert_eq!(page(&board(&format!("{script}\nP 0 3\nA 0\nA 0\nA 0"))).unwrap(), restarted);
}

/// A checkpoint with 7 in cell 1 and restart point 3, and a restart point 4 in the epoch after it.
const EPOCHS: &str =
    "F 2 1\nH 0 1\nU 0 1 7\nA 0\nA 0\nA 0\nV 0 1\nC\nP 0 3\nA 0\nA 0\nA 0\nS\nS\nS\nS\nP 0 4\nA 0\nA 0\nA 0\nH 0 1";

#[test]
fn the_cache_and_not_memory_at_each_store_of_an_update() {
    let begun = "\
cell               record               backup                 mark
   0                    4                    3                    2
   1                    7                    0                    1
   2                    0                    0                    0
   3                    0                    0                    0
";
    assert_eq!(page(&board(&format!("{EPOCHS}\nU 0 1 9"))).unwrap(), begun);
    let backed_up = "\
cell               record               backup                 mark
   0                    4                    3                    2
   1                    7                    7                    1
   2                    0                    0                    0
   3                    0                    0                    0
";
    assert_eq!(page(&board(&format!("{EPOCHS}\nU 0 1 9\nA 0"))).unwrap(), backed_up);
    let stored = "\
cell               record               backup                 mark
   0                    4                    3                    2
   1                    9                    7                    2
   2                    0                    0                    0
   3                    0                    0                    0
";
    let board = board(&format!("{EPOCHS}\nU 0 1 9\nA 0\nA 0\nA 0"));
    assert_eq!(page(&board).unwrap(), stored);
    assert_eq!(board.memory[8..16], [3, 0, 1, 7, 0, 1, 0, 0]);
}

#[test]
fn the_largest_board() {
    let mut board = board("F 511 8");
    put(&mut board, 1021, [5, 6, 7]);
    let text = page(&board).unwrap();
    assert_eq!(text.len(), 69_564);
    let lines: Vec<&str> = text.lines().collect();
    assert_eq!(lines.len(), 1023);
    assert!(lines.iter().all(|line| line.len() == 67));
    assert_eq!(lines[1], "1021                    5                    6                    7");
    assert_eq!(lines[2], "   0                    0                    0                    0");
    assert_eq!(lines[1001], " 999                    0                    0                    0");
    assert_eq!(lines[1022], "1020                    0                    0                    0");
}

#[test]
fn bytes_past_the_page_stay_and_so_do_all_of_a_refused_one() {
    let board = board("F 1 1");
    for (room, number) in [(0, 12), (1, 12), (68, 12), (203, 12), (204, 0), (205, 0), (271, 0), (272, 0), (69_564, 0)] {
        let mut text = vec![0xAA; room];
        assert_eq!(board.page(&mut text), number, "{room}");
        let page = if number == 0 { FRESH.as_bytes() } else { b"" };
        assert_eq!(&text[..page.len()], page);
        assert!(text[page.len()..].iter().all(|byte| *byte == 0xAA), "{room}");
    }
}

#[test]
fn causes_in_their_order() {
    let mut board = board("F 1 1");
    board.state.phase = Phase::Recovering;
    board.state.line_bits[0] = 1;
    board.cache.pop();
    let mut text = vec![1; 203];
    assert_eq!(board.page(&mut text), 2);
    board.state.phase = Phase::Running;
    assert_eq!(board.page(&mut text), 3);
    board.state.line_bits[0] = 2;
    assert_eq!(board.page(&mut text), 4);
    board.cache.push(0);
    assert_eq!(board.page(&mut text), 12);
    assert_eq!(text, [1; 203]);
    text.push(1);
    assert_eq!(board.page(&mut text), 0);
}

/// Something done to a board from outside.
type Spoil = fn(&mut Board);

#[test]
fn each_part_of_a_record_or_of_rows_that_turns_a_page_down() {
    let spoils: [(u8, Spoil); 15] = [
        (2, |board| board.state.phase = Phase::Off),
        (2, |board| board.state.phase = Phase::Formatting),
        (2, |board| board.state.phase = Phase::Recovering),
        (3, |board| board.state.lines = 0),
        (3, |board| board.state.lines = 512),
        (3, |board| board.state.workers = 0),
        (3, |board| board.state.workers = 2),
        (3, |board| board.state.line_bits[0] = 1),
        (3, |board| board.state.line_bits[0] = 4),
        (3, |board| board.state.line_bits[7] = 1 << 63),
        (3, |board| (board.state.requested, board.state.place) = (true, 3)),
        (3, |board| board.state.worker[0] = Condition::Updating(Update { cell: 2, value: 0, next: Store::Record })),
        (4, |board| board.memory.truncate(15)),
        (4, |board| board.cache.push(0)),
        (0, |board| board.state.line_bits[0] = 2),
    ];
    for (at, (number, spoil)) in spoils.into_iter().enumerate() {
        let mut board = board("F 1 1");
        spoil(&mut board);
        for room in [69_700, 203, 0] {
            let mut text = vec![0xAA; room];
            let expected = if number == 0 && room < 204 { 12 } else { number };
            assert_eq!(board.page(&mut text), expected, "{at}, {room}");
            assert!(expected == 0 || text.iter().all(|byte| *byte == 0xAA));
        }
    }
}

#[test]
fn a_page_is_taken_with_a_request_and_in_a_checkpoint() {
    let request = "F 1 1\nC\nP 0 5\nA 0\nA 0\nA 0";
    for steps in 0..4 {
        assert!(page(&board(&format!("{request}{}", "\nS".repeat(steps)))).is_ok());
    }
    let mut late = board("F 1 1");
    late.state.place = 65_535;
    assert_eq!(page(&late).unwrap(), FRESH);
    late.cache[0] = u64::MAX;
    assert_eq!(late.cause(&Call::Page { room: 204 }), 0);
}
