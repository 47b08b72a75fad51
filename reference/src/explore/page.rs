//! The page judged by laws: its lines are read back and never written a second time. State and rows are lent to it for
//! reading alone, so that they stay is the compiler's affair.

use super::check::{ensure, Finding};
use super::table;
use crate::board::Board;
use crate::call::Call;

/// Where each column begins and ends: 4, 20, 20 and 20 bytes, one between.
const COLUMNS: [(usize, usize); 4] = [(0, 4), (5, 25), (26, 46), (47, 67)];

/// A line's bytes, the line feed with them.
const LINE: usize = 68;

/// A page in a text row of so many bytes: its number, and each byte of the row.
pub fn judged(board: &Board, room: u64) -> Finding {
    let before: Vec<u8> = (0..room).map(|at| 0x80 | at as u8).collect();
    let mut after = before.clone();
    let number = board.page(&mut after);
    let expected = table::answer(&Call::Page { room }, &board.state, board.lent());
    ensure(number == expected, || format!("a page answered {number}, the table says {expected}"))?;
    let bytes = if number == 0 { LINE * (1 + 2 * board.state.lines as usize) } else { 0 };
    ensure(after[bytes..] == before[bytes..], || {
        format!("a page that answered {number} changed a byte past the first {bytes}")
    })?;
    if number == 0 {
        heading(&after[..LINE])?;
        cell_lines(board, &after[LINE..bytes])?;
    }
    Ok(())
}

/// "a heading line (cell, record, backup, mark)"
fn heading(line: &[u8]) -> Finding {
    let words = columns(line)?;
    ensure(words == ["cell", "record", "backup", "mark"], || format!("the heading says {words:?}"))
}

/// Every cell has one line with the cache's words, and each line stands after one that goes before it.
fn cell_lines(board: &Board, lines: &[u8]) -> Finding {
    let mut seen = vec![false; 2 * board.state.lines as usize];
    let mut last: Option<[u64; 4]> = None;
    for line in lines.chunks(LINE) {
        let view = numbers(line)?;
        let [cell, record, backup, mark] = view;
        let first = seen.get_mut(cell as usize).is_some_and(|seen| !std::mem::replace(seen, true));
        ensure(first, || format!("cell {cell} stands twice or is none"))?;
        let at = 8 * (1 + cell as usize / 2) + 3 * (cell as usize % 2);
        let words = &board.cache[at..at + 3];
        ensure(words == [record, backup, mark], || format!("cell {cell} is {words:?}, its line says {view:?}"))?;
        let follows = last.is_none_or(|last| goes_before(last, view));
        ensure(follows, || format!("{view:?} stands after {last:?}"))?;
        last = Some(view);
    }
    ensure(!seen.contains(&false), || "a cell has no line".into())
}

/// "newest mark first"; "among equal marks, cells whose record differs from backup come first, then rising cell number"
fn goes_before(one: [u64; 4], other: [u64; 4]) -> bool {
    let ([cell, record, backup, mark], [other_cell, other_record, other_backup, other_mark]) = (one, other);
    if mark != other_mark {
        return mark > other_mark;
    }
    match (record == backup, other_record == other_backup) {
        (false, true) => true,
        (true, false) => false,
        _ => cell < other_cell,
    }
}

/// A line's four numbers, decimal, with no zeros before them.
fn numbers(line: &[u8]) -> Result<[u64; 4], String> {
    let mut numbers = [0; 4];
    for (number, word) in numbers.iter_mut().zip(columns(line)?) {
        let digits = word.bytes().all(|byte| byte.is_ascii_digit());
        ensure(digits && (word == "0" || !word.starts_with('0')), || format!("'{word}' is no decimal number"))?;
        *number = word.parse().map_err(|error| format!("'{word}': {error}"))?;
    }
    Ok(numbers)
}

/// What stands at the right of each column, after "one blank between" and before the line's one line feed.
fn columns(line: &[u8]) -> Result<[&str; 4], String> {
    let text = std::str::from_utf8(line).map_err(|error| error.to_string())?;
    ensure(text.find('\n') == Some(LINE - 1), || format!("{text:?} is no line of {LINE} bytes"))?;
    ensure([4, 25, 46].iter().all(|at| line[*at] == b' '), || format!("{text:?} lacks a blank between columns"))?;
    Ok(COLUMNS.map(|(from, to)| text[from..to].trim_start_matches(' ')))
}
