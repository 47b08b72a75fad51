//! Ticket 1: "a heading line (cell, record, backup, mark), then one line for each cell", and the program that prints it.

use std::cmp::Reverse;
use std::fmt::Display;
use std::io::{BufRead, Result as Done, Write};

use crate::board::{Board, Lent, State};
use crate::call::Call;
use crate::causes::cause;
use crate::drill;
use crate::line::{backup_at, cells, mark_at, record_at, row_words, MOST_LINES};
use crate::misread::Misread;
use crate::mistake::Mistake;

/// "in columns of 4, 20, 20 and 20"
const COLUMNS: [usize; 4] = [4, 20, 20, 20];

/// "a heading line"
const HEADING: [&str; 4] = ["cell", "record", "backup", "mark"];

/// The columns' bytes, "one blank between, each ended by a line feed"
const LINE_BYTES: u64 = 4 + 1 + 20 + 1 + 20 + 1 + 20 + 1;

/// The bytes of the page of a board of so many lines.
pub fn page_bytes(lines: u64) -> u64 {
    LINE_BYTES * (cells(lines) + 1)
}

/// A page at the start of a lent text row: refused with its cause and every byte left as it was, or taken.
pub fn page(state: &State, rows: &Lent, text: &mut [u8], mistake: Option<Mistake>) -> u8 {
    let number = cause(&Call::Page { room: text.len() as u64 }, state, rows, mistake);
    let lines = page_lines(state, rows, mistake).min(state.lines.into());
    if number == 0 {
        let shown = if mistake == Some(Mistake::PageOfMemory) { rows.memory } else { rows.cache };
        write_page(cells(lines) as usize, shown, text, mistake);
    } else {
        write_refused(number, lines, rows.cache, text, mistake);
    }
    number
}

/// What a mistaken board leaves in the text row of a refused page.
fn write_refused(number: u8, lines: u64, cache: &[u64], text: &mut [u8], mistake: Option<Mistake>) {
    let fits = text.len() as u64 >= page_bytes(lines) && cache.len() as u64 >= row_words(lines);
    match mistake {
        Some(Mistake::PageRefusedWrites) => text.iter_mut().take(1).for_each(|byte| *byte = b' '),
        Some(Mistake::PageRefusedWritten) if (2..=4).contains(&number) && fits => {
            write_page(cells(lines) as usize, cache, text, mistake);
        }
        _ => {}
    }
}

/// The L that a page is sized by: the state record's.
pub fn page_lines(state: &State, rows: &Lent, mistake: Option<Mistake>) -> u64 {
    match mistake {
        Some(Mistake::PageByHeader) => rows.cache.get(1).map_or(0, |lines| (*lines).min(MOST_LINES)),
        _ => state.lines.into(),
    }
}

impl Board {
    /// A page of this board.
    pub fn page(&self, text: &mut [u8]) -> u8 {
        page(&self.state, &self.lent(), text, self.mistake)
    }

    /// A page of this board by itself, or the number that turns it down.
    pub fn page_text(&self) -> Result<Vec<u8>, u8> {
        let mut text = vec![0; page_bytes(MOST_LINES) as usize];
        let number = self.page(&mut text);
        text.truncate(page_bytes(self.state.lines.into()) as usize);
        if number == 0 {
            Ok(text)
        } else {
            Err(number)
        }
    }
}

/// The heading, and a line for each cell.
fn write_page(cells: usize, cache: &[u64], text: &mut [u8], mistake: Option<Mistake>) {
    let columns = if mistake == Some(Mistake::PageNarrow) { [4, 20, 20, 19] } else { COLUMNS };
    let mut rest = put_line(text, columns, HEADING);
    for (mark, _, cell) in in_order(cells, cache, mistake) {
        let mut values = [cache[record_at(cell)], cache[backup_at(cell)]];
        if mistake == Some(Mistake::PageSwapped) {
            values.reverse();
        }
        rest = put_line(rest, columns, [cell as u64, values[0], values[1], mark]);
    }
    if mistake == Some(Mistake::PagePastEnd) {
        rest.iter_mut().take(1).for_each(|byte| *byte = b' ');
    }
}

/// A cell's mark, whether it is changed, and its number.
type Entry = (u64, bool, usize);

/// "newest mark first" and, by ticket 10, "among equal marks, cells whose record differs from backup come first, then
/// rising cell number": those equal in both stay in the order they had.
fn in_order(cells: usize, cache: &[u64], mistake: Option<Mistake>) -> Vec<Entry> {
    let shown = if mistake == Some(Mistake::PageLastCellMissing) { cells - 1 } else { cells };
    let entry = |cell| (cache[mark_at(cell)], changed(cell, cache, mistake), cell);
    let mut entries: Vec<Entry> = (0..shown).map(entry).collect();
    if mistake == Some(Mistake::PageFallingCells) {
        entries.reverse();
    }
    match mistake {
        Some(Mistake::PageOlderFirst) => entries.sort_by_key(|&(mark, changed, _)| (mark, !changed)),
        Some(Mistake::PageMarksMod63) => entries.sort_by_key(|&(mark, changed, _)| (Reverse(mark << 1), !changed)),
        Some(Mistake::PageByMarkAlone) => entries.sort_by_key(|&(mark, ..)| Reverse(mark)),
        Some(Mistake::PageChangedLast) => entries.sort_by_key(|&(mark, changed, _)| (Reverse(mark), changed)),
        Some(Mistake::PageChangedBeforeMark) => entries.sort_by_key(|&(mark, changed, _)| (!changed, Reverse(mark))),
        _ => entries.sort_by_key(|&(mark, changed, _)| (Reverse(mark), !changed)),
    }
    entries
}

/// "cells whose record differs from backup", whatever their mark
fn changed(cell: usize, cache: &[u64], mistake: Option<Mistake>) -> bool {
    let (record, backup) = (cache[record_at(cell)], cache[backup_at(cell)]);
    match mistake {
        Some(Mistake::PageChangedThisEpoch) => record != backup && cache[mark_at(cell)] == cache[0],
        Some(Mistake::PageChangedGrown) => record > backup,
        _ => record != backup,
    }
}

/// A line at the start of a text row, and the rest of the row.
fn put_line<T: Display>(mut text: &mut [u8], columns: [usize; 4], fields: [T; 4]) -> &mut [u8] {
    for (at, (width, field)) in columns.into_iter().zip(fields).enumerate() {
        let (column, rest) = text.split_at_mut(width);
        put_right(column, field);
        let (end, rest) = rest.split_at_mut(1);
        end[0] = if at == 3 { b'\n' } else { b' ' };
        text = rest;
    }
    text
}

/// "right-aligned, decimal": written at the left of its column, moved to the right, blanks before it.
fn put_right(column: &mut [u8], field: impl Display) {
    let mut free = &mut *column;
    let _ = write!(free, "{field}");
    let blanks = free.len();
    column.copy_within(..column.len() - blanks, blanks);
    column[..blanks].fill(b' ');
}

/// The page of the board that a drill script leads to, or the number that turns it down; and the lines that are no calls.
pub fn after_script(input: impl BufRead) -> Done<(Result<Vec<u8>, u8>, Misread)> {
    let (board, misread) = drill::after_script(input)?;
    Ok((board.page_text(), misread))
}

/// A page's causes in words.
pub fn words(number: u8) -> &'static str {
    match number {
        2 => "phase doesn't allow the call",
        3 => "state record",
        4 => "rows",
        _ => "text row too short",
    }
}
