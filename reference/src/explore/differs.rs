//! Two boards compared: fields of the state record that are named and all others, words of the rows that are named and
//! all others; and the text row of a page.

use std::cmp::Reverse;
use std::fmt::Debug;

use super::check::{ensure, Finding};
use crate::board::Board;

/// A field of the state record.
#[derive(Clone, Copy, PartialEq, Eq, Debug)]
pub enum Field {
    Phase,
    L,
    W,
    Place,
    Undo,
    Request,
    Workers,
    Bits,
    Holders,
}

/// The board before a taken call, and after it.
pub struct Pair<'a> {
    pub before: &'a Board,
    pub after: &'a Board,
}

/// "Cell c ... stands in line 1 + (c div 2), from word 3×(c mod 2): record, backup, mark."
pub fn record_word(cell: usize) -> usize {
    8 * (1 + cell / 2) + 3 * (cell % 2)
}

/// Where a cell has its backup.
pub fn backup_word(cell: usize) -> usize {
    record_word(cell) + 1
}

/// Where a cell has its mark.
pub fn mark_word(cell: usize) -> usize {
    record_word(cell) + 2
}

/// A field is what it is to be.
pub fn is<T: PartialEq + Debug>(what: &str, found: T, told: T) -> Finding {
    ensure(found == told, || format!("{what}: {found:?}, not {told:?}"))
}

impl Pair<'_> {
    /// A word of the cache before the call, 0 where there is none.
    pub fn cached(&self, word: usize) -> u64 {
        self.before.cache.get(word).copied().unwrap_or(0)
    }

    /// The cell had the cache's epoch as its mark.
    pub fn logged(&self, cell: usize) -> bool {
        self.cached(mark_word(cell)) == self.cached(0)
    }

    /// "What the rules of a taken call don't name stays as it was": every field but these.
    pub fn others_stay(&self, named: &[Field]) -> Finding {
        let (old, new) = (&self.before.state, &self.after.state);
        let same = [
            (Field::Phase, old.phase == new.phase),
            (Field::L, old.lines == new.lines),
            (Field::W, old.workers == new.workers),
            (Field::Place, old.place == new.place),
            (Field::Undo, old.undo == new.undo),
            (Field::Request, old.requested == new.requested),
            (Field::Workers, old.worker == new.worker),
            (Field::Bits, old.line_bits == new.line_bits),
            (Field::Holders, old.holders == new.holders),
        ];
        let changed = same.iter().find(|(field, same)| !same && !named.contains(field));
        changed.map_or(Ok(()), |(field, _)| Err(format!("{field:?} changed")))
    }

    /// Neither row changed.
    pub fn rows_stay(&self) -> Finding {
        ensure(self.before.memory == self.after.memory, || "memory changed".into())?;
        ensure(self.before.cache == self.after.cache, || "the cache changed".into())
    }

    /// A store: this word of the cache, and nothing else in either row.
    pub fn word_stored(&self, word: usize, value: u64) -> Finding {
        ensure(self.before.memory == self.after.memory, || "memory changed".into())?;
        words_alone("the cache", [&self.before.cache, &self.after.cache], word, &[value])
    }

    /// "A write-back copies a whole line from cache to memory": that line of memory, and nothing else in either row.
    pub fn line_written(&self, line: usize) -> Finding {
        ensure(self.before.cache == self.after.cache, || "the cache changed".into())?;
        let words = self.before.cache.get(8 * line..8 * line + 8).unwrap_or(&[]);
        words_alone("memory", [&self.before.memory, &self.after.memory], 8 * line, words)
    }

    /// A line "in both": that line of memory and cache, and nothing else.
    pub fn line_in_both(&self, line: usize, words: [u64; 8]) -> Finding {
        words_alone("memory", [&self.before.memory, &self.after.memory], 8 * line, &words)?;
        words_alone("the cache", [&self.before.cache, &self.after.cache], 8 * line, &words)
    }
}

/// Between two rows only the words from one on differ, and they are as told; a word past the row is none.
fn words_alone(row: &str, [old, new]: [&Vec<u64>; 2], first: usize, told: &[u64]) -> Finding {
    let (from, to) = (first.min(old.len()), (first + told.len()).min(old.len()));
    let told = &told[..to - from];
    ensure(new.len() == old.len(), || format!("{row} has another length"))?;
    ensure(new[from..to] == *told, || format!("{row} has {:?} from word {first} on, not {told:?}", &new[from..to]))?;
    let others = new[..from] == old[..from] && new[to..] == old[to..];
    ensure(others, || format!("{row} changed outside of the words {from} to {to}"))
}

/// A page leaves every byte of the text row where it is refused; taken it is "the cache's cells ... newest mark first";
/// "among equal marks, cells whose record differs from backup come first, then rising cell number"; and then the bytes
/// that were there.
pub fn text_row(board: &Board, room: u64) -> Finding {
    let before: Vec<u8> = (0..room).map(|at| (at % 251) as u8 ^ 0xa5).collect();
    let mut after = before.clone();
    let number = board.page(&mut after);
    if number != 0 {
        return ensure(after == before, || format!("a page refused by {number} changed its text row"));
    }
    let page = page_of(board);
    let (shown, rest) = after.split_at(page.len().min(after.len()));
    ensure(shown == page.as_bytes(), || format!("a page is {:?}, not {page:?}", String::from_utf8_lossy(shown)))?;
    ensure(rest == &before[shown.len()..], || "a page changed a byte past its end".into())
}

/// "a heading line ..., then one line for each cell, in columns of 4, 20, 20 and 20, right-aligned, decimal"
fn page_of(board: &Board) -> String {
    let word = |at: usize| board.cache.get(at).copied().unwrap_or(0);
    let mut cells: Vec<usize> = (0..2 * usize::from(board.state.lines)).collect();
    let words = |cell: usize| [record_word(cell), backup_word(cell), mark_word(cell)].map(word);
    cells.sort_unstable_by_key(|&cell| {
        let [record, backup, mark] = words(cell);
        (Reverse(mark), record == backup, cell)
    });
    let mut page = format!("{:>4} {:>20} {:>20} {:>20}\n", "cell", "record", "backup", "mark");
    for cell in cells {
        let [record, backup, mark] = words(cell);
        page += &format!("{cell:>4} {record:>20} {backup:>20} {mark:>20}\n");
    }
    page
}
