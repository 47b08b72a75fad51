//! Lines and cells: where 01 puts each word.

/// "A line is 8 words."
pub const LINE_WORDS: usize = 8;

/// "the cell lines, is 1 to 511"
pub const MOST_LINES: u64 = 511;

/// "W, the workers, is 1 to 8"
pub const MOST_WORKERS: usize = 8;

/// "Cell c, 0 to 2L−1": how many cells a board of this size has.
pub fn cells(lines: u64) -> u64 {
    2 * lines
}

/// "two rows of words of equal length, 8×(L+1) words"
pub fn row_words(lines: u64) -> u64 {
    LINE_WORDS as u64 * (lines + 1)
}

/// "a multiple of 8 in 16 to 4,096 words": the lengths of memory that recovery takes.
pub fn row_length_allowed(words: usize) -> bool {
    words.is_multiple_of(LINE_WORDS) && (16..=4096).contains(&words)
}

/// "L ... is 1 to 511", "W ... is 1 to 8, and W < 2L"
pub fn sizes_allowed(lines: u64, workers: u64) -> bool {
    (1..=MOST_LINES).contains(&lines) && (1..=MOST_WORKERS as u64).contains(&workers) && workers < cells(lines)
}

/// "stands in line 1 + (c div 2)"
pub fn line_of(cell: usize) -> usize {
    1 + cell / 2
}

/// "from word 3×(c mod 2): record, ..."
pub fn record_at(cell: usize) -> usize {
    LINE_WORDS * line_of(cell) + 3 * (cell % 2)
}

/// "..., backup, ..."
pub fn backup_at(cell: usize) -> usize {
    record_at(cell) + 1
}

/// "..., mark"
pub fn mark_at(cell: usize) -> usize {
    record_at(cell) + 2
}

/// The words of one line within a row.
pub fn line_words(line: usize) -> std::ops::Range<usize> {
    LINE_WORDS * line..LINE_WORDS * (line + 1)
}

/// "Line 0 is the header: word 0 the epoch, word 1 L, word 2 W, words 3 to 7 zero."
pub fn header(epoch: u64, lines: u64, workers: u64) -> [u64; LINE_WORDS] {
    [epoch, lines, workers, 0, 0, 0, 0, 0]
}
