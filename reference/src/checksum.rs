//! The checksum of the fault program.

use crate::board::Board;
use crate::record::{condition_numbers, field, FIELDS};

/// "h is 14695981039346656037; for each number x in turn h := ((h xor x) × 1099511628211) mod 2^64"
pub fn of_numbers(numbers: impl Iterator<Item = u64>) -> u64 {
    numbers.fold(14_695_981_039_346_656_037, |sum, number| (sum ^ number).wrapping_mul(1_099_511_628_211))
}

/// "the fields of `B` ...; for each of the eight workers ...; ... the eight words of bits; ... the sixteen holders ...; memory, ... the cache"
pub fn of_board(board: &Board) -> u64 {
    let fields = FIELDS.iter().map(|k| field(&board.state, *k));
    let workers = board.state.worker.iter().flat_map(condition_numbers);
    let bits = board.state.line_bits;
    let holders = board.state.holders.map(u64::from);
    let rows = row(&board.memory).chain(row(&board.cache));
    of_numbers(fields.chain(workers).chain(bits).chain(holders).chain(rows))
}

/// "For `p` and `h` they are the bytes of the text."
pub fn of_bytes(text: &[u8]) -> u64 {
    of_numbers(text.iter().map(|byte| u64::from(*byte)))
}

/// "its length, then its words"
fn row(words: &[u64]) -> impl Iterator<Item = u64> + '_ {
    std::iter::once(words.len() as u64).chain(words.iter().copied())
}
