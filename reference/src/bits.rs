//! Ticket 5: "a bit for each line, 64 lines a word, the lowest bit first, eight words in the state record".

/// "64 lines a word"
const WORD_LINES: usize = 64;

/// "eight words"
pub const BIT_WORDS: usize = 8;

/// The lines to be written back at the next checkpoint.
pub type LineBits = [u64; BIT_WORDS];

/// No line's bit.
pub const NO_LINES: LineBits = [0; BIT_WORDS];

/// "Marking a cell now promises its line's bit too": the bit may be set already.
pub fn set(bits: &mut LineBits, line: usize) {
    bits[line / WORD_LINES] |= 1 << (line % WORD_LINES);
}

/// "n is their count"
pub fn count(bits: &[u64]) -> u16 {
    bits.iter().map(|word| word.count_ones() as u16).sum()
}

/// "in rising order": the set line that has so many set ones before it.
pub fn set_line(bits: &LineBits, mut before: u16) -> Option<usize> {
    for (at, word) in bits.iter().enumerate() {
        let ones = word.count_ones() as u16;
        if before < ones {
            return Some(WORD_LINES * at + bit_after(*word, before));
        }
        before -= ones;
    }
    None
}

/// The set bit of a word that has so many set ones below it.
fn bit_after(mut word: u64, before: u16) -> usize {
    for _ in 0..before {
        word &= word - 1;
    }
    word.trailing_zeros() as usize
}

/// The last set line.
pub fn last(bits: &LineBits) -> Option<usize> {
    let at = bits.iter().rposition(|word| *word != 0)?;
    Some(WORD_LINES * at + bits[at].ilog2() as usize)
}
