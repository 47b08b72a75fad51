//! Ticket 9: "Intel HEX of the memory". Memory is written as text, and text is read into a row.

use crate::board::Board;
use crate::line::row_length_allowed;
use crate::mistake::Mistake;

/// "records of 16 bytes": a colon, 20 bytes and the checksum as two digits each, a line feed.
const RECORD_BYTES: usize = 16;
const RECORD_TEXT: usize = 1 + 2 * (4 + RECORD_BYTES + 1) + 1;

/// A word's bytes.
const WORD_BYTES: usize = 8;

/// "then the end record"
const END_RECORD: &[u8; 12] = b":00000001FF\n";

/// "upper-case digits"
const DIGITS: &[u8; 16] = b"0123456789ABCDEF";
const LOWER_DIGITS: &[u8; 16] = b"0123456789abcdef";

/// "letters in either case": the value of each byte that is a digit, 16 or more of any other.
const VALUES: [u8; 256] = {
    let mut values = [NO_DIGIT; 256];
    let mut digit = 0;
    while digit < 16 {
        values[DIGITS[digit] as usize] = digit as u8;
        values[LOWER_DIGITS[digit] as usize] = digit as u8;
        digit += 1;
    }
    values
};
const NO_DIGIT: u8 = 16;

/// The types of record that are read.
const DATA: u8 = 0;
const END: u8 = 1;

/// The bytes of the text of so many words.
pub fn text_bytes(words: usize) -> usize {
    words * WORD_BYTES / RECORD_BYTES * RECORD_TEXT + END_RECORD.len()
}

/// Memory as text at the start of a lent text row: 0, or the cause that turns it down and every byte left as it was.
pub fn write(memory: &[u64], text: &mut [u8]) -> u8 {
    write_as(memory, text, None)
}

/// Text read into a lent row: 0, or the cause that turns it down and every word left as it was.
pub fn read(text: &[u8], row: &mut [u64]) -> u8 {
    read_as(text, row, None)
}

impl Board {
    /// This board's memory written as text.
    pub fn write_hex(&self, text: &mut [u8]) -> u8 {
        write_as(&self.memory, text, self.mistake)
    }

    /// Text read into this board's memory.
    pub fn read_hex(&mut self, text: &[u8]) -> u8 {
        read_as(text, &mut self.memory, self.mistake)
    }
}

/// Write, right or with a mistake: "20 for a length that recovery would not take ..., 12 for a text row too short".
#[inline]
pub fn write_as(memory: &[u64], text: &mut [u8], mistake: Option<Mistake>) -> u8 {
    if !row_length_allowed(memory.len()) {
        return 20;
    }
    if text.len() < text_bytes(memory.len()) {
        return 12;
    }
    let (records, rest) = text.split_at_mut(text_bytes(memory.len()) - END_RECORD.len());
    let parts = memory.chunks_exact(RECORD_BYTES / WORD_BYTES);
    for (at, (record, words)) in records.chunks_exact_mut(RECORD_TEXT).zip(parts).enumerate() {
        put_record(record, (at * RECORD_BYTES) as u16, words, mistake);
    }
    rest[..END_RECORD.len()].copy_from_slice(END_RECORD);
    0
}

/// A data record: length, address, type, the words' bytes, and what makes all of them add up to 0 mod 256.
#[inline]
fn put_record(record: &mut [u8], address: u16, words: &[u64], mistake: Option<Mistake>) {
    let [high, low] = address.to_be_bytes();
    let mut bytes = [0; 4 + RECORD_BYTES];
    bytes[..4].copy_from_slice(&[RECORD_BYTES as u8, high, low, DATA]);
    for (part, word) in bytes[4..].chunks_exact_mut(WORD_BYTES).zip(words) {
        part.copy_from_slice(&bytes_of(*word, mistake));
    }
    let digits = if mistake == Some(Mistake::HexLowerCase) { LOWER_DIGITS } else { DIGITS };
    let mut sum = 0u8;
    for (pair, byte) in record[1..].chunks_exact_mut(2).zip(bytes) {
        put_byte(pair, byte, digits);
        sum = sum.wrapping_add(byte);
    }
    record[0] = b':';
    put_byte(&mut record[RECORD_TEXT - 3..], sum.wrapping_neg(), digits);
    record[RECORD_TEXT - 1] = b'\n';
}

/// "words low byte first"
#[inline]
fn bytes_of(word: u64, mistake: Option<Mistake>) -> [u8; WORD_BYTES] {
    match mistake {
        Some(Mistake::HexHighByteFirst) => word.to_be_bytes(),
        _ => word.to_le_bytes(),
    }
}

/// A byte's two digits.
#[inline]
fn put_byte(pair: &mut [u8], byte: u8, digits: &[u8; 16]) {
    pair[0] = digits[usize::from(byte >> 4)];
    pair[1] = digits[usize::from(byte & 15)];
}

/// Read, right or with a mistake: "19 for text that isn't such a file, 20 for a length that recovery would not take or the
/// lent row doesn't have". The text is looked through before a word is stored.
#[inline]
pub fn read_as(text: &[u8], row: &mut [u64], mistake: Option<Mistake>) -> u8 {
    let number = read_cause(text, row.len(), mistake);
    if number == 0 || mistake == Some(Mistake::HexRefusedStores) {
        store(text, row, mistake);
    }
    number
}

/// Causes 19 and 20 of a read.
#[inline]
fn read_cause(text: &[u8], words: usize, mistake: Option<Mistake>) -> u8 {
    let fits = row_length_allowed(words);
    if !fits && mistake == Some(Mistake::Hex20First) {
        return 20;
    }
    match count_data(text, mistake) {
        None => 19,
        Some(bytes) if fits && bytes == words * WORD_BYTES => 0,
        Some(_) => 20,
    }
}

/// How many bytes of data a text has; none where it "isn't such a file".
pub fn data_bytes(text: &[u8]) -> Option<usize> {
    count_data(text, None)
}

/// "types 00, of 1 to 255 bytes, and 01, of none at address 0, ... each address where the last record ended, the first 0,
/// nothing after the end record"
#[inline]
fn count_data(text: &[u8], mistake: Option<Mistake>) -> Option<usize> {
    let (mut bytes, mut rest) = (0, text);
    loop {
        if rest.is_empty() && mistake == Some(Mistake::HexEndNotNeeded) {
            return Some(bytes);
        }
        let (record, after) = first_record(rest, mistake)?;
        let placed = record.address == bytes || mistake == Some(Mistake::HexAddressUntested);
        let last = after.is_empty() || mistake == Some(Mistake::HexAfterEnd);
        match record.kind {
            DATA if !record.data.is_empty() && placed => bytes += record.data.len() / 2,
            END if record.data.is_empty() && record.address == 0 && last => return Some(bytes),
            _ => return None,
        }
        rest = after;
    }
}

/// A record whose checksum is right.
struct Record<'a> {
    address: usize,
    kind: u8,
    /// Two digits for each byte of data.
    data: &'a [u8],
}

/// The record that a text begins with, up to its line feed, and the text after it.
#[inline]
fn first_record(text: &[u8], mistake: Option<Mistake>) -> Option<(Record<'_>, &[u8])> {
    let text = text.strip_prefix(b":")?;
    let length = usize::from(byte_at(text, 0)?);
    let (pairs, rest) = text.split_at_checked(2 * (4 + length + 1))?;
    let (mut sum, mut seen) = (0u8, 0);
    for pair in pairs.chunks_exact(2) {
        let [high, low] = [VALUES[usize::from(pair[0])], VALUES[usize::from(pair[1])]];
        sum = sum.wrapping_add(high << 4 | low);
        seen |= high | low;
    }
    if seen >= NO_DIGIT || (sum != 0 && mistake != Some(Mistake::HexChecksumUntested)) {
        return None;
    }
    let address = u16::from_be_bytes([byte_at(pairs, 1)?, byte_at(pairs, 2)?]);
    let record = Record { address: address.into(), kind: byte_at(pairs, 3)?, data: &pairs[8..8 + 2 * length] };
    Some((record, rest.strip_prefix(b"\n")?))
}

/// The byte of a text's digits 2n and 2n + 1; what are no digits give another.
#[inline]
fn byte_at(text: &[u8], n: usize) -> Option<u8> {
    let pair = text.get(2 * n..2 * n + 2)?;
    Some(VALUES[usize::from(pair[0])] << 4 | VALUES[usize::from(pair[1])])
}

/// The data of all records into the row's words, of a text that was looked through: only its end record has no data.
#[inline]
fn store(text: &[u8], row: &mut [u64], mistake: Option<Mistake>) {
    let (mut at, mut rest) = (0, text);
    while let Some((data, after)) = first_data(rest).filter(|(data, _)| !data.is_empty()) {
        for n in 0..data.len() / 2 {
            let Some((word, byte)) = row.get_mut(at / WORD_BYTES).zip(byte_at(data, n)) else { return };
            let place = match mistake {
                Some(Mistake::HexHighByteFirst) => WORD_BYTES - 1 - at % WORD_BYTES,
                _ => at % WORD_BYTES,
            };
            *word = *word & !(0xFF << (8 * place)) | u64::from(byte) << (8 * place);
            at += 1;
        }
        rest = after;
    }
}

/// The digits of the data of the record that a text begins with, and the text after the record's line feed.
#[inline]
fn first_data(text: &[u8]) -> Option<(&[u8], &[u8])> {
    let length = usize::from(byte_at(text.get(1..)?, 0)?);
    let (record, after) = text.split_at_checked(2 * length + 12)?;
    Some((&record[9..9 + 2 * length], after))
}

/// The causes of the two HEX commands in words: those of write and read, and those of recovery's start.
pub fn words(number: u8) -> &'static str {
    match number {
        5 => "header",
        14 => "a mark greater than the epoch",
        19 => "text that isn't such a file",
        _ => "length",
    }
}
