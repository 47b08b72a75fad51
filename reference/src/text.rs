//! The lines of a script: reading one, and its letter and numbers.

use std::io::{BufRead, ErrorKind, Result as Done};

/// "over 79 bytes"
pub const MOST_BYTES: usize = 79;

/// The most numbers that a line of any program has.
pub const MOST_NUMBERS: usize = 5;

/// Why a line prints `?`: it is "of another form", or it has "a number that cannot be put where it is to go".
#[derive(Clone, Copy, PartialEq, Eq, Debug)]
pub enum Unread {
    Empty,
    Long,
    Letter,
    Missing,
    Extra,
    NoNumber,
    PastWord,
    NoSuchPlace,
    TooLarge,
    PastRow,
    NoRoom,
    Unused,
}

/// Every kind of `?` in a few words.
pub const UNREAD: [(Unread, &str); 12] = [
    (Unread::Empty, "empty line"),
    (Unread::Long, "over 79 bytes"),
    (Unread::Letter, "unknown letter"),
    (Unread::Missing, "a field missing"),
    (Unread::Extra, "a field too many"),
    (Unread::NoNumber, "a field that is no decimal number"),
    (Unread::PastWord, "a number past 2^64 - 1"),
    (Unread::NoSuchPlace, "no such field, worker, condition or lock"),
    (Unread::TooLarge, "a number too large for its field"),
    (Unread::PastRow, "an index past the row"),
    (Unread::NoRoom, "a length over the room"),
    (Unread::Unused, "a number that the condition has no use for"),
];

/// A line's letter and its numbers, 0 where there is none.
#[derive(Clone, Copy, PartialEq, Eq, Debug)]
pub struct Fields {
    pub letter: u8,
    pub count: usize,
    pub numbers: [u64; MOST_NUMBERS],
}

/// "fields parted by tabs, numbers decimal"
#[inline(always)]
pub fn fields(line: &[u8]) -> Result<Fields, Unread> {
    if line.len() > MOST_BYTES {
        return Err(Unread::Long);
    }
    let mut parts = line.split(|byte| *byte == b'\t');
    let letter = match parts.next() {
        Some([letter]) => *letter,
        _ if line.is_empty() => return Err(Unread::Empty),
        _ => return Err(Unread::Letter),
    };
    let mut fields = Fields { letter, count: 0, numbers: [0; MOST_NUMBERS] };
    for part in parts {
        *fields.numbers.get_mut(fields.count).ok_or(Unread::Extra)? = number(part)?;
        fields.count += 1;
    }
    Ok(fields)
}

/// "numbers decimal", not "past 2^64 − 1"
#[inline]
fn number(field: &[u8]) -> Result<u64, Unread> {
    if field.is_empty() {
        return Err(Unread::NoNumber);
    }
    let mut number = 0u64;
    for byte in field {
        let digit = byte.checked_sub(b'0').filter(|digit| *digit < 10).ok_or(Unread::NoNumber)?;
        let next = number.checked_mul(10).and_then(|tens| tens.checked_add(digit as u64));
        number = next.ok_or(Unread::PastWord)?;
    }
    Ok(number)
}

impl Fields {
    /// Why fields are no line of a program whose letters have so many numbers each.
    #[cold]
    pub fn other_form(&self, forms: &[(u8, usize)]) -> Unread {
        match forms.iter().find(|(letter, _)| *letter == self.letter) {
            None => Unread::Letter,
            Some((_, count)) if self.count < *count => Unread::Missing,
            Some(_) => Unread::Extra,
        }
    }
}

/// The next line without its line feed, of a line too long only so much as shows that; false at the end.
#[inline(always)]
pub fn next_line(input: &mut impl BufRead, line: &mut Vec<u8>) -> Done<bool> {
    line.clear();
    let mut any = false;
    loop {
        let bytes = match input.fill_buf() {
            Err(error) if error.kind() == ErrorKind::Interrupted => continue,
            bytes => bytes?,
        };
        if bytes.is_empty() {
            return Ok(any);
        }
        any = true;
        let end = bytes.iter().position(|byte| *byte == b'\n');
        let part = &bytes[..end.unwrap_or(bytes.len())];
        let room = (MOST_BYTES + 1).saturating_sub(line.len());
        line.extend_from_slice(&part[..part.len().min(room)]);
        let used = part.len() + end.is_some() as usize;
        input.consume(used);
        if end.is_some() {
            return Ok(true);
        }
    }
}
