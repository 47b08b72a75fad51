//! What is said at the end of the input of lines that are no calls: how many there are, which is the first, and why.

use crate::program::Program;
use crate::text::MOST_BYTES;

/// What some editors put before the first line, in UTF-8 and in UTF-16 of either order.
const BYTE_ORDER_MARKS: [&[u8]; 3] = [b"\xEF\xBB\xBF", b"\xFE\xFF", b"\xFF\xFE"];

/// The lines of a script that are no calls.
#[derive(Clone, Copy, PartialEq, Eq, Debug, Default)]
pub struct Misread {
    count: u64,
    /// The first one's number, and why it is no call.
    first: (u64, &'static str),
}

impl Misread {
    /// One more, of this number. Why it is no call is asked of the first alone.
    #[inline]
    pub fn add<P: Program>(&mut self, at: u64, line: &[u8]) {
        if self.count == 0 {
            self.first = (at, reason::<P>(line));
        }
        self.count += 1;
    }

    /// What the program of this name says of them; nothing where there are none.
    pub fn note(&self, name: &str) -> Option<String> {
        let (at, reason) = self.first;
        match self.count {
            0 => None,
            1 => Some(format!("{name}: note: line {at} is no call: {reason}")),
            count => Some(format!("{name}: note: {count} lines are no calls, the first is line {at}: {reason}")),
        }
    }
}

/// Why a line that is answered `?` is no call: the first reason that fits.
#[cold]
fn reason<P: Program>(line: &[u8]) -> &'static str {
    if line.len() > MOST_BYTES {
        "over 79 bytes"
    } else if BYTE_ORDER_MARKS.iter().any(|mark| line.starts_with(mark)) {
        "it begins with a byte-order mark"
    } else if line.contains(&b'\r') {
        "a carriage return"
    } else if line.contains(&b' ') {
        "blanks where tabs belong"
    } else if line.is_empty() {
        "an empty line"
    } else {
        reason_of_fields::<P>(line)
    }
}

/// The same of a line that has no such bytes: its letter, its fields from the left, how many they are, where they go.
fn reason_of_fields<P: Program>(line: &[u8]) -> &'static str {
    let mut fields = line.split(|byte| *byte == b'\t');
    let letter = fields.next().unwrap_or_default();
    let Some((_, count)) = P::forms().find(|(known, _)| letter == [*known]) else { return "unknown letter" };
    match fields.clone().find_map(reason_of_field) {
        Some(reason) => reason,
        None if fields.count() != count => "too few or too many numbers",
        None => "a number that cannot be put there",
    }
}

/// Why a field is no number, if it is none.
fn reason_of_field(field: &[u8]) -> Option<&'static str> {
    let digits = !field.is_empty() && field.iter().all(u8::is_ascii_digit);
    let text = std::str::from_utf8(field).ok().filter(|_| digits);
    match text.map(str::parse::<u64>) {
        None => Some("a field that is no number"),
        Some(Err(_)) => Some("a number past 2^64 - 1"),
        Some(Ok(_)) => None,
    }
}
