//! Ways to spell the same data, and ways to spoil a text.

use super::spell::{ended, line, ours, record, records_from, some_records, END};
use crate::random::Random;

/// A text made of some data.
pub type Spelling = fn(&Random, &[u8]) -> Vec<u8>;

/// Texts that read to their data.
pub const READ: [(&str, Spelling); 6] = [
    ("ours", |_, data| ours(data)),
    ("lower case", |_, data| ours(data).to_ascii_lowercase()),
    ("mixed case", |random, data| {
        let text = ended(some_records(random, data));
        text.iter().map(|byte| if random.chance(1, 2) { byte.to_ascii_lowercase() } else { *byte }).collect()
    }),
    ("records of any lengths", |random, data| ended(records_from(0, data, || 1 + random.below(255) as usize))),
    ("records of one byte", |_, data| ended(records_from(0, data, || 1))),
    ("records of 255 bytes", |_, data| ended(records_from(0, data, || 255))),
];

/// Texts that are spoiled; of a few of them the data is only other data.
pub const SPOILED: [(&str, Spelling); 29] = [
    ("a bit flipped", |random, data| changed(random, data, |byte| byte ^ 1 << random.below(8))),
    ("a digit changed", |random, data| {
        digit_changed(random, data, |old| random.pick(&without(b"0123456789ABCDEF", old)))
    }),
    ("no digit", |random, data| {
        digit_changed(random, data, |old| random.pick(&[b'/', b':', b'@', b'G', b'`', b'g', 0x80, 0xff, old | 0x80]))
    }),
    ("cut short", cut_short),
    ("no line feed at the end", |random, data| {
        let mut text = ended(some_records(random, data));
        text.pop();
        text
    }),
    ("a record doubled", |random, data| {
        with_lines(random, data, |lines, at| lines.insert(random.pick(&[at, at + 1]), lines[at].clone()))
    }),
    ("a record dropped", |random, data| {
        with_lines(random, data, |lines, at| {
            lines.remove(at);
        })
    }),
    ("records swapped", |random, data| {
        let mut lines = records_from(0, data, || 16);
        let (one, step) = (random.below(lines.len() as u64), 1 + random.below(lines.len() as u64 - 1));
        let other = (one + random.pick(&[1, step])) % lines.len() as u64;
        lines.swap(one as usize, other as usize);
        ended(lines)
    }),
    ("a data record of no bytes", |random, data| inserted(random, data, |address| record(address, 0, &[]))),
    ("types 02 to 05", |random, data| {
        let kind = 2 + random.below(4) as u8;
        let whole = if kind.is_multiple_of(2) { &[0; 2][..] } else { &[0; 4] };
        let first = record(0, kind, whole);
        inserted(random, data, |address| random.pick(&[&first, &record(address, kind, whole)]).clone())
    }),
    ("another type", |random, data| {
        rebuilt(random, data, |bytes| bytes[3] = random.pick(&[1, 2, 3, 4, 5, 6, 16, 255]))
    }),
    ("carriage returns", carriage_returns),
    ("a blank", |random, data| {
        let mut text = ended(some_records(random, data));
        let line_end = text.iter().position(|byte| *byte == b'\n').unwrap_or(0);
        let at = random.pick(&[0, 1, line_end, line_end + 1, text.len() - 1, random.below(text.len() as u64) as usize]);
        text.insert(at, random.pick(b" \t\0\x0b"));
        text
    }),
    ("an empty line", |random, data| inserted(random, data, |_| b"\n".to_vec())),
    ("bytes after the end record", |random, data| {
        let after =
            [&b"\n"[..], b" ", b"\0", b":", b"\r\n", b"\x1a", b"anything", &record(data.len(), 0, &[1])].concat();
        let from = random.below(after.len() as u64) as usize;
        [ended(some_records(random, data)), after[from..].to_vec()].concat()
    }),
    ("an empty text", |_, _| Vec::new()),
    ("the end record alone", |_, _| END.to_vec()),
    ("no end record", |random, data| some_records(random, data).concat()),
    ("two end records", |random, data| [ended(some_records(random, data)), END.to_vec()].concat()),
    ("an end record with data", |random, data| {
        let more = &data[..1 + random.below(3) as usize];
        [some_records(random, data).concat(), record(0, 1, more)].concat()
    }),
    ("an end record at another address", |random, data| {
        let address = random.pick(&[1, 16, 255, 256, data.len(), 65_535]);
        [some_records(random, data).concat(), record(address, 1, &[])].concat()
    }),
    ("an end record among the others", |random, data| inserted(random, data, |_| END.to_vec())),
    ("a checksum off by one", |random, data| {
        let mut lines = some_records(random, data);
        lines.push(END.to_vec());
        let at = random.pick(&[random.below(lines.len() as u64) as usize, lines.len() - 1]);
        let sum = byte_of(&lines[at], lines[at].len() - 3).wrapping_add(random.pick(&[1, 255, 16, 240, 128]));
        let end = lines[at].len() - 3;
        lines[at].truncate(end);
        lines[at].extend_from_slice(format!("{sum:02X}\n").as_bytes());
        lines.concat()
    }),
    ("an address off by one", |random, data| {
        let off = random.pick(&[1, 255, 16, 240, 128]);
        rebuilt(random, data, |bytes| bytes[2] = bytes[2].wrapping_add(off))
    }),
    ("an address with another high byte", |random, data| {
        rebuilt(random, data, |bytes| bytes[1] ^= 1 << random.below(8))
    }),
    ("the first address not 0", |random, data| {
        let first = random.pick(&[1, 8, 16, 256, 4096, 65_536 - data.len()]);
        ended(records_from(first, data, || 16))
    }),
    ("a length off by one", |random, data| {
        let off = random.pick(&[1, 255, 2, 254, 16, 128]);
        rebuilt(random, data, |bytes| bytes[0] = bytes[0].wrapping_add(off))
    }),
    ("no colon, or a byte too few or too many", |random, data| {
        let mut text = ended(some_records(random, data));
        let colons: Vec<usize> = (0..text.len()).filter(|at| text[*at] == b':').collect();
        let (colon, any) = (random.pick(&colons), random.below(text.len() as u64) as usize);
        match random.below(4) {
            0 => text[colon] = random.pick(b";90\n"),
            1 => drop(text.remove(colon)),
            2 => drop(text.remove(any)),
            _ => text.insert(any, text[any]),
        }
        text
    }),
    ("any bytes", |random, data| {
        let any = || random.pick(&[random.word() as u8, random.pick(b":0123456789ABCDEFabcdef\n")]);
        (0..random.below(data.len() as u64)).map(|_| any()).collect()
    }),
];

/// A text with one byte made another.
fn changed(random: &Random, data: &[u8], other: impl Fn(u8) -> u8) -> Vec<u8> {
    let mut text = ended(some_records(random, data));
    let at = random.below(text.len() as u64) as usize;
    text[at] = other(text[at]);
    text
}

/// A text with one digit made another byte.
fn digit_changed(random: &Random, data: &[u8], other: impl Fn(u8) -> u8) -> Vec<u8> {
    let mut text = ended(some_records(random, data));
    let digits: Vec<usize> = (0..text.len()).filter(|at| text[*at].is_ascii_hexdigit()).collect();
    let at = random.pick(&digits);
    text[at] = other(text[at]);
    text
}

/// These bytes but one.
fn without(bytes: &[u8], one: u8) -> Vec<u8> {
    bytes.iter().copied().filter(|byte| *byte != one).collect()
}

/// The byte of the two digits at this place of a line.
fn byte_of(line: &[u8], at: usize) -> u8 {
    let digits = std::str::from_utf8(&line[at..at + 2]).unwrap_or("");
    u8::from_str_radix(digits, 16).unwrap_or(0)
}

/// The data records changed as lines, one of them picked.
fn with_lines(random: &Random, data: &[u8], change: impl Fn(&mut Vec<Vec<u8>>, usize)) -> Vec<u8> {
    let mut lines = some_records(random, data);
    let at = random.below(lines.len() as u64) as usize;
    change(&mut lines, at);
    ended(lines)
}

/// A line put before some record or the end record, made from the address there.
fn inserted(random: &Random, data: &[u8], line: impl Fn(usize) -> Vec<u8>) -> Vec<u8> {
    let mut lines = some_records(random, data);
    let at = random.pick(&[0, lines.len() as u64, random.below(lines.len() as u64 + 1)]) as usize;
    let address = lines[..at].iter().map(|line| usize::from(byte_of(line, 1))).sum();
    lines.insert(at, line(address));
    ended(lines)
}

/// A data record with its bytes changed and its checksum right again.
fn rebuilt(random: &Random, data: &[u8], change: impl Fn(&mut Vec<u8>)) -> Vec<u8> {
    with_lines(random, data, |lines, at| {
        let count = lines[at].len() / 2 - 2;
        let mut bytes: Vec<u8> = (0..count).map(|byte| byte_of(&lines[at], 1 + 2 * byte)).collect();
        change(&mut bytes);
        lines[at] = line(&bytes);
    })
}

/// A text that ends anywhere, often at the end of a line or just about the end record.
fn cut_short(random: &Random, data: &[u8]) -> Vec<u8> {
    let mut text = ended(some_records(random, data));
    let ends: Vec<usize> = (0..text.len() - 1).filter(|at| text[*at] == b'\n').collect();
    let end = random.pick(&ends);
    let any = random.below(text.len() as u64) as usize;
    let length = random.pick(&[any, any, end, end + 1, text.len() - 12, text.len() - 2, text.len() - 3]);
    text.truncate(length);
    text
}

/// Carriage returns before all line feeds, before one, or in place of them.
fn carriage_returns(random: &Random, data: &[u8]) -> Vec<u8> {
    let text = ended(some_records(random, data));
    let feeds = text.iter().filter(|byte| **byte == b'\n').count() as u64;
    let (one, kind) = (random.pick(&[0, feeds - 1, random.below(feeds)]), random.below(3));
    let mut seen = 0;
    let mut returned = Vec::new();
    for byte in text {
        if byte == b'\n' && (kind != 0 || seen == one) {
            returned.push(b'\r');
        }
        if byte != b'\n' || kind != 2 {
            returned.push(byte);
        }
        seen += u64::from(byte == b'\n');
    }
    returned
}
