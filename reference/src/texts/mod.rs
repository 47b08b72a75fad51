//! `texts`: random cases for reading a text into a row and for writing memory as text, with their answers. Cases come in
//! turn, so that every kind is there; each second one is a text that reads to its data.

pub mod spell;
pub mod spellings;

use crate::checksum::{of_bytes, of_numbers};
use crate::fault::BYTE_BEFORE;
use crate::hex;
use crate::random::Random;
use spell::{ended, records_from, some_records};
use spellings::{Spelling, READ, SPOILED};

/// What each word of a row is before a text is read.
pub const WORD_BEFORE: u64 = 0xAAAA_AAAA_AAAA_AAAA;

/// One case.
#[derive(Clone, PartialEq, Eq, Debug)]
pub enum Case {
    /// A text read into a row of so many words.
    Read { words: usize, text: Vec<u8> },
    /// A memory of so many words, made from the seed, written into a text row of so many bytes.
    Write { words: usize, bytes: usize, seed: u64 },
}

/// A case's kind in a few words, and how it is made.
type Made = (&'static str, fn(&Random) -> Case);

/// Cases by their lengths, and cases of writing.
const LENGTHS: [Made; 10] = [
    ("a row of another length", |random| {
        let data = some_data(random);
        let other = (data.len() / 8).wrapping_add_signed(random.pick(&[8, -8, 1, -1, 16, -9]));
        let words = random.pick(&[other, other, 0, 16, 4096, 4104]);
        Case::Read { words, text: spelled(random, &data) }
    }),
    ("a row of another length and a spoiled text", |random| {
        let (_, spoil) = random.pick(&SPOILED);
        Case::Read { words: random.pick(&[0, 8, 15, 17, 72, 4104]), text: spoil(random, &some_data(random)) }
    }),
    ("lengths about the least", |random| of_words(random, random.pick(&[8, 16, 24]))),
    ("a length that is no multiple of 8 words", |random| of_words(random, 9 + 8 * random.below(7) + random.below(7))),
    ("bytes that are no words", |random| {
        let mut data = some_data(random);
        let words = data.len() / 8;
        (0..1 + random.below(7)).for_each(|_| data.push(random.word() as u8));
        data.drain(..random.pick(&[0, 8, 64]));
        Case::Read { words: random.pick(&[words, words - 1, words + 1]), text: spelled(random, &data) }
    }),
    ("written", |random| written(random, some_words(random), 0)),
    ("written into a longer row", |random| {
        written(random, some_words(random), random.pick(&[1, 11, 12, 44, 1000]) as isize)
    }),
    ("written into a row too short", |random| {
        let words = some_words(random);
        written(random, words, -random.pick(&[1, 1, 12, 44, hex::text_bytes(words) as isize]))
    }),
    ("written, a length that is not allowed", |random| {
        written(random, random.pick(&[8, 15, 17, 20, 4088 + 4, 4096 + 1, 4104]), random.pick(&[0, 12, 1000]))
    }),
    ("written, length and row not allowed", |random| {
        written(random, random.pick(&[0, 1, 8, 15, 23, 4104]), -random.pick(&[1, 12]))
    }),
];

/// Cases of long texts, which are fewer.
const LARGE: [Made; 10] = [
    ("4,088 words", |random| of_words(random, 4088)),
    ("4,096 words", |random| of_words(random, 4096)),
    ("4,104 words", |random| of_words(random, 4104)),
    ("4,096 words spoiled", |random| {
        let (_, spoil) = random.pick(&SPOILED);
        Case::Read { words: 4096, text: spoil(random, &data(random, 8 * 4096)) }
    }),
    ("4,096 words and a byte", |random| Case::Read {
        words: 4096,
        text: ended(some_records(random, &data(random, 8 * 4096 + 1))),
    }),
    ("65,535 bytes", |random| past_end(random, 65_535, &[])),
    ("65,536 bytes", |random| past_end(random, 65_536, &[])),
    ("a record that runs past 65,536 bytes", |random| {
        past_end(random, 65_536 - 1 - random.below(200) as usize, &[random.pick(&[201, 255])])
    }),
    ("a record after 65,536 bytes", |random| past_end(random, 65_536, &[random.pick(&[1, 8, 16])])),
    ("a record after one that ran past", |random| past_end(random, 65_530, &[random.pick(&[7, 16, 255]), 16])),
];

/// One case in so many is a large one.
const LARGE_EVERY: u64 = 150;

/// A memory's words of those that are mostly made.
fn some_words(random: &Random) -> usize {
    random.pick(&[16, 16, 16, 24, 32, 64])
}

/// So many bytes, many of them 0.
fn data(random: &Random, bytes: usize) -> Vec<u8> {
    let zeros = random.pick(&[0, 3, 7]);
    (0..bytes).map(|_| if random.chance(zeros, 8) { 0 } else { random.word() as u8 }).collect()
}

/// The bytes of a memory of 16 to 64 words.
fn some_data(random: &Random) -> Vec<u8> {
    data(random, 8 * some_words(random))
}

/// Some spelling that reads to this data.
fn spelled(random: &Random, data: &[u8]) -> Vec<u8> {
    random.pick(&READ).1(random, data)
}

/// A text of so many words and a row that has as many.
fn of_words(random: &Random, words: u64) -> Case {
    let data = data(random, 8 * words as usize);
    Case::Read { words: words as usize, text: ended(some_records(random, &data)) }
}

/// A text of so many bytes and of these records behind them, and a row of its length, as far as it has one, or of 16 words.
fn past_end(random: &Random, bytes: usize, more: &[usize]) -> Case {
    let mut lines = records_from(0, &data(random, bytes), || 64 + random.below(192) as usize);
    let mut end = bytes;
    for length in more {
        lines.extend(records_from(end, &data(random, *length), || *length));
        end += length;
    }
    Case::Read { words: random.pick(&[end / 8, 16, 4096]), text: ended(lines) }
}

/// A write into a text row of so many bytes more than it needs, or fewer.
fn written(random: &Random, words: usize, more: isize) -> Case {
    Case::Write { words, bytes: hex::text_bytes(words).saturating_add_signed(more), seed: random.word() }
}

/// A text of this spelling and a row that has its data's length.
fn of_spelling(random: &Random, spelling: Spelling) -> Case {
    let data = some_data(random);
    Case::Read { words: data.len() / 8, text: spelling(random, &data) }
}

/// Case number `at` and its kind.
fn case(random: &Random, at: u64) -> (&'static str, Case) {
    let turn = (at / 2) as usize;
    if at % LARGE_EVERY == LARGE_EVERY - 1 {
        let (kind, make) = LARGE[(at / LARGE_EVERY) as usize % LARGE.len()];
        return (kind, make(random));
    }
    if at.is_multiple_of(2) {
        let (kind, spelling) = READ[turn % READ.len()];
        return (kind, of_spelling(random, spelling));
    }
    match (turn % (SPOILED.len() + LENGTHS.len())).checked_sub(SPOILED.len()) {
        Some(of_length) => (LENGTHS[of_length].0, LENGTHS[of_length].1(random)),
        None => {
            let (kind, spelling) = SPOILED[turn % (SPOILED.len() + LENGTHS.len())];
            (kind, of_spelling(random, spelling))
        }
    }
}

/// So many cases, each with its kind.
pub fn cases(seed: u64, count: u64) -> impl Iterator<Item = (&'static str, Case)> {
    let random = Random::new(seed);
    (0..count).map(move |at| case(&random, at))
}

/// The kinds of case.
pub fn kinds() -> impl Iterator<Item = &'static str> {
    let made = LENGTHS.iter().chain(&LARGE).map(|(kind, _)| *kind);
    READ.iter().chain(&SPOILED).map(|(kind, _)| *kind).chain(made)
}

impl Case {
    /// One line that says what case it is, then the bytes of a text.
    pub fn framed(&self) -> Vec<u8> {
        match self {
            Case::Read { words, text } => {
                let head = format!("r {words} {}\n", text.len());
                [head.as_bytes(), text].concat()
            }
            Case::Write { words, bytes, seed } => format!("w {words} {bytes} {seed}\n").into_bytes(),
        }
    }

    /// The answer's number, and the checksum of the row's words or of the text's bytes afterwards.
    pub fn answer(&self) -> (u8, u64) {
        match self {
            Case::Read { words, text } => {
                let mut row = vec![WORD_BEFORE; *words];
                (hex::read(text, &mut row), of_numbers(row.iter().copied()))
            }
            Case::Write { words, bytes, seed } => {
                let mut text = vec![BYTE_BEFORE; *bytes];
                (hex::write(&memory(*words, *seed), &mut text), of_bytes(&text))
            }
        }
    }
}

/// Word i is seed * 6364136223846793005 + (i + 1) * 1442695040888963407 mod 2^64.
fn memory(words: usize, seed: u64) -> Vec<u64> {
    let first = seed.wrapping_mul(6_364_136_223_846_793_005);
    (1..=words as u64).map(|at| first.wrapping_add(at.wrapping_mul(1_442_695_040_888_963_407))).collect()
}

/// The cases as one input.
pub fn framed(seed: u64, count: u64) -> Vec<u8> {
    cases(seed, count).flat_map(|(_, case)| case.framed()).collect()
}

/// The answer of each case, a line each.
pub fn answers(seed: u64, count: u64) -> String {
    let said = |(number, sum): (u8, u64)| format!("{number} {sum}\n");
    cases(seed, count).map(|(_, case)| said(case.answer())).collect()
}

/// For each kind how many cases it has, how many of them are taken, and its name; then of all.
pub fn counted(seed: u64, count: u64) -> String {
    let mut counts: Vec<(u64, u64, &str)> = kinds().chain(["all"]).map(|kind| (0, 0, kind)).collect();
    for (kind, case) in cases(seed, count) {
        let taken = u64::from(case.answer().0 == 0);
        for counted in counts.iter_mut().filter(|(.., known)| *known == kind || *known == "all") {
            counted.0 += 1;
            counted.1 += taken;
        }
    }
    counts.iter().map(|(count, taken, kind)| format!("{count} {taken} {kind}\n")).collect()
}

#[cfg(test)]
mod tests {
    #[test]
    fn memory_is_as_the_framing_says() {
        assert_eq!(super::memory(2, 0), [1_442_695_040_888_963_407, 2_885_390_081_777_926_814]);
        let first = 6_364_136_223_846_793_005u64.wrapping_add(1_442_695_040_888_963_407);
        assert_eq!(super::memory(1, 1), [first]);
        assert_eq!(super::spell::bytes_of(&[0x0807_0605_0403_0201]), [1, 2, 3, 4, 5, 6, 7, 8]);
    }
}
