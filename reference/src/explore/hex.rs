//! Ticket 9 judged from 02's words on random memories and texts. A text is read here line by line and written by the
//! spelling of cases: nothing is shared with the code that is judged.

use super::check::{ensure, Finding};
use super::garbage;
use crate::hex::{read_as, write_as};
use crate::mistake::Mistake;
use crate::random::Random;
use crate::texts::spell::{bytes_of, ours, END};
use crate::texts::spellings::{READ, SPOILED};

/// A memory written and read back; the answer's number.
pub fn writing(random: &Random, mistake: Option<Mistake>) -> Result<u8, String> {
    let memory = some_memory(random);
    let need = 22 * memory.len() + 12;
    let row: Vec<u8> = (0..some_room(random, need)).map(|at| 0x80 | at as u8).collect();
    let mut text = row.clone();
    let number = write_as(&memory, &mut text, mistake);
    let expected = match (length_taken(memory.len()), row.len() >= need) {
        (false, _) => 20,
        (true, false) => 12,
        (true, true) => 0,
    };
    ensure(number == expected, || format!("a write of {} words answered {number}, not {expected}", memory.len()))?;
    let written = if number == 0 { need } else { 0 };
    ensure(text[written..] == row[written..], || format!("a write that answered {number} changed other bytes too"))?;
    if number == 0 {
        ensure(text[..written] == ours(&bytes_of(&memory)), || format!("{memory:?} is written otherwise"))?;
        let mut again = vec![0; memory.len()];
        let back = read_as(&text[..written], &mut again, mistake);
        ensure(back == 0 && again == memory, || format!("{memory:?} reads back by {back} as {again:?}"))?;
    }
    Ok(number)
}

/// A text read into a row, and what was read written again; the answer's number.
pub fn reading(random: &Random, mistake: Option<Mistake>) -> Result<u8, String> {
    let data = bytes_of(&some_memory(random));
    let (_, spelling) = random.pick(random.pick(&[&READ[..], &SPOILED]));
    let text = if data.len() < 128 { ours(&data) } else { spelling(random, &data) };
    let words = random.pick(&[data.len() / 8, data.len() / 8, data.len() / 8, 0, 8, 15, 16, data.len() / 8 + 8]);
    let before: Vec<u64> = (0..words).map(|_| random.word()).collect();
    let mut row = before.clone();
    let number = read_as(&text, &mut row, mistake);
    let shown = || format!("{:?} into {words} words", String::from_utf8_lossy(&text));
    let meant = meaning(&text);
    let expected = match &meant {
        None => 19,
        Some(data) if data.len() != 8 * words || !length_taken(words) => 20,
        Some(_) => 0,
    };
    ensure(number == expected, || format!("{} answered {number}, not {expected}", shown()))?;
    match meant {
        Some(data) if number == 0 => {
            ensure(bytes_of(&row) == data, || format!("{} stored other words", shown()))?;
            one_text(&text, &row, &data, mistake)?;
        }
        _ => ensure(row == before, || format!("{} was refused by {number} and stored something", shown()))?,
    }
    Ok(number)
}

/// "of all texts that read to one memory exactly one, ours, has only records of 16 bytes before the end record and no
/// lower-case letter"
fn one_text(text: &[u8], row: &[u64], data: &[u8], mistake: Option<Mistake>) -> Finding {
    let mut written = vec![0; 22 * row.len() + 12];
    let number = write_as(row, &mut written, mistake);
    ensure(number == 0 && written == ours(data), || format!("{row:?} was read and is written otherwise"))?;
    let records = text.strip_suffix(END).unwrap_or(text);
    let sixteen = records.split_inclusive(|byte| *byte == b'\n').all(|line| line.starts_with(b":10"));
    let alike = sixteen && !text.iter().any(u8::is_ascii_lowercase);
    ensure(alike == (text == written), || "a second text of that form, or ours is not of it".into())
}

/// The data that a text has by 02's words, none where it isn't such a file.
fn meaning(text: &[u8]) -> Option<Vec<u8>> {
    let lines: Vec<&[u8]> = text.strip_suffix(b"\n")?.split(|byte| *byte == b'\n').collect();
    let (last, records) = lines.split_last()?;
    let mut data = Vec::new();
    for line in records {
        let bytes = bytes_in(line)?;
        let [length, high, low, 0, of_record @ .., _] = bytes.as_slice() else { return None };
        let address = 256 * usize::from(*high) + usize::from(*low);
        if of_record.is_empty() || usize::from(*length) != of_record.len() || address != data.len() {
            return None;
        }
        data.extend_from_slice(of_record);
    }
    (bytes_in(last)? == [0, 0, 0, 1, 255]).then_some(data)
}

/// The bytes of a line that begins with a colon and has digits in pairs, if they add up to 0 mod 256.
fn bytes_in(line: &[u8]) -> Option<Vec<u8>> {
    let digits = std::str::from_utf8(line.strip_prefix(b":")?).ok()?;
    if digits.len() % 2 == 1 || !digits.bytes().all(|byte| byte.is_ascii_hexdigit()) {
        return None;
    }
    let pairs = (0..digits.len() / 2).map(|at| u8::from_str_radix(&digits[2 * at..2 * at + 2], 16).ok());
    let bytes: Vec<u8> = pairs.collect::<Option<_>>()?;
    (bytes.iter().map(|byte| u64::from(*byte)).sum::<u64>() % 256 == 0).then_some(bytes)
}

/// "memory ... a multiple of 8 in 16 to 4,096 words"
fn length_taken(words: usize) -> bool {
    words.is_multiple_of(8) && (16..=4096).contains(&words)
}

/// A memory, mostly small, seldom of a length that recovery would not take.
fn some_memory(random: &Random) -> Vec<u64> {
    let seldom = [0, 1, 8, 15, 17, 4096, 4104];
    let words = if random.chance(1, 12) { random.pick(&seldom) } else { random.pick(&[16, 16, 16, 24, 32, 40]) };
    (0..words).map(|_| garbage::word(random)).collect()
}

/// A text row's bytes, mostly those that are needed.
fn some_room(random: &Random, need: usize) -> usize {
    let other = [0, need - 1, need - 1, need - 12, need + 1, need + 100];
    random.pick(&[need, need, random.pick(&other)])
}
