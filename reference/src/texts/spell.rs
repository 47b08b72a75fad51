//! HEX texts spelled record by record from 02's words, apart from the code that writes and reads them.

use crate::random::Random;

/// The end record.
pub const END: &[u8] = b":00000001FF\n";

/// A line of these bytes and of what makes them add up to 0 mod 256.
pub fn line(bytes: &[u8]) -> Vec<u8> {
    let sum = bytes.iter().fold(0u8, |sum, byte| sum.wrapping_sub(*byte));
    let digits: String = bytes.iter().chain([&sum]).map(|byte| format!("{byte:02X}")).collect();
    format!(":{digits}\n").into_bytes()
}

/// A record's line; of an address past 65,535 only the low 16 bits are in it.
pub fn record(address: usize, kind: u8, data: &[u8]) -> Vec<u8> {
    let head = [data.len() as u8, (address >> 8) as u8, address as u8, kind];
    line(&[&head, data].concat())
}

/// Data records from this address on, each of the length asked for it or of what is left.
pub fn records_from(address: usize, data: &[u8], length: impl Fn() -> usize) -> Vec<Vec<u8>> {
    let (mut lines, mut rest) = (Vec::new(), data);
    while !rest.is_empty() {
        let (now, later) = rest.split_at(length().clamp(1, 255).min(rest.len()));
        lines.push(record(address + data.len() - rest.len(), 0, now));
        rest = later;
    }
    lines
}

/// Data records of 16 bytes, or one time in two of any lengths.
pub fn some_records(random: &Random, data: &[u8]) -> Vec<Vec<u8>> {
    let most = random.pick(&[4, 20, 40, 255]);
    match random.below(2) {
        0 => records_from(0, data, || 16),
        _ => records_from(0, data, || 1 + random.below(most) as usize),
    }
}

/// These lines and the end record.
pub fn ended(lines: Vec<Vec<u8>>) -> Vec<u8> {
    [lines.concat(), END.to_vec()].concat()
}

/// The one text of this data that has "only records of 16 bytes before the end record and no lower-case letter".
pub fn ours(data: &[u8]) -> Vec<u8> {
    ended(records_from(0, data, || 16))
}

/// "words low byte first"
pub fn bytes_of(words: &[u64]) -> Vec<u8> {
    let byte = |at: usize| (words[at / 8] >> (8 * (at % 8))) as u8;
    (0..8 * words.len()).map(byte).collect()
}
