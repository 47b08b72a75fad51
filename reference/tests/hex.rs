//! Ticket 9: memory written as Intel HEX, and text read into a row, by 02's words and its readings.
#![deny(warnings)]

use reference::hex::{data_bytes, read, text_bytes, write};
use reference::texts::spell::{ended, line, ours, record, records_from, END};

/// A memory of 16 words that are all different in all bytes.
fn memory() -> Vec<u64> {
    (0..16u64).map(|at| 0x0807_0605_0403_0201 + at * 0x1010_1010_1010_1010).collect()
}

/// Memory's bytes, low byte first.
fn bytes(memory: &[u64]) -> Vec<u8> {
    memory.iter().flat_map(|word| word.to_le_bytes()).collect()
}

/// Memory's text.
fn written(memory: &[u64]) -> Vec<u8> {
    let mut text = vec![0; text_bytes(memory.len())];
    assert_eq!(write(memory, &mut text), 0);
    text
}

/// What a text into 16 words answers; taken or not, the row is what it is to be.
fn answer(text: &[u8]) -> u8 {
    let before = vec![7; 16];
    let mut row = before.clone();
    let number = read(text, &mut row);
    if number == 0 {
        assert_eq!(row, memory());
    } else {
        assert_eq!(row, before);
    }
    number
}

#[test]
fn the_text_of_a_small_memory() {
    let mut words = [0; 16];
    words[..3].copy_from_slice(&[1, 1, 1]);
    words[15] = 0xFEDC_BA98_7654_3210;
    let expected = "\
:1000000001000000000000000100000000000000EE
:1000100001000000000000000000000000000000DF
:1000200000000000000000000000000000000000D0
:1000300000000000000000000000000000000000C0
:1000400000000000000000000000000000000000B0
:1000500000000000000000000000000000000000A0
:100060000000000000000000000000000000000090
:1000700000000000000000001032547698BADCFE48
:00000001FF
";
    assert_eq!(String::from_utf8(written(&words)).unwrap(), expected);
    assert_eq!(text_bytes(16), 364);
    assert_eq!(text_bytes(4096), 90_124);
}

#[test]
fn what_was_written_reads_back() {
    for words in [16, 24, 512, 4088, 4096] {
        let memory: Vec<u64> = (1..=words).map(|at| at * 0x9E37_79B9_7F4A_7C15).collect();
        let text = written(&memory);
        assert_eq!(text, ours(&bytes(&memory)));
        let mut row = vec![7; memory.len()];
        assert_eq!(read(&text, &mut row), 0);
        assert_eq!(row, memory);
    }
}

#[test]
fn write_is_refused_by_20_and_then_by_12_and_leaves_the_rest() {
    for words in [0, 1, 8, 15, 17, 20, 4095, 4097, 4104] {
        for room in [0, text_bytes(words).saturating_sub(1), text_bytes(words), 100_000] {
            let mut text = vec![0xAA; room];
            assert_eq!(write(&vec![5; words], &mut text), 20, "{words} words, {room} bytes");
            assert!(text.iter().all(|byte| *byte == 0xAA));
        }
    }
    for room in [0, 12, 363] {
        let mut text = vec![0xAA; room];
        assert_eq!(write(&memory(), &mut text), 12);
        assert!(text.iter().all(|byte| *byte == 0xAA));
    }
    let mut text = vec![0xAA; 400];
    assert_eq!(write(&memory(), &mut text), 0);
    assert_eq!(text[..364], ours(&bytes(&memory())));
    assert!(text[364..].iter().all(|byte| *byte == 0xAA));
}

#[test]
fn other_spellings_of_one_memory() {
    let data = bytes(&memory());
    for length in (1..=17).chain([31, 32, 64, 127, 128]) {
        let text = ended(records_from(0, &data, || length));
        assert_eq!(answer(&text), 0, "records of {length}");
        assert_eq!(answer(&text.to_ascii_lowercase()), 0, "records of {length} in lower case");
        assert_eq!(text == ours(&data), length == 16);
    }
    assert_eq!(answer(&ended(vec![record(0, 0, &data[..1]), record(1, 0, &data[1..])])), 0);
    let long: Vec<u64> = (0..64).collect();
    let text = ended(records_from(0, &bytes(&long), || 255));
    let mut row = vec![9; 64];
    assert_eq!((read(&text, &mut row), row), (0, long));
}

#[test]
fn text_that_is_no_such_file() {
    let (data, text) = (bytes(&memory()), ours(&bytes(&memory())));
    let all = |change: &dyn Fn(&mut Vec<u8>)| {
        let mut other = text.clone();
        change(&mut other);
        answer(&other)
    };
    assert_eq!(answer(&text), 0);
    assert_eq!(answer(b""), 19);
    for at in 0..text.len() {
        assert_eq!(answer(&text[..at]), 19, "the first {at} bytes");
        for byte in [b' ', b'\r', b'\n', b'/', b':', b'@', b'G', b'`', b'g', 0, 0x80, 0xFF] {
            let same = text[at] == byte;
            assert_eq!(all(&|other| other[at] = byte), if same { 0 } else { 19 }, "byte {at} is {byte}");
        }
        assert_eq!(all(&|other| other.insert(at, b' ')), 19, "a blank at {at}");
        assert_eq!(all(&|other| other.insert(at, b'0')), 19, "a digit at {at}");
    }
    for after in [&b"\n"[..], b" ", b"\0", b":", END, b"\r\n"] {
        assert_eq!(answer(&[&text, after].concat()), 19, "{after:?} after the end");
    }
    let records = records_from(0, &data, || 16);
    for at in 0..=records.len() {
        for line in [&b"\n"[..], END, &record(16 * at, 0, &[]), &record(0, 2, &[0; 2]), &record(0, 3, &[0; 4])] {
            let mut lines = records.clone();
            lines.insert(at, line.to_vec());
            assert_eq!(answer(&ended(lines)), 19, "{line:?} at {at}");
        }
    }
    assert_eq!(answer(&records.concat()), 19, "no end record");
    for end in [record(0, 1, &[0]), record(1, 1, &[]), record(256, 1, &[]), record(128, 1, &[])] {
        assert_eq!(answer(&[records.concat(), end].concat()), 19);
    }
}

#[test]
fn each_digit_counts() {
    let text = ours(&bytes(&memory()));
    for at in (0..text.len()).filter(|at| text[*at].is_ascii_hexdigit()) {
        let others = b"0123456789ABCDEF".iter().filter(|byte| **byte != text[at]);
        for byte in others {
            let mut other = text.clone();
            other[at] = *byte;
            assert_eq!(answer(&other), 19, "digit {at} is {byte}");
        }
        let mut lower = text.clone();
        lower[at] = lower[at].to_ascii_lowercase();
        assert_eq!(answer(&lower), 0, "digit {at} in lower case");
    }
}

#[test]
fn types_and_addresses_with_right_checksums() {
    let data = bytes(&memory());
    for kind in 1..=255 {
        let mut lines = records_from(0, &data, || 16);
        lines[3] = record(48, kind, &data[48..64]);
        assert_eq!(answer(&ended(lines)), 19, "type {kind}");
    }
    for address in (0..=65_535usize).filter(|address| *address != 48) {
        let mut lines = records_from(0, &data, || 16);
        lines[3] = record(address, 0, &data[48..64]);
        assert_eq!(answer(&ended(lines)), 19, "address {address}");
    }
    for length in (0..=255).filter(|length| *length != 16) {
        let mut lines = records_from(0, &data, || 16);
        let head = [length, 0, 48, 0];
        lines[3] = line(&[&head, &data[48..64]].concat());
        assert_eq!(answer(&ended(lines)), 19, "length {length}");
    }
}

#[test]
fn lengths_are_20_after_19() {
    assert_eq!(answer(END), 20);
    for words in [0, 1, 8, 15, 17, 20, 23, 24, 4104] {
        let text = ours(&vec![3; 8 * words]);
        let mut row = vec![7; words];
        let expected = if words == 24 { 0 } else { 20 };
        assert_eq!(read(&text, &mut row), expected, "{words} words");
        assert_eq!(answer(&text), 20, "{words} words into 16");
        let mut spoiled = text.clone();
        spoiled.pop();
        assert_eq!(read(&spoiled, &mut row), 19, "{words} words, spoiled");
    }
    for bytes in 121..128 {
        assert_eq!(answer(&ours(&vec![3; bytes])), 20, "{bytes} bytes");
    }
}

#[test]
fn an_address_never_wraps() {
    let data = vec![5; 65_536];
    let records = records_from(0, &data, || 255).concat();
    let number = |after: Vec<u8>| {
        let text = [&records[..], &after, END].concat();
        assert_eq!(data_bytes(&text).is_some(), read(&text, &mut vec![0; 8192]) == 20);
        answer(&text)
    };
    assert_eq!(number(Vec::new()), 20);
    assert_eq!(number(record(0, 0, &[1])), 19);
    assert_eq!(number(record(65_535, 0, &[1])), 19);
    let text = |lines: Vec<Vec<u8>>| [records_from(0, &data[..65_535], || 255).concat(), ended(lines)].concat();
    assert_eq!(answer(&text(Vec::new())), 20);
    assert_eq!(answer(&text(vec![record(65_535, 0, &[1; 255])])), 20);
    assert_eq!(answer(&text(vec![record(65_535, 0, &[1; 255]), record(254, 0, &[1])])), 19);
}
