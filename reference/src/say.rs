//! Commands as lines of a script, and lines spoiled.

use crate::call::Call;
use crate::damage::Damage;
use crate::drill::Command;
use crate::random::Random;
use crate::text::MOST_BYTES;

/// A line of the drill, or a format's start alone.
pub fn drill_line(command: &Command) -> Vec<u8> {
    match *command {
        Command::Format { lines, workers } => line('F', &[lines, workers]),
        Command::Cut => line('X', &[]),
        Command::Call(call) => call_line(&call),
    }
}

/// A call's line.
pub fn call_line(call: &Call) -> Vec<u8> {
    match *call {
        Call::Format { lines, workers } => line('f', &[lines, workers]),
        Call::Recovery => line('R', &[]),
        Call::Step => line('S', &[]),
        Call::Update { worker, cell, value } => line('U', &[worker, cell, value]),
        Call::RestartPoint { worker, value } => line('P', &[worker, value]),
        Call::Advance { worker } => line('A', &[worker]),
        Call::Request => line('C', &[]),
        Call::WriteBack { line: at } => line('E', &[at]),
        Call::Read { cell } => line('G', &[cell]),
        Call::Page { room } => line('p', &[room]),
        Call::GoAway { worker } => line('a', &[worker]),
        Call::ComeBack { worker } => line('b', &[worker]),
        Call::Count => line('n', &[]),
        Call::Take { worker, lock } => line('H', &[worker, lock]),
        Call::GiveBack { worker, lock } => line('V', &[worker, lock]),
    }
}

/// A damage's line.
pub fn damage_line(damage: &Damage) -> Vec<u8> {
    match *damage {
        Damage::Lengths { memory, cache } => line('W', &[memory, cache]),
        Damage::Memory { at, word } => line('M', &[at, word]),
        Damage::Cache { at, word } => line('N', &[at, word]),
        Damage::Bits { at, word } => line('Q', &[at, word]),
        Damage::Field { k, number } => line('B', &[k, number]),
        Damage::Worker { worker, numbers: [c, n, a, v] } => line('K', &[worker, c, n, a, v]),
        Damage::Holder { lock, holder } => line('O', &[lock, holder]),
        Damage::Text { at, byte } => line('Y', &[at, byte]),
    }
}

/// A letter and its numbers, parted by tabs.
pub fn line(letter: char, numbers: &[u64]) -> Vec<u8> {
    let numbers = numbers.iter().map(|number| format!("\t{number}"));
    format!("{letter}{}", numbers.collect::<String>()).into_bytes()
}

/// A line damaged, sometimes only to the edge of what is read.
pub fn spoil(random: &Random, mut line: Vec<u8>) -> Vec<u8> {
    let tab = line.iter().rposition(|byte| *byte == b'\t');
    match (random.below(14), tab) {
        (0, _) => line.clear(),
        (1, _) => line.push(b'\r'),
        (2, _) => line.push(b'\t'),
        (3, _) => line.extend_from_slice(b"\t1"),
        (4, _) => line[0] = line[0].to_ascii_lowercase(),
        (5, _) => line.insert(0, b' '),
        (6, _) => line = (0..random.below(90)).map(|_| random.word() as u8).filter(|byte| *byte != b'\n').collect(),
        (7, Some(tab)) => line[tab] = b' ',
        (8, Some(tab)) => line.insert(tab + 1, random.pick(b"+-\t ")),
        (9, Some(tab)) => line.truncate(tab),
        (10, Some(tab)) => {
            line.truncate(tab + 1);
            let numbers = ["18446744073709551616", "18446744073709551615", "99999999999999999999", "1e3"];
            line.extend_from_slice(random.pick(&numbers).as_bytes());
        }
        (_, Some(tab)) => {
            let length = MOST_BYTES as u64 - 1 + random.below(3);
            while (line.len() as u64) < length {
                line.insert(tab + 1, b'0');
            }
        }
        _ => line.push(b'x'),
    }
    line
}
