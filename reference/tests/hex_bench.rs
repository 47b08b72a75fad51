//! The workloads of HEX texts: their checksums, told a second time.
#![deny(warnings)]

use reference::bench::{run, Workload};
use reference::texts::spell::{bytes_of, ours};

/// The next number of a xorshift sequence.
fn next(mut x: u64) -> u64 {
    x ^= x << 13;
    x ^= x >> 7;
    x ^ (x << 17)
}

/// The words that the host puts into memory at first.
fn memory(lines: u64, seed: u64) -> Vec<u64> {
    std::iter::successors(Some(next(seed)), |random| Some(next(*random))).take(8 * (lines as usize + 1)).collect()
}

/// The numbers summed, each with all before it.
fn summed(numbers: impl Iterator<Item = u64>) -> u64 {
    numbers.fold(0, |sum: u64, number| sum.wrapping_mul(31).wrapping_add(number))
}

/// The text of memory as it is at the last write: after all random words but the last.
fn of_writes(lines: u64, rounds: u64, seed: u64) -> u64 {
    let mut memory = memory(lines, seed);
    let mut random = next(seed);
    for _ in 1..rounds {
        let at = random % memory.len() as u64;
        memory[at as usize] = random;
        random = next(random);
    }
    let text = if rounds == 0 { vec![0; 22 * memory.len() + 12] } else { ours(&bytes_of(&memory)) };
    summed(text.into_iter().map(u64::from))
}

#[test]
fn the_checksums_are_those_of_the_last_text_and_of_memory() {
    for (lines, workers, n) in [(1, 1, 1), (2, 3, 3), (63, 4, 100), (511, 8, 8)] {
        for (rounds, seed) in [(0, 5), (1, 5), (2, 99), (7, u64::MAX)] {
            let told = |name: &str| run(Workload::named(name).unwrap(), lines, workers, n, rounds, seed);
            assert_eq!(told("hex-write"), Some(of_writes(lines, rounds, seed)), "write {lines} {rounds}");
            let read = summed(memory(lines, seed).into_iter());
            assert_eq!(told("hex-read"), Some(read), "read {lines} {rounds}");
        }
    }
}
