//! The workloads of pages: their checksums, told a second time.
#![deny(warnings)]

use reference::bench::{run, Workload};
use reference::board::Board;
use reference::drill::Drill;
use reference::program::answer;

/// The next number of a xorshift sequence.
fn next(mut x: u64) -> u64 {
    x ^= x << 13;
    x ^= x >> 7;
    x ^ (x << 17)
}

/// A cell's mark, from its number and its random number.
type Mark = fn(u64, u64) -> u64;

/// The checksum of a workload with these marks, where `mixed` with backups that half of the records are equal to.
fn told(mark: Mark, mixed: bool, [lines, workers, rounds, seed]: [u64; 4]) -> u64 {
    let mut board = Board::empty(None);
    answer::<Drill>(&mut board, format!("F\t{lines}\t{workers}").as_bytes()).unwrap();
    let cells = 2 * lines;
    let at = |cell: u64| (8 * (1 + cell / 2) + 3 * (cell % 2)) as usize;
    let mut random = seed;
    for cell in 0..cells {
        random = next(random);
        let backup = if mixed && random & 1 == 0 { random } else { random >> 32 };
        board.cache[at(cell)..at(cell) + 3].copy_from_slice(&[random, backup, mark(cell, random)]);
    }
    let mut text = vec![0; 68 * (cells as usize + 1)];
    let mut random = seed;
    for _ in 0..rounds {
        assert_eq!(board.page(&mut text), 0);
        random = next(random);
        board.cache[at(workers + random % (cells - workers))] = random;
    }
    let sum = text.iter().fold(0u64, |sum, byte| sum.wrapping_mul(31).wrapping_add(u64::from(*byte)));
    (0..cells).fold(sum, |sum, cell| sum.wrapping_add(board.cache[at(cell)]))
}

#[test]
fn the_checksums_are_those_of_the_last_page_and_of_the_reads() {
    let workloads: [(&str, Mark); 4] = [
        ("page-equal", |_, _| 7),
        ("page-rising", |cell, _| cell + 1),
        ("page-random", |_, random| random >> 44),
        ("page-mixed", |_, _| 7),
    ];
    for (name, mark) in workloads {
        for (lines, workers, n, rounds, seed) in
            [(1, 1, 1, 0, 5), (1, 1, 2, 1, 5), (2, 3, 3, 7, 99), (64, 4, 100, 3, u64::MAX), (511, 8, 8, 2, 1)]
        {
            let sum = run(Workload::named(name).unwrap(), lines, workers, n, rounds, seed);
            let expected = told(mark, name == "page-mixed", [lines, workers, rounds, seed]);
            assert_eq!(sum, Some(expected), "{name} {lines} {workers} {rounds}");
        }
    }
}

#[test]
fn sizes_are_tested_as_for_other_workloads() {
    for name in [
        "update",
        "again",
        "locks",
        "checkpoint",
        "checkpoint-pairs",
        "checkpoint-away",
        "page-equal",
        "page-rising",
        "page-random",
        "page-mixed",
    ] {
        let workload = Workload::named(name).unwrap();
        assert!(run(workload, 1, 1, 1, 1, 1).is_some(), "{name}");
        for (lines, workers, n, seed) in
            [(0, 1, 1, 1), (512, 1, 1, 1), (1, 2, 2, 1), (2, 2, 1, 1), (2, 2, 5, 1), (1, 1, 1, 0)]
        {
            assert_eq!(run(workload, lines, workers, n, 1, seed), None, "{name} {lines} {workers} {n} {seed}");
        }
    }
    assert_eq!(Workload::named("page"), None);
}
