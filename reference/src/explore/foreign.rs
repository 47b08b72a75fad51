//! Memory that another kiosk wrote, in a board of any condition, and what its undo is.

use super::garbage;
use crate::board::{Board, Phase, State};
use crate::line::{backup_at, cells, header, line_words, mark_at, record_at, LINE_WORDS, MOST_LINES};
use crate::random::Random;
use crate::work::some_workers;

/// How many cells a memory of this length has.
fn cells_of(memory: &[u64]) -> usize {
    2 * (memory.len() / LINE_WORDS - 1)
}

/// "its own undo": of each cell the backup where its mark is the epoch, else the record.
pub fn undo(memory: &[u64]) -> Vec<u64> {
    let marked = |cell: usize| memory[mark_at(cell)] == memory[0];
    let undone = |cell: usize| memory[if marked(cell) { backup_at(cell) } else { record_at(cell) }];
    (0..cells_of(memory)).map(undone).collect()
}

/// The record of each cell.
pub fn records(memory: &[u64]) -> Vec<u64> {
    (0..cells_of(memory)).map(|cell| memory[record_at(cell)]).collect()
}

/// Foreign memories of the smallest board: epochs 1 to 3, marks up to one past the epoch, records and backups 1 or 2,
/// both backups their cell's record or not.
pub fn smallest(alike: bool) -> Vec<[u64; 16]> {
    let mut memories = Vec::new();
    for epoch in 1..=3 {
        let marks = (0..=epoch + 1).flat_map(|one| (0..=epoch + 1).map(move |other| [one, other]));
        for ([one, other], bits) in marks.flat_map(|marks| (0..16).map(move |bits| (marks, bits))) {
            let [a, b, c, d] = [0, 1, 2, 3].map(|bit| 1 + (bits >> bit & 1));
            if (a == b && c == d) == alike {
                memories.push([epoch, 1, 1, 0, 0, 0, 0, 0, a, b, one, c, d, other, 4, 5]);
            }
        }
    }
    memories
}

/// The start that a sequence on foreign memory begins with.
pub fn recovery_on(memory: &[u64]) -> String {
    format!("Recovery on foreign memory {memory:?}")
}

/// A board of so many lines with foreign memory, more often such as a recovery's start takes; the rest is anything.
pub fn board(random: &Random, lines: u64, board: &mut Board) {
    let workers = some_workers(random, lines);
    board.state = State::started(Phase::Running, lines as u16, workers as u8);
    board.resize(lines);
    board.cache.iter_mut().for_each(|word| *word = garbage::word(random));
    fill(random, &header(epoch(random), lines, workers), &mut board.memory);
    garbage::cut(random, board);
    if random.chance(1, 3) {
        let epoch = board.memory[0];
        board.cache[0] = random.pick(&[epoch.wrapping_add(1), epoch - 1, u64::MAX]);
    }
    if random.chance(1, 4) {
        some_past(random, &mut board.memory);
    }
    match random.below(20) {
        0 => garbage::spoil_rows(random, board),
        1..=3 => garbage::spoil_words(random, board),
        4 => other_header(random, &mut board.memory),
        _ => {}
    }
}

/// Some epoch, the first and the last ones more often.
fn epoch(random: &Random) -> u64 {
    let any = random.pick(&[1 + random.below(5), random.word(), random.digits()]).max(1);
    random.pick(&[1, 2, u64::MAX - 2, u64::MAX - 1, u64::MAX, any, any, any])
}

/// A header, cells with marks up to its epoch, and anything in words 6 and 7.
fn fill(random: &Random, first: &[u64; LINE_WORDS], memory: &mut [u64]) {
    memory.iter_mut().for_each(|word| *word = garbage::word(random));
    memory[line_words(0)].copy_from_slice(first);
    for cell in 0..cells_of(memory) {
        memory[mark_at(cell)] = mark(random, first[0]);
    }
}

/// A mark at the epoch or below it.
fn mark(random: &Random, epoch: u64) -> u64 {
    match random.below(6) {
        0 | 1 => epoch,
        2 => epoch - 1,
        3 => 0,
        4 => random.below(epoch),
        _ => random.below(epoch.min(4)),
    }
}

/// Marks past the epoch, where there are such: mostly one alone, often the last cell's.
fn some_past(random: &Random, memory: &mut [u64]) {
    let (epoch, count) = (memory[0], cells_of(memory) as u64);
    for _ in 0..random.pick(&[1, 1, 1, 2, 5]) {
        let cell = random.pick(&[count - 1, 0, random.below(count)]) as usize;
        if let Some(next) = epoch.checked_add(1) {
            let far = next + random.below(u64::MAX - epoch);
            memory[mark_at(cell)] = random.pick(&[next, next, next, far, u64::MAX]);
        }
    }
}

/// A header of another size than memory has, or of a W that no board of this size has.
fn other_header(random: &Random, memory: &mut [u64]) {
    let lines = memory[1];
    if random.chance(1, 2) {
        memory[1] = random.pick(&[lines + 1, lines - 1, MOST_LINES + 1]);
    } else {
        memory[2] = random.pick(&[0, cells(lines).max(9)]);
    }
}
