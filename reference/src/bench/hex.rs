//! Workloads of HEX texts: memory written as text again and again, or its text read into it.

use super::{next, Board, Plan};
use crate::hex::{read, text_bytes, write};

/// What is done in each round.
#[derive(Clone, Copy, PartialEq, Eq, Debug)]
pub enum Direction {
    Write,
    Read,
}

/// Random words put into memory by the host.
pub(super) fn prepare(plan: Plan, board: &mut Board) {
    let mut random = plan.seed;
    for word in &mut board.memory {
        random = next(random);
        *word = random;
    }
}

/// So many texts written or read; sums their answers, and then the last text's bytes or memory's words.
pub(super) fn play(direction: Direction, plan: Plan, rounds: u64, board: &mut Board) -> u64 {
    match direction {
        Direction::Write => write_rounds(plan.seed, rounds, &mut board.memory),
        Direction::Read => read_rounds(plan.seed, rounds, &mut board.memory),
    }
}

/// Memory written, then a random word of it made another by the host.
fn write_rounds(seed: u64, rounds: u64, memory: &mut [u64]) -> u64 {
    let mut text = vec![0; text_bytes(memory.len())];
    let mut random = next(seed);
    let mut sum = 0u64;
    for _ in 0..rounds {
        sum = sum.wrapping_add(u64::from(write(memory, &mut text)));
        put(memory, random);
        random = next(random);
    }
    text.iter().fold(sum, |sum, byte| with(sum, u64::from(*byte)))
}

/// A random word of memory made another by the host, then the text read that was written at first.
fn read_rounds(seed: u64, rounds: u64, memory: &mut [u64]) -> u64 {
    let mut text = vec![0; text_bytes(memory.len())];
    let mut sum = u64::from(write(memory, &mut text));
    let mut random = next(seed);
    for _ in 0..rounds {
        put(memory, random);
        sum = sum.wrapping_add(u64::from(read(&text, memory)));
        random = next(random);
    }
    memory.iter().fold(sum, |sum, word| with(sum, *word))
}

/// The word that this random number picks becomes it.
fn put(memory: &mut [u64], random: u64) {
    let at = random % memory.len() as u64;
    memory[at as usize] = random;
}

/// The sum with one number more.
fn with(sum: u64, number: u64) -> u64 {
    sum.wrapping_mul(31).wrapping_add(number)
}
