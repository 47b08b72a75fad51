//! Workloads of pages: a board whose marks are equal, rising or random, or equal with half of the cells unchanged, and its
//! page again and again.

use super::{draw, next, Board, Plan};
use crate::board::Lent;
use crate::line::{backup_at, cells, mark_at, record_at};
use crate::page::{page, page_bytes};

/// The marks of the cells. `Mixed` are equal ones, half of the cells being unchanged.
#[derive(Clone, Copy, PartialEq, Eq, Debug)]
pub enum Marks {
    Equal,
    Rising,
    Random,
    Mixed,
}

impl Marks {
    /// The mark of a cell whose random number this is.
    fn of(self, cell: u64, random: u64) -> u64 {
        match self {
            Marks::Equal | Marks::Mixed => 7,
            Marks::Rising => cell + 1,
            Marks::Random => random >> 44,
        }
    }

    /// The backup of a cell whose record this is: it differs, but in half of the mixed cells.
    fn backup(self, record: u64) -> u64 {
        match self {
            Marks::Mixed if record.is_multiple_of(2) => record,
            _ => record >> 32,
        }
    }
}

/// Records, backups and marks put into the cache by the host.
pub(super) fn prepare(marks: Marks, plan: Plan, board: &mut Board) {
    let mut random = plan.seed;
    for cell in 0..cells(plan.lines) {
        random = next(random);
        board.cache[record_at(cell as usize)] = random;
        board.cache[backup_at(cell as usize)] = marks.backup(random);
        board.cache[mark_at(cell as usize)] = marks.of(cell, random);
    }
}

/// So many pages, the host putting a random record between them; sums their answers and the last page's bytes.
pub(super) fn play(plan: Plan, rounds: u64, board: &mut Board) -> u64 {
    let mut text = vec![0; page_bytes(plan.lines) as usize];
    let mut drawn = draw(plan, plan.seed);
    let mut sum = 0u64;
    for _ in 0..rounds {
        let rows = Lent { memory: &board.memory, cache: &board.cache };
        sum = sum.wrapping_add(u64::from(page(&board.state, &rows, &mut text, None)));
        board.cache[record_at(drawn.cell as usize)] = drawn.random;
        drawn = draw(plan, drawn.random);
    }
    text.iter().fold(sum, |sum, byte| sum.wrapping_mul(31).wrapping_add(u64::from(*byte)))
}
