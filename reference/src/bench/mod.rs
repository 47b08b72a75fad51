//! Workloads for measuring: the same as those of the proved program in crates/bench, with the same checksum.

mod hex;
mod page;

use crate::bits::NO_LINES;
use crate::board::{Phase, Rows, State};
use crate::call::{perform, Answer, Call};
use crate::line::{cells, line_of, mark_at, row_words, sizes_allowed};
use crate::locks::lock_of;
pub use hex::Direction;
pub use page::Marks;

/// What one round is.
#[derive(Clone, Copy, PartialEq, Eq, Debug)]
pub enum Round {
    /// a format's start and its L + 2 steps
    Format,
    /// the data cells below n updated in rising order, each to its own number: its lock taken, a start, three advances,
    /// the lock given back
    Fill,
    /// n - W data cells updated in the same way, each the first cell of a line that has no restart cell
    Spread,
    /// a request, then a restart point of each worker, after which it waits
    Wait,
    /// a request, then a restart point of worker 0, after which it waits; all others go away
    Leave,
    /// an update of an unmarked cell: its lock taken, a start, three advances, the lock given back; the host then takes
    /// the mark and all bits back
    Update,
    /// an update of a marked cell: its lock taken, a start, one advance, the lock given back
    Again,
    /// a checkpoint of n cells, the data cells alone in their lines, W/2 + n - W + 3 steps (W/2 rounded up); the host
    /// then puts the state record back
    Checkpoint,
    /// the same with cells 0 to n - 1, both cells of n/2 lines: n/2 + 3 steps (n/2 rounded up)
    CheckpointPairs,
    /// a checkpoint with one restart cell marked, all workers but one being away: n - W + 4 steps
    CheckpointAway,
    /// a recovery's start and its 2L steps, with no cell to undo
    Recovery,
    /// a write-back of the line of a random cell
    WriteBack,
    /// a read of every cell
    Reads,
    /// the lock of a random cell taken and given back
    Locks,
}

/// What is measured.
#[derive(Clone, Copy, PartialEq, Eq, Debug)]
pub enum Workload {
    Rounds(Round),
    Pages(Marks),
    Texts(Direction),
}

impl Workload {
    /// The workload of that name on the command line.
    pub fn named(name: &str) -> Option<Workload> {
        Some(match name {
            "update" => Workload::Rounds(Round::Update),
            "again" => Workload::Rounds(Round::Again),
            "checkpoint" => Workload::Rounds(Round::Checkpoint),
            "checkpoint-pairs" => Workload::Rounds(Round::CheckpointPairs),
            "checkpoint-away" => Workload::Rounds(Round::CheckpointAway),
            "recovery" => Workload::Rounds(Round::Recovery),
            "write-back" => Workload::Rounds(Round::WriteBack),
            "locks" => Workload::Rounds(Round::Locks),
            "page-equal" => Workload::Pages(Marks::Equal),
            "page-rising" => Workload::Pages(Marks::Rising),
            "page-random" => Workload::Pages(Marks::Random),
            "page-mixed" => Workload::Pages(Marks::Mixed),
            "hex-write" => Workload::Texts(Direction::Write),
            "hex-read" => Workload::Texts(Direction::Read),
            _ => return None,
        })
    }
}

/// A board's L and W, the cell n that a fill stops before (n cells are then marked for a checkpoint), the worker that
/// updates, and the seed.
#[derive(Clone, Copy)]
struct Plan {
    lines: u64,
    workers: u64,
    n: u64,
    worker: u64,
    seed: u64,
}

/// A random number, and the data cell that it picks.
#[derive(Clone, Copy)]
struct Drawn {
    random: u64,
    cell: u64,
}

/// The next number of a xorshift sequence.
fn next(seed: u64) -> u64 {
    let a = seed ^ (seed << 13);
    let b = a ^ (a >> 7);
    b ^ (b << 17)
}

/// The draw after the random number `last`.
fn draw(plan: Plan, last: u64) -> Drawn {
    let random = next(last);
    Drawn { random, cell: plan.workers + random % (cells(plan.lines) - plan.workers) }
}

/// The lines of the restart cells.
fn restart_lines(plan: Plan) -> u64 {
    plan.workers.div_ceil(2)
}

/// How many calls an update of an unmarked cell has, and one of a marked cell.
const UPDATE_CALLS: u64 = 6;
const AGAIN_CALLS: u64 = 4;

/// How many calls a round has.
fn calls_in(round: Round, plan: Plan) -> u64 {
    match round {
        Round::Format => 1 + plan.lines + 2,
        Round::Fill | Round::Spread => UPDATE_CALLS * (plan.n - plan.workers),
        Round::Wait => 1 + 4 * plan.workers,
        Round::Leave => 4 + plan.workers,
        Round::Update => UPDATE_CALLS,
        Round::Again => AGAIN_CALLS,
        Round::Locks => 2,
        Round::Checkpoint => restart_lines(plan) + plan.n - plan.workers + 3,
        Round::CheckpointPairs => plan.n.div_ceil(2) + 3,
        Round::CheckpointAway => plan.n - plan.workers + 4,
        Round::Recovery => 1 + cells(plan.lines),
        Round::WriteBack => 1,
        Round::Reads => cells(plan.lines),
    }
}

/// Call number `k` of an update of so many calls: its cell's lock taken, its start, advances, the lock given back.
fn update_call(worker: u64, k: u64, calls: u64, cell: u64, value: u64) -> Call {
    let lock = lock_of(cell) as u64;
    match k {
        0 => Call::Take { worker, lock },
        1 => Call::Update { worker, cell, value },
        _ if k + 1 < calls => Call::Advance { worker },
        _ => Call::GiveBack { worker, lock },
    }
}

/// Call number `k` of a fill: an update for each data cell.
fn fill_call(plan: Plan, k: u64) -> Call {
    let cell = plan.workers + k / UPDATE_CALLS;
    update_call(plan.worker, k % UPDATE_CALLS, UPDATE_CALLS, cell, cell)
}

/// Call number `k` of a spread: an update for each first cell of the lines after the restart cells'.
fn spread_call(plan: Plan, k: u64) -> Call {
    let cell = 2 * (restart_lines(plan) + k / UPDATE_CALLS);
    update_call(plan.worker, k % UPDATE_CALLS, UPDATE_CALLS, cell, cell)
}

/// A lock taken, then given back.
fn lock_call(worker: u64, k: u64, lock: u64) -> Call {
    if k == 0 {
        Call::Take { worker, lock }
    } else {
        Call::GiveBack { worker, lock }
    }
}

/// Call number `k` of a wait: the request, and four calls of each worker in turn.
fn wait_call(k: u64) -> Call {
    if k == 0 {
        return Call::Request;
    }
    let worker = (k - 1) / 4;
    if (k - 1).is_multiple_of(4) {
        Call::RestartPoint { worker, value: 3 }
    } else {
        Call::Advance { worker }
    }
}

/// Call number `k` of a leave: a wait's calls of worker 0, and then each other goes away.
fn leave_call(k: u64) -> Call {
    if k < 5 {
        wait_call(k)
    } else {
        Call::GoAway { worker: k - 4 }
    }
}

/// A start before the first step, and then steps.
fn step_call(k: u64, start: Call) -> Call {
    if k == 0 {
        start
    } else {
        Call::Step
    }
}

/// Call number `k` of a round.
fn call_at(round: Round, plan: Plan, k: u64, drawn: Drawn) -> Call {
    match round {
        Round::Format => step_call(k, Call::Format { lines: plan.lines, workers: plan.workers }),
        Round::Fill => fill_call(plan, k),
        Round::Spread => spread_call(plan, k),
        Round::Wait => wait_call(k),
        Round::Leave => leave_call(k),
        Round::Update => update_call(plan.worker, k, UPDATE_CALLS, drawn.cell, drawn.random),
        Round::Again => update_call(plan.worker, k, AGAIN_CALLS, drawn.cell, drawn.random),
        Round::Locks => lock_call(plan.worker, k, lock_of(drawn.cell) as u64),
        Round::Checkpoint | Round::CheckpointPairs | Round::CheckpointAway => Call::Step,
        Round::Recovery => step_call(k, Call::Recovery),
        Round::WriteBack => Call::WriteBack { line: line_of(drawn.cell as usize) as u64 },
        Round::Reads => Call::Read { cell: k },
    }
}

/// A board without a mistake's switch, so that nothing but the calls is measured.
struct Board {
    state: State,
    memory: Vec<u64>,
    cache: Vec<u64>,
}

impl Board {
    /// A board that is off, with rows of that size.
    fn off(lines: u64) -> Board {
        let words = row_words(lines) as usize;
        let state = State::started(Phase::Off, 0, 0);
        Board { state, memory: vec![0; words], cache: vec![0; words] }
    }

    /// One call.
    #[inline]
    fn perform(&mut self, call: &Call) -> Answer {
        let mut rows = Rows { memory: &mut self.memory, cache: &mut self.cache };
        perform(call, &mut self.state, &mut rows, None)
    }
}

/// Plays rounds on a board and sums their answers. This is the one loop, and it has the one call of `perform`, as in the
/// proved program.
fn play(round: Round, plan: Plan, rounds: u64, board: &mut Board) -> u64 {
    let calls = calls_in(round, plan);
    let mut left = rounds * calls;
    let mut drawn = draw(plan, plan.seed);
    let from = board.state;
    let mut sum = 0u64;
    let mut k = 0;
    while left > 0 {
        let answer = board.perform(&call_at(round, plan, k, drawn));
        sum = sum.wrapping_add(u64::from(answer.number)).wrapping_add(answer.value);
        left -= 1;
        k += 1;
        if k == calls {
            match round {
                Round::Update => {
                    board.cache[mark_at(drawn.cell as usize)] = 0;
                    board.state.line_bits = NO_LINES;
                }
                Round::Checkpoint | Round::CheckpointPairs | Round::CheckpointAway => board.state = from,
                _ => {}
            }
            drawn = draw(plan, drawn.random);
            k = 0;
        }
    }
    sum
}

/// The board made ready for a workload's rounds, after a format.
fn prepare(round: Round, plan: Plan, board: &mut Board) {
    match round {
        Round::Again => {
            play(Round::Fill, Plan { n: cells(plan.lines), ..plan }, 1, board);
        }
        Round::Checkpoint => {
            play(Round::Spread, plan, 1, board);
            play(Round::Wait, plan, 1, board);
        }
        Round::CheckpointPairs => {
            play(Round::Fill, plan, 1, board);
            play(Round::Wait, plan, 1, board);
        }
        Round::CheckpointAway => {
            play(Round::Spread, plan, 1, board);
            play(Round::Leave, plan, 1, board);
        }
        _ => {}
    }
}

/// The board has a line for every data cell that is to be alone in one.
fn has_lines(workload: Workload, plan: Plan) -> bool {
    match workload {
        Workload::Rounds(Round::Checkpoint | Round::CheckpointAway) => {
            restart_lines(plan) + plan.n - plan.workers <= plan.lines
        }
        _ => true,
    }
}

/// A workload's checksum: the answers of its rounds, and of a read of every cell after them. None for a size that is
/// not allowed.
pub fn run(workload: Workload, lines: u64, workers: u64, n: u64, rounds: u64, seed: u64) -> Option<u64> {
    if !sizes_allowed(lines, workers) || !(workers..=cells(lines)).contains(&n) {
        return None;
    }
    if rounds > u64::from(u32::MAX) || seed == 0 {
        return None;
    }
    let plan = Plan { lines, workers, n, worker: seed % workers, seed };
    if !has_lines(workload, plan) {
        return None;
    }
    let mut board = Board::off(lines);
    play(Round::Format, plan, 1, &mut board);
    let measured = match workload {
        Workload::Rounds(round) => {
            prepare(round, plan, &mut board);
            play(round, plan, rounds, &mut board)
        }
        Workload::Pages(marks) => {
            page::prepare(marks, plan, &mut board);
            page::play(plan, rounds, &mut board)
        }
        Workload::Texts(direction) => {
            hex::prepare(plan, &mut board);
            hex::play(direction, plan, rounds, &mut board)
        }
    };
    let reads = play(Round::Reads, plan, 1, &mut board);
    Some(measured.wrapping_add(reads))
}
