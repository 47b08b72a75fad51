//! What comes next in a random sequence.

use super::garbage;
use super::watched::Watched;
use crate::board::Phase;
use crate::call::Call;
use crate::random::Random;
use crate::work::{good_call_with_away, some_workers, Leave};

/// How often a sequence is disturbed, in a thousand events.
pub struct Temper {
    cut: u64,
    start: u64,
    junk: u64,
    write_back: u64,
    request: u64,
    leave: Leave,
    small_values: bool,
}

/// What comes next.
pub enum Choice {
    Call(Call),
    Cut,
    /// A call on a board made up for it.
    Probe,
}

impl Temper {
    /// The temper of one sequence; long recoveries need calm ones.
    pub fn new(random: &Random, lines: u64) -> Temper {
        let calm = 1 + lines / 16;
        Temper {
            cut: random.pick(&[1, 4, 15, 60]) / calm,
            start: random.pick(&[1, 4, 15, 60]) / calm,
            junk: random.pick(&[5, 50, 150]),
            write_back: random.pick(&[0, 50, 200]),
            request: random.pick(&[20, 100, 300]),
            leave: Leave { away: random.pick(&[0, 20, 100, 300]), back: random.pick(&[10, 60, 200]) },
            small_values: random.chance(1, 4),
        }
    }

    /// The next event for this board.
    pub fn choose(&self, random: &Random, watched: &Watched) -> Choice {
        let mut roll = random.below(1000);
        let mut falls_to = |share: u64| {
            let hit = roll < share;
            roll = roll.wrapping_sub(share);
            hit
        };
        if falls_to(self.cut) {
            Choice::Cut
        } else if falls_to(self.start) {
            Choice::Call(start(random, watched, 7))
        } else if falls_to(self.junk) {
            Choice::Call(garbage::call(random, &watched.board.state))
        } else if falls_to(80) {
            Choice::Probe
        } else if falls_to(20) {
            Choice::Call(Call::Page { room: garbage::room(random, watched.board.state.lines.into()) })
        } else if falls_to(20) {
            Choice::Call(Call::Count)
        } else if falls_to(self.write_back) {
            let line = random.below(watched.board.state.lines as u64 + 1);
            Choice::Call(Call::WriteBack { line: if random.chance(1, 4) { 0 } else { line } })
        } else {
            self.onward(random, watched)
        }
    }

    /// What brings the board on.
    fn onward(&self, random: &Random, watched: &Watched) -> Choice {
        if watched.cut {
            let recoveries = if watched.promise.broken_format { 2 } else { 9 };
            return match random.below(10) {
                0 => Choice::Call(garbage::call(random, &watched.board.state)),
                _ => Choice::Call(start(random, watched, recoveries)),
            };
        }
        Choice::Call(match watched.board.state.phase {
            Phase::Running => {
                good_call_with_away(random, &watched.board.state, self.request, self.leave, self.value(random))
            }
            _ => Call::Step,
        })
    }

    /// A value to store.
    fn value(&self, random: &Random) -> u64 {
        if self.small_values {
            random.below(3)
        } else {
            random.pick(&[random.word(), random.digits()])
        }
    }
}

/// A recovery's start so many times in ten, else a format's, of any W that is allowed.
fn start(random: &Random, watched: &Watched, recoveries: u64) -> Call {
    if random.chance(recoveries, 10) {
        return Call::Recovery;
    }
    let lines = watched.lines();
    Call::Format { lines, workers: some_workers(random, lines) }
}
