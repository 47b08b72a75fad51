//! Statements of the record alone, on any board: a start that is taken on a made-up board, and calls after it while
//! somebody else writes into the rows.

use super::check::{Check, Violation};
use super::watched::answered;
use super::{garbage, locks, Explorer};
use crate::board::{Board, Phase};
use crate::call::Call;
use crate::work::{good_call_with_away, some_workers, Leave};

impl Explorer {
    /// "from any taken start on any board, whatever its rows and record were, after any calls and with no cut since"
    pub(super) fn wild(&mut self) -> Result<(), Violation> {
        garbage::board(&self.random, &mut self.scratch);
        let mut board = self.scratch.clone();
        let lines = (board.memory.len() as u64 / 8).saturating_sub(1);
        let start = match self.random.below(3) {
            0 => Call::Format { lines, workers: some_workers(&self.random, lines.max(1)) },
            _ => Call::Recovery,
        };
        if self.wild_call(&start, &mut board)? != 0 {
            return Ok(());
        }
        self.tally.wild[0] += 1;
        let requests = self.random.pick(&[20, 100, 300]);
        for _ in 0..6 * lines.min(6) + self.random.below(80) {
            self.scribble(&mut board);
            let call = self.next_wild(requests, &board);
            self.wild_call(&call, &mut board)?;
            self.tally.wild[1] += 1;
        }
        Ok(())
    }

    /// Now and then a word of memory or cache becomes another.
    fn scribble(&self, board: &mut Board) {
        let random = &self.random;
        if random.chance(1, 8) {
            let row = if random.chance(1, 2) { &mut board.memory } else { &mut board.cache };
            let at = random.pick(&[0, random.below(row.len() as u64)]);
            row[at as usize] = garbage::word(random);
        }
    }

    /// A call that brings the board on, or any that is no start or is one that is seldom made.
    fn next_wild(&self, requests: u64, board: &Board) -> Call {
        let random = &self.random;
        let call = garbage::call(random, &board.state);
        match board.state.phase {
            _ if random.chance(1, 6) && (!call.is_start() || random.chance(1, 8)) => call,
            Phase::Running => {
                let leave = Leave { away: 60, back: 100 };
                good_call_with_away(random, &board.state, requests, leave, garbage::word(random))
            }
            _ => Call::Step,
        }
    }

    /// One call, and what holds of it and of the record after it.
    fn wild_call(&mut self, call: &Call, board: &mut Board) -> Result<u8, Violation> {
        let before = board.clone();
        let answer = board.perform(call);
        self.note(call, answer.number);
        answered(self.checks, call, &before, board, answer)?;
        self.checks.run(Check::Conflict, || locks::no_conflict(call, answer.number))?;
        if answer.number == 0 {
            self.checks.run(Check::Held, || locks::held(&board.state))?;
        }
        Ok(answer.number)
    }
}
