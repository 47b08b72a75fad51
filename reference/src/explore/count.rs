//! Ticket 5's statements of the count: what it is on any board, that it foretells a checkpoint's steps, and that these
//! write each set line once.

use super::check::{ensure, Finding};
use crate::board::{Board, Condition, Phase, State};
use crate::call::{Answer, Call};
use crate::line::line_words;

/// The lines whose bit is set, rising, looked at one by one.
pub fn set_lines(state: &State) -> Vec<usize> {
    (0..512).filter(|line| state.line_bits[line / 64] >> (line % 64) & 1 == 1).collect()
}

/// "the count of set bits plus 3, never over L+3; turned down, it gets 0"
pub fn judged(board: &Board, answer: Answer) -> Finding {
    let Answer { number, value } = answer;
    if number != 0 {
        return ensure(value == 0, || format!("a count refused by {number} gave {value}"));
    }
    let (n, most) = (set_lines(&board.state).len() as u64, board.state.lines as u64 + 3);
    ensure(value == n + 3, || format!("the count is {value}, {n} lines are set"))?;
    ensure((3..=most).contains(&value), || format!("the count is {value}, not 3 to {most}"))
}

/// A count that was learned "once every worker waits and before the first step", and what steps did since.
#[derive(Clone, PartialEq, Eq, Debug)]
pub struct Foretold {
    pub count: u64,
    /// The lines that were set.
    pub lines: Vec<usize>,
    pub steps: u64,
    /// The lines that the steps wrote back.
    pub written: Vec<usize>,
}

/// The count of a board on which it foretells something; none on others.
pub fn learned(board: &Board) -> Result<Option<Foretold>, String> {
    let state = &board.state;
    let waits = |condition: &Condition| matches!(condition, Condition::Waiting | Condition::Away);
    let waiting = state.phase == Phase::Running && state.active_workers().iter().all(waits);
    if !waiting || (state.requested && state.place > 0) {
        return Ok(None);
    }
    let answer = board.clone().perform(&Call::Count);
    ensure(answer.number == 0, || format!("a count was refused by {} while all wait", answer.number))?;
    Ok(Some(Foretold { count: answer.value, lines: set_lines(state), steps: 0, written: Vec::new() }))
}

/// The lines of memory that a step writes, whatever they hold: it is taken on a copy whose memory differs everywhere.
fn written_by_step(before: &Board) -> Vec<usize> {
    let mut board = before.clone();
    board.memory.iter_mut().zip(&before.cache).for_each(|(word, cached)| *word = !cached);
    let other = board.memory.clone();
    board.perform(&Call::Step);
    let lines = 0..=before.state.lines as usize;
    lines.filter(|line| board.memory[line_words(*line)] != other[line_words(*line)]).collect()
}

impl Foretold {
    /// A taken step more, on this board.
    pub fn step(&mut self, before: &Board) {
        self.steps += 1;
        self.written.extend(written_by_step(before));
    }

    /// "it equals the steps then taken up to and with the release"
    pub fn kept(&self, released: bool) -> Finding {
        ensure(released == (self.steps == self.count), || {
            format!("{} was learned, after {} steps released is {released}", self.count, self.steps)
        })
    }

    /// The same number whenever it is learned before the first step.
    pub fn learned_again(&self, again: &Foretold) -> Finding {
        ensure(self.steps > 0 || self.count == again.count, || {
            format!("{} was learned and then {}, and no step was taken", self.count, again.count)
        })
    }

    /// Each set line and no other, rising, each once, then line 0.
    pub fn each_once(&self) -> Finding {
        let told: Vec<usize> = self.lines.iter().copied().chain([0]).collect();
        ensure(self.written == told, || format!("steps wrote the lines {:?}, not {told:?}", self.written))
    }
}
