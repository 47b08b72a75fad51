//! Statement 5: how many steps a format, a recovery or a checkpoint still owes.

use super::away::{away, Away};
use super::check::{ensure, Finding};
use super::count::set_lines;
use crate::board::{Board, Condition, Phase};
use crate::call::Call;
use crate::line::{mark_at, LINE_WORDS};
use crate::machine::Machine;

/// What a step finished.
#[derive(Clone, Copy, PartialEq, Eq, Debug)]
pub enum Finished {
    Format,
    Recovery,
    Checkpoint,
}

/// The steps still owed, 0 where nothing is under way.
#[derive(Clone, PartialEq, Eq, Debug, Default)]
pub struct Promise {
    pub format_left: u64,
    pub recovery_left: u64,
    /// The checkpointed values at the taken start of the recovery under way.
    pub recovery_values: Vec<u64>,
    pub checkpoint_left: u64,
    /// Who was away before the first step of the last checkpoint.
    pub away: Away,
    /// "a format's first step was taken and the format not finished"
    pub broken_format: bool,
}

/// "3 for each cell whose mark is memory's epoch, 1 for any other"
pub fn steps_called_for(memory: &[u64]) -> u64 {
    let cells = 2 * (memory.len() / LINE_WORDS - 1);
    (0..cells).map(|cell| if memory[mark_at(cell)] == memory[0] { 3 } else { 1 }).sum()
}

impl Promise {
    /// A cut or a start ends what was under way.
    pub fn drop_all(&mut self) {
        self.format_left = 0;
        self.recovery_left = 0;
        self.recovery_values.clear();
        self.checkpoint_left = 0;
    }

    /// A step that this board must take.
    pub fn owes_step(&self, board: &Board) -> bool {
        let waits = |condition: &Condition| matches!(condition, Condition::Waiting | Condition::Away);
        let waiting = board.state.active_workers().iter().all(waits);
        let checkpoint = board.state.phase == Phase::Running && board.state.requested && waiting;
        self.format_left > 0 || self.recovery_left > 0 || checkpoint
    }

    /// A taken call: note what it begins, count what it steps; says what a step finished.
    pub fn taken(&mut self, call: &Call, before: &Board, machine: &Machine) -> Option<Finished> {
        match *call {
            Call::Format { lines, .. } => {
                self.drop_all();
                self.format_left = lines + 2;
                None
            }
            Call::Recovery => {
                self.drop_all();
                self.recovery_left = steps_called_for(&before.memory);
                self.recovery_values.extend(machine.values.iter().map(|value| value.checkpointed));
                None
            }
            Call::Step => self.step(before),
            _ => None,
        }
    }

    /// One step less.
    fn step(&mut self, before: &Board) -> Option<Finished> {
        if self.format_left > 0 {
            self.format_left -= 1;
            self.broken_format = self.format_left > 0;
            return (self.format_left == 0).then_some(Finished::Format);
        }
        if self.recovery_left > 0 {
            self.recovery_left -= 1;
            return (self.recovery_left == 0).then_some(Finished::Recovery);
        }
        if self.checkpoint_left == 0 {
            self.checkpoint_left = set_lines(&before.state).len() as u64 + 3;
            self.away = away(&before.state);
        }
        self.checkpoint_left -= 1;
        (self.checkpoint_left == 0).then_some(Finished::Checkpoint)
    }

    /// After a taken step: the board runs exactly when the last step owed was taken.
    pub fn kept(&self, board: &Board) -> Finding {
        let phase = if self.format_left > 0 {
            Phase::Formatting
        } else if self.recovery_left > 0 {
            Phase::Recovering
        } else {
            Phase::Running
        };
        let owed = self.format_left + self.recovery_left + self.checkpoint_left;
        ensure(board.state.phase == phase, || {
            format!("{owed} steps are owed and the phase is {:?}", board.state.phase)
        })?;
        let running = phase == Phase::Running;
        ensure(!running || board.state.requested == (self.checkpoint_left > 0), || {
            format!("{owed} steps of a checkpoint are owed, requested is {}", board.state.requested)
        })
    }

    /// Own memory is never turned down: a recovery's start is answered 0, by 5 only where a format is erasing.
    pub fn can_recover(&self, board: &Board) -> Finding {
        let answer = board.cause(&Call::Recovery);
        let told = if self.broken_format { 5 } else { 0 };
        ensure(answer == told, || format!("a recovery start would be answered {answer}, not {told}"))
    }
}
