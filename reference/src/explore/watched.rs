//! A board beside the simple machine, every event checked.

use super::check::{ensure, Check, Checks, Finding, Violation};
use super::count::{self, Foretold};
use super::promise::{Finished, Promise};
use super::{answers, away, bits, changes, differs, foreign, invariant, locks, outcome, page, stores, table};
use crate::board::{Board, Phase};
use crate::call::{Answer, Call};
use crate::line::{cells, header, LINE_WORDS};
use crate::machine::{Machine, Value};
use crate::mistake::Mistake;

/// How a sequence began.
#[derive(Clone, Copy, PartialEq, Eq, Debug)]
pub enum Beginning {
    /// "as a finished format left them"
    Format,
    /// At a recovery's start that took foreign memory.
    Recovery,
}

/// What one call on a watched board gave.
pub struct Done {
    pub answer: Answer,
    pub finished: Option<Finished>,
    /// What a count had foretold of the checkpoint that the call released.
    pub foretold: Option<Foretold>,
}

/// The board, the machine and what is owed.
pub struct Watched {
    pub board: Board,
    pub machine: Machine,
    pub promise: Promise,
    /// A cut fell since the last taken start.
    pub cut: bool,
    pub checks: Checks,
    /// What words 6 and 7 of each cell line are to be.
    pub spare: Vec<[u64; 2]>,
    /// The count last learned that no cut, start or coming back made void.
    pub foretold: Option<Foretold>,
    before: Board,
    values_before: Vec<Value>,
    /// How many taken events there were, by which lines and cells are chosen that are asked about.
    turn: u64,
}

impl Watched {
    /// A board as a finished format left it, and the machine where it begins; without one there is nothing to explore.
    pub fn begin(board: Board, lines: u64, checks: Checks) -> Result<Watched, Violation> {
        formatted(&board).map_err(|text| Violation { check: Check::Progress, text })?;
        Ok(Watched::new(board, Machine::begin(cells(lines)), false, checks))
    }

    /// A board as it may be before a recovery's start that takes its memory, and the machine as it begins there.
    pub fn before_recovery(board: Board, checks: Checks) -> Watched {
        let records = board.mistake == Some(Mistake::BeginWithRecords);
        let values = if records { foreign::records(&board.memory) } else { foreign::undo(&board.memory) };
        Watched::new(board, Machine::begin_with(&values), true, checks)
    }

    /// Nothing is owed yet.
    fn new(board: Board, machine: Machine, cut: bool, checks: Checks) -> Watched {
        let (before, values_before, spare) = (board.clone(), machine.values.clone(), stores::spare(&board.memory));
        let promise = Promise::default();
        Watched { board, machine, promise, cut, checks, spare, foretold: None, before, values_before, turn: 0 }
    }

    /// The board's L, which it keeps.
    pub fn lines(&self) -> u64 {
        self.machine.values.len() as u64 / 2
    }

    /// Keep what an event is to be compared with.
    fn remember(&mut self) {
        self.before.copy_from(&self.board);
        self.values_before.clone_from(&self.machine.values);
    }

    /// A call, refused or taken, on board and machine, and all that is to hold after it.
    pub fn call(&mut self, call: &Call) -> Result<Done, Violation> {
        self.remember();
        let answer = self.board.perform(call);
        answered(self.checks, call, &self.before, &self.board, answer)?;
        if !self.cut {
            self.checks.run(Check::Conflict, || locks::no_conflict(call, answer.number))?;
            self.checks.run(Check::Answers, || answers::of_call(call, &self.before, answer.number))?;
        }
        if answer.number != 0 {
            let owed = *call == Call::Step && !self.cut && self.promise.owes_step(&self.before);
            let owed = owed || (*call == Call::Recovery && !self.promise.broken_format);
            let finding = || ensure(!owed, || format!("{call:?} was owed and refused by {}", answer.number));
            self.checks.run(Check::Progress, finding)?;
            return Ok(Done { answer, finished: None, foretold: None });
        }
        self.tell_machine(call)?;
        self.cut &= !call.is_start();
        let finished = self.promise.taken(call, &self.before, &self.machine);
        self.after_taken(call, answer, finished)?;
        let foretold = self.follow_count(call)?;
        let format_step = *call == Call::Step && self.before.state.phase == Phase::Formatting;
        if format_step {
            self.erase_spare(self.before.state.place as usize);
        }
        self.after_event(format_step)?;
        self.turn += 1;
        self.checks.run(Check::Answers, || answers::of_board(&self.board, self.turn))?;
        Ok(Done { answer, finished, foretold })
    }

    /// A taken call for the machine, to which a lock is nothing.
    fn tell_machine(&mut self, call: &Call) -> Result<(), Violation> {
        let of_lock = matches!(call, Call::Take { .. } | Call::GiveBack { .. });
        let before = of_lock.then(|| self.machine.clone());
        self.machine.taken(call);
        before.map_or(Ok(()), |before| self.checks.run(Check::Holders, || locks::machine_stays(&before, &self.machine)))
    }

    /// A format's step at this place: 0 is what that line's words 6 and 7 are to be from now on.
    fn erase_spare(&mut self, place: usize) {
        let line = place.checked_sub(1).and_then(|line| self.spare.get_mut(line));
        line.into_iter().for_each(|words| *words = [0; 2]);
    }

    /// What a count foretold, after a taken call, and what it foretells from here on; gives what was fulfilled.
    fn follow_count(&mut self, call: &Call) -> Result<Option<Foretold>, Violation> {
        if call.is_start() || matches!(call, Call::ComeBack { .. }) {
            self.foretold = None;
        }
        let mut fulfilled = None;
        if let (Call::Step, Some(foretold)) = (call, &mut self.foretold) {
            foretold.step(&self.before);
            let released = !self.board.state.requested;
            self.checks.run(Check::Foretold, || foretold.kept(released))?;
            if released {
                self.checks.run(Check::Lines, || foretold.each_once())?;
                fulfilled = self.foretold.take();
            }
        }
        self.learn_count()?;
        Ok(fulfilled)
    }

    /// How many cells the machine had marked before the last event.
    pub fn marked_before(&self) -> usize {
        self.values_before.iter().filter(|value| value.marked).count()
    }

    /// A count learned where it foretells something, the same as before if no step was taken since.
    fn learn_count(&mut self) -> Result<(), Violation> {
        match count::learned(&self.board) {
            Err(text) => self.checks.run(Check::Foretold, || Err(text)),
            Ok(None) => Ok(()),
            Ok(Some(again)) => {
                let finding = self.foretold.as_ref().map_or(Ok(()), |earlier| earlier.learned_again(&again));
                self.foretold = Some(again);
                self.checks.run(Check::Foretold, || finding)
            }
        }
    }

    /// A cut: whatever it leaves in cache and state record; memory stays.
    pub fn cut(&mut self, leave: impl FnOnce(&mut Board)) -> Result<(), Violation> {
        self.remember();
        leave(&mut self.board);
        self.cut = true;
        self.foretold = None;
        self.promise.drop_all();
        self.after_event(false)
    }

    /// What holds after a taken call.
    fn after_taken(&mut self, call: &Call, answer: Answer, finished: Option<Finished>) -> Result<(), Violation> {
        if let Call::Read { cell } = *call {
            let current = self.machine.values.get(cell as usize).map(|value| value.current);
            let text = || format!("cell {cell} reads {}, current is {current:?}", answer.value);
            self.checks.run(Check::Reads, || ensure(Some(answer.value) == current, text))?;
        }
        if *call == Call::Step {
            self.checks.run(Check::Progress, || self.promise.kept(&self.board))?;
        }
        if finished == Some(Finished::Checkpoint) {
            self.checks.run(Check::Away, || away::after_checkpoint(&self.promise.away, &self.board.state))?;
        }
        if finished == Some(Finished::Recovery) {
            self.checks.run(Check::Recovery, || self.recovered())?;
        }
        Ok(())
    }

    /// What holds after every event, taken calls and cuts.
    fn after_event(&self, format_step: bool) -> Result<(), Violation> {
        self.checks.run(Check::Stores, || stores::spare_words(&self.board, self.cut, &self.spare))?;
        if !format_step {
            self.checks.run(Check::Completion, || self.completed())?;
        }
        self.checks.run(Check::Progress, || self.promise.can_recover(&self.board))?;
        self.checks.run(Check::Bits, || bits::check(&self.board, &self.machine, self.cut))?;
        if !self.cut {
            self.checks.run(Check::Held, || locks::held(&self.board.state))?;
        }
        self.checks.run(Check::Invariant, || invariant::check(&self.board, &self.machine, self.cut))
    }

    /// "every cell's read is taken and gives the machine's checkpointed value at that start"
    fn recovered(&self) -> Finding {
        let reads = self.reads();
        let expected = &self.promise.recovery_values;
        let differs = reads.iter().zip(expected).position(|(read, value)| *read != Some(*value));
        let Some(cell) = differs else { return Ok(()) };
        Err(format!("after recovery cell {cell} reads {:?}, checkpointed was {}", reads[cell], expected[cell]))
    }

    /// Every cell's read, none where it is refused.
    pub fn reads(&self) -> Vec<Option<u64>> {
        let mut board = self.board.clone();
        let read = |cell: usize| board.perform(&Call::Read { cell: cell as u64 });
        let answers = (0..self.machine.values.len()).map(read);
        answers.map(|answer| (answer.number == 0).then_some(answer.value)).collect()
    }

    /// Statement 3: "either ... as before, or memory's epoch is one more and the checkpointed values are the current ones"
    fn completed(&self) -> Finding {
        let (old, new) = (self.before.memory[0], self.board.memory[0]);
        let mut pairs = self.values_before.iter().zip(&self.machine.values);
        let holds = if old == new {
            pairs.all(|(before, after)| before.checkpointed == after.checkpointed)
        } else {
            old.checked_add(1) == Some(new)
                && self.machine.values.iter().all(|value| value.checkpointed == value.current)
        };
        ensure(holds, || format!("memory's epoch went from {old} to {new}, the checkpointed values otherwise"))
    }
}

/// What holds of one call on any board: demand 1, the complete outcome, a page's text row with it, and statement 6.
pub fn answered(checks: Checks, call: &Call, before: &Board, after: &Board, answer: Answer) -> Result<(), Violation> {
    checks.run(Check::Causes, || {
        let expected = table::answer(call, &before.state, before.lent());
        ensure(answer.number == expected, || {
            format!("{call:?} answered {}, the table says {expected}", answer.number)
        })?;
        let still = answer.number == 0 || (before == after && answer.value == 0);
        ensure(still, || format!("{call:?} was refused and changed something"))
    })?;
    if let Call::Page { room } = *call {
        checks.run(Check::Page, || page::judged(before, room))?;
        checks.run(Check::Changes, || differs::text_row(before, room))?;
    }
    if *call == Call::Count {
        checks.run(Check::Count, || count::judged(before, answer))?;
    }
    if answer.number != 0 {
        return Ok(());
    }
    checks.run(Check::Stores, || stores::rows_changed(call, before, after))?;
    checks.run(Check::Away, || away::after_call(call, before, after))?;
    checks.run(Check::Holders, || locks::after_call(call, before, after))?;
    checks.run(Check::Changes, || changes::named_alone(call, before, after))?;
    checks.run(Check::Outcome, || outcome::complete(call, before, after))
}

/// "Then running, all free", no bit and no lock held: the board of a finished format.
fn formatted(board: &Board) -> Finding {
    let (lines, workers) = (board.state.lines, board.state.workers);
    let state = crate::board::State::started(Phase::Running, lines, workers);
    let mut row = vec![0; board.memory.len()];
    row[..LINE_WORDS].copy_from_slice(&header(1, lines as u64, workers as u64));
    let holds = board.state == state && board.memory == row && board.cache == row;
    ensure(holds, || "a format's L+2 steps left another board than a formatted one".into())
}
