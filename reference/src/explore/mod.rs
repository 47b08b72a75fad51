//! `explore`: random sequences of calls and cuts, the board beside the simple machine, every statement checked.

mod answers;
mod away;
mod bits;
mod changes;
pub mod check;
mod choose;
mod count;
mod differs;
pub mod exhaustive;
pub mod foreign;
pub(crate) mod garbage;
mod hex;
mod invariant;
mod key;
mod locks;
mod outcome;
mod page;
mod promise;
mod stores;
pub mod table;
mod tally;
mod watched;
mod wild;

use std::collections::HashMap;
use std::io::{stderr, Write};

use crate::board::Board;
use crate::call::Call;
use crate::mistake::Mistake;
use crate::random::Random;
use crate::work::some_workers;
use check::{ensure, Check, Checks, Violation};
use choose::{Choice, Temper};
use promise::Finished;
pub use tally::Tally;
pub use watched::answered;
use watched::{Beginning, Watched};

/// What to explore.
#[derive(Clone, Copy, Debug)]
pub struct Options {
    pub seed: u64,
    pub calls: u64,
    pub mistake: Option<Mistake>,
    pub only: Option<Check>,
}

/// A violation and the events that led to it, the last ones last.
#[derive(Debug)]
pub struct Caught {
    pub violation: Violation,
    pub trace: Vec<String>,
}

/// A finished recovery: how its sequence began, what each cell reads, and the machine's checkpointed values.
struct Recovered {
    beginning: Beginning,
    reads: Vec<Option<u64>>,
    values: Vec<u64>,
}

/// So many foreign memories that are all refused, and the sequence begins at a format instead.
const MOST_REFUSED: u64 = 50;

/// An exploration under way.
struct Explorer {
    random: Random,
    /// Chooses what further damages made-up boards, and moves no sequence.
    aside: Random,
    /// Chooses HEX texts and their memories, and moves no sequence either.
    texts: Random,
    checks: Checks,
    mistake: Option<Mistake>,
    tally: Tally,
    trace: Vec<String>,
    scratch: Board,
    /// For each L, the last recovery that another sequence finished.
    others: HashMap<u64, Recovered>,
    last: Option<Recovered>,
}

/// Explore so many calls; a tally of what was seen, or what was caught.
pub fn explore(options: &Options) -> Result<Tally, Caught> {
    let mut explorer = Explorer {
        random: Random::new(options.seed),
        aside: Random::new(!options.seed),
        texts: Random::new(options.seed.rotate_left(32)),
        checks: Checks { only: options.only },
        mistake: options.mistake,
        tally: Tally::default(),
        trace: Vec::new(),
        scratch: Board::empty(options.mistake),
        others: HashMap::new(),
        last: None,
    };
    while explorer.tally.calls < options.calls {
        let told = explorer.tally.calls / 1_000_000;
        if let Err(violation) = explorer.sequence(options.calls) {
            return Err(Caught { violation, trace: explorer.trace });
        }
        if explorer.tally.calls / 1_000_000 > told {
            let _ = writeln!(stderr(), "{} calls, {} sequences", explorer.tally.calls, explorer.tally.sequences);
        }
    }
    Ok(explorer.tally)
}

impl Explorer {
    /// One sequence from one of its two beginnings on.
    fn sequence(&mut self, most: u64) -> Result<(), Violation> {
        self.trace.clear();
        let lines = match self.random.below(2000) {
            0..=4 => 511,
            5..=13 => 60 + self.random.below(451),
            14..=29 => 10 + self.random.below(30),
            30..=189 => 5 + self.random.below(8),
            _ => 1 + self.random.below(4),
        };
        let (beginning, mut watched) = self.begin(lines)?;
        let temper = Temper::new(&self.random, lines);
        for _ in 0..20 + self.random.below(400) + 5 * lines {
            if self.tally.calls >= most {
                break;
            }
            match temper.choose(&self.random, &watched) {
                Choice::Call(call) if watched.cut && !call.is_start() => self.probe_after_cut(&call, &watched)?,
                Choice::Call(call) => self.call(&call, beginning, &mut watched)?,
                Choice::Cut => self.cut(&mut watched)?,
                Choice::Probe if self.random.chance(1, 60) => self.wild()?,
                Choice::Probe => self.probe()?,
            }
        }
        self.tally.sequence(beginning);
        if let Some(recovered) = self.last.take() {
            self.others.insert(watched.lines(), recovered);
        }
        Ok(())
    }

    /// A board at one of the two beginnings.
    fn begin(&mut self, lines: u64) -> Result<(Beginning, Watched), Violation> {
        if self.random.chance(1, 2) {
            for _ in 0..MOST_REFUSED {
                if let Some(watched) = self.begin_at_recovery(lines)? {
                    return Ok((Beginning::Recovery, watched));
                }
            }
        }
        Ok((Beginning::Format, self.begin_at_format(lines)?))
    }

    /// "any memory it takes": a recovery's start on a board with foreign memory, none where it is refused.
    fn begin_at_recovery(&mut self, lines: u64) -> Result<Option<Watched>, Violation> {
        let mut board = Board::empty(self.mistake);
        foreign::board(&self.random, lines, &mut board);
        self.scratch.copy_from(&board);
        let answer = self.scratch.perform(&Call::Recovery);
        self.trace.push(foreign::recovery_on(&board.memory));
        self.note(&Call::Recovery, answer.number);
        self.tally.foreign(&board.memory, answer.number);
        answered(self.checks, &Call::Recovery, &board, &self.scratch, answer)?;
        if answer.number != 0 {
            return Ok(None);
        }
        let mut watched = Watched::before_recovery(board, self.checks);
        watched.call(&Call::Recovery)?;
        Ok(Some(watched))
    }

    /// "A sequence begins with state and rows as a finished format left them, whatever they were before its start"
    fn begin_at_format(&mut self, lines: u64) -> Result<Watched, Violation> {
        let mut board = Board::empty(self.mistake);
        board.resize(lines);
        let random = &self.random;
        board.memory.iter_mut().for_each(|word| *word = garbage::word(random));
        garbage::cut(&self.random, &mut board);
        loop {
            let workers = some_workers(&self.random, lines);
            let stop = if self.random.chance(1, 3) { self.random.below(lines + 2) } else { lines + 2 };
            self.begin_call(&Call::Format { lines, workers }, &mut board)?;
            for _ in 0..stop {
                self.begin_call(&Call::Step, &mut board)?;
            }
            if stop == lines + 2 {
                return Watched::begin(board, lines, self.checks);
            }
            self.trace.push("cut".into());
            self.tally.cuts += 1;
            garbage::cut(&self.random, &mut board);
        }
    }

    /// A call of the format that a sequence begins with; each is owed, whatever is checked.
    fn begin_call(&mut self, call: &Call, board: &mut Board) -> Result<(), Violation> {
        self.scratch.copy_from(board);
        let answer = board.perform(call);
        self.note(call, answer.number);
        answered(self.checks, call, &self.scratch, board, answer)?;
        let finding = ensure(answer.number == 0, || format!("{call:?} of a format was refused"));
        finding.map_err(|text| Violation { check: Check::Progress, text })
    }

    /// A call of the sequence.
    fn call(&mut self, call: &Call, beginning: Beginning, watched: &mut Watched) -> Result<(), Violation> {
        self.trace.push(format!("{call:?}"));
        let done = watched.call(call)?;
        self.tally.answer(call, done.answer.number);
        if let Some(foretold) = &done.foretold {
            self.tally.foretold(&foretold.lines, watched.marked_before());
        }
        match done.finished {
            Some(Finished::Format) => self.tally.formats += 1,
            Some(Finished::Checkpoint) => self.tally.checkpoint(&watched.board.state),
            Some(Finished::Recovery) => {
                self.tally.recoveries += 1;
                self.compare(beginning, watched)?;
            }
            None => {}
        }
        Ok(())
    }

    /// Statement 4: against the last recovered board of this size.
    fn compare(&mut self, beginning: Beginning, watched: &Watched) -> Result<(), Violation> {
        let (reads, values) = (watched.reads(), watched.promise.recovery_values.clone());
        if let Some(other) = self.others.get(&watched.lines()) {
            self.tally.compared(beginning, other.beginning);
            let alike = |cell: &usize| (reads[*cell] == other.reads[*cell]) == (values[*cell] == other.values[*cell]);
            let wrong = (0..reads.len()).find(|cell| !alike(cell));
            let text = || format!("cell {wrong:?} of two boards reads alike or not, unlike their checkpointed values");
            self.checks.run(Check::TwoBoards, || ensure(wrong.is_none(), text))?;
        }
        self.last = Some(Recovered { beginning, reads, values });
        Ok(())
    }

    /// A cut and what it leaves.
    fn cut(&mut self, watched: &mut Watched) -> Result<(), Violation> {
        self.trace.push("cut".into());
        self.tally.cuts += 1;
        let random = &self.random;
        watched.cut(|board| garbage::cut(random, board))
    }

    /// A call other than a start after a cut: lawful only if refused, so it is tried on a copy.
    fn probe_after_cut(&mut self, call: &Call, watched: &Watched) -> Result<(), Violation> {
        self.scratch.copy_from(&watched.board);
        self.probe_call(call)
    }

    /// A call on a board made up for it.
    fn probe(&mut self) -> Result<(), Violation> {
        garbage::board(&self.random, &mut self.scratch);
        let call = garbage::call(&self.random, &self.scratch.state);
        let call = garbage::damage_more(&self.aside, &mut self.scratch, call);
        self.probe_call(&call)?;
        if self.texts.chance(1, 3) {
            self.hex_texts()?;
        }
        Ok(())
    }

    /// Ticket 9 holds of any memory and any text.
    fn hex_texts(&mut self) -> Result<(), Violation> {
        let (texts, mistake, tally) = (&self.texts, self.mistake, &mut self.tally);
        self.checks.run(Check::Hex, || {
            tally.written[hex::writing(texts, mistake)? as usize] += 1;
            tally.read[hex::reading(texts, mistake)? as usize] += 1;
            Ok(())
        })
    }

    /// Demand 1, the complete outcome and statement 6 hold of any board.
    fn probe_call(&mut self, call: &Call) -> Result<(), Violation> {
        let mut board = self.scratch.clone();
        let answer = board.perform(call);
        self.tally.probes += 1;
        self.note(call, answer.number);
        answered(self.checks, call, &self.scratch, &board, answer)
    }

    /// Count a call and keep it for the trace.
    fn note(&mut self, call: &Call, number: u8) {
        self.trace.push(format!("{call:?} (answer {number})"));
        self.tally.answer(call, number);
    }
}
