//! The simple machine of 01. It is fed calls and whether they were taken, and never sees the board.
//! Cuts and refused calls change nothing in it, so it is fed neither.

use crate::call::Call;
use crate::line::MOST_WORKERS;

/// "for each cell a current and a checkpointed value and whether it is marked"
#[derive(Clone, Copy, PartialEq, Eq, Debug)]
pub struct Value {
    pub current: u64,
    pub checkpointed: u64,
    pub marked: bool,
}

/// "an unfinished update (cell, value, stores left)"
#[derive(Clone, Copy, PartialEq, Eq, Debug)]
pub struct Unfinished {
    pub cell: u64,
    pub value: u64,
    pub left: u8,
}

/// All that the simple machine holds.
#[derive(Clone, PartialEq, Eq, Debug)]
pub struct Machine {
    pub values: Vec<Value>,
    pub updates: [Option<Unfinished>; MOST_WORKERS],
    pub requested: bool,
    /// "the steps since the last start or request"
    pub steps: u64,
    /// The last start was a format of so many lines, which is not finished.
    pub formatting: Option<u64>,
}

impl Machine {
    /// "At a finished format, where it begins, values are 0, with no marks, updates or request."
    pub fn begin(cells: u64) -> Machine {
        Machine::begin_with(&vec![0; cells as usize])
    }

    /// Where it begins at a recovery's start: these are both values of each cell.
    pub fn begin_with(values: &[u64]) -> Machine {
        let both = |value: &u64| Value { current: *value, checkpointed: *value, marked: false };
        Machine {
            values: values.iter().map(both).collect(),
            updates: [None; MOST_WORKERS],
            requested: false,
            steps: 0,
            formatting: None,
        }
    }

    /// A taken call.
    pub fn taken(&mut self, call: &Call) {
        match *call {
            Call::Format { lines, .. } => self.start(Some(lines)),
            Call::Recovery => {
                self.start(None);
                for value in &mut self.values {
                    value.current = value.checkpointed;
                    value.marked = false;
                }
            }
            Call::Step => self.step(),
            Call::Update { worker, cell, value } => self.update(worker, cell, value),
            Call::RestartPoint { worker, value } => self.update(worker, worker, value),
            Call::Advance { worker } => self.advance(worker as usize),
            Call::Request => {
                self.requested = true;
                self.steps = 0;
            }
            Call::WriteBack { line } => self.write_back(line),
            Call::Read { .. } | Call::Page { .. } | Call::Count => {}
            Call::GoAway { .. } | Call::ComeBack { .. } | Call::Take { .. } | Call::GiveBack { .. } => {}
        }
    }

    /// "A start drops updates and request."
    fn start(&mut self, format: Option<u64>) {
        self.updates = [None; MOST_WORKERS];
        self.requested = false;
        self.steps = 0;
        self.formatting = format;
    }

    /// "one store left if the cell is marked, else three"
    fn update(&mut self, worker: u64, cell: u64, value: u64) {
        let left = if self.values[cell as usize].marked { 1 } else { 3 };
        self.updates[worker as usize] = Some(Unfinished { cell, value, left });
    }

    /// "one left fewer. At one the cell is marked; at none the value becomes current and the update is over."
    fn advance(&mut self, worker: usize) {
        let Some(update) = self.updates[worker].as_mut() else {
            return;
        };
        update.left -= 1;
        let value = &mut self.values[update.cell as usize];
        match update.left {
            0 => {
                value.current = update.value;
                self.updates[worker] = None;
            }
            1 => value.marked = true,
            _ => {}
        }
    }

    /// Whether each of the lines 1 to L has a marked cell.
    pub fn marked_lines(&self) -> impl Iterator<Item = bool> + '_ {
        self.values.chunks(2).map(|line| line.iter().any(|value| value.marked))
    }

    /// n, "that of the lines with a marked cell"
    fn n(&self) -> u64 {
        self.marked_lines().filter(|marked| *marked).count() as u64
    }

    /// "Step L+2 after a format's start", "Step n+1 after a request ..., step n+3", "by step n+2"
    fn step(&mut self) {
        self.steps += 1;
        if self.formatting.is_some_and(|lines| self.steps == lines + 2) {
            *self = Machine::begin(self.values.len() as u64);
        } else if self.requested {
            let n = self.n();
            if self.steps == n + 2 {
                self.complete();
            }
            if self.steps == n + 3 {
                self.values.iter_mut().for_each(|value| value.marked = false);
                self.requested = false;
            }
        }
    }

    /// "by a call between steps n+1 and n+3 while that request stands"
    fn write_back(&mut self, line: u64) {
        if line == 0 && self.requested {
            let n = self.n();
            if self.steps == n + 1 || self.steps == n + 2 {
                self.complete();
            }
        }
    }

    /// "current is copied to checkpointed, the checkpoint is complete"
    fn complete(&mut self) {
        self.values.iter_mut().for_each(|value| value.checkpointed = value.current);
    }
}
