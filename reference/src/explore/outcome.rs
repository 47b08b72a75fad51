//! What a taken call leaves, a second time: told field by field and word by word, not call by call as in `effects`.

use super::check::{ensure, Finding};
use super::count::set_lines;
use crate::board::{Board, Condition, Phase, State, Store, UndoStep, Update};
use crate::call::Call;

/// The complete outcome of a taken call: state record and each lent word.
pub fn complete(call: &Call, before: &Board, after: &Board) -> Finding {
    let told = Told { call: *call, board: before };
    let state = told.state();
    ensure(after.state == state, || format!("{call:?} left the state {:?}, not {state:?}", after.state))?;
    let (memory, cache) = (told.memory(), told.cache());
    ensure(after.memory == memory, || format!("{call:?} left memory {:?}, not {memory:?}", after.memory))?;
    ensure(after.cache == cache, || format!("{call:?} left the cache {:?}, not {cache:?}", after.cache))
}

/// Where a cell's record, backup or mark (0, 1, 2) stands.
fn at(cell: u16, field: usize) -> usize {
    let cell = cell as usize;
    8 * (1 + (cell >> 1)) + 3 * (cell & 1) + field
}

/// A taken call and the board it is made on.
struct Told<'a> {
    call: Call,
    board: &'a Board,
}

impl Told<'_> {
    /// A step in this phase.
    fn step_in(&self, phase: Phase) -> bool {
        self.call == Call::Step && self.board.state.phase == phase
    }

    /// The cell at a recovery's place is to be undone.
    fn marked(&self) -> bool {
        self.board.cache[at(self.board.state.place, 2)] == self.board.cache[0]
    }

    /// This step is the last one of its cell.
    fn leaves_cell(&self) -> bool {
        match self.board.state.undo {
            UndoStep::Record => !self.marked(),
            UndoStep::Mark => false,
            UndoStep::WriteBack => true,
        }
    }

    /// The end of a format or recovery.
    fn begins_running(&self) -> bool {
        let state = &self.board.state;
        (self.step_in(Phase::Formatting) && state.place == state.lines + 1)
            || (self.step_in(Phase::Recovering) && state.place == 2 * state.lines - 1 && self.leaves_cell())
    }

    /// "release, with all eight workers free, ... request gone", but by ticket 2 "Release leaves it away"
    fn releases(&self) -> bool {
        self.step_in(Phase::Running) && self.board.state.place as usize == self.n() + 2
    }

    /// "n is their count"
    fn n(&self) -> usize {
        set_lines(&self.board.state).len()
    }

    /// The update that an advance is about.
    fn advanced(&self) -> Option<Update> {
        let Call::Advance { worker } = self.call else {
            return None;
        };
        match self.board.state.worker[worker as usize] {
            Condition::Updating(update) => Some(update),
            _ => None,
        }
    }

    /// The line whose bit is set.
    fn marked_line(&self) -> Option<usize> {
        self.advanced().filter(|update| update.next == Store::Mark).map(|update| 1 + update.cell as usize / 2)
    }

    /// The line that is written back.
    fn written(&self) -> Option<usize> {
        let state = &self.board.state;
        let line = |cell: u16| 1 + cell as usize / 2;
        match self.call {
            Call::WriteBack { line } => Some(line as usize),
            Call::Step if state.phase == Phase::Recovering => {
                (state.undo == UndoStep::WriteBack).then(|| line(state.place))
            }
            Call::Step if state.phase == Phase::Running => {
                let (set, place) = (set_lines(state), state.place as usize);
                let header = (place == set.len() + 1).then_some(0);
                set.get(place).copied().or(header)
            }
            _ => None,
        }
    }

    /// The one word of the cache that is stored, and what.
    fn stored(&self) -> Option<(usize, u64)> {
        let (state, cache) = (&self.board.state, &self.board.cache);
        if let Some(Update { cell, value, next }) = self.advanced() {
            return Some(match next {
                Store::Backup => (at(cell, 1), cache.get(at(cell, 0)).copied().unwrap_or(0)),
                Store::Mark => (at(cell, 2), cache[0]),
                Store::Record => (at(cell, 0), value),
            });
        }
        if self.step_in(Phase::Recovering) {
            return match state.undo {
                UndoStep::Record => self.marked().then(|| (at(state.place, 0), cache[at(state.place, 1)])),
                UndoStep::Mark => Some((at(state.place, 2), 0)),
                UndoStep::WriteBack => None,
            };
        }
        (self.step_in(Phase::Running) && state.place as usize == self.n()).then(|| (0, cache[0] + 1))
    }

    /// The word that a format's step puts into both rows.
    fn formatted(&self, index: usize) -> Option<u64> {
        let state = &self.board.state;
        let last = u32::from(state.place) == u32::from(state.lines) + 1;
        let line = if last { 0 } else { state.place as usize };
        let word = match index {
            0 if last => 1,
            1 if last => state.lines as u64,
            2 if last => state.workers as u64,
            _ => 0,
        };
        (self.step_in(Phase::Formatting) && index / 8 == line).then_some(word)
    }

    /// Each word of memory.
    fn memory(&self) -> Vec<u64> {
        let (written, cache) = (self.written(), &self.board.cache);
        let old = |index: usize, word: u64| {
            if Some(index / 8) == written {
                cache[index]
            } else {
                word
            }
        };
        let words = self.board.memory.iter().enumerate();
        words.map(|(index, word)| self.formatted(index).unwrap_or(old(index, *word))).collect()
    }

    /// Each word of the cache.
    fn cache(&self) -> Vec<u64> {
        let stored = self.stored();
        let row = if self.call == Call::Recovery { &self.board.memory } else { &self.board.cache };
        let old = |index: usize, word: u64| stored.filter(|(place, _)| *place == index).map_or(word, |(_, new)| new);
        let words = row.iter().enumerate();
        words.map(|(index, word)| self.formatted(index).unwrap_or(old(index, *word))).collect()
    }

    /// Each of the eight words of bits.
    fn line_bits(&self) -> [u64; 8] {
        let emptied =
            self.call.is_start() || self.releases() || (self.begins_running() && self.step_in(Phase::Formatting));
        let new = |at: usize| self.marked_line().filter(|line| line / 64 == at).map_or(0, |line| 1 << (line % 64));
        std::array::from_fn(|at| if emptied { 0 } else { self.board.state.line_bits[at] | new(at) })
    }

    /// Each lock's holder, 8 for nobody: "Both starts free all locks."
    fn holders(&self) -> [u8; 16] {
        std::array::from_fn(|index| match self.call {
            Call::Format { .. } | Call::Recovery => 8,
            Call::Take { worker, lock } if lock == index as u64 => worker as u8,
            Call::GiveBack { lock, .. } if lock == index as u64 => 8,
            _ => self.board.state.holders[index],
        })
    }

    /// Each field of the state record.
    fn state(&self) -> State {
        let (old, memory) = (&self.board.state, &self.board.memory);
        let (phase, lines, workers) = match self.call {
            Call::Format { lines, workers } => (Phase::Formatting, lines as u16, workers as u8),
            Call::Recovery => (Phase::Recovering, memory[1] as u16, memory[2] as u8),
            _ if self.begins_running() => (Phase::Running, old.lines, old.workers),
            _ => (old.phase, old.lines, old.workers),
        };
        let dropped = self.call.is_start() || self.releases();
        let requested = !dropped && (old.requested || self.call == Call::Request);
        let (place, undo) = self.place();
        let worker = std::array::from_fn(|index| self.condition(index));
        let (line_bits, holders) = (self.line_bits(), self.holders());
        State { phase, lines, workers, place, undo, requested, worker, line_bits, holders }
    }

    /// "A request, a release and the end of a format or recovery set the place to 0."
    fn place(&self) -> (u16, UndoStep) {
        let old = &self.board.state;
        if self.call.is_start() || self.call == Call::Request || self.releases() || self.begins_running() {
            return (0, UndoStep::Record);
        }
        match (self.call, old.phase, old.undo) {
            (Call::Step, Phase::Recovering, _) if self.leaves_cell() => (old.place + 1, UndoStep::Record),
            (Call::Step, Phase::Recovering, UndoStep::Record) => (old.place, UndoStep::Mark),
            (Call::Step, Phase::Recovering, _) => (old.place, UndoStep::WriteBack),
            (Call::Step, _, undo) => (old.place + 1, undo),
            (_, _, undo) => (old.place, undo),
        }
    }

    /// One worker's condition.
    fn condition(&self, index: usize) -> Condition {
        let old = &self.board.state;
        if self.call.is_start() || self.begins_running() {
            return Condition::Free;
        }
        match self.call {
            Call::Step if self.releases() && old.worker[index] != Condition::Away => Condition::Free,
            Call::GoAway { worker } if worker as usize == index => Condition::Away,
            Call::ComeBack { worker } if worker as usize == index => Condition::Free,
            Call::Update { worker, cell, value } if worker as usize == index => self.begun(cell, value),
            Call::RestartPoint { worker, value } if worker as usize == index => self.begun(worker, value),
            Call::Advance { worker } if worker as usize == index => {
                self.advanced().map_or(Condition::Free, |u| self.further(u))
            }
            _ => old.worker[index],
        }
    }

    /// "If the mark differs from the cache's epoch, three advances follow ... If ... equals ..., only the last."
    fn begun(&self, cell: u64, value: u64) -> Condition {
        let cell = cell as u16;
        let same = self.board.cache[at(cell, 2)] == self.board.cache[0];
        Condition::Updating(Update { cell, value, next: if same { Store::Record } else { Store::Backup } })
    }

    /// "At the last store the worker becomes waiting if a checkpoint is requested by then, else free."
    fn further(&self, update: Update) -> Condition {
        let restart_point = update.cell < self.board.state.workers as u16;
        match update.next {
            Store::Backup => Condition::Updating(Update { next: Store::Mark, ..update }),
            Store::Mark => Condition::Updating(Update { next: Store::Record, ..update }),
            Store::Record if restart_point && self.board.state.requested => Condition::Waiting,
            Store::Record => Condition::Free,
        }
    }
}
