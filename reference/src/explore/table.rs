//! The table "Why a call is turned down" with what 02 adds to it, a second time, as a list of causes and their numbers in
//! no order: the answer is the first number of `ORDER` whose cause holds. It shares no test with `causes`.

use crate::board::{Condition, Lent, Phase, State, Update};
use crate::call::Call;

/// A call on a board, as a cause looks at it.
struct Case<'a> {
    call: Call,
    state: &'a State,
    rows: Lent<'a>,
}

/// A part of a cause: the cause's number, a few words, and whether it holds.
type Part = (u8, &'static str, fn(&Case) -> bool);

/// The causes in the order in which they are tested: rising, "after 5" for 14, "after 7" for 15, "after 8" for 13 and 16.
pub const ORDER: [u8; 16] = [1, 2, 3, 4, 5, 14, 6, 7, 15, 8, 13, 16, 9, 10, 11, 12];

/// Where a cause stands in that order, from 1; 0 for none.
pub fn rank(cause: u8) -> usize {
    ORDER.iter().position(|known| *known == cause).map_or(0, |at| at + 1)
}

/// Every part of every cause.
const TABLE: [Part; 39] = [
    (12, "text row", |case| matches!(case.call, Call::Page { room } if (room as u128) < 68 * (case.two_l() + 1))),
    (11, "the last epoch", |case| {
        case.rows.cache.first() == Some(&u64::MAX) && (case.call == Call::Request || case.at_epoch_store())
    }),
    (10, "request while one stands", |case| case.call == Call::Request && case.state.requested),
    (10, "no request", |case| case.running_step() && !case.state.requested),
    (10, "a worker not waiting", |case| {
        case.running_step() && case.under_w().any(|(_, condition)| !case.waits(condition))
    }),
    (9, "another's update of the cell", |case| {
        case.begins().is_some_and(|(worker, cell)| case.updates().any(|(w, u)| w != worker && u.cell as u64 == cell))
    }),
    (
        16,
        "the cell's lock not held",
        |case| matches!(case.call, Call::Update { worker, cell, .. } if case.holder(cell % 16) != Some(worker)),
    ),
    (16, "a lock held", |case| {
        case.needed_lockless().is_some_and(|worker| (0..16).any(|k| case.holder(k) == Some(worker)))
    }),
    (16, "lock not free", |case| matches!(case.call, Call::Take { lock, .. } if case.holder(lock).is_some())),
    (
        16,
        "lock not held",
        |case| matches!(case.call, Call::GiveBack { worker, lock } if case.holder(lock) != Some(worker)),
    ),
    (13, "a checkpoint under way", |case| {
        matches!(case.call, Call::ComeBack { .. }) && case.state.requested && case.state.place != 0
    }),
    (8, "worker not free", |case| case.needed_free().is_some_and(|w| case.condition(w) != Some(Condition::Free))),
    (
        8,
        "worker not away",
        |case| matches!(case.call, Call::ComeBack { worker } if case.condition(worker) != Some(Condition::Away)),
    ),
    (
        8,
        "worker without update",
        |case| matches!(case.call, Call::Advance { worker } if !case.updates().any(|(w, _)| w == worker)),
    ),
    (8, "an unfinished update under the lock", |case| match case.call {
        Call::GiveBack { worker, lock } => case.data_updates().any(|(w, cell)| w == worker && cell % 16 == lock),
        _ => false,
    }),
    (
        15,
        "lock 16 or more",
        |case| matches!(case.call, Call::Take { lock, .. } | Call::GiveBack { lock, .. } if lock > 15),
    ),
    (7, "cell under W", |case| matches!(case.call, Call::Update { cell, .. } if cell < case.w())),
    (
        7,
        "cell 2L or more",
        |case| matches!(case.call, Call::Update { cell, .. } | Call::Read { cell } if cell as u128 >= case.two_l()),
    ),
    (7, "line over L", |case| matches!(case.call, Call::WriteBack { line } if line > case.l())),
    (6, "worker W or more", |case| case.named_worker().is_some_and(|worker| worker >= case.w())),
    (14, "a mark past the epoch", |case| case.header().is_some_and(|header| case.latest_mark() > header[0])),
    (5, "header's epoch", |case| case.header().is_some_and(|header| header[0] == 0)),
    (5, "header's L", |case| case.header().is_some_and(|header| header[1] as u128 + 1 != case.memory_lines())),
    (5, "header's W", |case| {
        case.header().is_some_and(|header| !limits(case.memory_lines().saturating_sub(1), header[2] as u128))
    }),
    (5, "header's words 3 to 7", |case| case.header().is_some_and(|header| header[3..].iter().any(|word| *word != 0))),
    (4, "memory's length at recovery", |case| {
        case.call == Call::Recovery && !(2..=512).any(|lines| 8 * lines == case.rows.memory.len())
    }),
    (4, "cache's length at recovery", |case| {
        case.call == Call::Recovery && case.rows.cache.len() != case.rows.memory.len()
    }),
    (4, "memory's length", |case| case.row_words().is_some_and(|words| case.rows.memory.len() as u128 != words)),
    (4, "cache's length", |case| case.row_words().is_some_and(|words| case.rows.cache.len() as u128 != words)),
    (3, "record's L or W", |case| case.not_start() && !limits(case.l() as u128, case.w() as u128)),
    (3, "a bit of line 0", |case| case.not_start() && case.is_set(0)),
    (3, "a bit past L", |case| case.not_start() && (case.l() + 1..512).any(|line| case.is_set(line))),
    (3, "a holder W or more", |case| {
        case.not_start() && (0..16).filter_map(|lock| case.holder(lock)).any(|holder| holder >= case.w())
    }),
    (3, "place in a format", |case| case.misplaced(Phase::Formatting)),
    (3, "place in a recovery", |case| case.misplaced(Phase::Recovering)),
    (3, "place in a checkpoint", |case| case.misplaced(Phase::Running)),
    (3, "a worker's cell", |case| {
        case.not_start() && case.updates().any(|(_, update)| update.cell as u128 >= case.two_l())
    }),
    (2, "phase", |case| !case.phase_allows()),
    (
        1,
        "a format's L or W",
        |case| matches!(case.call, Call::Format { lines, workers } if !limits(lines as u128, workers as u128)),
    ),
];

/// The answer that the table gives.
pub fn answer(call: &Call, state: &State, rows: Lent) -> u8 {
    causes(call, state, rows).first().copied().unwrap_or(0)
}

/// The numbers of all causes that hold, in the order in which they are tested.
pub fn causes(call: &Call, state: &State, rows: Lent) -> Vec<u8> {
    let case = Case { call: *call, state, rows };
    let mut numbers: Vec<u8> = TABLE.iter().filter(|(.., holds)| holds(&case)).map(|(number, ..)| *number).collect();
    numbers.sort_unstable_by_key(|number| rank(*number));
    numbers.dedup();
    numbers
}

/// The words of the part that an answer hangs on: the only one that holds of the cause that answers.
pub fn deciding_part(call: &Call, state: &State, rows: Lent) -> Option<&'static str> {
    let number = answer(call, state, rows);
    let case = Case { call: *call, state, rows };
    let mut parts = TABLE.iter().filter(|(known, _, holds)| *known == number && holds(&case));
    parts.next().filter(|_| parts.next().is_none()).map(|(_, words, _)| *words)
}

/// Every part of every cause in a few words, with the cause's number.
pub fn parts() -> impl Iterator<Item = (u8, &'static str)> {
    TABLE.iter().rev().map(|(number, words, _)| (*number, *words))
}

/// "L ... is 1 to 511. ... W ... is 1 to 8, and W < 2L."
fn limits(lines: u128, workers: u128) -> bool {
    (1..512).contains(&lines) && (1..9).contains(&workers) && workers < 2 * lines
}

impl Case<'_> {
    /// The state record's L.
    fn l(&self) -> u64 {
        self.state.lines.into()
    }

    /// The state record's W.
    fn w(&self) -> u64 {
        self.state.workers.into()
    }

    /// 2L
    fn two_l(&self) -> u128 {
        self.l() as u128 * 2
    }

    /// "not for the starts"
    fn not_start(&self) -> bool {
        !matches!(self.call, Call::Format { .. } | Call::Recovery)
    }

    /// Each worker under W with its condition.
    fn under_w(&self) -> impl Iterator<Item = (u64, &Condition)> {
        (0u64..).zip(self.state.worker.iter()).filter(|(worker, _)| *worker < self.w())
    }

    /// Each unfinished update of a worker under W.
    fn updates(&self) -> impl Iterator<Item = (u64, Update)> + '_ {
        self.under_w().filter_map(|(worker, condition)| match condition {
            Condition::Updating(update) => Some((worker, *update)),
            _ => None,
        })
    }

    /// The condition of a worker under W.
    fn condition(&self, worker: u64) -> Option<Condition> {
        self.under_w().find(|(known, _)| *known == worker).map(|(_, condition)| *condition)
    }

    /// The worker a call names.
    fn named_worker(&self) -> Option<u64> {
        match self.call {
            Call::Update { worker, .. } | Call::RestartPoint { worker, .. } | Call::Advance { worker } => Some(worker),
            Call::GoAway { worker } | Call::ComeBack { worker } => Some(worker),
            Call::Take { worker, .. } | Call::GiveBack { worker, .. } => Some(worker),
            _ => None,
        }
    }

    /// The worker that holds this lock, none for a free lock or one that there is not.
    fn holder(&self, lock: u64) -> Option<u64> {
        let holder = self.state.holders.get(usize::try_from(lock).ok()?)?;
        (*holder != 8).then_some((*holder).into())
    }

    /// The worker that must hold no lock for this call.
    fn needed_lockless(&self) -> Option<u64> {
        match self.call {
            Call::RestartPoint { worker, .. } | Call::GoAway { worker } => Some(worker),
            _ => None,
        }
    }

    /// Each worker under W in the middle of an update of a data cell, and that cell.
    fn data_updates(&self) -> impl Iterator<Item = (u64, u64)> + '_ {
        self.updates().map(|(worker, update)| (worker, update.cell.into())).filter(|(_, cell)| *cell >= self.w())
    }

    /// The worker and the cell of an update's or restart point's start.
    fn begins(&self) -> Option<(u64, u64)> {
        match self.call {
            Call::Update { worker, cell, .. } => Some((worker, cell)),
            Call::RestartPoint { worker, .. } => Some((worker, worker)),
            _ => None,
        }
    }

    /// The worker that must be free for this call.
    fn needed_free(&self) -> Option<u64> {
        match self.call {
            Call::GoAway { worker } | Call::Take { worker, .. } => Some(worker),
            _ => self.begins().map(|(worker, _)| worker),
        }
    }

    /// "away counts as waiting"
    fn waits(&self, condition: &Condition) -> bool {
        [Condition::Waiting, Condition::Away].contains(condition)
    }

    /// "Write-back needs recovering or running. The step call needs a phase other than off. All else needs running."
    fn phase_allows(&self) -> bool {
        let phase = self.state.phase;
        match self.call {
            Call::Format { .. } | Call::Recovery => true,
            Call::WriteBack { .. } => [Phase::Recovering, Phase::Running].contains(&phase),
            Call::Step => phase != Phase::Off,
            _ => phase == Phase::Running,
        }
    }

    /// "running step"
    fn running_step(&self) -> bool {
        self.call == Call::Step && self.state.phase == Phase::Running
    }

    /// "64 lines a word, the lowest bit first"
    fn is_set(&self, line: u64) -> bool {
        self.state.line_bits[line as usize / 64] & (1 << (line % 64)) != 0
    }

    /// "n is their count"
    fn n(&self) -> usize {
        (0..512).filter(|line| self.is_set(*line)).count()
    }

    /// "the epoch's store": the step at place n of a requested checkpoint.
    fn at_epoch_store(&self) -> bool {
        self.running_step() && self.state.requested && self.state.place as usize == self.n()
    }

    /// "place over L+1 in a format, a cell over 2L−1 in a recovery, over n+2 ... when running with ..."
    fn misplaced(&self, phase: Phase) -> bool {
        let place = self.state.place as u128;
        let past = match phase {
            Phase::Off => false,
            Phase::Formatting => place > self.l() as u128 + 1,
            Phase::Recovering => place + 1 > self.two_l(),
            Phase::Running => self.state.requested && place > self.n() as u128 + 2,
        };
        self.not_start() && self.state.phase == phase && past
    }

    /// The L that the rows must fit: a format's own, none for recovery's start, else the state record's.
    fn fitting_lines(&self) -> Option<u64> {
        match self.call {
            Call::Format { lines, .. } => Some(lines),
            Call::Recovery => None,
            _ => Some(self.l()),
        }
    }

    /// "8×(L+1) words", of the L that the rows must fit.
    fn row_words(&self) -> Option<u128> {
        self.fitting_lines().map(|lines| 8 * (lines as u128 + 1))
    }

    /// Memory's header at recovery's start, where there is a line.
    fn header(&self) -> Option<&[u64]> {
        self.rows.memory.get(..8).filter(|_| self.call == Call::Recovery)
    }

    /// The greatest mark in memory's cells, 0 where there is none.
    fn latest_mark(&self) -> u64 {
        let cells = 2 * (self.rows.memory.len() / 8).saturating_sub(1);
        let marks = (0..cells).map(|cell| self.rows.memory[8 + 8 * (cell / 2) + 3 * (cell % 2) + 2]);
        marks.max().unwrap_or(0)
    }

    /// "words div 8"
    fn memory_lines(&self) -> u128 {
        self.rows.memory.len() as u128 / 8
    }
}
