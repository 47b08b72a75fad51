//! What ticket 5 has of its own: line bits, checkpoints of several lines and counts that random fault scripts are to reach.

use super::away::Scene;
use crate::board::{Condition, Phase, State, Store, Update};
use crate::call::Call;

/// A case in a few words, and whether a call is one.
type Case = (&'static str, fn(&Scene) -> bool);

/// Every case.
pub const LINES: [Case; 28] = [
    ("count, no line set", |scene| scene.counts() && scene.set().is_empty()),
    ("count, every line set", |scene| scene.counts() && scene.set().len() == scene.l()),
    ("count, lines in several words", |scene| scene.counts() && scene.in_words()),
    ("count, a line in the eighth word", |scene| scene.counts() && scene.in_eighth()),
    ("count, line 511", |scene| scene.counts() && scene.set().contains(&511)),
    ("count, a request and no step", |scene| scene.counts() && scene.before.requested && scene.before.place == 0),
    ("count, a checkpoint under way", |scene| scene.counts() && scene.before.requested && scene.before.place > 0),
    ("count, after the epoch's store", |scene| scene.counts() && scene.before.requested && scene.place() > scene.n()),
    ("count, no request and everybody away", |scene| {
        scene.counts() && !scene.before.requested && scene.before.active_workers().iter().all(|c| *c == Condition::Away)
    }),
    ("call taken, the bit of line L", |scene| scene.taken() && scene.set().contains(&scene.l())),
    ("refused by 3, the bit of line L + 1", |scene| scene.number == 3 && scene.set().last() == Some(&(scene.l() + 1))),
    ("refused by 3, past L in the eighth word", |scene| scene.number == 3 && scene.in_eighth() && scene.l() < 448),
    ("refused by 3, past L and in the eighth word", |scene| {
        scene.number == 3 && scene.in_eighth() && (448..511).contains(&scene.l())
    }),
    ("refused by 3, the place n + 3", |scene| {
        scene.number == 3 && scene.running() && scene.before.requested && scene.place() == scene.n() + 3
    }),
    ("mark stored, its line not set yet", |scene| scene.marks().is_some_and(|line| !scene.set().contains(&line))),
    ("mark stored, its line set already", |scene| scene.marks().is_some_and(|line| scene.set().contains(&line))),
    ("mark stored, a line past the first word", |scene| scene.marks().is_some_and(|line| line >= 64)),
    ("mark stored, a line of the eighth word", |scene| scene.marks().is_some_and(|line| line >= 448)),
    ("step writes a line past the first word", |scene| scene.writes().is_some_and(|line| line >= 64)),
    ("step writes a line of the eighth word", |scene| scene.writes().is_some_and(|line| line >= 448)),
    ("step writes the last of several lines", |scene| {
        scene.writes().is_some() && scene.n() > 1 && scene.place() + 1 == scene.n()
    }),
    ("epoch's store, lines in several words", |scene| scene.steps_at(scene.n()) && scene.in_words()),
    ("release, several lines", |scene| scene.steps_at(scene.n() + 2) && scene.n() > 1),
    ("release, lines in several words", |scene| scene.steps_at(scene.n() + 2) && scene.in_words()),
    ("release, a line in the eighth word", |scene| scene.steps_at(scene.n() + 2) && scene.in_eighth()),
    ("end of a recovery, lines set", |scene| scene.ends(Phase::Recovering)),
    ("end of a format, lines set", |scene| scene.ends(Phase::Formatting)),
    ("start, lines set", |scene| scene.call.is_start() && scene.number == 0 && scene.n() > 0),
];

/// The lines whose bit is set.
fn set(state: &State) -> Vec<usize> {
    (0..512).filter(|line| state.line_bits[line / 64] >> (line % 64) & 1 == 1).collect()
}

impl Scene<'_> {
    /// The lines that were set before the call.
    fn set(&self) -> Vec<usize> {
        set(self.before)
    }

    /// How many these were.
    fn n(&self) -> usize {
        self.set().len()
    }

    /// The record's L.
    fn l(&self) -> usize {
        self.before.lines.into()
    }

    /// The place before the call.
    fn place(&self) -> usize {
        self.before.place.into()
    }

    /// The record says running.
    fn running(&self) -> bool {
        self.before.phase == Phase::Running
    }

    /// A call other than a start on a running board, taken.
    fn taken(&self) -> bool {
        self.number == 0 && self.running() && !self.call.is_start()
    }

    /// A count that is taken.
    fn counts(&self) -> bool {
        self.call == Call::Count && self.number == 0
    }

    /// Lines were set in two words or more.
    fn in_words(&self) -> bool {
        self.before.line_bits.iter().filter(|word| **word != 0).count() > 1
    }

    /// A line of the eighth word was set.
    fn in_eighth(&self) -> bool {
        self.before.line_bits[7] != 0
    }

    /// The line of a cell whose mark is stored.
    fn marks(&self) -> Option<usize> {
        let Call::Advance { worker } = self.call else { return None };
        match self.before.worker.get(worker as usize) {
            Some(Condition::Updating(Update { cell, next: Store::Mark, .. })) if self.number == 0 => {
                Some(1 + usize::from(*cell) / 2)
            }
            _ => None,
        }
    }

    /// A checkpoint's step at this place, taken.
    fn steps_at(&self, place: usize) -> bool {
        self.taken() && self.call == Call::Step && self.place() == place
    }

    /// The set line that a checkpoint's step writes.
    fn writes(&self) -> Option<usize> {
        self.set().get(self.place()).copied().filter(|_| self.steps_at(self.place()))
    }

    /// The end of a format or recovery with lines set before it.
    fn ends(&self, phase: Phase) -> bool {
        let ends = self.before.phase == phase && self.after.phase == Phase::Running;
        ends && self.call == Call::Step && self.n() > 0
    }
}
