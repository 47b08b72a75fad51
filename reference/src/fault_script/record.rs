//! State records outside their limits, one field at a time.

use super::Script;
use crate::board::Phase;
use crate::call::Call;
use crate::damage::Damage;

impl Script {
    /// A field of the record, a holder, or a worker's cell, outside its limits; at the last epoch place and bits stay.
    pub(super) fn record_fault(&mut self, call: &Call) -> Vec<Damage> {
        let (lines, workers, cells) = (self.lines(), self.workers(), self.cells());
        let random = &self.random;
        let far = random.pick(&[32_768, 65_535]);
        let kind = match call {
            Call::Step if self.board.cache.first() == Some(&u64::MAX) => random.pick(&[0, 1, 4, 5]),
            _ => random.pick(&[0, 1, 2, 2, 3, 4, 5]),
        };
        match kind {
            0 => vec![Damage::Field { k: 1, number: random.pick(&[0, 512, far, workers / 2, lines | 512]) }],
            1 => vec![Damage::Field {
                k: 2,
                number: random.pick(&[0, 9, 255, cells.clamp(2, 9), 128 + workers]).min(255),
            }],
            2 => vec![self.bit_astray()],
            3 => self.place_fault(far),
            4 => vec![self.holder_astray()],
            _ => {
                let worker = random.below(workers.clamp(1, 8));
                let cell = random.pick(&[cells, cells, cells + 1, far]).min(65_535);
                vec![Damage::Worker { worker, numbers: [2, random.below(3), cell, self.word()] }]
            }
        }
    }

    /// A place past its limit in the phase; when running, with a request that stands.
    fn place_fault(&mut self, far: u64) -> Vec<Damage> {
        let (phase, limit) = match self.board.state.phase {
            Phase::Formatting => (1, self.lines() + 2),
            Phase::Recovering => (2, self.cells()),
            _ => (3, self.n() + 3),
        };
        let number = self.random.pick(&[limit, limit, limit + 1, far]).min(65_535);
        let mut damages = vec![Damage::Field { k: 4, number }];
        if phase == 3 && self.running() && !self.board.state.requested {
            damages.push(Damage::Field { k: 6, number: 1 });
        }
        damages
    }

    /// Rows that do not fit: for a format's start also by its own L.
    pub(super) fn rows_fault(&mut self, call: &mut Call) -> Vec<Damage> {
        match *call {
            Call::Format { workers, .. } if self.random.chance(1, 4) => {
                let other = self.random.pick(&[self.lines() + 1, self.lines().saturating_sub(1), 511, 5]);
                *call = Call::Format { lines: other, workers: workers.min(2 * other.max(1) - 1) };
                Vec::new()
            }
            _ => vec![self.lengths_fault()],
        }
    }
}
