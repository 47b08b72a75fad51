//! What ticket 6 has of its own: locks taken and given back, and calls that need one or must have none.

use super::away::Scene;
use crate::board::{Condition, Phase, Update};
use crate::call::Call;

/// A case in a few words, and whether a call is one.
type Case = (&'static str, fn(&Scene) -> bool);

/// Every case.
pub const LOCKS: [Case; 43] = [
    ("taken, a free lock", |scene| scene.takes(0)),
    ("take refused by 16, another's lock", |scene| scene.takes(16) && !scene.own_lock()),
    ("take refused by 16, one's own lock", |scene| scene.takes(16) && scene.own_lock()),
    ("take refused by 8, the lock not free either", |scene| scene.takes(8) && scene.holder().is_some()),
    ("take refused by 8, the lock free", |scene| scene.takes(8) && scene.holder().is_none()),
    ("take refused by 8, in the middle of an update", |scene| scene.takes(8) && scene.updated().is_some()),
    ("take refused by 8, a waiting worker", |scene| scene.takes(8) && scene.condition() == Some(Condition::Waiting)),
    ("take refused by 8, a worker away", |scene| scene.takes(8) && scene.condition() == Some(Condition::Away)),
    ("taken, a second lock", |scene| scene.takes(0) && scene.held() > 0),
    ("given back, no update unfinished", |scene| scene.gives(0) && scene.updated().is_none()),
    ("given back, in mid-update under another lock", |scene| scene.gives(0) && scene.under_another()),
    ("given back, in mid-update under the lock 8 apart", |scene| {
        scene.gives(0) && scene.under_another() && scene.cell_lock().map(|k| k ^ 8) == scene.lock()
    }),
    ("given back, in the middle of a restart point", |scene| {
        scene.gives(0) && scene.updated().is_some_and(|update| update.cell < scene.before.workers.into())
    }),
    ("give back refused by 8, in mid-update under it", |scene| scene.gives(8) && scene.own_lock()),
    ("give back refused by 8, not held either", |scene| scene.gives(8) && !scene.own_lock()),
    ("give back refused by 16, a free lock", |scene| scene.gives(16) && scene.holder().is_none()),
    ("give back refused by 16, another's lock", |scene| scene.gives(16) && scene.holder().is_some()),
    ("give back refused by 16, in mid-update under another", |scene| scene.gives(16) && scene.under_another()),
    ("refused by 15, lock 16", |scene| scene.number == 15 && scene.lock() == Some(16)),
    ("refused by 15, lock 255", |scene| scene.number == 15 && scene.lock() == Some(255)),
    ("refused by 15, lock 2^64 - 1", |scene| scene.number == 15 && scene.lock() == Some(u64::MAX)),
    ("refused by 15, the worker not free either", |scene| {
        scene.number == 15 && scene.condition() != Some(Condition::Free)
    }),
    ("taken and given back, lock 0", |scene| scene.passes(0)),
    ("taken and given back, lock 7", |scene| scene.passes(7)),
    ("taken and given back, lock 8", |scene| scene.passes(8)),
    ("taken and given back, lock 15", |scene| scene.passes(15)),
    ("update taken", |scene| scene.updates(0)),
    ("update taken, a cell whose lock is past 7", |scene| scene.updates(0) && scene.lock() > Some(7)),
    ("update taken, a cell past 15", |scene| scene.updates(0) && scene.cell() > Some(15)),
    ("update refused by 16, the lock free", |scene| scene.updates(16) && scene.holder().is_none()),
    ("update refused by 16, another's lock", |scene| scene.updates(16) && scene.holder().is_some()),
    ("update refused by 16, the lock 8 apart held", |scene| scene.updates(16) && scene.holds_8_apart()),
    ("update refused by 16, another updates the cell too", |scene| scene.updates(16) && scene.contended()),
    ("update refused by 8, the lock not held either", |scene| scene.updates(8) && !scene.own_lock()),
    ("update refused by 9", |scene| scene.updates(9)),
    ("restart point refused by 16", |scene| scene.restarts(16)),
    ("restart point refused by 16, its cell in use too", |scene| scene.restarts(16) && scene.contended()),
    ("restart point refused by 8, a lock held too", |scene| scene.restarts(8) && scene.held() > 0),
    ("going away refused by 16", |scene| scene.leaves_with(16)),
    ("going away refused by 8, a lock held too", |scene| scene.leaves_with(8) && scene.held() > 0),
    ("refused by 3, a holder W or more, running", |scene| scene.astray(Phase::Running)),
    ("refused by 3, a holder W or more, recovering", |scene| scene.astray(Phase::Recovering)),
    ("refused by 3, a holder W or more, formatting", |scene| scene.astray(Phase::Formatting)),
];

/// Cases of whole boards with locks held.
pub const KEPT: [Case; 6] = [
    ("recovery's start, locks held", |scene| scene.call == Call::Recovery && scene.number == 0 && scene.any_held()),
    ("format's start, locks held", |scene| {
        matches!(scene.call, Call::Format { .. }) && scene.number == 0 && scene.any_held()
    }),
    ("start, a holder W or more", |scene| {
        scene.call.is_start()
            && scene.number == 0
            && scene.before.holders.iter().any(|h| *h < 8 && *h >= scene.before.workers)
    }),
    ("release, locks held", |scene| {
        scene.call == Call::Step && scene.before.requested && !scene.after.requested && scene.any_held()
    }),
    ("end of a format, locks held", |scene| scene.ends_with_locks(Phase::Formatting)),
    ("end of a recovery, locks held", |scene| scene.ends_with_locks(Phase::Recovering)),
];

impl Scene<'_> {
    /// The worker that the call names.
    fn worker(&self) -> Option<u64> {
        match self.call {
            Call::Take { worker, .. } | Call::GiveBack { worker, .. } | Call::Update { worker, .. } => Some(worker),
            Call::RestartPoint { worker, .. } | Call::GoAway { worker } => Some(worker),
            _ => None,
        }
    }

    /// The lock that the call names, or its cell's.
    fn lock(&self) -> Option<u64> {
        match self.call {
            Call::Take { lock, .. } | Call::GiveBack { lock, .. } => Some(lock),
            Call::Update { cell, .. } => Some(cell % 16),
            _ => None,
        }
    }

    /// The cell that the call begins with.
    fn cell(&self) -> Option<u64> {
        match self.call {
            Call::Update { cell, .. } => Some(cell),
            Call::RestartPoint { worker, .. } => Some(worker),
            _ => None,
        }
    }

    /// Who held that lock before the call.
    fn holder(&self) -> Option<u64> {
        let holder = self.before.holders.get(usize::try_from(self.lock()?).ok()?)?;
        (*holder < 8).then_some(u64::from(*holder))
    }

    /// The worker itself held that lock.
    fn own_lock(&self) -> bool {
        self.holder().is_some() && self.holder() == self.worker()
    }

    /// How many locks the worker held.
    fn held(&self) -> usize {
        self.before.holders.iter().filter(|holder| Some(u64::from(**holder)) == self.worker()).count()
    }

    /// Somebody held a lock.
    fn any_held(&self) -> bool {
        self.before.holders.iter().any(|holder| *holder < 8)
    }

    /// The condition of the worker that the call names.
    fn condition(&self) -> Option<Condition> {
        self.before.worker.get(usize::try_from(self.worker()?).ok()?).copied()
    }

    /// The update that the worker was in the middle of.
    fn updated(&self) -> Option<Update> {
        match self.condition()? {
            Condition::Updating(update) => Some(update),
            _ => None,
        }
    }

    /// The lock of the data cell that the worker was in the middle of an update of.
    fn cell_lock(&self) -> Option<u64> {
        let cell = self.updated()?.cell;
        (cell >= self.before.workers.into()).then_some(u64::from(cell) % 16)
    }

    /// The worker was in the middle of an update under another lock.
    fn under_another(&self) -> bool {
        self.cell_lock().is_some() && self.cell_lock() != self.lock()
    }

    /// A take with this answer.
    fn takes(&self, number: u8) -> bool {
        matches!(self.call, Call::Take { .. }) && self.number == number
    }

    /// A lock given back, or not, with this answer.
    fn gives(&self, number: u8) -> bool {
        matches!(self.call, Call::GiveBack { .. }) && self.number == number
    }

    /// This lock was taken or given back.
    fn passes(&self, lock: u64) -> bool {
        (self.takes(0) || self.gives(0)) && self.lock() == Some(lock)
    }

    /// The start of an update with this answer.
    fn updates(&self, number: u8) -> bool {
        matches!(self.call, Call::Update { .. }) && self.number == number
    }

    /// The start of a restart point with this answer.
    fn restarts(&self, number: u8) -> bool {
        matches!(self.call, Call::RestartPoint { .. }) && self.number == number
    }

    /// Going away with this answer.
    fn leaves_with(&self, number: u8) -> bool {
        matches!(self.call, Call::GoAway { .. }) && self.number == number
    }

    /// Another worker under W was in the middle of an update of the cell that the call begins with.
    fn contended(&self) -> bool {
        let same = |condition: &Condition| condition.updates(|cell| Some(cell) == self.cell());
        let others = (0u64..).zip(self.before.active_workers()).filter(|(worker, _)| Some(*worker) != self.worker());
        others.map(|(_, condition)| condition).any(same)
    }

    /// The worker held the lock that is 8 from its cell's.
    fn holds_8_apart(&self) -> bool {
        let holder = self.lock().map(|lock| self.before.holders[lock as usize ^ 8]);
        holder.map(u64::from) == self.worker()
    }

    /// Refused by 3 in this phase, a holder being W or more.
    fn astray(&self, phase: Phase) -> bool {
        let past = |holder: &u8| *holder < 8 && *holder >= self.before.workers;
        self.number == 3 && self.before.phase == phase && self.before.holders.iter().any(past)
    }

    /// The end of a format or recovery with locks held before it.
    fn ends_with_locks(&self, phase: Phase) -> bool {
        self.before.phase == phase && self.after.phase == Phase::Running && self.call == Call::Step && self.any_held()
    }
}
