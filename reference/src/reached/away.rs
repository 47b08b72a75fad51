//! What ticket 2 has of its own: the cases that random fault scripts are to reach.

use crate::bits::count;
use crate::board::{Condition, Phase, State};
use crate::call::Call;

/// A call, its answer, and the records before and after it.
pub struct Scene<'a> {
    pub call: Call,
    pub number: u8,
    pub before: &'a State,
    pub after: &'a State,
}

/// A case in a few words, and whether a call is one.
type Case = (&'static str, fn(&Scene) -> bool);

/// Every case.
pub const CASES: [Case; 21] = [
    ("step taken, all away", |scene| scene.step_with(0, true, |away| away.all)),
    ("step taken, some away, the others waiting", |scene| scene.step_with(0, true, |away| away.any && !away.all)),
    ("step refused by 10, all away and no request", |scene| scene.step_with(10, false, |away| away.all)),
    ("step refused by 10, one away, another not waiting", |scene| scene.step_with(10, true, |away| away.any)),
    ("release, a worker under W away", |scene| scene.releases() && scene.away().any),
    ("release, a worker from W on away", |scene| scene.releases() && scene.away().past),
    ("end of a recovery, a worker away", |scene| scene.frees(Phase::Recovering)),
    ("end of a format, a worker away", |scene| scene.frees(Phase::Formatting)),
    ("start, a worker away", |scene| scene.call.is_start() && scene.number == 0 && scene.away().anybody()),
    ("coming back taken, a request and no step", |scene| scene.back(0) && scene.before.requested),
    ("coming back taken, no request and a place past 0", |scene| {
        scene.back(0) && !scene.before.requested && scene.before.place > 0
    }),
    ("coming back refused by 13, no line set", |scene| scene.back(13) && count(&scene.before.line_bits) == 0),
    ("coming back refused by 13, the release next", |scene| {
        scene.back(13) && scene.before.place == count(&scene.before.line_bits) + 2
    }),
    ("coming back of a free worker", |scene| scene.back(8) && scene.own() == Some(Condition::Free)),
    ("coming back of a waiting worker", |scene| scene.back(8) && scene.own() == Some(Condition::Waiting)),
    ("going away of a waiting worker", |scene| scene.leaves(8) && scene.own() == Some(Condition::Waiting)),
    ("going away of one away", |scene| scene.leaves(8) && scene.own() == Some(Condition::Away)),
    ("going away taken, a place past 0", |scene| scene.leaves(0) && scene.before.place > 0),
    ("update of one away", |scene| matches!(scene.call, Call::Update { .. }) && scene.busy_away()),
    ("restart point of one away", |scene| matches!(scene.call, Call::RestartPoint { .. }) && scene.busy_away()),
    ("advance of one away", |scene| matches!(scene.call, Call::Advance { .. }) && scene.busy_away()),
];

/// Who is away: all under W, any under W, any from W on.
struct Away {
    all: bool,
    any: bool,
    past: bool,
}

impl Away {
    /// Any of the eight.
    fn anybody(&self) -> bool {
        self.any || self.past
    }
}

impl Scene<'_> {
    /// Who was away before the call.
    fn away(&self) -> Away {
        let under = self.before.active_workers();
        let away = |condition: &Condition| *condition == Condition::Away;
        let past = self.before.worker[under.len()..].iter().any(away);
        Away { all: under.iter().all(away), any: under.iter().any(away), past }
    }

    /// A running step with this answer, with a request or without, those away as told.
    fn step_with(&self, number: u8, requested: bool, told: fn(Away) -> bool) -> bool {
        let running = self.call == Call::Step && self.before.phase == Phase::Running;
        running && self.number == number && self.before.requested == requested && told(self.away())
    }

    /// A release.
    fn releases(&self) -> bool {
        self.step_with(0, true, |_| true) && !self.after.requested
    }

    /// The end of a format or recovery with a worker away.
    fn frees(&self, phase: Phase) -> bool {
        self.before.phase == phase
            && self.call == Call::Step
            && self.after.phase == Phase::Running
            && self.away().anybody()
    }

    /// Coming back with this answer.
    fn back(&self, number: u8) -> bool {
        matches!(self.call, Call::ComeBack { .. }) && self.number == number
    }

    /// Going away with this answer.
    fn leaves(&self, number: u8) -> bool {
        matches!(self.call, Call::GoAway { .. }) && self.number == number
    }

    /// The condition of the worker that the call names.
    fn own(&self) -> Option<Condition> {
        let worker = match self.call {
            Call::Update { worker, .. } | Call::RestartPoint { worker, .. } | Call::Advance { worker } => worker,
            Call::GoAway { worker } | Call::ComeBack { worker } => worker,
            _ => return None,
        };
        self.before.worker.get(usize::try_from(worker).ok()?).copied()
    }

    /// Refused by 8, the worker being away.
    fn busy_away(&self) -> bool {
        self.number == 8 && self.own() == Some(Condition::Away)
    }
}
