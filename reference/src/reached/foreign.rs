//! What ticket 4 has of its own: foreign memories, and what becomes of them.

use crate::board::{Board, Phase, State};
use crate::call::Call;
use crate::damage::Damage;
use crate::drill;
use crate::fault::Command;

/// Where the memory of a script's board comes from.
#[derive(Clone, Copy, PartialEq, Eq, Debug, Default)]
pub struct Origin {
    /// Words of memory were put there since the last start that was taken.
    swapped: bool,
    /// A recovery's start took such a memory since the last format.
    foreign: bool,
}

impl Origin {
    /// A line that was carried out, with its answer.
    pub fn note(&mut self, command: &Command, number: u8) {
        match command {
            Command::Damage(Damage::Memory { .. }) => self.swapped = true,
            Command::ReadHex { .. } if number == 0 => self.swapped = true,
            Command::Drill(drill::Command::Call(Call::Recovery)) if number == 0 => {
                self.foreign |= self.swapped;
                self.swapped = false;
            }
            Command::Drill(drill::Command::Format { .. } | drill::Command::Call(Call::Format { .. }))
                if number == 0 =>
            {
                *self = Origin::default();
            }
            _ => {}
        }
    }
}

/// A call with its answer, the record before it, the board after it, and where its memory came from before it.
pub struct Scene<'a> {
    pub call: Call,
    pub number: u8,
    pub before: &'a State,
    pub board: &'a Board,
    pub origin: Origin,
}

/// A case in a few words, and whether a call is one.
type Case = (&'static str, fn(&Scene) -> bool);

/// Every case.
pub const MEMORIES: [Case; 15] = [
    ("start taken", |scene| scene.start(0)),
    ("start taken, the last cell's mark the epoch", |scene| scene.start(0) && scene.last_mark() == scene.epoch()),
    ("start taken, a mark one below the epoch and not 0", |scene| {
        scene.start(0) && scene.epoch() > 1 && scene.marks().any(|mark| mark == scene.epoch() - 1)
    }),
    ("start taken, something in words 6 and 7", |scene| scene.start(0) && scene.has_spare()),
    ("start taken, the last epoch", |scene| scene.start(0) && scene.epoch() == u64::MAX),
    ("start refused by 5", |scene| scene.start(5)),
    ("start refused by 5, a mark past the epoch", |scene| scene.start(5) && scene.past() > 0),
    ("start refused by 14", |scene| scene.start(14)),
    ("start refused by 14, the last cell's mark alone past", |scene| {
        scene.start(14) && scene.past() == 1 && scene.last_mark() > scene.epoch()
    }),
    ("start refused by 14, marks past by one alone", |scene| {
        scene.start(14) && scene.marks().max() == scene.epoch().checked_add(1)
    }),
    ("recovery of it finished", |scene| {
        scene.works(Call::Step) && scene.before.phase == Phase::Recovering && scene.board.state.phase == Phase::Running
    }),
    ("update on it taken", |scene| scene.origin.foreign && scene.number == 0 && scene.updates()),
    ("checkpoint on it released", |scene| {
        scene.works(Call::Step) && scene.before.requested && !scene.board.state.requested
    }),
    ("its own memory taken again", |scene| scene.works(Call::Recovery) && !scene.origin.swapped),
    ("request on it refused by 11", |scene| {
        scene.origin.foreign && scene.number == 11 && scene.call == Call::Request && scene.epoch() == u64::MAX
    }),
];

impl Scene<'_> {
    /// A recovery's start on foreign memory with this answer.
    fn start(&self, number: u8) -> bool {
        self.call == Call::Recovery && self.origin.swapped && self.number == number
    }

    /// This call, taken on a board whose memory was foreign.
    fn works(&self, call: Call) -> bool {
        self.origin.foreign && self.call == call && self.number == 0
    }

    /// The start of an update or restart point.
    fn updates(&self) -> bool {
        matches!(self.call, Call::Update { .. } | Call::RestartPoint { .. })
    }

    /// Memory's epoch.
    fn epoch(&self) -> u64 {
        self.board.memory[0]
    }

    /// The marks of memory's cells.
    fn marks(&self) -> impl Iterator<Item = u64> + '_ {
        self.board.memory.chunks_exact(8).skip(1).flat_map(|line| [line[2], line[5]])
    }

    /// The last cell's mark.
    fn last_mark(&self) -> u64 {
        self.marks().last().unwrap_or(0)
    }

    /// How many marks are past the epoch.
    fn past(&self) -> usize {
        self.marks().filter(|mark| *mark > self.epoch()).count()
    }

    /// Words 6 and 7 of a cell line are both not 0.
    fn has_spare(&self) -> bool {
        self.board.memory.chunks_exact(8).skip(1).any(|line| line[6] != 0 && line[7] != 0)
    }
}
