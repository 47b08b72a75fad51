//! `explore --exhaustive`: every reachable state of the smallest board, breadth first: from a format, then from foreign
//! memories whose backups are their records, then from such with other backups.

use std::collections::HashSet;
use std::fmt;

use super::check::{Check, Checks, Violation};
use super::foreign::{recovery_on, smallest};
use super::key::{decode, encode, Key};
use super::watched::{answered, Watched};
use super::Caught;
use crate::board::{Board, Phase, State};
use crate::call::Call;
use crate::mistake::Mistake;

/// "three epochs": no request is made in this one.
const LAST_EPOCH: u64 = 3;

/// Every call of the smallest board with two values and two locks, refused ones too.
const CALLS: [Call; 27] = [
    Call::Format { lines: 1, workers: 1 },
    Call::Recovery,
    Call::Step,
    Call::Update { worker: 0, cell: 1, value: 1 },
    Call::Update { worker: 0, cell: 1, value: 2 },
    Call::Update { worker: 0, cell: 0, value: 1 },
    Call::RestartPoint { worker: 0, value: 1 },
    Call::RestartPoint { worker: 0, value: 2 },
    Call::Advance { worker: 0 },
    Call::Request,
    Call::WriteBack { line: 0 },
    Call::WriteBack { line: 1 },
    Call::Read { cell: 0 },
    Call::Read { cell: 1 },
    Call::Read { cell: 2 },
    Call::Page { room: 203 },
    Call::Page { room: 204 },
    Call::Page { room: 205 },
    Call::GoAway { worker: 0 },
    Call::ComeBack { worker: 0 },
    Call::Count,
    Call::Take { worker: 0, lock: 1 },
    Call::Take { worker: 0, lock: 15 },
    Call::Take { worker: 0, lock: 16 },
    Call::GiveBack { worker: 0, lock: 1 },
    Call::GiveBack { worker: 0, lock: 15 },
    Call::GiveBack { worker: 0, lock: 16 },
];

/// How much was seen.
#[derive(Clone, Copy, PartialEq, Eq, Debug, Default)]
pub struct Reached {
    pub states: u64,
    /// Those of them that are reached from a format.
    pub from_format: u64,
    pub transitions: u64,
    pub refused: u64,
    /// Foreign memories that a recovery's start took, and that it refused.
    pub taken_memories: u64,
    pub refused_memories: u64,
}

impl fmt::Display for Reached {
    fn fmt(&self, out: &mut fmt::Formatter) -> fmt::Result {
        writeln!(out, "states {}, of them from a format {}", self.states, self.from_format)?;
        writeln!(out, "foreign memories taken {}, refused {}", self.taken_memories, self.refused_memories)?;
        writeln!(out, "transitions {}", self.transitions)?;
        writeln!(out, "refused calls {}", self.refused)
    }
}

/// How a state was first reached.
#[derive(Clone, Copy)]
enum From {
    Format,
    /// By a recovery's start on this memory.
    Memory([u64; 16]),
    /// By an event from another state: a call's index, past them a cut.
    Event {
        parent: usize,
        event: usize,
    },
}

/// A state, and how it was first reached.
struct Node {
    key: Key,
    from: From,
}

/// A search under way.
#[derive(Default)]
struct Search {
    nodes: Vec<Node>,
    seen: HashSet<Key>,
    visited: usize,
    reached: Reached,
}

/// Visit every state; how many there are, or the shortest way from its kind of beginning to a violation.
pub fn exhaust(mistake: Option<Mistake>, only: Option<Check>) -> Result<Reached, Caught> {
    let checks = Checks { only };
    let caught = |violation| Caught { violation, trace: Vec::new() };
    let mut watched = Watched::begin(formatted(mistake), 1, checks).map_err(caught)?;
    let mut search = Search::default();
    search.note(&watched, From::Format);
    search.visit(&mut watched)?;
    search.reached.from_format = search.nodes.len() as u64;
    for alike in [true, false] {
        for memory in smallest(alike) {
            let caught = |violation| Caught { violation, trace: vec![recovery_on(&memory)] };
            search.begin_at_recovery(memory, mistake, checks).map_err(caught)?;
        }
        search.visit(&mut watched)?;
    }
    Ok(Reached { states: search.nodes.len() as u64, ..search.reached })
}

impl Search {
    /// Keep a state that was not seen before.
    fn note(&mut self, watched: &Watched, from: From) {
        let key = encode(watched);
        if self.seen.insert(key) {
            self.nodes.push(Node { key, from });
        }
    }

    /// Every event from every state that is not visited yet.
    fn visit(&mut self, watched: &mut Watched) -> Result<(), Caught> {
        while self.visited < self.nodes.len() {
            let at = self.visited;
            for event in 0..=CALLS.len() {
                decode(&self.nodes[at].key, watched);
                if let Err(violation) = self.event(at, event, watched) {
                    return Err(Caught { violation, trace: self.path(at, event) });
                }
            }
            self.visited += 1;
            if self.visited.is_multiple_of(100_000) {
                eprintln!("{} states visited, {} known", self.visited, self.nodes.len());
            }
        }
        Ok(())
    }

    /// A recovery's start on foreign memory: a beginning if it is taken.
    fn begin_at_recovery(
        &mut self,
        memory: [u64; 16],
        mistake: Option<Mistake>,
        checks: Checks,
    ) -> Result<(), Violation> {
        let mut board = formatted(mistake);
        forget(&mut board);
        board.memory.copy_from_slice(&memory);
        let mut after = board.clone();
        let answer = after.perform(&Call::Recovery);
        answered(checks, &Call::Recovery, &board, &after, answer)?;
        if answer.number != 0 {
            self.reached.refused_memories += 1;
            return Ok(());
        }
        self.reached.taken_memories += 1;
        let mut watched = Watched::before_recovery(board, checks);
        watched.call(&Call::Recovery)?;
        self.note(&watched, From::Memory(memory));
        Ok(())
    }

    /// One event from a state.
    fn event(&mut self, at: usize, event: usize, watched: &mut Watched) -> Result<(), Violation> {
        match CALLS.get(event) {
            Some(Call::Request) if !watched.cut && watched.board.cache[0] >= LAST_EPOCH => return Ok(()),
            Some(call) => {
                if watched.call(call)?.answer.number != 0 {
                    self.reached.refused += 1;
                    return Ok(());
                }
            }
            None => watched.cut(forget)?,
        }
        self.reached.transitions += 1;
        self.note(watched, From::Event { parent: at, event });
        Ok(())
    }

    /// The events from the beginning to this state, and one more.
    fn path(&self, mut at: usize, event: usize) -> Vec<String> {
        let name = |event: usize| CALLS.get(event).map_or("cut".into(), |call| format!("{call:?}"));
        let mut events = vec![name(event)];
        while let From::Event { parent, event } = self.nodes[at].from {
            events.push(name(event));
            at = parent;
        }
        if let From::Memory(memory) = &self.nodes[at].from {
            events.push(recovery_on(memory));
        }
        events.reverse();
        events
    }
}

/// A cut that leaves zeros, the bit of line 1 and lock 1 held: the next taken call is a start, which looks at memory alone.
fn forget(board: &mut Board) {
    board.cache.fill(0);
    board.state = State::started(Phase::Off, 1, 1);
    board.state.line_bits[0] = 2;
    board.state.holders[1] = 0;
}

/// The smallest board after a format.
fn formatted(mistake: Option<Mistake>) -> Board {
    let mut board = Board::empty(mistake);
    board.resize(1);
    board.perform(&Call::Format { lines: 1, workers: 1 });
    for _ in 0..3 {
        board.perform(&Call::Step);
    }
    board
}
