//! The state record and the lent rows.

use crate::bits::{LineBits, NO_LINES};
use crate::line::{row_words, MOST_WORKERS};
use crate::locks::{Holders, ALL_FREE};
use crate::mistake::Mistake;

/// "the phase (off, formatting, recovering, running)"
#[derive(Clone, Copy, PartialEq, Eq, Debug)]
pub enum Phase {
    Off,
    Formatting,
    Recovering,
    Running,
}

/// An update's "next store": backup, mark or record.
#[derive(Clone, Copy, PartialEq, Eq, Debug)]
pub enum Store {
    Backup,
    Mark,
    Record,
}

/// "in the middle of an update with its cell, its value and its next store"
#[derive(Clone, Copy, PartialEq, Eq, Debug)]
pub struct Update {
    pub cell: u16,
    pub value: u64,
    pub next: Store,
}

/// "A worker is free, waiting, or in the middle of an update"; by ticket 2 also away.
#[derive(Clone, Copy, PartialEq, Eq, Debug)]
pub enum Condition {
    Free,
    Waiting,
    Away,
    Updating(Update),
}

impl Condition {
    /// In the middle of an update of such a cell.
    pub fn updates(&self, such: impl Fn(u64) -> bool) -> bool {
        matches!(self, Condition::Updating(update) if such(update.cell.into()))
    }
}

/// "A recovery's place is a cell and which of its steps is next."
#[derive(Clone, Copy, PartialEq, Eq, Debug)]
pub enum UndoStep {
    Record,
    Mark,
    WriteBack,
}

/// "The state record holds ..."
#[derive(Clone, Copy, PartialEq, Eq, Debug)]
pub struct State {
    pub phase: Phase,
    pub lines: u16,
    pub workers: u8,
    pub place: u16,
    pub undo: UndoStep,
    pub requested: bool,
    pub worker: [Condition; MOST_WORKERS],
    pub line_bits: LineBits,
    pub holders: Holders,
}

impl State {
    /// "Each of the two starts sets every field of the state record"
    pub fn started(phase: Phase, lines: u16, workers: u8) -> State {
        State {
            phase,
            lines,
            workers,
            place: 0,
            undo: UndoStep::Record,
            requested: false,
            worker: [Condition::Free; MOST_WORKERS],
            line_bits: NO_LINES,
            holders: ALL_FREE,
        }
    }

    /// The workers that are looked at: those under W.
    pub fn active_workers(&self) -> &[Condition] {
        &self.worker[..(self.workers as usize).min(MOST_WORKERS)]
    }

    /// "set the place to 0", a recovery's first step with it.
    pub fn reset_place(&mut self) {
        self.place = 0;
        self.undo = UndoStep::Record;
    }
}

/// The rows as a test of a cause sees them.
#[derive(Clone, Copy)]
pub struct Lent<'a> {
    pub memory: &'a [u64],
    pub cache: &'a [u64],
}

/// "Memory and cache are lent as two rows"
pub struct Rows<'a> {
    pub memory: &'a mut [u64],
    pub cache: &'a mut [u64],
}

impl Rows<'_> {
    /// The same rows, lent on for reading.
    pub fn lent(&self) -> Lent<'_> {
        Lent { memory: self.memory, cache: self.cache }
    }
}

/// A board that owns its rows, the HEX text that the fault program's host has of it, and the mistake it was built with, if
/// any.
#[derive(Clone, PartialEq, Eq, Debug)]
pub struct Board {
    pub state: State,
    pub memory: Vec<u64>,
    pub cache: Vec<u64>,
    pub text: Vec<u8>,
    pub mistake: Option<Mistake>,
}

impl Board {
    /// "before one they are empty and the phase is off"
    pub fn empty(mistake: Option<Mistake>) -> Board {
        let state = State::started(Phase::Off, 0, 0);
        Board { state, memory: Vec::new(), cache: Vec::new(), text: Vec::new(), mistake }
    }

    /// Rows that fit a board of so many lines.
    pub fn resize(&mut self, lines: u64) {
        self.memory.resize(row_words(lines) as usize, 0);
        self.cache.resize(row_words(lines) as usize, 0);
    }

    /// The rows, lent for reading.
    pub fn lent(&self) -> Lent<'_> {
        Lent { memory: &self.memory, cache: &self.cache }
    }

    /// Take over another board's contents, keeping the allocations.
    pub fn copy_from(&mut self, other: &Board) {
        self.state = other.state;
        self.memory.clone_from(&other.memory);
        self.cache.clone_from(&other.cache);
        self.text.clone_from(&other.text);
        self.mistake = other.mistake;
    }
}
