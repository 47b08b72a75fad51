//! A watched board of one line and one worker in 66 bytes, and back.
//! What can no longer be read is left out: steps that nothing counts. What words 6 and 7 are to be is what memory has, as
//! they were checked when the state was reached.

use super::count::Foretold;
use super::stores::spare;
use super::watched::Watched;
use crate::board::{Condition, Phase, State, Store, UndoStep, Update};
use crate::machine::Unfinished;

/// A state of board, machine and promise.
pub type Key = [u8; 66];

const PHASES: [Phase; 4] = [Phase::Off, Phase::Formatting, Phase::Recovering, Phase::Running];
const STORES: [Store; 3] = [Store::Backup, Store::Mark, Store::Record];
const UNDO_STEPS: [UndoStep; 3] = [UndoStep::Record, UndoStep::Mark, UndoStep::WriteBack];

/// The place of an item in a list of all.
fn code<T: PartialEq>(all: &[T], item: &T) -> u64 {
    all.iter().position(|known| known == item).unwrap_or(0) as u64
}

/// Numbers put into a key one after another.
struct Writer {
    key: Key,
    at: usize,
}

impl Writer {
    /// The next number goes in.
    fn put(&mut self, number: u64) {
        assert!(number < 256, "a number of the smallest board is small");
        self.key[self.at] = number as u8;
        self.at += 1;
    }
}

/// Numbers taken out of a key one after another.
struct Reader<'a> {
    key: &'a Key,
    at: usize,
}

impl Reader<'_> {
    /// The next number comes out.
    fn get(&mut self) -> u64 {
        self.at += 1;
        self.key[self.at - 1] as u64
    }
}

/// The board in bytes.
pub fn encode(watched: &Watched) -> Key {
    let mut out = Writer { key: [0; 66], at: 0 };
    let board = &watched.board;
    board.memory.iter().chain(&board.cache).for_each(|word| out.put(*word));
    encode_state(&board.state, &mut out);
    encode_machine(watched, &mut out);
    encode_foretold(watched.foretold.as_ref(), &mut out);
    let promise = &watched.promise;
    out.put(watched.cut as u64 + 2 * promise.broken_format as u64);
    out.put(promise.format_left);
    out.put(promise.checkpoint_left);
    out.put((promise.checkpoint_left > 0 && promise.away[0]) as u64);
    out.put(promise.recovery_left);
    if promise.recovery_left > 0 {
        promise.recovery_values.iter().for_each(|value| out.put(*value));
    }
    out.key
}

/// The state record in bytes.
fn encode_state(state: &State, out: &mut Writer) {
    out.put(code(&PHASES, &state.phase));
    out.put(state.place as u64);
    out.put(code(&UNDO_STEPS, &state.undo));
    out.put(state.requested as u64);
    out.put(state.line_bits[0]);
    let (tag, cell, value, next) = match state.worker[0] {
        Condition::Free => (0, 0, 0, 0),
        Condition::Waiting => (1, 0, 0, 0),
        Condition::Updating(update) => (2, update.cell as u64, update.value, code(&STORES, &update.next)),
        Condition::Away => (3, 0, 0, 0),
    };
    [tag, cell, value, next].into_iter().for_each(|number| out.put(number));
    let held = |first: usize| (0..8).map(|bit| u64::from(state.holders[first + bit] == 0) << bit).sum();
    [held(0), held(8)].into_iter().for_each(|locks| out.put(locks));
}

/// The machine in bytes.
fn encode_machine(watched: &Watched, out: &mut Writer) {
    let machine = &watched.machine;
    for value in &machine.values {
        out.put(value.current);
        out.put(value.checkpointed);
        out.put(value.marked as u64);
    }
    let update = machine.updates[0].unwrap_or(Unfinished { cell: 0, value: 0, left: 0 });
    [update.cell, update.value, update.left as u64].into_iter().for_each(|number| out.put(number));
    out.put(machine.requested as u64);
    out.put(machine.formatting.unwrap_or(0));
    let counted = machine.requested || machine.formatting.is_some();
    out.put(if counted { machine.steps } else { 0 });
}

/// What a count foretold in bytes: the number, 0 for none, the lines set as bits, the steps, the lines written.
fn encode_foretold(foretold: Option<&Foretold>, out: &mut Writer) {
    let Some(Foretold { count, lines, steps, written }) = foretold else {
        return (0..4).for_each(|_| out.put(0));
    };
    let lines = lines.iter().map(|line| 1u64 << line).sum();
    let written = written.iter().fold(0, |code, line| 3 * code + *line as u64 + 1);
    [*count, lines, *steps, written].into_iter().for_each(|number| out.put(number));
}

/// Put a state back.
pub fn decode(key: &Key, watched: &mut Watched) {
    let mut input = Reader { key, at: 0 };
    let board = &mut watched.board;
    board.memory.iter_mut().chain(&mut board.cache).for_each(|word| *word = input.get());
    board.state = decode_state(&mut input);
    watched.spare = spare(&board.memory);
    decode_machine(&mut input, watched);
    watched.foretold = decode_foretold(&mut input);
    let flags = input.get();
    let promise = &mut watched.promise;
    watched.cut = flags & 1 == 1;
    promise.broken_format = flags & 2 == 2;
    promise.format_left = input.get();
    promise.checkpoint_left = input.get();
    promise.away[0] = input.get() == 1;
    promise.recovery_left = input.get();
    promise.recovery_values.clear();
    if promise.recovery_left > 0 {
        promise.recovery_values.extend([input.get(), input.get()]);
    }
}

/// The state record of one line and one worker.
fn decode_state(input: &mut Reader) -> State {
    let phase = PHASES[input.get() as usize];
    let mut state = State::started(phase, 1, 1);
    state.place = input.get() as u16;
    state.undo = UNDO_STEPS[input.get() as usize];
    state.requested = input.get() == 1;
    state.line_bits[0] = input.get();
    let (tag, cell, value) = (input.get(), input.get() as u16, input.get());
    let next = STORES[input.get() as usize];
    state.worker[0] = match tag {
        0 => Condition::Free,
        1 => Condition::Waiting,
        3 => Condition::Away,
        _ => Condition::Updating(Update { cell, value, next }),
    };
    for first in [0, 8] {
        let locks = input.get();
        (0..8).filter(|bit| locks >> bit & 1 == 1).for_each(|bit| state.holders[first + bit] = 0);
    }
    state
}

/// The machine of two cells.
fn decode_machine(input: &mut Reader, watched: &mut Watched) {
    let machine = &mut watched.machine;
    for value in &mut machine.values {
        value.current = input.get();
        value.checkpointed = input.get();
        value.marked = input.get() == 1;
    }
    let update = Unfinished { cell: input.get(), value: input.get(), left: input.get() as u8 };
    machine.updates[0] = (update.left > 0).then_some(update);
    machine.requested = input.get() == 1;
    let lines = input.get();
    machine.formatting = (lines > 0).then_some(lines);
    machine.steps = input.get();
}

/// What a count foretold on a board of one line.
fn decode_foretold(input: &mut Reader) -> Option<Foretold> {
    let [count, bits, steps, mut code] = [input.get(), input.get(), input.get(), input.get()];
    let lines = (0..8).filter(|line| bits >> line & 1 == 1).collect();
    let mut written = Vec::new();
    while code > 0 {
        written.insert(0, (code - 1) as usize % 3);
        code = (code - 1) / 3;
    }
    (count > 0).then_some(Foretold { count, lines, steps, written })
}
