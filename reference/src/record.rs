//! The state record as the fault program's numbers: fields by their number, a worker's condition by four numbers.

use crate::board::{Condition, Phase, State, Store, UndoStep, Update};
use crate::text::Unread;

/// The fields of the record that `B` has.
pub const FIELDS: [u64; 6] = [0, 1, 2, 4, 5, 6];

/// The phases in the order of their numbers.
const PHASES: [Phase; 4] = [Phase::Off, Phase::Formatting, Phase::Recovering, Phase::Running];

/// A recovery's steps in the order of their numbers.
const UNDO_STEPS: [UndoStep; 3] = [UndoStep::Record, UndoStep::Mark, UndoStep::WriteBack];

/// An update's stores in the order of their numbers.
const STORES: [Store; 3] = [Store::Backup, Store::Mark, Store::Record];

/// The number of one of these.
fn number_of<T: PartialEq>(of: &[T], one: T) -> u64 {
    of.iter().position(|each| *each == one).map_or(0, |at| at as u64)
}

/// The one of this number.
fn numbered<T: Copy>(of: &[T], number: u64) -> Result<T, Unread> {
    let at = usize::try_from(number).map_err(|_| Unread::TooLarge)?;
    of.get(at).copied().ok_or(Unread::TooLarge)
}

/// A number in the width of its field.
fn narrow<T: TryFrom<u64>>(number: u64) -> Result<T, Unread> {
    T::try_from(number).map_err(|_| Unread::TooLarge)
}

/// Field k of the record, one of `FIELDS`.
pub fn field(state: &State, k: u64) -> u64 {
    match k {
        0 => number_of(&PHASES, state.phase),
        1 => state.lines.into(),
        2 => state.workers.into(),
        4 => state.place.into(),
        5 => number_of(&UNDO_STEPS, state.undo),
        _ => state.requested.into(),
    }
}

/// Field k of the record := number.
pub fn set_field(state: &mut State, k: u64, number: u64) -> Result<(), Unread> {
    match k {
        0 => state.phase = numbered(&PHASES, number)?,
        1 => state.lines = narrow(number)?,
        2 => state.workers = narrow(number)?,
        4 => state.place = narrow(number)?,
        5 => state.undo = numbered(&UNDO_STEPS, number)?,
        6 => state.requested = numbered(&[false, true], number)?,
        _ => return Err(Unread::NoSuchPlace),
    }
    Ok(())
}

/// A condition's number, next store, cell and value, as in `K`.
pub fn condition_numbers(condition: &Condition) -> [u64; 4] {
    match condition {
        Condition::Free => [0; 4],
        Condition::Waiting => [1, 0, 0, 0],
        Condition::Updating(update) => [2, number_of(&STORES, update.next), update.cell.into(), update.value],
        Condition::Away => [3, 0, 0, 0],
    }
}

/// The condition that has these four numbers.
pub fn condition(numbers: [u64; 4]) -> Result<Condition, Unread> {
    let [number, next, cell, value] = numbers;
    let plain = match number {
        0 => Condition::Free,
        1 => Condition::Waiting,
        2 => {
            let (next, cell) = (numbered(&STORES, next)?, narrow(cell)?);
            return Ok(Condition::Updating(Update { cell, value, next }));
        }
        3 => Condition::Away,
        _ => return Err(Unread::NoSuchPlace),
    };
    if [next, cell, value] == [0; 3] {
        Ok(plain)
    } else {
        Err(Unread::Unused)
    }
}
