//! The lines of the fault program that put a board into any condition.

use crate::board::Board;
use crate::locks::NOBODY;
use crate::record::{condition, condition_numbers, field, set_field};
use crate::text::Unread;

/// "Rows have room for 4,104 words"
pub const ROOM_WORDS: u64 = 4104;

/// One change of a board from outside, with the numbers of its line.
#[derive(Clone, Copy, PartialEq, Eq, Debug)]
pub enum Damage {
    /// `W m c`
    Lengths { memory: u64, cache: u64 },
    /// `M i v`
    Memory { at: u64, word: u64 },
    /// `N i v`
    Cache { at: u64, word: u64 },
    /// `Q i v`
    Bits { at: u64, word: u64 },
    /// `B k v`
    Field { k: u64, number: u64 },
    /// `K w c n a v`
    Worker { worker: u64, numbers: [u64; 4] },
    /// `O k h`
    Holder { lock: u64, holder: u64 },
    /// `Y i v`
    Text { at: u64, byte: u64 },
}

impl Damage {
    /// Make the change, or change nothing where a number cannot be put where it is to go.
    pub fn apply(&self, board: &mut Board) -> Result<(), Unread> {
        match *self {
            Damage::Lengths { memory, cache } => return set_lengths(board, memory, cache),
            Damage::Memory { at, word } => *place(&mut board.memory, at)? = word,
            Damage::Cache { at, word } => *place(&mut board.cache, at)? = word,
            Damage::Bits { at, word } => *place(&mut board.state.line_bits, at)? = word,
            Damage::Field { k, number } => return set_field(&mut board.state, k, number),
            Damage::Worker { worker, numbers } => {
                let at = usize::try_from(worker).map_err(|_| Unread::NoSuchPlace)?;
                *board.state.worker.get_mut(at).ok_or(Unread::NoSuchPlace)? = condition(numbers)?;
            }
            Damage::Holder { lock, holder } => {
                let at = usize::try_from(lock).map_err(|_| Unread::NoSuchPlace)?;
                *board.state.holders.get_mut(at).ok_or(Unread::NoSuchPlace)? = holder_numbered(holder)?;
            }
            Damage::Text { at, byte } => {
                let byte = u8::try_from(byte).map_err(|_| Unread::TooLarge)?;
                *place(&mut board.text, at)? = byte;
            }
        }
        Ok(())
    }

    /// The change that puts back what this one is about to overwrite, words that a shorter row loses aside.
    pub fn repair(&self, board: &Board) -> Damage {
        match *self {
            Damage::Lengths { .. } => {
                Damage::Lengths { memory: board.memory.len() as u64, cache: board.cache.len() as u64 }
            }
            Damage::Memory { at, .. } => Damage::Memory { at, word: word_at(&board.memory, at) },
            Damage::Cache { at, .. } => Damage::Cache { at, word: word_at(&board.cache, at) },
            Damage::Bits { at, .. } => Damage::Bits { at, word: word_at(&board.state.line_bits, at) },
            Damage::Field { k, .. } => Damage::Field { k, number: field(&board.state, k) },
            Damage::Worker { worker, .. } => {
                let known = board.state.worker.get(worker as usize);
                Damage::Worker { worker, numbers: known.map_or([0; 4], condition_numbers) }
            }
            Damage::Holder { lock, .. } => {
                let known = board.state.holders.get(lock as usize).copied();
                Damage::Holder { lock, holder: known.unwrap_or(NOBODY).into() }
            }
            Damage::Text { at, .. } => {
                let known = board.text.get(at as usize).copied();
                Damage::Text { at, byte: known.unwrap_or(0).into() }
            }
        }
    }
}

/// "its holder := h, a worker 0 to 7, or 8 for none"
fn holder_numbered(number: u64) -> Result<u8, Unread> {
    u8::try_from(number).ok().filter(|holder| *holder <= NOBODY).ok_or(Unread::TooLarge)
}

/// "words that stay keep their contents, new ones are 0; over the room: `?`"
fn set_lengths(board: &mut Board, memory: u64, cache: u64) -> Result<(), Unread> {
    if memory > ROOM_WORDS || cache > ROOM_WORDS {
        return Err(Unread::NoRoom);
    }
    board.memory.resize(memory as usize, 0);
    board.cache.resize(cache as usize, 0);
    Ok(())
}

/// "i the row's length or more: `?`"
fn place<T>(row: &mut [T], at: u64) -> Result<&mut T, Unread> {
    let at = usize::try_from(at).map_err(|_| Unread::PastRow)?;
    row.get_mut(at).ok_or(Unread::PastRow)
}

/// A word of a row, 0 past its end.
fn word_at(row: &[u64], at: u64) -> u64 {
    row.get(at as usize).copied().unwrap_or(0)
}
