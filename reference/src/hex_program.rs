//! The HEX program: the memory that a drill script leads to as text, and what a text shows once it is recovered.

use std::io::{BufRead, Result as Done};

use crate::board::{Board, Phase};
use crate::call::Call;
use crate::drill;
use crate::hex::{data_bytes, text_bytes};
use crate::misread::Misread;

/// The HEX text of the memory that a drill script leads to, or the number that turns it down; and the lines that are no
/// calls.
pub fn after_script(input: impl BufRead) -> Done<(Result<Vec<u8>, u8>, Misread)> {
    let (board, misread) = drill::after_script(input)?;
    let mut text = vec![0; text_bytes(board.memory.len())];
    let number = board.write_hex(&mut text);
    Ok((if number == 0 { Ok(text) } else { Err(number) }, misread))
}

/// A line with epoch, L and W of the memory that a text has, recovered to its end, and then the board's page; or the number
/// that turns the text or the memory down.
pub fn show(text: &[u8]) -> Result<Vec<u8>, u8> {
    let board = recovered(text)?;
    let [epoch, lines, workers] = [board.memory[0], board.memory[1], board.memory[2]];
    let mut shown = format!("epoch {epoch}, L {lines}, W {workers}\n").into_bytes();
    shown.extend(board.page_text()?);
    Ok(shown)
}

/// A board that was off, its memory read from a text and recovered to the end.
fn recovered(text: &[u8]) -> Result<Board, u8> {
    let mut board = Board::empty(None);
    let words = data_bytes(text).unwrap_or(0) / 8;
    board.memory.resize(words, 0);
    board.cache.resize(words, 0);
    taken(board.read_hex(text))?;
    taken(board.perform(&Call::Recovery).number)?;
    while board.state.phase != Phase::Running {
        taken(board.perform(&Call::Step).number)?;
    }
    Ok(board)
}

/// An answer, unless it is a cause.
fn taken(number: u8) -> Result<(), u8> {
    if number == 0 {
        Ok(())
    } else {
        Err(number)
    }
}
