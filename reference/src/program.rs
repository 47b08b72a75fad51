//! The one loop of the drill and the fault program: a script in, a line of answer for each of its lines out.

use std::io::{BufRead, Result as Done, Write};

use crate::board::Board;
use crate::misread::Misread;
use crate::text::{fields, next_line, Fields, Unread, MOST_BYTES};

/// What a line that is read gives: the answer's number, and the value read or summed up, if it is a line that has one.
#[derive(Clone, Copy, PartialEq, Eq, Debug)]
pub struct Reply {
    pub number: u8,
    pub value: Option<u64>,
}

/// A program over a board: the lines that it knows, and what each of them does.
pub trait Program {
    /// A line of this program.
    type Command;

    /// Its letters, and how many numbers each has.
    fn forms() -> impl Iterator<Item = (u8, usize)>;

    /// The command that a line's fields say.
    fn command(fields: &Fields) -> Result<Self::Command, Unread>;

    /// Carry out a command; one that cannot be carried out does nothing.
    fn execute(board: &mut Board, command: &Self::Command) -> Result<Reply, Unread>;
}

/// What a line without its line feed does to a board, and its reply.
#[inline]
pub fn answer<P: Program>(board: &mut Board, line: &[u8]) -> Result<Reply, Unread> {
    P::execute(board, &P::command(&fields(line)?)?)
}

/// Run a whole script; its lines that are no calls.
pub fn run<P: Program>(mut input: impl BufRead, mut output: impl Write) -> Done<Misread> {
    output.write_all(b"line\tcall\tanswer\tvalue\n")?;
    let mut board = Board::empty(None);
    let mut line = Vec::with_capacity(MOST_BYTES + 1);
    let mut at = 0u64;
    let mut misread = Misread::default();
    while next_line(&mut input, &mut line)? {
        at += 1;
        match answer::<P>(&mut board, &line) {
            Err(_) => {
                misread.add::<P>(at, &line);
                writeln!(output, "{at}\t?\t?\t-")?;
            }
            Ok(Reply { number, value }) => {
                let letter = line[0] as char;
                match value {
                    Some(value) => writeln!(output, "{at}\t{letter}\t{number}\t{value}")?,
                    None => writeln!(output, "{at}\t{letter}\t{number}\t-")?,
                }
            }
        }
    }
    output.flush()?;
    Ok(misread)
}
