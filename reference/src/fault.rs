//! The fault program: the drill with damage.

use std::io::{BufRead, Result as Done, Write};

use crate::board::Board;
use crate::call::Call;
use crate::checksum::{of_board, of_bytes};
use crate::damage::Damage;
use crate::drill::{self, Drill};
use crate::misread::Misread;
use crate::program::{self, Program, Reply};
use crate::text::{Fields, Unread};

/// One line of a script.
#[derive(Clone, Copy, PartialEq, Eq, Debug)]
pub enum Command {
    /// A letter of the drill, or a call that the drill has no letter for: `f`, a format's start alone, `a`, `b` and `n`.
    Drill(drill::Command),
    /// `W M N Q B K O Y`
    Damage(Damage),
    /// `T`
    Checksum,
    /// `p room`
    Page { room: u64 },
    /// `h room`
    WriteHex { room: u64 },
    /// `y n`
    ReadHex { bytes: u64 },
}

impl Command {
    /// The call that a line makes by itself.
    pub fn call(&self) -> Option<Call> {
        match *self {
            Command::Drill(drill::Command::Call(call)) => Some(call),
            Command::Page { room } => Some(Call::Page { room }),
            _ => None,
        }
    }
}

/// "over 70,000: `?`"
pub const MOST_ROOM: u64 = 70_000;

/// "over 90,200: `?`"
pub const MOST_HEX_ROOM: u64 = 90_200;

/// "each 0xAA before"
pub const BYTE_BEFORE: u8 = 0xAA;

/// The letters that the drill has not, and how many numbers each has.
pub const FORMS: [(u8, usize); 16] = [
    (b'f', 2),
    (b'W', 2),
    (b'M', 2),
    (b'N', 2),
    (b'Q', 2),
    (b'B', 2),
    (b'K', 5),
    (b'O', 2),
    (b'T', 0),
    (b'p', 1),
    (b'a', 1),
    (b'b', 1),
    (b'n', 0),
    (b'h', 1),
    (b'Y', 2),
    (b'y', 1),
];

/// The fault program as a program.
pub struct Fault;

impl Program for Fault {
    type Command = Command;

    fn forms() -> impl Iterator<Item = (u8, usize)> {
        Drill::forms().chain(FORMS)
    }

    fn command(fields: &Fields) -> Result<Command, Unread> {
        let [a, b, c, d, e] = fields.numbers;
        let damage = match (fields.letter, fields.count) {
            (b'f', 2) => return alone(Call::Format { lines: a, workers: b }),
            (b'a', 1) => return alone(Call::GoAway { worker: a }),
            (b'b', 1) => return alone(Call::ComeBack { worker: a }),
            (b'n', 0) => return alone(Call::Count),
            (b'T', 0) => return Ok(Command::Checksum),
            (b'p', 1) if a > MOST_ROOM => return Err(Unread::NoRoom),
            (b'p', 1) => return Ok(Command::Page { room: a }),
            (b'h', 1) if a > MOST_HEX_ROOM => return Err(Unread::NoRoom),
            (b'h', 1) => return Ok(Command::WriteHex { room: a }),
            (b'y', 1) => return Ok(Command::ReadHex { bytes: a }),
            (b'W', 2) => Damage::Lengths { memory: a, cache: b },
            (b'M', 2) => Damage::Memory { at: a, word: b },
            (b'N', 2) => Damage::Cache { at: a, word: b },
            (b'Q', 2) => Damage::Bits { at: a, word: b },
            (b'B', 2) => Damage::Field { k: a, number: b },
            (b'K', 5) => Damage::Worker { worker: a, numbers: [b, c, d, e] },
            (b'O', 2) => Damage::Holder { lock: a, holder: b },
            (b'Y', 2) => Damage::Text { at: a, byte: b },
            (letter, _) if FORMS.iter().any(|(known, _)| *known == letter) => return Err(fields.other_form(&FORMS)),
            _ => return Ok(Command::Drill(Drill::command(fields)?)),
        };
        Ok(Command::Damage(damage))
    }

    fn execute(board: &mut Board, command: &Command) -> Result<Reply, Unread> {
        match command {
            Command::Drill(command) => Drill::execute(board, command),
            Command::Damage(damage) => damage.apply(board).map(|()| Reply { number: 0, value: None }),
            Command::Checksum => Ok(Reply { number: 0, value: Some(of_board(board)) }),
            Command::Page { room } => {
                let mut text = vec![BYTE_BEFORE; *room as usize];
                let number = board.page(&mut text);
                Ok(Reply { number, value: Some(of_bytes(&text)) })
            }
            Command::WriteHex { room } => Ok(write_hex(board, *room as usize)),
            Command::ReadHex { bytes } => read_hex(board, *bytes),
        }
    }
}

/// "the text becomes `room` bytes, each 0xAA, and memory is written into it as HEX"
fn write_hex(board: &mut Board, room: usize) -> Reply {
    let mut text = vec![BYTE_BEFORE; room];
    let number = board.write_hex(&mut text);
    board.text = text;
    Reply { number, value: Some(of_bytes(&board.text)) }
}

/// "the first n bytes of the text are read into memory; n over the text's length: `?`"
fn read_hex(board: &mut Board, bytes: u64) -> Result<Reply, Unread> {
    if bytes > board.text.len() as u64 {
        return Err(Unread::PastRow);
    }
    let text = std::mem::take(&mut board.text);
    let number = board.read_hex(&text[..bytes as usize]);
    board.text = text;
    Ok(Reply { number, value: None })
}

/// A line that is one call.
fn alone(call: Call) -> Result<Command, Unread> {
    Ok(Command::Drill(drill::Command::Call(call)))
}

/// Run a whole script; its lines that are no calls.
pub fn run(input: impl BufRead, output: impl Write) -> Done<Misread> {
    program::run::<Fault>(input, output)
}
