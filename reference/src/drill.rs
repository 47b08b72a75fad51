//! The drill program of 01.

use std::io::{BufRead, Result as Done, Write};

use crate::board::{Board, Phase};
use crate::call::{Answer, Call};
use crate::line::sizes_allowed;
use crate::misread::Misread;
use crate::program::{self, answer, Program, Reply};
use crate::text::{next_line, Fields, Unread, MOST_BYTES};

/// One line of a script.
#[derive(Clone, Copy, PartialEq, Eq, Debug)]
pub enum Command {
    /// "F L W (format to the end)"
    Format { lines: u64, workers: u64 },
    /// "X (cut: cache zeroed, phase off, answer 0)"
    Cut,
    /// Every other line is one call.
    Call(Call),
}

/// The drill's letters, and how many numbers each has.
pub const FORMS: [(u8, usize); 12] = [
    (b'F', 2),
    (b'U', 3),
    (b'A', 1),
    (b'P', 2),
    (b'C', 0),
    (b'S', 0),
    (b'E', 1),
    (b'G', 1),
    (b'X', 0),
    (b'R', 0),
    (b'H', 2),
    (b'V', 2),
];

/// The drill as a program.
pub struct Drill;

impl Program for Drill {
    type Command = Command;

    fn forms() -> impl Iterator<Item = (u8, usize)> {
        FORMS.into_iter()
    }

    #[inline]
    fn command(fields: &Fields) -> Result<Command, Unread> {
        let [a, b, c, ..] = fields.numbers;
        let call = match (fields.letter, fields.count) {
            (b'F', 2) => return Ok(Command::Format { lines: a, workers: b }),
            (b'X', 0) => return Ok(Command::Cut),
            (b'U', 3) => Call::Update { worker: a, cell: b, value: c },
            (b'A', 1) => Call::Advance { worker: a },
            (b'P', 2) => Call::RestartPoint { worker: a, value: b },
            (b'C', 0) => Call::Request,
            (b'S', 0) => Call::Step,
            (b'E', 1) => Call::WriteBack { line: a },
            (b'G', 1) => Call::Read { cell: a },
            (b'R', 0) => Call::Recovery,
            (b'H', 2) => Call::Take { worker: a, lock: b },
            (b'V', 2) => Call::GiveBack { worker: a, lock: b },
            _ => return Err(fields.other_form(&FORMS)),
        };
        Ok(Command::Call(call))
    }

    #[inline]
    fn execute(board: &mut Board, command: &Command) -> Result<Reply, Unread> {
        Ok(match *command {
            Command::Format { lines, workers } => Reply { number: format(board, lines, workers).number, value: None },
            Command::Cut => {
                board.cache.fill(0);
                board.state.phase = Phase::Off;
                Reply { number: 0, value: None }
            }
            Command::Call(call) => {
                let Answer { number, value } = board.perform(&call);
                Reply { number, value: matches!(call, Call::Read { .. } | Call::Count).then_some(value) }
            }
        })
    }
}

/// "Rows are sized by the last taken F"; then the start and the steps to the format's end.
fn format(board: &mut Board, lines: u64, workers: u64) -> Answer {
    if sizes_allowed(lines, workers) {
        board.resize(lines);
    }
    let answer = board.perform(&Call::Format { lines, workers });
    if answer.number == 0 {
        (0..lines + 2).for_each(|_| assert_eq!(board.perform(&Call::Step).number, 0));
    }
    answer
}

/// The board that a script leads to, and its lines that are no calls.
pub fn after_script(mut input: impl BufRead) -> Done<(Board, Misread)> {
    let mut board = Board::empty(None);
    let mut line = Vec::with_capacity(MOST_BYTES + 1);
    let mut at = 0u64;
    let mut misread = Misread::default();
    while next_line(&mut input, &mut line)? {
        at += 1;
        if answer::<Drill>(&mut board, &line).is_err() {
            misread.add::<Drill>(at, &line);
        }
    }
    Ok((board, misread))
}

/// Run a whole script; its lines that are no calls.
pub fn run(input: impl BufRead, output: impl Write) -> Done<Misread> {
    program::run::<Drill>(input, output)
}
