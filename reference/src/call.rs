//! The calls and how one is performed.

use crate::board::{Board, Rows, State};
use crate::causes::cause;
use crate::effects::{foretold, take};
use crate::mistake::Mistake;

/// One call with its arguments, each the number it is.
#[derive(Clone, Copy, PartialEq, Eq, Debug)]
pub enum Call {
    Format {
        lines: u64,
        workers: u64,
    },
    Recovery,
    Step,
    Update {
        worker: u64,
        cell: u64,
        value: u64,
    },
    RestartPoint {
        worker: u64,
        value: u64,
    },
    Advance {
        worker: u64,
    },
    Request,
    WriteBack {
        line: u64,
    },
    Read {
        cell: u64,
    },
    /// A page in a text row of so many bytes; `page` is lent the row and writes it.
    Page {
        room: u64,
    },
    /// "A free worker may go away"
    GoAway {
        worker: u64,
    },
    /// "and come back free"
    ComeBack {
        worker: u64,
    },
    /// "the host can learn the count of set bits plus 3"
    Count,
    /// "A free worker ... takes a free lock."
    Take {
        worker: u64,
        lock: u64,
    },
    /// "It gives it back when none of its updates under it is unfinished"
    GiveBack {
        worker: u64,
        lock: u64,
    },
}

impl Call {
    /// "the next taken call is a start of format or recovery"
    pub fn is_start(&self) -> bool {
        matches!(self, Call::Format { .. } | Call::Recovery)
    }
}

/// "A taken call returns 0", a refused one its cause; a read and a count give a value too.
#[derive(Clone, Copy, PartialEq, Eq, Debug)]
pub struct Answer {
    pub number: u8,
    pub value: u64,
}

/// Perform a call: refused with its cause and all left as it was, or taken.
pub fn perform(call: &Call, state: &mut State, rows: &mut Rows, mistake: Option<Mistake>) -> Answer {
    let number = cause(call, state, &rows.lent(), mistake);
    let value = match (number, call) {
        (0, _) => take(call, state, rows, mistake),
        (_, Call::Count) if mistake == Some(Mistake::CountRefused) => foretold(state, mistake),
        _ => 0,
    };
    Answer { number, value }
}

impl Board {
    /// Perform a call on this board.
    pub fn perform(&mut self, call: &Call) -> Answer {
        let mut rows = Rows { memory: &mut self.memory, cache: &mut self.cache };
        perform(call, &mut self.state, &mut rows, self.mistake)
    }

    /// The answer this board would give, nothing being done.
    pub fn cause(&self, call: &Call) -> u8 {
        cause(call, &self.state, &self.lent(), self.mistake)
    }
}
