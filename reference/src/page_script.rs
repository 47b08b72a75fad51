//! `script --page`: a random script for `reference page`, in the drill's letters: some epochs of work on a board of any
//! size, and an end that mostly leaves it running, often in the middle of an update or a checkpoint.

use crate::board::{Board, Phase};
use crate::call::Call;
use crate::drill::{Command, Drill};
use crate::line::{cells, record_at, MOST_LINES};
use crate::program::answer;
use crate::random::Random;
use crate::say::{drill_line, spoil};
use crate::work::{good_call, some_workers};

/// Where a script leaves its board.
#[derive(Clone, Copy, PartialEq, Eq)]
enum End {
    Running,
    Off,
    Recovering,
    Unformatted,
}

/// A script being written, and the board that it leads to.
struct Script {
    random: Random,
    board: Board,
    text: Vec<u8>,
    left: u64,
    /// Requests in a thousand calls, more of them on smaller boards.
    requests: u64,
}

/// Lines that are of another form in the drill.
const OTHER_FORMS: [&[u8]; 7] = [b"", b"F", b"F\t1", b"F 1 1", b"p\t204", b"page", b"f\t1\t1"];

/// So many lines; those of odd seeds end without a line feed, if their last line is not empty.
pub fn script(seed: u64, lines: u64) -> Vec<u8> {
    let random = Random::new(seed);
    let end = random.pick(&[End::Off, End::Recovering, End::Unformatted]);
    let end = if random.chance(1, 10) { end } else { End::Running };
    let mut script = Script { random, board: Board::empty(None), text: Vec::new(), left: lines, requests: 0 };
    script.write(end);
    let empty = matches!(script.text[..], [b'\n'] | [.., b'\n', b'\n']);
    if seed % 2 == 1 && !empty {
        script.text.pop();
    }
    script.text
}

impl Script {
    /// All lines, some of the last kept for an end other than running.
    fn write(&mut self, end: End) {
        let last = if end == End::Running { 0 } else { 1 + self.random.below(6) };
        if end != End::Unformatted {
            (0..self.random.below(3)).for_each(|_| self.no_format());
            self.format();
        }
        while self.left > last {
            match end {
                End::Unformatted => self.no_format(),
                _ => self.work(last),
            }
        }
        match end {
            End::Running => {}
            End::Off => self.put(Command::Cut),
            End::Recovering => self.put(Command::Call(Call::Recovery)),
            End::Unformatted => self.no_format(),
        }
        while self.left > 0 {
            self.afterwards();
        }
    }

    /// The next line, unless there are enough.
    fn put_line(&mut self, line: Vec<u8>) {
        if self.left > 0 {
            self.left -= 1;
            let _ = answer::<Drill>(&mut self.board, &line);
            self.text.extend_from_slice(&line);
            self.text.push(b'\n');
        }
    }

    /// A command's line.
    fn put(&mut self, command: Command) {
        self.put_line(drill_line(&command));
    }

    /// A format of a board of any size, smaller ones more often.
    fn format(&mut self) {
        let random = &self.random;
        let (lines, requests) = match random.below(20) {
            0 | 1 => (1, 200),
            2..=6 => (2 + random.below(7), 400),
            7..=11 => (9 + random.below(92), 100),
            12..=15 => (101 + random.below(MOST_LINES - 100), 60),
            _ => (random.pick(&[MOST_LINES, 400 + random.below(MOST_LINES - 399)]), 60),
        };
        let workers = some_workers(random, lines);
        self.requests = requests;
        self.put(Command::Format { lines, workers });
    }

    /// A line before any format: sizes outside their limits, a call that needs a board, or a line of another form.
    fn no_format(&mut self) {
        let random = &self.random;
        let sizes = [(0, 1), (512, 1), (1, 2), (2, 4), (7, 9), (7, 0), (u64::MAX, u64::MAX), (65_537, 1)];
        let (lines, workers) = random.pick(&sizes);
        match random.below(4) {
            0 => self.put_line(random.pick(&OTHER_FORMS).into()),
            1 => self.put(Command::Call(random.pick(&[Call::Step, Call::Request, Call::Read { cell: 0 }]))),
            2 => self.put(Command::Call(Call::Update { worker: 0, cell: 1, value: random.digits() })),
            _ => self.put(Command::Format { lines, workers }),
        }
    }

    /// A line or more of work, so many being kept for the end.
    fn work(&mut self, last: u64) {
        let (random, state) = (&self.random, &self.board.state);
        let spare = self.left - last;
        if random.chance(1, 80) && spare > 2 + 3 * cells(state.lines.into()) {
            return self.cut_and_recovery();
        }
        if random.chance(1, 300) && spare > 100 {
            return self.format();
        }
        if random.chance(1, 15) {
            let line = random.below(state.lines as u64 + 1);
            return self.put(Command::Call(Call::WriteBack { line: random.pick(&[0, line, line]) }));
        }
        let call = self.or_unchanged(good_call(random, state, self.requests, self.value()));
        if random.chance(1, 60) {
            self.put_line(spoil(random, drill_line(&Command::Call(call))));
        } else {
            self.put(Command::Call(call));
        }
    }

    /// A value of 1 to 20 digits, the least and the greatest more often.
    fn value(&self) -> u64 {
        let digits = self.random.digits();
        self.random.pick(&[0, u64::MAX, digits, digits, digits, digits, digits, digits])
    }

    /// A call, or one in four times the same call with the value that its cell has: a marked cell is then unchanged.
    fn or_unchanged(&self, call: Call) -> Call {
        let present = |cell: u64| self.board.cache[record_at(cell as usize)];
        match call {
            Call::Update { worker, cell, .. } if self.random.chance(1, 4) => {
                Call::Update { worker, cell, value: present(cell) }
            }
            Call::RestartPoint { worker, .. } if self.random.chance(1, 4) => {
                Call::RestartPoint { worker, value: present(worker) }
            }
            _ => call,
        }
    }

    /// A cut, or none, and a recovery to its end.
    fn cut_and_recovery(&mut self) {
        if self.random.chance(3, 4) {
            self.put(Command::Cut);
        }
        self.put(Command::Call(Call::Recovery));
        while self.left > 0 && self.board.state.phase == Phase::Recovering {
            self.put(Command::Call(Call::Step));
        }
    }

    /// A line after the board was left off, recovering or unformatted: it does not run again.
    fn afterwards(&mut self) {
        let steps = self.board.state.phase == Phase::Recovering && self.board.state.place == 0;
        let call = if steps && self.random.chance(1, 2) { Call::Step } else { Call::Read { cell: 0 } };
        self.put(Command::Call(call));
    }
}
