//! `script`: a random script for the drill, made beside a board so that most calls are good ones.

use crate::board::{Board, Phase};
use crate::call::Call;
use crate::drill::{Command, Drill};
use crate::line::cells;
use crate::program::answer;
use crate::random::Random;
use crate::say::{drill_line, spoil};
use crate::work::{good_call, some_workers};

/// A script being written.
struct Script {
    random: Random,
    board: Board,
    /// L and W where they were asked for.
    size: Option<(u64, u64)>,
    /// Requests in a thousand calls, for now.
    requests: u64,
    formatted: bool,
}

/// So many lines; those of odd seeds end without a line feed.
pub fn script(seed: u64, lines: u64, size: Option<(u64, u64)>) -> Vec<u8> {
    let random = Random::new(seed);
    let mut script = Script { random, board: Board::empty(None), size, requests: 50, formatted: false };
    let mut text = Vec::new();
    for at in 0..lines {
        let line = script.next(at);
        let reply = answer::<Drill>(&mut script.board, &line);
        script.formatted |= line.first() == Some(&b'F') && reply.is_ok_and(|reply| reply.number == 0);
        text.extend_from_slice(&line);
        let bare = at + 1 == lines && seed % 2 == 1 && !line.is_empty();
        if !bare {
            text.push(b'\n');
        }
    }
    text
}

impl Script {
    /// The next line.
    fn next(&mut self, at: u64) -> Vec<u8> {
        if at == 0 && self.size.is_some() {
            return drill_line(&self.format());
        }
        if self.random.chance(1, 200) {
            self.requests = self.random.pick(&[3, 30, 150]);
        }
        let roll = self.random.below(1000);
        match roll {
            0..=29 => self.damaged(),
            30..=69 => drill_line(&self.bad()),
            _ => drill_line(&self.good()),
        }
    }

    /// A format of the size asked for, else mostly of a small one.
    fn format(&self) -> Command {
        let random = &self.random;
        let lines = match (self.size, random.below(20)) {
            (Some((lines, _)), _) => lines,
            (None, 0) => 1 + random.below(511),
            (None, 1..=3) => 1 + random.below(40),
            (None, _) => 1 + random.below(4),
        };
        match self.size {
            Some((_, workers)) if !self.formatted || random.chance(1, 2) => Command::Format { lines, workers },
            _ => Command::Format { lines, workers: some_workers(random, lines.clamp(1, 511)) },
        }
    }

    /// A command that the board most likely takes; cuts and starts the rarer the longer a recovery lasts.
    fn good(&self) -> Command {
        let (random, state) = (&self.random, &self.board.state);
        let patience = 60 + 12 * cells(state.lines as u64);
        if !self.formatted || random.chance(1, 3 * patience) {
            return if self.formatted || random.chance(1, 2) { self.format() } else { self.bad() };
        }
        if random.chance(1, patience) {
            return Command::Cut;
        }
        if random.chance(1, 2 * patience) || state.phase == Phase::Off {
            return if random.chance(4, 5) { Command::Call(Call::Recovery) } else { self.bad() };
        }
        if random.chance(1, 12) {
            let line = random.below(state.lines as u64 + 1);
            return Command::Call(Call::WriteBack { line: random.pick(&[0, line, line, line]) });
        }
        let value = random.pick(&[random.word(), random.below(10), random.below(1000)]);
        Command::Call(match state.phase {
            Phase::Running => good_call(random, state, self.requests, value),
            _ => Call::Step,
        })
    }

    /// A command with arguments about and past their limits, in any phase.
    fn bad(&self) -> Command {
        let (random, state) = (&self.random, &self.board.state);
        let about = |limit: u64| random.pick(&[0, limit.saturating_sub(1), limit, limit + 1, random.word(), u64::MAX]);
        let (worker, cell) = (about(state.workers as u64), about(cells(state.lines as u64)));
        let lines = random.pick(&[0, 512, about(511) | 512, u64::MAX]);
        let (lines, workers) = random.pick(&[(lines, 1), (1, 2), (2, 4), (5, 9), (7, 0), (511, u64::MAX)]);
        let lock = random.pick(&[about(16), random.below(16)]);
        Command::Call(match random.below(13) {
            10 => Call::Take { worker, lock },
            11 => Call::GiveBack { worker, lock },
            12 => Call::Take { worker: random.below(8), lock: about(16) },
            0 => return Command::Format { lines, workers },
            1 => Call::Update { worker, cell: about(state.workers as u64), value: about(5) },
            2 => Call::Update { worker, cell, value: about(5) },
            3 => Call::RestartPoint { worker, value: about(5) },
            4 => Call::Advance { worker },
            5 => Call::WriteBack { line: about(state.lines as u64 + 1) },
            6 => Call::Read { cell },
            7 => Call::Request,
            8 if !self.formatted => Call::Recovery,
            _ => Call::Step,
        })
    }

    /// A good line damaged, some of them only to the edge.
    fn damaged(&self) -> Vec<u8> {
        let command = if self.random.chance(1, 2) { self.good() } else { self.bad() };
        spoil(&self.random, drill_line(&command))
    }
}
