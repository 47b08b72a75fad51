//! What random fault scripts reach: how often each call got each answer, each case of tickets 2, 4, 5 and 6, and each
//! kind of `?`.

mod away;
mod bits;
mod foreign;
mod locks;

use std::collections::HashMap;
use std::fmt;

use crate::board::Board;
use crate::call::Call;
use crate::explore::table::{causes, deciding_part, parts, rank};
use crate::fault::{self, Fault};
use crate::fault_script::script;
use crate::program::Program;
use crate::text::{fields, Fields, Unread, UNREAD};
use away::Scene;
pub use away::CASES;
pub use bits::LINES;
use foreign::Origin;
pub use foreign::MEMORIES;
pub use locks::{KEPT, LOCKS};

/// The letters of calls with the answers that the table has for each.
pub const CAUSES: [(u8, &[u8]); 16] = [
    (b'f', &[0, 1, 4]),
    (b'F', &[0, 1]),
    (b'R', &[0, 4, 5, 14]),
    (b'S', &[0, 2, 3, 4, 10, 11]),
    (b'U', &[0, 2, 3, 4, 6, 7, 8, 16, 9]),
    (b'P', &[0, 2, 3, 4, 6, 8, 16, 9]),
    (b'A', &[0, 2, 3, 4, 6, 8]),
    (b'C', &[0, 2, 3, 4, 10, 11]),
    (b'E', &[0, 2, 3, 4, 7]),
    (b'G', &[0, 2, 3, 4, 7]),
    (b'p', &[0, 2, 3, 4, 12]),
    (b'a', &[0, 2, 3, 4, 6, 8, 16]),
    (b'b', &[0, 2, 3, 4, 6, 8, 13]),
    (b'n', &[0, 2, 3, 4]),
    (b'H', &[0, 2, 3, 4, 6, 15, 8, 16]),
    (b'V', &[0, 2, 3, 4, 6, 15, 8, 16]),
];

/// How many answers there are: 0, and the causes 1 to 20.
const ANSWERS: usize = 21;

/// The counts over some scripts.
#[derive(Clone, PartialEq, Eq, Debug)]
pub struct Reached {
    pub scripts: u64,
    pub lines: u64,
    /// For each byte, how often the line of that letter got each answer.
    pub answers: Vec<[u64; ANSWERS]>,
    /// For each kind of `?` in the order of `UNREAD`, how often it was met.
    pub unread: [u64; UNREAD.len()],
    /// For each part of a cause and each letter, how often an answer hung on that part alone.
    pub parts: HashMap<(&'static str, u8), u64>,
    /// For each letter and two causes, how often the first answered while the second held too.
    pub orders: HashMap<(u8, u8, u8), u64>,
    /// For each case of ticket 2 in the order of `CASES`, how often it was met.
    pub cases: [u64; CASES.len()],
    /// For each case of ticket 4 in the order of `MEMORIES`, how often it was met.
    pub memories: [u64; MEMORIES.len()],
    /// For each case of ticket 5 in the order of `LINES`, how often it was met.
    pub lines_set: [u64; LINES.len()],
    /// For each case of ticket 6 in the order of `LOCKS` and `KEPT`, how often it was met.
    pub locks: [u64; LOCKS.len()],
    pub kept: [u64; KEPT.len()],
    /// Where the memory of the script under way comes from.
    origin: Origin,
    /// `K` with the condition away: taken, and with a number that it has no use for.
    pub put_away: [u64; 2],
}

/// The counts over the scripts of seeds 1 to `seeds`, each of so many lines.
pub fn reached(seeds: u64, lines: u64) -> Reached {
    let mut reached = Reached {
        scripts: seeds,
        lines: 0,
        answers: vec![[0; ANSWERS]; 256],
        unread: [0; UNREAD.len()],
        parts: HashMap::new(),
        orders: HashMap::new(),
        cases: [0; CASES.len()],
        memories: [0; MEMORIES.len()],
        lines_set: [0; LINES.len()],
        locks: [0; LOCKS.len()],
        kept: [0; KEPT.len()],
        origin: Origin::default(),
        put_away: [0; 2],
    };
    for seed in 1..=seeds {
        let text = script(seed, lines);
        let text = text.strip_suffix(b"\n").unwrap_or(&text);
        let mut board = Board::empty(None);
        reached.origin = Origin::default();
        for line in text.split(|byte| *byte == b'\n') {
            reached.count(&mut board, line);
        }
    }
    reached
}

impl Reached {
    /// The pairs of causes of each letter, the earlier having answered.
    fn write_orders(&self, out: &mut fmt::Formatter) -> fmt::Result {
        writeln!(out, "| call | one cause answered while a later one held too |\n|---|---|")?;
        for (letter, _) in CAUSES.iter().filter(|(letter, _)| *letter != b'F') {
            let pairs = orders().filter(|(known, ..)| known == letter);
            let counts = pairs.map(|(letter, a, b)| format!("{a} over {b}: {}", self.order(letter, a, b)));
            writeln!(out, "| {} | {} |", *letter as char, counts.collect::<Vec<_>>().join(", "))?;
        }
        writeln!(out)
    }

    /// Run one line and count what came of it.
    fn count(&mut self, board: &mut Board, line: &[u8]) {
        self.lines += 1;
        if let Err(unread) = self.count_read(board, line) {
            let kind = UNREAD.iter().position(|(known, _)| *known == unread);
            self.unread[kind.unwrap_or(0)] += 1;
        }
    }

    /// Run a line that is read, and count its answer and what that hung on.
    fn count_read(&mut self, board: &mut Board, line: &[u8]) -> Result<(), Unread> {
        let fields = fields(line)?;
        let command = Fault::command(&fields)?;
        if let Some(call) = command.call() {
            self.count_causes(board, &call, fields.letter);
        }
        let before = board.state;
        let reply = Fault::execute(board, &command);
        self.count_put_away(&fields, reply.is_ok());
        let number = reply?.number;
        self.answers[fields.letter as usize][number as usize] += 1;
        if let Some(call) = command.call() {
            let scene = Scene { call, number, before: &before, after: &board.state };
            self.cases.iter_mut().zip(CASES).for_each(|(count, (_, holds))| *count += holds(&scene) as u64);
            self.lines_set.iter_mut().zip(LINES).for_each(|(count, (_, holds))| *count += holds(&scene) as u64);
            self.locks.iter_mut().zip(LOCKS).for_each(|(count, (_, holds))| *count += holds(&scene) as u64);
            self.kept.iter_mut().zip(KEPT).for_each(|(count, (_, holds))| *count += holds(&scene) as u64);
            let scene = foreign::Scene { call, number, before: &before, board, origin: self.origin };
            self.memories.iter_mut().zip(MEMORIES).for_each(|(count, (_, holds))| *count += holds(&scene) as u64);
        }
        self.origin.note(&command, number);
        Ok(())
    }

    /// Count a `K` that makes a worker away, or would but for a number.
    fn count_put_away(&mut self, fields: &Fields, read: bool) {
        let [worker, condition, ..] = fields.numbers;
        if fields.letter == b'K' && condition == 3 && worker < 8 {
            self.put_away[!read as usize] += 1;
        }
    }

    /// Count which causes hold for a call, and the part that its answer hangs on.
    fn count_causes(&mut self, board: &Board, call: &Call, letter: u8) {
        if let Some(part) = deciding_part(call, &board.state, board.lent()) {
            *self.parts.entry((part, letter)).or_default() += 1;
        }
        if let [first, others @ ..] = causes(call, &board.state, board.lent()).as_slice() {
            for other in others {
                *self.orders.entry((letter, *first, *other)).or_default() += 1;
            }
        }
    }

    /// How often an answer to this letter was this cause while that one held too.
    pub fn order(&self, letter: u8, first: u8, other: u8) -> u64 {
        self.orders.get(&(letter, first, other)).copied().unwrap_or(0)
    }

    /// How often an answer to this letter hung on this part alone.
    pub fn part(&self, part: &'static str, letter: u8) -> u64 {
        self.parts.get(&(part, letter)).copied().unwrap_or(0)
    }

    /// The answers of each letter.
    fn write_answers(&self, out: &mut fmt::Formatter) -> fmt::Result {
        writeln!(out, "| line |{}", (0..ANSWERS).map(|number| format!(" {number} |")).collect::<String>())?;
        writeln!(out, "|---|{}", "---|".repeat(ANSWERS))?;
        let calls = CAUSES.map(|(letter, _)| letter);
        let damaging = fault::FORMS.iter().map(|(letter, _)| *letter).filter(|letter| !calls.contains(letter));
        for letter in calls.into_iter().chain([b'X']).chain(damaging) {
            writeln!(out, "| {} |{}", letter as char, counts(self.answers[letter as usize].iter().copied()))?;
        }
        writeln!(out)
    }

    /// For each part of a cause, the calls whose answer hung on it alone.
    fn write_parts(&self, out: &mut fmt::Formatter) -> fmt::Result {
        let letters = b"fRSUPACEGpabnHV";
        let head = letters.iter().map(|letter| format!(" {} |", *letter as char)).collect::<String>();
        writeln!(out, "| answer | hung alone on |{head}")?;
        writeln!(out, "|---|---|{}", "---|".repeat(letters.len()))?;
        for (number, part) in parts() {
            let row = counts(letters.iter().map(|letter| self.part(part, *letter)));
            writeln!(out, "| {number} | {part} |{row}")?;
        }
        writeln!(out)
    }

    /// The cases of ticket 2, and `K` with the condition away.
    fn write_cases(&self, out: &mut fmt::Formatter) -> fmt::Result {
        writeln!(out, "| case of a worker that is away | lines |\n|---|---|")?;
        for ((words, _), count) in CASES.iter().zip(self.cases) {
            writeln!(out, "| {words} | {count} |")?;
        }
        for (words, count) in ["K makes a worker away", "K would, but for a number"].iter().zip(self.put_away) {
            writeln!(out, "| {words} | {count} |")?;
        }
        writeln!(out)
    }

    /// The cases of tickets 4, 5 and 6.
    fn write_memories(&self, out: &mut fmt::Formatter) -> fmt::Result {
        writeln!(out, "| case of foreign memory | lines |\n|---|---|")?;
        for ((words, _), count) in MEMORIES.iter().zip(self.memories) {
            writeln!(out, "| {words} | {count} |")?;
        }
        writeln!(out, "\n| case of line bits | lines |\n|---|---|")?;
        for ((words, _), count) in LINES.iter().zip(self.lines_set) {
            writeln!(out, "| {words} | {count} |")?;
        }
        writeln!(out, "\n| case of locks | lines |\n|---|---|")?;
        let counts = self.locks.iter().chain(&self.kept);
        for ((words, _), count) in LOCKS.iter().chain(&KEPT).zip(counts) {
            writeln!(out, "| {words} | {count} |")?;
        }
        writeln!(out)
    }
}

/// Two causes of one call of which the first cannot answer while the other holds: a step is a checkpoint's only when
/// running; a worker from W on that holds a lock is 3; it has no update that counts; a lock past the last lies over no cell
/// and has no holder.
fn apart(letter: u8, first: u8, other: u8) -> bool {
    match letter {
        b'S' => first == 2 && other >= 10,
        b'P' | b'a' => (first, other) == (6, 16),
        b'V' => matches!((first, other), (6 | 15, 8)),
        b'H' => (first, other) == (15, 16),
        _ => false,
    }
}

/// Each letter of a call with every two of its causes that can both hold, the earlier first.
pub fn orders() -> impl Iterator<Item = (u8, u8, u8)> {
    CAUSES.iter().flat_map(|(letter, causes)| {
        let later =
            move |first: u8| causes.iter().filter(move |o| rank(**o) > rank(first)).map(move |other| (first, *other));
        let pairs = causes.iter().filter(|first| **first > 0).flat_map(move |first| later(*first));
        pairs
            .map(|(first, other)| (*letter, first, other))
            .filter(|(letter, a, b)| *letter != b'F' && !apart(*letter, *a, *b))
    })
}

/// Counts as the cells of a table, empty for 0.
fn counts(row: impl Iterator<Item = u64>) -> String {
    row.map(|count| if count == 0 { "  |".into() } else { format!(" {count} |") }).collect()
}

impl fmt::Display for Reached {
    fn fmt(&self, out: &mut fmt::Formatter) -> fmt::Result {
        writeln!(out, "{} scripts, {} lines\n", self.scripts, self.lines)?;
        self.write_answers(out)?;
        self.write_parts(out)?;
        self.write_orders(out)?;
        self.write_cases(out)?;
        self.write_memories(out)?;
        writeln!(out, "| why a line printed ? | lines |\n|---|---|")?;
        for ((_, words), count) in UNREAD.iter().zip(self.unread) {
            writeln!(out, "| {words} | {count} |")?;
        }
        Ok(())
    }
}
