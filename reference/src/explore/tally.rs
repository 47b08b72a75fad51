//! What an exploration saw.

use std::fmt;

use super::watched::Beginning;

use crate::board::{Condition, State};
use crate::call::Call;
use crate::line::{mark_at, LINE_WORDS};

/// How many answers there are: 0, and the causes 1 to 16.
const ANSWERS: usize = 17;

/// How many answers a write of memory as HEX and a read of it have: up to 20.
const HEX_ANSWERS: usize = 21;

/// The first and the last epochs.
pub const EDGES: [u64; 4] = [1, 2, u64::MAX - 1, u64::MAX];

/// Counts of events.
#[derive(Clone, PartialEq, Eq, Debug, Default)]
pub struct Tally {
    pub sequences: u64,
    /// Those of them that began at a recovery's start.
    pub from_recovery: u64,
    /// The answers to recovery's starts on foreign memory.
    pub foreign: [u64; ANSWERS],
    /// Those of them that were taken in each of `EDGES`.
    pub edges: [u64; EDGES.len()],
    /// Those of them that were taken with a mark at the epoch.
    pub marked: u64,
    /// Recovered boards compared with another: both from a format, one of each beginning, both from a recovery's start.
    pub pairs: [u64; 3],
    pub calls: u64,
    pub probes: u64,
    pub cuts: u64,
    pub formats: u64,
    pub recoveries: u64,
    pub checkpoints: u64,
    /// Those of them that some workers under W were away in, and all of them.
    pub some_away: u64,
    pub all_away: u64,
    pub pages: u64,
    pub answers: [u64; ANSWERS],
    pub going_away: [u64; ANSWERS],
    pub coming_back: [u64; ANSWERS],
    pub counts: [u64; ANSWERS],
    pub updates: [u64; ANSWERS],
    pub restart_points: [u64; ANSWERS],
    pub takes: [u64; ANSWERS],
    pub gives: [u64; ANSWERS],
    /// Sequences from a start on a made-up board, and calls in them.
    pub wild: [u64; 2],
    /// Checkpoints whose steps were those that a count had foretold, and of them those with lines set in several words,
    /// with one in the eighth word, and with both cells of a line marked.
    pub foretold: u64,
    pub in_words: u64,
    pub in_eighth: u64,
    pub in_pairs: u64,
    /// The answers to memories written as HEX and to texts read.
    pub written: [u64; HEX_ANSWERS],
    pub read: [u64; HEX_ANSWERS],
}

impl Tally {
    /// Count a sequence.
    pub fn sequence(&mut self, beginning: Beginning) {
        self.sequences += 1;
        self.from_recovery += (beginning == Beginning::Recovery) as u64;
    }

    /// Count a recovery's start on this foreign memory, and its answer.
    pub fn foreign(&mut self, memory: &[u64], number: u8) {
        self.foreign[number as usize] += 1;
        if number == 0 {
            let mut marks = (0..2 * (memory.len() / LINE_WORDS - 1)).map(|cell| memory[mark_at(cell)]);
            self.marked += marks.any(|mark| mark == memory[0]) as u64;
            self.edges.iter_mut().zip(EDGES).for_each(|(count, epoch)| *count += (memory[0] == epoch) as u64);
        }
    }

    /// Count two recovered boards that were compared.
    pub fn compared(&mut self, one: Beginning, other: Beginning) {
        self.pairs[[one, other].iter().filter(|each| **each == Beginning::Recovery).count()] += 1;
    }

    /// Count one call and its answer, 0 for a taken one.
    pub fn answer(&mut self, call: &Call, number: u8) {
        self.calls += 1;
        self.pages += (matches!(call, Call::Page { .. }) && number == 0) as u64;
        self.answers[number as usize] += 1;
        match call {
            Call::GoAway { .. } => self.going_away[number as usize] += 1,
            Call::ComeBack { .. } => self.coming_back[number as usize] += 1,
            Call::Count => self.counts[number as usize] += 1,
            Call::Update { .. } => self.updates[number as usize] += 1,
            Call::RestartPoint { .. } => self.restart_points[number as usize] += 1,
            Call::Take { .. } => self.takes[number as usize] += 1,
            Call::GiveBack { .. } => self.gives[number as usize] += 1,
            _ => {}
        }
    }

    /// Count a checkpoint that was foretold, of these lines and so many marked cells.
    pub fn foretold(&mut self, lines: &[usize], cells: usize) {
        let word = |line: Option<&usize>| line.map_or(0, |line| line / 64);
        self.foretold += 1;
        self.in_words += (word(lines.first()) < word(lines.last())) as u64;
        self.in_eighth += (word(lines.last()) == 7) as u64;
        self.in_pairs += (cells > lines.len()) as u64;
    }

    /// Count a checkpoint that left this record.
    pub fn checkpoint(&mut self, state: &State) {
        let workers = state.active_workers();
        let away = workers.iter().filter(|condition| **condition == Condition::Away).count();
        self.checkpoints += 1;
        self.some_away += (away > 0 && away < workers.len()) as u64;
        self.all_away += (away == workers.len()) as u64;
    }
}

impl fmt::Display for Tally {
    fn fmt(&self, out: &mut fmt::Formatter) -> fmt::Result {
        writeln!(out, "sequences {}", self.sequences)?;
        writeln!(out, "of them from a format {}", self.sequences - self.from_recovery)?;
        writeln!(out, "of them from a recovery's start on foreign memory {}", self.from_recovery)?;
        writeln!(out, "recovery's starts on foreign memory: {}", met(&self.foreign))?;
        writeln!(out, "taken with a mark at the epoch {}", self.marked)?;
        let [first, second, last_but_one, last] = self.edges;
        writeln!(out, "taken in epoch 1 {first}, 2 {second}, 2^64 - 2 {last_but_one}, 2^64 - 1 {last}")?;
        let [formats, mixed, recoveries] = self.pairs;
        writeln!(out, "boards compared {formats} from formats, {mixed} of each, {recoveries} from foreign memory")?;
        writeln!(out, "calls {}", self.calls)?;
        writeln!(out, "of them on made-up boards {}", self.probes)?;
        writeln!(out, "cuts {}", self.cuts)?;
        writeln!(out, "formats finished within sequences {}", self.formats)?;
        writeln!(out, "recoveries finished {}", self.recoveries)?;
        writeln!(out, "checkpoints released {}", self.checkpoints)?;
        writeln!(out, "of them with some workers away {}, with all away {}", self.some_away, self.all_away)?;
        writeln!(out, "pages taken {}", self.pages)?;
        for (number, count) in self.answers.iter().enumerate() {
            writeln!(out, "answer {number}: {count}")?;
        }
        writeln!(out, "going away: {}", met(&self.going_away))?;
        writeln!(out, "coming back: {}", met(&self.coming_back))?;
        writeln!(out, "counts: {}", met(&self.counts))?;
        writeln!(out, "updates: {}", met(&self.updates))?;
        writeln!(out, "restart points: {}", met(&self.restart_points))?;
        writeln!(out, "locks taken: {}", met(&self.takes))?;
        writeln!(out, "locks given back: {}", met(&self.gives))?;
        let [wild, calls] = self.wild;
        writeln!(out, "starts on made-up boards followed {wild}, calls after them {calls}")?;
        let (words, eighth, pairs) = (self.in_words, self.in_eighth, self.in_pairs);
        writeln!(out, "checkpoints foretold {}, of them with lines in several words {words},", self.foretold)?;
        writeln!(out, "with a line in the eighth word {eighth}, with both cells of a line marked {pairs}")?;
        writeln!(out, "memories written as HEX: {}", met(&self.written))?;
        writeln!(out, "HEX texts read: {}", met(&self.read))
    }
}

/// The answers that were met, each with its count.
fn met(answers: &[u64]) -> String {
    let counts = answers.iter().enumerate().filter(|(_, count)| **count > 0);
    counts.map(|(number, count)| format!("answer {number} {count}")).collect::<Vec<_>>().join(", ")
}
