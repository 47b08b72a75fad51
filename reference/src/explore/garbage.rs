//! What a cut may leave, and boards that no lawful sequence leads to.

use crate::bits::{self, LineBits, NO_LINES};
use crate::board::{Board, Condition, Phase, State, Store, UndoStep, Update};
use crate::call::Call;
use crate::fault::MOST_ROOM;
use crate::line::{header, LINE_WORDS};
use crate::locks::{lock_of, Holders, LOCKS, NOBODY};
use crate::page::page_bytes;
use crate::random::Random;
use crate::work::some_workers;

/// A word of any kind: small ones and the largest more often than others.
pub fn word(random: &Random) -> u64 {
    match random.below(8) {
        0 => u64::MAX - random.below(3),
        1 | 2 => random.word(),
        _ => random.below(5),
    }
}

/// A number just about a limit, seldom any other.
fn about(random: &Random, limit: u64) -> u64 {
    match random.below(8) {
        0 => random.word(),
        1..=4 => random.below(limit + 2),
        _ => (limit + random.below(3)).saturating_sub(1),
    }
}

/// A text row's bytes, mostly about those that a page of so many lines needs, at most those of the fault program.
pub fn room(random: &Random, lines: u64) -> u64 {
    let need = page_bytes(lines);
    let room = match random.below(10) {
        0 => 0,
        1 => random.below(need),
        2 => need + random.below(200),
        3 | 4 => need - 1,
        5 => need + 1,
        _ => need,
    };
    room.min(MOST_ROOM)
}

/// "A cut may leave any words in cache ... and any state record"
pub fn cut(random: &Random, board: &mut Board) {
    match random.below(4) {
        0 => board.cache.fill(0),
        1 => board.cache.copy_from_slice(&board.memory),
        2 => {}
        _ => board.cache.iter_mut().for_each(|cell| *cell = word(random)),
    }
    if random.chance(1, 2) {
        board.state.line_bits = any_bits(random);
    }
    if random.chance(1, 2) {
        let most = random.pick(&[NOBODY, board.state.workers.min(NOBODY)]);
        board.state.holders = some_holders(random, most.into());
    }
    match random.below(4) {
        0 => {}
        1 => board.state.phase = Phase::Off,
        2 => board.state = state(random, board.state.lines as u64, board.state.workers as u64),
        _ => spoil_state(random, &mut board.state),
    }
}

/// Some state record of a board of this size, each field within its limits.
fn state(random: &Random, lines: u64, workers: u64) -> State {
    let cells = (2 * lines).max(1);
    let phase = random.pick(&[
        Phase::Off,
        Phase::Formatting,
        Phase::Recovering,
        Phase::Running,
        Phase::Running,
        Phase::Running,
    ]);
    let mut state = State::started(phase, lines as u16, workers as u8);
    state.line_bits = allowed_bits(random, lines);
    let n = u64::from(bits::count(&state.line_bits));
    state.requested = random.chance(1, 2);
    state.undo = random.pick(&[UndoStep::Record, UndoStep::Mark, UndoStep::WriteBack]);
    state.place = match phase {
        Phase::Formatting => random.below(lines + 2),
        Phase::Recovering => random.below(cells),
        _ => random.pick(&[random.below(n + 3), n]),
    } as u16;
    let still = random.chance(1, 3);
    let waiting = [Condition::Waiting, random.pick(&[Condition::Waiting, Condition::Away]), Condition::Away];
    for slot in &mut state.worker {
        *slot = if still { random.pick(&waiting) } else { condition(random, cells) };
    }
    state.holders = some_holders(random, workers);
    match random.below(3) {
        0 => hold_for_updates(&mut state),
        1 if !still => contend(random, &mut state),
        _ => {}
    }
    state
}

/// Holders among so many workers: nobody at all, or somebody of each lock so many times in four.
pub fn some_holders(random: &Random, workers: u64) -> Holders {
    let held = random.pick(&[0, 1, 3, 4]);
    let holder = || if random.chance(held, 4) { random.below(workers.max(1)) as u8 } else { NOBODY };
    std::array::from_fn(|_| holder())
}

/// A free worker and another one that updates the cell which the first may begin with: a data cell whose lock it holds, or its
/// own restart cell, it holding none.
fn contend(random: &Random, state: &mut State) {
    let (workers, cells) = (state.active_workers().len() as u64, 2 * state.lines as u64);
    if workers < 2 {
        return;
    }
    let free = random.below(workers);
    let other = (free + 1 + random.below(workers - 1)) % workers;
    let cell = random.pick(&[free, workers + random.below((cells - workers).max(1))]);
    let next = random.pick(&[Store::Backup, Store::Mark, Store::Record]);
    state.worker[free as usize] = Condition::Free;
    state.worker[other as usize] = Condition::Updating(Update { cell: cell as u16, value: word(random), next });
    if cell == free {
        state.holders.iter_mut().filter(|holder| u64::from(**holder) == free).for_each(|holder| *holder = NOBODY);
    } else {
        state.holders[lock_of(cell)] = free as u8;
    }
}

/// Each worker under W in the middle of an update of a data cell holds that cell's lock, the last of several.
fn hold_for_updates(state: &mut State) {
    let workers = state.active_workers().len();
    for worker in 0..workers {
        if let Condition::Updating(update) = state.worker[worker] {
            if usize::from(update.cell) >= workers {
                state.holders[lock_of(update.cell.into())] = worker as u8;
            }
        }
    }
}

/// Any eight words.
fn any_bits(random: &Random) -> LineBits {
    let kind = random.below(3);
    std::array::from_fn(|_| match kind {
        0 => random.word(),
        1 => word(random),
        _ => random.pick(&[0, u64::MAX, 1, 1 << 63]),
    })
}

/// Bits of lines 1 to L: none, all, or some, the last line's more often.
pub fn allowed_bits(random: &Random, lines: u64) -> LineBits {
    let mut set = NO_LINES;
    let some = random.pick(&[1, 2, lines.min(511) / 2, lines.min(12)]);
    match random.below(6) {
        0 => {}
        1 => (1..=lines.min(511)).for_each(|line| bits::set(&mut set, line as usize)),
        _ => (0..some).for_each(|_| {
            let line = random.pick(&[lines, 1 + random.below(lines.max(1)), 1 + random.below(lines.max(1))]);
            bits::set(&mut set, line.clamp(1, 511) as usize);
        }),
    }
    set
}

/// A line that no bit may be set for: line 0, or one past L where there is such.
pub fn line_astray(random: &Random, lines: u64) -> u64 {
    let past = (lines + 1).min(511);
    let line = random.pick(&[0, 0, past, past, past + random.below(512 - past), 511]);
    if line > lines {
        line
    } else {
        0
    }
}

/// Some condition of a worker.
fn condition(random: &Random, cells: u64) -> Condition {
    match random.below(5) {
        0 => Condition::Waiting,
        1 => Condition::Free,
        2 => Condition::Away,
        _ => Condition::Updating(Update {
            cell: random.below(cells) as u16,
            value: word(random),
            next: random.pick(&[Store::Backup, Store::Mark, Store::Record]),
        }),
    }
}

/// Put one field of a state record at or past its limit.
fn spoil_state(random: &Random, state: &mut State) {
    let cells = 2 * state.lines as u64;
    match random.below(7) {
        0 => state.lines = random.pick(&[0, 511, 512, random.word() as u16]),
        1 => state.workers = random.pick(&[0, 8, 9, cells as u8, random.word() as u8]),
        2 => spoil_bits(random, state),
        3 => {
            let n = u64::from(bits::count(&state.line_bits));
            state.place = random.pick(&[about(random, n + 2), about(random, cells)]) as u16;
        }
        4 => state.phase = random.pick(&[Phase::Off, Phase::Formatting, Phase::Recovering, Phase::Running]),
        5 => {
            let past = state.workers.min(7);
            state.holders[random.below(LOCKS as u64) as usize] = random.pick(&[past, past, 7, NOBODY]);
        }
        _ => {
            let cell = about(random, cells) as u16;
            let next = random.pick(&[Store::Backup, Store::Mark, Store::Record]);
            state.worker[random.below(8) as usize] = Condition::Updating(Update { cell, value: 1, next });
        }
    }
}

/// A bit that must not be set, or any eight words.
fn spoil_bits(random: &Random, state: &mut State) {
    if random.chance(1, 4) {
        state.line_bits = any_bits(random);
    } else {
        bits::set(&mut state.line_bits, line_astray(random, state.lines.into()) as usize);
    }
}

/// A board made up for one call: mostly sound, often with something spoiled.
pub fn board(random: &Random, board: &mut Board) {
    let large = random.pick(&[63, 64, 65, 128, 447, 448, 510, 511]);
    let lines = random.pick(&[1, 1, 2, 2, 3, 4, 5, if random.chance(1, 16) { large } else { 6 }]);
    let workers = some_workers(random, lines);
    board.resize(lines);
    board.state = state(random, lines, workers);
    let wide = random.chance(1, 4);
    for word_of_row in board.memory.iter_mut().chain(&mut board.cache) {
        *word_of_row = if wide && random.chance(2, 3) { random.digits() } else { random.below(4) };
    }
    let epoch = random.pick(&[1, 2, u64::MAX - 1, u64::MAX]);
    board.memory[..LINE_WORDS].copy_from_slice(&header(epoch, lines, workers));
    board.cache[..LINE_WORDS].copy_from_slice(&header(epoch, lines, workers));
    for _ in 0..random.pick(&[0, 0, 1, 2]) {
        match random.below(3) {
            0 => spoil_state(random, &mut board.state),
            1 => spoil_rows(random, board),
            _ => spoil_words(random, board),
        }
    }
}

/// Make one row too long or too short.
pub fn spoil_rows(random: &Random, board: &mut Board) {
    let change = random.pick(&[0, 1, 7, 8, 9, 15, 16, 17, 24]);
    let words = board.memory.len();
    match random.below(4) {
        0 => board.memory.resize(words + change, 0),
        1 => board.memory.truncate(words.saturating_sub(change)),
        2 => board.cache.resize(change + words, 0),
        _ => {
            let words = random.pick(&[0, 8, 15, 16, 24, 4096, 4104]);
            board.memory.resize(words, 0);
            board.cache.resize(words, 0);
        }
    }
}

/// Spoil a word of the header.
pub fn spoil_words(random: &Random, board: &mut Board) {
    if let Some(first) = board.memory.get_mut(..LINE_WORDS) {
        first[random.below(8) as usize] = random.pick(&[0, 1, 2, 8, 9, random.word()]);
    }
}

/// Now and then more damage, and the call that meets it: another L or W in the cache's header, where no call looks for
/// them, or a step of a format or recovery at a place about the limits of both.
pub fn damage_more(random: &Random, board: &mut Board, call: Call) -> Call {
    match random.below(16) {
        0 => {
            let sizes = board.cache.get_mut(1..3).unwrap_or(&mut []);
            sizes.iter_mut().for_each(|size| *size = random.pick(&[0, 1, 2, 3, 8, 511, random.word()]));
            call
        }
        1 => {
            let lines = u64::from(board.state.lines);
            board.state.phase = random.pick(&[Phase::Formatting, Phase::Recovering]);
            board.state.place =
                random.pick(&[lines, lines + 1, lines + 2, 2 * lines, random.below(2 * lines + 2)]) as u16;
            Call::Step
        }
        _ => call,
    }
}

/// Any call, its arguments about their limits.
pub fn call(random: &Random, state: &State) -> Call {
    let (lines, workers) = (state.lines as u64, state.workers as u64);
    let worker = about(random, workers);
    match random.below(18) {
        0 => Call::Format {
            lines: random.pick(&[lines, lines, about(random, lines), about(random, 511)]),
            workers: about(random, 8),
        },
        1 => Call::Recovery,
        2 => Call::Step,
        3 => Call::Update { worker, cell: about(random, 2 * lines), value: word(random) },
        14 | 15 => under_its_lock(random, state),
        16 => Call::Take { worker, lock: about(random, LOCKS as u64) },
        17 => Call::GiveBack { worker, lock: about(random, LOCKS as u64) },
        4 => Call::RestartPoint { worker, value: word(random) },
        5 => Call::Advance { worker },
        6 => Call::Request,
        7 => Call::WriteBack { line: about(random, lines) },
        8 => Call::Read { cell: about(random, 2 * lines) },
        9 => Call::GoAway { worker },
        10 => Call::ComeBack { worker },
        11 | 12 => Call::Count,
        _ => Call::Page { room: room(random, lines) },
    }
}

/// What the worker that may do it does with a cell that somebody updates, or with any: an update by the holder of its lock,
/// a restart point on a restart cell, or a lock given back.
fn under_its_lock(random: &Random, state: &State) -> Call {
    let (cells, workers) = (2 * state.lines as u64, state.workers as u64);
    let any = workers + random.below(cells.saturating_sub(workers).max(1));
    let updated = state.active_workers().iter().find_map(|condition| match condition {
        Condition::Updating(update) if random.chance(2, 3) => Some(update.cell.into()),
        _ => None,
    });
    let (cell, value) = (updated.unwrap_or(any), word(random));
    let lock = lock_of(cell);
    let worker = if state.holders[lock] == NOBODY { random.below(8) } else { state.holders[lock].into() };
    match random.below(3) {
        0 => Call::GiveBack { worker, lock: lock as u64 },
        _ if cell < workers => Call::RestartPoint { worker: cell, value },
        _ => Call::Update { worker, cell, value },
    }
}
