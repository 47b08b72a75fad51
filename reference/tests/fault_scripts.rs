//! Random scripts for the fault program: what they reach, and that the board answers them as the table says.
#![deny(warnings)]

use std::collections::{HashMap, HashSet};

use reference::board::Board;
use reference::call::{Answer, Call};
use reference::explore::answered;
use reference::explore::check::Checks;
use reference::explore::table::parts;
use reference::fault::{Command, Fault};
use reference::fault_script::{bits_script, foreign_script, hex_script, locks_script, script};
use reference::mistake::{Mistake, MISTAKES};
use reference::program::{answer, Program};
use reference::reached::{orders, reached, CASES, CAUSES, KEPT, LINES, LOCKS, MEMORIES};
use reference::say::{call_line, damage_line, drill_line, line as say};
use reference::text::{fields, UNREAD};

/// The lines of a script.
fn lines(text: &[u8]) -> Vec<&[u8]> {
    text.strip_suffix(b"\n").unwrap_or(text).split(|byte| *byte == b'\n').collect()
}

#[test]
fn two_hundred_scripts_reach_every_cause_of_every_call_and_every_kind_of_question_mark() {
    let reached = reached(200, 500);
    assert_eq!(reached.lines, 100_000);
    for (letter, causes) in CAUSES {
        for (number, count) in reached.answers[letter as usize].iter().enumerate() {
            let possible = causes.contains(&(number as u8));
            assert_eq!(*count > 0, possible, "{} answers {number}: {count} times", letter as char);
            assert!(!possible || *count >= 20, "{} answers {number} only {count} times", letter as char);
        }
    }
    for letter in *b"XWMNQBKOTYhy" {
        assert!(reached.answers[letter as usize][0] >= 100, "{}", letter as char);
    }
    for (letter, number) in [(b'h', 12), (b'y', 19), (b'y', 20)] {
        let count = reached.answers[letter as usize][number];
        assert!(count >= 10, "{} answers {number} only {count} times", letter as char);
    }
    for number in [0, 2, 3, 4, 12] {
        let count = reached.answers[b'p' as usize][number];
        assert!(count >= 50, "p answers {number} only {count} times");
    }
    for ((_, words), count) in UNREAD.iter().zip(reached.unread) {
        assert!(count >= 50, "{words}: {count}");
    }
}

/// Each part of a cause, and the calls whose answer can hang on it alone.
const PARTS: [(&str, &[u8]); 39] = [
    ("a format's L or W", b"f"),
    ("phase", b"SUPACEGpabnHV"),
    ("a worker's cell", b"SUPACEGpabnHV"),
    ("place in a checkpoint", b"SUPACEGpabnHV"),
    ("place in a recovery", b"SE"),
    ("place in a format", b"S"),
    ("a holder W or more", b"SUPACEGpabnHV"),
    ("a bit past L", b"SUPACEGpabnHV"),
    ("a bit of line 0", b"SUPACEGpabnHV"),
    ("record's L or W", b"SUPACEGpabnHV"),
    ("cache's length", b"fSUPACEGpabnHV"),
    ("memory's length", b"fSUPACEGpabnHV"),
    ("cache's length at recovery", b"R"),
    ("memory's length at recovery", b"R"),
    ("header's words 3 to 7", b"R"),
    ("header's W", b"R"),
    ("header's L", b"R"),
    ("header's epoch", b"R"),
    ("a mark past the epoch", b"R"),
    ("worker W or more", b"UPAabHV"),
    ("line over L", b"E"),
    ("cell 2L or more", b"UG"),
    ("cell under W", b"U"),
    ("lock 16 or more", b"HV"),
    ("an unfinished update under the lock", b"V"),
    ("worker without update", b"A"),
    ("worker not free", b"UPaH"),
    ("worker not away", b"b"),
    ("a checkpoint under way", b"b"),
    ("lock not held", b"V"),
    ("lock not free", b"H"),
    ("a lock held", b"Pa"),
    ("the cell's lock not held", b"U"),
    ("another's update of the cell", b"UP"),
    ("a worker not waiting", b"S"),
    ("no request", b"S"),
    ("request while one stands", b"C"),
    ("the last epoch", b"SC"),
    ("text row", b"p"),
];

#[test]
fn two_hundred_scripts_reach_every_part_of_every_cause_by_itself() {
    let reached = reached(200, 500);
    assert!(parts().all(|(_, part)| PARTS.iter().any(|(known, _)| *known == part)));
    for (part, letters) in PARTS {
        for letter in *b"fRSUPACEGpabnHV" {
            let count = reached.part(part, letter);
            assert_eq!(count > 0, letters.contains(&letter), "{part}, {}: {count}", letter as char);
        }
    }
}

#[test]
fn two_hundred_scripts_show_the_order_of_every_two_causes() {
    let reached = reached(200, 500);
    for (letter, first, other) in orders() {
        let count = reached.order(letter, first, other);
        assert!(count > 0, "{}: {first} over {other}", letter as char);
    }
}

#[test]
fn two_hundred_scripts_have_every_case_of_a_worker_that_is_away() {
    let reached = reached(200, 500);
    for ((words, _), count) in CASES.iter().zip(reached.cases) {
        assert!(count >= 20, "{words}: {count}");
    }
    let [put, unused] = reached.put_away;
    assert!(put >= 500 && unused >= 20, "K makes {put} workers away, and would {unused} more but for a number");
}

#[test]
fn two_hundred_scripts_have_every_case_of_foreign_memory() {
    let reached = reached(200, 500);
    assert!(reached.answers[b'R' as usize][14] >= 50);
    for ((words, _), count) in MEMORIES.iter().zip(reached.memories) {
        assert!(count >= 40, "{words}: {count}");
    }
}

#[test]
fn two_hundred_scripts_have_every_case_of_line_bits() {
    let reached = reached(200, 500);
    for ((words, _), count) in LINES.iter().zip(reached.lines_set) {
        assert!(count >= 20, "{words}: {count}");
    }
}

#[test]
fn two_hundred_scripts_have_every_case_of_locks() {
    let reached = reached(200, 500);
    for ((words, _), count) in LOCKS.iter().chain(&KEPT).zip(reached.locks.iter().chain(&reached.kept)) {
        assert!(*count >= 20, "{words}: {count}");
    }
}

#[test]
fn a_script_of_locks_takes_gives_back_and_updates_under_them() {
    for seed in 1..=4 {
        let mut answers: HashMap<(u8, u8), u64> = HashMap::new();
        let mut board = Board::empty(None);
        for line in lines(&locks_script(seed, 4000)) {
            if let Ok(reply) = answer::<Fault>(&mut board, line) {
                *answers.entry((line[0], reply.number)).or_default() += 1;
            }
        }
        let count = |letter: u8, number: u8| answers.get(&(letter, number)).copied().unwrap_or(0);
        for (letter, numbers) in
            [(b'H', &[0, 8, 15, 16][..]), (b'V', &[0, 8, 15, 16]), (b'U', &[0, 16, 9]), (b'P', &[0, 16])]
        {
            assert!(numbers.iter().all(|number| count(letter, *number) >= 5), "seed {seed}: {answers:?}");
        }
        assert!(count(b'H', 0) > 150 && count(b'V', 0) > 150 && count(b'U', 0) > 100, "seed {seed}: {answers:?}");
        assert!(count(b'a', 16) >= 5 && count(b'O', 0) >= 100, "seed {seed}: {answers:?}");
    }
}

#[test]
fn a_script_of_line_bits_counts_and_releases_checkpoints_of_several_lines() {
    for seed in 1..=4 {
        let (mut counts, mut releases): (HashMap<u8, u64>, u64) = (HashMap::new(), 0);
        let mut board = Board::empty(None);
        for line in lines(&bits_script(seed, 4000)) {
            let before = board.state;
            let reply = answer::<Fault>(&mut board, line);
            if let (b"n", Ok(reply)) = (line, reply) {
                *counts.entry(reply.number).or_default() += 1;
            }
            let several = before.line_bits.iter().filter(|word| **word != 0).count() > 1;
            releases += (several && line == b"S" && before.requested && !board.state.requested) as u64;
        }
        assert!([0, 2, 3, 4].iter().all(|number| counts[number] >= 8), "seed {seed}: {counts:?}");
        assert!(releases >= 15, "seed {seed}: {releases}");
    }
}

#[test]
fn a_script_of_foreign_memories_has_no_format_and_takes_and_refuses_them() {
    for seed in 1..=4 {
        let text = foreign_script(seed, 4000);
        assert!(!lines(&text).iter().any(|line| matches!(line.first(), Some(b'F'))));
        let mut starts: HashMap<u8, u64> = HashMap::new();
        let mut board = Board::empty(None);
        for line in lines(&text) {
            let reply = answer::<Fault>(&mut board, line);
            if let (b"R", Ok(reply)) = (line, reply) {
                *starts.entry(reply.number).or_default() += 1;
            }
        }
        assert!([0, 5, 14].iter().all(|number| starts[number] >= 15), "seed {seed}: {starts:?}");
        assert!(starts[&0] > 100, "seed {seed}: {starts:?}");
    }
}

#[test]
fn a_script_is_a_function_of_seed_and_lines() {
    for script in [script, bits_script, foreign_script, hex_script, locks_script] {
        made_the_same_again(script);
    }
}

/// The same script for the same seed, of so many lines, the last a checksum; another for another seed.
fn made_the_same_again(script: fn(u64, u64) -> Vec<u8>) {
    let mut seen = HashSet::new();
    for seed in 0..20 {
        for count in [0, 1, 2, 3, 50, 400] {
            let text = script(seed, count);
            assert_eq!(text, script(seed, count));
            if count == 0 {
                assert!(text.is_empty());
                continue;
            }
            assert_eq!(lines(&text).len() as u64, count);
            assert_eq!(lines(&text).last(), Some(&&b"T"[..]));
            assert_eq!(text.last() == Some(&b'\n'), seed % 2 == 0);
            assert!(count < 50 || seen.insert(text));
        }
    }
}

#[test]
fn a_checksum_comes_every_few_lines() {
    for seed in 1..50 {
        let text = script(seed, 400);
        let longest = lines(&text).split(|line| *line == b"T").map(<[_]>::len).max();
        assert!(longest < Some(16), "seed {seed}: {longest:?} lines without one");
    }
}

#[test]
fn every_call_of_every_script_answers_as_the_table_says() {
    for seed in 1..=200 {
        let mut board = Board::empty(None);
        for line in lines(&script(seed, 500)) {
            let command = fields(line).and_then(|fields| Fault::command(&fields));
            let before = board.clone();
            let reply = answer::<Fault>(&mut board, line);
            let Ok(reply) = reply else {
                assert_eq!(before, board);
                continue;
            };
            if let Some(call) = command.ok().and_then(|command| command.call()) {
                let read = reply.value.filter(|_| matches!(call, Call::Read { .. } | Call::Count));
                let answer = Answer { number: reply.number, value: read.unwrap_or(0) };
                let held = answered(Checks { only: None }, &call, &before, &board, answer);
                assert!(held.is_ok(), "seed {seed}: {held:?}");
            }
        }
    }
}

#[test]
fn a_command_said_is_the_command_read() {
    for seed in 1..20 {
        for line in lines(&script(seed, 500)) {
            let Ok(command) = fields(line).and_then(|fields| Fault::command(&fields)) else { continue };
            let said = match &command {
                Command::Drill(command) => drill_line(command),
                Command::Damage(damage) => damage_line(damage),
                Command::Checksum => b"T".to_vec(),
                Command::Page { room } => call_line(&Call::Page { room: *room }),
                Command::WriteHex { room } => say('h', &[*room]),
                Command::ReadHex { bytes } => say('y', &[*bytes]),
            };
            assert_eq!(fields(&said).and_then(|fields| Fault::command(&fields)), Ok(command));
        }
    }
}

/// A page's line in a few words: how its room stands to what the board's page needs.
fn room_in_words(board: &Board, line: &[u8]) -> &'static str {
    let numbers: Vec<&[u8]> = line.split(|byte| *byte == b'\t').skip(1).collect();
    let need = 68 * (1 + 2 * i64::from(board.state.lines));
    let [room] = numbers[..] else { return if numbers.is_empty() { "no room" } else { "two rooms" } };
    let Ok(room) = std::str::from_utf8(room).unwrap_or("").parse::<i64>() else { return "no number" };
    match (room, room - need) {
        (70_001.., _) => "over the most",
        (70_000, _) => "the most",
        (0, _) => "none",
        (_, -1) => "one too few",
        (_, 0) => "just enough",
        (_, 1) => "one more",
        (_, 2..) => "more",
        _ => "too few",
    }
}

#[test]
fn two_hundred_scripts_have_pages_in_text_rows_of_every_kind() {
    let mut kinds: HashMap<&str, u64> = HashMap::new();
    let mut pages = HashSet::new();
    for seed in 1..=200 {
        let mut board = Board::empty(None);
        for line in lines(&script(seed, 500)) {
            let words = (line.first() == Some(&b'p')).then(|| room_in_words(&board, line));
            let reply = answer::<Fault>(&mut board, line);
            if let Some(words) = words {
                *kinds.entry(words).or_default() += 1;
                pages.extend(reply.ok().filter(|reply| reply.number == 0).and_then(|reply| reply.value));
            }
        }
    }
    let all = ["none", "one too few", "just enough", "one more", "more", "too few", "the most", "over the most"];
    for words in all.into_iter().chain(["no room", "two rooms"]) {
        let count = kinds.get(words).copied().unwrap_or(0);
        assert!(count >= 20, "{words}: {count}, {kinds:?}");
    }
    assert!(pages.len() >= 600, "{} different pages", pages.len());
}

/// What the board, right or mistaken, answers to a script.
fn answers(text: &[u8], mistake: Option<Mistake>) -> Vec<Option<(u8, Option<u64>)>> {
    let mut board = Board::empty(mistake);
    let reply = |line| answer::<Fault>(&mut board, line).ok().map(|reply| (reply.number, reply.value));
    lines(text).into_iter().map(reply).collect()
}

/// Mistakes that only one kind of damage shows, and only where one call follows it: fewer scripts have them.
const SELDOM: [Mistake; 5] = [
    Mistake::FormatPlaceTo2L,
    Mistake::EpochOfMemory,
    Mistake::FormatResetsUndo,
    Mistake::CheckpointResetsUndo,
    Mistake::PageByHeader,
];

#[test]
fn every_mistake_shows_in_many_scripts() {
    let scripts: Vec<Vec<u8>> = (1..=200).map(|seed| script(seed, 500)).collect();
    let of_texts = |name: &str| name.starts_with("hex-"); // `script --hex` shows them: tests/fault_hex.rs
    let of_boards = MISTAKES.iter().filter(|(_, mistake, _)| *mistake != Mistake::BeginWithRecords);
    let of_boards = of_boards.filter(|(name, ..)| !of_texts(name));
    for (name, mistake, _) in of_boards {
        let mistake = *mistake;
        let shows = |text: &&Vec<u8>| answers(text, None) != answers(text, Some(mistake));
        let count = scripts.iter().filter(shows).count();
        let least = if SELDOM.contains(&mistake) { 5 } else { 20 };
        assert!(count >= least, "{name} shows in {count} scripts");
    }
}
