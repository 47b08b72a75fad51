//! `h`, `Y` and `y` of the fault program, and the scripts made of them.
#![deny(warnings)]

use std::collections::HashMap;

use reference::board::Board;
use reference::fault::Fault;
use reference::fault_script::hex_script;
use reference::hex::text_bytes;
use reference::mistake::{Mistake, MISTAKES};
use reference::program::answer;

/// The answers of a script with blanks for tabs: call, answer and value.
fn fault(script: &str) -> Vec<String> {
    let mut output = Vec::new();
    reference::fault::run(script.replace(' ', "\t").as_bytes(), &mut output).unwrap();
    let text = String::from_utf8(output).unwrap().replace('\t', " ");
    text.lines().skip(1).map(|line| line.split_once(' ').unwrap().1.to_owned()).collect()
}

/// The last answer of a script.
fn last(script: &str) -> String {
    fault(script).pop().unwrap()
}

/// The fault program's checksum.
fn sum_of(bytes: impl Iterator<Item = u8>) -> u64 {
    bytes.fold(14_695_981_039_346_656_037, |sum, byte| (sum ^ u64::from(byte)).wrapping_mul(1_099_511_628_211))
}

/// The text of a board after `F 1 1`.
const TEXT: &str = "\
:1000000001000000000000000100000000000000EE
:1000100001000000000000000000000000000000DF
:1000200000000000000000000000000000000000D0
:1000300000000000000000000000000000000000C0
:1000400000000000000000000000000000000000B0
:1000500000000000000000000000000000000000A0
:100060000000000000000000000000000000000090
:100070000000000000000000000000000000000080
:00000001FF
";

#[test]
fn memory_is_written_and_its_text_summed() {
    let of = |text: &str, more: usize| sum_of(text.bytes().chain(std::iter::repeat_n(0xAA, more)));
    assert_eq!(last("F 1 1\nh 364"), format!("h 0 {}", of(TEXT, 0)));
    assert_eq!(last("F 1 1\nh 365"), format!("h 0 {}", of(TEXT, 1)));
    assert_eq!(last("F 1 1\nh 90200"), format!("h 0 {}", of(TEXT, 90_200 - 364)));
    assert_eq!(last("F 1 1\nh 363"), format!("h 12 {}", of("", 363)));
    assert_eq!(last("F 1 1\nh 0"), format!("h 12 {}", of("", 0)));
    assert_eq!(last("h 0"), format!("h 20 {}", of("", 0)));
    assert_eq!(last("F 1 1\nW 8 8\nh 364"), format!("h 20 {}", of("", 364)));
    assert_eq!(last("F 1 1\nW 4104 16\nh 0"), format!("h 20 {}", of("", 0)));
    assert_eq!(last("F 511 8\nh 90123")[..5], *"h 12 ");
    assert_eq!(last("F 511 8\nh 90124")[..4], *"h 0 ");
}

#[test]
fn numbers_that_cannot_be_put_there() {
    for line in ["h 90201", "h 18446744073709551615", "Y 364 0", "Y 0 256", "Y 18446744073709551615 0", "y 365"] {
        assert_eq!(last(&format!("F 1 1\nh 364\n{line}")), "? ? -", "{line}");
        assert_eq!(last(&format!("F 1 1\nh 364\n{line}\ny 364")), "y 0 -", "{line} changes nothing");
    }
    assert_eq!(fault("Y 0 0\ny 1\ny 0"), ["? ? -", "? ? -", "y 19 -"]);
    for line in ["h", "h 1 1", "Y 0", "Y 0 0 0", "y", "y 0 0"] {
        assert_eq!(last(&format!("F 1 1\nh 364\n{line}")), "? ? -", "{line}");
    }
}

#[test]
fn a_text_changed_byte_by_byte_and_read() {
    let other = "F 1 1\nh 364\nM 8 5\nM 15 6";
    assert_eq!(last(&format!("{other}\nT")), last("F 1 1\nM 8 5\nM 15 6\nT"));
    assert_eq!(last(&format!("{other}\ny 364\nT")), last("F 1 1\nT"));
    for line in ["y 363", "y 0", "Y 0 59\ny 364", "Y 43 13\ny 364", "Y 42 70\ny 364", "W 24 16\ny 364"] {
        let before = line.split('\n').filter(|part| part.starts_with('W')).map(|part| format!("\n{part}"));
        let before: String = before.collect();
        let number = if line.starts_with('W') { "y 20 -" } else { "y 19 -" };
        assert_eq!(last(&format!("{other}\n{line}")), number, "{line}");
        assert_eq!(last(&format!("{other}\n{line}\nT")), last(&format!("{other}{before}\nT")), "{line}");
    }
    let epoch_2 = "Y 10 50\nY 42 68";
    assert_eq!(last(&format!("{other}\n{epoch_2}\ny 364\nM 8 0\nM 15 0\nT")), last("F 1 1\nM 0 2\nT"));
}

#[test]
fn the_text_stays_until_it_is_written_again() {
    let text = "F 2 3\nh 540";
    assert_eq!(last(&format!("{text}\nF 1 1\nX\nR\nT\np 204\ny 540")), "y 20 -");
    assert_eq!(last(&format!("{text}\nF 1 1\nF 2 1\ny 540\nR\nS\nS\nS\nS\na 2")), "a 0 -");
    assert_eq!(last(&format!("{text}\nh 90201\ny 540")), "y 0 -");
    assert_eq!(last(&format!("{text}\nh 539\ny 539")), "y 19 -");
}

/// A script's lines.
fn lines(text: &[u8]) -> Vec<&[u8]> {
    text.strip_suffix(b"\n").unwrap_or(text).split(|byte| *byte == b'\n').collect()
}

/// What was met in some scripts: answers by letter, and cases by their words.
fn met(scripts: &[Vec<u8>]) -> HashMap<String, u64> {
    let mut met: HashMap<String, u64> = HashMap::new();
    for text in scripts {
        let (mut board, mut was_read) = (Board::empty(None), false);
        for line in lines(text) {
            let Some(letter) = line.first().map(|letter| *letter as char) else { continue };
            let need = text_bytes(board.memory.len());
            let Ok(reply) = answer::<Fault>(&mut board, line) else {
                *met.entry(format!("{letter} ?")).or_default() += 1;
                continue;
            };
            let mut note = |words: String| *met.entry(words).or_default() += 1;
            note(format!("{letter} {}", reply.number));
            match (letter, board.text.len()) {
                ('h', room) if room == need => note("just enough".into()),
                ('h', room) if room + 1 == need => note("one too few".into()),
                ('h', 0) => note("none".into()),
                ('h', 90_200) => note("the most".into()),
                ('R', _) if was_read => note(format!("R {} after a text", reply.number)),
                _ => {}
            }
            was_read = (was_read || (letter == 'y' && reply.number == 0)) && letter != 'F' && letter != 'R';
        }
    }
    met
}

#[test]
fn the_scripts_reach_every_answer() {
    let scripts: Vec<Vec<u8>> = (1..=120).map(|seed| hex_script(seed, 400)).collect();
    assert_eq!(scripts[4], hex_script(5, 400));
    assert!(scripts.iter().all(|text| lines(text).len() == 400));
    let met = met(&scripts);
    let answers = ["h 0", "h 12", "h 20", "y 0", "y 19", "y 20", "Y 0", "h ?", "Y ?", "y ?"];
    let rooms = ["just enough", "one too few", "none", "the most"];
    let starts = ["R 0 after a text", "R 5 after a text", "R 14 after a text"];
    for words in answers.into_iter().chain(rooms).chain(starts) {
        let count = met.get(words).copied().unwrap_or(0);
        assert!(count >= 10, "{words}: {count}, {met:?}");
    }
    assert!(met["y 0"] >= 300 && met["y 19"] >= 300 && met["y 20"] >= 50, "{met:?}");
}

/// What a board, right or mistaken, answers to a script.
fn answers(text: &[u8], mistake: Option<Mistake>) -> Vec<Option<(u8, Option<u64>)>> {
    let mut board = Board::empty(mistake);
    let reply = |line| answer::<Fault>(&mut board, line).ok().map(|reply| (reply.number, reply.value));
    lines(text).into_iter().map(reply).collect()
}

#[test]
fn every_mistake_with_texts_shows_in_many_scripts() {
    let scripts: Vec<Vec<u8>> = (1..=120).map(|seed| hex_script(seed, 400)).collect();
    let of_texts: Vec<_> = MISTAKES.iter().filter(|(name, ..)| name.starts_with("hex-")).collect();
    assert_eq!(of_texts.len(), 8);
    for (name, mistake, _) in of_texts {
        let shows = |text: &&Vec<u8>| answers(text, None) != answers(text, Some(*mistake));
        let count = scripts.iter().filter(shows).count();
        assert!(count >= 20, "{name} shows in {count} scripts");
    }
}
