//! `reference hex` and `reference hex --show`: scripts and texts in, texts and pages out; and the cases of `texts`.
#![deny(warnings)]

use std::io::Write;
use std::process::{Command, Stdio};

use reference::hex_program::{after_script, show};
use reference::page_script::script;
use reference::texts::spell::{bytes_of, ours, END};
use reference::texts::{answers, cases, counted, framed, kinds, Case};

/// Exit status, standard output and standard error.
type Said = (Option<i32>, String, String);

/// What the program says to these words and this input.
fn run(words: &[&str], input: &[u8]) -> Said {
    let mut command = Command::new(env!("CARGO_BIN_EXE_reference"));
    command.args(words).stdin(Stdio::piped()).stdout(Stdio::piped()).stderr(Stdio::piped());
    let mut child = command.spawn().unwrap();
    child.stdin.take().unwrap().write_all(input).unwrap();
    let output = child.wait_with_output().unwrap();
    let text = |bytes| String::from_utf8(bytes).unwrap();
    (output.status.code(), text(output.stdout), text(output.stderr))
}

/// The text of a script with blanks for tabs.
fn text(script: &str) -> String {
    let (code, text, error) = run(&["hex"], script.replace(' ', "\t").as_bytes());
    assert_eq!((code, error.as_str()), (Some(0), ""), "{script}");
    text
}

/// An update of cell 1 to 7 that is in memory and not checkpointed.
const UPDATED: &str = "F 1 1\nH 0 1\nU 0 1 7\nA 0\nA 0\nA 0\nE 1\n";

#[test]
fn the_memory_at_a_scripts_end() {
    let mut words = [0; 16];
    words[..3].copy_from_slice(&[1, 1, 1]);
    assert_eq!(text("F 1 1").into_bytes(), ours(&bytes_of(&words)));
    assert_eq!(text("F 511 8\nF 1 1\nX\nR").into_bytes(), ours(&bytes_of(&words)));
    words[11..14].copy_from_slice(&[7, 0, 1]);
    assert_eq!(text(UPDATED).into_bytes(), ours(&bytes_of(&words)));
    assert_eq!(text(UPDATED.trim_end()).into_bytes(), ours(&bytes_of(&words)));
    assert_eq!(text("F 511 8").len(), 90_124);
}

#[test]
fn no_memory_and_lines_that_are_no_calls() {
    let refused = "hex: refused by cause 20: length\n";
    assert_eq!(run(&["hex"], b""), (Some(1), String::new(), refused.into()));
    assert_eq!(run(&["hex"], b"F\t1\t2\nR\n"), (Some(1), String::new(), refused.into()));
    let note = "hex: note: line 1 is no call: blanks where tabs belong\n";
    assert_eq!(run(&["hex"], b"F 1 1"), (Some(1), String::new(), format!("{refused}{note}")));
    let note = "hex: note: 2 lines are no calls, the first is line 2: unknown letter\n";
    assert_eq!(run(&["hex"], b"F\t1\t1\nh\t364\nY\t0\t0"), (Some(1), text("F 1 1"), note.into()));
}

#[test]
fn a_text_shown_once_it_is_recovered() {
    let fresh = "\
epoch 1, L 1, W 1
cell               record               backup                 mark
   0                    0                    0                    0
   1                    0                    0                    0
";
    for script in ["F 1 1", UPDATED] {
        assert_eq!(run(&["hex", "--show"], text(script).as_bytes()), (Some(0), fresh.into(), String::new()));
        let lower = text(script).to_lowercase();
        assert_eq!(run(&["hex", "--show"], lower.as_bytes()), (Some(0), fresh.into(), String::new()));
    }
    let kept = "\
epoch 2, L 1, W 1
cell               record               backup                 mark
   0                    3                    0                    1
   1                    7                    0                    1
";
    let checkpointed = text(&format!("{UPDATED}V 0 1\nC\nP 0 3\nA 0\nA 0\nA 0\nS\nS\nS\nS\n"));
    assert_eq!(run(&["hex", "--show"], checkpointed.as_bytes()), (Some(0), kept.into(), String::new()));
}

/// What is said of a text that is refused by this cause.
fn refused(text: &[u8], cause: &str) {
    let said = format!("hex: refused by cause {cause}\n");
    assert_eq!(run(&["hex", "--show"], text), (Some(1), String::new(), said), "{:?}", String::from_utf8_lossy(text));
}

#[test]
fn texts_that_are_refused() {
    let no_file = "19: text that isn't such a file";
    let fresh = text("F 1 1");
    refused(b"", no_file);
    refused(fresh.trim_end().as_bytes(), no_file);
    refused(fresh.replace('\n', "\r\n").as_bytes(), no_file);
    refused(format!("{fresh}\n").as_bytes(), no_file);
    let length = "20: length";
    refused(END, length);
    for bytes in [1, 64, 127, 129, 132, 32_776, 65_535, 65_536] {
        refused(&ours(&vec![0; bytes]), length);
    }
    let of = |change: &dyn Fn(&mut [u64])| {
        let mut words = [0; 24];
        words[..3].copy_from_slice(&[5, 2, 3]);
        change(&mut words);
        ours(&bytes_of(&words))
    };
    let header = "5: header";
    refused(&of(&|words| words[0] = 0), header);
    refused(&of(&|words| words[1] = 1), header);
    refused(&of(&|words| words[2] = 4), header);
    refused(&of(&|words| words[7] = 1), header);
    refused(&of(&|words| (words[0], words[10]) = (0, 6)), header);
    refused(&of(&|words| words[10] = 6), "14: a mark greater than the epoch");
    refused(&of(&|words| words[21] = u64::MAX), "14: a mark greater than the epoch");
    assert!(show(&of(&|words| words[21] = 5)).unwrap().starts_with(b"epoch 5, L 2, W 3\ncell "));
}

#[test]
fn the_texts_of_scripts_show_a_page_of_memory() {
    let (mut shown, mut empty) = (0, 0);
    for seed in 1..=60 {
        match after_script(&script(seed, 400)[..]).unwrap().0 {
            Ok(text) => {
                let page = String::from_utf8(show(&text).unwrap()).unwrap();
                let lines: usize = page.lines().count();
                assert_eq!(page.len() - page.find('\n').unwrap() - 1, 68 * (lines - 1));
                shown += 1;
            }
            Err(number) => {
                assert_eq!(number, 20);
                empty += 1;
            }
        }
    }
    assert!(shown >= 50 && empty >= 1, "{shown} shown, {empty} empty");
}

#[test]
fn cases_of_every_kind_and_a_third_of_them_taken() {
    let counts = counted(1, 12_000);
    let counts: Vec<Vec<&str>> = counts.lines().map(|line| line.splitn(3, ' ').collect()).collect();
    let number = |line: &[&str], at: usize| line[at].parse::<u64>().unwrap();
    assert_eq!(counts.iter().map(|line| line[2]).collect::<Vec<_>>(), kinds().chain(["all"]).collect::<Vec<_>>());
    for line in &counts {
        assert!(number(line, 0) >= 8, "{line:?}");
    }
    let all = counts.last().unwrap();
    assert_eq!(number(all, 0), 12_000);
    assert!(number(all, 1) >= 4000, "{all:?}");
    let input = framed(1, 12_000);
    assert!(input.len() < 21_000_000, "{} bytes", input.len());
    assert_eq!(input, framed(1, 12_000));
    let mut met = [0; 21];
    cases(1, 12_000).for_each(|(_, case)| met[case.answer().0 as usize] += 1);
    assert!([0, 12, 19, 20].iter().all(|number| met[*number] >= 100), "{met:?}");
}

#[test]
fn a_case_and_its_answer_as_they_are_framed() {
    let read = Case::Read { words: 16, text: END.to_vec() };
    assert_eq!(read.framed(), b"r 16 12\n:00000001FF\n");
    assert_eq!(read.answer().0, 20);
    let written = Case::Write { words: 8, bytes: 3, seed: 9 };
    assert_eq!(written.framed(), b"w 8 3 9\n");
    assert_eq!(written.answer().0, 20);
    let (code, input, _) = run(&["texts", "3", "1"], b"");
    assert_eq!((code, input.into_bytes()), (Some(0), framed(3, 1)));
    assert_eq!(run(&["texts", "--answers", "3", "500"], b"").1, answers(3, 500));
    assert_eq!(run(&["texts", "--kinds", "3", "50"], b"").1, counted(3, 50));
    let sums: Vec<String> = cases(3, 500).map(|(_, case)| format!("{} {}", case.answer().0, case.answer().1)).collect();
    assert_eq!(answers(3, 500).lines().collect::<Vec<_>>(), sums);
}
