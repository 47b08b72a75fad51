//! `reference page`: a drill script in, a page or the cause that turns it down out; and the scripts made for it.
#![deny(warnings)]

use std::collections::HashSet;
use std::io::Write;
use std::process::{Command, Stdio};

use reference::page::{after_script, words};
use reference::page_script::script;

/// Exit status, standard output and standard error for a script.
fn page(script: &[u8]) -> (Option<i32>, String, String) {
    let mut command = Command::new(env!("CARGO_BIN_EXE_reference"));
    command.arg("page").stdin(Stdio::piped()).stdout(Stdio::piped()).stderr(Stdio::piped());
    let mut child = command.spawn().unwrap();
    child.stdin.take().unwrap().write_all(script).unwrap();
    let output = child.wait_with_output().unwrap();
    let text = |bytes| String::from_utf8(bytes).unwrap();
    (output.status.code(), text(output.stdout), text(output.stderr))
}

/// A taken page of a script with blanks for tabs.
fn taken(script: &str) -> String {
    let (code, text, error) = page(script.replace(' ', "\t").as_bytes());
    assert_eq!((code, error.as_str()), (Some(0), ""), "{script}");
    text
}

#[test]
fn the_page_of_the_board_at_the_scripts_end() {
    let expected = "\
cell               record               backup                 mark
   1                    7                    0                    1
   0                    0                    0                    0
";
    assert_eq!(taken("F 1 1\nH 0 1\nU 0 1 7\nA 0\nA 0\nA 0\n"), expected);
    assert_eq!(taken("F 511 8\nF 1 1\nH 0 1\nU 0 1 7\nA 0\nA 0\nA 0\nV 0 1\n"), expected);
    let recovered = "F 1 1\nH 0 1\nU 0 1 7\nA 0\nA 0\nA 0\nE 1\nX\nR\nS\nS\nS\nS\n";
    assert_eq!(taken(&format!("{recovered}H 0 1\nU 0 1 7\nA 0\nA 0\nA 0\n")), expected);
}

#[test]
fn a_last_line_without_its_line_feed_counts() {
    let expected = "\
cell               record               backup                 mark
   1                   12                    0                    1
   0                    0                    0                    0
";
    assert_eq!(taken("F 1 1\nH 0 1\nU 0 1 12\nA 0\nA 0\nA 0"), expected);
    assert_ne!(taken("F 1 1\nH 0 1\nU 0 1 12\nA 0\nA 0"), expected);
}

#[test]
fn lines_of_another_form_and_refused_ones_do_nothing() {
    let fresh = taken("F 1 1");
    assert_eq!(taken("F 1 1\nF 512 1\nG 0\nG 2\nU 0 0 5\nA 0\n"), fresh);
    let others = "\np 204\nF 1 1\nF 512 1\np 204\n\nN 8 5\nB 0 0\nT\nG 0\nG 2\nx\nU 0 0 5\nA 0\nF\n";
    let note = "page: note: 9 lines are no calls, the first is line 1: an empty line\n";
    assert_eq!(page(others.replace(' ', "\t").as_bytes()), (Some(1), fresh.clone(), note.into()));
    let note = "page: note: line 2 is no call: over 79 bytes\n";
    let long = format!("F\t1\t1\n{}\n", "7".repeat(100_000));
    assert_eq!(page(long.as_bytes()), (Some(1), fresh, note.into()));
}

#[test]
fn the_largest_page() {
    let text = taken("F 511 8");
    assert_eq!(text.len(), 68 * 1023);
    assert!(text.ends_with("\n1021                    0                    0                    0\n"));
}

#[test]
fn a_board_that_does_not_run_has_no_page() {
    for script in ["", "F\t1\t2\n", "F\t1\t1\nX\n", "F\t1\t1\nX", "F\t1\t1\nX\nR\nS\n", "F\t1\t1\nR"] {
        let refused = "page: refused by cause 2: phase doesn't allow the call\n";
        assert_eq!(page(script.as_bytes()), (Some(1), String::new(), refused.into()), "{script:?}");
    }
}

#[test]
fn causes_have_words() {
    let all = [2, 3, 4, 12].map(words);
    assert_eq!(all, ["phase doesn't allow the call", "state record", "rows", "text row too short"]);
}

/// How many lines a script has.
fn lines(text: &[u8]) -> u64 {
    let bare = text.last().is_some_and(|byte| *byte != b'\n');
    text.iter().filter(|byte| **byte == b'\n').count() as u64 + u64::from(bare)
}

#[test]
fn a_script_is_a_function_of_seed_and_lines() {
    let mut seen = HashSet::new();
    for seed in 0..300 {
        for count in [0, 1, 2, 3, 50, 400] {
            let text = script(seed, count);
            assert_eq!(text, script(seed, count));
            assert_eq!(lines(&text), count, "{seed} {count}");
            let ended = text.last().is_none_or(|byte| *byte == b'\n');
            assert!(ended || seed % 2 == 1, "{seed} {count}");
            assert!(count < 50 || seen.insert(text));
        }
    }
}

/// The different numbers in a page's last column.
fn marks(text: &str) -> usize {
    text.lines().skip(1).map(|line| line[47..].trim_start()).collect::<HashSet<_>>().len()
}

#[test]
fn scripts_lead_to_pages_of_all_sizes_and_of_many_epochs() {
    let pages: Vec<Result<Vec<u8>, u8>> =
        (1..=120).map(|seed| after_script(&script(seed, 400)[..]).unwrap().0).collect();
    let taken: Vec<&str> = pages.iter().flatten().map(|text| std::str::from_utf8(text).unwrap()).collect();
    let refused: Vec<u8> = pages.iter().filter_map(|page| page.as_ref().err().copied()).collect();
    assert!(taken.len() >= 100, "{} taken", taken.len());
    assert!(refused.len() >= 5 && refused.iter().all(|number| *number == 2), "{refused:?}");
    let sizes: Vec<usize> = taken.iter().map(|text| (text.len() / 68 - 1) / 2).collect();
    for (least, most) in [(1, 1), (2, 8), (9, 100), (101, 399), (400, 510), (511, 511)] {
        let count = sizes.iter().filter(|lines| (least..=most).contains(*lines)).count();
        assert!(count >= 3, "{count} boards of {least} to {most} lines");
    }
    let varied = taken.iter().filter(|text| marks(text) >= 3).count();
    assert!(varied >= 80, "{varied} with three marks");
}

#[test]
fn the_scripts_pages_have_numbers_of_every_length_and_cells_that_moved() {
    let mut lengths = [0; 21];
    let (mut moved, mut unmoved) = (0, 0);
    for seed in 1..=120 {
        let Ok(text) = after_script(&script(seed, 400)[..]).unwrap().0 else { continue };
        for line in std::str::from_utf8(&text).unwrap().lines().skip(1) {
            let (record, backup) = (&line[5..25], &line[26..46]);
            for word in [record, backup] {
                lengths[word.trim_start().len()] += 1;
            }
            *if record == backup { &mut unmoved } else { &mut moved } += 1;
        }
    }
    assert!(lengths[1..].iter().all(|count| *count >= 20), "{lengths:?}");
    assert!(moved >= 500 && unmoved >= 500, "{moved} moved, {unmoved} not");
}

/// A line's cell and mark.
fn place(line: &str) -> (u64, u64) {
    let number = |column: &str| column.trim_start().parse().unwrap();
    (number(&line[..4]), number(&line[47..]))
}

#[test]
fn on_most_of_the_scripts_pages_cells_of_one_mark_do_not_stand_by_number_alone() {
    let (mut decided, mut in_older_epoch) = (0, 0);
    for seed in 1..=120 {
        let Ok(text) = after_script(&script(seed, 400)[..]).unwrap().0 else { continue };
        let places: Vec<(u64, u64)> = std::str::from_utf8(&text).unwrap().lines().skip(1).map(place).collect();
        let falls = |two: &&[(u64, u64)]| two[0].1 == two[1].1 && two[1].0 < two[0].0;
        let falling: Vec<&[(u64, u64)]> = places.windows(2).filter(falls).collect();
        decided += !falling.is_empty() as u64;
        in_older_epoch += falling.iter().any(|two| two[0].1 < places[0].1) as u64;
    }
    assert!(decided >= 60 && in_older_epoch >= 40, "{decided} decided, {in_older_epoch} of them in an older epoch");
}

#[test]
fn the_scripts_cut_recover_and_complete_checkpoints() {
    let (mut recovered, mut several) = (0, 0);
    for seed in 1..=120 {
        let text = script(seed, 400);
        let mut answers = Vec::new();
        reference::drill::run(&text[..], &mut answers).unwrap();
        let answers = String::from_utf8(answers).unwrap();
        recovered += answers.contains("\tR\t0\t") as u64;
        several += (answers.matches("\tC\t0\t").count() >= 3) as u64;
    }
    assert!(recovered >= 20 && several >= 60, "{recovered} with a recovery, {several} with three checkpoints");
}
