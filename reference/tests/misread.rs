//! What drill, fault program and page say on standard error of lines that are no calls.
#![deny(warnings)]

use std::io::Write;
use std::process::{Command, Stdio};

use reference::board::Board;
use reference::drill::FORMS as DRILL;
use reference::fault::{Fault, FORMS as FAULT};
use reference::misread::Misread;
use reference::program::answer;
use reference::text::Unread;

/// Exit status, standard output and standard error.
type Said = (Option<i32>, String, String);

/// The first line that drill and fault program print.
const HEADER: &str = "line\tcall\tanswer\tvalue\n";

/// The page of a board after `F 1 1`.
const PAGE: &str = "\
cell               record               backup                 mark
   0                    0                    0                    0
   1                    0                    0                    0
";

/// What the page program says of a board that is off.
const REFUSED: &str = "page: refused by cause 2: phase doesn't allow the call\n";

/// What one of the programs says to a script.
fn run(program: &str, script: &[u8]) -> Said {
    let mut command = Command::new(env!("CARGO_BIN_EXE_reference"));
    command.arg(program).stdin(Stdio::piped()).stdout(Stdio::piped()).stderr(Stdio::piped());
    let mut child = command.spawn().unwrap();
    child.stdin.take().unwrap().write_all(script).unwrap();
    let output = child.wait_with_output().unwrap();
    let text = |bytes| String::from_utf8(bytes).unwrap();
    (output.status.code(), text(output.stdout), text(output.stderr))
}

/// These answers, the header before them, and this on standard error; `?` is an answer, so all is well.
fn answered(answers: &str, error: &str) -> Said {
    (Some(0), format!("{HEADER}{answers}"), error.into())
}

/// What a program says to a taken format and a line that is no call after it, for that reason.
fn second_line(program: &str, reason: &str) -> Said {
    let note = format!("{program}: note: line 2 is no call: {reason}\n");
    if program == "page" {
        return (Some(1), PAGE.into(), note);
    }
    answered("1\tF\t0\t-\n2\t?\t?\t-\n", &note)
}

/// These programs name the reason of every line, which comes after a taken format, with its line feed or without.
fn all_say(programs: &[&str], lines: &[(&[u8], &str)]) {
    for program in programs {
        for (line, reason) in lines {
            let bare = [b"F\t1\t1\n", *line].concat();
            let ended = [&bare, &b"\n"[..]].concat();
            assert_eq!(run(program, &ended), second_line(program, reason), "{program}: {line:?}");
            if !line.is_empty() {
                assert_eq!(run(program, &bare), second_line(program, reason), "{program}: {line:?}, no line feed");
            }
        }
    }
}

/// The programs that know the drill's letters, which are all.
const ALL: [&str; 3] = ["drill", "fault", "page"];

const LONG: &str = "over 79 bytes";
const MARK: &str = "it begins with a byte-order mark";
const RETURN: &str = "a carriage return";
const BLANKS: &str = "blanks where tabs belong";
const EMPTY: &str = "an empty line";
const LETTER: &str = "unknown letter";
const PAST: &str = "a number past 2^64 - 1";
const NO_NUMBER: &str = "a field that is no number";
const COUNT: &str = "too few or too many numbers";
const NO_PLACE: &str = "a number that cannot be put there";

#[test]
fn bytes_that_no_line_has() {
    all_say(
        &ALL,
        &[
            (&[b'7'; 80], LONG),
            (&[b'7'; 30_000], LONG),
            (b"\xEF\xBB\xBFF\t1\t1", MARK),
            (b"\xFE\xFF\0F\0\t\x001", MARK),
            (b"\xFF\xFEF\0\t\x001\0", MARK),
            (b"\xEF\xBB\xBF", MARK),
            (b"\xFE\xFF", MARK),
            (b"X\r", RETURN),
            (b"F\t1\t1\r", RETURN),
            (b"F\r\t1\t1", RETURN),
            (b"F 1 1", BLANKS),
            (b" X", BLANKS),
            (b"X ", BLANKS),
            (b" ", BLANKS),
            (b"no call at all", BLANKS),
            (b"", EMPTY),
        ],
    );
}

#[test]
fn letters_and_fields() {
    all_say(
        &ALL,
        &[
            (b"Z", LETTER),
            (b"XX", LETTER),
            (b"x\t1", LETTER),
            (b"\t", LETTER),
            (b"\tF\t1\t1", LETTER),
            (b"\xff", LETTER),
            (b"\xEF\xBBX", LETTER),
            (b"\0", LETTER),
            (b"F,1,1", LETTER),
            (b"U\t0\t1\t18446744073709551616", PAST),
            (b"G\t99999999999999999999999", PAST),
            (b"G\t0018446744073709551616", PAST),
            (b"X\t", NO_NUMBER),
            (b"F\t1\t1\t", NO_NUMBER),
            (b"F\t\t1", NO_NUMBER),
            (b"F\t+1\t1", NO_NUMBER),
            (b"F\t1\t-1", NO_NUMBER),
            (b"F\t0x1\t1", NO_NUMBER),
            (b"G\t\xEF\xBB\xBF1", NO_NUMBER),
            (b"G\t\xD9\xA1", NO_NUMBER),
            (b"G\t99999999999999999999999x", NO_NUMBER),
            (b"F", COUNT),
            (b"F\t1", COUNT),
            (b"F\t1\t1\t1", COUNT),
            (b"X\t0", COUNT),
            (b"U\t0\t1", COUNT),
            (b"G\t0\t1\t2\t3\t4\t5\t18446744073709551615", COUNT),
        ],
    );
}

#[test]
fn of_several_reasons_the_first() {
    let long = |line: &[u8]| [line, &vec![b' '; 80 - line.len()]].concat();
    let (mark, blanks) = (long(b"\xEF\xBB\xBFF\t1\t1\r"), long(b"F 1 1"));
    all_say(
        &ALL,
        &[
            (&mark, LONG),
            (&blanks, LONG),
            (b"\xEF\xBB\xBFF 1 1\r", MARK),
            (b"\xFF\xFE\r", MARK),
            (b"F 1 1\r", RETURN),
            (b"\r", RETURN),
            (b"\r\xEF\xBB\xBF", RETURN),
            (b"Z\t1\t2 ", BLANKS),
            (b" \tone", BLANKS),
            (b"Z\tone\t18446744073709551616", LETTER),
            (b"Z\t", LETTER),
            (b"F\t18446744073709551616\tone", PAST),
            (b"F\t18446744073709551616\t", PAST),
            (b"F\tone\t18446744073709551616", NO_NUMBER),
            (b"F\t\t18446744073709551616", NO_NUMBER),
            (b"X\t18446744073709551616", PAST),
            (b"U\tone", NO_NUMBER),
            (b"X\t1\t2\t3\t4\t5\tsix", NO_NUMBER),
            (b"X\t1\t2\t3\t4\t5\t", NO_NUMBER),
            (b"F\t1\t2\t3\t4\t5\t18446744073709551616\tseven", PAST),
            (b"F\t1\t2\t3\t4\t5\t6\tseven\t18446744073709551616", NO_NUMBER),
        ],
    );
}

#[test]
fn seventy_nine_bytes_have_another_reason_than_eighty() {
    let line = |length: usize| [b"X\t".as_slice(), &vec![b'0'; length - 2]].concat();
    all_say(&ALL, &[(&line(79), COUNT), (&line(80), LONG), (&[b'7'; 79], LETTER), (&[b' '; 79], BLANKS)]);
}

#[test]
fn letters_of_the_fault_program_alone() {
    let lines: [(&[u8], &str); 11] = [
        (b"B\t0\t9", NO_PLACE),
        (b"p\t70001", NO_PLACE),
        (b"T\t0", COUNT),
        (b"p\tone", NO_NUMBER),
        (b"K\t0\t0\t0\t0", COUNT),
        (b"M\t0\t18446744073709551616", PAST),
        (b"h\t90201", NO_PLACE),
        (b"Y\t0\t0", NO_PLACE),
        (b"y\t1", NO_PLACE),
        (b"Y\t0", COUNT),
        (b"y\t18446744073709551616", PAST),
    ];
    all_say(&["drill", "page"], &lines.map(|(line, _)| (line, LETTER)));
    all_say(&["fault"], &lines);
}

#[test]
fn numbers_that_cannot_be_put_there() {
    let lines =
        "W 4105 0,W 0 4105,M 16 1,N 16 1,Q 8 1,B 0 4,B 3 0,B 7 0,K 8 0 0 0 0,K 0 4 0 0 0,K 0 0 1 0 0,O 16 0,O 0 9,\
        p 70001,p 18446744073709551615,h 90201,h 18446744073709551615,Y 0 0,Y 0 256,y 1,y 18446744073709551615";
    for line in lines.split(',').map(|line| line.trim().replace(' ', "\t")) {
        all_say(&["fault"], &[(line.as_bytes(), NO_PLACE)]);
    }
    assert_eq!(
        run("fault", b"B\t0\t9\nF\t1\t1\nB\t0\t3\nM\t15\t1\nM\t16\t1\nT\t1\n"),
        answered(
            "1\t?\t?\t-\n2\tF\t0\t-\n3\tB\t0\t-\n4\tM\t0\t-\n5\t?\t?\t-\n6\t?\t?\t-\n",
            "fault: note: 3 lines are no calls, the first is line 1: a number that cannot be put there\n"
        )
    );
}

#[test]
fn every_letter_with_a_number_too_few_or_too_many() {
    let say = |letter: u8, count: usize| [vec![letter], b"\t0".repeat(count)].concat();
    for (letter, count) in DRILL {
        all_say(&ALL, &[(&say(letter, count + 1), COUNT), (&say(letter, count + 6), COUNT)]);
        if count > 0 {
            all_say(&ALL, &[(&say(letter, count - 1), COUNT)]);
        }
    }
    for (letter, count) in FAULT {
        all_say(&["fault"], &[(&say(letter, count + 1), COUNT), (&say(letter, count + 6), COUNT)]);
        all_say(&["drill", "page"], &[(&say(letter, count), LETTER)]);
        if count > 0 {
            all_say(&["fault"], &[(&say(letter, count - 1), COUNT)]);
        }
    }
}

#[test]
fn one_line_and_several() {
    for program in ["drill", "fault"] {
        let note = |text: &str| format!("{program}: note: {text}\n");
        assert_eq!(run(program, b"\n"), answered("1\t?\t?\t-\n", &note("line 1 is no call: an empty line")));
        let two = note("2 lines are no calls, the first is line 1: unknown letter");
        assert_eq!(run(program, b"Z\n\n"), answered("1\t?\t?\t-\n2\t?\t?\t-\n", &two));
        assert_eq!(run(program, b"Z\n\r"), answered("1\t?\t?\t-\n2\t?\t?\t-\n", &two));
        let three = note("3 lines are no calls, the first is line 2: a carriage return");
        let answers = "1\tX\t0\t-\n2\t?\t?\t-\n3\tC\t2\t-\n4\t?\t?\t-\n5\tX\t0\t-\n6\t?\t?\t-\n";
        assert_eq!(run(program, b"X\nX\r\nC\nF 1 1\nX\nG\t"), answered(answers, &three));
    }
    for (script, note) in [
        (&b"Z\nF\t1\t1"[..], "line 1 is no call: unknown letter"),
        (b"F\t1\t1\nF", "line 2 is no call: too few or too many numbers"),
        (b"F\t1\t1\n\n\n", "2 lines are no calls, the first is line 2: an empty line"),
        (b"G\tone\nF\t1\t1\nF 1 1", "2 lines are no calls, the first is line 1: a field that is no number"),
    ] {
        assert_eq!(run("page", script), (Some(1), PAGE.into(), format!("page: note: {note}\n")), "{script:?}");
    }
}

#[test]
fn a_page_that_is_refused_says_so_first() {
    for (script, note) in [
        (&b"\n"[..], "line 1 is no call: an empty line"),
        (b"F\t1\t1\r\n", "line 1 is no call: a carriage return"),
        (b"F\t1\t1\nX\nR 0", "line 3 is no call: blanks where tabs belong"),
        (
            b"\xEF\xBB\xBFF\t1\t1\nH\t0\nS",
            "2 lines are no calls, the first is line 1: it begins with a byte-order mark",
        ),
    ] {
        assert_eq!(
            run("page", script),
            (Some(1), String::new(), format!("{REFUSED}page: note: {note}\n")),
            "{script:?}"
        );
    }
    assert_eq!(run("page", b"F\t1\t1\nX\n"), (Some(1), String::new(), REFUSED.into()));
}

#[test]
fn nothing_is_said_of_calls_refused_or_taken() {
    let script = b"G\t0\nF\t512\t9\nF\t1\t1\nH\t8\t16\nA\t18446744073709551615\nG\t0000000000000000000000000001\n";
    let answers = "1\tG\t2\t0\n2\tF\t1\t-\n3\tF\t0\t-\n4\tH\t6\t-\n5\tA\t6\t-\n6\tG\t0\t0\n";
    for program in ["drill", "fault"] {
        assert_eq!(run(program, script), answered(answers, ""));
        assert_eq!(run(program, b""), answered("", ""));
    }
    assert_eq!(run("page", script), (Some(0), PAGE.into(), String::new()));
    assert_eq!(run("page", b""), (Some(1), String::new(), REFUSED.into()));
}

#[test]
fn lines_are_counted_to_the_last() {
    let script = [b"X\n".repeat(70_000), b"Z\n".repeat(100_000), b"X\n".repeat(3), b"\n".to_vec()].concat();
    let note = "drill: note: 100001 lines are no calls, the first is line 70001: unknown letter";
    assert_eq!(reference::drill::run(&script[..], std::io::sink()).unwrap().note("drill").as_deref(), Some(note));
}

/// The reasons that a kind of `?` can have: the kinds are asked from the left, the reasons in their order.
fn reasons_of(unread: Unread) -> &'static [&'static str] {
    match unread {
        Unread::Empty => &[EMPTY],
        Unread::Long => &[LONG],
        Unread::Letter => &[MARK, RETURN, BLANKS, LETTER],
        Unread::Missing => &[COUNT],
        Unread::Extra => &[RETURN, BLANKS, LETTER, PAST, NO_NUMBER, COUNT],
        Unread::NoNumber => &[RETURN, BLANKS, LETTER, NO_NUMBER],
        Unread::PastWord => &[RETURN, BLANKS, LETTER, PAST, NO_NUMBER],
        Unread::NoSuchPlace | Unread::TooLarge | Unread::PastRow | Unread::NoRoom | Unread::Unused => &[NO_PLACE],
    }
}

#[test]
fn the_reason_goes_with_the_kind_of_answer_in_random_scripts() {
    let mut counts = std::collections::HashMap::new();
    for seed in 1..=200 {
        let mut board = Board::empty(None);
        for line in reference::fault_script::script(seed, 500).split(|byte| *byte == b'\n') {
            let Err(unread) = answer::<Fault>(&mut board, line) else { continue };
            let mut misread = Misread::default();
            misread.add::<Fault>(7, line);
            let note = misread.note("fault").unwrap();
            let reason = note.strip_prefix("fault: note: line 7 is no call: ").unwrap();
            assert!(reasons_of(unread).contains(&reason), "{line:?}: {unread:?}, {reason}");
            *counts.entry(reason.to_owned()).or_insert(0) += 1;
        }
    }
    for reason in [LONG, BLANKS, EMPTY, LETTER, PAST, NO_NUMBER, COUNT, NO_PLACE] {
        assert!(counts.get(reason).is_some_and(|count| *count >= 20), "{reason}: {counts:?}");
    }
}
