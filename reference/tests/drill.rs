//! The drill program, byte for byte.
#![deny(warnings)]

use reference::drill::run;

/// What the drill prints for a script, its header taken off.
fn drill(script: &[u8]) -> String {
    let mut output = Vec::new();
    run(script, &mut output).unwrap();
    let text = String::from_utf8(output).unwrap();
    text.strip_prefix("line\tcall\tanswer\tvalue\n").expect("the header comes first").to_string()
}

/// Call and answer of a script's last line.
fn last(script: &str) -> String {
    let output = drill(script.as_bytes());
    let line = output.lines().last().unwrap();
    line.split_once('\t').unwrap().1.replace('\t', " ")
}

#[test]
fn the_sample_of_01_with_the_lock_about_its_update() {
    let script = "F 1 1\nH 0 1\nU 0 1 7\nA 0\nA 0\nA 0\nV 0 1\nE 1\nX\nR\nS\nS\nS\nS\nG 1\n".replace(' ', "\t");
    let expected = "1 F 0 -\n2 H 0 -\n3 U 0 -\n4 A 0 -\n5 A 0 -\n6 A 0 -\n7 V 0 -\n8 E 0 -\n9 X 0 -\n10 R 0 -\n11 S 0 -\n12 S 0 -\n13 S 0 -\n14 S 0 -\n15 G 0 0\n";
    assert_eq!(drill(script.as_bytes()), expected.replace(' ', "\t"));
}

#[test]
fn nothing_but_the_header_for_empty_input() {
    assert_eq!(drill(b""), "");
}

#[test]
fn an_empty_line_is_a_line() {
    assert_eq!(drill(b"\n"), "1\t?\t?\t-\n");
    assert_eq!(drill(b"\n\n"), "1\t?\t?\t-\n2\t?\t?\t-\n");
    assert_eq!(drill(b"C\n\nC"), "1\tC\t2\t-\n2\t?\t?\t-\n3\tC\t2\t-\n");
}

#[test]
fn the_last_line_may_lack_its_line_feed() {
    assert_eq!(drill(b"X"), drill(b"X\n"));
    assert_eq!(drill(b"F\t1\t1\nG\t0"), "1\tF\t0\t-\n2\tG\t0\t0\n");
}

#[test]
fn before_a_format_rows_are_empty_and_the_phase_is_off() {
    for (line, answer) in [("S", "S 2 -"), ("G\t0", "G 2 0"), ("R", "R 4 -"), ("X", "X 0 -"), ("E\t0", "E 2 -")] {
        assert_eq!(last(line), answer);
    }
    assert_eq!(last("F\t1\t2\nR"), "R 4 -");
}

/// Lines of another form.
const OTHER: [&[u8]; 35] = [
    b"H",
    b"H\t0",
    b"H\t0\t1\t2",
    b"V\t0",
    b"h\t0\t1",
    b"O\t0\t1",
    b"H\t0\t18446744073709551616",
    b"f\t1\t1",
    b"p",
    b"p\t204",
    b"a\t0",
    b"b\t0",
    b"n",
    b"n\t0",
    b"F\t1",
    b"F\t1\t1\t1",
    b"F 1 1",
    b"F\t1\t",
    b"F\t\t1",
    b"F\t1\t1\t",
    b"\tF\t1\t1",
    b" X",
    b"X ",
    b"X\r",
    b"X\t",
    b"F\t+1\t1",
    b"F\t-1\t1",
    b"F\t1\t0x1",
    b"A",
    b"A\t1\t1",
    b"C\t1",
    b"Q",
    b"XX",
    b"\xff",
    b"U\t0\t1\t18446744073709551616",
];

#[test]
fn lines_of_another_form() {
    for line in OTHER {
        assert_eq!(drill(line), "1\t?\t?\t-\n", "{line:?}");
    }
}

#[test]
fn numbers_reach_to_the_last_word() {
    let value = u64::MAX.to_string();
    assert_eq!(last(&format!("F\t1\t1\nH\t0\t1\nU\t0\t1\t{value}\nA\t0\nA\t0\nA\t0\nG\t1")), format!("G 0 {value}"));
    assert_eq!(last("F\t1\t1\nU\t0\t1\t99999999999999999999999"), "? ? -");
    for (line, answer) in [("U", "6"), ("A", "6"), ("P", "6"), ("E", "7"), ("G", "7"), ("H", "6"), ("V", "6")] {
        let rest = match line {
            "U" => "\t1\t1",
            "P" | "H" | "V" => "\t1",
            _ => "",
        };
        let text = last(&format!("F\t1\t1\n{line}\t{value}{rest}"));
        assert_eq!(text.split(' ').nth(1), Some(answer), "{text}");
    }
    assert_eq!(last(&format!("F\t{value}\t{value}")), "F 1 -");
    assert_eq!(last(&format!("F\t1\t1\nU\t0\t{value}\t1")), "U 7 -");
    assert_eq!(last("F\t1\t1\nA\t256"), "A 6 -");
    assert_eq!(last("F\t1\t1\nG\t65536"), "G 7 0");
}

#[test]
fn seventy_nine_bytes_are_allowed_and_no_more() {
    let line = |length: usize| format!("G\t{}1", "0".repeat(length - 3));
    assert_eq!(line(79).len(), 79);
    assert_eq!(last(&format!("F\t1\t1\n{}\n", line(79))), "G 0 0");
    assert_eq!(last(&format!("F\t1\t1\n{}", line(79))), "G 0 0");
    assert_eq!(last(&format!("F\t1\t1\n{}\n", line(80))), "? ? -");
    assert_eq!(last(&format!("F\t1\t1\n{}\nG\t0", line(100_000))), "G 0 0");
}

#[test]
fn a_refused_format_changes_nothing() {
    assert_eq!(last("F\t2\t1\nH\t0\t3\nU\t0\t3\t9\nA\t0\nA\t0\nA\t0\nF\t512\t1\nG\t3"), "G 0 9");
    assert_eq!(last("F\t2\t1\nF\t1\t2\nG\t3"), "G 0 0");
}

#[test]
fn a_format_sizes_the_rows_anew() {
    assert_eq!(last("F\t1\t1\nF\t511\t8\nG\t1021"), "G 0 0");
    assert_eq!(last("F\t511\t8\nF\t1\t1\nG\t2"), "G 7 0");
    assert_eq!(last("F\t511\t8\nF\t1\t1\nX\nR"), "R 0 -");
    assert_eq!(last("F\t1\t1\nH\t0\t1\nU\t0\t1\t5\nA\t0\nA\t0\nA\t0\nE\t1\nF\t1\t1\nG\t1"), "G 0 0");
}

#[test]
fn after_a_cut_only_starts_are_taken() {
    for line in ["S", "C", "U\t0\t1\t1", "A\t0", "P\t0\t1", "E\t0", "H\t0\t1", "V\t0\t1", "H\t0\t16"] {
        assert_eq!(last(&format!("F\t1\t1\nX\n{line}")).split(' ').nth(1), Some("2"));
    }
    assert_eq!(last("F\t1\t1\nX\nX\nR\nS\nS\nG\t1"), "G 0 0");
}

#[test]
fn the_bench_cases_of_a_checkpoint() {
    let k8 = "F\t1\t1\nH\t0\t1\nU\t0\t1\t7\nA\t0\nA\t0\nA\t0\nV\t0\t1\nC\nP\t0\t3\nA\t0\nA\t0\nA\t0\nS\nS\n";
    assert_eq!(last(&format!("{k8}S\nS\nX\nR\nS\nS\nG\t1")), "G 0 7");
    assert_eq!(last(&format!("{k8}X\nR\nS\nS\nS\nS\nS\nS\nG\t1")), "G 0 0");
    assert_eq!(last(&format!("{k8}E\t0\nX\nR\nS\nS\nG\t0")), "G 0 3");
    assert_eq!(last(&format!("{k8}S\nS\nS")), "S 10 -");
}

#[test]
fn locks() {
    let two = "F\t2\t2\nH\t0\t3\n";
    for (lines, answer) in [
        ("H\t0\t3", "H 16 -"),
        ("H\t1\t3", "H 16 -"),
        ("V\t1\t3", "V 16 -"),
        ("V\t0\t2", "V 16 -"),
        ("V\t0\t3", "V 0 -"),
        ("H\t0\t16", "H 15 -"),
        ("V\t0\t16", "V 15 -"),
        ("H\t0\t18446744073709551615", "H 15 -"),
        ("H\t2\t16", "H 6 -"),
        ("U\t1\t3\t9", "U 16 -"),
        ("U\t0\t2\t9", "U 16 -"),
        ("P\t0\t9", "P 16 -"),
        ("P\t1\t9", "P 0 -"),
        ("U\t0\t3\t9\nV\t0\t3", "V 8 -"),
        ("U\t0\t3\t9\nH\t0\t2", "H 8 -"),
        ("U\t0\t3\t9\nU\t1\t3\t9", "U 16 -"),
        ("H\t0\t15\nU\t0\t3\t9\nV\t0\t15", "V 0 -"),
        ("X\nR\nS\nS\nS\nS\nH\t1\t3", "H 0 -"),
        ("F\t2\t2\nH\t1\t3", "H 0 -"),
    ] {
        assert_eq!(last(&format!("{two}{lines}")), answer, "{lines}");
    }
}
