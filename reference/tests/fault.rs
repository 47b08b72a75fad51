//! The fault program, letter by letter.
#![deny(warnings)]

use reference::fault::run;

/// What the fault program prints for a script with blanks for tabs, its header and line numbers taken off.
fn fault(script: &str) -> Vec<String> {
    bytes(script.replace(' ', "\t").as_bytes())
}

/// The same for a script as it is.
fn bytes(script: &[u8]) -> Vec<String> {
    let mut output = Vec::new();
    run(script, &mut output).unwrap();
    let text = String::from_utf8(output).unwrap();
    let lines = text.strip_prefix("line\tcall\tanswer\tvalue\n").expect("the header comes first").lines();
    let answer = |(at, line): (usize, &str)| {
        let (number, rest) = line.split_once('\t').unwrap();
        assert_eq!(number, (at + 1).to_string());
        rest.replace('\t', " ")
    };
    lines.enumerate().map(answer).collect()
}

/// What the last line of a script gives.
fn last(script: &str) -> String {
    fault(script).pop().unwrap()
}

/// The last answer's number.
fn number(script: &str) -> String {
    last(script).split(' ').nth(1).unwrap().into()
}

/// The checksum that a script ends with.
fn sum(script: &str) -> u64 {
    last(&format!("{script}\nT")).strip_prefix("T 0 ").unwrap().parse().unwrap()
}

/// The checksum of these numbers, by arithmetic without a wrap.
fn sum_of(numbers: &[u64]) -> u64 {
    let mut sum: u128 = 14_695_981_039_346_656_037;
    for number in numbers {
        sum = ((sum ^ u128::from(*number)) * 1_099_511_628_211) % (1 << 64);
    }
    sum as u64
}

/// The numbers of a board after `F 1 1`: six fields, eight workers, eight words of bits, sixteen holders, memory and cache.
fn small_board() -> Vec<u64> {
    let mut numbers = vec![0; 6 + 32 + 8];
    numbers[..3].copy_from_slice(&[3, 1, 1]);
    numbers.extend([8; 16]);
    for _ in 0..2 {
        numbers.push(16);
        numbers.extend([1, 1, 1]);
        numbers.extend([0; 13]);
    }
    numbers
}

/// The small board's checksum with some of its numbers changed.
fn small_board_with(changes: &[(usize, u64)]) -> u64 {
    let mut numbers = small_board();
    for (at, number) in changes {
        numbers[*at] = *number;
    }
    sum_of(&numbers)
}

#[test]
fn the_drills_letters_mean_the_same() {
    let script = "F 1 1\nH 0 1\nU 0 1 7\nA 0\nA 0\nA 0\nV 0 1\nE 1\nX\nR\nS\nS\nS\nS\nG 1\n";
    let expected = "F 0 -,H 0 -,U 0 -,A 0 -,A 0 -,A 0 -,V 0 -,E 0 -,X 0 -,R 0 -,S 0 -,S 0 -,S 0 -,S 0 -,G 0 0";
    assert_eq!(fault(script).join(","), expected);
}

#[test]
fn a_random_script_of_the_drill_gives_the_same_answers_where_the_drill_reads_it() {
    for seed in 0..20 {
        let script = reference::script::script(seed, 500, None);
        let known: Vec<&[u8]> = script.split(|byte| *byte == b'\n').filter(|line| drill_reads(line)).collect();
        let script = known.join(&b'\n');
        let mut drill = Vec::new();
        reference::drill::run(&script[..], &mut drill).unwrap();
        let mut fault = Vec::new();
        run(&script[..], &mut fault).unwrap();
        assert_eq!(drill, fault);
    }
}

/// The line begins with a letter that the drill has.
fn drill_reads(line: &[u8]) -> bool {
    line.first().is_some_and(|letter| b"FUAPCSEGXRHV".contains(letter))
}

#[test]
fn the_checksum_of_the_empty_board() {
    assert_eq!(sum(""), sum_of(&[[0; 6 + 32 + 8].as_slice(), &[8; 16], &[0; 2]].concat()));
    assert_eq!(last("T"), "T 0 12380605887962233893");
}

#[test]
fn the_checksum_of_a_small_board() {
    assert_eq!(sum("F 1 1"), 5_083_111_122_115_820_566);
    assert_eq!(sum("F 1 1"), sum_of(&small_board()));
    assert_eq!(sum("F 1 1\nH 0 1"), small_board_with(&[(47, 0)]));
    assert_eq!(sum("F 1 1\nH 0 1\nU 0 1 7"), small_board_with(&[(6, 2), (8, 1), (9, 7), (47, 0)]));
    let marked = [(6, 2), (7, 2), (8, 1), (9, 7), (80 + 13, 1), (38, 2), (47, 0)];
    assert_eq!(sum("F 1 1\nH 0 1\nU 0 1 7\nA 0\nA 0"), small_board_with(&marked));
}

#[test]
fn each_field_is_summed_where_it_stands() {
    for (line, at, number) in [
        ("B 0 2", 0, 2),
        ("B 1 65535", 1, 65_535),
        ("B 2 255", 2, 255),
        ("B 4 65535", 3, 65_535),
        ("B 5 2", 4, 2),
        ("B 6 1", 5, 1),
        ("K 0 1 0 0 0", 6, 1),
        ("K 7 1 0 0 0", 34, 1),
        ("K 7 3 0 0 0", 34, 3),
        ("Q 0 18446744073709551615", 38, u64::MAX),
        ("Q 1 65536", 39, 65_536),
        ("Q 7 1", 45, 1),
        ("O 0 0", 46, 0),
        ("O 1 7", 47, 7),
        ("O 15 3", 61, 3),
        ("M 15 18446744073709551615", 63 + 15, u64::MAX),
        ("N 15 18446744073709551615", 80 + 15, u64::MAX),
    ] {
        assert_eq!(fault(&format!("F 1 1\n{line}"))[1], format!("{} 0 -", &line[..1]));
        assert_eq!(sum(&format!("F 1 1\n{line}")), small_board_with(&[(at, number)]), "{line}");
    }
    let update = [(6 + 12, 2), (7 + 12, 1), (8 + 12, 65_535), (9 + 12, u64::MAX)];
    assert_eq!(sum("F 1 1\nK 3 2 1 65535 18446744073709551615"), small_board_with(&update));
    assert_eq!(sum("F 1 1\nK 3 2 1 65535 9\nK 3 0 0 0 0"), sum("F 1 1"));
}

#[test]
fn going_away_and_coming_back() {
    let script = "F 2 2\nb 0\na 0\na 0\nU 0 3 7\nP 0 7\nA 0\nS\na 1\nC\nS\nb 1\nS\nS\nb 1\nb 1\na 2\nb 2\nX\na 0\nb 0";
    let expected = "F 0,b 8,a 0,a 8,U 8,P 8,A 8,S 10,a 0,C 0,S 0,b 13,S 0,S 0,b 0,b 8,a 6,b 6,X 0,a 2,b 2";
    assert_eq!(fault(script).join(",").replace(" -", ""), expected);
    assert_eq!(sum("F 1 1\na 0"), small_board_with(&[(6, 3)]));
    assert_eq!(sum("F 1 1\na 0"), sum("F 1 1\nK 0 3 0 0 0"));
    assert_eq!(sum("F 1 1\na 0\nb 0"), sum("F 1 1"));
    for (line, number_of_cause) in [("B 0 2", "2"), ("B 1 0", "3"), ("W 16 15", "4"), ("B 2 0", "3"), ("Q 0 1", "3")] {
        assert_eq!(number(&format!("F 1 1\n{line}\na 0")), number_of_cause, "{line}");
        assert_eq!(number(&format!("F 1 1\na 0\nB 6 1\nB 4 1\n{line}\nb 0")), number_of_cause, "{line}");
    }
    for worker in ["1", "8", "256", "65536", "18446744073709551615"] {
        assert_eq!(number(&format!("F 1 1\na {worker}")), "6");
        assert_eq!(number(&format!("F 1 1\nb {worker}")), "6");
    }
    assert_eq!([number("a 0"), number("b 0")], ["2", "2"]);
}

#[test]
fn a_worker_put_away() {
    assert_eq!(fault("F 1 1\nK 0 3 0 0 0\nb 0")[1..], ["K 0 -", "b 0 -"]);
    assert_eq!(number("F 1 1\nK 0 3 0 0 0\nB 4 65535\nb 0"), "0");
    assert_eq!(number("F 1 1\nK 0 3 0 0 0\nB 6 1\nb 0"), "0");
    assert_eq!(number("F 1 1\nK 0 3 0 0 0\nB 6 1\nB 4 2\nb 0"), "13");
    assert_eq!(number("F 1 1\nK 0 3 0 0 0\nB 6 1\nB 4 3\nb 0"), "3");
    let released = "F 1 1\nK 0 3 0 0 0\nK 7 3 0 0 0\nK 6 1 0 0 0\nC\nS\nS\nS";
    assert_eq!(sum(released), small_board_with(&[(0, 3), (6, 3), (34, 3), (63, 2), (80, 2)]));
    let recovered = format!("{released}\nK 7 3 0 0 0\nX\nR\nS\nS");
    assert_eq!(sum(&recovered), small_board_with(&[(63, 2), (80, 2)]));
    assert_eq!(sum("F 1 1\nK 7 3 0 0 0\nB 0 2\nB 4 1\nS"), sum("F 1 1"));
}

#[test]
fn a_formats_start_alone() {
    assert_eq!(number("f 1 1"), "4");
    assert_eq!(number("f 1 2"), "1");
    assert_eq!(number("W 16 16\nf 1 1"), "0");
    assert_eq!(number("W 16 16\nQ 0 1\nf 1 1"), "0");
    assert_eq!(number("W 24 16\nf 1 1"), "4");
    assert_eq!(number("W 16 24\nf 1 1"), "4");
    assert_eq!(number("F 2 1\nf 1 1"), "4");
    assert_eq!(number("f 18446744073709551615 18446744073709551615"), "1");
    assert_eq!(number("f 65537 1"), "1");
    assert_eq!(number("f 1 257"), "1");
    assert_eq!(sum("F 1 1\nf 1 1"), small_board_with(&[(0, 1)]));
    assert_eq!(sum("F 1 1\nf 1 1\nS\nS\nS"), sum("F 1 1"));
}

#[test]
fn a_format_makes_the_rows_anew() {
    let dirty = "F 1 1\nQ 0 9\nQ 7 9\nM 6 5\nN 15 5\nB 4 7\nK 5 1 0 0 0\nO 3 0\nO 4 7";
    assert_eq!(sum(&format!("{dirty}\nF 1 1")), sum("F 1 1"));
    assert_eq!(sum(&format!("{dirty}\nW 17 3\nF 1 1")), sum("F 1 1"));
    assert_eq!(sum(&format!("{dirty}\nF 1 2")), sum(dirty));
}

#[test]
fn a_cut_leaves_all_of_the_record_but_the_phase() {
    let board = "F 1 1\nH 0 1\nU 0 1 7\nA 0\nA 0\nC\nQ 7 5\nO 15 7";
    let bits_and_holders = [(38, 2), (45, 5), (47, 0), (61, 7)];
    let kept = [(0, 0), (5, 1), (6, 2), (7, 2), (8, 1), (9, 7), (80, 0), (81, 0), (82, 0)];
    let kept: Vec<(usize, u64)> = kept.into_iter().chain(bits_and_holders).collect();
    assert_eq!(sum(&format!("{board}\nX")), small_board_with(&kept));
}

#[test]
fn rows_keep_the_words_that_stay() {
    assert_eq!(sum("F 1 1\nW 4104 4104\nW 16 16"), sum("F 1 1"));
    assert_eq!(sum("F 1 1\nW 2 16\nW 16 16"), small_board_with(&[(65, 0)]));
    assert_eq!(sum("F 1 1\nW 16 0\nW 16 16"), small_board_with(&[(80, 0), (81, 0), (82, 0)]));
    assert_eq!(sum("F 1 1\nQ 0 3\nW 0 0\nW 16 16\nF 1 1"), sum("F 1 1"));
}

#[test]
fn a_number_that_cannot_be_put_there_does_nothing() {
    let lines = "W 4105 0,W 0 4105,W 18446744073709551615 0,M 16 1,N 16 1,Q 8 1,Q 9 0,Q 18446744073709551615 0,\
        M 18446744073709551615 1,N 4294967296 1,Q 65536 1,B 0 4,B 1 65536,B 2 256,B 3 0,B 3 1,B 4 65536,B 5 3,B 6 2,\
        B 7 0,B 18446744073709551615 0,K 8 0 0 0 0,K 256 0 0 0 0,K 0 4 0 0 0,K 0 3 1 0 0,K 0 3 0 1 0,K 0 3 0 0 1,K 0 2 3 0 0,K 0 2 0 65536 0,K 0 0 1 0 0,\
        K 0 0 0 1 0,K 0 0 0 0 1,K 0 1 1 0 0,K 0 1 0 1 0,K 0 1 0 0 1,O 16 0,O 16 8,O 255 0,O 18446744073709551615 8,O 0 9,O 15 9,O 0 255,O 0 256,\
        O 0 18446744073709551615,H 0 18446744073709551616,M 0 18446744073709551616,Q 0 18446744073709551616,W 16 4105";
    for line in lines.split(',').map(str::trim) {
        let answers = fault(&format!("F 1 1\n{line}\nT"));
        assert_eq!(answers[1], "? ? -", "{line}");
        assert_eq!(answers[2], format!("T 0 {}", sum_of(&small_board())), "{line}");
    }
}

#[test]
fn lines_of_another_form_do_nothing() {
    let lines =
        "f 1,f 1 1 1,W 16,W 16 16 2,M 0,M 0 0 0,N 0,N 0 0 0,Q 0,Q 0 0 0,B 0,B 0 0 0,K 0 0 0 0,K 0 0 0 0 0 0,\
        K 0 0,T 0,p,p 0 0,p 204 ,p +204,P,a,b,a 0 0,b 0 0,n 0,N,H 0,V 0,O 0,H 0 0 0,V 0 0 0,O 0 0 0,H,V,O,h 0 0,v 0 0,o 0 0,u 0 1 7,w 16 16,m 0 0,q 0 0,k 0 0 0 0 0,t,TT,M +1 0,M 0x1 0,\
        B 0 3 ,K  0 0 0 0";
    for line in lines.split(',').map(|line| line.trim_start_matches("        ")) {
        let answers = fault(&format!("F 1 1\n{line}\nT"));
        assert_eq!(answers[1], "? ? -", "{line}");
        assert_eq!(answers[2], format!("T 0 {}", sum_of(&small_board())), "{line}");
    }
    for line in [&b""[..], b"T\r", b" T", b"M 0 0", b"\t", b"\xff", b"T\t"] {
        assert_eq!(bytes(&[line, b"\n"].concat()), ["? ? -"], "{line:?}");
    }
    let long = |zeros: usize| format!("F 1 1\nM 0 {}1\nT", "0".repeat(zeros));
    assert_eq!(fault(&long(74))[1], "M 0 -");
    assert_eq!(fault(&long(75))[1], "? ? -");
}

/// The page of the small board.
const PAGE: &str = "\
cell               record               backup                 mark
   0                    0                    0                    0
   1                    0                    0                    0
";

/// The checksum of bytes, and of so many more that are 0xAA.
fn sum_of_text(page: &str, more: usize) -> u64 {
    let bytes = page.bytes().map(u64::from).chain(std::iter::repeat_n(0xAA, more));
    sum_of(&bytes.collect::<Vec<_>>())
}

#[test]
fn a_page_and_the_checksum_of_its_text_row() {
    assert_eq!(last("F 1 1\np 204"), format!("p 0 {}", sum_of_text(PAGE, 0)));
    assert_eq!(last("F 1 1\np 205"), format!("p 0 {}", sum_of_text(PAGE, 1)));
    assert_eq!(last("F 1 1\np 70000"), format!("p 0 {}", sum_of_text(PAGE, 70_000 - 204)));
    assert_eq!(last("F 1 1\np 203"), format!("p 12 {}", sum_of_text("", 203)));
    assert_eq!(last("F 1 1\np 0"), "p 12 14695981039346656037");
    assert_eq!(last("p 0"), "p 2 14695981039346656037");
    assert_eq!(last("p 70000"), format!("p 2 {}", sum_of_text("", 70_000)));
    for line in ["p 70001", "p 65536000", "p 18446744073709551615", "p 18446744073709551616"] {
        assert_eq!(last(&format!("F 1 1\n{line}")), "? ? -");
    }
    assert_eq!(sum("F 1 1\np 204\np 203\np 70001"), sum("F 1 1"));
    let changed = "\
cell               record               backup                 mark
   1                    0                    0 18446744073709551615
   0                   70                   71                   72
";
    let cells = "F 1 1\nN 8 70\nN 9 71\nN 10 72\nN 13 18446744073709551615\nM 8 5\nM 13 5";
    assert_eq!(last(&format!("{cells}\np 204")), format!("p 0 {}", sum_of_text(changed, 0)));
}

#[test]
fn a_page_is_refused_by_the_first_cause_that_holds() {
    let none = |number: u8, room: usize| format!("p {number} {}", sum_of_text("", room));
    let broken = fault("F 1 1\nB 0 2\nQ 0 1\nW 16 15\np 203\nB 0 3\np 203\nQ 0 0\np 203\nW 16 16\np 203\np 204");
    let pages: Vec<&String> = broken.iter().filter(|answer| answer.starts_with('p')).collect();
    let whole = format!("p 0 {}", sum_of_text(PAGE, 0));
    assert_eq!(pages, [&none(2, 203), &none(3, 203), &none(4, 203), &none(12, 203), &whole]);
    for (line, number) in
        [("B 1 512", 3), ("B 2 2", 3), ("K 0 2 0 2 0", 3), ("Q 0 4", 3), ("W 16 24", 4), ("W 15 16", 4)]
    {
        assert_eq!(last(&format!("F 1 1\n{line}\np 69700")), none(number, 69_700), "{line}");
        assert_eq!(last(&format!("F 1 1\n{line}\np 10")), none(number, 10), "{line}");
    }
    assert_eq!(number("F 511 8\np 69563"), "12");
    assert_eq!(number("F 511 8\np 69564"), "0");
    assert_eq!(number("F 511 8\nB 1 512\nW 4104 4104\np 70000"), "3");
}

#[test]
fn a_count_of_the_set_bits() {
    assert_eq!([last("n"), last("F 1 1\nn"), last("F 1 1\nQ 0 2\nn")], ["n 2 0", "n 0 3", "n 0 4"]);
    assert_eq!(last("F 1 1\nH 0 1\nU 0 1 7\nA 0\nA 0\nA 0\nV 0 1\nC\nP 0 3\nA 0\nA 0\nA 0\nn"), "n 0 4");
    for (line, refused) in [("Q 0 1", 3), ("Q 0 3", 3), ("Q 0 4", 3), ("Q 7 1", 3), ("W 16 15", 4), ("B 0 2", 2)] {
        assert_eq!(last(&format!("F 1 1\nQ 0 2\n{line}\nn")), format!("n {refused} 0"), "{line}");
    }
    let all =
        format!("Q 0 {}\n{}", u64::MAX - 1, (1..8).map(|at| format!("Q {at} {}\n", u64::MAX)).collect::<String>());
    assert_eq!(last(&format!("F 511 8\n{all}n")), "n 0 514");
    assert_eq!(last(&format!("F 510 8\n{all}n")), "n 3 0");
    assert_eq!(last("F 511 8\nQ 7 9223372036854775808\nn"), "n 0 4");
    assert_eq!(sum("F 1 1\nQ 0 2\nn\nQ 0 0\nn"), sum("F 1 1"));
}

#[test]
fn a_checkpoint_of_the_set_lines() {
    let board = "F 100 1\nQ 0 4\nQ 1 17\nN 16 5\nN 512 6\nN 544 7\nN 552 8\nK 0 3 0 0 0\nC";
    assert_eq!(last(&format!("{board}\nn")), "n 0 6");
    assert_eq!(
        fault(&format!("{board}\nS\nS\nS\nS\nS\nS\nS"))[9..],
        ["S 0 -"; 6].into_iter().chain(["S 10 -"]).collect::<Vec<_>>()
    );
    let with = |steps: &str, words: &str| sum(&format!("{board}{steps}")) == sum(&format!("{board}\n{words}"));
    assert!(with("\nS", "B 4 1\nM 16 5"));
    assert!(with("\nS\nS", "B 4 2\nM 16 5\nM 512 6"));
    assert!(with("\nS\nS\nS", "B 4 3\nM 16 5\nM 512 6\nM 544 7"));
    assert!(with("\nS\nS\nS\nS", "B 4 4\nM 16 5\nM 512 6\nM 544 7\nN 0 2"));
    assert_eq!(number(&format!("{board}\nB 4 5\nS")), "0");
    assert_eq!(number(&format!("{board}\nB 4 6\nS")), "3");
}

#[test]
fn foreign_memory() {
    let board = "W 16 16\nM 1 1\nM 2 1";
    assert_eq!(number(&format!("{board}\nR")), "5");
    assert_eq!(number(&format!("{board}\nM 0 9\nR")), "0");
    for line in ["M 0 0", "M 1 2", "M 2 2", "M 2 0", "M 3 1", "M 4 1", "M 5 1", "M 6 1", "M 7 1"] {
        assert_eq!(number(&format!("{board}\nM 0 9\n{line}\nR")), "5", "{line}");
    }
    assert_eq!(last(&format!("{board}\nM 0 9\nM 11 5\nM 12 6\nM 13 9\nR\nS\nS\nS\nS\nG 1")), "G 0 6");
    assert_eq!(number("W 4104 4104\nM 0 1\nM 1 512\nM 2 1\nR"), "4");
}

#[test]
fn locks_taken_given_back_and_put_there() {
    let script =
        "F 2 2\nH 0 3\nH 1 3\nU 1 3 9\nU 0 3 7\nV 0 3\na 0\nA 0\nA 0\nA 0\nP 0 1\na 0\nV 0 3\na 0\nH 0 3\nV 0 3\nb 0";
    let expected = "F 0,H 0,H 16,U 16,U 0,V 8,a 8,A 0,A 0,A 0,P 16,a 16,V 0,a 0,H 8,V 16,b 0";
    assert_eq!(fault(script).join(",").replace(" -", ""), expected);
    assert_eq!(sum("F 1 1\nH 0 1\nV 0 1"), sum("F 1 1"));
    assert_eq!(sum("F 1 1\nH 0 15"), sum("F 1 1\nO 15 0"));
    assert_eq!(sum("F 1 1\nO 15 0\nO 15 8"), sum("F 1 1"));
    for (line, number_of_cause) in [("B 0 2", "2"), ("B 1 0", "3"), ("W 16 15", "4"), ("O 7 1", "3"), ("O 0 7", "3")] {
        for call in ["H 0 1", "V 0 1", "H 1 16", "V 1 16"] {
            assert_eq!(number(&format!("F 1 1\n{line}\n{call}")), number_of_cause, "{line} {call}");
        }
    }
    for lock in ["16", "255", "256", "65536", "18446744073709551615"] {
        assert_eq!([number(&format!("F 1 1\nH 0 {lock}")), number(&format!("F 1 1\nV 0 {lock}"))], ["15", "15"]);
        assert_eq!([number(&format!("F 1 1\nH 1 {lock}")), number(&format!("F 1 1\nV 1 {lock}"))], ["6", "6"]);
    }
}

#[test]
fn a_holder_w_or_more_is_3_in_every_phase_and_no_start_minds() {
    for call in ["S", "U 0 1 1", "P 0 1", "A 0", "C", "E 0", "G 0", "p 204", "a 0", "b 0", "n", "H 0 0", "V 0 0"] {
        assert_eq!(number(&format!("F 1 1\nO 9 1\n{call}")), "3", "{call}");
        assert_eq!(number(&format!("F 1 1\nO 9 7\n{call}")), "3", "{call}");
        assert_ne!(number(&format!("F 1 1\nO 9 0\n{call}")), "3", "{call}");
    }
    for phase in ["1", "2"] {
        assert_eq!(number(&format!("F 1 1\nB 0 {phase}\nO 0 1\nS")), "3");
        assert_eq!(number(&format!("F 1 1\nB 0 {phase}\nO 0 0\nS")), "0");
    }
    assert_eq!(number("F 1 1\nO 0 1\nB 0 2\nE 0"), "3");
    assert_eq!(number("F 1 1\nB 0 0\nO 0 1\nS"), "2");
    assert_eq!(sum("F 1 1\nO 9 7\nR\nS\nS"), sum("F 1 1"));
    assert_eq!(sum("F 1 1\nO 9 7\nf 1 1\nS\nS\nS"), sum("F 1 1"));
}

#[test]
fn release_and_the_ends_of_format_and_recovery_leave_the_holders() {
    let released = "F 1 1\nK 0 1 0 0 0\nO 4 0\nC\nS\nS\nS";
    assert_eq!(sum(released), small_board_with(&[(50, 0), (63, 2), (80, 2)]));
    assert_eq!(sum("F 1 1\nO 4 0\nB 0 2\nB 4 1\nS"), small_board_with(&[(50, 0)]));
    assert_eq!(sum("F 1 1\nO 4 0\nB 0 1\nB 4 2\nS"), small_board_with(&[(50, 0)]));
}
