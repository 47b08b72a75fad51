//! What the program says of itself, and of words that it does not know.
#![deny(warnings)]

use std::process::{Command, Output};

use reference::explore::check::CHECKS;
use reference::mistake::MISTAKES;

/// The program with these words.
fn run(words: &[&str]) -> Output {
    Command::new(env!("CARGO_BIN_EXE_reference")).args(words).output().unwrap()
}

/// Status, standard output and standard error.
fn ended(words: &[&str]) -> (Option<i32>, String, String) {
    let output = run(words);
    let text = |bytes| String::from_utf8(bytes).unwrap();
    (output.status.code(), text(output.stdout), text(output.stderr))
}

#[test]
fn help_lists_commands_checks_and_mistakes() {
    let help = ended(&["help"]).1;
    for words in [&["help"][..], &["--help"], &["explore", "--help"], &["fault", "--help"]] {
        assert_eq!(ended(words), (Some(0), help.clone(), String::new()), "{words:?}");
    }
    let names = CHECKS.iter().map(|check| check.0).chain(MISTAKES.iter().map(|mistake| mistake.0));
    let scripts = ["script --fault", "script --bits", "script --foreign", "script --hex", "script --locks"];
    let commands = ["drill", "fault", "fault --reached", "page", "explore --exhaustive", "bench", "script --page"];
    let texts = ["hex", "hex --show", "texts", "texts --answers", "texts --kinds"];
    for name in names.chain(scripts).chain(commands).chain(texts) {
        assert!(help.contains(&format!("\n  {name} ")), "{name}");
    }
    assert!(
        help.contains("\ndrill, fault, page and hex say on standard error, at the end, how many lines are no calls")
    );
}

#[test]
fn an_unknown_check_or_mistake_lists_the_known_ones() {
    let (code, out, error) = ended(&["explore", "1", "10", "--only", "everything"]);
    assert_eq!((code, out.as_str()), (Some(2), ""));
    assert!(CHECKS.iter().all(|check| error.contains(check.0)), "{error}");
    let (code, out, error) = ended(&["explore", "--exhaustive", "--mistake", "none"]);
    assert_eq!((code, out.as_str()), (Some(2), ""));
    assert!(MISTAKES.iter().all(|mistake| error.contains(mistake.0)), "{error}");
}

#[test]
fn an_unknown_command_prints_the_usage() {
    let unknown: [&[&str]; 26] = [
        &[],
        &["dril"],
        &["drill", "1"],
        &["fault", "x"],
        &["fault", "--reached", "1"],
        &["page", "1"],
        &["hex", "1"],
        &["hex", "--show", "1"],
        &["texts", "1"],
        &["texts", "--kinds", "1"],
        &["script", "--hex", "1"],
        &["script", "--page", "1"],
        &["script", "--page", "1", "2", "3"],
        &["script"],
        &["script", "1"],
        &["script", "--fault", "1"],
        &["script", "--fault", "1", "x"],
        &["script", "--foreign", "1"],
        &["script", "--bits", "1"],
        &["script", "--locks", "1"],
        &["bench", "checkpoint", "1", "1", "2", "1", "1"],
        &["explore", "1"],
        &["explore", "1", "2", "--only"],
        &["bench", "update", "1"],
        &["bench", "nothing", "1", "1", "1", "1", "1"],
        &["bench", "page-equal", "1", "1", "3", "1", "1"],
    ];
    for words in unknown {
        let (code, out, error) = ended(words);
        assert_eq!((code, out.as_str()), (Some(2), ""), "{words:?}");
        assert!(error.starts_with("usage: reference drill\n"), "{words:?}");
    }
}

#[test]
fn scripts_and_counts_are_printed() {
    let script = run(&["script", "--fault", "5", "40"]).stdout;
    assert_eq!(script, reference::fault_script::script(5, 40));
    let script = run(&["script", "--foreign", "5", "40"]).stdout;
    assert_eq!(script, reference::fault_script::foreign_script(5, 40));
    let script = run(&["script", "--bits", "5", "40"]).stdout;
    assert_eq!(script, reference::fault_script::bits_script(5, 40));
    let script = run(&["script", "--locks", "5", "40"]).stdout;
    assert_eq!(script, reference::fault_script::locks_script(5, 40));
    let script = run(&["script", "--hex", "5", "40"]).stdout;
    assert_eq!(script, reference::fault_script::hex_script(5, 40));
    let script = run(&["script", "--page", "5", "40"]).stdout;
    assert_eq!(script, reference::page_script::script(5, 40));
    let (code, counts, _) = ended(&["fault", "--reached", "3", "40"]);
    assert_eq!(code, Some(0));
    assert!(counts.starts_with("3 scripts, 120 lines\n"));
}

/// The words after the program's name in each line of README that runs it, without the comment.
fn readme_commands() -> Vec<Vec<String>> {
    let readme = std::fs::read_to_string(concat!(env!("CARGO_MANIFEST_DIR"), "/../README.md")).unwrap();
    let of = |line: &str| line.trim().strip_prefix("reference/target/release/reference ").map(str::to_owned);
    let words = |command: String| command.split('#').next().unwrap().split_whitespace().map(str::to_owned).collect();
    readme.lines().filter_map(of).map(words).collect()
}

#[test]
fn readme_commands_end_as_readme_says() {
    let commands = readme_commands();
    assert!(commands.len() >= 4, "{commands:?}");
    for command in commands {
        let words: Vec<&str> = command.iter().map(String::as_str).collect();
        let caught = if words.contains(&"--mistake") { 1 } else { 0 };
        assert_eq!(ended(&words).0, Some(caught), "{words:?}");
    }
}
