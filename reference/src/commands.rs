//! The commands: each reads its words, does its work and says how it ended.

use std::fmt::Write;
use std::io::{self, Read};

use reference::explore::check::Check;
use reference::explore::{exhaustive, explore, Caught, Options};
use reference::misread::Misread;
use reference::mistake::Mistake;
use reference::{bench, drill, fault, fault_script, hex, hex_program, page, page_script, reached, script, texts};

use crate::help;
use crate::streams::{input, output, print, tell};

/// Why a command ended otherwise than well.
pub enum Stop {
    /// Words that are no command; what to say of them.
    Misused(String),
    /// Reading or writing failed.
    Failed(io::Error),
    /// An exploration caught a violation, which is printed.
    Violated,
    /// A page or a HEX text was refused, or its script has lines that are no calls; what to say of it.
    Refused(String),
}

impl From<io::Error> for Stop {
    fn from(error: io::Error) -> Stop {
        Stop::Failed(error)
    }
}

/// How a command ended.
type Ended = Result<(), Stop>;

/// Run the command that these words say.
pub fn run(words: &[&str]) -> Ended {
    if words.contains(&"--help") || words == ["help"] {
        return Ok(print(help::help().as_bytes())?);
    }
    match words {
        ["drill"] => answered("drill", drill::run(input()?, output()?)?),
        ["fault"] => answered("fault", fault::run(input()?, output()?)?),
        ["fault", "--reached", numbers @ ..] => print_reached(numbers),
        ["page"] => print_page(),
        ["hex"] => print_hex(),
        ["hex", "--show"] => show_hex(),
        ["texts", "--answers", numbers @ ..] => print_seeded(|seed, count| texts::answers(seed, count).into(), numbers),
        ["texts", "--kinds", numbers @ ..] => print_seeded(|seed, count| texts::counted(seed, count).into(), numbers),
        ["texts", numbers @ ..] => print_seeded(texts::framed, numbers),
        ["script", "--fault", numbers @ ..] => print_seeded(fault_script::script, numbers),
        ["script", "--bits", numbers @ ..] => print_seeded(fault_script::bits_script, numbers),
        ["script", "--locks", numbers @ ..] => print_seeded(fault_script::locks_script, numbers),
        ["script", "--foreign", numbers @ ..] => print_seeded(fault_script::foreign_script, numbers),
        ["script", "--hex", numbers @ ..] => print_seeded(fault_script::hex_script, numbers),
        ["script", "--page", numbers @ ..] => print_seeded(page_script::script, numbers),
        ["script", numbers @ ..] => print_script(numbers),
        ["explore", rest @ ..] => run_exploration(rest),
        ["bench", workload, numbers @ ..] => print_workload(workload, numbers),
        _ => Err(misused()),
    }
}

/// The usage, for words that are no command.
fn misused() -> Stop {
    Stop::Misused(help::USAGE.into())
}

/// Words that are all numbers.
fn numbers(words: &[&str]) -> Result<Vec<u64>, Stop> {
    words.iter().map(|word| word.parse().map_err(|_| misused())).collect()
}

/// reference fault --reached SEEDS LINES
fn print_reached(words: &[&str]) -> Ended {
    let &[seeds, lines] = numbers(words)?.as_slice() else { return Err(misused()) };
    Ok(print(reached::reached(seeds, lines).to_string().as_bytes())?)
}

/// reference drill, reference fault: every line is answered, and `?` is an answer.
fn answered(name: &str, misread: Misread) -> Ended {
    misread.note(name).iter().for_each(|note| tell(note));
    Ok(())
}

/// reference page: the page of the board that a script leads to.
fn print_page() -> Ended {
    let (page, misread) = page::after_script(input()?)?;
    let page = page.map_err(|number| (number, page::words(number)));
    print_text("page", page, misread.note("page"))
}

/// reference hex: the memory that a script leads to.
fn print_hex() -> Ended {
    let (text, misread) = hex_program::after_script(input()?)?;
    let text = text.map_err(|number| (number, hex::words(number)));
    print_text("hex", text, misread.note("hex"))
}

/// reference hex --show: the memory that a text has, recovered.
fn show_hex() -> Ended {
    let mut text = Vec::new();
    input()?.read_to_end(&mut text)?;
    let shown = hex_program::show(&text).map_err(|number| (number, hex::words(number)));
    print_text("hex", shown, None)
}

/// A text, or its cause and the words for it; then a note. It ends well if there is nothing to say.
fn print_text(name: &str, text: Result<Vec<u8>, (u8, &str)>, note: Option<String>) -> Ended {
    let mut said = Vec::new();
    match text {
        Ok(text) => print(&text)?,
        Err((number, words)) => said.push(format!("{name}: refused by cause {number}: {words}")),
    }
    said.extend(note);
    if said.is_empty() {
        Ok(())
    } else {
        Err(Stop::Refused(said.join("\n")))
    }
}

/// reference script --fault SEED LINES, and the same with --bits, --foreign, --hex, --locks and --page; reference texts
/// SEED COUNT, and the same with --answers and --kinds
fn print_seeded(made: fn(u64, u64) -> Vec<u8>, words: &[&str]) -> Ended {
    let &[seed, count] = numbers(words)?.as_slice() else { return Err(misused()) };
    Ok(print(&made(seed, count))?)
}

/// reference script SEED LINES [L W]
fn print_script(words: &[&str]) -> Ended {
    let text = match *numbers(words)?.as_slice() {
        [seed, lines] => script::script(seed, lines, None),
        [seed, lines, l, w] => script::script(seed, lines, Some((l, w))),
        _ => return Err(misused()),
    };
    Ok(print(&text)?)
}

/// reference bench WORKLOAD L W N ROUNDS SEED: the workload's checksum.
fn print_workload(workload: &str, words: &[&str]) -> Ended {
    let &[lines, workers, n, rounds, seed] = numbers(words)?.as_slice() else { return Err(misused()) };
    let workload = bench::Workload::named(workload).ok_or_else(misused)?;
    let sum = bench::run(workload, lines, workers, n, rounds, seed).ok_or_else(misused)?;
    Ok(print(format!("{sum}\n").as_bytes())?)
}

/// The mistake of that name, or the known ones.
fn mistake(name: &str) -> Result<Mistake, Stop> {
    let unknown = || Stop::Misused(format!("no mistake is named '{name}'; there are\n{}", help::mistakes().trim_end()));
    Mistake::named(name).ok_or_else(unknown)
}

/// The check of that name, or the known ones.
fn check(name: &str) -> Result<Check, Stop> {
    let unknown = || Stop::Misused(format!("no check is named '{name}'; there are\n{}", help::checks().trim_end()));
    Check::named(name).ok_or_else(unknown)
}

/// reference explore ...
fn run_exploration(words: &[&str]) -> Ended {
    let (mut plain, mut smallest, mut wrong, mut only) = (Vec::new(), false, None, None);
    let mut words = words.iter();
    while let Some(word) = words.next() {
        match *word {
            "--exhaustive" => smallest = true,
            "--mistake" => wrong = Some(mistake(words.next().ok_or_else(misused)?)?),
            "--only" => only = Some(check(words.next().ok_or_else(misused)?)?),
            number => plain.push(number),
        }
    }
    let outcome = match (smallest, numbers(&plain)?.as_slice()) {
        (true, []) => exhaustive::exhaust(wrong, only).map(|reached| reached.to_string()),
        (false, &[seed, calls]) => {
            explore(&Options { seed, calls, mistake: wrong, only }).map(|tally| tally.to_string())
        }
        _ => return Err(misused()),
    };
    match outcome {
        Ok(text) => Ok(print(text.as_bytes())?),
        Err(caught) => print(violation(&caught).as_bytes()).map_err(Stop::from).and(Err(Stop::Violated)),
    }
}

/// The line that names the statement violated, and the last events before it.
fn violation(caught: &Caught) -> String {
    let mut text = format!("violated: {}: {}\n", caught.violation.check.name(), caught.violation.text);
    let _ = writeln!(text, "after {} events, the last of them:", caught.trace.len());
    let skipped = caught.trace.len().saturating_sub(40);
    for event in &caught.trace[skipped..] {
        let _ = writeln!(text, "  {event}");
    }
    text
}
