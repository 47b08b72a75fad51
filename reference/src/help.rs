//! What `reference --help` says.

use reference::explore::check::CHECKS;
use reference::mistake::MISTAKES;

/// Every command's form.
pub const USAGE: &str = "usage: reference drill
       reference fault
       reference fault --reached SEEDS LINES
       reference page
       reference hex
       reference hex --show
       reference script SEED LINES [L W]
       reference script --fault SEED LINES
       reference script --bits SEED LINES
       reference script --foreign SEED LINES
       reference script --hex SEED LINES
       reference script --locks SEED LINES
       reference script --page SEED LINES
       reference texts SEED COUNT
       reference texts --answers SEED COUNT
       reference texts --kinds SEED COUNT
       reference explore SEED COUNT [--mistake NAME] [--only CHECK]
       reference explore --exhaustive [--mistake NAME] [--only CHECK]
       reference bench WORKLOAD L W N ROUNDS SEED
       reference help";

/// Every command in a few words.
const COMMANDS: [(&str, &str); 19] = [
    ("drill", "01's drill: a script on standard input, its answers on standard output"),
    ("fault", "the same with damage, as fault.md says"),
    (
        "fault --reached",
        "how often the fault scripts of seeds 1 to SEEDS met each answer, each case of a worker away, of foreign \
         memory, of line bits and of locks, and each ?",
    ),
    ("page", "the page of the board that a drill script on standard input leads to"),
    ("hex", "the Intel HEX of the memory that a drill script on standard input leads to"),
    (
        "hex --show",
        "the epoch, L, W and page of the board whose memory is the HEX text on standard input, recovered to its end",
    ),
    ("script", "a random script for the drill, on boards of any size or of L and W"),
    ("script --fault", "a random script for the fault program"),
    ("script --bits", "one of nothing but line bits: counts, checkpoints of several lines, bits that must not be set"),
    ("script --foreign", "one of nothing but memory from another kiosk: refused by 5 and 14, taken and worked on"),
    ("script --hex", "one of nothing but HEX texts: written, changed byte by byte, read back and recovered"),
    ("script --locks", "one of nothing but locks: taken and given back, updates with and without them, holders W or more"),
    ("script --page", "a random script for the page, mostly ending on a board that runs"),
    ("texts", "COUNT cases of a text read into a row (r WORDS BYTES, the bytes) or memory written (w WORDS BYTES SEED)"),
    ("texts --answers", "the answer's number of each case, and the checksum of the row's words or the text's bytes"),
    ("texts --kinds", "how many cases of each kind these are, and how many of them are taken"),
    (
        "explore",
        "COUNT calls in random sequences with cuts, from a format or from a recovery's start on foreign memory, every \
         check made after each event",
    ),
    ("explore --exhaustive", "every state of the smallest board, from a format and from foreign memories"),
    (
        "bench",
        "a workload's checksum: update, again, checkpoint, checkpoint-pairs, checkpoint-away, recovery, write-back, locks, \
         page-equal, page-rising, page-random, page-mixed, hex-write or hex-read",
    ),
];

/// What drill, fault program, page and HEX say of lines that are no calls.
const NOTE: &str =
    "drill, fault, page and hex say on standard error, at the end, how many lines are no calls, and why the first
is none; page and hex then end with status 1";

/// The commands, the checks and the mistakes.
pub fn help() -> String {
    let commands = COMMANDS.iter().map(|(name, words)| entry(name, words)).collect::<String>();
    let (checks, mistakes) = (checks(), mistakes());
    format!("{USAGE}\n\ncommands\n{commands}\n{NOTE}\n\nchecks (--only)\n{checks}\nmistakes (--mistake)\n{mistakes}")
}

/// The checks, one a line.
pub fn checks() -> String {
    CHECKS.iter().map(|(name, _, words)| entry(name, words)).collect()
}

/// The mistakes, one a line.
pub fn mistakes() -> String {
    MISTAKES.iter().map(|(name, _, words)| entry(name, words)).collect()
}

/// A name and a few words.
fn entry(name: &str, words: &str) -> String {
    format!("  {name:<22}  {words}\n")
}
