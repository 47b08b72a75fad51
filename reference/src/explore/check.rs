//! The checks by name, and what it means that one failed.

/// What `explore` checks.
#[derive(Clone, Copy, PartialEq, Eq, Debug)]
pub enum Check {
    /// Demand 1: the table of causes, and that a refused call leaves all as it was.
    Causes,
    /// The complete outcome of a taken call: state record and each lent word.
    Outcome,
    /// Statement 1: a taken read gives the machine's current value.
    Reads,
    /// Statement 2: after a finished recovery each cell reads as checkpointed at its start.
    Recovery,
    /// Statement 3: complete in the machine is the new epoch in memory.
    Completion,
    /// Statement 4: two boards read alike exactly where their checkpointed values are equal.
    TwoBoards,
    /// Statement 5: steps that are owed are taken, and as many as foretold; own memory is never turned down.
    Progress,
    /// Statement 6: one store or one write-back a call; words 6 and 7 stay as they were at the beginning.
    Stores,
    /// The invariant of the design page.
    Invariant,
    /// Ticket 1: a page's number, and each byte of its text row.
    Page,
    /// Ticket 2: who is away after a call, and after a checkpoint.
    Away,
    /// Ticket 5: a count is the set bits plus 3, at most L + 3, and 0 where it is refused.
    Count,
    /// Ticket 5: the count learned before a checkpoint's first step is the number of its steps.
    Foretold,
    /// Ticket 5: these steps write each set line once, rising, then line 0.
    Lines,
    /// A line's bit is set exactly where a cell of it is marked.
    Bits,
    /// Ticket 6: who holds each lock after a call.
    Holders,
    /// Ticket 6: who updates a data cell holds its lock; who waits, is away or at a restart point holds none.
    Held,
    /// Ticket 6: from a taken start on no call is answered by 9.
    Conflict,
    /// What each taken call changes on any board, each field and word, and nothing else; a page's text row.
    Changes,
    /// With no cut since the last taken start a write-back is taken exactly to line L, a read exactly below cell 2L.
    Answers,
    /// Ticket 9: what a text read and a memory written answer and leave, on random texts and memories.
    Hex,
}

/// Every check with its name and a few words.
pub const CHECKS: [(&str, Check, &str); 21] = [
    ("causes", Check::Causes, "the table of causes; a refused call leaves all as it was"),
    ("outcome", Check::Outcome, "the complete outcome of a taken call"),
    ("reads", Check::Reads, "a taken read gives the machine's current value"),
    ("recovery", Check::Recovery, "after a recovery each cell reads as checkpointed"),
    ("completion", Check::Completion, "complete in the machine is the new epoch in memory"),
    ("two-boards", Check::TwoBoards, "two boards read alike where their checkpointed values are equal"),
    ("progress", Check::Progress, "steps that are owed are taken, as many as foretold; own memory is never refused"),
    ("stores", Check::Stores, "one store or one write-back a call; words 6 and 7 stay"),
    ("invariant", Check::Invariant, "the design page's invariant"),
    ("page", Check::Page, "a page's number and each byte of its text row"),
    ("away", Check::Away, "who is away after a call, and after a checkpoint"),
    ("count", Check::Count, "a count is the set bits plus 3, at most L + 3; refused, 0"),
    ("foretold", Check::Foretold, "the count learned before a checkpoint's first step is the number of its steps"),
    ("lines", Check::Lines, "a checkpoint's steps write each set line once, rising, then line 0"),
    ("bits", Check::Bits, "a line's bit is set exactly where a cell of it is marked"),
    ("holders", Check::Holders, "who holds each lock after a call"),
    (
        "held",
        Check::Held,
        "who updates a data cell holds its lock; who waits, is away or at a restart point holds none",
    ),
    ("conflict", Check::Conflict, "from a taken start on no call is answered by 9"),
    ("changes", Check::Changes, "what a taken call changes, each field and word, and nothing else; a page's text row"),
    ("answers", Check::Answers, "a write-back is taken exactly to line L, a read exactly below cell 2L"),
    ("hex", Check::Hex, "HEX texts: what is written, what is read, what is refused, and the one text of a memory"),
];

impl Check {
    /// The check of that name.
    pub fn named(name: &str) -> Option<Check> {
        CHECKS.iter().find(|(known, ..)| *known == name).map(|(_, check, _)| *check)
    }

    /// The name of this check.
    pub fn name(self) -> &'static str {
        CHECKS.iter().find(|(_, check, _)| *check == self).map_or("", |(name, ..)| name)
    }
}

/// A check that failed, and how.
#[derive(Clone, PartialEq, Eq, Debug)]
pub struct Violation {
    pub check: Check,
    pub text: String,
}

/// The text of what went wrong, if anything did.
pub type Finding = Result<(), String>;

/// A finding from a test.
pub fn ensure(holds: bool, text: impl FnOnce() -> String) -> Finding {
    if holds {
        Ok(())
    } else {
        Err(text())
    }
}

/// Which checks are made: all, or one alone.
#[derive(Clone, Copy, Debug)]
pub struct Checks {
    pub only: Option<Check>,
}

impl Checks {
    /// Make a check if it is wanted.
    pub fn run(self, check: Check, finding: impl FnOnce() -> Finding) -> Result<(), Violation> {
        if self.only.is_some_and(|only| only != check) {
            return Ok(());
        }
        finding().map_err(|text| Violation { check, text })
    }
}
