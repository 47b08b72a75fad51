//! Boards that are wrong on purpose, or begin beside a wrong machine, so that `explore` can show that it catches them.

/// A mistake or a useless board of 01, a mistake with a ticket of 02, or one in what a call takes and changes, by the
/// name it has on the command line.
#[derive(Clone, Copy, PartialEq, Eq, Debug)]
pub enum Mistake {
    /// "Mark before backup"
    MarkFirst,
    /// "In recovery, mark := 0 before record := backup"
    RecoveryMarkFirst,
    /// "Recovered lines left only in the cache"
    RecoveryCacheOnly,
    /// "Marks kept after recovery"
    RecoveryKeepsMarks,
    /// "Workers released before line 0 is in memory"
    EarlyRelease,
    /// "a recovery always giving zeros"
    RecoveryZeros,
    /// "a format ... that does all in its first step and idles after"
    FormatAtOnce,
    /// "a ... recovery that does all in its first step and idles after"
    RecoveryAtOnce,
    /// "a checkpoint saying complete before its writes"
    CompleteEarly,
    /// "a write-back that copies nothing"
    WriteBackNothing,
    /// "a board that turns every call down"
    RefuseAll,
    /// Cause 9 dropped.
    NoCause9,
    /// A mark's store that leaves its line's bit as it was.
    MarkWithoutBit,
    /// Equal marks by falling cell number.
    PageFallingCells,
    /// The oldest mark first.
    PageOlderFirst,
    /// Record and backup each in the other's column.
    PageSwapped,
    /// The last column one narrower.
    PageNarrow,
    /// 12 tested before 4.
    PageTextFirst,
    /// The byte after the page is changed.
    PagePastEnd,
    /// A refused page changes the text row's first byte.
    PageRefusedWrites,
    /// No line for the last cell.
    PageLastCellMissing,
    /// Cause 13 dropped.
    NoCause13,
    /// 13 tested by the place alone.
    Cause13Unrequested,
    /// 13 tested by the request alone.
    Cause13AtRequest,
    /// 13 tested before 8.
    Cause13First,
    /// Release frees a worker that is away.
    ReleaseFreesAway,
    /// Away not counted as waiting.
    AwayNotWaiting,
    /// Away counted as free by an update and a restart point.
    AwayUpdates,
    /// A worker that comes back waits.
    BackWaits,
    /// Recovery's end leaves a worker away.
    RecoveryLeavesAway,
    /// A waiting worker may come back.
    WaitingComesBack,
    /// A waiting worker may go away.
    WaitingGoesAway,
    /// Cause 14 dropped.
    NoCause14,
    /// 14 for a mark that is the epoch too.
    Cause14AtEpoch,
    /// Marks compared with the epoch that the cache had before the start.
    Cause14ByCache,
    /// The last cell's mark not looked at.
    Cause14LastCell,
    /// 14 tested before 5.
    Cause14First,
    /// Recovery's start puts 0 into the cache's words 6 and 7.
    RecoveryClearsSpare,
    /// The machine begins at a recovery's start with memory's records in place of its undo.
    BeginWithRecords,
    /// Release leaves the bits.
    BitsKept,
    /// Recovery's start leaves the bits.
    RecoveryKeepsBits,
    /// Bits cleared at the epoch's store and not at the release.
    BitsClearedEarly,
    /// The last set line written by two steps.
    LineTwice,
    /// The step that writes line 0 back releases too.
    ReleaseWithHeader,
    /// The set lines in falling order.
    HighestFirst,
    /// The bit of the cell's number set in place of its line's.
    BitOfCell,
    /// Bits of the eighth word not counted.
    SevenWords,
    /// The count one too low.
    CountShort,
    /// A refused count gives the number too.
    CountRefused,
    /// A bit of line L is cause 3 too.
    BitOfLastLineRefused,
    /// A bit of line 0 is no cause.
    BitOfLine0Passes,
    /// A bit past L is no cause.
    BitsPastLPass,
    /// No lock asked at an update, and cause 9 dropped too.
    NoLockAtUpdate,
    /// Recovery's start leaves the locks with their holders.
    LocksKept,
    /// A cell's lock by its number mod 8.
    LockMod8,
    /// At an update another worker's lock is good enough.
    AnyHolder,
    /// A lock given back in the middle of an update under it.
    GiveBackMidUpdate,
    /// A free lock may be given back.
    GiveBackFree,
    /// One's own lock may be taken once more.
    TakeOwnTwice,
    /// 16 tested before 8.
    Cause16First,
    /// 9 tested before 16.
    Cause9First,
    /// A restart point under a lock.
    RestartUnderLock,
    /// Going away under a lock.
    AwayUnderLock,
    /// A holder W or more is no cause.
    HolderW,
    /// A page refused by 2, 3 or 4 is written where it has room.
    PageRefusedWritten,
    /// A page shows memory's cells.
    PageOfMemory,
    /// A page's marks are compared mod 2^63.
    PageMarksMod63,
    /// The order of a page before ticket 10.
    PageByMarkAlone,
    /// Among equal marks the changed cells last.
    PageChangedLast,
    /// A changed cell before one with a newer mark.
    PageChangedBeforeMark,
    /// Changed cells first only among those marked with the cache's epoch.
    PageChangedThisEpoch,
    /// Changed cells are those whose record is greater than backup.
    PageChangedGrown,
    /// A write-back of the lines L+1 to 2L-1 answers 0 and copies nothing.
    WriteBackTo2L,
    /// A write-back of a line past 1 copies nothing.
    WriteBackPast1,
    /// Every write-back of line 3 is refused by 7.
    WriteBackNot3,
    /// Recovery sets a mark to the epoch before in place of 0.
    RecoveryMarksEarlier,
    /// Recovery sets the mark of a cell that is not logged to 0.
    RecoveryDropsMarks,
    /// An update's start stores the backup of a cell that is not logged.
    BackupAtStart,
    /// The backup's store of a data cell's update drops a standing request.
    StoreDropsRequest,
    /// An advance moves the place while no request stands.
    AdvanceMovesPlace,
    /// A format's step leaves garbage in recovery's step.
    FormatSpoilsUndo,
    /// A checkpoint's step leaves garbage in recovery's step.
    CheckpointSpoilsUndo,
    /// An advance leaves garbage in recovery's step.
    AdvanceSpoilsUndo,
    /// In the middle of a format a step sets its line's bit.
    FormatSetsBit,
    /// A read's limit is 2L^2, which at L = 1 is the same.
    ReadTo2LSquared,
    /// A format's place up to 2L is no cause.
    FormatPlaceTo2L,
    /// Cause 3 looks at worker 0's update alone.
    Cause3Worker0,
    /// An update takes a mark past the epoch for a logged cell's.
    LaterMarkLogged,
    /// The epoch's store takes memory's epoch plus 1.
    EpochOfMemory,
    /// Recovery writes back the line of a cell that is not logged.
    RecoveryWritesAll,
    /// A format's step resets recovery's step.
    FormatResetsUndo,
    /// A checkpoint's step resets recovery's step.
    CheckpointResetsUndo,
    /// A page is sized by the L of the cache's header.
    PageByHeader,
    /// A text's checksums are not tested.
    HexChecksumUntested,
    /// A data record's address is not tested.
    HexAddressUntested,
    /// A text is written with lower-case digits.
    HexLowerCase,
    /// A word's high byte comes first, written and read.
    HexHighByteFirst,
    /// A text without its end record is read.
    HexEndNotNeeded,
    /// Anything may stand after the end record.
    HexAfterEnd,
    /// A refused read stores what it could read.
    HexRefusedStores,
    /// 20 by the row's length is tested before 19.
    Hex20First,
}

/// Every mistake with its name and a few words.
pub const MISTAKES: [(&str, Mistake, &str); 101] = [
    ("mark-first", Mistake::MarkFirst, "an update stores the mark before the backup"),
    ("recovery-mark-first", Mistake::RecoveryMarkFirst, "recovery clears a mark before it restores the record"),
    ("recovery-cache-only", Mistake::RecoveryCacheOnly, "recovered lines are not written back"),
    ("recovery-keeps-marks", Mistake::RecoveryKeepsMarks, "recovery leaves the marks"),
    ("early-release", Mistake::EarlyRelease, "workers are released before line 0 is in memory"),
    ("recovery-zeros", Mistake::RecoveryZeros, "recovery always gives zeros"),
    ("format-at-once", Mistake::FormatAtOnce, "a format does all in its first step"),
    ("recovery-at-once", Mistake::RecoveryAtOnce, "a recovery does all in its first step"),
    ("complete-early", Mistake::CompleteEarly, "a checkpoint is complete before its writes"),
    ("write-back-nothing", Mistake::WriteBackNothing, "a write-back copies nothing"),
    ("refuse-all", Mistake::RefuseAll, "every call is turned down"),
    ("no-cause-9", Mistake::NoCause9, "two workers may update one cell"),
    ("mark-without-bit", Mistake::MarkWithoutBit, "a mark's store does not set its line's bit"),
    ("page-falling-cells", Mistake::PageFallingCells, "a page has equal marks by falling cell number"),
    ("page-older-first", Mistake::PageOlderFirst, "a page has the oldest mark first"),
    ("page-swapped", Mistake::PageSwapped, "a page has record and backup swapped"),
    ("page-narrow", Mistake::PageNarrow, "a page's last column is one narrower"),
    ("page-text-first", Mistake::PageTextFirst, "a page's text row is tested before the other rows"),
    ("page-past-end", Mistake::PagePastEnd, "a page changes the byte after it"),
    ("page-refused-writes", Mistake::PageRefusedWrites, "a refused page changes its text row"),
    ("page-last-cell-missing", Mistake::PageLastCellMissing, "a page has no line for the last cell"),
    ("no-cause-13", Mistake::NoCause13, "a worker comes back in the middle of a checkpoint"),
    ("cause-13-unrequested", Mistake::Cause13Unrequested, "13 is tested by the place alone, with no request too"),
    ("cause-13-at-request", Mistake::Cause13AtRequest, "13 is tested by the request alone, before the first step too"),
    ("cause-13-first", Mistake::Cause13First, "13 is tested before 8"),
    ("release-frees-away", Mistake::ReleaseFreesAway, "a release frees a worker that is away"),
    ("away-not-waiting", Mistake::AwayNotWaiting, "a worker that is away holds a checkpoint up"),
    ("away-updates", Mistake::AwayUpdates, "a worker that is away may begin an update"),
    ("back-waits", Mistake::BackWaits, "a worker that comes back waits"),
    ("recovery-leaves-away", Mistake::RecoveryLeavesAway, "recovery's end leaves a worker away"),
    ("waiting-comes-back", Mistake::WaitingComesBack, "a waiting worker may come back"),
    ("waiting-goes-away", Mistake::WaitingGoesAway, "a waiting worker may go away"),
    ("no-cause-14", Mistake::NoCause14, "foreign memory with a mark past its epoch is taken"),
    ("cause-14-at-epoch", Mistake::Cause14AtEpoch, "14 is answered for a mark that is the epoch too"),
    ("cause-14-by-cache", Mistake::Cause14ByCache, "marks are compared with the epoch that the cache had before"),
    ("cause-14-last-cell", Mistake::Cause14LastCell, "the last cell's mark is not looked at"),
    ("cause-14-first", Mistake::Cause14First, "14 is tested before 5"),
    ("recovery-clears-spare", Mistake::RecoveryClearsSpare, "recovery's start puts 0 into the cache's words 6 and 7"),
    ("begin-with-records", Mistake::BeginWithRecords, "the machine begins with memory's records, not its undo"),
    ("bits-kept", Mistake::BitsKept, "a release leaves the bits of the lines"),
    ("recovery-keeps-bits", Mistake::RecoveryKeepsBits, "recovery's start leaves the bits of the lines"),
    ("bits-cleared-early", Mistake::BitsClearedEarly, "the bits are cleared at the epoch's store"),
    ("line-twice", Mistake::LineTwice, "a checkpoint writes its last set line twice"),
    ("release-with-header", Mistake::ReleaseWithHeader, "line 0's write-back releases too: n + 2 steps"),
    ("highest-first", Mistake::HighestFirst, "a checkpoint writes the highest set line first"),
    ("bit-of-cell", Mistake::BitOfCell, "a mark's store sets the bit of the cell's number, not of its line"),
    ("seven-words", Mistake::SevenWords, "set bits of the eighth word are not counted"),
    ("count-short", Mistake::CountShort, "the count is one too low"),
    ("count-refused", Mistake::CountRefused, "a refused count gives the number too"),
    ("bit-of-last-line-refused", Mistake::BitOfLastLineRefused, "a bit of line L is cause 3 too"),
    ("bit-of-line-0-passes", Mistake::BitOfLine0Passes, "a bit of line 0 is no cause"),
    ("bits-past-l-pass", Mistake::BitsPastLPass, "a bit of a line past L is no cause"),
    ("no-lock-at-update", Mistake::NoLockAtUpdate, "an update asks for no lock, and cause 9 is dropped too"),
    ("locks-kept", Mistake::LocksKept, "recovery's start leaves the locks with their holders"),
    ("lock-mod-8", Mistake::LockMod8, "a cell's lock is its number mod 8"),
    ("any-holder", Mistake::AnyHolder, "at an update another worker's lock is good enough"),
    ("give-back-mid-update", Mistake::GiveBackMidUpdate, "a lock is given back in the middle of an update under it"),
    ("give-back-free", Mistake::GiveBackFree, "a free lock may be given back"),
    ("take-own-twice", Mistake::TakeOwnTwice, "a worker may take its own lock once more"),
    ("16-before-8", Mistake::Cause16First, "16 is tested before 8"),
    ("9-before-16", Mistake::Cause9First, "9 is tested before 16"),
    ("restart-under-lock", Mistake::RestartUnderLock, "a restart point is taken under a lock"),
    ("away-under-lock", Mistake::AwayUnderLock, "a worker goes away under a lock"),
    ("holder-w", Mistake::HolderW, "a holder W or more is no cause"),
    ("page-refused-written", Mistake::PageRefusedWritten, "a page refused by 2, 3 or 4 is written"),
    ("page-of-memory", Mistake::PageOfMemory, "a page shows memory, not the cache"),
    ("page-marks-mod-63", Mistake::PageMarksMod63, "a page orders marks mod 2^63"),
    ("page-by-mark-alone", Mistake::PageByMarkAlone, "a page has equal marks by cell number alone"),
    ("page-changed-last", Mistake::PageChangedLast, "a page has changed cells last among equal marks"),
    ("page-changed-before-mark", Mistake::PageChangedBeforeMark, "a page has changed cells before newer marks"),
    ("page-changed-this-epoch", Mistake::PageChangedThisEpoch, "a page has changed cells first in one epoch only"),
    ("page-changed-grown", Mistake::PageChangedGrown, "a page takes a record below its backup for unchanged"),
    ("write-back-to-2l", Mistake::WriteBackTo2L, "a write-back of the lines L+1 to 2L-1 answers 0"),
    ("write-back-past-1", Mistake::WriteBackPast1, "a write-back of a line past 1 copies nothing"),
    ("write-back-not-3", Mistake::WriteBackNot3, "every write-back of line 3 is refused by 7"),
    ("recovery-marks-earlier", Mistake::RecoveryMarksEarlier, "recovery sets a mark to epoch - 1 in place of 0"),
    ("recovery-drops-marks", Mistake::RecoveryDropsMarks, "recovery drops the marks of cells that are not logged"),
    ("backup-at-start", Mistake::BackupAtStart, "an update's start stores the backup"),
    ("store-drops-request", Mistake::StoreDropsRequest, "the first of a data update's three stores drops a request"),
    ("advance-moves-place", Mistake::AdvanceMovesPlace, "an advance moves the place while no request stands"),
    ("format-spoils-undo", Mistake::FormatSpoilsUndo, "a format's step leaves garbage in recovery's step"),
    ("checkpoint-spoils-undo", Mistake::CheckpointSpoilsUndo, "a checkpoint's step leaves garbage in recovery's step"),
    ("advance-spoils-undo", Mistake::AdvanceSpoilsUndo, "an advance leaves garbage in recovery's step"),
    ("format-sets-bit", Mistake::FormatSetsBit, "in the middle of a format a line's bit is set"),
    ("read-to-2l-squared", Mistake::ReadTo2LSquared, "a read's limit is 2L^2"),
    ("format-place-to-2l", Mistake::FormatPlaceTo2L, "a format's place up to 2L is no cause"),
    ("cause-3-worker-0", Mistake::Cause3Worker0, "cause 3 looks only at worker 0's update"),
    ("later-mark-logged", Mistake::LaterMarkLogged, "an update takes a mark past the epoch for logged"),
    ("epoch-of-memory", Mistake::EpochOfMemory, "the epoch's store takes memory's epoch"),
    ("recovery-writes-all", Mistake::RecoveryWritesAll, "recovery writes back the lines of cells that are not logged"),
    ("format-resets-undo", Mistake::FormatResetsUndo, "a format's step resets recovery's step"),
    ("checkpoint-resets-undo", Mistake::CheckpointResetsUndo, "a checkpoint's step resets recovery's step"),
    ("page-by-header", Mistake::PageByHeader, "a page is sized by the cache's header"),
    ("hex-checksum-untested", Mistake::HexChecksumUntested, "a text with a wrong checksum is read"),
    ("hex-address-untested", Mistake::HexAddressUntested, "a data record at another address is read"),
    ("hex-lower-case", Mistake::HexLowerCase, "a text is written with lower-case digits"),
    ("hex-high-byte-first", Mistake::HexHighByteFirst, "a word's high byte is written and read first"),
    ("hex-end-not-needed", Mistake::HexEndNotNeeded, "a text without its end record is read"),
    ("hex-after-end", Mistake::HexAfterEnd, "a text with something after its end record is read"),
    ("hex-refused-stores", Mistake::HexRefusedStores, "a refused read stores what it could read"),
    ("hex-20-first", Mistake::Hex20First, "20 by the row's length is tested before 19"),
];

impl Mistake {
    /// The mistake of that name.
    pub fn named(name: &str) -> Option<Mistake> {
        MISTAKES.iter().find(|(known, ..)| *known == name).map(|(_, mistake, _)| *mistake)
    }
}
