//! Ticket 6: "Of 16 locks, data cell c lies under lock c mod 16. The state record gains each lock's holder, a worker under
//! W or none".

/// "16 locks"
pub const LOCKS: usize = 16;

/// No worker's number: the one after the eighth worker's.
pub const NOBODY: u8 = 8;

/// Each lock's holder, a worker or nobody.
pub type Holders = [u8; LOCKS];

/// "Both starts free all locks."
pub const ALL_FREE: Holders = [NOBODY; LOCKS];

/// "data cell c lies under lock c mod 16"
pub fn lock_of(cell: u64) -> usize {
    (cell % LOCKS as u64) as usize
}

/// The worker holds this lock.
pub fn holds(holders: &Holders, worker: u64, lock: usize) -> bool {
    u64::from(holders[lock]) == worker
}

/// The worker, one of the eight, holds a lock. All sixteen are looked at, which a compiler does at once.
pub fn holds_any(holders: &Holders, worker: u8) -> bool {
    holders.iter().fold(false, |any, holder| any | (*holder == worker))
}

/// "a worker under W or none, else cause 3": some holder is neither.
pub fn holder_astray(holders: &Holders, workers: u8) -> bool {
    holders.iter().fold(false, |any, holder| any | (*holder >= workers && *holder != NOBODY))
}
