//! The C boundary of the library, as include/struo_formal.h declares it.
use crate::refusal::Refused;
use crate::status::Status;

/// What a read answers.
#[repr(C)]
#[derive(Clone, Copy, Debug, Default, Eq, PartialEq)]
pub struct ReadAnswer {
    /// 0 for an accepted record, else the refusal's number, 1 to 15 or 30; of a begin also 18 to 22 and 24.
    pub number: u32,
    /// 0; of a begin as for a replay.
    pub side: u32,
    /// A byte offset for 3 to 6, a node number for 7, 8, 13, 14 and 30, a register number for 9 to 12 and 15, of a begin also for 22, else 0.
    pub place: u32,
}

impl ReadAnswer {
    /// Accepted, or the refusal.
    ///
    /// # Errors
    ///
    /// The refusal, where the record is refused.
    pub fn result(self) -> Result<(), Refused> {
        Refused::of(self.number, self.side, self.place).map_or(Ok(()), Err)
    }
}

/// What a replay answers.
#[repr(C)]
#[derive(Clone, Copy, Debug, Default, Eq, PartialEq)]
pub struct ReplayAnswer {
    /// 0 for an accepted replay, else the refusal's number, 1 to 15, 18 to 22, 25 or 30; of a step also 24.
    pub number: u32,
    /// 0 gold, 1 gate, and 0 where neither record alone is at fault.
    pub side: u32,
    /// As for a read, and for 22 a register number.
    pub place: u32,
    /// Whether the claim shows a difference; false where the replay is refused.
    pub yes: bool,
}

impl ReplayAnswer {
    /// Yes or no, or the refusal.
    ///
    /// # Errors
    ///
    /// The refusal, where the replay is refused.
    pub fn result(self) -> Result<bool, Refused> {
        Refused::of(self.number, self.side, self.place).map_or(Ok(self.yes), Err)
    }
}

/// A replay position that is lent to a begin or a step; the stored bits of both sides are lent beside it.
#[repr(C)]
#[derive(Clone, Copy, Debug, Default, Eq, PartialEq)]
pub struct Position {
    /// The next cycle.
    pub cycle: u64,
    /// Whether the outputs agreed in every cycle before it.
    pub agreed: bool,
}

/// What a check answers; unused numbers are 0.
#[repr(C)]
#[derive(Clone, Copy, Debug, Default, Eq, PartialEq)]
pub struct CheckAnswer {
    /// 0 for an accepted check, else the refusal's number, 1 to 24, 30 or 36.
    pub number: u32,
    /// 0 gold, 1 gate, and 0 where neither record alone is at fault.
    pub side: u32,
    /// As for a replay.
    pub place: u32,
    /// The number of a `Status`.
    pub status: u32,
    /// The depth at which the verdict fell; for Inconclusive the depth asked for, for GaveUp that of the query that gave up.
    pub depth: u32,
    /// For NotEquivalent the first cycle in which outputs differ.
    pub mismatch: u32,
    /// For GaveUp the number of the query that gave up: 1 to 4, and in the mode of the earliest cycle 0 to 4. The status says whether a 0 is a query's number.
    pub query: u32,
    /// The largest total of learned literals over the queries asked, at most the limit: how near the check came to giving up.
    pub learned: u32,
    /// The depth of the first query asked that has this total; 1 where nothing was learned.
    pub learned_depth: u32,
    /// The number of that query, in the mode of the earliest cycle 0 to 4, else 1 to 4; the first of these where nothing was learned.
    pub learned_query: u32,
    /// For GaveUp whether the outputs are proved equal in the cycles 0 to `through`; false where no query was answered, and nothing is proved of any cycle.
    pub equal: bool,
    /// The last cycle up to which they are; 0 where `equal` is false.
    pub through: u32,
}

impl CheckAnswer {
    /// The status, or the refusal.
    ///
    /// # Errors
    ///
    /// The refusal, where the check is refused.
    ///
    /// # Panics
    ///
    /// Never: the library answers one of the four statuses.
    pub fn result(self) -> Result<Status, Refused> {
        match Refused::of(self.number, self.side, self.place) {
            Some(refused) => Err(refused),
            None => Ok(Status::from_number(self.status).expect("an accepted check has a status")),
        }
    }

    /// For GaveUp the cycle through which the outputs are proved equal; none where no cycle is, and for every other status.
    #[must_use]
    pub fn proved_through(self) -> Option<u32> {
        self.equal.then_some(self.through)
    }
}

extern "C" {
    pub(crate) fn struo_read(record: *const u8, record_length: usize) -> ReadAnswer;
    pub(crate) fn struo_replay(
        gold: *const u8,
        gold_length: usize,
        gate: *const u8,
        gate_length: usize,
        cycle: u64,
        claim: *const u8,
        claim_length: usize,
    ) -> ReplayAnswer;
    pub(crate) fn struo_begin(
        gold: *const u8,
        gold_length: usize,
        gate: *const u8,
        gate_length: usize,
        position: *mut Position,
        bits: *mut u8,
        bits_length: usize,
    ) -> ReadAnswer;
    pub(crate) fn struo_step(
        gold: *const u8,
        gold_length: usize,
        gate: *const u8,
        gate_length: usize,
        cycle: u64,
        claim: *const u8,
        claim_length: usize,
        position: *mut Position,
        bits: *mut u8,
        bits_length: usize,
    ) -> ReplayAnswer;
    pub(crate) fn struo_check(
        gold: *const u8,
        gold_length: usize,
        gate: *const u8,
        gate_length: usize,
        depth: u64,
        limit: u64,
        earliest: bool,
        trace: *mut u8,
        trace_length: usize,
        words: *mut u32,
        words_length: usize,
        scores: *mut f64,
        scores_length: usize,
    ) -> CheckAnswer;
}
