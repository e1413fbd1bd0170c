//! A checker that owns the memory which a check is lent.
use crate::refusal::Refused;
use crate::status::Status;
use crate::{check, LEARNED_LIMIT, SCORES, TRACE, WORDS};

/// A byte that no trace has: what a check writes ends at the first one left.
const UNWRITTEN: u8 = 0xff;

/// The memory of a check, 32.5 MiB, enough for every pair; one checker serves any number of checks, one after the other.
#[derive(Clone, Debug)]
pub struct Checker {
    trace: Vec<u8>,
    words: Vec<u32>,
    scores: Vec<f64>,
}

/// What a check is asked for beside the pair.
#[derive(Clone, Copy, Debug, Eq, PartialEq, Hash)]
pub struct Options {
    /// The maximum depth, 1 to 64.
    pub depth: u64,
    /// How many literals the clauses learned by one query may have together, 0 to `LEARNED_LIMIT`: a query whose next clause would pass this gives up.
    pub limit: u64,
    /// Whether query 0 puts cycle 0 alone first, the mode in which a mismatch is the earliest cycle that any input sequence can show.
    pub earliest: bool,
}

impl Options {
    /// A maximum depth, under the largest limit, without the mode of the earliest cycle.
    #[must_use]
    pub const fn to_depth(depth: u64) -> Self {
        Self { depth, limit: LEARNED_LIMIT as u64, earliest: false }
    }

    /// The same under another limit.
    #[must_use]
    pub const fn limit(self, limit: u64) -> Self {
        Self { limit, ..self }
    }

    /// The same in the mode of the earliest cycle.
    #[must_use]
    pub const fn earliest(self) -> Self {
        Self { earliest: true, ..self }
    }
}

/// What an accepted check found.
#[derive(Clone, Debug, Eq, PartialEq)]
pub struct Verdict {
    /// The status; only `Equivalent` is a pass.
    pub status: Status,
    /// The depth at which the verdict fell; for Inconclusive the depth asked for, for GaveUp that of the query that gave up.
    pub depth: u32,
    /// For NotEquivalent the difference.
    pub difference: Option<Difference>,
    /// For GaveUp the number of the query that gave up: 1 to 4, and in the mode of the earliest cycle 0 to 4.
    pub query: Option<u32>,
    /// The largest total of learned literals over the queries asked, at most the limit: how near the check came to giving up.
    pub learned: u32,
    /// The depth of the first query asked that has this total; 1 where nothing was learned.
    pub learned_depth: u32,
    /// The number of that query, in the mode of the earliest cycle 0 to 4, else 1 to 4; the first of these where nothing was learned.
    pub learned_query: u32,
    /// For GaveUp the cycle through which the outputs are proved equal, so that the first mismatch, if there is one, lies beyond it; none where no cycle is.
    pub proved_through: Option<u32>,
}

/// A difference: a claim to which `replay` answers yes.
#[derive(Clone, Debug, Eq, PartialEq)]
pub struct Difference {
    /// The first cycle in which outputs differ; found at depth 2 or more, or in the mode of the earliest cycle, no input sequence shows an earlier one.
    pub cycle: u32,
    /// A byte, 0 or 1, for each input in byte order of names, for each cycle from 0 on; then a byte for each output, 1 where it differs.
    pub trace: Vec<u8>,
}

impl Checker {
    /// A checker with its memory.
    #[must_use]
    pub fn new() -> Self {
        Self { trace: vec![UNWRITTEN; TRACE], words: vec![0; WORDS], scores: vec![0.0; SCORES] }
    }

    /// Checks whether two designs can ever differ, by k-induction for depths 1 to the depth of the options, under their limit of learned literals and in
    /// the mode that they ask for.
    ///
    /// # Errors
    ///
    /// The first refusal in checking order: of 1 to 17, then 36, then of 18 to 23.
    pub fn check(&mut self, gold: &[u8], gate: &[u8], options: Options) -> Result<Verdict, Refused> {
        self.trace.fill(UNWRITTEN);
        let answer = check(gold, gate, options.depth, options.limit, options.earliest, &mut self.trace, &mut self.words, &mut self.scores);
        let status = answer.result()?;
        let written = self.trace.iter().position(|byte| *byte == UNWRITTEN).unwrap_or(TRACE);
        let difference = Difference { cycle: answer.mismatch, trace: self.trace[..written].to_vec() };
        Ok(Verdict {
            status,
            depth: answer.depth,
            difference: (status == Status::NotEquivalent).then_some(difference),
            query: (status == Status::GaveUp).then_some(answer.query),
            learned: answer.learned,
            learned_depth: answer.learned_depth,
            learned_query: answer.learned_query,
            proved_through: answer.proved_through(),
        })
    }
}

impl Default for Checker {
    fn default() -> Self {
        Self::new()
    }
}
