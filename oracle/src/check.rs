//! The call check: the Rust's prove_sequential_equivalence under a limit of learned literals, in the mode of the earliest cycle after its base_counterexample with depth 0.
use crate::bridge::system;
use crate::equivalence::{base_counterexample, prove_sequential_equivalence, Counterexample, EquivalenceResult, EquivalenceStatus};
use crate::meter::{self, Ending, Query, Report, Wish};
use crate::pair::{check_refusal, read_pair, Lent};
use crate::record::{Design, Refusal};

/// What a check answers; the trace is the bytes written, for status 1 only; `learned` is the largest total of the queries asked, `learned_depth` and
/// `learned_query` depth and number of the first of them that has it; `equal` says, for status 3 only, whether the outputs are proved equal through a cycle,
/// which is `through`.
#[derive(Clone, Debug, Default, Eq, PartialEq)]
pub struct CheckAnswer {
    pub refusal: Option<Refusal>,
    pub status: u8,
    pub depth: usize,
    pub mismatch: usize,
    pub query: usize,
    pub learned: usize,
    pub learned_depth: usize,
    pub learned_query: usize,
    pub equal: bool,
    pub through: usize,
    pub trace: Vec<u8>,
}

/// The statuses' numbers.
pub const EQUIVALENT: u8 = 0;
pub const NOT_EQUIVALENT: u8 = 1;
pub const INCONCLUSIVE: u8 = 2;
pub const GAVE_UP: u8 = 3;

/// A counterexample's bytes: a byte per input and cycle, then the marks of the outputs.
fn trace(gold: &Design, found: &Counterexample) -> Vec<u8> {
    let mut bytes: Vec<u8> = Vec::new();
    for (cycle, frame) in found.frames().iter().enumerate() {
        assert_eq!(frame.cycle(), cycle);
        bytes.extend(frame.inputs().values().map(|bit| u8::from(*bit)));
    }
    let differing = found.differing_outputs();
    bytes.extend(gold.output_names().iter().map(|name| u8::from(differing.iter().any(|other| other.as_bytes() == name))));
    bytes
}

/// The answer of a counterexample found at a depth.
fn different(gold: &Design, depth: usize, found: &Counterexample) -> CheckAnswer {
    let mismatch = found.first_mismatch();
    assert_eq!(found.frames().len(), mismatch + 1);
    CheckAnswer { status: NOT_EQUIVALENT, depth, mismatch, trace: trace(gold, found), ..CheckAnswer::default() }
}

/// The answer of a result that no query gave up.
fn answered(gold: &Design, result: &EquivalenceResult) -> CheckAnswer {
    let depth = result.depth();
    let plain = |status| CheckAnswer { status, depth, ..CheckAnswer::default() };
    match result.status() {
        EquivalenceStatus::Equivalent => plain(EQUIVALENT),
        EquivalenceStatus::Inconclusive => plain(INCONCLUSIVE),
        EquivalenceStatus::NotEquivalent => different(gold, depth, result.counterexample().expect("a trace comes with NotEquivalent")),
    }
}

/// The largest total of the queries, in the order asked, with depth and number of the first that has it.
fn most_learned(queries: &[Query]) -> (usize, usize, usize) {
    let most = queries.iter().map(|query| query.learned).max().expect("a query is asked");
    let first = queries.iter().find(|query| query.learned == most).expect("a query has it");
    (most, first.depth, first.number)
}

/// The last cycle that a query asks of outputs from the initial states; none for queries 2 to 4, which ask something else.
fn last_cycle(query: &Query) -> Option<usize> {
    match query.number {
        0 => Some(0),
        1 => Some(query.depth),
        _ => None,
    }
}

/// The answer of a check whose last query gave up. Outputs are proved equal through the last cycle of query 0 and of each query 1 that was answered, which was
/// by no. As one of these is asked before all others, there is such a cycle exactly where a query was answered.
fn gave_up(queries: &[Query]) -> CheckAnswer {
    let (last, answered) = queries.split_last().expect("a query gave up");
    assert!(last.ending == Ending::GaveUp && answered.iter().all(|query| query.ending != Ending::GaveUp));
    let proved = answered.iter().filter(|query| query.ending == Ending::NoModel).filter_map(last_cycle).max();
    assert_eq!(proved.is_none(), answered.is_empty());
    CheckAnswer { status: GAVE_UP, depth: last.depth, query: last.number, equal: proved.is_some(), through: proved.unwrap_or(0), ..CheckAnswer::default() }
}

/// The Rust's check of two accepted designs. In the mode of the earliest cycle its own query 1 with depth 0 is asked first, as query 0 of depth 1; a model of it is the answer.
fn asked(gold: &Design, gate: &Design, depth: usize, earliest: bool) -> CheckAnswer {
    let (ours, theirs) = (system(gold), system(gate));
    let found = if earliest { base_counterexample(&ours, &theirs, 0) } else { None };
    match found {
        Some(found) => different(gold, 1, &found),
        None => answered(gold, &prove_sequential_equivalence(&ours, &theirs, depth).expect("the pair passed its refusals")),
    }
}

/// Two accepted designs checked to a depth, in the mode of the earliest cycle or without it, and what the search reported.
pub fn prove(gold: &Design, gate: &Design, depth: usize, earliest: bool, wish: Wish) -> (CheckAnswer, Report) {
    meter::reset(wish);
    let answer = meter::unless_gave_up(|| asked(gold, gate, depth, earliest));
    let report = meter::report();
    let (learned, learned_depth, learned_query) = most_learned(&report.queries);
    assert!(report.queries.iter().all(|query| query.nodes <= 65_536), "the bound of refusal 23");
    let answer = answer.unwrap_or_else(|| gave_up(&report.queries));
    (CheckAnswer { learned, learned_depth, learned_query, ..answer }, report)
}

/// Check with its report: gold's record, gate's record, the maximum depth, the limit of learned literals in one query, whether the earliest cycle is asked for,
/// the lengths of the buffers lent. The limit is that of the call, whatever the wish says.
pub fn check_reporting(gold: &[u8], gate: &[u8], depth: u64, limit: u64, earliest: bool, lent: Lent, wish: Wish) -> (CheckAnswer, Report) {
    let accepted = read_pair(gold, gate).and_then(|(gold, gate)| {
        check_refusal(&gold, &gate, depth, limit, lent)?;
        Ok((gold, gate))
    });
    match accepted {
        Ok((gold, gate)) => {
            let limit = usize::try_from(limit).expect("a limit fits");
            prove(&gold, &gate, usize::try_from(depth).expect("a depth fits"), earliest, Wish { limit, ..wish })
        }
        Err(refusal) => (CheckAnswer { refusal: Some(refusal), ..CheckAnswer::default() }, Report::default()),
    }
}

/// Check.
pub fn check(gold: &[u8], gate: &[u8], depth: u64, limit: u64, earliest: bool, lent: Lent) -> CheckAnswer {
    check_reporting(gold, gate, depth, limit, earliest, lent, Wish::default()).0
}
