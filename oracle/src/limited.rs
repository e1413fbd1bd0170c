//! Checks under limits of learned literals: named pairs, refusal 36 beside the others, and give-ups in each query at depth 1 and deeper.
use std::collections::BTreeMap;

use crate::check::{prove, CheckAnswer, GAVE_UP};
use crate::families::{deep_pair, late_proof, product_pair, random_pair, Pair};
use crate::meter::{Query, Wish, LEARNED_LIMIT};
use crate::pair::{trace_need, Lent, SCORES, WORDS};
use crate::random::{ClockRead, Size};
use crate::record::{encode, Design};
use crate::refusals::{clock_faults, port_faults, record_with, reset_faults, wide};
use crate::rng::Rng;
use crate::shapes::{self, sync, Multiplier};
use crate::vectors::limited_line;

/// The largest limit, as a call takes it.
const LARGEST: u64 = LEARNED_LIMIT as u64;

/// Limits that are refused: one above the largest, numbers about 2 to the 32 that 32 bits would cut, and the ends of 64 bits.
pub const REFUSED: [u64; 6] = [LARGEST + 1, (1 << 32) - 1, 1 << 32, (1 << 32) + 5, 1 << 63, u64::MAX];

/// Limits about what a check's queries learned, ascending: 0, each total, one below it, one above it, and any up to the largest total.
pub fn limits_about(rng: &mut Rng, queries: &[Query]) -> Vec<usize> {
    let totals = || queries.iter().map(|query| query.learned).filter(|total| *total > 0);
    let mut limits: Vec<usize> = totals().flat_map(|total| [total - 1, total, total + 1]).collect();
    limits.extend([0, rng.below(totals().max().unwrap_or(0) + 1)]);
    limits.sort_unstable();
    limits.dedup();
    limits.retain(|limit| *limit <= LEARNED_LIMIT);
    limits
}

/// The buffers that a check of the design to a depth needs.
pub fn enough(gold: &Design, depth: u64) -> Lent {
    Lent { trace: trace_need(gold, depth.min(64)), words: WORDS, scores: SCORES }
}

/// A check under a limit, with just enough memory.
fn line(gold: &Design, gate: &Design, depth: u64, limit: u64) -> String {
    limited_line(&encode(gold), &encode(gate), depth, limit, enough(gold, depth))
}

/// A toggle with reset 0.
pub fn toggle(name: &str) -> Design {
    shapes::toggle(name, sync(1, false))
}

/// One side of a pair whose registers h, which no output shows, store a product bit of stored operands and so are compared by query 2 from depth 2 on. y shows a
/// register that stays 0; from free states it is 1 on one side only, once m is 0, so that queries 3 and 4 are soon answered by yes.
pub fn stored_product(swapped: bool) -> Design {
    let (mut b, e) = shapes::clocked();
    let (lhs, rhs) = shapes::operands(&mut b, 3);
    let stored: Vec<u16> = lhs.iter().chain(&rhs).map(|_| b.state()).collect();
    let (k, m, h) = (b.state(), b.state(), b.state());
    let multiplier = Multiplier { width: 3, columns: 4, majority: false, swapped };
    let bit = multiplier.product(&mut b, &stored[..3], &stored[3..])[3].expect("a product bit");
    let kept = if swapped { b.and(k, m) } else { k };
    b.output("y", k);
    for (place, (input, state)) in lhs.iter().chain(&rhs).zip(&stored).enumerate() {
        b.reset0(&format!("r{place}"), *state, *input);
    }
    b.reset0("k", k, kept);
    b.reset0("m", m, e);
    b.reset0("h", h, bit);
    b.design
}

/// Pairs whose totals are known, each under a list of limits.
fn named() -> Vec<String> {
    let (xor, by_gates) = (shapes::exclusive_or(false), shapes::exclusive_or(true));
    let row = shapes::row(&["p", "q"]);
    let product = product_pair(4, 4, 8, true);
    let (_, report) = prove(&product.gold, &product.gate, 1, false, Wish::default());
    let most = report.queries.iter().map(|query| query.learned as u64).max().expect("a query");
    let (stored, swapped) = (stored_product(false), stored_product(true));
    let groups: [(&str, Design, Design, u64, &[u64]); 10] = [
        ("y = a against y = 0: nothing is learned", shapes::wire(), shapes::zero(), 1, &[LARGEST, 0]),
        ("wire against wire with a Not before y: nothing is learned", shapes::wire(), shapes::inverter(), 1, &[LARGEST, 5, 0]),
        ("toggle q against the same named p: one literal, in query 3", toggle("q"), toggle("p"), 1, &[LARGEST, LARGEST - 1, 2, 1, 0]),
        ("y = a Xor b against the same by Or, And and Not: 16 in query 1, after 4 and 11, and 5 in query 3", xor, by_gates, 1, &[LARGEST, 17, 16, 15, 12, 11, 10, 5, 4, 3, 1, 0]),
        ("two registers in a row against y = 0, D = 2: nothing is learned", row.clone(), shapes::holding(), 2, &[LARGEST, 1, 0]),
        ("the same, D = 1", row, shapes::holding(), 1, &[0]),
        ("a design against itself", toggle("q"), toggle("q"), 64, &[0]),
        ("a product bit of 4-bit operands: its largest total, one below it and one above it", product.gold, product.gate, 1, &[most - 1, most, most + 1]),
        ("a counter of 3 bits, y at 7, against y = 0: 1, 5, 9 and 12 in query 1 of depths 4 to 7", shapes::counter("p", 3, 7, false), shapes::holding(), 7, &[0, 1, 4, 5, 9, 11, 12, LARGEST]),
        ("a stored product bit: 5 in query 3 of depth 1; 168, 432 and 658 in query 2 of depths 2 to 4", stored, swapped, 4, &[4, 5, 167, 168, 431, 432, 657, 658]),
    ];
    let mut lines = Vec::new();
    for (what, gold, gate, depth, limits) in groups {
        lines.push(format!("# {what}"));
        lines.extend(limits.iter().map(|limit| line(&gold, &gate, depth, *limit)));
    }
    lines
}

/// Limits that are refused, alone and beside the refusals that stand before 36: 16, 17 and those of a record.
fn refused_before() -> Vec<String> {
    let (gold, gate) = (toggle("q"), toggle("p"));
    let mut lines = vec!["# 36: limits above the largest".into()];
    lines.extend(REFUSED.map(|limit| line(&gold, &gate, 1, limit)));
    lines.push("# 16 and 17 stand before it".into());
    for depth in [0, 64, 65, (1 << 32) + 1, u64::MAX] {
        lines.extend([LARGEST + 1, u64::MAX].map(|limit| line(&gold, &gate, depth, limit)));
    }
    lines.push("# 1 to 15 stand before it, on either side".into());
    let wire = encode(&shapes::wire());
    for number in 1..=15 {
        let faulty = record_with(number);
        let (gold, gate) = if number % 2 == 1 { (&faulty, &wire) } else { (&wire, &faulty) };
        lines.push(limited_line(gold, gate, u64::from(number) % 3, LARGEST + 1, enough(&shapes::wire(), 2)));
    }
    lines.extend([(&[][..], &wire[..]), (&wire, &[]), (&[], &[])].map(|(gold, gate)| limited_line(gold, gate, 65, u64::MAX, enough(&shapes::wire(), 2))));
    lines
}

/// A limit that is refused beside the refusals after it, and the same calls under the limit 0.
fn refused_after(clock: ClockRead) -> Vec<String> {
    let (clocks, resets, ports) = (clock_faults(clock), reset_faults(), port_faults());
    let one = |pair: &(Design, Design)| (pair.0.clone(), pair.1.clone(), 1);
    let mut pairs = vec![(toggle("q"), shapes::wire(), 1)];
    pairs.extend([&ports[0], &ports[3], &clocks[0], &clocks[1], &clocks[4], &resets[0], &resets[2]].map(one));
    pairs.push((wide(135, 8), wide(135, 8), 64));
    let mut lines = vec!["# 18 to 23 stand behind 36".into()];
    for (gold, gate, depth) in pairs {
        lines.extend([LARGEST + 1, 0].map(|limit| line(&gold, &gate, depth, limit)));
    }
    lines.push("# and so does 24".into());
    let (gold, gate) = (toggle("q"), toggle("p"));
    let least = enough(&gold, 1);
    let short = [
        Lent { trace: least.trace - 1, ..least },
        Lent { words: WORDS - 1, ..least },
        Lent { scores: SCORES - 1, ..least },
        Lent { trace: 0, words: 0, scores: 0 },
    ];
    for lent in short {
        lines.extend([LARGEST + 1, 0].map(|limit| limited_line(&encode(&gold), &encode(&gate), 1, limit, lent)));
    }
    lines
}

/// What a limited check shows: its status; where it gives up the query, the depth up to 3, and whether another query learned most.
fn class(answer: &CheckAnswer) -> (u8, usize, usize, bool) {
    if answer.status != GAVE_UP {
        return (answer.status, 0, 0, false);
    }
    let elsewhere = (answer.learned_depth, answer.learned_query) != (answer.depth, answer.query);
    (answer.status, answer.query, answer.depth.min(3), elsewhere)
}

/// A small pair whose queries may learn something.
pub fn learning_pair(rng: &mut Rng, clock: ClockRead) -> Pair {
    let length = rng.range(2, 8);
    match rng.below(12) {
        0 => late_proof(rng, length, clock),
        1 => deep_pair(rng, length),
        _ => random_pair(rng, Size { inputs: 4, outputs: 3, registers: 4, gates: 14 }, 4, clock),
    }
}

/// Random pairs under limits about their totals: of each class so many, of each pair at most two. A check that does not give up has exactly its largest total as limit.
fn by_class(rng: &mut Rng, quota: usize, clock: ClockRead) -> Vec<String> {
    let mut met: BTreeMap<(u8, usize, usize, bool), usize> = BTreeMap::new();
    let mut lines = vec!["# give-ups in each query, at depth 1, 2 and deeper, the most learned there or elsewhere; and limits that are just enough".into()];
    for _ in 0..2_000 {
        let pair = learning_pair(rng, clock);
        let under = |limit: usize| prove(&pair.gold, &pair.gate, pair.depth, false, Wish { limit, ..Wish::default() });
        let (_, report) = under(LEARNED_LIMIT);
        let mut limits = limits_about(rng, &report.queries);
        rng.shuffle(&mut limits);
        let mut left = 2;
        for limit in limits {
            let (answer, _) = under(limit);
            let count = met.entry(class(&answer)).or_default();
            let wanted = answer.learned > 0 && (answer.status == GAVE_UP || limit == answer.learned) || limit == 0 && answer.status == GAVE_UP;
            if wanted && *count < quota && left > 0 {
                *count += 1;
                left -= 1;
                lines.push(line(&pair.gold, &pair.gate, pair.depth as u64, limit as u64));
            }
        }
    }
    lines
}

/// At most so many lines of the family; the random pairs come last.
pub fn limited(rng: &mut Rng, count: usize, clock: ClockRead) -> Vec<String> {
    let mut lines = [named(), refused_before(), refused_after(clock)].concat();
    if lines.len() < count {
        lines.extend(by_class(rng, 2, clock.chosen()));
    }
    lines.truncate(count);
    lines
}
