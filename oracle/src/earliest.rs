//! Checks in the mode of the earliest cycle: named pairs, refusals, buffers, and random pairs by what the mode shows of them.
use std::collections::BTreeMap;

use crate::check::{prove, CheckAnswer, GAVE_UP, NOT_EQUIVALENT};
use crate::families::{product_pair, random_pair, Pair};
use crate::limited::{enough, learning_pair, limits_about, stored_product, toggle};
use crate::meter::{Query, Wish, LEARNED_LIMIT};
use crate::pair::{trace_need, Lent, SCORES, WORDS};
use crate::random::{ClockRead, Size};
use crate::record::{encode, Design, Reset};
use crate::refusals::{clock_faults, port_faults, record_with, reset_faults, wide};
use crate::rng::Rng;
use crate::shapes::{self, sync, Multiplier};
use crate::vectors::mode_line;

/// The largest limit, as a call takes it.
const LARGEST: u64 = LEARNED_LIMIT as u64;

/// A check in the mode, with these buffers.
fn line_with(gold: &Design, gate: &Design, depth: u64, limit: u64, lent: Lent) -> String {
    mode_line(&encode(gold), &encode(gate), depth, limit, true, lent)
}

/// A check in the mode, with just enough memory.
fn line(gold: &Design, gate: &Design, depth: u64, limit: u64) -> String {
    line_with(gold, gate, depth, limit, enough(gold, depth))
}

/// What each query of a pair's check in the mode learned under the largest limit, query 0 first.
fn totals(pair: &Pair) -> Vec<u64> {
    let (_, report) = prove(&pair.gold, &pair.gate, pair.depth, true, Wish::default());
    report.queries.iter().map(|query| query.learned as u64).collect()
}

/// One side of a pair whose y is a product bit, alike on both sides and hard to prove, and whose z shows e one cycle later on one side and is 0 on the other: query 0
/// learns much, and query 1 finds cycle 1 with little.
pub fn beside_product(swapped: bool) -> Design {
    let (mut b, e) = shapes::clocked();
    let (lhs, rhs) = shapes::operands(&mut b, 4);
    let state = b.state();
    let multiplier = Multiplier { width: 4, columns: 5, majority: false, swapped };
    let bit = multiplier.product(&mut b, &lhs, &rhs)[4].expect("a product bit");
    let z = if swapped { b.constant(false) } else { state };
    b.output("y", bit);
    b.output("z", z);
    b.reset0("h", state, e);
    b.design
}

/// Pairs whose totals are known, each under a list of limits.
fn named() -> Vec<String> {
    let (xor, by_gates) = (shapes::exclusive_or(false), shapes::exclusive_or(true));
    let row = |names: &[&str]| shapes::row(names);
    let product = product_pair(4, 4, 8, true);
    let learned = totals(&product);
    let about = [learned[0] - 1, learned[0], learned[1] - 1, learned[1]];
    let beside = Pair { gold: beside_product(false), gate: beside_product(true), depth: 1 };
    let query_0 = totals(&beside)[0];
    let about_0 = [LARGEST, query_0, query_0 - 1];
    let counter = shapes::counter("p", 3, 7, false);
    let (stored, swapped) = (stored_product(false), stored_product(true));
    let (bit_6, bit_7) = (product_pair(7, 6, 7, false), product_pair(7, 7, 8, false));
    let groups: Vec<(&str, Design, Design, u64, &[u64])> = vec![
        ("y = a against y = 0: cycle 0, where query 1 finds cycle 1", shapes::wire(), shapes::zero(), 1, &[LARGEST, 0]),
        ("the same to 64", shapes::wire(), shapes::zero(), 64, &[LARGEST]),
        ("wire against wire with a Not before y", shapes::wire(), shapes::inverter(), 1, &[LARGEST, 5, 0]),
        ("toggle q against the same named p: one literal, in query 3", toggle("q"), toggle("p"), 1, &[LARGEST, 1, 0]),
        ("y = a Xor b against the same by Or, And and Not: 5 in query 0, after 3, and 16 in query 1, after 4 and 11", xor, by_gates, 1, &[LARGEST, 16, 15, 12, 11, 5, 4, 3, 2, 0]),
        ("two registers in a row against y = 0, D = 2", row(&["p", "q"]), shapes::holding(), 2, &[LARGEST, 0]),
        ("the same, D = 1", row(&["p", "q"]), shapes::holding(), 1, &[LARGEST, 0]),
        ("one register and three in a row, D = 3", row(&["p"]), shapes::holding(), 3, &[LARGEST]),
        ("three", row(&["p", "q", "r"]), shapes::holding(), 3, &[LARGEST]),
        ("y = a And b, a holds, b takes e, against y = 0: Inconclusive", shapes::conjunction(), shapes::holding(), 8, &[LARGEST]),
        ("a design against itself", toggle("q"), toggle("q"), 64, &[0]),
        ("no outputs, no registers", shapes::lone(), shapes::lone(), 1, &[LARGEST]),
        ("a product bit of 4-bit operands: the totals of queries 0 and 1, and one below each", product.gold, product.gate, 1, &about),
        ("a product bit beside a difference in cycle 1: query 0 learned most, and one below that it gives up", beside.gold, beside.gate, 1, &about_0),
        ("a counter of 3 bits, y at 7, against y = 0: 1, 5, 9 and 12 in query 1 of depths 4 to 7", counter, shapes::holding(), 7, &[0, 4, 11, 12]),
        ("a stored product bit: 5 in query 3 of depth 1; 168, 432 and 658 in query 2 of depths 2 to 4", stored, swapped, 4, &[4, 5, 168]),
        ("a product bit of 7-bit operands under the largest limit: a give-up in query 1, through cycle 0", bit_6.gold, bit_6.gate, 1, &[LARGEST]),
        ("the next bit: a give-up in query 0", bit_7.gold, bit_7.gate, 1, &[LARGEST]),
    ];
    let mut lines = Vec::new();
    for (what, gold, gate, depth, limits) in groups {
        lines.push(format!("# {what}"));
        lines.extend(limits.iter().map(|limit| line(&gold, &gate, depth, *limit)));
    }
    lines
}

/// A register that takes e, with this reset; y shows it, z its Not beside rst.
fn taking(reset: Reset) -> Design {
    let (mut b, e) = shapes::clocked();
    let q = b.state();
    let n = b.not(q);
    let z = b.or(n, 1);
    b.output("y", q);
    b.output("z", z);
    b.register("q", q, e, Some(reset));
    b.design
}

/// Asynchronous resets against others: another value shows in cycle 0, the same value first in cycle 1, by an input held there.
fn resets() -> Vec<String> {
    let reset = |asynchronous: bool, low: bool, value: bool| taking(Reset { signal: 1, low, asynchronous, value });
    let pairs = [
        (reset(true, false, true), reset(true, false, false)),
        (reset(true, true, true), reset(false, false, false)),
        (reset(false, false, false), reset(true, false, true)),
        (reset(true, false, false), reset(false, false, false)),
        (reset(true, true, true), reset(true, false, true)),
        (reset(true, true, true), reset(true, true, true)),
    ];
    let mut lines = vec!["# asynchronous resets: a difference in cycle 0, in cycle 1, none".into()];
    lines.extend(pairs.iter().map(|(gold, gate)| line(gold, gate, 2, LARGEST)));
    lines
}

/// Refusals in the mode, each at the place that it has without it: refusal 24 asks for the trace of D + 1 cycles though cycle 0 is told.
fn refused(clock: ClockRead) -> Vec<String> {
    let (clocks, without, ports) = (clock_faults(clock), reset_faults(), port_faults());
    let (gold, gate) = (toggle("q"), toggle("p"));
    let mut lines = vec!["# 16, 17 and 36".into()];
    lines.extend([(0, LARGEST), (0, LARGEST + 1), (65, 0), (65, LARGEST + 1), (u64::MAX, 0)].map(|(depth, limit)| line(&gold, &gate, depth, limit)));
    lines.extend([LARGEST + 1, (1 << 32) + 5, u64::MAX].map(|limit| line(&gold, &gate, 1, limit)));
    lines.push("# 18 to 22, and 36 before 18".into());
    lines.extend([0, LARGEST, LARGEST + 1].map(|limit| line(&gold, &shapes::wire(), 1, limit)));
    let others = [&ports[3], &clocks[0], &clocks[1], &clocks[4], &without[0], &without[2]];
    lines.extend(others.map(|(gold, gate)| line(gold, gate, 1, LARGEST)));
    lines.push("# 23 by the sum of all cycles".into());
    lines.push(line(&wide(135, 8), &wide(135, 8), 64, LARGEST));
    lines.push("# 24: y = a against y = 0 with the two bytes that cycle 0 takes, and with one more; words and scores one short".into());
    let (gold, gate) = (shapes::wire(), shapes::zero());
    let least = enough(&gold, 1);
    let lengths = [Lent { trace: 2, ..least }, least, Lent { words: WORDS - 1, ..least }, Lent { scores: SCORES - 1, ..least }, Lent { trace: 0, words: 0, scores: 0 }];
    lines.extend(lengths.map(|lent| line_with(&gold, &gate, 1, LARGEST, lent)));
    lines.push("# 1 to 15 on either side".into());
    let wire = encode(&shapes::wire());
    for number in [1, 4, 7, 9, 12, 15] {
        let faulty = record_with(number);
        let (gold, gate) = if number % 2 == 1 { (&faulty, &wire) } else { (&wire, &faulty) };
        lines.push(mode_line(gold, gate, u64::from(number) % 3, LARGEST, true, enough(&shapes::wire(), 2)));
    }
    lines
}

/// Traces of cycle 0 in buffers of the least length for D + 1 cycles, and longer.
fn buffers() -> Vec<String> {
    let mut lines = vec!["# two outputs differ in cycle 0: buffers of the least length, one more, and many more".into()];
    let (gold, gate) = (taking(sync(1, true).expect("a reset")), taking(sync(1, false).expect("a reset")));
    for depth in [1, 5] {
        let need = trace_need(&gold, depth);
        let lengths = [(need, WORDS, SCORES), (need + 1, WORDS + 1, SCORES + 1), (need + 1_000, WORDS + 4_096, SCORES + 17)];
        lines.extend(lengths.map(|(trace, words, scores)| line_with(&gold, &gate, depth, LARGEST, Lent { trace, words, scores })));
    }
    lines
}

/// What a check in the mode shows beside the one without it under the same limit: its status; where it gives up the query and the depth up to 3; where it differs the
/// cycle up to 3, whether that is another than without the mode, whether several outputs are marked, and whether something was learned in cycle 0; whether query 0 learned
/// most of several, or another query than the one that gave up; whether one of the two alone gives up.
type Class = (u8, usize, usize, usize, [bool; 6]);

/// The class of a check.
fn class(plain: &CheckAnswer, answer: &CheckAnswer, queries: &[Query], outputs: usize) -> Class {
    let different = answer.status == NOT_EQUIVALENT;
    let marks = answer.trace.iter().rev().take(outputs).filter(|mark| **mark == 1).count();
    let (first, later) = queries.split_first().expect("query 0 is asked");
    let query_0_most = first.learned > 0 && !later.is_empty() && later.iter().all(|query| query.learned < first.learned);
    let elsewhere = answer.status == GAVE_UP && (answer.learned_depth, answer.learned_query) != (answer.depth, answer.query);
    let depth = if answer.status == GAVE_UP { answer.depth.min(3) } else { 0 };
    let another = different && plain.status == NOT_EQUIVALENT && plain.mismatch != answer.mismatch;
    let at_once = different && later.is_empty() && first.learned > 0;
    let one_alone = (plain.status == GAVE_UP) != (answer.status == GAVE_UP);
    (answer.status, answer.query, depth, answer.mismatch.min(3), [another, marks > 1, at_once, query_0_most, elsewhere, one_alone])
}

/// A small pair without registers whose queries may learn much.
fn gates_alone(rng: &mut Rng) -> Pair {
    random_pair(rng, Size { inputs: 5, outputs: 3, registers: 0, gates: 24 }, 2, ClockRead::Freely)
}

/// Random pairs in the mode, under the largest limit and under limits about their totals: of each class so many, of each pair at most two and of two classes.
fn by_class(rng: &mut Rng, quota: usize, clock: ClockRead) -> Vec<String> {
    let mut met: BTreeMap<Class, usize> = BTreeMap::new();
    let mut lines = vec!["# by status, query, depth and cycle: the cycle another than without the mode, several outputs marked, something learned in cycle 0, query 0 learned most, the most learned elsewhere, one mode alone gives up".into()];
    for place in 0..2_000 {
        let pair = if place % 2 == 0 { learning_pair(rng, clock) } else { gates_alone(rng) };
        let under = |limit: usize, earliest: bool| prove(&pair.gold, &pair.gate, pair.depth, earliest, Wish { limit, ..Wish::default() });
        let (_, report) = under(LEARNED_LIMIT, true);
        let mut limits = limits_about(rng, &report.queries);
        limits.push(LEARNED_LIMIT);
        rng.shuffle(&mut limits);
        let mut shown: Vec<Class> = Vec::new();
        for limit in limits {
            let ((plain, _), (answer, report)) = (under(limit, false), under(limit, true));
            let class = class(&plain, &answer, &report.queries, pair.gold.output_names().len());
            let count = met.entry(class).or_default();
            let wanted = answer.status == GAVE_UP || limit == answer.learned || limit == LEARNED_LIMIT;
            if wanted && *count < quota && shown.len() < 2 && !shown.contains(&class) {
                *count += 1;
                shown.push(class);
                lines.push(line(&pair.gold, &pair.gate, pair.depth as u64, limit as u64));
            }
        }
    }
    lines
}

/// At most so many lines of the family; the random pairs come last.
pub fn earliest(rng: &mut Rng, count: usize, clock: ClockRead) -> Vec<String> {
    let mut lines = [named(), resets(), refused(clock), buffers()].concat();
    if lines.len() < count {
        lines.extend(by_class(rng, 2, clock.chosen()));
    }
    lines.truncate(count);
    lines
}
