//! Checks in the mode of the earliest cycle: the closed numbers, the trace of query 0, what the mode keeps, the least cycle by exhaustive search, and laws that can fail.
use std::sync::OnceLock;

use oracle::asserts::{goes_on, mode_keeps, tells_least, told_by_rule};
use oracle::check::{check, check_reporting, prove, CheckAnswer, EQUIVALENT, GAVE_UP, INCONCLUSIVE, NOT_EQUIVALENT};
use oracle::earliest::beside_product;
use oracle::exhaustive::{first_difference, least_over_sequences};
use oracle::families::{generate, product_pair};
use oracle::meter::{Ending, Query, Wish, LEARNED_LIMIT};
use oracle::pair::{Lent, SCORES, WORDS};
use oracle::record::{encode, read, Design};
use oracle::run::replay;
use oracle::shapes;
use oracle::vectors::{answer, check_call, hex, split, CheckCall};

const LENT: Lent = Lent { trace: 8_192, words: WORDS, scores: SCORES };

/// A check of two designs in the mode under a limit, with the queries asked.
fn within(limit: usize, gold: &Design, gate: &Design, depth: usize) -> String {
    answer(&format!("under {limit} 1 {} {} {depth}", hex(&encode(gold)), hex(&encode(gate))))
}

/// The toggle with its register named so.
fn toggle(name: &str) -> Design {
    shapes::toggle(name, shapes::sync(1, false))
}

/// Nothing learned: 0, of query 0 of depth 1, at whichever depth the check ends.
#[test]
fn nothing() {
    for limit in [262_144, 12, 5, 3, 0] {
        assert_eq!(within(limit, &shapes::wire(), &shapes::zero(), 1), "0 0 0 1 1 0 0 0 1 0 0 0 0101 1.0.0");
        assert_eq!(within(limit, &shapes::wire(), &shapes::zero(), 64), "0 0 0 1 1 0 0 0 1 0 0 0 0101 1.0.0");
        assert_eq!(within(limit, &shapes::wire(), &shapes::inverter(), 1), "0 0 0 1 1 0 0 0 1 0 0 0 0001 1.0.0");
        let row = within(limit, &shapes::row(&["p", "q"]), &shapes::holding(), 2);
        assert_eq!(row, "0 0 0 1 2 2 0 0 1 0 0 0 00010000000000000001 1.0.0,1.1.0,1.2.0,1.3.0,1.4.0,2.1.0");
    }
}

/// The toggles: query 0 says no with nothing learned, and all else is as without the mode.
#[test]
fn toggles() {
    for limit in [262_144, 12, 1] {
        assert_eq!(within(limit, &toggle("q"), &toggle("p"), 1), "0 0 0 0 1 0 0 1 1 3 0 0 - 1.0.0,1.1.0,1.2.0,1.3.1");
    }
    assert_eq!(within(0, &toggle("q"), &toggle("p"), 1), "0 0 0 3 1 0 3 0 1 0 1 1 - 1.0.0,1.1.0,1.2.0,1.3.0");
}

/// Query 0 has the limit to itself; a give-up in it proves no cycle, one in query 1 after it cycle 0.
#[test]
fn exclusive_ors() {
    let (gold, gate) = (shapes::exclusive_or(false), shapes::exclusive_or(true));
    let expected = [
        (262_144, "0 0 0 0 1 0 0 16 1 1 0 0 - 1.0.5,1.1.16,1.2.0,1.3.5"),
        (16, "0 0 0 0 1 0 0 16 1 1 0 0 - 1.0.5,1.1.16,1.2.0,1.3.5"),
        (12, "0 0 0 3 1 0 1 11 1 1 1 0 - 1.0.5,1.1.11"),
        (5, "0 0 0 3 1 0 1 5 1 0 1 0 - 1.0.5,1.1.4"),
        (3, "0 0 0 3 1 0 0 3 1 0 0 0 - 1.0.3"),
        (0, "0 0 0 3 1 0 0 0 1 0 0 0 - 1.0.0"),
    ];
    for (limit, told) in expected {
        assert_eq!(within(limit, &gold, &gate, 1), told, "limit {limit}");
    }
}

/// Under the largest limit one product gives up in query 1, through cycle 0, and one in query 0; beside an easy difference query 0 learns more than query 1.
#[test]
fn hard_pairs() {
    let bit = |bit: usize| product_pair(7, bit, bit + 1, false);
    assert!(within(LEARNED_LIMIT, &bit(6).gold, &bit(6).gate, 1).starts_with("0 0 0 3 1 0 1 262134 1 1 1 0 - 1.0.235693,1.1.262134"));
    assert!(within(LEARNED_LIMIT, &bit(7).gold, &bit(7).gate, 1).starts_with("0 0 0 3 1 0 0 262121 1 0 0 0 - 1.0.262121"));
    let (gold, gate) = (beside_product(false), beside_product(true));
    let (answer, report) = prove(&gold, &gate, 1, true, Wish::default());
    assert_eq!((answer.status, answer.mismatch, answer.learned_query), (NOT_EQUIVALENT, 1, 0));
    assert!(report.queries[0].learned > report.queries[1].learned);
    let less = Wish { limit: report.queries[0].learned - 1, ..Wish::default() };
    assert_eq!(prove(&gold, &gate, 1, true, less).0.query, 0);
    assert_eq!((prove(&gold, &gate, 1, true, less).0.status, prove(&gold, &gate, 1, false, less).0.status), (GAVE_UP, NOT_EQUIVALENT));
}

/// A call with its answer and its queries.
type Answered = (CheckCall, CheckAnswer, Vec<Query>);

/// The calls of the family, made once.
fn family() -> &'static [Answered] {
    static FAMILY: OnceLock<Vec<Answered>> = OnceLock::new();
    FAMILY.get_or_init(answered)
}

/// The calls of the family, each with its answer and its queries.
fn answered() -> Vec<Answered> {
    let lines = generate("earliest", 300, 18);
    let calls = lines.iter().filter_map(|line| check_call(split(line)?.0));
    calls
        .map(|call| {
            let (answer, report) = check_reporting(&call.gold, &call.gate, call.depth, call.limit, call.earliest, call.lent, Wish::default());
            (call, answer, report.queries)
        })
        .collect()
}

/// Every call of the family is in the mode; its refusals are those without it; its traces replay; and it keeps what the mode keeps.
#[test]
fn the_family_by_the_laws() {
    let (mut earlier, mut refused, mut statuses) = (0, 0, [0; 4]);
    for (call, answer, queries) in family() {
        let CheckCall { gold, gate, depth, limit, earliest, lent } = call;
        assert!(*earliest);
        let (plain, report) = check_reporting(gold, gate, *depth, *limit, false, *lent, Wish::default());
        if answer.refusal.is_some() || plain.refusal.is_some() {
            assert_eq!(*answer, plain);
            refused += 1;
            continue;
        }
        assert!(mode_keeps((&plain, &report.queries), (answer, queries)));
        assert!(told_by_rule(answer, queries, *limit as usize, true));
        statuses[usize::from(answer.status)] += 1;
        if answer.status == NOT_EQUIVALENT {
            assert!(replay(gold, gate, answer.mismatch as u64, &answer.trace).yes);
            earlier += usize::from(plain.mismatch > answer.mismatch);
        }
    }
    assert!(earlier >= 10 && refused > 20 && statuses.iter().all(|times| *times > 0), "{earlier} {refused} {statuses:?}");
}

/// On tiny designs of the family the mismatch is the least cycle over all input sequences.
#[test]
fn the_least_cycle() {
    let (mut searched, mut cycles) = (0, [0; 3]);
    for (call, answer, _) in family().iter().filter(|(_, answer, _)| answer.refusal.is_none()) {
        let design = |bytes: &[u8]| read(bytes).expect("accepted");
        let (gold, gate, depth) = (design(&call.gold), design(&call.gate), call.depth as usize);
        if gold.registers.len() + gate.registers.len() + gold.input_names().len() > 9 || depth > 4 {
            continue;
        }
        let least = first_difference(&gold, &gate, depth);
        assert!(tells_least(answer, true, least));
        if gold.input_names().len() * (depth + 1) <= 15 {
            assert_eq!(least, least_over_sequences(&gold, &gate, depth));
            searched += 1;
        }
        if answer.status == NOT_EQUIVALENT {
            cycles[answer.mismatch.min(2)] += 1;
        }
    }
    assert!(searched > 50 && cycles.iter().all(|times| *times > 0), "{searched} {cycles:?}");
}

/// From limit to limit, each check of the family in the mode keeps its answer or goes on.
#[test]
fn a_larger_limit_goes_on() {
    for (call, answer, _) in family().iter().filter(|(call, answer, _)| answer.refusal.is_none() && call.limit < 4_096) {
        let mut less = answer.clone();
        for limit in [call.limit + 1, 2 * call.limit + 5, LEARNED_LIMIT as u64] {
            let more = check(&call.gold, &call.gate, call.depth, limit, true, call.lent);
            assert!(goes_on(&less, &more), "{less:?} {more:?}");
            less = more;
        }
    }
}

/// Asked without the mode, a check is what it was: no query 0.
#[test]
fn without_the_mode() {
    for (call, _, _) in family() {
        let (answer, report) = check_reporting(&call.gold, &call.gate, call.depth, call.limit, false, call.lent, Wish::default());
        assert!(report.queries.iter().all(|query| query.number > 0) && (answer.refusal.is_some() || !report.queries.is_empty()));
    }
    let wire = encode(&shapes::wire());
    assert_eq!(check(&wire, &encode(&shapes::zero()), 1, 0, false, LENT).mismatch, 1);
}

/// A query that was asked.
fn asked(depth: usize, number: usize, learned: usize, next: usize, ending: Ending) -> Query {
    Query { depth, number, learned, conflicts: 0, propagations: 0, rescales: 0, next, ending, nodes: 0, unwatched: 0, repeated: 0 }
}

/// The rule of give-ups says no to what breaks it in the mode.
#[test]
fn the_rule_can_fail() {
    let first = [asked(1, 0, 4, 2, Ending::GaveUp)];
    let none = CheckAnswer { status: GAVE_UP, depth: 1, learned: 4, learned_depth: 1, ..CheckAnswer::default() };
    assert!(told_by_rule(&none, &first, 5, true) && !told_by_rule(&none, &first, 5, false));
    assert!(!told_by_rule(&CheckAnswer { query: 1, ..none.clone() }, &first, 5, true));
    assert!(!told_by_rule(&CheckAnswer { equal: true, ..none.clone() }, &first, 5, true));
    let second = [asked(1, 0, 3, 0, Ending::NoModel), asked(1, 1, 4, 2, Ending::GaveUp)];
    let zero = CheckAnswer { query: 1, equal: true, learned_query: 1, ..none.clone() };
    assert!(told_by_rule(&zero, &second, 5, true) && !told_by_rule(&zero, &second[1..], 5, true));
    assert!(!told_by_rule(&CheckAnswer { equal: false, ..zero.clone() }, &second, 5, true));
    assert!(!told_by_rule(&CheckAnswer { through: 1, ..zero.clone() }, &second, 5, true));
    assert!(goes_on(&none, &zero) && !goes_on(&zero, &none));
}

/// The law of the mode and the least cycle say no to what breaks them.
#[test]
fn the_laws_can_fail() {
    let found = |mismatch, learned, learned_query| CheckAnswer { status: NOT_EQUIVALENT, depth: 1, mismatch, learned, learned_depth: 1, learned_query, ..CheckAnswer::default() };
    let (plain, others) = (found(1, 2, 1), [asked(1, 1, 2, 0, Ending::Model)]);
    let holds = |answer: &CheckAnswer, queries: &[Query]| mode_keeps((&plain, &others), (answer, queries));
    let yes = [asked(1, 0, 1, 0, Ending::Model)];
    assert!(holds(&found(0, 1, 0), &yes) && !holds(&found(1, 1, 0), &yes) && !holds(&found(0, 2, 1), &yes) && !holds(&plain, &others));
    let no = [asked(1, 0, 1, 0, Ending::NoModel), others[0].clone()];
    assert!(holds(&found(1, 2, 1), &no) && !holds(&found(0, 2, 1), &no) && !holds(&found(1, 1, 0), &no) && !holds(&found(1, 2, 1), &no[..1]));
    let equal = [asked(1, 0, 2, 0, Ending::NoModel), others[0].clone()];
    assert!(holds(&found(1, 2, 0), &equal) && !holds(&found(1, 2, 1), &equal));
    assert!(tells_least(&found(0, 0, 0), true, Some(0)) && !tells_least(&found(1, 0, 0), true, Some(0)) && tells_least(&found(1, 0, 0), false, Some(0)));
    let deeper = CheckAnswer { depth: 2, mismatch: 2, ..plain.clone() };
    assert!(tells_least(&deeper, false, Some(2)) && !tells_least(&deeper, false, Some(1)) && !tells_least(&deeper, true, Some(1)));
    for status in [EQUIVALENT, INCONCLUSIVE] {
        let settled = CheckAnswer { status, depth: 1, ..CheckAnswer::default() };
        assert!(tells_least(&settled, true, None) && !tells_least(&settled, true, Some(1)));
    }
}
