//! Checks under limits of learned literals: where they give up, through which cycle they say that outputs are equal, what a larger limit does, and refusal 36.
use oracle::asserts::{goes_on, told_by_rule};
use oracle::check::{check, check_reporting, prove, CheckAnswer, EQUIVALENT, GAVE_UP, NOT_EQUIVALENT};
use oracle::exhaustive::first_difference;
use oracle::families::{generate, give_up_pair, product_pair};
use oracle::limited::REFUSED;
use oracle::meter::{Ending, Query, Report, Wish, LEARNED_LIMIT};
use oracle::pair::{Lent, SCORES, WORDS};
use oracle::record::{encode, read, Design};
use oracle::shapes;
use oracle::vectors::{check_call, split};

const LENT: Lent = Lent { trace: 8_192, words: WORDS, scores: SCORES };

/// A check of two designs under a limit, with memory enough.
fn under(limit: u64, gold: &Design, gate: &Design, depth: u64) -> CheckAnswer {
    check(&encode(gold), &encode(gate), depth, limit, false, LENT)
}

/// The toggle with its register named so.
fn toggle(name: &str) -> Design {
    shapes::toggle(name, shapes::sync(1, false))
}

/// The refusal's number of an answer, 0 for none; a refused check tells nothing else.
fn number(answer: &CheckAnswer) -> u8 {
    let Some(refusal) = answer.refusal else { return 0 };
    assert_eq!(*answer, CheckAnswer { refusal: Some(refusal), ..CheckAnswer::default() });
    refusal.number
}

/// The accepted checks of the limited family, with what their queries did.
fn limited() -> Vec<(Design, Design, usize, usize, CheckAnswer, Report)> {
    let lines = generate("limited", 300, 17);
    let calls = lines.iter().filter_map(|line| check_call(split(line)?.0));
    let answered = calls.map(|call| {
        let (answer, report) = check_reporting(&call.gold, &call.gate, call.depth, call.limit, call.earliest, call.lent, Wish::default());
        (call, answer, report)
    });
    let accepted = answered.filter(|(_, answer, _)| answer.refusal.is_none());
    accepted
        .map(|(call, answer, report)| {
            let design = |bytes: &[u8]| read(bytes).expect("accepted");
            (design(&call.gold), design(&call.gate), call.depth as usize, call.limit as usize, answer, report)
        })
        .collect()
}

/// The cycle by depth and query of the give-up: each row of the table is met and holds.
#[test]
fn the_cycle_by_the_place() {
    let mut met = [[0; 3]; 4];
    for (_, _, _, _, answer, _) in limited() {
        if answer.status != GAVE_UP {
            assert_eq!((answer.equal, answer.through), (false, 0));
            continue;
        }
        met[answer.query - 1][answer.depth.min(3) - 1] += 1;
        let told = (answer.equal, answer.through);
        match (answer.query, answer.depth) {
            (1, 1) => assert_eq!(told, (false, 0)),
            (1, depth) => assert_eq!(told, (true, depth - 1)),
            (_, depth) => assert_eq!(told, (true, depth)),
        }
    }
    assert!(met.iter().all(|depths| depths[0] > 0 && depths[1] + depths[2] > 0), "{met:?}");
    assert!(met[0][2] > 0 && met[3][2] > 0, "{met:?}");
}

/// Give-ups under the largest limit, in each query of depth 1: no cycle for query 1, cycle 1 for the others.
#[test]
fn the_largest_limit() {
    for query in 1..=4 {
        let pair = give_up_pair(query);
        let answer = under(LEARNED_LIMIT as u64, &pair.gold, &pair.gate, 1);
        assert_eq!((answer.status, answer.query), (GAVE_UP, query));
        assert_eq!((answer.equal, answer.through), if query == 1 { (false, 0) } else { (true, 1) });
    }
}

/// Each query has the whole limit: the largest total is enough, though all totals together are more; one less is not.
#[test]
fn each_query_has_the_whole_limit() {
    let (gold, gate) = (shapes::exclusive_or(false), shapes::exclusive_or(true));
    assert_eq!(under(16, &gold, &gate, 1).status, EQUIVALENT);
    assert_eq!(under(15, &gold, &gate, 1).status, GAVE_UP);
    let pair = product_pair(4, 4, 8, true);
    let (_, report) = prove(&pair.gold, &pair.gate, 1, false, Wish::default());
    let totals: Vec<usize> = report.queries.iter().map(|query| query.learned).collect();
    let most = *totals.iter().max().expect("a query");
    assert!(totals.iter().sum::<usize>() > most);
    assert_eq!(under(most as u64, &pair.gold, &pair.gate, 1).status, EQUIVALENT);
}

/// Refusal 36 is for every limit above the largest, as a number of 64 bits, and stands between 17 and 18.
#[test]
fn refused() {
    let (gold, gate) = (toggle("q"), toggle("p"));
    for limit in [0, 1, 262_143, 262_144] {
        assert_eq!(number(&under(limit, &gold, &gate, 1)), 0);
        assert_eq!(number(&under(limit, &gold, &shapes::wire(), 1)), 18);
    }
    for limit in REFUSED {
        assert_eq!(under(limit, &gold, &gate, 1).refusal.map(|refusal| (refusal.number, refusal.side, refusal.place)), Some((36, 0, 0)));
        assert_eq!(number(&under(limit, &gold, &gate, 0)), 16);
        assert_eq!(number(&under(limit, &gold, &gate, 64)), 36);
        assert_eq!(number(&under(limit, &gold, &gate, 65)), 17);
        assert_eq!(number(&under(limit, &gold, &shapes::wire(), 1)), 36);
        assert_eq!(number(&under(limit, &shapes::toggle("q", None), &gate, 1)), 36);
        let short = Lent { trace: 0, words: 0, scores: 0 };
        assert_eq!(number(&check(&encode(&gold), &encode(&gate), 1, limit, false, short)), 36);
        assert_eq!(number(&check(&[], &encode(&gate), 65, limit, false, short)), 1);
        let gate_cut = check(&encode(&gold), &[], 0, limit, false, short);
        assert_eq!(gate_cut.refusal.map(|refusal| (refusal.number, refusal.side)), Some((1, 1)));
    }
}

/// The limited checks by the rule, and no run of both designs differs through the cycle told.
#[test]
fn no_run_differs_through_the_cycle() {
    let mut searched = 0;
    for (gold, gate, depth, limit, answer, report) in limited() {
        assert!(told_by_rule(&answer, &report.queries, limit, false));
        if answer.equal && gold.registers.len() + gate.registers.len() + gold.input_names().len() <= 11 {
            assert!(first_difference(&gold, &gate, depth).is_none_or(|cycle| cycle > answer.through));
            searched += 1;
        }
    }
    assert!(searched > 20, "{searched}");
}

/// From limit to limit, each check of the family keeps its answer or goes on, up to the largest limit.
#[test]
fn a_larger_limit_goes_on() {
    let mut statuses = [0; 4];
    for (gold, gate, depth, limit, answer, _) in limited() {
        let mut less = answer;
        for limit in [limit + 1, limit + 2, 2 * limit + 5, LEARNED_LIMIT - 1, LEARNED_LIMIT].into_iter().filter(|more| *more <= LEARNED_LIMIT) {
            let (more, _) = prove(&gold, &gate, depth, false, Wish { limit, ..Wish::default() });
            assert!(goes_on(&less, &more), "{less:?} {more:?}");
            statuses[usize::from(more.status)] += usize::from(less.status == GAVE_UP);
            less = more;
        }
    }
    assert!(statuses.iter().all(|times| *times > 0), "{statuses:?}");
}

/// A query that gave up, and one that was answered.
fn asked(depth: usize, number: usize, learned: usize, next: usize, ending: Ending) -> Query {
    Query { depth, number, learned, conflicts: 0, propagations: 0, rescales: 0, next, ending, nodes: 0, unwatched: 0, repeated: 0 }
}

/// The laws say no to what breaks them.
#[test]
fn the_laws_can_fail() {
    let queries = [asked(1, 1, 3, 0, Ending::NoModel), asked(1, 2, 4, 2, Ending::GaveUp)];
    let right = CheckAnswer { status: GAVE_UP, depth: 1, query: 2, learned: 4, learned_depth: 1, learned_query: 2, equal: true, through: 1, ..CheckAnswer::default() };
    assert!(told_by_rule(&right, &queries, 5, false) && !told_by_rule(&right, &queries, 6, false) && !told_by_rule(&right, &queries, 3, false));
    assert!(!told_by_rule(&CheckAnswer { through: 0, ..right.clone() }, &queries, 5, false));
    assert!(!told_by_rule(&CheckAnswer { equal: false, through: 0, ..right.clone() }, &queries, 5, false));
    assert!(!told_by_rule(&CheckAnswer { equal: false, ..right.clone() }, &queries, 5, false));
    assert!(goes_on(&right, &right));
    assert!(!goes_on(&right, &CheckAnswer { query: 1, equal: false, through: 0, ..right.clone() }));
    assert!(!goes_on(&right, &CheckAnswer { learned: 3, ..right.clone() }));
    let found = CheckAnswer { status: NOT_EQUIVALENT, depth: 1, mismatch: 1, learned: 4, ..CheckAnswer::default() };
    assert!(!goes_on(&right, &found) && goes_on(&right, &CheckAnswer { depth: 2, mismatch: 2, ..found.clone() }));
    assert!(!goes_on(&found, &right) && !goes_on(&found, &CheckAnswer { learned: 5, ..found.clone() }));
}
