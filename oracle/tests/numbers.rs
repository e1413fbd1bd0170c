//! Numbers that the patched Rust must give again.
use oracle::check::{check, prove, CheckAnswer, EQUIVALENT, GAVE_UP, INCONCLUSIVE, NOT_EQUIVALENT};
use oracle::families::{generate, give_up_pair, product_pair, Pair};
use oracle::meter::{Report, Wish, LEARNED_LIMIT};
use oracle::pair::{cost, Lent, SCORES, WORDS};
use oracle::record::{encode, read};
use oracle::shapes::{self, Feedback};
use oracle::vectors::{answer, answered, hex, split};

fn proved(pair: &Pair) -> (CheckAnswer, Report) {
    prove(&pair.gold, &pair.gate, pair.depth, false, Wish::default())
}

fn pair(gold: oracle::record::Design, gate: oracle::record::Design, depth: usize) -> Pair {
    Pair { gold, gate, depth }
}

/// Two registers in a row at D = 1 and 2.
#[test]
fn row() {
    let (answer, _) = proved(&pair(shapes::row(&["p", "q"]), shapes::holding(), 1));
    assert_eq!((answer.status, answer.depth), (INCONCLUSIVE, 1));
    let (answer, _) = proved(&pair(shapes::row(&["p", "q"]), shapes::holding(), 2));
    assert_eq!((answer.status, answer.depth, answer.mismatch), (NOT_EQUIVALENT, 2, 2));
    assert_eq!(hex(&answer.trace), "00010000000000000001");
}

/// The toggle: one conflict, one learned literal.
#[test]
fn toggle() {
    let toggle = |name| shapes::toggle(name, shapes::sync(1, false));
    let (answer, report) = proved(&pair(toggle("q"), toggle("p"), 1));
    assert_eq!((answer.status, answer.depth, answer.learned), (EQUIVALENT, 1, 1));
    assert_eq!(report.queries.iter().map(|query| query.conflicts).sum::<usize>(), 1);
}

/// The specification's wire.
#[test]
fn wire() {
    let bytes = encode(&shapes::wire());
    assert_eq!(hex(&bytes), "01000000130167000200016111017900000000");
    assert_eq!(read(&bytes), Ok(shapes::wire()));
}

/// The product bits, rows added one after another by ripple carry up to the bit: thousands of conflicts with one rescale, and give-ups by the limit.
#[test]
fn products() {
    let (answer, report) = proved(&product_pair(6, 6, 7, false));
    assert_eq!((answer.status, answer.depth, answer.learned), (EQUIVALENT, 1, 207_581));
    let counts: Vec<(usize, usize, usize)> = report.queries.iter().map(|query| (query.number, query.conflicts, query.rescales)).collect();
    assert_eq!(counts, [(1, 6_769, 1), (2, 0, 0), (3, 3_262, 0)]);
    for (bit, learned, next) in [(6, 262_134, 49), (7, 262_125, 51)] {
        let (answer, report) = proved(&product_pair(7, bit, bit + 1, false));
        assert_eq!((answer.status, answer.depth, answer.query, answer.learned), (GAVE_UP, 1, 1, learned));
        let last = report.queries.last().expect("a query");
        assert_eq!(last.next, next);
        assert!(learned <= LEARNED_LIMIT && learned + next > LEARNED_LIMIT);
    }
}

/// Many learned clauses have the asserting literal at neither watched place, and some repeat an earlier one.
#[test]
fn learned_clauses() {
    let pair = product_pair(6, 6, 7, false);
    let (_, report) = prove(&pair.gold, &pair.gate, 1, false, Wish { clauses: true, ..Wish::default() });
    let counts: Vec<(usize, usize)> = report.queries.iter().map(|query| (query.unwatched, query.repeated)).collect();
    assert_eq!(counts, [(5_593, 295), (0, 0), (2_751, 153)]);
}

/// A give-up in each of the four queries.
#[test]
fn give_ups() {
    for query in 1..=4 {
        let (answer, _) = proved(&give_up_pair(query));
        assert_eq!((answer.status, answer.depth, answer.query), (GAVE_UP, 1, query));
    }
}

/// The limit: as many literals as a query learns pass, one fewer does not.
#[test]
fn limit() {
    let pair = product_pair(4, 4, 8, true);
    let (free, report) = proved(&pair);
    let most = report.queries.iter().map(|query| query.learned).max().expect("a query");
    let under = |limit| prove(&pair.gold, &pair.gate, 1, false, Wish { limit, ..Wish::default() }).0;
    assert_eq!(under(most), free);
    assert_eq!(under(most - 1).status, GAVE_UP);
    assert_eq!(under(0).status, GAVE_UP);
}

/// Refusal 23's sum of a check line.
fn sum(line: &str) -> u64 {
    let words: Vec<&str> = line.split(' ').collect();
    let design = |word| read(&oracle::vectors::unhex(word)).expect("accepted");
    cost(&design(words[1]), &design(words[2]), words[3].parse().expect("a depth"))
}

/// Refusal 23's sums in the specification, and of the larger dense pair.
#[test]
fn sums() {
    let lines = generate("limits", 10, 1);
    assert_eq!((sum(&lines[1]), sum(&lines[2])), (65_535, 66_186));
    assert_eq!(sum(&generate("dense", 2, 1)[1]), 65_465);
}

/// The two forms of the feedback shift register show the same last bit in every cycle, and come back to their first state after 255.
#[test]
fn feedback() {
    let last_bits = |form: Feedback| {
        let mut state = 1;
        let bits: Vec<u8> = (0..255).map(|_| { let bit = state >> 7; state = form.next(state); bit }).collect();
        assert_eq!(state, 1);
        bits
    };
    assert_eq!(last_bits(Feedback::Fibonacci), last_bits(Feedback::Galois));
}

/// Rows named apart are proved at their length, by query 4.
#[test]
fn rows() {
    assert_eq!(answer(&generate("rows", 1, 1)[0]), "0 0 0 0 32 0 0 0 1 1 0 0 -");
}

/// Nothing is learned where a design is checked against itself, whatever the limit.
#[test]
fn self_check() {
    let bytes = encode(&product_pair(7, 7, 14, true).gold);
    let lent = Lent { trace: 1_000, words: WORDS, scores: SCORES };
    let answer = check(&bytes, &bytes, 64, 0, false, lent);
    assert_eq!(answer.refusal.map(|refusal| refusal.number), Some(23));
    let answer = check(&bytes, &bytes, 8, 0, false, lent);
    assert_eq!((answer.refusal, answer.status, answer.depth, answer.learned, answer.learned_depth, answer.learned_query), (None, EQUIVALENT, 1, 0, 1, 1));
}

/// A line's answer is found again in the line; a family gives the same lines again.
#[test]
fn lines() {
    for line in generate("small", 40, 3) {
        let whole = answered(&line);
        let (left, right) = split(&whole).expect("a call");
        assert_eq!(left, line);
        assert_eq!(right, Some(answer(left).as_str()));
    }
    assert_eq!(generate("pairs", 20, 9), generate("pairs", 20, 9));
}
