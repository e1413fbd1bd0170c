//! What a check tells of the queries that it asked: the largest total of learned literals, with depth and number of the first query that has it.
use oracle::families::{generate, give_up_pair};
use oracle::record::{encode, Design};
use oracle::shapes;
use oracle::vectors::{answer, hex, split};

/// A check of two designs under a limit.
fn under(limit: usize, gold: &Design, gate: &Design, depth: usize) -> String {
    answer(&format!("under {limit} 0 {} {} {depth}", hex(&encode(gold)), hex(&encode(gate))))
}

/// The toggle with its register named so.
fn toggle(name: &str) -> Design {
    shapes::toggle(name, shapes::sync(1, false))
}

/// Nothing learned: 0, of query 1 of depth 1, whatever the limit and at whichever depth the check ends.
#[test]
fn nothing() {
    for limit in [262_144, 12, 5, 3, 0] {
        assert_eq!(under(limit, &shapes::wire(), &shapes::zero(), 1), "0 0 0 1 1 1 0 0 1 1 0 0 000101 1.1.0");
        assert_eq!(under(limit, &shapes::wire(), &shapes::inverter(), 1), "0 0 0 1 1 0 0 0 1 1 0 0 0001 1.1.0");
        let row = under(limit, &shapes::row(&["p", "q"]), &shapes::holding(), 2);
        assert_eq!(row, "0 0 0 1 2 2 0 0 1 1 0 0 00010000000000000001 1.1.0,1.2.0,1.3.0,1.4.0,2.1.0");
    }
}

/// The toggles learn one literal, in query 3; under the limit 0 that query gives up, and query 1 is the first with the total 0.
#[test]
fn toggles() {
    for limit in [262_144, 12, 5, 3, 1] {
        assert_eq!(under(limit, &toggle("q"), &toggle("p"), 1), "0 0 0 0 1 0 0 1 1 3 0 0 - 1.1.0,1.2.0,1.3.1");
    }
    assert_eq!(under(0, &toggle("q"), &toggle("p"), 1), "0 0 0 3 1 0 3 0 1 1 1 1 - 1.1.0,1.2.0,1.3.0");
}

/// A query that gives up counts with its total before the clause that would have passed the limit.
#[test]
fn exclusive_ors() {
    let (gold, gate) = (shapes::exclusive_or(false), shapes::exclusive_or(true));
    let expected = [
        (262_144, "0 0 0 0 1 0 0 16 1 1 0 0 - 1.1.16,1.2.0,1.3.5"),
        (16, "0 0 0 0 1 0 0 16 1 1 0 0 - 1.1.16,1.2.0,1.3.5"),
        (12, "0 0 0 3 1 0 1 11 1 1 0 0 - 1.1.11"),
        (5, "0 0 0 3 1 0 1 4 1 1 0 0 - 1.1.4"),
        (3, "0 0 0 3 1 0 1 0 1 1 0 0 - 1.1.0"),
        (0, "0 0 0 3 1 0 1 0 1 1 0 0 - 1.1.0"),
    ];
    for (limit, told) in expected {
        assert_eq!(under(limit, &gold, &gate, 1), told, "limit {limit}");
    }
}

/// A give-up in each query: what it had learned is the most, within the limit.
#[test]
fn give_ups() {
    for query in 1..=4 {
        let words = answer(&give_up_pair(query).line());
        let words: Vec<&str> = words.split(' ').collect();
        assert_eq!(words[3..7], ["3", "1", "0", query.to_string().as_str()]);
        assert_eq!(words[8..10], ["1", query.to_string().as_str()]);
        assert!(words[7].parse::<usize>().is_ok_and(|learned| learned > 262_000 && learned <= 262_144));
    }
}

/// A refused check tells three zeros.
#[test]
fn refused() {
    assert_eq!(under(262_144, &toggle("q"), &shapes::wire(), 1), "18 0 0 0 0 0 0 0 0 0 0 0 - -");
    assert_eq!(under(262_144, &shapes::wire(), &shapes::wire(), 0), "16 0 0 0 0 0 0 0 0 0 0 0 - -");
}

/// The three numbers of an under line are those of its list: no total is larger, and each before the one told is smaller.
#[test]
fn first_of_the_largest() {
    let (mut equal, mut later) = (0, 0);
    for line in generate("under", 400, 5) {
        let (left, _) = split(&line).expect("a call");
        let words = answer(left);
        let words: Vec<&str> = words.split(' ').collect();
        let asked: Vec<Vec<usize>> = words[13].split(',').map(|query| query.split('.').map(|word| word.parse().expect("a number")).collect()).collect();
        let told: Vec<usize> = words[7..10].iter().map(|word| word.parse().expect("a number")).collect();
        let place = asked.iter().position(|query| query[..] == [told[1], told[2], told[0]]).expect("it was asked");
        assert!(asked[..place].iter().all(|query| query[2] < told[0]) && asked.iter().all(|query| query[2] <= told[0]));
        equal += usize::from(told[0] > 0 && asked[place + 1..].iter().any(|query| query[2] == told[0]));
        later += usize::from(place > 0);
    }
    assert!(equal > 0 && later > 0, "{equal} with a later query of the same total, {later} with a first query of less");
}
