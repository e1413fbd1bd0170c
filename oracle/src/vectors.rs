//! The vector lines: one case a line, its call left of `=`, its answer right of it.
use crate::check::{check, check_reporting, CheckAnswer};
use crate::meter::{Report, Wish, LEARNED_LIMIT};
use crate::pair::{Lent, SCORES, WORDS};
use crate::record::{read, Refusal};
use crate::run::{replay, ReplayAnswer};
use crate::solving;

/// Bytes in lower-case hex, `-` for none.
pub fn hex(bytes: &[u8]) -> String {
    if bytes.is_empty() {
        return "-".into();
    }
    bytes.iter().map(|byte| format!("{byte:02x}")).collect()
}

/// The bytes of a hex word.
pub fn unhex(word: &str) -> Vec<u8> {
    if word == "-" {
        return Vec::new();
    }
    assert!(word.len() % 2 == 0, "odd hex: {word}");
    let digit = |place: usize| u8::from_str_radix(&word[place..place + 2], 16).unwrap_or_else(|_| panic!("no hex: {word}"));
    (0..word.len()).step_by(2).map(digit).collect()
}

/// The left side of a read.
pub fn read_line(bytes: &[u8]) -> String {
    format!("read {}", hex(bytes))
}

/// The left side of a replay.
pub fn replay_line(gold: &[u8], gate: &[u8], cycle: u64, claim: &[u8]) -> String {
    format!("replay {} {} {cycle} {}", hex(gold), hex(gate), hex(claim))
}

/// The left side of a check under a limit of learned literals, in the mode of the earliest cycle or without it.
pub fn mode_line(gold: &[u8], gate: &[u8], depth: u64, limit: u64, earliest: bool, lent: Lent) -> String {
    format!("check {} {} {depth} {limit} {} {} {} {}", hex(gold), hex(gate), u8::from(earliest), lent.trace, lent.words, lent.scores)
}

/// The left side of a check under a limit of learned literals.
pub fn limited_line(gold: &[u8], gate: &[u8], depth: u64, limit: u64, lent: Lent) -> String {
    mode_line(gold, gate, depth, limit, false, lent)
}

/// The left side of a check under the largest limit.
pub fn check_line(gold: &[u8], gate: &[u8], depth: u64, lent: Lent) -> String {
    limited_line(gold, gate, depth, LEARNED_LIMIT as u64, lent)
}

/// What a check is handed.
#[derive(Clone, Debug)]
pub struct CheckCall {
    pub gold: Vec<u8>,
    pub gate: Vec<u8>,
    pub depth: u64,
    pub limit: u64,
    pub earliest: bool,
    pub lent: Lent,
}

/// The call of a check line's left side; none for another line.
pub fn check_call(left: &str) -> Option<CheckCall> {
    let words: Vec<&str> = left.split(' ').collect();
    let ["check", gold, gate, depth, limit, earliest, trace, work, scores] = words[..] else { return None };
    let lent = Lent { trace: number(trace), words: number(work), scores: number(scores) };
    Some(CheckCall { gold: unhex(gold), gate: unhex(gate), depth: number(depth), limit: number(limit), earliest: zero_or_one(earliest), lent })
}

/// Number, side and place.
fn refusal_words(refusal: Option<Refusal>) -> String {
    match refusal {
        None => "0 0 0".into(),
        Some(refusal) => format!("{} {} {}", refusal.number, refusal.side, refusal.place),
    }
}

/// The right side of a replay.
fn replay_words(answer: ReplayAnswer) -> String {
    format!("{} {}", refusal_words(answer.refusal), if answer.yes { "yes" } else { "no" })
}

/// The right side of a check.
pub fn check_words(answer: &CheckAnswer) -> String {
    let CheckAnswer { refusal, status, depth, mismatch, query, learned, learned_depth, learned_query, equal, through, trace } = answer;
    let (refusal, equal) = (refusal_words(*refusal), u8::from(*equal));
    format!("{refusal} {status} {depth} {mismatch} {query} {learned} {learned_depth} {learned_query} {equal} {through} {}", hex(trace))
}

/// The right side of a check with memory enough: the check's words, then each query's depth, number and total.
fn under_words(limit: u64, earliest: bool, gold: &[u8], gate: &[u8], depth: u64) -> String {
    let lent = Lent { trace: 65_536, words: WORDS, scores: SCORES };
    let (answer, report) = check_reporting(gold, gate, depth, limit, earliest, lent, Wish::default());
    let asked: Vec<String> = report.queries.iter().map(|query| format!("{}.{}.{}", query.depth, query.number, query.learned)).collect();
    format!("{} {}", check_words(&answer), if asked.is_empty() { "-".into() } else { asked.join(",") })
}

/// A word that is 0 or 1.
fn zero_or_one(word: &str) -> bool {
    match word {
        "0" => false,
        "1" => true,
        _ => panic!("neither 0 nor 1: {word}"),
    }
}

/// A decimal number.
fn number(word: &str) -> u64 {
    word.parse().unwrap_or_else(|_| panic!("no number: {word}"))
}

/// The right side of a line's left side.
pub fn answer(left: &str) -> String {
    let words: Vec<&str> = left.split(' ').collect();
    match words[..] {
        ["read", record] => refusal_words(read(&unhex(record)).err()),
        ["replay", gold, gate, cycle, claim] => replay_words(replay(&unhex(gold), &unhex(gate), number(cycle), &unhex(claim))),
        ["check", ..] => {
            let call = check_call(left).unwrap_or_else(|| panic!("no check: {left}"));
            check_words(&check(&call.gold, &call.gate, call.depth, call.limit, call.earliest, call.lent))
        }
        ["under", limit, earliest, gold, gate, depth] => under_words(number(limit), zero_or_one(earliest), &unhex(gold), &unhex(gate), number(depth)),
        ["solve", limit, nodes, assumptions] => solving::answer(number(limit), nodes, assumptions),
        _ => panic!("no call: {left}"),
    }
}

/// A line's call and its answer if there; none for a comment or an empty line.
pub fn split(line: &str) -> Option<(&str, Option<&str>)> {
    if line.is_empty() || line.starts_with('#') {
        return None;
    }
    match line.split_once(" = ") {
        Some((left, right)) => Some((left, Some(right))),
        None => Some((line.trim_end_matches(" ="), None)),
    }
}

/// A line with its answer computed.
pub fn answered(line: &str) -> String {
    match split(line) {
        None => line.into(),
        Some((left, _)) => format!("{left} = {}", answer(left)),
    }
}

/// What the search of a check line reported; none for another line.
pub fn report(left: &str, wish: Wish) -> Option<Report> {
    let call = check_call(left)?;
    Some(check_reporting(&call.gold, &call.gate, call.depth, call.limit, call.earliest, call.lent, wish).1)
}
