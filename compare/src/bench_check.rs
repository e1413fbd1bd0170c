//! Measures whole checks of the library beside the Rust's prove_sequential_equivalence on the same pairs, in one run.
use std::hint::black_box;
use std::process::ExitCode;

use oracle::bridge::netlist;
use oracle::check::{check, CheckAnswer};
use oracle::equivalence::prove_sequential_equivalence;
use oracle::families::generate_reading;
use oracle::meter::{self, Wish, LEARNED_LIMIT};
use oracle::pair::{Lent, SCORES, WORDS};
use oracle::random::ClockRead;
use oracle::record::{self, encode};
use oracle::shapes;
use oracle::struo_ir::Netlist;
use oracle::transition::TransitionSystem;
use oracle::vectors::{check_call, check_line, CheckCall};

use crate::clock;

/// One accepted check: the records, their netlists for the Rust, the depth and the oracle's answer.
struct Pair {
    gold: Vec<u8>,
    gate: Vec<u8>,
    netlists: (Netlist, Netlist),
    depth: u64,
    answer: CheckAnswer,
}

/// The limit and the memory of every check.
const LARGEST: u64 = LEARNED_LIMIT as u64;
const LENT: Lent = Lent { trace: 8_192, words: WORDS, scores: SCORES };

/// The pair of a check line; none where it is refused.
fn pair(line: &str) -> Option<Pair> {
    let CheckCall { gold, gate, depth, limit, earliest, .. } = check_call(line)?;
    assert_eq!((limit, earliest), (LARGEST, false), "measured under the largest limit, without the mode of the earliest cycle");
    let answer = check(&gold, &gate, depth, limit, earliest, LENT);
    if answer.refusal.is_some() {
        return None;
    }
    let read = |bytes: &[u8]| netlist(&record::read(bytes).expect("accepted"));
    let netlists = (read(&gold), read(&gate));
    Some(Pair { gold, gate, netlists, depth, answer })
}

/// The mean time of a call in milliseconds, over enough rounds of all pairs to fill half a second.
fn mean(pairs: &[Pair], mut call: impl FnMut(&Pair)) -> f64 {
    pairs.iter().take(1).for_each(&mut call);
    clock::mean(0.5, || pairs.iter().for_each(&mut call)) * 1e3 / pairs.len() as f64
}

/// The Rust's check of two netlists; its give-up leaves it by unwinding.
fn rust(pair: &Pair) {
    meter::reset(Wish::default());
    let system = |netlist: &Netlist| TransitionSystem::from_netlist(netlist).expect("an accepted design is lowered");
    let (gold, gate) = (&pair.netlists.0, &pair.netlists.1);
    black_box(meter::unless_gave_up(|| prove_sequential_equivalence(&system(gold), &system(gate), pair.depth as usize).is_ok()));
}

/// The groups of pairs, from such as search nothing to such as search for seconds. `dense GATES/REGISTERS`, to 1024/40 near the bound of refusal 23: one random design written twice, with a few
/// gates in other forms. `lfsr 8`: a feedback shift register of 8 bits in its Fibonacci and its Galois form. `add3 10`: three numbers of 10 bits added in two orders.
fn groups(seed: u64) -> Vec<(&'static str, Vec<String>)> {
    let lone = encode(&shapes::lone());
    let counter = |count| encode(&shapes::counter("c", 9, count, false));
    let generate = |family: &str, count: usize| generate_reading(family, count, seed, ClockRead::Never);
    let one = |family: &str, place: usize| vec![generate(family, 10).into_iter().filter(|line| line.starts_with("check ")).nth(place).expect("a line")];
    let deep = generate("deep", 30).split_off(3);
    vec![
        ("nothing to search", vec![check_line(&lone, &lone, 1, LENT)]),
        ("random pairs, to 30 gates a side", generate("pairs", 60)),
        ("rewritten pairs", generate("rewritten", 60)),
        ("proofs that close at depth 2 to 14", generate("late", 30)),
        ("products of 3 to 5 bits", generate("hard", 20)),
        ("differences at cycle 2 to 46", deep),
        ("a row of 64 registers, depth 64", one("deep", 0)),
        ("the bound 65,535, depth 64", one("limits", 0)),
        ("nine-bit counters, depth 64", vec![check_line(&counter(260), &counter(255), 64, LENT)]),
        ("a product of 6 bits, a rescaling", one("rescale", 0)),
        ("dense 400/8 at D = 16", one("dense", 0)),
        ("dense 1024/40 at D = 8", one("dense", 1)),
        ("shift rows of 32 registers under other names", one("rows", 0)),
        ("lfsr 8 at D = 48", one("feedback", 0)),
        ("add3 10, its highest bit", one("sums", 0)),
        ("add3 10", one("sums", 1)),
        ("give-up in query 1", one("giveup", 2)),
        ("give-up in query 2", one("giveup", 3)),
        ("give-up in query 3", one("giveup", 4)),
        ("give-up in query 4", one("giveup", 5)),
    ]
}

/// Prints the table. What clearing costs is the time of the check that searches nothing.
pub fn checks(seed: u64) -> ExitCode {
    let (mut trace, mut words, mut scores) = (vec![0u8; LENT.trace as usize], vec![0u32; WORDS as usize], vec![0f64; SCORES as usize]);
    let filling = clock::mean(0.1, || {
        black_box(&mut words).fill(0);
        black_box(&mut scores).fill(0.0);
    });
    println!("filling 8,388,608 words and 65,536 scores with zeros from Rust: {:.1} ms", filling * 1e3);
    println!("| pairs | checks | most learned | Rust ms | library ms | ratio | library without clearing ms | ratio |");
    println!("|---|---|---|---|---|---|---|---|");
    let mut clearing = None;
    for (name, lines) in groups(seed) {
        let pairs: Vec<Pair> = lines.iter().filter_map(|line| pair(line)).collect();
        let learned = pairs.iter().map(|pair| pair.answer.learned).max().unwrap_or(0);
        let own = mean(&pairs, |pair| {
            black_box(struo_formal::check(black_box(&pair.gold), black_box(&pair.gate), pair.depth, LARGEST, false, &mut trace, &mut words, &mut scores));
        });
        let theirs = mean(&pairs, rust);
        let clear = *clearing.get_or_insert(own);
        let rest = own - clear;
        println!("| {name} | {} | {learned} | {theirs:.2} | {own:.2} | {:.2} | {rest:.2} | {:.2} |", pairs.len(), own / theirs, rest / theirs);
    }
    ExitCode::SUCCESS
}
