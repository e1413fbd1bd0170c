//! Replays: true, false and damaged claims on random pairs and replays of every refusal, each answered by the library and by the oracle.
use std::process::ExitCode;

use oracle::check::check;
use oracle::families::{generate, random_pair};
use oracle::meter::LEARNED_LIMIT;
use oracle::pair::{trace_need, Lent};
use oracle::random::{ClockRead, Size};
use oracle::record::{encode, read};
use oracle::rng::Rng;
use oracle::run::{self, clock_bytes, with_clock};
use oracle::vectors::{split, unhex};

use crate::met::{unmet, Kind, Met};
use struo_formal::ReplayAnswer as Replay;

/// How many calls were made, what they met, how many said no or yes, how many were made again with the clock's bits turned, and how many answers differ.
#[derive(Default)]
struct Tally {
    calls: u64,
    met: Met,
    answers: [u64; 2],
    turned: u64,
    differ: u64,
}

impl Tally {
    /// One claim, replayed by both; where it is accepted and there is a clock, again with the clock's bits turned, which changes nothing.
    fn claim(&mut self, gold: &[u8], gate: &[u8], cycle: u64, claim: &[u8]) {
        let first = self.replayed(gold, gate, cycle, claim);
        let Some(turned) = clock_turned(gold, cycle, claim).filter(|_| first.0.number == 0) else { return };
        self.turned += 1;
        if self.replayed(gold, gate, cycle, &turned) != first {
            self.differ += 1;
            println!("replay {} {} {cycle} {}: another answer with the clock's bits turned", oracle::vectors::hex(gold), oracle::vectors::hex(gate), oracle::vectors::hex(claim));
        }
    }

    /// The oracle's answer to a claim, and the library's.
    fn replayed(&mut self, gold: &[u8], gate: &[u8], cycle: u64, claim: &[u8]) -> (Replay, Replay) {
        let answer = run::replay(gold, gate, cycle, claim);
        let expected = match answer.refusal {
            None => Replay { number: 0, side: 0, place: 0, yes: answer.yes },
            Some(refusal) => Replay { number: u32::from(refusal.number), side: u32::from(refusal.side), place: refusal.place as u32, yes: false },
        };
        let answered = struo_formal::replay(gold, gate, cycle, claim);
        self.calls += 1;
        self.met.count(expected.number, expected.side);
        self.answers[usize::from(expected.yes)] += u64::from(expected.number == 0);
        if answered != expected {
            self.differ += 1;
            if self.differ <= 10 {
                println!("replay {} {} {cycle} {}: {answered:?}, expected {expected:?}", oracle::vectors::hex(gold), oracle::vectors::hex(gate), oracle::vectors::hex(claim));
            }
        }
        (expected, answered)
    }
}

/// A claim of bits up to a cycle with the clock's turned in every cycle; none where gold has no registers.
pub fn clock_turned(gold: &[u8], cycle: u64, claim: &[u8]) -> Option<Vec<u8>> {
    let gold = read(gold).ok().filter(|gold| !gold.registers.is_empty())?;
    let last = usize::try_from(cycle).ok().filter(|last| *last <= 64 && claim.len() as u64 == trace_need(&gold, cycle))?;
    let turned: Vec<u8> = clock_bytes(&gold, claim, last).iter().map(|byte| byte ^ 1).collect();
    Some(with_clock(&gold, claim, &turned))
}

/// The first number that 32 bits do not hold: a cycle just past it is no cycle 1.
const LARGE: u64 = 1 << 32;

/// Random bytes 0 and 1, with now and then another one.
fn bits(rng: &mut Rng, length: u64) -> Vec<u8> {
    (0..length).map(|_| if rng.one_in(300) { 2 } else { rng.below(2) as u8 }).collect()
}

/// The claims on one pair: the check's own trace where it differs, its damage, and random ones.
fn pair(rng: &mut Rng, tally: &mut Tally) {
    let size = Size { inputs: 4, outputs: 3, registers: 4, gates: 9 };
    let pair = random_pair(rng, size, 3, ClockRead::Seldom);
    let (gold, gate) = (encode(&pair.gold), encode(&pair.gate));
    let answer = check(&gold, &gate, 3, LEARNED_LIMIT as u64, false, Lent { trace: 8192, words: 8_388_608, scores: 65_536 });
    if answer.status == 1 {
        let cycle = answer.mismatch as u64;
        tally.claim(&gold, &gate, cycle, &answer.trace);
        tally.claim(&gate, &gold, cycle, &answer.trace);
        tally.claim(&gold, &gate, cycle + 1, &answer.trace);
        for place in 0..answer.trace.len() {
            let mut other = answer.trace.clone();
            other[place] = if rng.one_in(20) { 2 } else { 1 - other[place].min(1) };
            tally.claim(&gold, &gate, cycle, &other);
        }
        tally.claim(&gold, &gate, cycle, &answer.trace[..answer.trace.len().saturating_sub(1)]);
    }
    let claim = bits(rng, trace_need(&pair.gold, 1));
    tally.claim(&gold, &gate, LARGE + 1, &claim);
    for _ in 0..6 {
        let cycles = if rng.one_in(10) { 65 } else { 4 };
        let cycle = rng.below(cycles) as u64;
        let claim = bits(rng, trace_need(&pair.gold, cycle));
        tally.claim(&gold, &gate, cycle, &claim);
    }
    let mut broken = gate.clone();
    let place = rng.below(broken.len());
    broken[place] = rng.below(256) as u8;
    let claim = bits(rng, trace_need(&pair.gold, 1));
    tally.claim(&gold, &broken, 1, &claim);
    tally.claim(&broken, &gold, *rng.pick(&[0, 1, 64, 65, LARGE + 1, u64::MAX]), &claim);
}

/// The replays of a family of the oracle.
fn family(tally: &mut Tally, name: &str, count: usize, seed: u64) {
    for line in generate(name, count, seed) {
        let Some((left, _)) = split(&line) else { continue };
        let words: Vec<&str> = left.split(' ').collect();
        if let ["replay", gold, gate, cycle, claim] = words[..] {
            tally.claim(&unhex(gold), &unhex(gate), cycle.parse().expect("a number"), &unhex(claim));
        }
    }
}

/// Replays at least `count` claims, and says what came of it; each refusal that a replay has, on each side that it can have, and yes and no and a turned clock have to be met.
pub fn compare(count: u64, seed: u64) -> ExitCode {
    let tally = run(count, seed);
    let [no, yes] = tally.answers;
    println!("replays by refusal, gold+gate: {}", tally.met.told(Kind::Replay));
    let mut missing = tally.met.missing(Kind::Replay);
    missing.extend(["no", "yes"].iter().zip(tally.answers).filter(|(_, times)| *times == 0).map(|(answer, _)| (*answer).into()));
    missing.extend((tally.turned == 0).then(|| "a claim with the clock's bits turned".into()));
    let missing = unmet(&missing);
    println!("{} replays, {no} no, {yes} yes, {} refused, {} with the clock's bits turned, {} differ", tally.calls, tally.met.refused(), tally.turned, tally.differ);
    ExitCode::from(u8::from(tally.differ > 0 || missing))
}

/// The families with every refusal, then at least `count` claims in all.
fn run(count: u64, seed: u64) -> Tally {
    let mut rng = Rng::new(seed);
    let mut tally = Tally::default();
    family(&mut tally, "sides", 200, seed);
    family(&mut tally, "refused-replays", 90, seed);
    family(&mut tally, "clocks", 300, seed);
    while tally.calls < count {
        pair(&mut rng, &mut tally);
    }
    tally
}

#[cfg(test)]
mod tests {
    use super::*;
    use oracle::shapes;

    #[test]
    fn the_clock_alone_is_turned() {
        let row = encode(&shapes::row(&["p", "q"]));
        assert_eq!(clock_turned(&row, 1, &[0, 1, 0, 1, 0, 1, 1]), Some(vec![1, 1, 0, 0, 0, 1, 1]));
        assert_eq!(clock_turned(&row, 1, &[0, 1, 0, 1, 0, 1]), None);
        assert_eq!(clock_turned(&row, u64::MAX, &[0]), None);
        assert_eq!(clock_turned(&encode(&shapes::wire()), 0, &[0, 1]), None);
    }
}
