//! Steps: lent positions, fresh and mid-way, on true, false and damaged claims of random pairs, each moved on by the library and by the oracle. Answer,
//! position and every lent byte are compared, and every kind of answer has to be met.
use std::cmp::Ordering;
use std::collections::BTreeMap;
use std::process::ExitCode;

use oracle::check::check;
use oracle::families::{generate, random_pair};
use oracle::meter::LEARNED_LIMIT;
use oracle::pair::{trace_need, Lent};
use oracle::random::{ClockRead, Size};
use oracle::reads::random_reads;
use oracle::record::{encode, Design, Refusal};
use oracle::refusals::refused_replays;
use oracle::rng::Rng;
use oracle::run;
use oracle::steps::{self, Moved, Position as Plain};
use oracle::vectors::{hex, unhex};

use crate::met::{unmet, Kind, Met};
use crate::replays::clock_turned;
use struo_formal::{Position, ReadAnswer, ReplayAnswer, BITS, GATE_BITS};

/// A claim on a pair of records.
struct Claim<'a> {
    gold: &'a [u8],
    gate: &'a [u8],
    cycle: u64,
    bytes: &'a [u8],
}

/// How many calls were made, how many differ, what begins and steps met, how many steps there were of each kind of answer, and how many were made again with the clock's bits turned.
#[derive(Default)]
struct Tally {
    calls: u64,
    differ: u64,
    begins: Met,
    steps: Met,
    kinds: BTreeMap<&'static str, u64>,
    turned: u64,
}

/// A refusal's three numbers, as the boundary has them.
fn numbers(refusal: Option<Refusal>) -> (u32, u32, u32) {
    refusal.map_or((0, 0, 0), |refusal| (u32::from(refusal.number), u32::from(refusal.side), refusal.place as u32))
}

/// The kinds of accepted steps, which have to be met.
const KINDS: [&str; 4] = ["no before", "no at", "yes at", "no past"];

/// The kind of an accepted step.
fn kind(position: u64, cycle: u64, yes: bool) -> &'static str {
    match position.cmp(&cycle) {
        Ordering::Less => "no before",
        Ordering::Greater => "no past",
        Ordering::Equal => if yes { "yes at" } else { "no at" },
    }
}

impl Tally {
    /// One call counted, and told where it differs.
    fn count(&mut self, same: bool, told: impl FnOnce() -> String) {
        self.calls += 1;
        if !same {
            self.differ += 1;
            if self.differ <= 10 {
                println!("{}", told());
            }
        }
    }

    /// A begin by both, from what is lent; what it leaves.
    fn begin(&mut self, gold: &[u8], gate: &[u8], lent: Plain, bits: &[u8]) -> (Plain, Vec<u8>) {
        let expected = steps::begin(gold, gate, lent, bits);
        let (number, side, place) = numbers(expected.refusal);
        let (mut position, mut after) = (Position { cycle: lent.cycle, agreed: lent.agreed }, bits.to_vec());
        let answered = struo_formal::begin(gold, gate, &mut position, &mut after);
        let same = answered == ReadAnswer { number, side, place }
            && (position.cycle, position.agreed) == (expected.position.cycle, expected.position.agreed)
            && after == expected.bits;
        self.begins.count(number, side);
        self.count(same, || format!("begin {} {} {lent:?} {}: {answered:?} {position:?} {}, expected {expected:?}", hex(gold), hex(gate), hex(bits), hex(&after)));
        (expected.position, expected.bits)
    }

    /// A step by both, from what is lent, and where it is accepted and there is a clock again with the clock's bits turned, which changes nothing; its answer, and what it leaves.
    fn step(&mut self, claim: &Claim, lent: Plain, bits: &[u8]) -> (bool, Plain, Vec<u8>) {
        let first = self.moved(claim, lent, bits);
        if let Some(bytes) = clock_turned(claim.gold, claim.cycle, claim.bytes).filter(|_| first.refusal.is_none()) {
            self.turned += 1;
            let again = self.moved(&Claim { bytes: &bytes, ..*claim }, lent, bits);
            if again != first {
                self.differ += 1;
                println!("step {} {} {} {} {lent:?}: another answer with the clock's bits turned", hex(claim.gold), hex(claim.gate), claim.cycle, hex(claim.bytes));
            }
        }
        (first.yes, first.position, first.bits)
    }

    /// A step by both, from what is lent; the oracle's answer.
    fn moved(&mut self, claim: &Claim, lent: Plain, bits: &[u8]) -> Moved {
        let Claim { gold, gate, cycle, bytes } = *claim;
        let expected = steps::step(gold, gate, cycle, bytes, lent, bits);
        let (number, side, place) = numbers(expected.refusal);
        let (mut position, mut after) = (Position { cycle: lent.cycle, agreed: lent.agreed }, bits.to_vec());
        let answered = struo_formal::step(gold, gate, cycle, bytes, &mut position, &mut after);
        let same = answered == ReplayAnswer { number, side, place, yes: expected.yes }
            && (position.cycle, position.agreed) == (expected.position.cycle, expected.position.agreed)
            && after == expected.bits;
        self.steps.count(number, side);
        if number == 0 {
            *self.kinds.entry(kind(lent.cycle, cycle, expected.yes)).or_default() += 1;
        }
        self.count(same, || {
            let call = format!("step {} {} {cycle} {} {lent:?} {}", hex(gold), hex(gate), hex(bytes), hex(bits));
            format!("{call}: {answered:?} {position:?} {}, expected {expected:?}", hex(&after))
        });
        expected
    }

    /// From begin to the claimed cycle and past it; where the bits are long enough the step at the claimed cycle answers as replay does.
    fn walk(&mut self, claim: &Claim, lent: Plain, bits: &[u8]) {
        let replayed = bits.len() >= BITS && run::replay(claim.gold, claim.gate, claim.cycle, claim.bytes).yes;
        let (mut position, mut bits) = self.begin(claim.gold, claim.gate, lent, bits);
        for cycle in 0..claim.cycle.min(64) + 3 {
            let yes;
            (yes, position, bits) = self.step(claim, position, &bits);
            if yes != (cycle == claim.cycle && replayed) {
                self.differ += 1;
                println!("step {cycle} of {} on {} {} {}: {yes}, replay {replayed}", claim.cycle, hex(claim.gold), hex(claim.gate), hex(claim.bytes));
            }
        }
    }
}

/// Random bytes 0 and 1, with another one in so many.
fn bytes(rng: &mut Rng, length: usize, odd: usize) -> Vec<u8> {
    (0..length).map(|_| if rng.one_in(odd) { rng.range(2, 255) as u8 } else { rng.below(2) as u8 }).collect()
}

/// Lent bits of any content where no register's bit lies, mostly long enough.
fn lent_bits(rng: &mut Rng, gold: &Design, gate: &Design) -> Vec<u8> {
    let length = if rng.one_in(25) { *rng.pick(&[0, 1, 127, 128, 129, 255]) } else { BITS + rng.below(3) };
    let mut bits: Vec<u8> = (0..length).map(|_| rng.below(256) as u8).collect();
    for (from, count) in [(0, gold.registers.len()), (GATE_BITS, gate.registers.len())] {
        let stored = bytes(rng, count, 150);
        for (byte, bit) in bits.iter_mut().skip(from).zip(stored) {
            *byte = bit;
        }
    }
    bits
}

/// Any position: mostly one up to the claimed cycle, else past it, by one or by far.
fn lent_position(rng: &mut Rng, cycle: u64) -> Plain {
    let cycle = if rng.one_in(5) { *rng.pick(&[cycle.saturating_add(1), 64, 65, 1 << 32, u64::MAX]) } else { rng.below(cycle.min(64) as usize + 1) as u64 };
    Plain { cycle, agreed: !rng.one_in(4) }
}

/// Walks and single steps on one pair.
fn pair(rng: &mut Rng, tally: &mut Tally) {
    let pair = random_pair(rng, Size { inputs: 4, outputs: 3, registers: 4, gates: 9 }, 3, ClockRead::Seldom);
    let (gold, gate) = (encode(&pair.gold), encode(&pair.gate));
    let answer = check(&gold, &gate, 3, LEARNED_LIMIT as u64, false, Lent { trace: 8192, words: 8_388_608, scores: 65_536 });
    let mut claims: Vec<(u64, Vec<u8>)> = (0..3)
        .map(|_| {
            let cycle = if rng.one_in(30) { rng.below(65) as u64 } else { rng.below(4) as u64 };
            (cycle, bytes(rng, trace_need(&pair.gold, cycle) as usize, 400))
        })
        .collect();
    if answer.status == 1 {
        claims.push((answer.mismatch as u64, answer.trace.clone()));
    }
    for (cycle, claim) in claims {
        let claim = Claim { gold: &gold, gate: &gate, cycle, bytes: &claim };
        let (position, bits) = (lent_position(rng, cycle), lent_bits(rng, &pair.gold, &pair.gate));
        tally.walk(&claim, position, &bits);
        for _ in 0..4 {
            let (position, bits) = (lent_position(rng, cycle), lent_bits(rng, &pair.gold, &pair.gate));
            tally.step(&claim, position, &bits);
        }
        let (position, bits) = (lent_position(rng, cycle), lent_bits(rng, &pair.gold, &pair.gate));
        let other = *rng.pick(&[cycle + 1, 65, u64::MAX]);
        tally.step(&Claim { cycle: other, ..claim }, position, &bits);
    }
}

/// Calls on records of which one is damaged or that do not belong together.
fn refusals(rng: &mut Rng, tally: &mut Tally) {
    let position = Plain { cycle: rng.below(3) as u64, agreed: rng.one_in(2) };
    let length = *rng.pick(&[0, 255, 256, 300]);
    let bits: Vec<u8> = (0..length).map(|_| rng.below(256) as u8).collect();
    let whole = encode(&oracle::reads::random_design(rng, Size { inputs: 3, outputs: 3, registers: 3, gates: 6 }, ClockRead::Seldom));
    let mut records: Vec<Vec<u8>> = random_reads(rng, 4, ClockRead::Seldom).iter().map(|line| unhex(line.split_whitespace().nth(1).expect("a record"))).collect();
    records.push(crate::reads::damaged(rng, &whole));
    let claim = bytes(rng, 5, 50);
    for other in &records {
        for (gold, gate) in [(other, &whole), (&whole, other)] {
            tally.begin(gold, gate, position, &bits);
            tally.step(&Claim { gold, gate, cycle: 1, bytes: &claim }, position, &bits);
        }
    }
}

/// Calls on the pairs of the oracle's refused replays: 18 to 22, 25, 30, and damaged records.
fn refused_pairs(rng: &mut Rng, tally: &mut Tally) {
    let listed = generate("clocks", 300, 1).into_iter().filter(|line| line.starts_with("replay "));
    for line in listed.chain(refused_replays(rng, 400, ClockRead::Seldom)) {
        let words: Vec<&str> = line.split_whitespace().collect();
        let ["replay", gold, gate, cycle, claim] = words[..] else { panic!("no replay: {line}") };
        let (gold, gate, claim) = (unhex(gold), unhex(gate), unhex(claim));
        let position = Plain { cycle: rng.below(3) as u64, agreed: rng.one_in(2) };
        let length = *rng.pick(&[0, 255, 256, 300]);
        let bits: Vec<u8> = (0..length).map(|_| rng.below(256) as u8).collect();
        tally.begin(&gold, &gate, position, &bits);
        tally.step(&Claim { gold: &gold, gate: &gate, cycle: cycle.parse().expect("a cycle"), bytes: &claim }, position, &bits);
    }
}

/// At least `count` calls.
pub fn compare(count: u64, seed: u64) -> ExitCode {
    let mut rng = Rng::new(seed);
    let mut tally = Tally::default();
    refused_pairs(&mut rng, &mut tally);
    while tally.calls < count {
        pair(&mut rng, &mut tally);
        refusals(&mut rng, &mut tally);
    }
    println!("begins by refusal, gold+gate: {}", tally.begins.told(Kind::Begin));
    println!("steps by refusal, gold+gate: {}", tally.steps.told(Kind::Step));
    println!("accepted steps: {:?}, {} with the clock's bits turned", tally.kinds, tally.turned);
    let mut missing: Vec<String> = tally.begins.missing(Kind::Begin).iter().map(|what| format!("begin: {what}")).collect();
    missing.extend(tally.steps.missing(Kind::Step).iter().map(|what| format!("step: {what}")));
    missing.extend(KINDS.iter().filter(|kind| !tally.kinds.contains_key(*kind)).map(|kind| format!("step: {kind}")));
    missing.extend((tally.turned == 0).then(|| "step: the clock's bits turned".into()));
    let missing = unmet(&missing);
    println!("{} begins and steps, {} differ", tally.calls, tally.differ);
    ExitCode::from(u8::from(tally.differ > 0 || missing))
}
