//! Checks: pairs of every family of the oracle, each under several limits of learned literals and in both modes, answered by the library and by the oracle, every byte lent watched.
use std::process::ExitCode;
use std::sync::atomic::{AtomicUsize, Ordering};

use oracle::check::{check_reporting, CheckAnswer, GAVE_UP, NOT_EQUIVALENT};
use oracle::families::generate;
use oracle::limited::{limits_about, REFUSED};
use oracle::meter::{Query, Wish, LEARNED_LIMIT};
use oracle::pair::{Lent, SCORES, WORDS};
use oracle::record::read;
use oracle::rng::Rng;
use oracle::run::clock_bytes;
use oracle::vectors::{check_call, check_words, mode_line, split};

use struo_formal::CheckAnswer as Check;
use crate::lent::{Memory, Trace};
use crate::met::{unmet, Kind, Met};
use crate::modes::{Made, Modes};
use crate::reads::damaged;

/// A check as the library has it: gold, gate, depth, limit, earliest, trace, words, scores.
pub trait Call: Fn(&[u8], &[u8], u64, u64, bool, &mut [u8], &mut [u32], &mut [f64]) -> Check + Sync {}
impl<F: Fn(&[u8], &[u8], u64, u64, bool, &mut [u8], &mut [u32], &mut [f64]) -> Check + Sync> Call for F {}

/// The largest limit, as a call takes it.
const LARGEST: u64 = LEARNED_LIMIT as u64;

/// How many checks were made, by what the oracle says of them, and how many answers or bytes differ.
#[derive(Default)]
pub struct Tally {
    pub pairs: u64,
    pub checks: u64,
    /// Checks under another limit than the largest, refused and accepted.
    pub limited: [u64; 2],
    pub differ: u64,
    /// Checks by refusal.
    pub met: Met,
    /// Accepted checks by status.
    pub statuses: [u64; 4],
    /// Give-ups by query, 0 to 4, at depth 1 and deeper.
    pub gave_up: [[u64; 2]; 5],
    /// Give-ups that prove no cycle, and that prove one.
    pub proved: [u64; 2],
    /// Give-ups under a smaller limit, by the status under the largest.
    pub settled: [u64; 4],
    /// Checks that learned something, by the query that learned most, 0 to 4.
    pub learned_most: [u64; 5],
    /// The largest depth answered, the latest mismatch, the most literals learned in a query.
    pub deepest: usize,
    pub latest: usize,
    pub learned: usize,
    /// Traces of designs with registers.
    pub clocks: u64,
    /// The mode of the earliest cycle.
    pub modes: Modes,
}

impl Tally {
    /// One more check with its answer.
    fn count(&mut self, answer: &CheckAnswer) {
        self.checks += 1;
        let (number, side) = answer.refusal.map_or((0, 0), |refusal| (refusal.number, refusal.side));
        self.met.count(u32::from(number), u32::from(side));
        if answer.refusal.is_none() {
            self.statuses[usize::from(answer.status)] += 1;
            if answer.status == GAVE_UP {
                self.gave_up[answer.query][usize::from(answer.depth > 1)] += 1;
                self.proved[usize::from(answer.equal)] += 1;
            }
            self.learned_most[answer.learned_query] += u64::from(answer.learned > 0);
        }
        self.deepest = self.deepest.max(answer.depth);
        self.latest = self.latest.max(answer.mismatch);
        self.learned = self.learned.max(answer.learned);
    }

    /// Both tallies.
    fn with(mut self, other: Self) -> Self {
        self.pairs += other.pairs;
        self.checks += other.checks;
        self.differ += other.differ;
        let add = |ours: &mut [u64], theirs: &[u64]| ours.iter_mut().zip(theirs).for_each(|(our, their)| *our += their);
        self.met.add(&other.met);
        add(&mut self.statuses, &other.statuses);
        add(&mut self.limited, &other.limited);
        add(self.gave_up.as_flattened_mut(), other.gave_up.as_flattened());
        add(&mut self.proved, &other.proved);
        add(&mut self.settled, &other.settled);
        add(&mut self.learned_most, &other.learned_most);
        self.deepest = self.deepest.max(other.deepest);
        self.latest = self.latest.max(other.latest);
        self.learned = self.learned.max(other.learned);
        self.clocks += other.clocks;
        self.modes.add(&other.modes);
        self
    }

    /// The refusals, the statuses, what there is of give-ups, the queries that learned most, and what the mode of the earliest cycle shows, that were not met.
    fn missing(&self) -> Vec<String> {
        let mut missing = self.met.missing(Kind::Check);
        missing.extend((0..4).filter(|status| self.statuses[*status] == 0).map(|status| format!("status {status}")));
        for query in 1..5 {
            let depths = self.gave_up[query].iter().zip(["at depth 1", "deeper"]).filter(|(times, _)| **times == 0);
            missing.extend(depths.map(|(_, depth)| format!("a give-up in query {query} {depth}")));
        }
        let cycles = self.proved.iter().zip(["no cycle", "a cycle"]).filter(|(times, _)| **times == 0);
        missing.extend(cycles.map(|(_, cycle)| format!("a give-up that proves {cycle}")));
        missing.extend((0..4).filter(|status| self.settled[*status] == 0).map(|status| format!("a give-up under a smaller limit alone, else status {status}")));
        missing.extend((1..5).filter(|query| self.learned_most[*query] == 0).map(|query| format!("a check that learned most in query {query}")));
        missing.extend((self.clocks == 0).then(|| "a trace with a clock".into()));
        missing.extend(self.modes.missing());
        missing
    }
}

/// One call: two records, the depth, the limit, whether the earliest cycle is asked for, and the lengths lent.
#[derive(Clone, Copy)]
struct Asked<'a> {
    gold: &'a [u8],
    gate: &'a [u8],
    depth: u64,
    limit: u64,
    earliest: bool,
    lent: Lent,
}

/// The oracle's answer in the library's numbers.
fn expected(answer: &CheckAnswer) -> Check {
    match answer.refusal {
        Some(refusal) => {
            Check { number: u32::from(refusal.number), side: u32::from(refusal.side), place: refusal.place as u32, ..Check::default() }
        }
        None => Check {
            status: u32::from(answer.status),
            depth: answer.depth as u32,
            mismatch: answer.mismatch as u32,
            query: answer.query as u32,
            learned: answer.learned as u32,
            learned_depth: answer.learned_depth as u32,
            learned_query: answer.learned_query as u32,
            equal: answer.equal,
            through: answer.through as u32,
            ..Check::default()
        },
    }
}

/// What a thread works with: memory for accepted checks, and memory that refused ones must leave alone.
struct Worker<'a, C> {
    call: &'a C,
    rng: Rng,
    used: Memory,
    held: Memory,
    tally: Tally,
}

impl<C: Call> Worker<'_, C> {
    /// One check, made by both; the oracle's answer, which says which memory is lent, and what the library told.
    fn check(&mut self, asked: Asked) -> (CheckAnswer, Made) {
        let (answer, report) = check_reporting(asked.gold, asked.gate, asked.depth, asked.limit, asked.earliest, asked.lent, Wish::default());
        self.tally.count(&answer);
        let accepted = answer.refusal.is_none();
        self.tally.limited[usize::from(accepted)] += u64::from(asked.limit != LARGEST);
        let mut lent = asked.lent;
        if answer.refusal.is_some_and(|refusal| refusal.number != 24) && !self.rng.one_in(8) {
            lent = Lent { trace: self.rng.below(40) as u64, words: self.rng.below(200) as u64, scores: self.rng.below(200) as u64 };
        }
        let mut trace = Trace::new(&mut self.rng, lent.trace as usize);
        let memory = if accepted { &mut self.used } else { &mut self.held };
        if accepted {
            memory.guard(lent);
            memory.dirty(&mut self.rng, lent);
        }
        let (words, scores) = memory.lend(lent);
        let told = (self.call)(asked.gold, asked.gate, asked.depth, asked.limit, asked.earliest, trace.lend(), words, scores);
        let wanted = expected(&answer);
        let fault = (told != wanted)
            .then(|| format!("{told:?}"))
            .or_else(|| trace.fault(&answer.trace))
            .or_else(|| memory.fault(lent, accepted));
        if let Some(fault) = fault {
            memory.refill();
            self.differs(Asked { lent, ..asked }, &answer, &fault);
        }
        let written = trace.lend()[..answer.trace.len()].to_vec();
        if accepted && answer.status == NOT_EQUIVALENT {
            self.trace_clock(asked, &answer, &written);
        }
        let made = Made { told, trace: written, queries: report.queries };
        if asked.earliest {
            self.tally.modes.count(&made, asked.limit != LARGEST);
        }
        (answer, made)
    }

    /// The clock's bytes of a trace, where there is a clock, are 0.
    fn trace_clock(&mut self, asked: Asked, answer: &CheckAnswer, trace: &[u8]) {
        let gold = read(asked.gold).expect("accepted");
        if gold.registers.is_empty() {
            return;
        }
        self.tally.clocks += 1;
        if clock_bytes(&gold, trace, answer.mismatch).iter().any(|byte| *byte != 0) {
            self.differs(asked, answer, "the clock's bytes of the trace are not 0");
        }
    }

    /// Counts a difference, and tells the first ones.
    fn differs(&mut self, asked: Asked, answer: &CheckAnswer, fault: &str) {
        self.tally.differ += 1;
        if self.tally.differ <= 5 {
            println!("{} = {}: {fault}", mode_line(asked.gold, asked.gate, asked.depth, asked.limit, asked.earliest, asked.lent), check_words(answer));
        }
    }

    /// One check without the mode of the earliest cycle and in it, held against each other; one of the two, drawn at random, as it was asked.
    fn in_both_modes<'a>(&mut self, asked: Asked<'a>) -> (Asked<'a>, CheckAnswer, Made) {
        let (without, within) = (Asked { earliest: false, ..asked }, Asked { earliest: true, ..asked });
        let ((answer, plain), (early, made)) = (self.check(without), self.check(within));
        if !self.tally.modes.keeps(&plain, &made) {
            self.differs(within, &early, "the mode changes what it has to keep");
        }
        if early.refusal.is_none() && !self.tally.modes.tells_least(asked.gold, asked.gate, asked.depth, &plain, &made) {
            self.differs(within, &early, "not the least cycle by exhaustive search");
        }
        if self.rng.one_in(2) { (within, early, made) } else { (without, answer, plain) }
    }

    /// Accepted checks under smaller limits, about the totals of the queries that the check under the largest asked, some in both modes; where a search takes long only such as end it early.
    fn limited(&mut self, asked: Asked, answer: &CheckAnswer, queries: &[Query], quick: bool) {
        let mut limits = limits_about(&mut self.rng, queries);
        if !quick {
            limits.push(self.rng.below(EARLY));
            limits.retain(|limit| *limit <= EARLY);
        }
        self.rng.shuffle(&mut limits);
        limits.truncate(LIMITS);
        for limit in limits {
            let asked = Asked { limit: limit as u64, ..asked };
            if self.rng.one_in(4) {
                self.in_both_modes(asked);
                continue;
            }
            let (less, _) = self.check(asked);
            self.tally.settled[usize::from(answer.status)] += u64::from(less.status == GAVE_UP);
        }
    }

    /// A limit above the largest, at any depth and with any lengths, now and then beside a damaged record.
    fn refused_limit(&mut self, asked: Asked) {
        let limit = *self.rng.pick(&REFUSED);
        let depth = if self.rng.one_in(3) { *self.rng.pick(&[0, 64, 65, (1 << 32) + 1, u64::MAX]) } else { asked.depth };
        let lent = if self.rng.one_in(4) { Lent { trace: 0, words: WORDS - 1, scores: SCORES - 1 } } else { asked.lent };
        let (gold, gate) = (damaged_or_empty(&mut self.rng, asked.gold), damaged_or_empty(&mut self.rng, asked.gate));
        let (gold, gate) = match self.rng.below(8) {
            0 => (&gold[..], asked.gate),
            1 => (asked.gold, &gate[..]),
            _ => (asked.gold, asked.gate),
        };
        self.check(Asked { gold, gate, depth, limit, lent, ..asked });
    }

    /// A pair with its swap in both modes, each under smaller limits too, both self checks, a damaged record on either side, other buffers or depths, and a refused limit.
    /// Where a search takes long, each is in one mode: the swap in the other than the pair.
    fn pair(&mut self, asked: Asked, quick: bool) {
        let Asked { gold, gate, depth, limit, lent, .. } = asked;
        self.tally.pairs += 1;
        let cheap = quick || limit <= EARLY as u64;
        for (gold, gate, swapped) in [(gold, gate, false), (gate, gold, true), (gold, gold, false), (gate, gate, false)] {
            let asked = Asked { gold, gate, earliest: asked.earliest != swapped, ..asked };
            let (asked, answer, made) = if cheap && gold != gate {
                self.in_both_modes(asked)
            } else {
                let asked = if cheap { self.in_any_mode(asked) } else { asked };
                let (answer, made) = self.check(asked);
                (asked, answer, made)
            };
            if gold != gate && answer.refusal.is_none() && limit == LARGEST {
                self.limited(asked, &answer, &made.queries, quick);
            }
        }
        let asked = self.in_any_mode(asked);
        let (worse_gold, worse_gate) = (damaged_or_empty(&mut self.rng, gold), damaged_or_empty(&mut self.rng, gate));
        let (gold_side, gate_side) = (self.rng.one_in(2), self.rng.one_in(2));
        if quick {
            let (other_gold, other_gate) = (if gold_side { &worse_gold } else { gold }, if gate_side { &worse_gate } else { gate });
            self.check(Asked { gold: other_gold, gate: other_gate, ..asked });
        }
        let (other_depth, other_lent) = self.varied(depth, lent, quick);
        let varied = self.in_any_mode(Asked { depth: other_depth, lent: other_lent, ..asked });
        self.check(varied);
        let asked = self.in_any_mode(asked);
        self.refused_limit(asked);
    }

    /// The same call in a mode drawn at random.
    fn in_any_mode<'a>(&mut self, asked: Asked<'a>) -> Asked<'a> {
        Asked { earliest: self.rng.one_in(2), ..asked }
    }

    /// Another depth or other lengths; where a search takes long only such as are refused.
    fn varied(&mut self, depth: u64, lent: Lent, quick: bool) -> (u64, Lent) {
        match self.rng.below(if quick { 12 } else { 3 }) {
            0 => (depth, Lent { words: WORDS - 1, ..lent }),
            1 => (depth, Lent { scores: SCORES - 1, ..lent }),
            2 => (*self.rng.pick(&[0, 65, 66, 1 << 32, (1 << 32) + 1, u64::MAX]), lent),
            3 | 4 => (depth, Lent { trace: lent.trace.saturating_sub(1), ..lent }),
            5 => (depth, Lent { trace: 0, words: 0, scores: 0 }),
            6 => (depth, Lent { trace: lent.trace + 1_000, words: WORDS + 4_096, scores: SCORES + 17 }),
            7 => (depth, Lent { trace: lent.trace + 1, words: WORDS + 1, scores: SCORES + 1 }),
            8 => (depth + 1, lent),
            _ => (self.rng.range(1, 4) as u64, lent),
        }
    }

    /// A block of pairs.
    fn block(&mut self, block: &Block) {
        self.rng = Rng::new(block.seed);
        for line in block.lines() {
            let (left, _) = split(&line).expect("a check line");
            let call = check_call(left).unwrap_or_else(|| panic!("no check: {line}"));
            let asked = Asked { gold: &call.gold, gate: &call.gate, depth: call.depth, limit: call.limit, earliest: call.earliest, lent: call.lent };
            self.pair(asked, block.quick());
        }
    }
}

/// A record with damage; none of it where there is nothing to damage.
fn damaged_or_empty(rng: &mut Rng, whole: &[u8]) -> Vec<u8> {
    if whole.len() < 5 { Vec::new() } else { damaged(rng, whole) }
}

/// Pairs of a family: how many, after how many that are left out, and the seed.
struct Block {
    family: &'static str,
    count: usize,
    skip: usize,
    seed: u64,
}

impl Block {
    /// The check lines.
    fn lines(&self) -> Vec<String> {
        let lines = generate(self.family, self.skip + self.count, self.seed);
        lines.into_iter().skip(self.skip).filter(|line| line.starts_with("check ")).collect()
    }

    /// Whether its searches are short.
    fn quick(&self) -> bool {
        !matches!(self.family, "deep" | "hard" | "rescale" | "giveup" | "limits" | "cases" | "earliest" | "dense" | "rows" | "feedback" | "sums")
    }
}

/// Pairs in a block.
const BLOCK: usize = 16;

/// How many smaller limits a pair is checked under at most, and up to which a search that takes long ends early.
const LIMITS: usize = 6;
const EARLY: usize = 4_096;

/// The family of a block: of 200 blocks 68 small, 68 pairs, 30 rewritten, 13 refusals, 10 buffers, 9 late, 1 hard, 1 deep.
fn family(number: usize) -> &'static str {
    match number * 73 % 200 {
        0 => "deep",
        1 => "hard",
        2..=10 => "late",
        11..=20 => "buffers",
        21..=33 => "refusals",
        34..=63 => "rewritten",
        64..=131 => "pairs",
        _ => "small",
    }
}

/// The blocks of a run: the fixed families with a give-up in each query, from 10,000 pairs on all that search long too, then `count` random pairs.
fn blocks(count: usize, seed: u64) -> Vec<Block> {
    let fixed = |family: &'static str| Block { family, count: if family == "earliest" { 300 } else { 200 }, skip: 0, seed };
    let mut blocks = Vec::new();
    if count >= 10_000 {
        blocks.extend((0..2).map(|skip| Block { family: "giveup", count: 1, skip, seed }));
        blocks.extend(["rescale", "cases", "rows", "feedback", "sums"].map(fixed));
        blocks.push(Block { family: "dense", count: 2, skip: 0, seed });
        blocks.push(Block { family: "deep", count: 3, skip: 0, seed });
    }
    blocks.extend((2..6).map(|skip| Block { family: "giveup", count: 1, skip, seed }));
    blocks.extend(["earliest", "sides", "refusals", "limited", "clocks"].map(fixed));
    blocks.push(Block { family: "limits", count: 1, skip: 2, seed });
    let mut left = count;
    for number in 0.. {
        if left == 0 {
            break;
        }
        let family = family(number);
        let (most, skip) = if family == "deep" { (6, 3) } else { (BLOCK, 0) };
        let count = left.min(most);
        blocks.push(Block { family, count, skip, seed: Rng::new(seed ^ (number as u64) << 20).next() });
        left -= count;
    }
    blocks
}

/// Checks the fixed families and `count` random pairs through the library, and says what came of it: each status, a give-up in each query at depth 1 and deeper,
/// with no cycle proved and with one, and under a smaller limit alone, each query as the one that learned most, each refusal on each side that it can have, and what the mode of the earliest
/// cycle shows have to be met. From 10,000 pairs on with the rescaling, the deepest searches and the pairs that are measured alone.
pub fn compare(count: u64, seed: u64) -> ExitCode {
    let threads = std::thread::available_parallelism().map_or(1, usize::from);
    let tally = run(usize::try_from(count).expect("a count fits"), seed, threads, &struo_formal::check);
    println!("checks by refusal, gold+gate: {}", tally.met.told(Kind::Check));
    let [equivalent, different, inconclusive, gave_up] = tally.statuses;
    let [no_cycle, a_cycle] = tally.proved;
    println!("accepted: {equivalent} Equivalent, {different} NotEquivalent, {inconclusive} Inconclusive, {gave_up} GaveUp");
    println!("give-ups by query, 0 to 4, at depth 1 and deeper: {:?}; {no_cycle} prove no cycle, {a_cycle} prove one", tally.gave_up);
    let learning: u64 = tally.learned_most.iter().sum();
    println!("deepest {}, latest mismatch {}", tally.deepest, tally.latest);
    let [refused, limited] = tally.limited;
    println!("under other limits than the largest {limited} checks accepted, {refused} refused; give-ups by their status under the largest {:?}", tally.settled);
    println!("most learned {}, something in {learning} checks (most in query {:?})", tally.learned, tally.learned_most);
    println!("{} traces of designs with registers, the clock's bytes 0 in each that does not differ", tally.clocks);
    println!("{}", tally.modes.told());
    let missing = unmet(&tally.missing());
    println!("{} pairs, {} checks, {} differ", tally.pairs, tally.checks, tally.differ);
    ExitCode::from(u8::from(tally.differ > 0 || missing))
}

/// Checks the fixed families and `count` random pairs on so many threads.
fn run(count: usize, seed: u64, threads: usize, call: &impl Call) -> Tally {
    run_blocks(&blocks(count, seed), threads, call)
}

/// Checks the pairs of blocks; each thread takes the next block that none has taken.
fn run_blocks(blocks: &[Block], threads: usize, call: &impl Call) -> Tally {
    let next = AtomicUsize::new(0);
    let work = || {
        let mut worker = Worker { call, rng: Rng::new(0), used: Memory::held(), held: Memory::held(), tally: Tally::default() };
        while let Some(block) = blocks.get(next.fetch_add(1, Ordering::Relaxed)) {
            worker.block(block);
        }
        worker.tally
    };
    std::thread::scope(|scope| {
        let spawn = |_| std::thread::Builder::new().stack_size(256 << 20).spawn_scoped(scope, work).expect("a thread");
        let workers: Vec<_> = (0..threads).map(spawn).collect();
        workers.into_iter().map(|worker| worker.join().expect("a thread ends")).fold(Tally::default(), Tally::with)
    })
}

#[cfg(test)]
mod tests {
    use super::*;
    use oracle::check::check;

    /// Answers from the oracle, as a library that is right does.
    fn honest(gold: &[u8], gate: &[u8], depth: u64, limit: u64, earliest: bool, trace: &mut [u8], words: &mut [u32], scores: &mut [f64]) -> Check {
        let lent = Lent { trace: trace.len() as u64, words: words.len() as u64, scores: scores.len() as u64 };
        let answer = check(gold, gate, depth, limit, earliest, lent);
        if answer.refusal.is_none() {
            trace[..answer.trace.len()].copy_from_slice(&answer.trace);
            words.fill(0);
            scores.fill(0.0);
        }
        expected(&answer)
    }

    /// A few pairs: small ones, ones whose queries learn something, ones with other buffers, and ones with a fault.
    fn few() -> Vec<Block> {
        let block = |family, count, skip| Block { family, count, skip, seed: 11 };
        vec![block("small", 6, 0), block("rewritten", 2, 0), block("buffers", 7, 0), block("refusals", 4, 84), block("sides", 60, 54)]
    }

    /// Pairs under limits, among them give-ups in query 1 at depth 1 and deeper, in query 2 deeper and in query 3 at depth 1.
    fn under_limits() -> Vec<Block> {
        vec![Block { family: "limited", count: 58, skip: 0, seed: 3 }]
    }

    /// The checks of blocks that differ where `lie` changes what the honest library answered and left.
    fn differing_in(blocks: &[Block], lie: impl Fn(&mut Check, &mut [u8], &mut [u32], &mut [f64]) + Sync) -> u64 {
        let call = |gold: &[u8], gate: &[u8], depth: u64, limit: u64, earliest: bool, trace: &mut [u8], words: &mut [u32], scores: &mut [f64]| {
            let mut answer = honest(gold, gate, depth, limit, earliest, trace, words, scores);
            lie(&mut answer, trace, words, scores);
            answer
        };
        run_blocks(blocks, 1, &call).differ
    }

    /// Those of the few.
    fn differing(lie: impl Fn(&mut Check, &mut [u8], &mut [u32], &mut [f64]) + Sync) -> u64 {
        differing_in(&few(), lie)
    }

    /// The limited checks that differ where `lie` changes what the honest library answered.
    fn differing_answer(lie: impl Fn(&mut Check) + Sync) -> u64 {
        differing_in(&under_limits(), |answer, _, _, _| lie(answer))
    }

    /// The limited checks that differ where the honest library is asked with another limit.
    fn differing_under(other: impl Fn(u64) -> u64 + Sync) -> u64 {
        let call = |gold: &[u8], gate: &[u8], depth: u64, limit: u64, earliest: bool, trace: &mut [u8], words: &mut [u32], scores: &mut [f64]| {
            honest(gold, gate, depth, other(limit), earliest, trace, words, scores)
        };
        run_blocks(&under_limits(), 1, &call).differ
    }

    /// Pairs in the mode of the earliest cycle, among them a yes to query 0, give-ups in query 0 and in query 1 after a no, and differences in later cycles.
    fn in_the_mode() -> Vec<Block> {
        let block = |count, skip| Block { family: "earliest", count, skip, seed: 3 };
        vec![block(30, 0), block(1, 48)]
    }

    /// The checks in the mode that differ where `lie` changes what the honest library answered in it, given what it answers without it.
    fn differing_in_the_mode(lie: impl Fn(&mut Check, &Check) + Sync) -> u64 {
        let call = |gold: &[u8], gate: &[u8], depth: u64, limit: u64, earliest: bool, trace: &mut [u8], words: &mut [u32], scores: &mut [f64]| {
            let mut unwritten = trace.to_vec();
            let plain = honest(gold, gate, depth, limit, false, &mut unwritten, words, scores);
            let mut answer = honest(gold, gate, depth, limit, earliest, trace, words, scores);
            if earliest {
                lie(&mut answer, &plain);
            }
            answer
        };
        run_blocks(&in_the_mode(), 1, &call).differ
    }

    /// The checks that differ where the honest library is asked in another mode.
    fn differing_in_mode(other: impl Fn(bool) -> bool + Sync) -> u64 {
        let call = |gold: &[u8], gate: &[u8], depth: u64, limit: u64, earliest: bool, trace: &mut [u8], words: &mut [u32], scores: &mut [f64]| {
            honest(gold, gate, depth, limit, other(earliest), trace, words, scores)
        };
        run_blocks(&in_the_mode(), 1, &call).differ
    }

    #[test]
    fn the_honest_library_differs_nowhere() {
        let tally = run_blocks(&few(), 2, &honest);
        assert_eq!(tally.differ, 0);
        assert!(tally.statuses[0] > 0 && tally.statuses[1] > 0 && tally.met.times(24) > 0 && tally.met.times(30) > 0 && tally.clocks > 0);
        let tally = run_blocks(&under_limits(), 2, &honest);
        assert_eq!(tally.differ, 0);
        assert!(tally.statuses.iter().all(|times| *times > 0) && tally.met.times(36) > 0);
        let gave_up = [tally.gave_up[1][0], tally.gave_up[1][1], tally.gave_up[2][1], tally.gave_up[3][0]];
        assert!(tally.proved.iter().chain(&tally.limited).chain(&gave_up).all(|times| *times > 0));
    }

    #[test]
    fn a_wrong_answer_is_found() {
        assert!(differing(|answer, _, _, _| answer.depth += u32::from(answer.number == 0)) > 0);
        assert!(differing(|answer, _, _, _| answer.status = if answer.status == 1 { 2 } else { answer.status }) > 0);
        assert!(differing(|answer, _, _, _| answer.place = 0) > 0);
        assert!(differing(|answer, _, _, _| answer.side = 0) > 0);
    }

    #[test]
    fn a_wrong_refusal_of_a_read_clock_is_found() {
        let clocks = [Block { family: "clocks", count: 200, skip: 0, seed: 1 }];
        assert_eq!(run_blocks(&clocks, 1, &honest).differ, 0);
        assert!(differing_in(&clocks, |answer, _, _, _| if answer.number == 30 { *answer = Check::default() }) > 0);
        assert!(differing_in(&clocks, |answer, _, _, _| if answer.number == 30 { answer.side = 0 }) > 0);
        assert!(differing_in(&clocks, |answer, _, _, _| if answer.number == 30 { answer.place = 0 }) > 0);
    }

    #[test]
    fn a_wrong_total_or_its_query_is_found() {
        assert!(differing(|answer, _, _, _| answer.learned = 0) > 0);
        assert!(differing(|answer, _, _, _| answer.learned += u32::from(answer.learned > 0)) > 0);
        assert!(differing(|answer, _, _, _| answer.learned_depth = answer.depth) > 0);
        assert!(differing(|answer, _, _, _| answer.learned_query = u32::from(answer.number == 0)) > 0);
        assert!(differing(|answer, _, _, _| if answer.number > 0 { (answer.learned_depth, answer.learned_query) = (1, 1) }) > 0);
        assert!(differing(|answer, _, _, _| if answer.number == 0 && answer.learned == 0 { (answer.learned_depth, answer.learned_query) = (0, 0) }) > 0);
    }

    #[test]
    fn another_limit_is_found() {
        assert!(differing_under(|limit| limit.max(LARGEST)) > 0);
        assert!(differing_under(|limit| limit.min(LARGEST)) > 0);
        assert!(differing_under(|limit| if limit <= LARGEST { limit.saturating_sub(1) } else { limit }) > 0);
        assert!(differing_under(|limit| if limit < LARGEST { limit + 1 } else { limit }) > 0);
        assert!(differing_under(|limit| limit & u64::from(u32::MAX)) > 0);
    }

    #[test]
    fn a_wrong_cycle_is_found() {
        assert!(differing_answer(|answer| answer.through = if answer.equal { answer.depth } else { 0 }) > 0);
        assert!(differing_answer(|answer| answer.through = if answer.equal { answer.depth - 1 } else { 0 }) > 0);
        assert!(differing_answer(|answer| answer.equal |= answer.status == 3) > 0);
        assert!(differing_answer(|answer| answer.equal = false) > 0);
        assert!(differing_answer(|answer| if answer.status == 2 { (answer.equal, answer.through) = (true, answer.depth) }) > 0);
        assert!(differing_answer(|answer| if answer.number == 36 { answer.equal = true }) > 0);
        assert!(differing_answer(|answer| answer.number = if answer.number == 36 { 17 } else { answer.number }) > 0);
    }

    #[test]
    fn another_mode_is_found() {
        let tally = run_blocks(&in_the_mode(), 2, &honest);
        assert_eq!(tally.differ, 0);
        assert!(tally.gave_up[0][0] > 0 && tally.statuses.iter().all(|times| *times > 0));
        assert!(differing_in_mode(|_| false) > 0);
        assert!(differing_in_mode(|_| true) > 0);
        assert!(differing_in_mode(|earliest| !earliest) > 0);
    }

    #[test]
    fn a_wrong_query_0_is_found() {
        let gave_up_at_1 = |answer: &Check, query: u32| answer.status == 3 && (answer.depth, answer.query) == (1, query);
        assert!(differing_in_the_mode(|answer, _| if gave_up_at_1(answer, 0) { answer.query = 1 }) > 0);
        assert!(differing_in_the_mode(|answer, _| if gave_up_at_1(answer, 0) { answer.equal = true }) > 0);
        assert!(differing_in_the_mode(|answer, _| if gave_up_at_1(answer, 1) { answer.equal = false }) > 0);
        assert!(differing_in_the_mode(|answer, _| if answer.number == 0 && answer.learned == 0 { answer.learned_query = 1 }) > 0);
        assert!(differing_in_the_mode(|answer, plain| (answer.learned, answer.learned_depth, answer.learned_query) = (plain.learned, plain.learned_depth, plain.learned_query)) > 0);
        assert!(differing_in_the_mode(|answer, plain| answer.mismatch = plain.mismatch) > 0);
        assert!(differing_in_the_mode(|answer, plain| answer.status = plain.status) > 0);
        assert!(differing_in_the_mode(|answer, _| if answer.status == 1 && answer.mismatch == 0 { answer.depth = 0 }) > 0);
    }

    #[test]
    fn a_trace_of_cycle_0_kept_from_query_1_is_found() {
        let call = |gold: &[u8], gate: &[u8], depth: u64, limit: u64, earliest: bool, trace: &mut [u8], words: &mut [u32], scores: &mut [f64]| {
            let mut kept = trace.to_vec();
            let plain = honest(gold, gate, depth, limit, false, &mut kept, words, scores);
            let answer = honest(gold, gate, depth, limit, earliest, trace, words, scores);
            if earliest && plain.status == 1 && answer.status == 1 {
                trace.copy_from_slice(&kept);
            }
            answer
        };
        assert!(run_blocks(&in_the_mode(), 1, &call).differ > 0);
    }

    #[test]
    fn a_trace_byte_is_found() {
        assert!(differing(|answer, trace, _, _| if answer.status == 1 { trace[0] ^= 1 }) > 0);
        assert!(differing(|_, trace, _, _| if let Some(last) = trace.last_mut() { *last = 1 }) > 0);
        assert!(differing(|answer, trace, _, _| if answer.number > 0 && !trace.is_empty() { trace[0] = 0 }) > 0);
    }

    #[test]
    fn a_word_is_found() {
        assert!(differing(|answer, _, words, _| if answer.number == 0 { words[8_388_607] = 1 }) > 0);
        assert!(differing(|answer, _, words, _| if answer.number == 0 { words[4_000_001] = 1 << 31 }) > 0);
        assert!(differing(|answer, _, words, _| if answer.number == 0 && words.len() > 8_388_608 { words[8_388_608] = 1 }) > 0);
        assert!(differing(|answer, _, words, _| if answer.number > 0 { words.fill(0) }) > 0);
        assert!(differing_in(&under_limits(), |answer, _, words, _| if answer.number == 36 { words.fill(0) }) > 0);
    }

    #[test]
    fn a_score_is_found() {
        assert!(differing(|answer, _, _, scores| if answer.number == 0 { scores[65_535] = -0.0 }) > 0);
        assert!(differing(|answer, _, _, scores| if answer.number > 0 && !scores.is_empty() { scores[0] = 0.0 }) > 0);
    }

    #[test]
    fn a_nan_with_another_payload_is_found() {
        let quieted = |score: &f64| f64::from_bits(score.to_bits() | 1 << 51);
        assert!(differing(|answer, _, _, scores| if answer.number > 0 { scores.iter_mut().filter(|score| score.is_nan()).for_each(|score| *score = quieted(score)) }) > 0);
        assert!(differing(|answer, _, _, scores| if answer.number > 0 { scores.iter_mut().filter(|score| score.is_nan()).for_each(|score| *score = f64::NAN) }) > 0);
        assert!(differing(|answer, _, _, scores| if answer.number == 0 { scores[7] = f64::NAN }) > 0);
    }

    #[test]
    fn what_was_not_met_is_said() {
        let missing = run_blocks(&few(), 2, &honest).missing();
        let all = [
            "a give-up in query 2 deeper",
            "a give-up under a smaller limit alone, else status 3",
            "a check that learned most in query 2",
            "in the mode a give-up in query 0",
            "in the mode several mismatches that are earlier than without it",
            "in the mode refusal 23",
        ];
        let met: Vec<&&str> = all.iter().filter(|what| !missing.contains(&String::from(**what))).collect();
        assert!(met.is_empty(), "{met:?}");
    }
}
