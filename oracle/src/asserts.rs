//! Laws asserted over random pairs.
use crate::check::{prove, CheckAnswer, EQUIVALENT, GAVE_UP, NOT_EQUIVALENT};
use crate::exhaustive::{first_difference, induction, least_over_sequences};
use crate::families::{random_pair, Pair};
use crate::limited::limits_about;
use crate::meter::{Ending, Query, Report, Wish, LEARNED_LIMIT};
use crate::random::{ClockRead, Size};
use crate::record::{clock_refusal, encode, Design};
use crate::rng::Rng;
use crate::run::{clock_bytes, clock_column, initial, next, outputs, replay, values, Inputs};

/// How often each thing was seen.
#[derive(Debug, Default)]
pub struct Summary {
    pub pairs: usize,
    pub statuses: [usize; 4],
    pub deepest: usize,
    pub replays: usize,
    pub selves: usize,
    pub swaps: usize,
    pub tiny: usize,
    pub questions: [[usize; 2]; 5],
    pub most_learned: usize,
    /// Checks under other limits, those of them that gave up by query, 0 to 4, at depth 1 and deeper, and those whose proved cycle was searched exhaustively.
    pub limited: usize,
    pub given_up: [[usize; 2]; 5],
    pub searched: usize,
    /// Pairs in the mode of the earliest cycle: those answered yes to query 0, those of them whose mismatch without the mode is cycle 1, those whose query 0 learned
    /// more than all others, and mismatches that were searched exhaustively, by states and by input sequences.
    pub at_once: usize,
    pub earlier: usize,
    pub first_most: usize,
    pub least: usize,
    pub sequences: usize,
    /// Designs with registers that were run on two input sequences which differ in the clock's bits alone, and traces of such designs.
    pub two_clocks: usize,
    pub clock_columns: usize,
    pub failures: Vec<String>,
}

impl Summary {
    /// Keeps a failure where a law does not hold.
    fn expect(&mut self, holds: bool, what: &str, pair: &Pair) {
        if !holds && self.failures.len() < 20 {
            self.failures.push(format!("{what}: {:?} {:?} to {}", pair.gold, pair.gate, pair.depth));
        }
    }
}

/// A NotEquivalent trace replays yes, and with a mark turned no.
fn trace_replays(summary: &mut Summary, pair: &Pair, answer: &CheckAnswer) {
    let (gold, gate) = (encode(&pair.gold), encode(&pair.gate));
    let yes = replay(&gold, &gate, answer.mismatch as u64, &answer.trace);
    summary.expect(yes.refusal.is_none() && yes.yes, "the trace does not replay", pair);
    let mut turned = answer.trace.clone();
    *turned.last_mut().expect("an output is marked") ^= 1;
    let no = replay(&gold, &gate, answer.mismatch as u64, &turned);
    summary.expect(no.refusal.is_none() && !no.yes, "a turned mark replays", pair);
    summary.expect(answer.mismatch <= answer.depth, "the mismatch is past the depth", pair);
    summary.replays += 1;
    if !pair.gold.registers.is_empty() {
        let clock = clock_bytes(&pair.gold, &answer.trace, answer.mismatch);
        summary.expect(clock.iter().all(|byte| *byte == 0), "the clock's bytes of a trace are 0", pair);
        summary.clock_columns += 1;
    }
}

/// Whether a design with registers has the same outputs and stored bits in so many cycles of two random input sequences that differ in every bit of the clock and in nothing else.
pub fn clock_is_no_data(rng: &mut Rng, design: &Design, cycles: usize) -> bool {
    let names = design.input_names();
    let clock = &names[clock_column(design).expect("a design with registers")];
    let (mut stored, mut other_stored) = (initial(design), initial(design));
    for _ in 0..cycles {
        let inputs: Inputs = names.iter().map(|name| (name.clone(), rng.one_in(2))).collect();
        let mut other_inputs = inputs.clone();
        other_inputs.insert(clock.clone(), !inputs[clock]);
        let (bits, other_bits) = (values(design, &inputs, &stored), values(design, &other_inputs, &other_stored));
        let same_outputs = outputs(design, &bits) == outputs(design, &other_bits);
        (stored, other_stored) = (next(design, &bits, &stored), next(design, &other_bits, &other_stored));
        if !same_outputs || stored != other_stored {
            return false;
        }
    }
    true
}

/// The clock is no data of either design of a pair that is accepted.
fn clocks(summary: &mut Summary, rng: &mut Rng, pair: &Pair) {
    for design in [&pair.gold, &pair.gate] {
        summary.expect(clock_refusal(design).is_ok(), "a design reads its clock", pair);
        if !design.registers.is_empty() {
            summary.expect(clock_is_no_data(rng, design, 12), "the clock is data", pair);
            summary.two_clocks += 1;
        }
    }
}

/// A design against itself is Equivalent at depth 1, with nothing learned, which query 1 of depth 1 has first, or query 0 in the mode.
fn self_check(summary: &mut Summary, pair: &Pair, design: &Design, earliest: bool) {
    let (answer, _) = prove(design, design, pair.depth, earliest, Wish::default());
    let learned = (answer.learned, answer.learned_depth, answer.learned_query);
    let holds = (answer.status, answer.depth, learned) == (EQUIVALENT, 1, (0, 1, usize::from(!earliest)));
    summary.expect(holds, "a design against itself", pair);
    summary.selves += 1;
}

/// A swapped pair keeps status and depth where neither gives up.
fn swapped(summary: &mut Summary, pair: &Pair, answer: &CheckAnswer, earliest: bool) {
    let (other, _) = prove(&pair.gate, &pair.gold, pair.depth, earliest, Wish::default());
    let holds = other.status == GAVE_UP || answer.status == GAVE_UP || (other.status, other.depth) == (answer.status, answer.depth);
    summary.expect(holds, "a swapped pair", pair);
    summary.swaps += 1;
}

/// The queries' answers are those of exhaustive search.
fn exhaustive(summary: &mut Summary, pair: &Pair, answer: &CheckAnswer, report: &Report, earliest: bool) {
    let (status, depth, asked) = induction(&pair.gold, &pair.gate, pair.depth, earliest);
    let told: Vec<(usize, usize, bool)> =
        report.queries.iter().map(|query| (query.depth, query.number, query.ending == Ending::Model)).collect();
    summary.expect((status, depth) == (answer.status, answer.depth), "status and depth by exhaustive search", pair);
    summary.expect(asked == told, "the questions by exhaustive search", pair);
    for (_, number, yes) in asked {
        summary.questions[number][usize::from(yes)] += 1;
    }
    summary.tiny += 1;
}

/// What the mode of the earliest cycle changes. Where query 0 says yes, the mismatch is cycle 0 and nothing else is asked, and without the mode the check says
/// NotEquivalent at depth 1 too; where it says no, all other queries are those without the mode, step for step, and so are status, depth, mismatch and trace. The most
/// learned is the larger of query 0's and that without the mode, query 0's where they are equal.
pub fn mode_keeps(without: (&CheckAnswer, &[Query]), within: (&CheckAnswer, &[Query])) -> bool {
    let ((plain, others), (answer, queries)) = (without, within);
    let Some((first, later)) = queries.split_first() else { return false };
    if (first.depth, first.number) != (1, 0) {
        return false;
    }
    if plain.status == GAVE_UP || answer.status == GAVE_UP {
        return true;
    }
    let zero = (first.learned, 1, 0);
    let learned = (answer.learned, answer.learned_depth, answer.learned_query);
    if first.ending == Ending::Model {
        let verdict = (answer.status, answer.depth, answer.mismatch) == (NOT_EQUIVALENT, 1, 0);
        return verdict && later.is_empty() && learned == zero && (plain.status, plain.depth) == (NOT_EQUIVALENT, 1);
    }
    let steps = |query: &Query| (query.depth, query.number, query.learned, query.conflicts, query.propagations, query.ending, query.nodes);
    let most = if plain.learned > first.learned { (plain.learned, plain.learned_depth, plain.learned_query) } else { zero };
    let verdict = |answer: &CheckAnswer| (answer.status, answer.depth, answer.mismatch, answer.query, answer.trace.clone());
    later.iter().map(steps).eq(others.iter().map(steps)) && verdict(plain) == verdict(answer) && learned == most
}

/// Whether the mismatch told is the least: always in the mode, and without it from depth 2 on.
pub fn tells_least(answer: &CheckAnswer, earliest: bool, least: Option<usize>) -> bool {
    match answer.status {
        NOT_EQUIVALENT if earliest || answer.depth > 1 => least == Some(answer.mismatch),
        NOT_EQUIVALENT => least.is_some_and(|cycle| cycle <= answer.mismatch),
        GAVE_UP => !answer.equal || least.is_none_or(|cycle| cycle > answer.through),
        _ => least.is_none(),
    }
}

/// Whether all input sequences to a depth are few.
fn has_few_sequences(pair: &Pair) -> bool {
    pair.gold.input_names().len() * (pair.depth + 1) <= 12
}

/// The laws of the mode: what it changes, those that hold without it, and on tiny pairs that the mismatch is the least cycle, by a search through states and through
/// input sequences.
fn in_the_mode(summary: &mut Summary, limits: &mut Rng, pair: &Pair, plain: &CheckAnswer, others: &[Query]) {
    let (answer, report) = prove(&pair.gold, &pair.gate, pair.depth, true, Wish::default());
    summary.expect(mode_keeps((plain, others), (&answer, &report.queries)), "what the mode changes", pair);
    if answer.status == NOT_EQUIVALENT {
        trace_replays(summary, pair, &answer);
    }
    swapped(summary, pair, &answer, true);
    self_check(summary, pair, &pair.gold, true);
    limited(summary, limits, pair, &report.queries, true);
    let at_once = report.queries.len() == 1 && answer.status == NOT_EQUIVALENT;
    summary.at_once += usize::from(at_once);
    summary.earlier += usize::from(at_once && plain.mismatch == 1);
    summary.first_most += usize::from(report.queries[1..].iter().all(|query| query.learned < report.queries[0].learned) && !at_once);
    if is_tiny(pair) {
        exhaustive(summary, pair, &answer, &report, true);
        let least = first_difference(&pair.gold, &pair.gate, pair.depth);
        summary.expect(tells_least(plain, false, least) && tells_least(&answer, true, least), "the least cycle", pair);
        summary.least += 1;
        if has_few_sequences(pair) {
            summary.expect(least == least_over_sequences(&pair.gold, &pair.gate, pair.depth), "the least cycle over all input sequences", pair);
            summary.sequences += 1;
        }
    }
}

/// Through which cycle a give-up at a depth in a query proves outputs equal, in the mode of the earliest cycle or without it.
fn proved_at(depth: usize, query: usize, earliest: bool) -> Option<usize> {
    match (depth, query) {
        (1, 0) => None,
        (1, 1) => earliest.then_some(0),
        (_, 1) => Some(depth - 1),
        _ => Some(depth),
    }
}

/// The cycle that an answer tells; none is below every cycle.
fn told_cycle(answer: &CheckAnswer) -> Option<usize> {
    answer.equal.then_some(answer.through)
}

/// The last query alone gives up, exactly where its next clause would pass the limit, and the cycle told is that of its place; no other answer tells one.
pub fn told_by_rule(answer: &CheckAnswer, queries: &[Query], limit: usize, earliest: bool) -> bool {
    let begins = queries.first().is_some_and(|query| (query.depth, query.number) == (1, usize::from(!earliest)));
    let last = queries.last().expect("a query is asked");
    let gave_up = answer.status == GAVE_UP;
    let within = queries.iter().all(|query| query.learned <= limit);
    let passes = last.ending == Ending::GaveUp && last.learned + last.next > limit;
    let proved = if gave_up { proved_at(answer.depth, answer.query, earliest) } else { None };
    let place = !gave_up || (answer.depth, answer.query) == (last.depth, last.number);
    begins && within && passes == gave_up && place && told_cycle(answer) == proved && (answer.equal || answer.through == 0)
}

/// Under a larger limit a check keeps its whole answer, or goes on from where it gave up: to a give-up with no lower cycle, no earlier place and no smaller
/// largest total, or to a status whose mismatch, if it has one, lies beyond the cycle proved.
pub fn goes_on(less: &CheckAnswer, more: &CheckAnswer) -> bool {
    if less.status != GAVE_UP {
        return less == more;
    }
    let beyond = match more.status {
        GAVE_UP => told_cycle(less) <= told_cycle(more) && (less.depth, less.query) <= (more.depth, more.query),
        NOT_EQUIVALENT => told_cycle(less) < Some(more.mismatch) && less.depth <= more.depth,
        _ => less.depth <= more.depth,
    };
    beyond && less.learned <= more.learned
}

/// The laws of limits about the totals of a pair's queries, from 0 to the largest limit; on tiny pairs no run differs through the cycle told.
fn limited(summary: &mut Summary, rng: &mut Rng, pair: &Pair, queries: &[Query], earliest: bool) {
    let first = is_tiny(pair).then(|| first_difference(&pair.gold, &pair.gate, pair.depth));
    let mut less: Option<CheckAnswer> = None;
    for limit in limits_about(rng, queries).into_iter().chain([LEARNED_LIMIT]) {
        let (answer, report) = prove(&pair.gold, &pair.gate, pair.depth, earliest, Wish { limit, ..Wish::default() });
        summary.limited += 1;
        summary.expect(told_by_rule(&answer, &report.queries, limit, earliest), "the cycle told under a limit", pair);
        summary.expect(less.is_none_or(|less| goes_on(&less, &answer)), "a larger limit", pair);
        if answer.status == GAVE_UP {
            summary.given_up[answer.query][usize::from(answer.depth > 1)] += 1;
        }
        if let Some(first) = first.filter(|_| answer.equal) {
            summary.expect(first.is_none_or(|cycle| cycle > answer.through), "a run differs in a cycle told as proved", pair);
            summary.searched += 1;
        }
        less = Some(answer);
    }
}

/// Whether exhaustive search is quick.
fn is_tiny(pair: &Pair) -> bool {
    pair.gold.registers.len() + pair.gate.registers.len() + pair.gold.input_names().len() <= 9 && pair.depth <= 6
}

/// The laws over so many random pairs of a seed.
pub fn run(count: usize, seed: u64) -> Summary {
    let mut rng = Rng::new(seed);
    let mut limits = Rng::new(!seed);
    let mut inputs = Rng::new(seed.rotate_left(32));
    let mut summary = Summary::default();
    for _ in 0..count {
        let tiny = !rng.one_in(3);
        let size = if tiny {
            Size { inputs: 3, outputs: 2, registers: 3, gates: 8 }
        } else {
            Size { inputs: 6, outputs: 5, registers: 6, gates: 24 }
        };
        let pair = random_pair(&mut rng, size, 5, ClockRead::Never);
        let (answer, report) = prove(&pair.gold, &pair.gate, pair.depth, false, Wish::default());
        summary.pairs += 1;
        summary.statuses[usize::from(answer.status)] += 1;
        summary.deepest = summary.deepest.max(answer.depth);
        summary.most_learned = summary.most_learned.max(answer.learned);
        if answer.status == NOT_EQUIVALENT {
            trace_replays(&mut summary, &pair, &answer);
        }
        clocks(&mut summary, &mut inputs, &pair);
        self_check(&mut summary, &pair, &pair.gold, false);
        self_check(&mut summary, &pair, &pair.gate, false);
        swapped(&mut summary, &pair, &answer, false);
        limited(&mut summary, &mut limits, &pair, &report.queries, false);
        if is_tiny(&pair) {
            exhaustive(&mut summary, &pair, &answer, &report, false);
        }
        in_the_mode(&mut summary, &mut limits, &pair, &answer, &report.queries);
    }
    summary
}
