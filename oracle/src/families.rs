//! The families of vector lines: pairs, reads, replays; each deterministic by its seed.
use crate::check::{prove, NOT_EQUIVALENT};
use crate::clocks;
use crate::dense::{dense, Dense};
use crate::earliest;
use crate::limited;
use crate::meter::Wish;
use crate::pair::{cost, trace_need, Lent, SCORES, WORDS};
use crate::random::{changed, design, interface, register_names, ClockRead, Size};
use crate::record::{encode, Design, Name};
use crate::reads;
use crate::refusals;
use crate::rewrite::rewritten;
use crate::rng::Rng;
use crate::shapes::{self, Builder, Feedback, Multiplier};
use crate::solving;
use crate::vectors::{check_line, hex, replay_line};

/// Two designs and a maximum depth.
#[derive(Clone, Debug)]
pub struct Pair {
    pub gold: Design,
    pub gate: Design,
    pub depth: usize,
}

impl Pair {
    /// The check with just enough memory.
    pub fn line(&self) -> String {
        self.line_with(0)
    }

    /// The check with so much more of each buffer.
    pub fn line_with(&self, more: u64) -> String {
        let depth = self.depth as u64;
        let lent = Lent { trace: trace_need(&self.gold, depth) + more, words: WORDS + more, scores: SCORES + more };
        check_line(&encode(&self.gold), &encode(&self.gate), depth, lent)
    }

    /// The depth lowered until refusal 23 does not apply.
    fn fitted(mut self) -> Self {
        while self.depth > 1 && cost(&self.gold, &self.gate, self.depth as u64) > 65_535 {
            self.depth -= 1;
        }
        self
    }
}

/// A register's name kept, or changed so that no register of the other side has it.
fn renaming(rng: &mut Rng) -> impl Fn(&Name) -> Name {
    let way = rng.below(4);
    move |name: &Name| {
        let mut name = name.clone();
        let changes = way == 1 || way == 2 && name.len() % 2 == 1;
        if changes {
            name.truncate(31);
            name.push(b'_');
        }
        name
    }
}

/// A random pair with one interface: changed, rewritten, or another design altogether.
pub fn random_pair(rng: &mut Rng, size: Size, depth: usize, clock: ClockRead) -> Pair {
    let registers = rng.below(size.registers + 1);
    let interface = interface(rng, size, registers > 0, clock);
    let names = register_names(rng, registers);
    let gates = rng.below(size.gates + 1);
    let gold = design(rng, &interface, &names, gates);
    let gate = match rng.below(5) {
        0 => {
            let other = register_names(rng, registers);
            let gates = rng.below(size.gates + 1);
            let chosen = if rng.one_in(2) { &names } else { &other };
            design(rng, &interface, chosen, gates)
        }
        1 | 2 => changed(rng, &gold, interface.clock_read),
        3 => {
            let once = changed(rng, &gold, interface.clock_read);
            let rename = renaming(rng);
            rewritten(rng, &once, interface.clock_read, rename)
        }
        _ => {
            let rename = renaming(rng);
            rewritten(rng, &gold, interface.clock_read, rename)
        }
    };
    let depth = rng.range(1, depth);
    Pair { gold, gate, depth }.fitted()
}

/// Random valid pairs of all shapes.
fn pairs(rng: &mut Rng, count: usize, clock: ClockRead) -> Vec<String> {
    (0..count)
        .map(|_| {
            let size = Size { inputs: 6, outputs: 5, registers: 6, gates: rng.range(0, 30) };
            let depth = if rng.one_in(8) { 64 } else { 8 };
            let pair = random_pair(rng, size, depth, clock);
            let more = if rng.one_in(4) { rng.range(1, 9) as u64 } else { 0 };
            pair.line_with(more)
        })
        .collect()
}

/// Small pairs.
fn small_pairs(rng: &mut Rng, count: usize, clock: ClockRead) -> Vec<String> {
    let size = Size { inputs: 3, outputs: 2, registers: 2, gates: 4 };
    (0..count).map(|_| random_pair(rng, size, 3, clock).line()).collect()
}

/// Rewritten equivalents.
fn rewritten_pairs(rng: &mut Rng, count: usize, clock: ClockRead) -> Vec<String> {
    (0..count)
        .map(|_| {
            let size = Size { inputs: 5, outputs: 4, registers: 6, gates: 30 };
            let registers = rng.below(size.registers + 1);
            let interface = interface(rng, size, registers > 0, clock);
            let names = register_names(rng, registers);
            let gates = rng.range(1, size.gates);
            let gold = design(rng, &interface, &names, gates);
            let rename = renaming(rng);
            let gate = rewritten(rng, &gold, interface.clock_read, rename);
            let depth = rng.range(1, 10);
            Pair { gold, gate, depth }.fitted().line()
        })
        .collect()
}

/// A row of so many registers, PREFIX0 and on.
fn long_row(prefix: &str, length: usize) -> Design {
    let names: Vec<String> = (0..length).map(|place| format!("{prefix}{place}")).collect();
    let names: Vec<&str> = names.iter().map(String::as_str).collect();
    shapes::row(&names)
}

/// A pair whose difference first shows at cycle k.
pub fn deep_pair(rng: &mut Rng, cycle: usize) -> Pair {
    let prefix = if rng.one_in(2) { "p" } else { "q" };
    let width = (usize::BITS - cycle.leading_zeros()) as usize + rng.below(2);
    let enabled = cycle <= 30 && rng.one_in(2);
    let (gold, gate) = match rng.below(5) {
        0 if cycle <= 20 => (long_row("p", cycle), shapes::holding()),
        1 if cycle <= 20 => (long_row("p", cycle), long_row(prefix, cycle + 1)),
        2 if cycle <= 24 => (shapes::ring("p", cycle + 1), shapes::holding()),
        3 => (shapes::counter("p", width, cycle, enabled), shapes::counter(prefix, width + 1, cycle + (1 << width), enabled)),
        _ => (shapes::counter("p", width, cycle, enabled), shapes::holding()),
    };
    Pair { gold, gate, depth: cycle }
}

/// A pair whose induction closes at depth k and not before: rows of k registers, all named apart or but for one.
pub fn late_proof(rng: &mut Rng, length: usize, clock: ClockRead) -> Pair {
    let gold = long_row("p", length);
    let kept = rng.below(2 * length);
    let rename = move |name: &Name| {
        let mut name = name.clone();
        if name != shapes::numbered("p", kept) {
            name[0] = b'q';
        }
        name
    };
    let clock_read = clock.drawn(rng);
    let gate = rewritten(rng, &gold, clock_read, rename);
    Pair { gold, gate, depth: length }
}

/// A row of 32 registers against one rewritten, with no register named alike: Equivalent at depth 32, by query 4.
fn shift_rows(rng: &mut Rng) -> Vec<String> {
    let gold = long_row("p", 32);
    let gate = rewritten(rng, &gold, false, |name| [b"q", &name[1..]].concat());
    vec![Pair { gold, gate, depth: 32 }.line()]
}

/// Dense pairs, by turns 400 gates and 8 registers a side to depth 16, and 1,024 nodes and 40 registers a side to depth 8, where the sum of refusal 23 is 65,465.
fn dense_pairs(rng: &mut Rng, count: usize) -> Vec<String> {
    let small = Dense { inputs: 16, outputs: 4, registers: 8, nodes: 428, late: 10, more: 10 };
    let large = Dense { inputs: 64, outputs: 64, registers: 40, nodes: 1_024, late: 10, more: 10 };
    (0..count)
        .map(|place| {
            let (size, depth) = if place % 2 == 0 { (small, 16) } else { (large, 8) };
            let (gold, gate) = dense(rng, size);
            Pair { gold, gate, depth }.line()
        })
        .collect()
}

/// The two forms of a linear feedback shift register of 8 bits, y being 1 in the state after 60 cycles: Inconclusive at 48, since free states may agree in y for up to 255 cycles.
fn feedback() -> Vec<String> {
    let (gold, gate) = (Feedback::Fibonacci.design("p", 60), Feedback::Galois.design("q", 60));
    vec![Pair { gold, gate, depth: 48 }.line()]
}

/// Three numbers of 10 bits added in two orders: the highest bit of the sum, which is proved, and all its bits, which give up.
fn sums() -> Vec<String> {
    [9, 0].map(|first| Pair { gold: shapes::three_added(10, first, false), gate: shapes::three_added(10, first, true), depth: 1 }.line()).to_vec()
}

/// Equivalent at depth k: checked to k, one short of it, and past it.
fn late_proofs(rng: &mut Rng, count: usize, clock: ClockRead) -> Vec<String> {
    (0..count)
        .map(|_| {
            let length = rng.range(2, 14);
            let mut pair = late_proof(rng, length, clock);
            pair.depth = match rng.below(4) {
                0 => length - 1,
                1 => length + rng.range(1, 4),
                _ => length,
            };
            pair.fitted().line()
        })
        .collect()
}

/// Deep differences: at the depth, one short of it, and past it.
fn deep(rng: &mut Rng, count: usize) -> Vec<String> {
    let row = |depth| Pair { gold: long_row("p", 64), gate: shapes::holding(), depth }.line();
    let given_up = Pair { gold: shapes::counter("p", 7, 64, false), gate: shapes::holding(), depth: 64 };
    let mut lines = vec![row(64), row(63), given_up.line()];
    while lines.len() < count {
        let cycle = if rng.one_in(5) { rng.range(25, 46) } else { rng.range(2, 24) };
        let mut pair = deep_pair(rng, cycle);
        pair.depth = match rng.below(4) {
            0 => cycle - 1,
            1 => (cycle + rng.below(4)).min(64),
            _ => cycle,
        };
        if rng.one_in(3) {
            std::mem::swap(&mut pair.gold, &mut pair.gate);
        }
        if cost(&pair.gold, &pair.gate, pair.depth as u64) <= 65_535 {
            lines.push(pair.line());
        }
    }
    lines
}

/// One bit of a*b against the same bit of b*a.
pub fn product_pair(width: usize, bit: usize, columns: usize, majority: bool) -> Pair {
    let multiplier = Multiplier { width, columns, majority, swapped: false };
    let gold = multiplier.design(bit);
    let gate = Multiplier { swapped: true, ..multiplier }.design(bit);
    Pair { gold, gate, depth: 1 }
}

/// Hard pairs: product bits of a*b against b*a, from hundreds to thousands of conflicts.
fn hard(rng: &mut Rng, count: usize) -> Vec<String> {
    (0..count)
        .map(|_| {
            let width = rng.range(3, 5);
            let bit = rng.range(width - 1, 2 * width - 2);
            let columns = rng.range(bit + 1, 2 * width);
            product_pair(width, bit, columns, rng.one_in(2)).line()
        })
        .collect()
}

/// A rescaling of the scores: a query of about 6,600 conflicts.
fn rescale() -> Vec<String> {
    vec![product_pair(6, 6, 7, false).line()]
}

/// The product bit of 7-bit operands behind clk and rst, as a node of a design in the making.
fn hidden_product(swapped: bool) -> (Builder, u16) {
    let mut b = Builder::new("g");
    b.input("clk");
    b.input("rst");
    let (lhs, rhs) = shapes::operands(&mut b, 7);
    let multiplier = Multiplier { width: 7, columns: 8, majority: false, swapped };
    let bit = multiplier.product(&mut b, &lhs, &rhs)[7].expect("a product bit");
    (b, bit)
}

/// The give-up in each query. 1: the bit is an output. 2: the bit is stored in a register named alike that no output reads.
/// 3: the output shows the bit beside a holding register that is free only in the step. 4: so too, after a yes to query 2, the holding register
/// being an output of its own.
pub fn give_up_design(query: usize, swapped: bool) -> Design {
    let (mut b, bit) = hidden_product(swapped);
    let state = b.state();
    match query {
        1 => {
            b.output("y", bit);
            b.reset0("h", state, state);
        }
        2 => {
            let zero = b.constant(false);
            b.output("y", zero);
            b.reset0("h", state, bit);
        }
        _ => {
            let y = b.and(bit, state);
            b.output("y", y);
            b.output("z", state);
            b.reset0("h", state, state);
        }
    }
    if query == 4 {
        let other = b.state();
        let data = b.constant(swapped);
        b.reset0("r", other, data);
    }
    b.design
}

/// A pair that gives up in a query.
pub fn give_up_pair(query: usize) -> Pair {
    Pair { gold: give_up_design(query, false), gate: give_up_design(query, true), depth: 1 }
}

/// Give-ups at the limit, in queries 1 to 4.
fn give_ups(count: usize) -> Vec<String> {
    let mut lines = vec![product_pair(7, 6, 7, false).line(), product_pair(7, 7, 8, false).line()];
    lines.extend((1..=4).map(|query| give_up_pair(query).line()));
    lines.truncate(count);
    lines
}

/// Buffers of the least length, one short, and longer.
fn buffers(rng: &mut Rng, count: usize, clock: ClockRead) -> Vec<String> {
    let mut lines = Vec::new();
    while lines.len() < count {
        let size = Size { inputs: 4, outputs: 3, registers: 3, gates: 6 };
        let pair = random_pair(rng, size, 4, clock);
        let depth = pair.depth as u64;
        let need = trace_need(&pair.gold, depth);
        let lengths = [
            (need, WORDS, SCORES),
            (need.saturating_sub(1), WORDS, SCORES),
            (need, WORDS - 1, SCORES),
            (need, WORDS, SCORES - 1),
            (need + 1, WORDS + 1, SCORES + 1),
            (0, 0, 0),
            (need + 1000, WORDS + 4096, SCORES + 17),
        ];
        for (trace, words, scores) in lengths {
            lines.push(check_line(&encode(&pair.gold), &encode(&pair.gate), depth, Lent { trace, words, scores }));
        }
    }
    lines.truncate(count);
    lines
}

/// The bytes of a claim at random, of the right length.
fn random_claim(rng: &mut Rng, pair: &Pair, cycle: usize) -> Vec<u8> {
    let length = usize::try_from(trace_need(&pair.gold, cycle as u64)).expect("a claim is short");
    (0..length).map(|_| u8::from(rng.one_in(2))).collect()
}

/// A claim changed: a bit turned, a byte that is no bit, a byte more or fewer.
fn damaged_claim(rng: &mut Rng, claim: &[u8]) -> Vec<u8> {
    let mut claim = claim.to_vec();
    let place = rng.below(claim.len().max(1));
    match rng.below(6) {
        0 => claim.push(0),
        1 => { claim.pop(); }
        2 if !claim.is_empty() => claim[place] = 2 + u8::try_from(rng.below(254)).expect("a byte"),
        _ if !claim.is_empty() => claim[place] ^= 1,
        _ => {}
    }
    claim
}

/// Replays: true claims, claims changed in one place, claims of another cycle, random claims.
fn replays(rng: &mut Rng, count: usize, clock: ClockRead) -> Vec<String> {
    let mut lines = Vec::new();
    while lines.len() < count {
        let size = Size { inputs: 4, outputs: 4, registers: 4, gates: 8 };
        let pair = if rng.one_in(6) { let cycle = rng.range(2, 12); deep_pair(rng, cycle) } else { random_pair(rng, size, 6, clock) };
        let (gold, gate) = (encode(&pair.gold), encode(&pair.gate));
        let (answer, _) = prove(&pair.gold, &pair.gate, pair.depth, false, Wish::default());
        if answer.status == NOT_EQUIVALENT {
            let cycle = answer.mismatch as u64;
            lines.push(replay_line(&gold, &gate, cycle, &answer.trace));
            lines.push(replay_line(&gate, &gold, cycle, &answer.trace));
            lines.push(replay_line(&gold, &gate, cycle, &damaged_claim(rng, &answer.trace)));
            let later = random_claim(rng, &pair, answer.mismatch + 1);
            lines.push(replay_line(&gold, &gate, cycle + 1, &later));
            if rng.one_in(4) {
                lines.push(replay_line(&gold, &gate, *rng.pick(&[65, 66, u64::MAX, 1 << 32]), &answer.trace));
            }
        } else if rng.one_in(3) {
            let cycle = if rng.one_in(6) { 64 } else { rng.below(6) };
            let claim = random_claim(rng, &pair, cycle);
            lines.push(replay_line(&gold, &gate, cycle as u64, &claim));
        }
    }
    lines.truncate(count);
    lines
}

/// Checks of small pairs under limits about the totals that their queries learn.
fn under(rng: &mut Rng, count: usize, clock: ClockRead) -> Vec<String> {
    let mut lines = Vec::new();
    while lines.len() < count {
        let size = Size { inputs: 4, outputs: 3, registers: 4, gates: 14 };
        let length = rng.range(2, 4);
        let mut pair = if rng.one_in(4) { late_proof(rng, length, clock) } else { random_pair(rng, size, 3, clock) };
        pair.depth = pair.depth.min(4);
        let (_, report) = prove(&pair.gold, &pair.gate, pair.depth, false, Wish::default());
        let mut limits: Vec<usize> = report.queries.iter().filter(|query| query.learned > 0).flat_map(|query| [query.learned - 1, query.learned]).collect();
        limits.sort_unstable();
        limits.dedup();
        for limit in limits {
            lines.push(format!("under {limit} 0 {} {} {}", hex(&encode(&pair.gold)), hex(&encode(&pair.gate)), pair.depth));
        }
    }
    lines
}

/// The names of the families.
pub const FAMILIES: [&str; 31] = [
    "cases", "pairs", "small", "rewritten", "deep", "late", "hard", "rescale", "giveup", "limits", "buffers", "refusals", "sides", "replays", "refused-replays", "reads",
    "listed", "cuts", "changes", "long", "names", "wire-bytes", "under", "limited", "earliest", "solve", "dense", "rows", "feedback", "sums", "clocks",
];

/// The lines of a family, without answers; random designs seldom read their clock.
pub fn generate(family: &str, count: usize, seed: u64) -> Vec<String> {
    generate_reading(family, count, seed, ClockRead::Seldom)
}

/// The lines of a family whose designs read their clock so often, without answers.
pub fn generate_reading(family: &str, count: usize, seed: u64, clock: ClockRead) -> Vec<String> {
    let rng = &mut Rng::new(seed);
    let mut lines = match family {
        "pairs" => pairs(rng, count, clock),
        "small" => small_pairs(rng, count, clock),
        "rewritten" => rewritten_pairs(rng, count, clock),
        "late" => late_proofs(rng, count, clock),
        "buffers" => buffers(rng, count, clock),
        "replays" => replays(rng, count, clock),
        "under" => under(rng, count, clock.chosen()),
        "refusals" => refusals::refused_checks(rng, count, clock),
        "refused-replays" => refusals::refused_replays(rng, count, clock),
        "reads" => reads::random_reads(rng, count, clock),
        "cuts" => reads::cuts(rng, count, clock),
        "changes" => reads::changes(rng, count, clock),
        "long" => reads::long(clock),
        "limited" => limited::limited(rng, count, clock),
        "earliest" => earliest::earliest(rng, count, clock),
        _ => without_random_clocks(family, rng, count),
    };
    lines.truncate(count);
    lines
}

/// The lines of a family whose designs are the same however often clocks are read.
fn without_random_clocks(family: &str, rng: &mut Rng, count: usize) -> Vec<String> {
    match family {
        "cases" => refusals::cases(),
        "deep" => deep(rng, count),
        "hard" => hard(rng, count),
        "rescale" => rescale(),
        "giveup" => give_ups(count),
        "limits" => refusals::limits(),
        "sides" => refusals::sides(),
        "listed" => reads::listed(),
        "names" => reads::names(),
        "wire-bytes" => reads::wire_bytes(),
        "dense" => dense_pairs(rng, count),
        "rows" => shift_rows(rng),
        "feedback" => feedback(),
        "sums" => sums(),
        "clocks" => clocks::clocks(),
        "solve" => (0..count).map(|_| solving::random_problem(rng)).collect(),
        _ => panic!("no family {family}; there are {}", FAMILIES.join(", ")),
    }
}
