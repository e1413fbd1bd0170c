//! The specification's cases, the sum of refusal 23 at its limit, and checks and replays that meet refusals.
use crate::families::{random_pair, Pair};
use crate::pair::{trace_need, Lent, SCORES, WORDS};
use crate::random::{ClockRead, Size};
use crate::reads;
use crate::record::{encode, read, Design, Node, Reset};
use crate::rng::Rng;
use crate::shapes::{self, numbered, sync, Builder};
use crate::vectors::{check_line, read_line, replay_line, unhex};

/// Enough memory for a check to any depth.
const LENT: Lent = Lent { trace: 8_192, words: WORDS, scores: SCORES };

/// A check of two designs with memory enough.
fn check_of(gold: &Design, gate: &Design, depth: u64) -> String {
    check_line(&encode(gold), &encode(gate), depth, LENT)
}

/// A toggle with reset 0.
fn toggle(name: &str) -> Design {
    shapes::toggle(name, sync(1, false))
}

/// The starred cases.
fn starred() -> Vec<String> {
    let (wire, inverter) = (encode(&shapes::wire()), encode(&shapes::inverter()));
    let mut bad_version = wire.clone();
    bad_version[0] = 9;
    let mut own = wire.clone();
    own[16] = 1;
    let row = shapes::row(&["p", "q"]);
    vec![
        "# * wire against wire with a Not before y".into(),
        check_line(&wire, &inverter, 1, LENT),
        replay_line(&wire, &inverter, 0, &[0, 1]),
        replay_line(&wire, &inverter, 0, &[0, 0]),
        "# * empty record; wire with first byte 9; its y reading node 1".into(),
        read_line(&[]),
        read_line(&bad_version),
        read_line(&own),
        "# * toggle q against the same named p".into(),
        check_of(&toggle("q"), &toggle("p"), 1),
        "# * two registers in a row after e against y = 0 beside a holding register, D = 1 and 2".into(),
        check_of(&row, &shapes::holding(), 1),
        check_of(&row, &shapes::holding(), 2),
        "# * y = a And b, a holds, b takes e, against y = 0 beside a holding register, at 1 and at 64".into(),
        check_of(&shapes::conjunction(), &shapes::holding(), 1),
        check_of(&shapes::conjunction(), &shapes::holding(), 64),
        "# * D = 0, D = 65, registers on one side only, no reset".into(),
        check_line(&wire, &wire, 0, LENT),
        check_line(&wire, &wire, 65, LENT),
        check_of(&toggle("q"), &shapes::constant_zero(), 1),
        check_of(&shapes::toggle("q", None), &toggle("q"), 1),
        "# * no outputs, no registers".into(),
        check_of(&shapes::lone(), &shapes::lone(), 1),
    ]
}

/// One side of the pair with I = 11, O = 9 and so many nodes and registers.
pub fn wide(nodes: usize, registers: usize) -> Design {
    let mut b = Builder::new("g");
    b.input("clk");
    b.input("rst");
    for place in 2..11 {
        b.node(Node::Input(numbered("i", place)));
    }
    for place in 0..registers {
        let state = b.state();
        let name = String::from_utf8(numbered("r", place)).expect("ASCII");
        b.reset0(&name, state, state);
    }
    while b.design.nodes.len() < nodes - 9 {
        let last = u16::try_from(b.design.nodes.len() - 1).expect("a design is small");
        b.and(last, 2);
    }
    let last = u16::try_from(b.design.nodes.len() - 1).expect("a design is small");
    for place in 0..9 {
        b.node(Node::Output(numbered("o", place), last));
    }
    b.design
}

/// Refusal 23 at its limit.
pub fn limits() -> Vec<String> {
    vec![
        "# I = 11, O = 9, N = 270, D = 64: R = 15 gives 65,535, R = 16 gives 66,186".into(),
        check_of(&wide(135, 8), &wide(135, 7), 64),
        check_of(&wide(135, 8), &wide(135, 8), 64),
        "# the same at D = 63, and one node more at D = 64".into(),
        check_of(&wide(135, 8), &wide(135, 8), 63),
        check_of(&wide(135, 8), &wide(136, 7), 64),
    ]
}

/// All cases of the specification.
pub fn cases() -> Vec<String> {
    let mut lines = starred();
    lines.extend(limits());
    let counter = |count: usize| shapes::counter("c", 9, count, false);
    lines.push("# nine-bit counters alike but for y, 1 at 260 against 1 at 255".into());
    for depth in [1, 8, 16] {
        lines.push(check_of(&counter(260), &counter(255), depth));
    }
    lines.push("# the record of the wire, and the depth of a trap: a difference at cycle 0 and at 1".into());
    lines.push(read_line(&encode(&shapes::wire())));
    lines.push(check_of(&shapes::wire(), &shapes::inverter(), 64));
    lines.push("# depths of any size".into());
    for depth in [66, 1 << 32, u64::MAX] {
        lines.push(check_of(&shapes::wire(), &shapes::wire(), depth));
    }
    lines.push("# y = a against y = 0; y = a Xor b against the same by Or, And and Not".into());
    lines.push(check_of(&shapes::wire(), &shapes::zero(), 1));
    lines.push(check_of(&shapes::exclusive_or(false), &shapes::exclusive_or(true), 1));
    lines
}

/// A toggle on another clock or edge, or with a second register there; the other clock is rst where clocks are read, else an Input more, ck.
pub fn clock_faults(read: ClockRead) -> Vec<(Design, Design)> {
    let freely = read == ClockRead::Freely;
    let with_ck = |design: Design| {
        let mut b = Builder { design };
        if !freely {
            b.input("ck");
        }
        b.design
    };
    let toggle = |name: &str| with_ck(toggle(name));
    let other = if freely { 1 } else { 5 };
    let mut falling = toggle("q");
    falling.registers[0].falling = true;
    let mut other_clock = toggle("q");
    other_clock.registers[0].clock = other;
    let two = |clock: u16, edge: bool| {
        let mut b = Builder { design: toggle("q") };
        let state = b.state();
        b.register("p", state, 2, sync(1, true));
        b.design.registers[1].clock = clock;
        b.design.registers[1].falling = edge;
        b.design
    };
    vec![
        (two(other, false), toggle("q")),
        (toggle("q"), two(other, false)),
        (two(0, true), two(other, false)),
        (toggle("q"), two(0, true)),
        (falling.clone(), toggle("q")),
        (toggle("q"), other_clock.clone()),
        (falling, other_clock),
        (with_ck(shapes::constant_zero()), toggle("q")),
        (two(0, false), toggle("q")),
    ]
}

/// Registers without reset: the first by name, in record order elsewhere, on either side.
pub fn reset_faults() -> Vec<(Design, Design)> {
    let with = |names: &[&str], without: &[&str]| {
        let mut b = Builder::new("g");
        b.input("clk");
        b.input("rst");
        for name in names {
            let state = b.state();
            let reset = if without.contains(name) { None } else { sync(1, false) };
            b.register(name, state, 1, reset);
        }
        b.design
    };
    let names = ["m", "z", "a", "B"];
    vec![
        (with(&names, &["m", "z"]), with(&names, &[])),
        (with(&names, &["z", "a"]), with(&names, &["B"])),
        (with(&names, &[]), with(&names, &["z", "B", "a"])),
        (with(&names, &["B", "a"]), with(&names, &[])),
        (with(&names, &[]), with(&["z"], &["z"])),
    ]
}

/// Names of ports that differ between the sides.
pub fn port_faults() -> Vec<(Design, Design)> {
    let ports = |inputs: &[&str], outputs: &[&str]| {
        let mut b = Builder::new("g");
        for name in inputs {
            b.input(name);
        }
        for name in outputs {
            b.output(name, 0);
        }
        b.design
    };
    vec![
        (ports(&["a"], &["y"]), ports(&["b"], &["y"])),
        (ports(&["a"], &["y"]), ports(&["a", "b"], &["y"])),
        (ports(&["a", "b"], &[]), ports(&["b", "a"], &["a1"])),
        (ports(&["a"], &["y"]), ports(&["a"], &["z"])),
        (ports(&["a"], &["y", "z"]), ports(&["a"], &["z", "y"])),
        (ports(&["a"], &["y"]), ports(&["y"], &["a"])),
        (ports(&[], &[]), ports(&[], &[])),
    ]
}

/// A record with a fault, for a side.
fn faulty(rng: &mut Rng, bytes: &[u8]) -> Vec<u8> {
    let mut bytes = bytes.to_vec();
    let place = rng.below(bytes.len());
    bytes[place] = bytes[place].wrapping_add(u8::try_from(rng.range(1, 255)).expect("a byte"));
    bytes
}

/// Pairs that meet 16 to 24, pairs with a fault in a record, and two faults at once.
pub fn refused_checks(rng: &mut Rng, count: usize, clock: ClockRead) -> Vec<String> {
    let mut lines = Vec::new();
    let all = [clock_faults(clock), reset_faults(), port_faults()].concat();
    for (gold, gate) in &all {
        for depth in [1, 0, 65] {
            lines.push(check_of(gold, gate, depth));
        }
        let short = Lent { words: 0, ..LENT };
        lines.push(check_line(&encode(gold), &encode(gate), 2, short));
    }
    while lines.len() < count {
        let pair = random_pair(rng, Size { inputs: 4, outputs: 3, registers: 3, gates: 6 }, 3, clock);
        let (gold, gate) = (encode(&pair.gold), encode(&pair.gate));
        let depth = *rng.pick(&[0, 1, 2, 65]);
        lines.push(match rng.below(4) {
            0 => check_line(&faulty(rng, &gold), &gate, depth, LENT),
            1 => check_line(&gold, &faulty(rng, &gate), depth, LENT),
            2 => check_line(&faulty(rng, &gold), &faulty(rng, &gate), depth, LENT),
            _ => unreset_pair(rng, pair).line(),
        });
    }
    lines.truncate(count);
    lines
}

/// The first listed record with a refusal of 1 to 15 or 30.
pub fn record_with(number: u8) -> Vec<u8> {
    let faulty = [reads::listed(), reads::names()].concat().iter().find_map(|line| {
        let bytes = unhex(line.strip_prefix("read ")?);
        read(&bytes).is_err_and(|refusal| refusal.number == number).then_some(bytes)
    });
    faulty.expect("each refusal is listed")
}

/// A record of each of refusals 1 to 15 and 30, as gold and as gate of a check and of a replay.
pub fn sides() -> Vec<String> {
    let wire = encode(&shapes::wire());
    let mut lines = Vec::new();
    for number in (1..=15).chain([30]) {
        let faulty = record_with(number);
        for (gold, gate) in [(&faulty, &wire), (&wire, &faulty), (&faulty, &faulty)] {
            lines.push(check_line(gold, gate, u64::from(number) % 3, LENT));
            lines.push(replay_line(gold, gate, 0, &[0, 1]));
        }
    }
    lines
}

/// A pair with a reset taken away or a clock moved.
fn unreset_pair(rng: &mut Rng, mut pair: Pair) -> Pair {
    let side = if rng.one_in(2) { &mut pair.gold } else { &mut pair.gate };
    if let Some(register) = side.registers.last_mut() {
        match rng.below(3) {
            0 => register.falling = !register.falling,
            1 => register.reset = None,
            _ => register.reset = register.reset.map(|reset| Reset { low: !reset.low, ..reset }),
        }
    }
    pair
}

/// Replays that meet refusals, with claims that fit and not.
pub fn refused_replays(rng: &mut Rng, count: usize, clock: ClockRead) -> Vec<String> {
    let mut lines = Vec::new();
    for (gold, gate) in [clock_faults(clock), reset_faults(), port_faults()].concat() {
        let fits = vec![0; usize::try_from(trace_need(&gold, 1)).expect("a claim is short")];
        lines.push(replay_line(&encode(&gold), &encode(&gate), 1, &fits));
        lines.push(replay_line(&encode(&gold), &encode(&gate), 70, &[2]));
    }
    let wire = encode(&shapes::wire());
    for (cycle, length) in [(0u64, 0), (0, 1), (0, 3), (63, 65), (64, 66), (64, 65), (64, 67), (65, 67), (u64::MAX, 1), (1 << 63, 1)] {
        lines.push(replay_line(&wire, &encode(&shapes::inverter()), cycle, &vec![0; length]));
    }
    while lines.len() < count {
        let pair = random_pair(rng, Size { inputs: 3, outputs: 2, registers: 3, gates: 5 }, 2, clock);
        let (gold, gate) = (encode(&pair.gold), encode(&pair.gate));
        let claim: Vec<u8> = (0..trace_need(&pair.gold, 0)).map(|_| u8::try_from(rng.below(3)).expect("a byte")).collect();
        lines.push(match rng.below(3) {
            0 => replay_line(&faulty(rng, &gold), &gate, 0, &claim),
            1 => replay_line(&gold, &faulty(rng, &gate), 0, &claim),
            _ => replay_line(&gold, &gate, 0, &claim),
        });
    }
    lines.truncate(count);
    lines
}
