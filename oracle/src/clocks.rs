//! Refusal 30 by a list: what reads a clock, where two clocks are, what stands before and behind it, what is no reading, and the clock's bytes of a claim.
use crate::check::prove;
use crate::limited::enough;
use crate::meter::{Wish, LEARNED_LIMIT};
use crate::pair::Lent;
use crate::record::{encode, Design, Enable, Node, Reset};
use crate::run::{clock_column, with_clock};
use crate::shapes::{self, enable, sync, Builder};
use crate::vectors::{check_line, mode_line, read_line, replay_line};

/// clk, rst, e, and a register q that takes e; y shows it.
fn base() -> Builder {
    let (mut b, e) = shapes::clocked();
    let q = b.state();
    b.output("y", q);
    b.reset0("q", q, e);
    b
}

/// A node of every kind with inputs that reads a node at each of its places.
pub fn node_readings(read: u16) -> Vec<Design> {
    let other = 2;
    let nodes = [
        Node::Not(read), Node::Output(b"z".to_vec(), read), Node::And(read, other), Node::And(other, read), Node::Or(read, other), Node::Or(other, read),
        Node::Xor(read, other), Node::Xor(other, read), Node::Mux(read, other, 3), Node::Mux(other, read, 3), Node::Mux(other, 3, read), Node::And(read, read),
    ];
    let with = |node| {
        let mut b = base();
        b.node(node);
        b.design
    };
    nodes.into_iter().map(with).collect()
}

/// A register that reads a node as its data, as its enable of either level, and as its reset of either kind and level.
pub fn register_readings(read: u16) -> Vec<Design> {
    let with = |change: &dyn Fn(&mut crate::record::Register)| {
        let mut b = base();
        change(&mut b.design.registers[0]);
        b.design
    };
    let mut designs = vec![with(&|register| register.data = read)];
    for low in [false, true] {
        designs.push(with(&|register| register.enable = Some(Enable { signal: read, low })));
        for asynchronous in [false, true] {
            designs.push(with(&|register| register.reset = Some(Reset { signal: read, low, asynchronous, value: low })));
        }
    }
    designs
}

/// clk, ck, rst, and two registers: p on one of the clocks, q on the other.
fn two_clocks(first: u16) -> Builder {
    let mut b = Builder::new("g");
    b.input("clk");
    b.input("ck");
    let rst = b.input("rst");
    let (p, q) = (b.state(), b.state());
    b.register("p", p, q, sync(rst, false));
    b.register("q", q, p, sync(rst, true));
    b.design.registers[0].clock = first;
    b.design.registers[1].clock = 1 - first;
    b
}

/// Two clocks of which none, one or both are read, by nodes and by registers, the lower one by the earlier register or by the later.
fn two_clock_readings() -> Vec<Design> {
    let mut designs = Vec::new();
    for first in [0, 1] {
        for nodes in [&[][..], &[0], &[1], &[1, 0], &[0, 1]] {
            let mut b = two_clocks(first);
            nodes.iter().for_each(|node| { b.not(*node); });
            designs.push(b.design);
        }
        for (node, data) in [(1, 0), (0, 1)] {
            let mut b = two_clocks(first);
            b.not(node);
            b.design.registers[1].data = data;
            designs.push(b.design);
        }
        let mut b = two_clocks(first);
        (b.design.registers[0].enable, b.design.registers[1].reset) = (enable(1), sync(0, false));
        designs.push(b.design);
    }
    designs
}

/// A register on an Input of this name that stands behind what reads, beside an Input of another name that is read.
fn named(clock: &str, other: &str) -> Design {
    let mut b = Builder::new("g");
    let read = b.input(other);
    let q = b.state();
    b.output("y", q);
    let clock = b.input(clock);
    b.register("q", q, read, sync(read, false));
    b.design.registers[0].clock = clock;
    b.design
}

/// A register on the last node, which its data, its enable or its reset reads, and a second register on the same clock that reads it.
fn last_nodes() -> Vec<Design> {
    let clock = 3;
    let mut designs = vec![named("a", "clk"); 4];
    designs[0].registers[0].data = clock;
    designs[1].registers[0].enable = enable(clock);
    designs[2].registers[0].reset = sync(clock, false);
    let mut b = base();
    let p = b.state();
    b.reset0("p", p, 0);
    designs[3] = b.design;
    designs
}

/// Inputs that are read and clock nothing: clk beside another clock, clk without registers, and rst and e wherever a clock may not stand.
fn no_readings() -> Vec<Design> {
    let mut alone = Builder::new("g");
    let clk = alone.input("clk");
    alone.not(clk);
    alone.output("y", clk);
    let mut designs = vec![named("ck", "clk"), named("clk", "ck"), alone.design, base().design];
    designs.extend(node_readings(1));
    designs.extend(register_readings(1));
    designs
}

/// A read clock beside a register whose clock is no Input: 15.
fn unsupported_clock() -> Design {
    let mut b = base();
    b.not(0);
    let p = b.state();
    b.reset0("p", p, 0);
    b.design.registers[1].clock = 3;
    b.design
}

/// A read clock beside an earlier fault of the record: 7, 8, 9, 10, 11, 12, 13, 14 and 15, which stand before 30.
fn earlier_faults() -> Vec<Design> {
    let with = |change: &dyn Fn(&mut Builder)| {
        let mut b = base();
        b.not(0);
        change(&mut b);
        b.design
    };
    let second = |b: &mut Builder, name: &str, data: u16| {
        let p = b.state();
        b.reset0(name, p, data);
    };
    vec![
        with(&|b| { b.not(9); }),
        with(&|b| { b.output("e", 0); }),
        with(&|b| second(b, "q", 0)),
        with(&|b| b.reset0("p", 0, 0)),
        with(&|b| b.reset0("p", 3, 0)),
        with(&|b| second(b, "p", 99)),
        with(&|b| { b.state(); }),
        with(&|b| b.design.registers[0].reset = Some(Reset { signal: 5, low: false, asynchronous: true, value: false })),
        with(&|b| b.design.registers[0].clock = 5),
        unsupported_clock(),
        with(&|b| { second(b, "p", 0); b.design.registers[0].clock = 5; }),
    ]
}

/// Records that are read.
fn reads() -> Vec<String> {
    let groups = [
        ("a node of every kind reads the clock", node_readings(0)),
        ("data, enable and reset read the clock", register_readings(0)),
        ("two clocks: none read, the lower, the higher, both", two_clock_readings()),
        ("the clock is the last node, and a second register reads it", last_nodes()),
        ("no clock is read", no_readings()),
        ("a clock is read, and 7 to 15 stand before it", earlier_faults()),
    ];
    let mut lines = Vec::new();
    for (what, designs) in groups {
        lines.push(format!("# 30: {what}"));
        lines.extend(designs.iter().map(|design| read_line(&encode(design))));
    }
    lines
}

/// A check with just enough memory.
fn check(gold: &Design, gate: &Design, depth: u64) -> String {
    check_line(&encode(gold), &encode(gate), depth, enough(gold, depth))
}

/// Pairs of which no side reads its own clock: one side's clock is read by the other, which has another clock or no register, so that 21 is met; or both read clk, which clocks neither.
fn unread_pairs() -> Vec<(Design, Design)> {
    let (clk, ck) = (named("clk", "ck"), named("ck", "clk"));
    let mut without = Builder::new("g");
    let read = without.input("clk");
    without.input("ck");
    without.output("y", read);
    let mut other = ck.clone();
    other.registers[0].reset = Some(Reset { signal: 0, low: true, asynchronous: false, value: false });
    vec![(clk.clone(), ck.clone()), (ck.clone(), clk.clone()), (without.design.clone(), clk), (ck.clone(), without.design), (ck.clone(), ck.clone()), (ck, other)]
}

/// Every reading, on either side, and two clocks that are both read, where the lower is the place.
fn checked_readings() -> Vec<String> {
    let base = base().design;
    let mut lines = vec!["# 30: every reading, on either side".into()];
    for (place, design) in [node_readings(0), register_readings(0)].concat().iter().enumerate() {
        lines.push(if place % 2 == 0 { check(&base, design, 1) } else { check(design, &base, 1) });
    }
    lines.push("# 30: two clocks, the higher read, both read".into());
    for design in two_clock_readings().iter().skip(2).step_by(5) {
        lines.extend([check(&base, design, 1), check(design, &base, 1)]);
    }
    lines
}

/// A read clock on each side, beside all that stands before it and behind it.
fn checks() -> Vec<String> {
    let (base, read) = (base().design, node_readings(0).remove(0));
    let faulty = encode(&unsupported_clock());
    let (base_bytes, read_bytes) = (encode(&base), encode(&read));
    let lent = enough(&base, 1);
    let none = Lent { trace: 0, words: 0, scores: 0 };
    let mut lines = vec!["# 30 of gold before gate's 1 and 15, 15 of a side before its 30 and before the other's, 30 of both".into()];
    let records = [(&read_bytes, &vec![]), (&read_bytes, &faulty), (&faulty, &read_bytes), (&base_bytes, &faulty), (&read_bytes, &read_bytes)];
    lines.extend(records.map(|(gold, gate)| check_line(gold, gate, 1, lent)));
    lines.push("# 30 of either side before 16, 17, 36, 18 and 24".into());
    for (gold, gate) in [(&read_bytes, &base_bytes), (&base_bytes, &read_bytes)] {
        lines.extend([0, 65, u64::MAX].map(|depth| check_line(gold, gate, depth, lent)));
        lines.push(mode_line(gold, gate, 1, LEARNED_LIMIT as u64 + 1, false, lent));
        lines.extend([false, true].map(|earliest| mode_line(gold, gate, 1, 0, earliest, none)));
    }
    let wire = encode(&shapes::wire());
    lines.extend([(&read_bytes, &wire), (&wire, &read_bytes)].map(|(gold, gate)| check_line(gold, gate, 1, lent)));
    lines.push("# the other side's clock is no clock: 21; clk that clocks nothing is read: accepted".into());
    lines.extend(unread_pairs().iter().map(|(gold, gate)| check(gold, gate, 2)));
    lines
}

/// Pairs with registers that differ, the clock's name standing first, between the others and last among the inputs.
fn different_pairs() -> Vec<(Design, Design)> {
    let renamed = |design: Design, clock: &str| {
        let mut design = design;
        design.nodes[0] = Node::Input(clock.into());
        design
    };
    ["clk", "f", "z"].map(|clock| (renamed(shapes::row(&["p", "q"]), clock), renamed(shapes::holding(), clock))).to_vec()
}

/// A read clock on each side; then claims whose bytes differ in the clock's column alone: true ones, ones with e turned in cycle 0, and such as have a byte there that is no bit.
fn replays() -> Vec<String> {
    let (base, read) = (encode(&base().design), encode(&node_readings(0).remove(0)));
    let faulty = encode(&unsupported_clock());
    let mut lines = vec!["# 30 of either side before 18, 25 and the other side's faults".into()];
    let wire = encode(&shapes::wire());
    for (gold, gate) in [(&read, &base), (&base, &read), (&read, &read), (&read, &vec![]), (&read, &faulty), (&faulty, &read), (&read, &wire), (&wire, &read)] {
        lines.push(replay_line(gold, gate, 0, &[0, 0, 0, 1]));
        lines.push(replay_line(gold, gate, 65, &[2]));
    }
    lines.push("# the other side's clock is no clock".into());
    lines.extend(unread_pairs().iter().map(|(gold, gate)| replay_line(&encode(gold), &encode(gate), 1, &[1, 1, 0, 0, 1])));
    lines.push("# the clock's bytes of a claim: 0, 1, mixed, and 2".into());
    for (gold, gate) in different_pairs() {
        let (answer, _) = prove(&gold, &gate, 2, false, Wish::default());
        let column = clock_column(&gold).expect("there is a register");
        let mut turned = answer.trace.clone();
        turned[usize::from(column == 0)] ^= 1;
        for claim in [&answer.trace, &turned] {
            for bytes in [[0, 0, 0], [1, 1, 1], [1, 0, 1], [0, 2, 0], [0, 0, 255]] {
                lines.push(replay_line(&encode(&gold), &encode(&gate), 2, &with_clock(&gold, claim, &bytes)));
            }
        }
    }
    lines
}

/// All lines of the list.
pub fn clocks() -> Vec<String> {
    [reads(), checked_readings(), checks(), replays()].concat()
}
