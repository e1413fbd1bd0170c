//! Lines of reads: valid records and records with a fault of each number and kind of place.
use crate::random::{design, interface, register_names, ClockRead, Size};
use crate::record::{encode, sized, Design, Enable, Node, Reset};
use crate::rng::Rng;
use crate::shapes::{numbered, sync, Builder};
use crate::vectors::read_line;

/// A random design, accepted where it does not read its clock.
pub fn random_design(rng: &mut Rng, size: Size, clock: ClockRead) -> Design {
    let registers = rng.below(size.registers + 1);
    let interface = interface(rng, size, registers > 0, clock);
    let names = register_names(rng, registers);
    let gates = rng.below(size.gates + 1);
    let mut design = design(rng, &interface, &names, gates);
    for register in &mut design.registers {
        if rng.one_in(4) {
            register.reset = None;
        }
    }
    design
}

/// One field of a design changed to some number, so that one of 7 to 15 may apply.
fn damaged(rng: &mut Rng, mut design: Design) -> Design {
    let count = design.nodes.len();
    let number = |rng: &mut Rng| u16::try_from(if rng.one_in(6) { rng.below(65_536) } else { rng.below(count + 2) }).expect("two bytes");
    let any = number(rng);
    if !design.registers.is_empty() && rng.one_in(2) {
        let place = rng.below(design.registers.len());
        let first = design.registers[0].clone();
        let register = &mut design.registers[place];
        match rng.below(8) {
            0 => register.name = first.name,
            1 => register.output = any,
            2 => register.output = first.output,
            3 => register.data = any,
            4 => register.clock = any,
            5 => register.enable = Some(Enable { signal: any, low: rng.one_in(2) }),
            6 => register.reset = Some(Reset { signal: any, low: rng.one_in(2), asynchronous: true, value: false }),
            _ => { design.registers.remove(place); }
        }
    } else if count > 0 {
        let place = rng.below(count);
        let name = design.nodes.iter().find_map(|node| node.port().cloned());
        design.nodes[place] = match design.nodes[place].clone() {
            Node::Input(own) => Node::Input(name.unwrap_or(own)),
            Node::Output(own, from) => if rng.one_in(2) { Node::Output(name.unwrap_or(own), from) } else { Node::Output(own, any) },
            Node::Constant(_) => Node::RegisterOutput,
            Node::RegisterOutput => Node::Constant(true),
            Node::Not(_) => Node::Not(any),
            Node::And(a, _) => Node::And(a, any),
            Node::Or(_, b) => Node::Or(any, b),
            Node::Xor(a, _) => Node::Xor(a, any),
            Node::Mux(a, _, c) => Node::Mux(a, any, c),
        };
    }
    design
}

/// Random records, most with a fault in a field.
pub fn random_reads(rng: &mut Rng, count: usize, clock: ClockRead) -> Vec<String> {
    let size = Size { inputs: 5, outputs: 4, registers: 5, gates: 10 };
    (0..count)
        .map(|_| {
            let mut design = random_design(rng, size, clock);
            for _ in 0..rng.below(4) {
                design = damaged(rng, design);
            }
            read_line(&encode(&design))
        })
        .collect()
}

/// A design with every kind of node and field: enables, both resets, both levels.
pub fn full_design() -> Design {
    let mut b = Builder::new("full");
    let (clk, rst, e) = (b.input("clk"), b.input("rst"), b.input("e"));
    let one = b.constant(true);
    let (p, q) = (b.state(), b.state());
    let n = b.not(p);
    let a = b.and(n, e);
    let o = b.or(a, q);
    let x = b.xor(o, one);
    let m = b.mux(x, p, q);
    b.output("y", m);
    b.register("p", p, x, sync(rst, true));
    b.register("q", q, n, Some(Reset { signal: rst, low: true, asynchronous: true, value: false }));
    b.design.registers[0].enable = Some(Enable { signal: e, low: false });
    b.design.registers[1].enable = Some(Enable { signal: one, low: true });
    b.design.registers[1].falling = true;
    b.design.registers[1].clock = clk;
    b.design
}

/// Every cut of some records, with the length field as it was and as it should be.
pub fn cuts(rng: &mut Rng, count: usize, clock: ClockRead) -> Vec<String> {
    let mut lines = Vec::new();
    let mut whole = encode(&full_design());
    while lines.len() < count {
        for length in (0..whole.len()).rev() {
            if length >= 5 {
                lines.push(read_line(&sized(&whole[5..length])));
            }
            if length < 8 {
                lines.push(read_line(&whole[..length]));
            }
        }
        whole = encode(&random_design(rng, Size { inputs: 3, outputs: 2, registers: 2, gates: 4 }, clock));
    }
    lines.truncate(count);
    lines
}

/// Records with one byte changed, at every place in turn.
pub fn changes(rng: &mut Rng, count: usize, clock: ClockRead) -> Vec<String> {
    let mut lines = Vec::new();
    let mut whole = encode(&full_design());
    while lines.len() < count {
        for place in 0..whole.len() {
            let mut other = whole.clone();
            let near = [other[place].wrapping_add(1), other[place].wrapping_sub(1), 0, 1, 2, 32, 127, 0x11];
            other[place] = if rng.one_in(4) { u8::try_from(rng.below(256)).expect("a byte") } else { *rng.pick(&near) };
            lines.push(read_line(&other));
        }
        whole = encode(&random_design(rng, Size { inputs: 3, outputs: 2, registers: 3, gates: 5 }, clock));
    }
    lines.truncate(count);
    lines
}

/// Every single-byte change of the wire.
pub fn wire_bytes() -> Vec<String> {
    let wire = encode(&crate::shapes::wire());
    let mut lines = Vec::new();
    for place in 0..wire.len() {
        for byte in (0..=255).filter(|byte| *byte != wire[place]) {
            let mut other = wire.clone();
            other[place] = byte;
            lines.push(read_line(&other));
        }
    }
    lines
}

/// The whole record of some bytes after the length field.
fn tail(rest: &[u8]) -> String {
    read_line(&sized(rest))
}

/// Refusals 1 to 6, each at each kind of place.
fn listed_bytes() -> Vec<String> {
    let wire = encode(&crate::shapes::wire());
    let mut lines = vec!["# refusal 1: every length under 5, and length fields that differ".to_string()];
    lines.extend((0..5).map(|length| read_line(&wire[..length])));
    for place in 1..5 {
        let mut other = wire.clone();
        other[place] ^= 1;
        lines.push(read_line(&other));
    }
    lines.push(read_line(&[9, 0, 0, 0, 0]));
    lines.push("# refusal 2: the version; the length comes first".into());
    for version in [0u8, 2, 3, 9, 255] {
        let mut other = wire.clone();
        other[0] = version;
        lines.push(read_line(&other));
        other.push(0);
        lines.push(read_line(&other));
    }
    lines.push("# refusal 3: cut names, counts and fields, and bytes left over".into());
    for rest in [&[][..], &[1], &[2, 103], &[1, 103], &[1, 103, 0], &[1, 103, 0, 0], &[1, 103, 0, 0, 0], &[1, 103, 0, 0, 0, 0, 7], &[1, 103, 0, 1, 0x10, 0], &[1, 103, 0, 1, 0x30, 0, 0, 0, 0, 0]] {
        lines.push(tail(rest));
    }
    lines.push("# refusal 4: kind bytes by themselves, listed and not, and each other code byte".into());
    lines.extend((0..=0x33u8).chain([0x40, 0x7f, 0x80, 0xff]).map(|kind| tail(&[1, 103, 0, 1, kind])));
    lines.push(tail(&[1, 103, 0, 1, 1, 2, 0, 0]));
    lines
}

/// Refusal 4 in a register's fields.
fn listed_codes() -> Vec<String> {
    let mut lines = Vec::new();
    let start = [1, 103, 0, 0, 0, 1, 1, 113, 0, 0, 0, 0, 0, 0];
    for rest in [&[2][..], &[255], &[0, 3], &[1, 255], &[0, 0, 3], &[0, 1, 0, 0, 3], &[0, 0, 1, 0, 0, 2], &[0, 0, 2, 0, 0, 1, 2], &[0, 2, 0, 0, 2, 0, 0, 255], &[0, 2, 0, 0, 2, 0, 0, 1, 255]] {
        lines.push(tail(&[&start[..], rest].concat()));
    }
    lines
}

/// Refusal 5: names of length 0, 33 and more, bytes outside 33 to 126 at each place; in the design, a port, a register.
pub fn names() -> Vec<String> {
    let mut lines = vec!["# refusal 5: lengths and bytes of names, in the design, a port and a register".to_string()];
    for length in [0u8, 32, 33, 34, 255] {
        let mut rest = vec![length];
        rest.extend(std::iter::repeat(65).take(usize::from(length)));
        lines.push(tail(&[&rest[..], &[0, 0, 0, 0]].concat()));
        lines.push(tail(&[&[1, 103, 0, 1, 0][..], &rest, &[0, 0]].concat()));
        lines.push(tail(&[&[1, 103, 0, 2, 1, 0, 0x11][..], &rest, &[0, 0, 0, 0]].concat()));
        lines.push(tail(&[&[1, 103, 0, 0, 0, 1][..], &rest, &[0, 0, 0, 0, 0, 0, 0, 0, 0]].concat()));
    }
    for byte in [0u8, 32, 33, 126, 127, 128, 255] {
        for place in 0..3 {
            let mut name = [3, 65, 66, 67];
            name[place + 1] = byte;
            lines.push(tail(&[&name[..], &[0, 0, 0, 0]].concat()));
        }
        lines.push(tail(&[&[1, 103, 0, 1, 0, 2, 65, byte][..], &[0, 0]].concat()));
    }
    lines.push("# a name cut and bad: the cut comes first".into());
    lines.push(tail(&[3, 32, 32]));
    lines
}

/// So many Inputs, then so many Outputs of node 0.
fn ports(inputs: usize, outputs: usize) -> Design {
    let mut b = Builder::new("g");
    for place in 0..inputs {
        b.node(Node::Input(numbered("i", place)));
    }
    for place in 0..outputs {
        b.node(Node::Output(numbered("o", place), 0));
    }
    b.design
}

/// Refusal 6, at its counts and kind bytes, and the largest counts that pass.
fn listed_counts() -> Vec<String> {
    let mut lines = vec!["# refusal 6: node and register counts, the 65th Input and the 65th Output".to_string()];
    for count in [[4u8, 0], [4, 1], [255, 255]] {
        lines.push(tail(&[&[1, 103][..], &count].concat()));
    }
    for count in [[0u8, 128], [0, 129], [255, 255]] {
        lines.push(tail(&[&[1, 103, 0, 0][..], &count].concat()));
    }
    for (inputs, outputs) in [(64, 64), (65, 0), (64, 65), (1, 64), (1, 65)] {
        lines.push(read_line(&encode(&ports(inputs, outputs))));
    }
    lines.push("# a 65th Input with a bad name: its kind byte comes first".into());
    let mut many = encode(&ports(64, 0));
    many.truncate(many.len() - 2);
    many[8] = 65;
    lines.push(tail(&[&many[5..], &[0, 0]].concat()));
    lines
}

/// clk, rst and two register outputs, then a Not.
fn base() -> Builder {
    let mut b = Builder::new("g");
    b.input("clk");
    b.input("rst");
    b.state();
    b.state();
    b.not(2);
    b
}

/// A design of the base with registers by output, data, clock, enable and reset.
fn registers(list: &[(&str, u16, u16, u16, Option<Enable>, Option<Reset>)]) -> String {
    let mut b = base();
    for (name, output, data, clock, enable, reset) in list {
        b.register(name, *output, *data, *reset);
        let register = b.design.registers.last_mut().expect("just added");
        (register.clock, register.enable) = (*clock, *enable);
    }
    read_line(&encode(&b.design))
}

/// Refusals 7 and 8.
fn listed_nodes() -> Vec<String> {
    let mut lines = vec!["# refusal 7: each input of each kind, its own number and beyond".to_string()];
    for number in [2u16, 3, 65_535] {
        for node in [
            Node::Not(number), Node::Output(b"y".to_vec(), number), Node::And(number, 0), Node::And(0, number), Node::Or(number, 0), Node::Or(1, number),
            Node::Xor(number, 1), Node::Xor(0, number), Node::Mux(number, 0, 0), Node::Mux(0, number, 0), Node::Mux(0, 1, number),
        ] {
            let mut b = Builder::new("g");
            b.input("a");
            b.constant(false);
            b.node(node);
            b.not(9);
            lines.push(read_line(&encode(&b.design)));
        }
    }
    lines.push("# refusal 8: Input and Input, Input and Output, Output and Output; 7 of an earlier node, and of the same node, comes first".into());
    for (second, third) in [("a", "b"), ("b", "a"), ("b", "b"), ("c", "d")] {
        for outputs in 0..3 {
            let mut b = Builder::new("g");
            b.input("a");
            if outputs == 2 { b.output(second, 0); } else { b.input(second); }
            if outputs > 0 { b.output(third, 0); } else { b.input(third); }
            lines.push(read_line(&encode(&b.design)));
            b.output("a", 9);
            lines.push(read_line(&encode(&b.design)));
        }
    }
    lines
}

/// Refusals 9 to 15.
fn listed_registers() -> Vec<String> {
    let on = |signal: u16| Some(Enable { signal, low: false });
    let asynchronous = |signal: u16| Some(Reset { signal, low: false, asynchronous: true, value: false });
    let reset = |signal: u16| sync(signal, true);
    let mut lines = vec!["# refusals 9 to 12, in this order in each register".to_string()];
    lines.push(registers(&[("q", 2, 2, 0, None, None), ("q", 3, 3, 0, None, None)]));
    lines.push(registers(&[("q", 2, 2, 0, None, None), ("q", 0, 99, 0, None, None)]));
    for output in [0, 1, 4, 5, 65_535] {
        lines.push(registers(&[("p", 2, 2, 0, None, None), ("q", output, 3, 0, None, None)]));
    }
    lines.push(registers(&[("p", 2, 2, 0, None, None), ("q", 2, 99, 0, None, None)]));
    lines.push(registers(&[("p", 2, 99, 0, None, None), ("p", 2, 2, 0, None, None)]));
    for number in [4, 5, 65_535] {
        lines.push(registers(&[("p", 2, 2, 0, None, None), ("q", 3, number, 0, None, None)]));
        lines.push(registers(&[("p", 2, 2, number, None, None), ("q", 3, 3, 0, None, None)]));
        lines.push(registers(&[("p", 2, 2, 0, None, None), ("q", 3, 3, 0, on(number), None)]));
        lines.push(registers(&[("p", 2, 2, 0, None, reset(number)), ("q", 3, 3, 0, None, None)]));
        lines.push(registers(&[("p", 2, 2, 0, None, asynchronous(number)), ("q", 3, 3, 0, None, None)]));
    }
    lines.push("# refusal 13: the lowest RegisterOutput node without a register".into());
    lines.push(registers(&[]));
    lines.push(registers(&[("p", 2, 2, 0, None, None)]));
    lines.push(registers(&[("p", 3, 3, 4, None, asynchronous(4))]));
    lines.push("# refusal 14: by node; the register before it may come later in the record".into());
    for signal in [0, 1, 2, 3, 4] {
        lines.push(registers(&[("p", 2, 2, 0, None, asynchronous(signal)), ("q", 3, 3, 0, None, None)]));
        lines.push(registers(&[("p", 3, 2, 0, None, asynchronous(3)), ("q", 2, 3, 0, None, asynchronous(signal))]));
    }
    lines.push("# refusal 15: by register; 14 comes first".into());
    lines.push(registers(&[("p", 3, 2, 4, None, None), ("q", 2, 3, 2, None, None)]));
    lines.push(registers(&[("p", 3, 2, 0, None, None), ("q", 2, 3, 3, None, None)]));
    lines.push(registers(&[("p", 3, 2, 4, None, None), ("q", 2, 3, 3, None, asynchronous(4))]));
    lines.push(registers(&[("p", 3, 2, 1, None, None), ("q", 2, 3, 0, None, None)]));
    lines
}

/// Refusals 1 to 15 by a list.
pub fn listed() -> Vec<String> {
    [listed_bytes(), listed_codes(), listed_counts(), listed_nodes(), listed_registers()].concat()
}

/// Long records: 65,535 and 65,536 bytes; the largest counts, the registers taking the clock or their own bits.
pub fn long(clock: ClockRead) -> Vec<String> {
    let mut lines = vec!["# 65,535 bytes, with bytes left over: 3; 65,536 bytes: 1; 1,024 nodes".to_string()];
    let mut rest = encode(&crate::shapes::wire())[5..].to_vec();
    rest.resize(65_530, 0);
    lines.push(tail(&rest));
    rest.push(0);
    lines.push(tail(&rest));
    let mut b = Builder::new("g");
    b.input("a");
    for place in 1..1_024 {
        b.not(place - 1);
    }
    lines.push(read_line(&encode(&b.design)));
    lines.push("# 128 registers".into());
    let mut b = Builder::new("g");
    b.input("clk");
    for place in 0..128 {
        let state = b.state();
        let name = String::from_utf8(numbered("r", place)).expect("ASCII");
        b.register(&name, state, if clock == ClockRead::Freely { 0 } else { state }, None);
    }
    lines.push(read_line(&encode(&b.design)));
    lines
}
