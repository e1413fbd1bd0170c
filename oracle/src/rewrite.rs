//! A design rewritten into another with the same run: other gates, other order, other register names, dead logic.
use crate::random::{input_place, Readable};
use crate::record::{Design, Enable, Name, Node};
use crate::rng::Rng;
use crate::shapes::Builder;

/// The nodes that a node needs before it; a register's output needs its asynchronous reset's signal.
fn needs(design: &Design, place: usize) -> Vec<u16> {
    let mut needs = design.nodes[place].inputs();
    if let Some(register) = design.register_of(place) {
        needs.extend(design.registers[register].reset.filter(|reset| reset.asynchronous).map(|reset| reset.signal));
    }
    needs
}

/// The nodes in a random order that keeps what is needed first.
fn order(rng: &mut Rng, design: &Design) -> Vec<usize> {
    let mut left: Vec<usize> = (0..design.nodes.len()).collect();
    let mut placed = vec![false; design.nodes.len()];
    let mut order = Vec::new();
    while !left.is_empty() {
        let ready: Vec<usize> = (0..left.len()).filter(|at| needs(design, left[*at]).iter().all(|need| placed[usize::from(*need)])).collect();
        let chosen = left.remove(*rng.pick(&ready));
        placed[chosen] = true;
        order.push(chosen);
    }
    order
}

/// A node's bit by way of two Nots, now and then.
fn twice(rng: &mut Rng, b: &mut Builder, node: u16) -> u16 {
    if rng.one_in(6) {
        let once = b.not(node);
        b.not(once)
    } else {
        node
    }
}

/// And by De Morgan.
fn and_by_or(b: &mut Builder, x: u16, y: u16) -> u16 {
    let (x, y) = (b.not(x), b.not(y));
    let or = b.or(x, y);
    b.not(or)
}

/// Or by De Morgan.
fn or_by_and(b: &mut Builder, x: u16, y: u16) -> u16 {
    let (x, y) = (b.not(x), b.not(y));
    let and = b.and(x, y);
    b.not(and)
}

/// Xor by And and Or.
fn xor_by_gates(b: &mut Builder, x: u16, y: u16) -> u16 {
    let (not_x, not_y) = (b.not(x), b.not(y));
    let (left, right) = (b.and(x, not_y), b.and(not_x, y));
    b.or(left, right)
}

/// Mux by And and Or.
fn mux_by_gates(b: &mut Builder, c: u16, x: u16, y: u16) -> u16 {
    let not_c = b.not(c);
    let (left, right) = (b.and(c, x), b.and(not_c, y));
    b.or(left, right)
}

/// A node that gives the same bit as one of the design's, over the new numbers.
fn rewritten_node(rng: &mut Rng, b: &mut Builder, node: &Node, new: &[u16]) -> u16 {
    let plain = rng.one_in(2);
    let mut at = |b: &mut Builder, old: &u16| twice(rng, b, new[usize::from(*old)]);
    match node {
        Node::Input(_) | Node::Constant(_) | Node::RegisterOutput => b.node(node.clone()),
        Node::Not(x) => { let x = at(b, x); b.not(x) }
        Node::Output(name, x) => { let x = at(b, x); b.node(Node::Output(name.clone(), x)) }
        Node::And(x, y) => { let (x, y) = (at(b, y), at(b, x)); if plain { b.and(x, y) } else { and_by_or(b, x, y) } }
        Node::Or(x, y) => { let (x, y) = (at(b, y), at(b, x)); if plain { b.or(x, y) } else { or_by_and(b, x, y) } }
        Node::Xor(x, y) => { let (x, y) = (at(b, x), at(b, y)); if plain { b.xor(x, y) } else { xor_by_gates(b, x, y) } }
        Node::Mux(c, x, y) => { let (c, x, y) = (at(b, c), at(b, x), at(b, y)); if plain { b.mux(c, x, y) } else { mux_by_gates(b, c, x, y) } }
    }
}

/// A gate that nothing reads, over any nodes but this Input.
fn dead(rng: &mut Rng, b: &mut Builder, kept: Option<&Name>) {
    let readable = Readable::below(b.design.nodes.len(), kept.and_then(|name| input_place(&b.design.nodes, name)));
    if readable.count() > 0 && rng.one_in(6) {
        let (x, y) = (readable.any(rng), readable.any(rng));
        b.xor(x, y);
    }
}

/// The name of the clock of a design of one clock.
fn clock_name(design: &Design) -> Option<&Name> {
    design.nodes[usize::from(design.registers.first()?.clock)].port()
}

/// The enable's polarity turned, or the enable as a Mux before the data.
fn rewritten_enable(rng: &mut Rng, b: &mut Builder, register: usize) {
    let Some(enable) = b.design.registers[register].enable else { return };
    let (output, data) = (b.design.registers[register].output, b.design.registers[register].data);
    let asynchronous = b.design.registers[register].reset.is_some_and(|reset| reset.asynchronous);
    if rng.one_in(2) {
        let signal = b.not(enable.signal);
        b.design.registers[register].enable = Some(Enable { signal, low: !enable.low });
    } else if !asynchronous && rng.one_in(2) {
        let (then, other) = if enable.low { (output, data) } else { (data, output) };
        b.design.registers[register].data = b.mux(enable.signal, then, other);
        b.design.registers[register].enable = None;
    }
}

/// A synchronous reset's polarity turned.
fn rewritten_reset(rng: &mut Rng, b: &mut Builder, register: usize) {
    let Some(reset) = b.design.registers[register].reset else { return };
    if !reset.asynchronous && rng.one_in(3) {
        let signal = b.not(reset.signal);
        let turned = crate::record::Reset { signal, low: !reset.low, ..reset };
        b.design.registers[register].reset = Some(turned);
    }
}

/// The design rewritten; `rename` gives each register's new name. Dead logic reads the clock only where that may be read.
pub fn rewritten(rng: &mut Rng, design: &Design, clock_read: bool, rename: impl Fn(&Name) -> Name) -> Design {
    let mut b = Builder::new("gate");
    let kept = clock_name(design).filter(|_| !clock_read);
    let mut new = vec![0; design.nodes.len()];
    for place in order(rng, design) {
        new[place] = rewritten_node(rng, &mut b, &design.nodes[place], &new);
        dead(rng, &mut b, kept);
    }
    let at = |old: u16| new[usize::from(old)];
    for register in &design.registers {
        let mut other = register.clone();
        other.name = rename(&register.name);
        (other.output, other.data, other.clock) = (at(register.output), at(register.data), at(register.clock));
        other.enable = register.enable.map(|enable| Enable { signal: at(enable.signal), ..enable });
        other.reset = register.reset.map(|reset| crate::record::Reset { signal: at(reset.signal), ..reset });
        b.design.registers.push(other);
    }
    for register in 0..b.design.registers.len() {
        rewritten_enable(rng, &mut b, register);
        rewritten_reset(rng, &mut b, register);
    }
    rng.shuffle(&mut b.design.registers);
    b.design
}
