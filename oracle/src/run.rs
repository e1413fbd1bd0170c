//! The run of a design, as the specification states it, and replay.
use std::collections::HashMap;

use crate::pair::{read_pair, replay_refusal};
use crate::record::{Design, Name, Node, Refusal};

/// A cycle's bits by input name.
pub type Inputs = HashMap<Name, bool>;

/// Whether a control with this signal bit is asserted.
fn asserted(bit: bool, low: bool) -> bool {
    bit != low
}

/// Every node's bit in a cycle, from the stored bits by register number.
pub fn values(design: &Design, inputs: &Inputs, stored: &[bool]) -> Vec<bool> {
    let mut bits: Vec<bool> = Vec::with_capacity(design.nodes.len());
    for (number, node) in design.nodes.iter().enumerate() {
        let at = |node: &u16| bits[usize::from(*node)];
        bits.push(match node {
            Node::Input(name) => inputs[name],
            Node::Constant(value) => *value,
            Node::RegisterOutput => shown(design, number, &bits, stored),
            Node::Not(a) => !at(a),
            Node::Output(_, a) => at(a),
            Node::And(a, b) => at(a) && at(b),
            Node::Or(a, b) => at(a) || at(b),
            Node::Xor(a, b) => at(a) != at(b),
            Node::Mux(c, a, b) => if at(c) { at(a) } else { at(b) },
        });
    }
    bits
}

/// What a RegisterOutput node shows: the stored bit, or the reset value while an asynchronous reset is asserted.
fn shown(design: &Design, node: usize, bits: &[bool], stored: &[bool]) -> bool {
    let register = design.register_of(node).expect("every state has a register");
    match design.registers[register].reset {
        Some(reset) if reset.asynchronous && asserted(bits[usize::from(reset.signal)], reset.low) => reset.value,
        _ => stored[register],
    }
}

/// The stored bits of the next cycle.
pub fn next(design: &Design, bits: &[bool], stored: &[bool]) -> Vec<bool> {
    let next_of = |(number, register): (usize, &crate::record::Register)| {
        let at = |node: u16| bits[usize::from(node)];
        if let Some(reset) = register.reset {
            if asserted(at(reset.signal), reset.low) {
                return reset.value;
            }
        }
        match register.enable {
            Some(enable) if !asserted(at(enable.signal), enable.low) => stored[number],
            _ => at(register.data),
        }
    };
    design.registers.iter().enumerate().map(next_of).collect()
}

/// The initial bits: the reset values.
pub fn initial(design: &Design) -> Vec<bool> {
    design.registers.iter().map(|register| register.reset.expect("every register has a reset").value).collect()
}

/// The output bits in byte order of names.
pub fn outputs(design: &Design, bits: &[bool]) -> Vec<bool> {
    let mut named: Vec<(&Name, bool)> = design
        .nodes
        .iter()
        .enumerate()
        .filter_map(|(number, node)| if let Node::Output(name, _) = node { Some((name, bits[number])) } else { None })
        .collect();
    named.sort();
    named.into_iter().map(|(_, bit)| bit).collect()
}

/// The place of the clock's name among the inputs in byte order; none without registers.
pub fn clock_column(design: &Design) -> Option<usize> {
    let clock = usize::from(design.registers.first()?.clock);
    let name = design.nodes[clock].port().expect("a clock is an Input");
    design.input_names().iter().position(|other| other == name)
}

/// A claim or trace of a design with registers, with these bytes in the clock's column from cycle 0 on.
pub fn with_clock(design: &Design, claim: &[u8], bytes: &[u8]) -> Vec<u8> {
    let (inputs, column) = (design.input_names().len(), clock_column(design).expect("a design with registers"));
    let mut claim = claim.to_vec();
    for (cycle, byte) in bytes.iter().enumerate() {
        claim[cycle * inputs + column] = *byte;
    }
    claim
}

/// The clock's bytes of a claim or trace of a design with registers, cycles 0 to a last one.
pub fn clock_bytes(design: &Design, claim: &[u8], last: usize) -> Vec<u8> {
    let (inputs, column) = (design.input_names().len(), clock_column(design).expect("a design with registers"));
    (0..=last).map(|cycle| claim[cycle * inputs + column]).collect()
}

/// What a replay answers.
#[derive(Clone, Copy, Debug, Eq, PartialEq)]
pub struct ReplayAnswer {
    pub refusal: Option<Refusal>,
    pub yes: bool,
}

/// Whether the claim holds of two accepted designs.
fn holds(gold: &Design, gate: &Design, cycle: usize, claim: &[u8]) -> bool {
    let names = gold.input_names();
    let (mut gold_stored, mut gate_stored) = (initial(gold), initial(gate));
    for now in 0..=cycle {
        let bits = claim[now * names.len()..].iter().map(|byte| *byte == 1);
        let inputs: Inputs = names.iter().cloned().zip(bits).collect();
        let (gold_bits, gate_bits) = (values(gold, &inputs, &gold_stored), values(gate, &inputs, &gate_stored));
        let (ours, theirs) = (outputs(gold, &gold_bits), outputs(gate, &gate_bits));
        if now == cycle {
            let marks = claim[(cycle + 1) * names.len()..].iter().map(|byte| *byte == 1);
            return ours != theirs && ours.iter().zip(&theirs).map(|(a, b)| a != b).eq(marks);
        }
        if ours != theirs {
            return false;
        }
        gold_stored = next(gold, &gold_bits, &gold_stored);
        gate_stored = next(gate, &gate_bits, &gate_stored);
    }
    unreachable!("the claimed cycle is met")
}

/// Replay: gold's record, gate's record, the claimed cycle, the claim.
pub fn replay(gold: &[u8], gate: &[u8], cycle: u64, claim: &[u8]) -> ReplayAnswer {
    let accepted = read_pair(gold, gate).and_then(|(gold, gate)| {
        replay_refusal(&gold, &gate, cycle, claim)?;
        Ok(holds(&gold, &gate, usize::try_from(cycle).expect("a cycle fits"), claim))
    });
    match accepted {
        Ok(yes) => ReplayAnswer { refusal: None, yes },
        Err(refusal) => ReplayAnswer { refusal: Some(refusal), yes: false },
    }
}
