//! The refusals of a pair: 16 to 25, and 36.
use crate::bridge;
use crate::meter::LEARNED_LIMIT;
use crate::record::{read, Design, Name, Node, Refusal};
use crate::steps::{BITS, GATE_BITS};

/// The lengths of a check's lent buffers.
#[derive(Clone, Copy, Debug, Eq, PartialEq)]
pub struct Lent {
    pub trace: u64,
    pub words: u64,
    pub scores: u64,
}

/// The least words and scores that a check needs.
pub const WORDS: u64 = 8_388_608;
pub const SCORES: u64 = 65_536;

/// A refusal.
fn refused(number: u8, side: u8, place: usize) -> Result<(), Refusal> {
    Err(Refusal { number, side, place })
}

/// Both records through 15 and 30, gold wholly first.
pub fn read_pair(gold: &[u8], gate: &[u8]) -> Result<(Design, Design), Refusal> {
    let gold = read(gold)?;
    let gate = read(gate).map_err(|refusal| Refusal { side: 1, ..refusal })?;
    Ok((gold, gate))
}

/// A register's clock name and edge.
fn clock(design: &Design, register: usize) -> (Name, bool) {
    let register = &design.registers[register];
    match &design.nodes[usize::from(register.clock)] {
        Node::Input(name) => (name.clone(), register.falling),
        node => panic!("the clock is {node:?}"),
    }
}

/// Refusal 20: the one clock name and edge of a side's registers, none without registers.
fn domain(design: &Design, side: u8) -> Result<Option<(Name, bool)>, Refusal> {
    let clocks: Vec<(Name, bool)> = (0..design.registers.len()).map(|register| clock(design, register)).collect();
    if clocks.iter().any(|other| *other != clocks[0]) {
        return Err(Refusal { number: 20, side, place: 0 });
    }
    Ok(clocks.into_iter().next())
}

/// Refusal 22 of a side: its first register by name that has no reset.
fn unreset(design: &Design, side: u8) -> Result<(), Refusal> {
    let without = (0..design.registers.len()).filter(|register| design.registers[*register].reset.is_none());
    match without.min_by_key(|register| design.registers[*register].name.clone()) {
        Some(register) => refused(22, side, register),
        None => Ok(()),
    }
}

/// Refusals 18 to 22.
fn interfaces(gold: &Design, gate: &Design) -> Result<(), Refusal> {
    if gold.input_names() != gate.input_names() {
        return refused(18, 0, 0);
    }
    if gold.output_names() != gate.output_names() {
        return refused(19, 0, 0);
    }
    if domain(gold, 0)? != domain(gate, 1)? {
        return refused(21, 0, 0);
    }
    unreset(gold, 0)?;
    unreset(gate, 1)
}

/// The sum of refusal 23.
pub fn cost(gold: &Design, gate: &Design, depth: u64) -> u64 {
    let count = |number: usize| number as u64;
    let inputs = count(gold.input_names().len());
    let outputs = count(gold.output_names().len());
    let nodes = count(gold.nodes.len() + gate.nodes.len());
    let registers = count(gold.registers.len() + gate.registers.len());
    let frame = inputs + 3 * nodes + 10 * registers + 4 * outputs + 1;
    (depth + 1) * frame + registers
}

/// The trace bytes that refusal 24 asks for.
pub fn trace_need(design: &Design, depth: u64) -> u64 {
    (depth + 1) * design.input_names().len() as u64 + design.output_names().len() as u64
}

/// The refusals of a check in their order: 16, 17, 36, 18 to 24.
pub fn check_refusal(gold: &Design, gate: &Design, depth: u64, limit: u64, lent: Lent) -> Result<(), Refusal> {
    let own = if depth == 0 { refused(16, 0, 0) } else { interfaces(gold, gate) };
    bridge::agree_pair(gold, gate, depth, own.err());
    if depth > 64 {
        return refused(17, 0, 0);
    }
    if depth > 0 && limit > LEARNED_LIMIT as u64 {
        return refused(36, 0, 0);
    }
    own?;
    if cost(gold, gate, depth) > 65_535 {
        return refused(23, 0, 0);
    }
    if lent.trace < trace_need(gold, depth) || lent.words < WORDS || lent.scores < SCORES {
        return refused(24, 0, 0);
    }
    Ok(())
}

/// Refusals 18 to 22 and 25 of a replay.
pub fn replay_refusal(gold: &Design, gate: &Design, cycle: u64, claim: &[u8]) -> Result<(), Refusal> {
    let own = interfaces(gold, gate);
    bridge::agree_pair(gold, gate, 1, own.err());
    own?;
    let fits = cycle <= 64 && claim.len() as u64 == trace_need(gold, cycle);
    if !fits || claim.iter().any(|byte| *byte > 1) {
        return refused(25, 0, 0);
    }
    Ok(())
}

/// Refusals 18 to 22 and 24 of a begin.
pub fn begin_refusal(gold: &Design, gate: &Design, bits: &[u8]) -> Result<(), Refusal> {
    let own = interfaces(gold, gate);
    bridge::agree_pair(gold, gate, 1, own.err());
    own?;
    if bits.len() < BITS { refused(24, 0, 0) } else { Ok(()) }
}

/// Refusals of a step: those of a replay, then 24 and 25 of the lent bits.
pub fn step_refusal(gold: &Design, gate: &Design, cycle: u64, claim: &[u8], bits: &[u8]) -> Result<(), Refusal> {
    replay_refusal(gold, gate, cycle, claim)?;
    if bits.len() < BITS {
        return refused(24, 0, 0);
    }
    let read = bits[..gold.registers.len()].iter().chain(&bits[GATE_BITS..GATE_BITS + gate.registers.len()]);
    if read.into_iter().any(|byte| *byte > 1) { refused(25, 0, 0) } else { Ok(()) }
}
