//! The stepping call, as the specification states it, over the oracle's own plain run: a position and its bits go in and come out by value.
use crate::pair::{begin_refusal, read_pair, step_refusal};
use crate::record::{Design, Refusal};
use crate::run::{initial, next, outputs, values, Inputs};

/// Where gate's bits begin, and how many bytes are lent at least.
pub const GATE_BITS: usize = 128;
pub const BITS: usize = 256;

/// The lent position.
#[derive(Clone, Copy, Debug, Eq, PartialEq)]
pub struct Position {
    pub cycle: u64,
    pub agreed: bool,
}

/// What a begin answers, and what is lent after it.
#[derive(Clone, Debug, Eq, PartialEq)]
pub struct Begun {
    pub refusal: Option<Refusal>,
    pub position: Position,
    pub bits: Vec<u8>,
}

/// What a step answers, and what is lent after it.
#[derive(Clone, Debug, Eq, PartialEq)]
pub struct Moved {
    pub refusal: Option<Refusal>,
    pub yes: bool,
    pub position: Position,
    pub bits: Vec<u8>,
}

/// A side's stored bits from a byte on.
fn stored(bits: &[u8], from: usize, design: &Design) -> Vec<bool> {
    bits[from..from + design.registers.len()].iter().map(|byte| *byte == 1).collect()
}

/// Stored bits put from a byte on.
fn put(bits: &mut [u8], from: usize, stored: &[bool]) {
    for (byte, bit) in bits[from..].iter_mut().zip(stored) {
        *byte = u8::from(*bit);
    }
}

/// Begin: gold's record, gate's record, the lent position and bits.
pub fn begin(gold: &[u8], gate: &[u8], position: Position, bits: &[u8]) -> Begun {
    let accepted = read_pair(gold, gate).and_then(|(gold, gate)| begin_refusal(&gold, &gate, bits).map(|()| (gold, gate)));
    match accepted {
        Err(refusal) => Begun { refusal: Some(refusal), position, bits: bits.to_vec() },
        Ok((gold, gate)) => {
            let mut bits = bits.to_vec();
            put(&mut bits, 0, &initial(&gold));
            put(&mut bits, GATE_BITS, &initial(&gate));
            Begun { refusal: None, position: Position { cycle: 0, agreed: true }, bits }
        }
    }
}

/// One cycle of two accepted designs, at most the claimed one.
fn cycle_of(gold: &Design, gate: &Design, cycle: u64, claim: &[u8], position: Position, bits: &[u8]) -> Moved {
    let names = gold.input_names();
    let row = usize::try_from(position.cycle).expect("at most 64") * names.len();
    let inputs: Inputs = names.iter().cloned().zip(claim[row..].iter().map(|byte| *byte == 1)).collect();
    let (gold_stored, gate_stored) = (stored(bits, 0, gold), stored(bits, GATE_BITS, gate));
    let (gold_values, gate_values) = (values(gold, &inputs, &gold_stored), values(gate, &inputs, &gate_stored));
    let differ: Vec<bool> = outputs(gold, &gold_values).iter().zip(outputs(gate, &gate_values)).map(|(a, b)| *a != b).collect();
    let marks = claim[claim.len() - differ.len()..].iter().map(|byte| *byte == 1);
    let as_claimed = differ.contains(&true) && differ.iter().copied().eq(marks);
    let mut after = bits.to_vec();
    put(&mut after, 0, &next(gold, &gold_values, &gold_stored));
    put(&mut after, GATE_BITS, &next(gate, &gate_values, &gate_stored));
    Moved {
        refusal: None,
        yes: position.cycle == cycle && position.agreed && as_claimed,
        position: Position { cycle: position.cycle + 1, agreed: position.agreed && !differ.contains(&true) },
        bits: after,
    }
}

/// Step: gold's record, gate's record, the claimed cycle, the claim, the lent position and bits.
pub fn step(gold: &[u8], gate: &[u8], cycle: u64, claim: &[u8], position: Position, bits: &[u8]) -> Moved {
    let still = |refusal| Moved { refusal, yes: false, position, bits: bits.to_vec() };
    let accepted = read_pair(gold, gate).and_then(|(gold, gate)| step_refusal(&gold, &gate, cycle, claim, bits).map(|()| (gold, gate)));
    match accepted {
        Err(refusal) => still(Some(refusal)),
        Ok(_) if position.cycle > cycle => still(None),
        Ok((gold, gate)) => cycle_of(&gold, &gate, cycle, claim, position, bits),
    }
}
