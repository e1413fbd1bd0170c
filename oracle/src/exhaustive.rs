//! The specification's four questions on tiny designs, answered by search through all states and inputs.
use std::collections::BTreeSet;

use crate::check::{EQUIVALENT, INCONCLUSIVE, NOT_EQUIVALENT};
use crate::record::Design;
use crate::run::{initial, next, outputs, values, Inputs};

/// A design's outputs and next state for each state and input; bits by register and by input name.
struct Table {
    outputs: Vec<Vec<Vec<bool>>>,
    next: Vec<Vec<usize>>,
    initial: usize,
}

/// Bits as a number, the first lowest.
fn packed(bits: &[bool]) -> usize {
    bits.iter().enumerate().map(|(place, bit)| usize::from(*bit) << place).sum()
}

/// A number's bits.
fn unpacked(number: usize, count: usize) -> Vec<bool> {
    (0..count).map(|place| number >> place & 1 == 1).collect()
}

/// A design's table.
fn table(design: &Design) -> Table {
    let names = design.input_names();
    let count = design.registers.len();
    let (mut all_outputs, mut all_next) = (Vec::new(), Vec::new());
    for state in 0..1 << count {
        let stored = unpacked(state, count);
        let (mut state_outputs, mut state_next) = (Vec::new(), Vec::new());
        for input in 0..1 << names.len() {
            let inputs: Inputs = names.iter().cloned().zip(unpacked(input, names.len())).collect();
            let bits = values(design, &inputs, &stored);
            state_outputs.push(outputs(design, &bits));
            state_next.push(packed(&next(design, &bits, &stored)));
        }
        all_outputs.push(state_outputs);
        all_next.push(state_next);
    }
    Table { outputs: all_outputs, next: all_next, initial: packed(&initial(design)) }
}

/// A state of both sides.
type Both = (usize, usize);

/// The two tables and the registers named alike.
struct Product {
    gold: Table,
    gate: Table,
    alike: Vec<(usize, usize)>,
    inputs: usize,
}

impl Product {
    /// The product of two designs.
    fn new(gold: &Design, gate: &Design) -> Self {
        let mut alike = Vec::new();
        for (place, register) in gold.registers.iter().enumerate() {
            let same = gate.registers.iter().position(|other| other.name == register.name);
            alike.extend(same.map(|other| (place, other)));
        }
        Self { gold: table(gold), gate: table(gate), alike, inputs: 1 << gold.input_names().len() }
    }

    /// Whether registers named alike differ.
    fn named_differ(&self, (gold, gate): Both) -> bool {
        self.alike.iter().any(|(ours, theirs)| gold >> ours & 1 != gate >> theirs & 1)
    }

    /// Whether the outputs differ on an input.
    fn outputs_differ(&self, (gold, gate): Both, input: usize) -> bool {
        self.gold.outputs[gold][input] != self.gate.outputs[gate][input]
    }

    /// The states after one cycle, by the inputs that are allowed.
    fn step(&self, states: &BTreeSet<Both>, allowed: impl Fn(Both, usize) -> bool) -> BTreeSet<Both> {
        let mut after = BTreeSet::new();
        for both in states {
            for input in (0..self.inputs).filter(|input| allowed(*both, *input)) {
                after.insert((self.gold.next[both.0][input], self.gate.next[both.1][input]));
            }
        }
        after
    }

    /// Whether some state and input is bad.
    fn any(&self, states: &BTreeSet<Both>, bad: impl Fn(Both, usize) -> bool) -> bool {
        states.iter().any(|both| (0..self.inputs).any(|input| bad(*both, input)))
    }

    /// Questions 1 and 2: from the initial states, something bad in cycles 0 to d.
    fn reached(&self, depth: usize, bad: impl Fn(Both, usize) -> bool) -> bool {
        let mut states = BTreeSet::from([(self.gold.initial, self.gate.initial)]);
        for _ in 0..=depth {
            if self.any(&states, &bad) {
                return true;
            }
            states = self.step(&states, |_, _| true);
        }
        false
    }

    /// Questions 3 and 4: from free states, after d good cycles, a bad one.
    fn step_fails(&self, depth: usize, shared: bool, bad: impl Fn(Both, usize) -> bool) -> bool {
        let mut states = BTreeSet::new();
        for gold in 0..self.gold.next.len() {
            states.extend((0..self.gate.next.len()).map(|gate| (gold, gate)).filter(|both| !shared || !self.named_differ(*both)));
        }
        for _ in 0..depth {
            states = self.step(&states, |both, input| !bad(both, input));
        }
        self.any(&states, &bad)
    }

    /// The first cycle in which outputs differ on one input sequence, whose inputs are the digits of a number, the first lowest.
    fn first_on(&self, mut sequence: usize, cycles: usize) -> Option<usize> {
        let (mut gold, mut gate) = (self.gold.initial, self.gate.initial);
        for cycle in 0..cycles {
            let input = sequence % self.inputs;
            if self.outputs_differ((gold, gate), input) {
                return Some(cycle);
            }
            (gold, gate) = (self.gold.next[gold][input], self.gate.next[gate][input]);
            sequence /= self.inputs;
        }
        None
    }

    /// A question by its number; 0 is question 1 of cycle 0 alone.
    fn question(&self, number: usize, depth: usize) -> bool {
        match number {
            0 => self.reached(0, |both, input| self.outputs_differ(both, input)),
            1 => self.reached(depth, |both, input| self.outputs_differ(both, input)),
            2 => self.reached(depth, |both, _| self.named_differ(both)),
            3 => self.step_fails(depth, true, |both, input| self.outputs_differ(both, input) || self.named_differ(both)),
            _ => self.step_fails(depth, false, |both, input| self.outputs_differ(both, input)),
        }
    }
}

/// The first cycle up to a last one in which some input sequence makes outputs differ, if there is one.
pub fn first_difference(gold: &Design, gate: &Design, last: usize) -> Option<usize> {
    let product = Product::new(gold, gate);
    (0..=last).find(|cycle| product.question(1, *cycle))
}

/// The same over every input sequence, each run by itself.
pub fn least_over_sequences(gold: &Design, gate: &Design, last: usize) -> Option<usize> {
    let product = Product::new(gold, gate);
    let cycles = u32::try_from(last + 1).expect("few cycles");
    (0..product.inputs.pow(cycles)).filter_map(|sequence| product.first_on(sequence, last + 1)).min()
}

/// What k-induction says of two designs to a depth, in the mode of the earliest cycle or without it: status, depth, and each question asked with its answer.
pub fn induction(gold: &Design, gate: &Design, maximum: usize, earliest: bool) -> (u8, usize, Vec<(usize, usize, bool)>) {
    let product = Product::new(gold, gate);
    let mut asked = Vec::new();
    if earliest {
        asked.push((1, 0, product.question(0, 1)));
        if asked[0].2 {
            return (NOT_EQUIVALENT, 1, asked);
        }
    }
    for depth in 1..=maximum {
        let mut ask = |number: usize| {
            let yes = product.question(number, depth);
            asked.push((depth, number, yes));
            yes
        };
        if ask(1) {
            return (NOT_EQUIVALENT, depth, asked);
        }
        let named = !ask(2) && !ask(3);
        if named || !ask(4) {
            return (EQUIVALENT, depth, asked);
        }
    }
    (INCONCLUSIVE, maximum, asked)
}
