//! Random designs of all shapes, and designs changed in one place.
use crate::record::{Design, Enable, Name, Node, Register, Reset};
use crate::rng::Rng;

/// How often generated designs read an Input that clocks their registers: like any other Input, so in one pair of twelve and else not, or not at all.
#[derive(Clone, Copy, Debug, Eq, PartialEq)]
pub enum ClockRead {
    Freely,
    Seldom,
    Never,
}

impl ClockRead {
    /// Whether the next design or pair may read its clock.
    pub fn drawn(self, rng: &mut Rng) -> bool {
        match self {
            Self::Freely => true,
            Self::Seldom => rng.one_in(12),
            Self::Never => false,
        }
    }

    /// The same for pairs that are chosen by what their checks say, and so have to be accepted ones: seldom is never.
    pub fn chosen(self) -> Self {
        if self == Self::Seldom { Self::Never } else { self }
    }
}

/// The ports that both designs of a pair have, and whether they may read the clock.
#[derive(Clone, Debug)]
pub struct Interface {
    pub inputs: Vec<Name>,
    pub outputs: Vec<Name>,
    pub clock: Option<Name>,
    pub falling: bool,
    pub clock_read: bool,
}

/// The nodes below a number that may be read: all, or all but the clock.
#[derive(Clone, Copy, Debug)]
pub struct Readable {
    limit: usize,
    without: Option<usize>,
}

impl Readable {
    /// The nodes below a limit but for this one.
    pub fn below(limit: usize, without: Option<usize>) -> Self {
        Self { limit, without: without.filter(|node| *node < limit) }
    }

    /// How many they are.
    pub fn count(self) -> usize {
        self.limit - usize::from(self.without.is_some())
    }

    /// The node at a place among them.
    fn at(self, place: usize) -> u16 {
        let passed = self.without.is_some_and(|node| place >= node);
        u16::try_from(place + usize::from(passed)).expect("a design is small")
    }

    /// Any of them.
    pub fn any(self, rng: &mut Rng) -> u16 {
        self.at(rng.below(self.count()))
    }

    /// One of them, mostly one of the last.
    fn recent(self, rng: &mut Rng) -> u16 {
        let count = self.count();
        let window = if rng.one_in(2) { count } else { count.min(6) };
        self.at(count - 1 - rng.below(window))
    }
}

/// The place of an Input.
pub fn input_place(nodes: &[Node], name: &Name) -> Option<usize> {
    nodes.iter().position(|node| matches!(node, Node::Input(own) if own == name))
}

/// How large a random design is at most.
#[derive(Clone, Copy, Debug)]
pub struct Size {
    pub inputs: usize,
    pub outputs: usize,
    pub registers: usize,
    pub gates: usize,
}

/// Names whose byte order differs from their numbers' order, short and of 32 bytes.
const POOL: [&str; 20] = [
    "a", "b", "c", "e", "a1", "a10", "a2", "A", "Z", "~", "!", "_x", "clk", "rst", "y", "q", "in[3]", "0", "ab",
    "a_name_of_thirty_two_bytes_abcde",
];

/// Distinct names from the pool.
fn names(rng: &mut Rng, count: usize) -> Vec<Name> {
    let mut pool: Vec<Name> = POOL.iter().map(|name| name.as_bytes().to_vec()).collect();
    rng.shuffle(&mut pool);
    pool.truncate(count);
    pool
}

/// Random ports; an input is the clock where there are registers.
pub fn interface(rng: &mut Rng, size: Size, registers: bool, clock: ClockRead) -> Interface {
    let inputs = rng.range(usize::from(registers), size.inputs);
    let outputs = if rng.one_in(12) { 0 } else { rng.range(1, size.outputs) };
    let mut all = names(rng, inputs + outputs);
    let outputs = all.split_off(inputs);
    let clock_name = if registers { Some(rng.pick(&all).clone()) } else { None };
    Interface { inputs: all, outputs, clock: clock_name, falling: rng.one_in(4), clock_read: clock.drawn(rng) }
}

/// Names for registers; a port may have one of them too.
pub fn register_names(rng: &mut Rng, count: usize) -> Vec<Name> {
    names(rng, count)
}

/// What is still to be placed.
#[derive(Clone, Debug)]
enum Item {
    Input(Name),
    Output(Name),
    State,
    Constant,
    Gate,
}

/// The items of a design in random order, sources mostly first.
fn items(rng: &mut Rng, interface: &Interface, registers: usize, gates: usize) -> Vec<Item> {
    let mut sources: Vec<Item> = interface.inputs.iter().cloned().map(Item::Input).collect();
    sources.extend(std::iter::repeat(Item::State).take(registers));
    sources.extend(std::iter::repeat(Item::Constant).take(rng.below(2)));
    let mut sinks: Vec<Item> = interface.outputs.iter().cloned().map(Item::Output).collect();
    sinks.extend(std::iter::repeat(Item::Gate).take(gates));
    rng.shuffle(&mut sources);
    rng.shuffle(&mut sinks);
    if rng.one_in(2) {
        sinks.sort_by_key(|item| matches!(item, Item::Output(_)));
    }
    sources.extend(sinks);
    if rng.one_in(3) {
        rng.shuffle(&mut sources);
    }
    sources
}

/// A gate over the nodes made before.
fn gate(rng: &mut Rng, readable: Readable) -> Node {
    let kind = rng.below(9);
    let mut one = || readable.recent(rng);
    match kind {
        0 => Node::Not(one()),
        1..=3 => Node::And(one(), one()),
        4 | 5 => Node::Or(one(), one()),
        6 => Node::Xor(one(), one()),
        _ => Node::Mux(one(), one(), one()),
    }
}

/// The items as nodes; what needs an earlier node waits for one, and has a Constant to read where that is the clock alone, which it must not read.
fn place(rng: &mut Rng, items: Vec<Item>, clock: Option<&Name>) -> Vec<Node> {
    let mut nodes: Vec<Node> = Vec::new();
    let (ready, waiting): (Vec<Item>, Vec<Item>) = {
        let first = items.iter().position(|item| !matches!(item, Item::Gate | Item::Output(_))).unwrap_or(items.len());
        (items[first..].to_vec(), items[..first].to_vec())
    };
    for item in ready.into_iter().chain(waiting) {
        let kept = clock.and_then(|name| input_place(&nodes, name));
        let reads = matches!(item, Item::Gate | Item::Output(_));
        if reads && Readable::below(nodes.len(), kept).count() == 0 {
            nodes.push(Node::Constant(rng.one_in(2)));
        }
        let readable = Readable::below(nodes.len(), kept);
        nodes.push(match item {
            Item::Input(name) => Node::Input(name),
            Item::State => Node::RegisterOutput,
            Item::Constant => Node::Constant(rng.one_in(2)),
            Item::Gate => gate(rng, readable),
            Item::Output(name) => Node::Output(name, readable.recent(rng)),
        });
    }
    nodes
}

/// A random reset for a register with this output node.
fn reset(rng: &mut Rng, readable: Readable, output: u16) -> Reset {
    let earlier = Readable::below(usize::from(output), readable.without);
    let asynchronous = earlier.count() > 0 && rng.one_in(3);
    let signal = if asynchronous { earlier } else { readable }.any(rng);
    Reset { signal, low: rng.one_in(3), asynchronous, value: rng.one_in(3) }
}

/// A random register with this output node.
fn register(rng: &mut Rng, name: Name, readable: Readable, output: u16, clock: u16, falling: bool) -> Register {
    let data = readable.recent(rng);
    let enable = if rng.one_in(3) { Some(Enable { signal: readable.recent(rng), low: rng.one_in(2) }) } else { None };
    Register { name, output, data, clock, falling, enable, reset: Some(reset(rng, readable, output)) }
}

/// A random design with these ports and registers.
pub fn design(rng: &mut Rng, interface: &Interface, registers: &[Name], gates: usize) -> Design {
    let mut items = items(rng, interface, registers.len(), gates);
    if interface.inputs.is_empty() && registers.is_empty() && !items.is_empty() {
        items.insert(0, Item::Constant);
    }
    let kept = interface.clock.as_ref().filter(|_| !interface.clock_read);
    let nodes = place(rng, items, kept);
    let readable = Readable::below(nodes.len(), kept.and_then(|name| input_place(&nodes, name)));
    let number = |place: usize| u16::try_from(place).expect("a design is small");
    let mut states: Vec<u16> = (0..nodes.len()).filter(|place| nodes[*place] == Node::RegisterOutput).map(number).collect();
    rng.shuffle(&mut states);
    let clock = interface.clock.as_ref().and_then(|clock| input_place(&nodes, clock));
    let registers = registers
        .iter()
        .zip(states)
        .map(|(name, output)| register(rng, name.clone(), readable, output, number(clock.expect("a clock")), interface.falling))
        .collect();
    let name = if rng.one_in(4) { b"design_with_a_name_of_32_bytes_x".to_vec() } else { b"g".to_vec() };
    Design { name, nodes, registers }
}

/// A gate of another kind or with another operand.
fn changed_node(rng: &mut Rng, nodes: &mut [Node], place: usize, kept: Option<usize>) {
    let readable = Readable::below(place, kept);
    if readable.count() == 0 {
        return;
    }
    let other = readable.recent(rng);
    nodes[place] = match nodes[place].clone() {
        Node::Constant(value) => Node::Constant(!value),
        Node::Not(_) => Node::Not(other),
        Node::Output(name, _) => Node::Output(name, other),
        Node::And(a, b) => if rng.one_in(2) { Node::Or(a, b) } else { Node::And(a, other) },
        Node::Or(a, b) => if rng.one_in(2) { Node::Xor(a, b) } else { Node::Or(other, b) },
        Node::Xor(a, b) => if rng.one_in(2) { Node::Or(a, b) } else { Node::Xor(a, other) },
        Node::Mux(c, a, b) => if rng.one_in(2) { Node::Mux(c, b, a) } else { Node::Mux(other, a, b) },
        same => same,
    };
}

/// A register changed in one place.
fn changed_register(rng: &mut Rng, design: &mut Design, place: usize, kept: Option<usize>) {
    let readable = Readable::below(design.nodes.len(), kept);
    let register = &mut design.registers[place];
    let reset = register.reset.as_mut().expect("a random design has resets");
    match rng.below(7) {
        0 => reset.value = !reset.value,
        1 => reset.low = !reset.low,
        2 => reset.asynchronous = reset.signal < register.output && !reset.asynchronous,
        3 => register.enable = None,
        4 => register.enable = Some(Enable { signal: readable.recent(rng), low: rng.one_in(2) }),
        5 => register.name.push(b'_'),
        _ => register.data = readable.recent(rng),
    }
    register.name.truncate(32);
}

/// A design of one clock changed in one place, and its registers' order perhaps; no reading of the clock is added unless it may be read.
pub fn changed(rng: &mut Rng, design: &Design, clock_read: bool) -> Design {
    let mut other = design.clone();
    let kept = design.registers.first().filter(|_| !clock_read).map(|register| usize::from(register.clock));
    if !other.registers.is_empty() && rng.one_in(2) {
        let place = rng.below(other.registers.len());
        changed_register(rng, &mut other, place, kept);
    } else if !other.nodes.is_empty() {
        let place = rng.below(other.nodes.len());
        changed_node(rng, &mut other.nodes, place, kept);
    }
    if rng.one_in(3) {
        rng.shuffle(&mut other.registers);
    }
    if crate::record::validate(&other).is_ok() {
        other
    } else {
        design.clone()
    }
}
