//! The record of the specification: its design, its reader with refusals 1 to 15 and 30, and its writer.
use std::collections::HashSet;

/// A name's bytes.
pub type Name = Vec<u8>;

/// A refusal: number, side and place.
#[derive(Clone, Copy, Debug, Eq, PartialEq)]
pub struct Refusal {
    pub number: u8,
    pub side: u8,
    pub place: usize,
}

/// A node; the numbers are its input nodes.
#[derive(Clone, Debug, Eq, PartialEq)]
pub enum Node {
    Input(Name),
    Constant(bool),
    RegisterOutput,
    Not(u16),
    Output(Name, u16),
    And(u16, u16),
    Or(u16, u16),
    Xor(u16, u16),
    Mux(u16, u16, u16),
}

impl Node {
    /// The numbers of its input nodes, in order.
    pub fn inputs(&self) -> Vec<u16> {
        match self {
            Node::Input(_) | Node::Constant(_) | Node::RegisterOutput => vec![],
            Node::Not(a) | Node::Output(_, a) => vec![*a],
            Node::And(a, b) | Node::Or(a, b) | Node::Xor(a, b) => vec![*a, *b],
            Node::Mux(a, b, c) => vec![*a, *b, *c],
        }
    }

    /// The name of an Input or Output.
    pub fn port(&self) -> Option<&Name> {
        match self {
            Node::Input(name) | Node::Output(name, _) => Some(name),
            _ => None,
        }
    }
}

/// An enable: its signal, and whether it is active low.
#[derive(Clone, Copy, Debug, Eq, PartialEq)]
pub struct Enable {
    pub signal: u16,
    pub low: bool,
}

/// A reset: its signal, whether it is active low, whether it is asynchronous, and its value.
#[derive(Clone, Copy, Debug, Eq, PartialEq)]
pub struct Reset {
    pub signal: u16,
    pub low: bool,
    pub asynchronous: bool,
    pub value: bool,
}

/// A register.
#[derive(Clone, Debug, Eq, PartialEq)]
pub struct Register {
    pub name: Name,
    pub output: u16,
    pub data: u16,
    pub clock: u16,
    pub falling: bool,
    pub enable: Option<Enable>,
    pub reset: Option<Reset>,
}

/// A design.
#[derive(Clone, Debug, Default, Eq, PartialEq)]
pub struct Design {
    pub name: Name,
    pub nodes: Vec<Node>,
    pub registers: Vec<Register>,
}

impl Design {
    /// The names of its Inputs in byte order.
    pub fn input_names(&self) -> Vec<Name> {
        let mut names: Vec<Name> = self.nodes.iter().filter_map(|node| if let Node::Input(name) = node { Some(name.clone()) } else { None }).collect();
        names.sort();
        names
    }

    /// The names of its Outputs in byte order.
    pub fn output_names(&self) -> Vec<Name> {
        let mut names: Vec<Name> = self.nodes.iter().filter_map(|node| if let Node::Output(name, _) = node { Some(name.clone()) } else { None }).collect();
        names.sort();
        names
    }

    /// The register with this output node.
    pub fn register_of(&self, node: usize) -> Option<usize> {
        self.registers.iter().position(|register| usize::from(register.output) == node)
    }
}

// ---- the reader

/// The bytes and the next field's place.
struct Cursor<'a> {
    bytes: &'a [u8],
    at: usize,
}

/// A refusal, with the side left to the pair.
fn refused<T>(number: u8, place: usize) -> Result<T, Refusal> {
    Err(Refusal { number, side: 0, place })
}

impl Cursor<'_> {
    /// A field of this many bytes.
    fn field(&mut self, length: usize) -> Result<&[u8], Refusal> {
        if self.bytes.len() - self.at < length {
            return refused(3, self.at);
        }
        let first = self.at;
        self.at += length;
        Ok(&self.bytes[first..self.at])
    }

    /// A number of two bytes.
    fn number(&mut self) -> Result<u16, Refusal> {
        let field = self.field(2)?;
        Ok(u16::from_be_bytes([field[0], field[1]]))
    }

    /// A byte with listed values.
    fn code(&mut self, listed: &[u8]) -> Result<u8, Refusal> {
        let place = self.at;
        let byte = self.field(1)?[0];
        if listed.contains(&byte) {
            Ok(byte)
        } else {
            refused(4, place)
        }
    }

    /// A name: its length byte, then its bytes.
    fn name(&mut self) -> Result<Name, Refusal> {
        let place = self.at;
        let length = self.field(1)?[0];
        if length == 0 || length > 32 {
            return refused(5, place);
        }
        let place = self.at;
        let name = self.field(usize::from(length))?.to_vec();
        if name.iter().any(|byte| !(33..=126).contains(byte)) {
            return refused(5, place);
        }
        Ok(name)
    }

    /// A count of two bytes that must not pass a limit.
    fn count(&mut self, limit: u16) -> Result<u16, Refusal> {
        let place = self.at;
        let count = self.number()?;
        if count > limit {
            return refused(6, place);
        }
        Ok(count)
    }

    /// A node, after this many Inputs and Outputs.
    fn node(&mut self, inputs: usize, outputs: usize) -> Result<Node, Refusal> {
        let place = self.at;
        let kind = self.code(&[0x00, 0x01, 0x02, 0x10, 0x11, 0x20, 0x21, 0x22, 0x30])?;
        if kind == 0x00 && inputs == 64 || kind == 0x11 && outputs == 64 {
            return refused(6, place);
        }
        Ok(match kind {
            0x00 => Node::Input(self.name()?),
            0x01 => Node::Constant(self.code(&[0, 1])? == 1),
            0x02 => Node::RegisterOutput,
            0x10 => Node::Not(self.number()?),
            0x11 => Node::Output(self.name()?, self.number()?),
            0x20 => Node::And(self.number()?, self.number()?),
            0x21 => Node::Or(self.number()?, self.number()?),
            0x22 => Node::Xor(self.number()?, self.number()?),
            _ => Node::Mux(self.number()?, self.number()?, self.number()?),
        })
    }

    /// A register.
    fn register(&mut self) -> Result<Register, Refusal> {
        let name = self.name()?;
        let (output, data, clock) = (self.number()?, self.number()?, self.number()?);
        let falling = self.code(&[0, 1])? == 1;
        let enable = match self.code(&[0, 1, 2])? {
            0 => None,
            level => Some(Enable { signal: self.number()?, low: level == 2 }),
        };
        let reset = match self.code(&[0, 1, 2])? {
            0 => None,
            level => Some(Reset {
                signal: self.number()?,
                low: level == 2,
                asynchronous: self.code(&[0, 1])? == 1,
                value: self.code(&[0, 1])? == 1,
            }),
        };
        Ok(Register { name, output, data, clock, falling, enable, reset })
    }
}

/// Refusals 1 to 6: the design that the bytes hold.
pub fn parse(bytes: &[u8]) -> Result<Design, Refusal> {
    if bytes.len() < 5 || bytes.len() > 65_535 {
        return refused(1, 0);
    }
    let length = u32::from_be_bytes([bytes[1], bytes[2], bytes[3], bytes[4]]);
    if length as usize != bytes.len() {
        return refused(1, 0);
    }
    if bytes[0] != 1 {
        return refused(2, 0);
    }
    let mut cursor = Cursor { bytes, at: 5 };
    let mut design = Design { name: cursor.name()?, ..Design::default() };
    let (mut inputs, mut outputs) = (0, 0);
    for _ in 0..cursor.count(1_024)? {
        let node = cursor.node(inputs, outputs)?;
        inputs += usize::from(matches!(node, Node::Input(_)));
        outputs += usize::from(matches!(node, Node::Output(_, _)));
        design.nodes.push(node);
    }
    for _ in 0..cursor.count(128)? {
        design.registers.push(cursor.register()?);
    }
    if cursor.at < bytes.len() {
        return refused(3, cursor.at);
    }
    Ok(design)
}

/// Refusals 7 and 8, by node.
fn node_refusal(design: &Design) -> Result<(), Refusal> {
    let mut names = HashSet::new();
    for (number, node) in design.nodes.iter().enumerate() {
        if node.inputs().iter().any(|input| usize::from(*input) >= number) {
            return refused(7, number);
        }
        if let Some(name) = node.port() {
            if !names.insert(name) {
                return refused(8, number);
            }
        }
    }
    Ok(())
}

/// Refusals 9 to 12, by register.
fn register_refusal(design: &Design) -> Result<(), Refusal> {
    let count = design.nodes.len();
    for (number, register) in design.registers.iter().enumerate() {
        let earlier = &design.registers[..number];
        if earlier.iter().any(|other| other.name == register.name) {
            return refused(9, number);
        }
        if design.nodes.get(usize::from(register.output)) != Some(&Node::RegisterOutput) {
            return refused(10, number);
        }
        if earlier.iter().any(|other| other.output == register.output) {
            return refused(11, number);
        }
        if register_nets(register).iter().any(|net| usize::from(*net) >= count) {
            return refused(12, number);
        }
    }
    Ok(())
}

/// A register's data, clock, enable and reset numbers.
pub fn register_nets(register: &Register) -> Vec<u16> {
    let mut nets = vec![register.data, register.clock];
    nets.extend(register.enable.map(|enable| enable.signal));
    nets.extend(register.reset.map(|reset| reset.signal));
    nets
}

/// Whether a register reads a node: as its data, its enable's signal or its reset's. Its clock is no reading.
fn register_reads(register: &Register, number: u16) -> bool {
    register.data == number || register.enable.is_some_and(|enable| enable.signal == number) || register.reset.is_some_and(|reset| reset.signal == number)
}

/// Refusals 13 and 14, by node, then 15, by register.
fn state_refusal(design: &Design) -> Result<(), Refusal> {
    let states: Vec<usize> = (0..design.nodes.len()).filter(|number| design.nodes[*number] == Node::RegisterOutput).collect();
    if let Some(number) = states.iter().find(|number| design.register_of(**number).is_none()) {
        return refused(13, *number);
    }
    for number in states {
        let register = &design.registers[design.register_of(number).expect("every state has a register")];
        if register.reset.is_some_and(|reset| reset.asynchronous && usize::from(reset.signal) >= number) {
            return refused(14, number);
        }
    }
    for (number, register) in design.registers.iter().enumerate() {
        if !matches!(design.nodes[usize::from(register.clock)], Node::Input(_)) {
            return refused(15, number);
        }
    }
    Ok(())
}

/// Refusals 7 to 15 of a design.
pub fn validate(design: &Design) -> Result<(), Refusal> {
    node_refusal(design)?;
    register_refusal(design)?;
    state_refusal(design)
}

/// Refusal 30: the lowest Input that clocks a register and that a node or a register reads.
pub fn clock_refusal(design: &Design) -> Result<(), Refusal> {
    for number in 0..u16::try_from(design.nodes.len()).expect("a design is small") {
        let clocks = design.registers.iter().any(|register| register.clock == number);
        let by_node = design.nodes.iter().any(|node| node.inputs().contains(&number));
        let by_register = design.registers.iter().any(|register| register_reads(register, number));
        if clocks && (by_node || by_register) {
            return refused(30, usize::from(number));
        }
    }
    Ok(())
}

/// The design of a record that passes 1 to 15 and 30. The Rust's own checks must agree with 7 to 15; it has none for 30.
pub fn read(bytes: &[u8]) -> Result<Design, Refusal> {
    let design = parse(bytes)?;
    let refusal = validate(&design);
    crate::bridge::agree(&design, refusal.err());
    refusal?;
    clock_refusal(&design)?;
    Ok(design)
}

// ---- the writer

/// A 2-byte number.
fn put_number(bytes: &mut Vec<u8>, number: u16) {
    bytes.extend(number.to_be_bytes());
}

/// A name: its length byte and its bytes.
fn put_name(bytes: &mut Vec<u8>, name: &[u8]) {
    bytes.push(u8::try_from(name.len()).expect("a name has at most 255 bytes"));
    bytes.extend(name);
}

/// A node.
fn put_node(bytes: &mut Vec<u8>, node: &Node) {
    bytes.push(match node {
        Node::Input(_) => 0x00,
        Node::Constant(_) => 0x01,
        Node::RegisterOutput => 0x02,
        Node::Not(_) => 0x10,
        Node::Output(_, _) => 0x11,
        Node::And(_, _) => 0x20,
        Node::Or(_, _) => 0x21,
        Node::Xor(_, _) => 0x22,
        Node::Mux(_, _, _) => 0x30,
    });
    if let Some(name) = node.port() {
        put_name(bytes, name);
    }
    if let Node::Constant(value) = node {
        bytes.push(u8::from(*value));
    }
    for input in node.inputs() {
        put_number(bytes, input);
    }
}

/// A register.
fn put_register(bytes: &mut Vec<u8>, register: &Register) {
    put_name(bytes, &register.name);
    for number in [register.output, register.data, register.clock] {
        put_number(bytes, number);
    }
    bytes.push(u8::from(register.falling));
    match register.enable {
        None => bytes.push(0),
        Some(enable) => {
            bytes.push(1 + u8::from(enable.low));
            put_number(bytes, enable.signal);
        }
    }
    match register.reset {
        None => bytes.push(0),
        Some(reset) => {
            bytes.push(1 + u8::from(reset.low));
            put_number(bytes, reset.signal);
            bytes.push(u8::from(reset.asynchronous));
            bytes.push(u8::from(reset.value));
        }
    }
}

/// A record of these bytes after the length field.
pub fn sized(rest: &[u8]) -> Vec<u8> {
    let mut bytes = vec![1];
    bytes.extend(u32::try_from(rest.len() + 5).expect("a record is short").to_be_bytes());
    bytes.extend(rest);
    bytes
}

/// The record of a design.
pub fn encode(design: &Design) -> Vec<u8> {
    let mut rest = Vec::new();
    put_name(&mut rest, &design.name);
    put_number(&mut rest, u16::try_from(design.nodes.len()).expect("a design is small"));
    for node in &design.nodes {
        put_node(&mut rest, node);
    }
    put_number(&mut rest, u16::try_from(design.registers.len()).expect("a design is small"));
    for register in &design.registers {
        put_register(&mut rest, register);
    }
    sized(&rest)
}
