//! Designs with a purpose: the specification's cases, rows, counters, feedback shift registers, adders, multipliers.
use crate::record::{Design, Enable, Name, Node, Register, Reset};

/// A design in the making.
#[derive(Clone, Debug)]
pub struct Builder {
    pub design: Design,
}

impl Builder {
    /// An empty design.
    pub fn new(name: &str) -> Self {
        Self { design: Design { name: name.into(), ..Design::default() } }
    }

    /// A node at the end.
    pub fn node(&mut self, node: Node) -> u16 {
        self.design.nodes.push(node);
        u16::try_from(self.design.nodes.len() - 1).expect("a design is small")
    }

    /// An Input.
    pub fn input(&mut self, name: &str) -> u16 {
        self.node(Node::Input(name.into()))
    }

    /// An Output.
    pub fn output(&mut self, name: &str, from: u16) -> u16 {
        self.node(Node::Output(name.into(), from))
    }

    /// A Not.
    pub fn not(&mut self, a: u16) -> u16 {
        self.node(Node::Not(a))
    }

    /// An And.
    pub fn and(&mut self, a: u16, b: u16) -> u16 {
        self.node(Node::And(a, b))
    }

    /// An Or.
    pub fn or(&mut self, a: u16, b: u16) -> u16 {
        self.node(Node::Or(a, b))
    }

    /// A Xor.
    pub fn xor(&mut self, a: u16, b: u16) -> u16 {
        self.node(Node::Xor(a, b))
    }

    /// A Mux: condition, then, else.
    pub fn mux(&mut self, c: u16, a: u16, b: u16) -> u16 {
        self.node(Node::Mux(c, a, b))
    }

    /// A Constant.
    pub fn constant(&mut self, value: bool) -> u16 {
        self.node(Node::Constant(value))
    }

    /// A RegisterOutput.
    pub fn state(&mut self) -> u16 {
        self.node(Node::RegisterOutput)
    }

    /// A register clocked by node 0, rising, with this reset.
    pub fn register(&mut self, name: &str, output: u16, data: u16, reset: Option<Reset>) {
        let register = Register { name: name.into(), output, data, clock: 0, falling: false, enable: None, reset };
        self.design.registers.push(register);
    }

    /// A register clocked by node 0 with a synchronous reset to 0 from node 1.
    pub fn reset0(&mut self, name: &str, output: u16, data: u16) {
        self.register(name, output, data, sync(1, false));
    }

    /// The bits of a conjunction over these nodes, each inverted where `ones` has no bit.
    pub fn equals(&mut self, bits: &[u16], ones: usize) -> u16 {
        let mut all = None;
        for (place, bit) in bits.iter().enumerate() {
            let literal = if ones >> place & 1 == 1 { *bit } else { self.not(*bit) };
            all = Some(match all {
                None => literal,
                Some(before) => self.and(before, literal),
            });
        }
        all.expect("there is a bit")
    }
}

/// A synchronous reset, active high.
pub fn sync(signal: u16, value: bool) -> Option<Reset> {
    Some(Reset { signal, low: false, asynchronous: false, value })
}

/// An enable, active high.
pub fn enable(signal: u16) -> Option<Enable> {
    Some(Enable { signal, low: false })
}

/// The wire: y = a.
pub fn wire() -> Design {
    let mut b = Builder::new("g");
    let a = b.input("a");
    b.output("y", a);
    b.design
}

/// The wire with a Not before y.
pub fn inverter() -> Design {
    let mut b = Builder::new("g");
    let a = b.input("a");
    let n = b.not(a);
    b.output("y", n);
    b.design
}

/// The wire's ports, y = 0.
pub fn zero() -> Design {
    let mut b = Builder::new("g");
    b.input("a");
    let zero = b.constant(false);
    b.output("y", zero);
    b.design
}

/// y = a Xor b, as one node, or by Or, And and Not.
pub fn exclusive_or(by_gates: bool) -> Design {
    let mut b = Builder::new("g");
    let (lhs, rhs) = (b.input("a"), b.input("b"));
    let y = if by_gates {
        let (either, both) = (b.or(lhs, rhs), b.and(lhs, rhs));
        let one = b.not(both);
        b.and(either, one)
    } else {
        b.xor(lhs, rhs)
    };
    b.output("y", y);
    b.design
}

/// A register that takes Not of its own output; y reads it.
pub fn toggle(name: &str, reset: Option<Reset>) -> Design {
    let mut b = Builder::new("g");
    b.input("clk");
    b.input("rst");
    let q = b.state();
    let n = b.not(q);
    b.output("y", q);
    b.register(name, q, n, reset);
    b.design
}

/// The toggle's ports without a register, y = 0.
pub fn constant_zero() -> Design {
    let mut b = Builder::new("g");
    b.input("clk");
    b.input("rst");
    let zero = b.constant(false);
    b.output("y", zero);
    b.design
}

/// clk, rst, e.
pub fn clocked() -> (Builder, u16) {
    let mut b = Builder::new("g");
    b.input("clk");
    b.input("rst");
    let e = b.input("e");
    (b, e)
}

/// Registers in a row after e, reset 0; y is the last.
pub fn row(names: &[&str]) -> Design {
    let (mut b, e) = clocked();
    let outputs: Vec<u16> = names.iter().map(|_| b.state()).collect();
    b.output("y", *outputs.last().expect("a row has a register"));
    let mut data = e;
    for (name, output) in names.iter().zip(outputs) {
        b.reset0(name, output, data);
        data = output;
    }
    b.design
}

/// y = 0 beside a holding register.
pub fn holding() -> Design {
    let (mut b, _) = clocked();
    let h = b.state();
    let zero = b.constant(false);
    b.output("y", zero);
    b.reset0("h", h, h);
    b.design
}

/// y = a And b; a holds, b takes e.
pub fn conjunction() -> Design {
    let (mut builder, e) = clocked();
    let (a, b) = (builder.state(), builder.state());
    let y = builder.and(a, b);
    builder.output("y", y);
    builder.reset0("a", a, a);
    builder.reset0("b", b, e);
    builder.design
}

/// No outputs, no registers.
pub fn lone() -> Design {
    let mut b = Builder::new("g");
    b.input("a");
    b.design
}

/// A counter of `width` bits that goes up by 1 each cycle, or only where e is set; y is 1 at one count. Registers are PREFIX0 and on.
pub fn counter(prefix: &str, width: usize, count: usize, enabled: bool) -> Design {
    let (mut b, e) = clocked();
    let bits: Vec<u16> = (0..width).map(|_| b.state()).collect();
    let y = b.equals(&bits, count);
    b.output("y", y);
    let mut carry = None;
    for (place, bit) in bits.iter().enumerate() {
        let data = match carry {
            None => b.not(*bit),
            Some(carry) => b.xor(*bit, carry),
        };
        b.reset0(&format!("{prefix}{place}"), *bit, data);
        if enabled {
            b.design.registers.last_mut().expect("just added").enable = enable(e);
        }
        carry = Some(match carry {
            None => *bit,
            Some(carry) => b.and(*bit, carry),
        });
    }
    b.design
}

/// A ring of registers with one bit set that moves on each cycle; y is the last.
pub fn ring(prefix: &str, length: usize) -> Design {
    let (mut b, _) = clocked();
    let bits: Vec<u16> = (0..length).map(|_| b.state()).collect();
    b.output("y", bits[length - 1]);
    for place in 0..length {
        b.register(&format!("{prefix}{place}"), bits[place], bits[(place + length - 1) % length], sync(1, place == 0));
    }
    b.design
}

/// A linear feedback shift register of 8 bits that goes through all 255 states other than 0, from 1 on: the new bit is the parity of bits 3, 4, 5 and 7, or, in the Galois form,
/// the last bit goes into bits 0, 2, 3 and 4.
#[derive(Clone, Copy, Debug, Eq, PartialEq)]
pub enum Feedback {
    Fibonacci,
    Galois,
}

impl Feedback {
    /// The bits that the form reads, or writes.
    fn taps(self) -> u8 {
        match self {
            Self::Fibonacci => 0b1011_1000,
            Self::Galois => 0b0001_1101,
        }
    }

    /// The state after one cycle.
    pub fn next(self, state: u8) -> u8 {
        match self {
            Self::Fibonacci => state << 1 | (state & self.taps()).count_ones() as u8 & 1,
            Self::Galois => state << 1 ^ if state >> 7 == 1 { self.taps() } else { 0 },
        }
    }

    /// The node that bit `place` takes.
    fn data(self, b: &mut Builder, bits: &[u16], place: usize) -> u16 {
        let tapped = |place: usize| self.taps() >> place & 1 == 1;
        match self {
            Self::Fibonacci if place == 0 => (0..7).filter(|place| tapped(*place)).fold(bits[7], |parity, place| b.xor(parity, bits[place])),
            Self::Galois if place == 0 => bits[7],
            Self::Galois if tapped(place) => b.xor(bits[place - 1], bits[7]),
            _ => bits[place - 1],
        }
    }

    /// The register itself; y is 1 in the state after so many cycles from the initial one. Registers are PREFIX0 and on.
    pub fn design(self, prefix: &str, cycles: usize) -> Design {
        let (mut b, _) = clocked();
        let bits: Vec<u16> = (0..8).map(|_| b.state()).collect();
        let shown = (0..cycles).fold(1, |state, _| self.next(state));
        let y = b.equals(&bits, usize::from(shown));
        b.output("y", y);
        for place in 0..8 {
            let data = self.data(&mut b, &bits, place);
            b.register(&format!("{prefix}{place}"), bits[place], data, sync(1, place == 0));
        }
        b.design
    }
}

/// The sum of two rows of bits, as wide as the first; none is 0. The carry of a full adder is a majority, or by way of the half sum.
fn added(b: &mut Builder, lhs: &[Option<u16>], rhs: &[Option<u16>], majority: bool) -> Vec<Option<u16>> {
    let mut carry = None;
    let mut sums = Vec::new();
    for (x, y) in lhs.iter().zip(rhs) {
        let bits: Vec<u16> = [*x, *y, carry].into_iter().flatten().collect();
        let (sum, next) = match bits[..] {
            [] => (None, None),
            [only] => (Some(only), None),
            [x, y] => (Some(b.xor(x, y)), Some(b.and(x, y))),
            _ => full(b, bits[0], bits[1], bits[2], majority),
        };
        sums.push(sum);
        carry = next;
    }
    sums
}

/// A full adder: its sum and carry.
fn full(b: &mut Builder, x: u16, y: u16, z: u16, majority: bool) -> (Option<u16>, Option<u16>) {
    let half = b.xor(x, y);
    let sum = b.xor(half, z);
    let both = b.and(x, y);
    let carry = if majority {
        let (xz, yz) = (b.and(x, z), b.and(y, z));
        let some = b.or(both, xz);
        b.or(some, yz)
    } else {
        let through = b.and(half, z);
        b.or(both, through)
    };
    (Some(sum), Some(carry))
}

/// Three numbers of `width` bits added without the last carry, as (a + b) + c or as a + (b + c); outputs are the bits of the sum from `first` on, y0 the lowest.
pub fn three_added(width: usize, first: usize, last_two_first: bool) -> Design {
    let mut b = Builder::new("g");
    let [x, y, z] = ["a", "b", "c"].map(|name| (0..width).map(|place| Some(b.input(&format!("{name}{place}")))).collect::<Vec<_>>());
    let sum = if last_two_first {
        let two = added(&mut b, &y, &z, false);
        added(&mut b, &x, &two, false)
    } else {
        let two = added(&mut b, &x, &y, false);
        added(&mut b, &two, &z, false)
    };
    for (place, bit) in sum.into_iter().enumerate().skip(first) {
        b.output(&format!("y{place}"), bit.expect("every column has a bit"));
    }
    b.design
}

/// How a multiplier is built.
#[derive(Clone, Copy, Debug)]
pub struct Multiplier {
    pub width: usize,
    pub columns: usize,
    pub majority: bool,
    pub swapped: bool,
}

impl Multiplier {
    /// The product bits of two numbers, row after row with a ripple carry.
    pub fn product(self, b: &mut Builder, lhs: &[u16], rhs: &[u16]) -> Vec<Option<u16>> {
        let (lhs, rhs) = if self.swapped { (rhs, lhs) } else { (lhs, rhs) };
        let mut sum = vec![None; self.columns];
        for (shift, bit) in rhs.iter().enumerate() {
            let mut row = vec![None; self.columns];
            for (place, other) in lhs.iter().enumerate() {
                if place + shift < self.columns {
                    row[place + shift] = Some(b.and(*other, *bit));
                }
            }
            sum = added(b, &sum, &row, self.majority);
        }
        sum
    }

    /// A design with one bit of the product of a and b as y.
    pub fn design(self, bit: usize) -> Design {
        let mut b = Builder::new("g");
        let (lhs, rhs) = operands(&mut b, self.width);
        let y = self.product(&mut b, &lhs, &rhs)[bit].expect("the bit is of the product");
        b.output("y", y);
        b.design
    }
}

/// Inputs a0 and on, then b0 and on.
pub fn operands(b: &mut Builder, width: usize) -> (Vec<u16>, Vec<u16>) {
    let lhs = (0..width).map(|place| b.input(&format!("a{place}"))).collect();
    let rhs = (0..width).map(|place| b.input(&format!("b{place}"))).collect();
    (lhs, rhs)
}

/// A name with its number.
pub fn numbered(prefix: &str, number: usize) -> Name {
    format!("{prefix}{number}").into_bytes()
}
