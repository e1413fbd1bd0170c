//! Dense pairs: one random design, nearly all of whose gates are read, written twice; a few gates before the outputs have other forms on each side.
use crate::record::{Design, Node};
use crate::rng::Rng;
use crate::shapes::{enable, Builder};

/// Nodes that every dense design begins with: the clock, the reset, the registers' enable and the data of the register that shows the outputs.
const CLOCK_TO_SHOW: [&str; 4] = ["clk", "rst", "en", "show"];
const ENABLE: u16 = 2;
const SHOW: u16 = 3;

/// How large each side is; `late` gates before the outputs may have other forms, which have `more` nodes in all.
#[derive(Clone, Copy, Debug)]
pub struct Dense {
    pub inputs: usize,
    pub outputs: usize,
    pub registers: usize,
    pub nodes: usize,
    pub late: usize,
    pub more: usize,
}

impl Dense {
    /// The gates that are made before the late ones.
    fn early(self) -> usize {
        self.nodes - self.more - self.late - self.inputs - self.registers - 2 * self.outputs
    }
}

/// A node that nothing reads yet, every other time; else any node past the first four.
fn operand(rng: &mut Rng, unread: &mut Vec<u16>, count: usize) -> u16 {
    if unread.is_empty() || rng.one_in(2) {
        u16::try_from(rng.range(CLOCK_TO_SHOW.len(), count - 1)).expect("a design is small")
    } else {
        unread.swap_remove(rng.below(unread.len()))
    }
}

/// So many gates more.
fn gates(rng: &mut Rng, b: &mut Builder, unread: &mut Vec<u16>, count: usize) {
    for _ in 0..count {
        let nodes = b.design.nodes.len();
        let kind = rng.below(6);
        let mut one = || operand(rng, unread, nodes);
        let gate = match kind {
            0 | 1 => Node::And(one(), one()),
            2 | 3 => Node::Or(one(), one()),
            4 => Node::Xor(one(), one()),
            _ => Node::Mux(one(), one(), one()),
        };
        unread.push(b.node(gate));
    }
}

/// The design that both sides write, and its first late gate, past all that a register reads. Registers but the one that shows the outputs hold unless `en` is set,
/// and an output is 0 unless that one is set: so free states that differ can stay and be shown late, and induction closes at no depth.
fn plain(rng: &mut Rng, size: Dense) -> (Design, usize) {
    let mut b = Builder::new("plain");
    CLOCK_TO_SHOW.iter().for_each(|name| { b.input(name); });
    let mut unread: Vec<u16> = (CLOCK_TO_SHOW.len()..size.inputs).map(|place| b.input(&format!("i{place}"))).collect();
    let states: Vec<u16> = (0..size.registers).map(|_| b.state()).collect();
    unread.extend(&states[1..]);
    gates(rng, &mut b, &mut unread, size.early());
    let late = b.design.nodes.len();
    b.reset0("r0", states[0], SHOW);
    for (place, state) in states.iter().enumerate().skip(1) {
        let data = operand(rng, &mut unread, late);
        b.reset0(&format!("r{place}"), *state, data);
        b.design.registers[place].enable = enable(ENABLE);
    }
    gates(rng, &mut b, &mut unread, size.late);
    let end = b.design.nodes.len();
    for place in 0..size.outputs {
        let from = operand(rng, &mut unread, end);
        let shown = b.and(from, states[0]);
        b.output(&format!("y{place}"), shown);
    }
    (b.design, late)
}

/// How many nodes more a gate has in its other form; none where it has no other form.
fn more(node: &Node) -> Option<usize> {
    match node {
        Node::And(..) | Node::Or(..) => Some(2),
        Node::Xor(..) | Node::Mux(..) => Some(3),
        _ => None,
    }
}

/// A gate in its other form, of other conjunctions: x And (y Or not x), x Or (y And not x), (x Or y) And not (x And y), (not c Or x) And (c Or y).
fn other_form(b: &mut Builder, node: &Node, at: impl Fn(u16) -> u16) -> u16 {
    match *node {
        Node::And(x, y) => {
            let not_x = b.not(at(x));
            let either = b.or(at(y), not_x);
            b.and(at(x), either)
        }
        Node::Or(x, y) => {
            let not_x = b.not(at(x));
            let both = b.and(at(y), not_x);
            b.or(at(x), both)
        }
        Node::Xor(x, y) => {
            let (either, both) = (b.or(at(x), at(y)), b.and(at(x), at(y)));
            let not_both = b.not(both);
            b.and(either, not_both)
        }
        Node::Mux(c, x, y) => {
            let not_c = b.not(at(c));
            let (left, right) = (b.or(not_c, at(x)), b.or(at(c), at(y)));
            b.and(left, right)
        }
        _ => unreachable!("no other gate has another form"),
    }
}

/// A node as it is, over the new numbers.
fn same_form(b: &mut Builder, node: &Node, at: impl Fn(u16) -> u16) -> u16 {
    b.node(match node.clone() {
        Node::Not(x) => Node::Not(at(x)),
        Node::Output(name, x) => Node::Output(name, at(x)),
        Node::And(x, y) => Node::And(at(x), at(y)),
        Node::Or(x, y) => Node::Or(at(x), at(y)),
        Node::Xor(x, y) => Node::Xor(at(x), at(y)),
        Node::Mux(c, x, y) => Node::Mux(at(c), at(x), at(y)),
        source => source,
    })
}

/// The late gates that get their other form: at random, as many as so many nodes more allow.
fn chosen(rng: &mut Rng, design: &Design, late: usize, mut spare: usize) -> Vec<bool> {
    let mut places: Vec<usize> = (late..design.nodes.len()).collect();
    rng.shuffle(&mut places);
    let mut chosen = vec![false; design.nodes.len()];
    for place in places {
        if let Some(more) = more(&design.nodes[place]).filter(|more| *more <= spare) {
            chosen[place] = true;
            spare -= more;
        }
    }
    chosen
}

/// A side: the design with late gates in their other form, filled up with Nots that nothing reads, its registers named after the side.
fn written(rng: &mut Rng, design: &Design, late: usize, size: Dense, side: &str) -> Design {
    let mut b = Builder::new(side);
    let mut new: Vec<u16> = Vec::new();
    for (node, other) in design.nodes.iter().zip(chosen(rng, design, late, size.more)) {
        let at = |old: u16| new[usize::from(old)];
        let number = if other { other_form(&mut b, node, at) } else { same_form(&mut b, node, at) };
        new.push(number);
    }
    while b.design.nodes.len() < size.nodes {
        b.not(SHOW);
    }
    for (place, register) in design.registers.iter().enumerate() {
        b.reset0(&format!("{side}{place}"), new[usize::from(register.output)], new[usize::from(register.data)]);
        b.design.registers[place].enable = register.enable;
    }
    b.design
}

/// Two writings of one random design; no register of one has the name of one of the other.
pub fn dense(rng: &mut Rng, size: Dense) -> (Design, Design) {
    let (design, late) = plain(rng, size);
    (written(rng, &design, late, size, "gold"), written(rng, &design, late, size, "gate"))
}
