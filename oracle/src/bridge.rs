//! A design as the Rust has it, and the agreement of the Rust's own checks with the specification's refusals.
use crate::equivalence::{validate_problem, EquivalenceError};
use crate::meter::plain_node;
use crate::record::{register_nets, Design, Node, Refusal, Register};
use crate::struo_ir::{ActiveLevel, ClockEdge, EnableControl, NetId, Netlist, NodeKind, RegisterCell, ResetControl, ValidationError};
use crate::transition::{TransitionError, TransitionSystem};

/// A name as the Rust's string.
fn text(name: &[u8]) -> String {
    String::from_utf8(name.to_vec()).expect("a name is ASCII")
}

/// The net that a node drives.
fn net(number: u16) -> NetId {
    NetId::raw(u32::from(number))
}

/// A level.
fn level(low: bool) -> ActiveLevel {
    if low {
        ActiveLevel::Low
    } else {
        ActiveLevel::High
    }
}

/// A node as the Rust's kind and nets.
fn node(node: &Node) -> (NodeKind, Vec<NetId>) {
    let kind = match node {
        Node::Input(name) => NodeKind::Input(text(name)),
        Node::Constant(value) => NodeKind::Constant(*value),
        Node::RegisterOutput => NodeKind::RegisterOutput("state".into()),
        Node::Not(_) => NodeKind::Not,
        Node::Output(name, _) => NodeKind::Output(text(name)),
        Node::And(_, _) => NodeKind::And,
        Node::Or(_, _) => NodeKind::Or,
        Node::Xor(_, _) => NodeKind::Xor,
        Node::Mux(_, _, _) => NodeKind::Mux,
    };
    (kind, node.inputs().into_iter().map(net).collect())
}

/// A register as the Rust's cell.
fn register(register: &Register) -> RegisterCell {
    let edge = if register.falling { ClockEdge::Falling } else { ClockEdge::Rising };
    let enable = register.enable.map(|enable| EnableControl { signal: net(enable.signal), active: level(enable.low) });
    let reset = register.reset.map(|reset| ResetControl {
        signal: net(reset.signal),
        active: level(reset.low),
        asynchronous: reset.asynchronous,
        value: reset.value,
    });
    RegisterCell::new(text(&register.name), net(register.output), net(register.data), net(register.clock), edge, enable, reset)
}

/// The design's netlist, node for node.
pub fn netlist(design: &Design) -> Netlist {
    let nodes = design.nodes.iter().map(node).collect();
    let registers = design.registers.iter().map(register).collect();
    Netlist::from_raw(text(&design.name), nodes, registers)
}

/// The transition system of a design that passed 1 to 15.
pub fn system(design: &Design) -> TransitionSystem {
    lower(&netlist(design))
}

/// The Rust's lowering of a netlist.
pub fn lower(netlist: &Netlist) -> TransitionSystem {
    TransitionSystem::from_netlist(netlist).expect("an accepted design is lowered")
}

/// The nodes of a netlist's transition graph, node 0 first: none for it and for a variable.
pub fn lowered(netlist: &Netlist) -> Vec<Option<(usize, usize)>> {
    lower(netlist).aig.nodes().iter().map(plain_node).collect()
}

/// The first of these numbers that is not below a limit.
fn undefined(numbers: &[u16], limit: usize) -> NetId {
    net(*numbers.iter().find(|number| usize::from(**number) >= limit).expect("a number is at fault"))
}

/// What the Rust's validate must say for refusals 7 to 12.
fn expected(design: &Design, refusal: Refusal) -> ValidationError {
    let place = refusal.place;
    match refusal.number {
        7 => ValidationError::UndefinedNet(undefined(&design.nodes[place].inputs(), place)),
        8 => ValidationError::DuplicatePortName(text(design.nodes[place].port().expect("a port is at fault"))),
        9 => ValidationError::DuplicateRegisterName(text(&design.registers[place].name)),
        10 => ValidationError::InvalidRegisterOutput(net(design.registers[place].output)),
        11 => ValidationError::MultipleDrivers(net(design.registers[place].output)),
        12 => ValidationError::UndefinedNet(undefined(&register_nets(&design.registers[place]), design.nodes.len())),
        number => panic!("refusal {number} is none of a netlist's"),
    }
}

/// The Rust's validate and from_netlist refuse exactly as refusals 7 to 15 do.
pub fn agree(design: &Design, refusal: Option<Refusal>) {
    let netlist = netlist(design);
    let rust = netlist.validate();
    match refusal {
        Some(refusal) if refusal.number <= 12 => assert_eq!(rust, Err(expected(design, refusal)), "{design:?}"),
        Some(refusal) if refusal.number == 13 => match rust {
            Err(ValidationError::UnconnectedRegister(net)) => {
                let node = net.index() as usize;
                assert!(node >= refusal.place && design.register_of(node).is_none(), "{design:?}");
            }
            other => panic!("{refusal:?} but the Rust says {other:?}: {design:?}"),
        },
        _ => {
            assert_eq!(rust, Ok(()), "{design:?}");
            agree_lowered(design, &netlist, refusal);
        }
    }
}

/// The Rust's from_netlist refuses exactly as 14 and 15 do.
fn agree_lowered(design: &Design, netlist: &Netlist, refusal: Option<Refusal>) {
    let rust = TransitionSystem::from_netlist(netlist).map(|_| ());
    let own = match refusal {
        None => Ok(()),
        Some(Refusal { number: 14, place, .. }) => {
            let register = design.register_of(place).expect("the node has a register");
            Err(TransitionError::UnsupportedAsyncReset(text(&design.registers[register].name)))
        }
        Some(refusal) => Err(TransitionError::UnsupportedClock(text(&design.registers[refusal.place].name))),
    };
    assert_eq!(rust, own, "{design:?}");
}

/// The Rust's validate_problem refuses exactly as 16 and 18 to 22 do; `refusal` leaves out 17, 23 and 24.
pub fn agree_pair(gold: &Design, gate: &Design, depth: u64, refusal: Option<Refusal>) {
    let depth = usize::try_from(depth).expect("a depth fits");
    let rust = validate_problem(&system(gold), &system(gate), depth);
    let sides = [gold, gate];
    let agrees = match (refusal, &rust) {
        (None, Ok(())) => true,
        (Some(refusal), Err(error)) => match error {
            EquivalenceError::ZeroDepth => refusal.number == 16,
            EquivalenceError::InputInterface { .. } => refusal.number == 18,
            EquivalenceError::OutputInterface { .. } => refusal.number == 19,
            EquivalenceError::MultipleClockDomains(name) => {
                refusal.number == 20 && *name == text(&sides[usize::from(refusal.side)].name)
            }
            EquivalenceError::ClockDomain { .. } => refusal.number == 21,
            EquivalenceError::UnknownInitialState(name) => {
                refusal.number == 22 && *name == text(&sides[usize::from(refusal.side)].registers[refusal.place].name)
            }
        },
        _ => false,
    };
    assert!(agrees, "{refusal:?} but the Rust says {rust:?}: {gold:?} {gate:?}");
}
