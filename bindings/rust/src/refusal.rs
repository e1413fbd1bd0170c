//! The refusals of the calls by number, with side and place; that is the checking order but for 30, which is tested of each record after its 15, and 36, which
//! a check tests after 17 and before 18.
use std::error::Error;
use std::fmt;

/// Why a call is refused; docs/SPECIFICATION.md lists the conditions.
#[derive(Clone, Copy, Debug, Eq, PartialEq, Hash)]
#[repr(u32)]
pub enum Refusal {
    /// The record has under 5 or over 65,535 bytes, or its length field differs from the bytes lent.
    Length = 1,
    /// Byte 0 is not 1.
    Version = 2,
    /// The next field in file order runs past the end, or bytes remain after the last register.
    Cut = 3,
    /// A byte with listed values has another one.
    Code = 4,
    /// A name has length 0 or over 32, or a byte outside 33 to 126.
    Name = 5,
    /// Over 1,024 nodes or over 128 registers are declared, or a 65th Input or 65th Output is met.
    Count = 6,
    /// A node's input number is not below the node's own.
    UndefinedNet = 7,
    /// An Input or Output repeats an earlier Input's or Output's name.
    DuplicatePortName = 8,
    /// A register repeats an earlier register's name.
    DuplicateRegisterName = 9,
    /// A register's output number is not that of a RegisterOutput node.
    InvalidRegisterOutput = 10,
    /// An earlier register has the same output.
    MultipleDrivers = 11,
    /// A register's data, clock, enable or reset number is not below the node count.
    RegisterNet = 12,
    /// A RegisterOutput node, the lowest such, has no register.
    UnconnectedRegister = 13,
    /// An asynchronous reset signal's number is not below its RegisterOutput node's.
    UnsupportedAsyncReset = 14,
    /// A register's clock is not an Input node.
    UnsupportedClock = 15,
    /// The depth is 0.
    ZeroDepth = 16,
    /// The depth is over 64.
    DepthLimit = 17,
    /// The sets of input names differ.
    InputInterface = 18,
    /// The sets of output names differ.
    OutputInterface = 19,
    /// The registers of one side, gold first, have two clock names or edges.
    MultipleClockDomains = 20,
    /// Clock name or edge differ between the sides, or only one side has registers.
    ClockDomain = 21,
    /// A register has no reset; gold by name, then gate.
    UnknownInitialState = 22,
    /// (D+1)×F + R is over 65,535, where F = I + 3×N + 10×R + 4×O + 1.
    TooLarge = 23,
    /// The trace buffer is under (D+1)×I + O bytes, or the work memory is under 8,388,608 words of 32 bits or under 65,536 f64; of a begin or a step, the bits are under 256 bytes.
    Memory = 24,
    /// The cycle is over 64, the claim's length is not (cycle+1)×I + O, or a byte of it is neither 0 nor 1; of a step, also a register's stored bit.
    Claim = 25,
    /// An Input that clocks a register is read by a node, or by a register's data, enable or reset.
    ClockRead = 30,
    /// The limit of learned literals is over 262,144.
    LearnedLimit = 36,
}

/// The refusals by number.
const ALL: [Refusal; 27] = [
    Refusal::Length,
    Refusal::Version,
    Refusal::Cut,
    Refusal::Code,
    Refusal::Name,
    Refusal::Count,
    Refusal::UndefinedNet,
    Refusal::DuplicatePortName,
    Refusal::DuplicateRegisterName,
    Refusal::InvalidRegisterOutput,
    Refusal::MultipleDrivers,
    Refusal::RegisterNet,
    Refusal::UnconnectedRegister,
    Refusal::UnsupportedAsyncReset,
    Refusal::UnsupportedClock,
    Refusal::ZeroDepth,
    Refusal::DepthLimit,
    Refusal::InputInterface,
    Refusal::OutputInterface,
    Refusal::MultipleClockDomains,
    Refusal::ClockDomain,
    Refusal::UnknownInitialState,
    Refusal::TooLarge,
    Refusal::Memory,
    Refusal::Claim,
    Refusal::ClockRead,
    Refusal::LearnedLimit,
];

impl Refusal {
    /// The refusal of a number, 1 to 25, 30 or 36.
    #[must_use]
    pub fn from_number(number: u32) -> Option<Self> {
        ALL.into_iter().find(|refusal| *refusal as u32 == number)
    }

    /// What the condition is.
    #[must_use]
    pub const fn condition(self) -> &'static str {
        match self {
            Self::Length => "the record has under 5 or over 65,535 bytes, or its length field differs from the bytes lent",
            Self::Version => "byte 0 is not 1",
            Self::Cut => "the next field in file order runs past the end, or bytes remain after the last register",
            Self::Code => "a byte with listed values has another one",
            Self::Name => "a name has length 0 or over 32, or a byte outside 33 to 126",
            Self::Count => "over 1,024 nodes or over 128 registers are declared, or a 65th Input or 65th Output is met",
            Self::UndefinedNet => "a node's input number is not below the node's own",
            Self::DuplicatePortName => "an Input or Output repeats an earlier Input's or Output's name",
            Self::DuplicateRegisterName => "a register repeats an earlier register's name",
            Self::InvalidRegisterOutput => "a register's output number is not that of a RegisterOutput node",
            Self::MultipleDrivers => "an earlier register has the same output",
            Self::RegisterNet => "a register's data, clock, enable or reset number is not below the node count",
            Self::UnconnectedRegister => "a RegisterOutput node, the lowest such, has no register",
            Self::UnsupportedAsyncReset => "an asynchronous reset signal's number is not below its RegisterOutput node's",
            Self::UnsupportedClock => "a register's clock is not an Input node",
            Self::ZeroDepth => "the depth is 0",
            Self::DepthLimit => "the depth is over 64",
            Self::InputInterface => "the sets of input names differ",
            Self::OutputInterface => "the sets of output names differ",
            Self::MultipleClockDomains => "the registers of one side, gold first, have two clock names or edges",
            Self::ClockDomain => "clock name or edge differ between the sides, or only one side has registers",
            Self::UnknownInitialState => "a register has no reset; gold by name, then gate",
            Self::TooLarge => "(D+1)×F + R is over 65,535, where F = I + 3×N + 10×R + 4×O + 1",
            Self::Memory => "the trace buffer is under (D+1)×I + O bytes, or the work memory is under 8,388,608 words of 32 bits or under 65,536 f64; of a begin or a step, the bits are under 256 bytes",
            Self::Claim => "the cycle is over 64, the claim's length is not (cycle+1)×I + O, or a byte of it is neither 0 nor 1; of a step, also a register's stored bit",
            Self::ClockRead => "an Input that clocks a register is read by a node, or by a register's data, enable or reset",
            Self::LearnedLimit => "the limit of learned literals is over 262,144",
        }
    }
}

impl fmt::Display for Refusal {
    fn fmt(&self, out: &mut fmt::Formatter<'_>) -> fmt::Result {
        write!(out, "{} {self:?}: {}", *self as u32, self.condition())
    }
}

impl Error for Refusal {}

/// A side of a pair.
#[derive(Clone, Copy, Debug, Eq, PartialEq, Hash)]
pub enum Side {
    /// The design as designed.
    Gold,
    /// The design as the tools reduced it.
    Gate,
}

impl fmt::Display for Side {
    fn fmt(&self, out: &mut fmt::Formatter<'_>) -> fmt::Result {
        out.write_str(match self {
            Self::Gold => "gold",
            Self::Gate => "gate",
        })
    }
}

/// A refused call: nothing that was lent is changed.
#[derive(Clone, Copy, Debug, Eq, PartialEq, Hash)]
pub struct Refused {
    /// Which refusal it is.
    pub refusal: Refusal,
    /// Whose record is at fault; gold where neither alone is.
    pub side: Side,
    /// A byte offset for 3 to 6, a node number for 7, 8, 13, 14 and 30, a register number for 9 to 12, 15 and 22, and else 0.
    pub place: u32,
}

impl Refused {
    /// The refusal of an answer's three numbers; none where the call was accepted.
    pub(crate) fn of(number: u32, side: u32, place: u32) -> Option<Self> {
        let side = if side == 0 { Side::Gold } else { Side::Gate };
        Refusal::from_number(number).map(|refusal| Self { refusal, side, place })
    }
}

impl fmt::Display for Refused {
    fn fmt(&self, out: &mut fmt::Formatter<'_>) -> fmt::Result {
        let what = match self.refusal as u32 {
            3..=6 => "byte",
            7 | 8 | 13 | 14 | 30 => "node",
            9..=12 | 15 | 22 => "register",
            _ => return write!(out, "refused: {}", self.refusal),
        };
        write!(out, "refused: {} ({} {what} {})", self.refusal, self.side, self.place)
    }
}

impl Error for Refused {
    fn source(&self) -> Option<&(dyn Error + 'static)> {
        Some(&self.refusal)
    }
}
