//! The statuses of an accepted check.
use std::error::Error;
use std::fmt;

/// What an accepted check says of a pair. Only `Equivalent` is a pass.
#[derive(Clone, Copy, Debug, Eq, PartialEq, Hash)]
#[repr(u32)]
pub enum Status {
    /// The outputs agree in every cycle of every input sequence.
    Equivalent = 0,
    /// The outputs differ in some cycle, and the trace shows how.
    NotEquivalent = 1,
    /// Neither a difference nor a proof was found up to the depth asked for.
    Inconclusive = 2,
    /// A query reached the limit of learned literals.
    GaveUp = 3,
}

impl Status {
    /// The status of a number, if it is one.
    #[must_use]
    pub const fn from_number(number: u32) -> Option<Self> {
        match number {
            0 => Some(Self::Equivalent),
            1 => Some(Self::NotEquivalent),
            2 => Some(Self::Inconclusive),
            3 => Some(Self::GaveUp),
            _ => None,
        }
    }
}

impl fmt::Display for Status {
    fn fmt(&self, out: &mut fmt::Formatter<'_>) -> fmt::Result {
        out.write_str(match self {
            Self::Equivalent => "Equivalent: the outputs agree in every cycle of every input sequence",
            Self::NotEquivalent => "NOT EQUIVALENT: the outputs differ",
            Self::Inconclusive => "Inconclusive: no pass, neither a difference nor a proof was found",
            Self::GaveUp => "GaveUp: no pass, a query reached the limit of learned literals",
        })
    }
}

/// For callers to whom every status but `Equivalent` is an error.
impl Error for Status {}
