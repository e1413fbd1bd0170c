"""The one table of refusals: number, name, calls, condition, side and place. Words and documents are made from it."""
from __future__ import annotations

from dataclasses import dataclass
from typing import Dict, Tuple


@dataclass(frozen=True)
class Row:
    """A refusal: which calls give it, when, whose side is named, and what its place is."""

    number: int
    name: str
    calls: str
    condition: str
    side: str
    place: str


# Which calls give a refusal.
ALL, PAIR, CHECK = "read, check, replay, begin, step", "check, replay, begin, step", "check"
LENT, CLAIMED = "check, begin, step", "replay, step"

# Whose side is named, and what the place is.
RECORD, NEITHER, ITS = "the record's", "0", "the side at fault"
OFFSET, NODE, REGISTER, NONE = "byte offset", "node number", "register number", "0"

# By number, which is the checking order but for 30 and 36: gold is checked wholly through 15 and then 30, then gate; then the pair, by a check with 36 between
# 17 and 18.
TABLE: Tuple[Row, ...] = (
    Row(1, "Length", ALL, "the record has under 5 or over 65,535 bytes, or its length field differs from the bytes lent", RECORD, NONE),
    Row(2, "Version", ALL, "byte 0 is not 1", RECORD, NONE),
    Row(3, "Cut", ALL, "the next field in file order runs past the end, or bytes remain after the last register", RECORD, OFFSET),
    Row(4, "Code", ALL, "a byte with listed values has another one", RECORD, OFFSET),
    Row(5, "Name", ALL, "a name has length 0 or over 32, or a byte outside 33 to 126", RECORD, OFFSET),
    Row(6, "Count", ALL, "over 1,024 nodes or over 128 registers are declared, or a 65th Input or 65th Output is met", RECORD, OFFSET),
    Row(7, "UndefinedNet", ALL, "a node's input number is not below the node's own", RECORD, NODE),
    Row(8, "DuplicatePortName", ALL, "an Input or Output repeats an earlier Input's or Output's name", RECORD, NODE),
    Row(9, "DuplicateRegisterName", ALL, "a register repeats an earlier register's name", RECORD, REGISTER),
    Row(10, "InvalidRegisterOutput", ALL, "a register's output number is not that of a RegisterOutput node", RECORD, REGISTER),
    Row(11, "MultipleDrivers", ALL, "an earlier register has the same output", RECORD, REGISTER),
    Row(12, "RegisterNet", ALL, "a register's data, clock, enable or reset number is not below the node count", RECORD, REGISTER),
    Row(13, "UnconnectedRegister", ALL, "a RegisterOutput node, the lowest such, has no register", RECORD, NODE),
    Row(14, "UnsupportedAsyncReset", ALL, "an asynchronous reset signal's number is not below its RegisterOutput node's", RECORD, NODE),
    Row(15, "UnsupportedClock", ALL, "a register's clock is not an Input node", RECORD, REGISTER),
    Row(16, "ZeroDepth", CHECK, "the depth is 0", NEITHER, NONE),
    Row(17, "DepthLimit", CHECK, "the depth is over 64", NEITHER, NONE),
    Row(18, "InputInterface", PAIR, "the sets of input names differ", NEITHER, NONE),
    Row(19, "OutputInterface", PAIR, "the sets of output names differ", NEITHER, NONE),
    Row(20, "MultipleClockDomains", PAIR, "the registers of one side, gold first, have two clock names or edges", ITS, NONE),
    Row(21, "ClockDomain", PAIR, "clock name or edge differ between the sides, or only one side has registers", NEITHER, NONE),
    Row(22, "UnknownInitialState", PAIR, "a register has no reset; gold by name, then gate", ITS, REGISTER),
    Row(23, "TooLarge", CHECK, "(D+1)×F + R is over 65,535, where F = I + 3×N + 10×R + 4×O + 1", NEITHER, NONE),
    Row(24, "Memory", LENT,
        "the trace buffer is under (D+1)×I + O bytes, or the work memory is under 8,388,608 words of 32 bits or under 65,536 f64; of a begin or a step, the bits are under 256 bytes", NEITHER, NONE),
    Row(25, "Claim", CLAIMED, "the cycle is over 64, the claim's length is not (cycle+1)×I + O, or a byte of it is neither 0 nor 1; of a step, also a register's stored bit", NEITHER, NONE),
    Row(30, "ClockRead", ALL, "an Input that clocks a register is read by a node, or by a register's data, enable or reset", RECORD, NODE),
    Row(36, "LearnedLimit", CHECK, "the limit of learned literals is over 262,144", NEITHER, NONE),
)

BY_NUMBER: Dict[int, Row] = {row.number: row for row in TABLE}


def markdown() -> str:
    """The table as the documents have it."""
    lines = ["| number | name | calls | refused where | side | place |", "|---|---|---|---|---|---|"]
    lines += [f"| {row.number} | {row.name} | {row.calls} | {row.condition} | {row.side} | {row.place} |" for row in TABLE]
    return "\n".join(lines) + "\n"
