"""The cells of yosys' internal gate library that a record can hold: gates as nodes, and flip-flops as registers."""
from __future__ import annotations

import re
from dataclasses import dataclass
from typing import Callable, Dict, Optional, Tuple

from .record import Kind

# Makes a node of a kind from the nodes that it reads, and answers its number.
Make = Callable[..., int]
Gate = Tuple[Tuple[str, ...], Callable[..., int]]


def _and_or(outer: Kind, inner: Kind) -> Callable[..., int]:
    """An inverted gate of a pair and one more pin, or of two pairs."""
    def made(make: Make, *pins: int) -> int:
        """The nodes for three or four pins."""
        rest = pins[2] if len(pins) == 3 else make(inner, pins[2], pins[3])
        return make(Kind.NOT, make(outer, make(inner, pins[0], pins[1]), rest))
    return made


# The input pins of each gate, and its nodes; every gate's output pin is Y.
GATES: Dict[str, Gate] = {
    "$_BUF_": (("A",), lambda make, a: a),
    "$_NOT_": (("A",), lambda make, a: make(Kind.NOT, a)),
    "$_AND_": (("A", "B"), lambda make, a, b: make(Kind.AND, a, b)),
    "$_OR_": (("A", "B"), lambda make, a, b: make(Kind.OR, a, b)),
    "$_XOR_": (("A", "B"), lambda make, a, b: make(Kind.XOR, a, b)),
    "$_NAND_": (("A", "B"), lambda make, a, b: make(Kind.NOT, make(Kind.AND, a, b))),
    "$_NOR_": (("A", "B"), lambda make, a, b: make(Kind.NOT, make(Kind.OR, a, b))),
    "$_XNOR_": (("A", "B"), lambda make, a, b: make(Kind.NOT, make(Kind.XOR, a, b))),
    "$_ANDNOT_": (("A", "B"), lambda make, a, b: make(Kind.AND, a, make(Kind.NOT, b))),
    "$_ORNOT_": (("A", "B"), lambda make, a, b: make(Kind.OR, a, make(Kind.NOT, b))),
    "$_MUX_": (("S", "B", "A"), lambda make, s, b, a: make(Kind.MUX, s, b, a)),
    "$_NMUX_": (("S", "B", "A"), lambda make, s, b, a: make(Kind.NOT, make(Kind.MUX, s, b, a))),
    "$_AOI3_": (("A", "B", "C"), _and_or(Kind.OR, Kind.AND)),
    "$_OAI3_": (("A", "B", "C"), _and_or(Kind.AND, Kind.OR)),
    "$_AOI4_": (("A", "B", "C", "D"), _and_or(Kind.OR, Kind.AND)),
    "$_OAI4_": (("A", "B", "C", "D"), _and_or(Kind.AND, Kind.OR)),
}

# Cells that say nothing of what a design does.
IGNORED = ("$scopeinfo",)


@dataclass(frozen=True)
class FlipFlop:
    """A kind of flip-flop: its edge, its enable's level, and its reset."""

    falling: bool
    enable_low: Optional[bool]
    reset_low: Optional[bool]
    reset_value: int
    asynchronous: bool
    enable_first: bool

    @property
    def pins(self) -> Tuple[str, ...]:
        """The input pins."""
        return ("D", "C") + (("E",) if self.enable_low is not None else ()) + (("R",) if self.reset_low is not None else ())


# $_DFF_P_, $_DFFE_PN_, $_DFF_PN0_, $_DFFE_PN0P_, $_SDFF_PP1_, $_SDFFE_PP0P_, $_SDFFCE_PP0P_
_FLIP_FLOP = re.compile(r"\$_(S?)DFF(C?)(E?)_([NP])(?:([NP])([01]))?([NP])?_")


def flip_flop(kind: str) -> Optional[FlipFlop]:
    """The flip-flop of a cell's type; none where it is no edge-triggered flip-flop with at most one reset and one enable."""
    found = _FLIP_FLOP.fullmatch(kind)
    if found is None:
        return None
    synchronous, first, enabled, edge, reset, value, enable = found.groups()
    fits = bool(enabled) == bool(enable) and (not synchronous or bool(reset)) and (not first or bool(synchronous and enabled))
    if not fits:
        return None
    return FlipFlop(edge == "N", enable == "N" if enable else None, reset == "N" if reset else None, int(value or 0),
                    bool(reset) and not synchronous, bool(first))
