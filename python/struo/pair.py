"""What a pair's two designs have in common: names, clocks, and the sum that refusal 23 limits."""
from __future__ import annotations

from dataclasses import dataclass
from typing import Dict, List, Optional, Tuple

from .record import Design, Kind

LARGEST_SUM = 65_535
LARGEST_DEPTH = 64


def per_cycle(gold: Design, gate: Design) -> int:
    """F = I + 3×N + 10×R + 4×O + 1, which a pair takes for each cycle."""
    nodes = len(gold.nodes) + len(gate.nodes)
    return len(gold.inputs) + 3 * nodes + 10 * registers_of(gold, gate) + 4 * len(gold.outputs) + 1


def registers_of(gold: Design, gate: Design) -> int:
    """The registers of both sides."""
    return len(gold.registers) + len(gate.registers)


def proof_sum(gold: Design, gate: Design, depth: int) -> int:
    """(D+1)×F + R."""
    return (depth + 1) * per_cycle(gold, gate) + registers_of(gold, gate)


def largest_depth(gold: Design, gate: Design) -> int:
    """The largest depth whose sum fits, at most 64; the largest pair of records fits to depth 6."""
    return min(LARGEST_DEPTH, (LARGEST_SUM - registers_of(gold, gate)) // per_cycle(gold, gate) - 1)


@dataclass(frozen=True)
class Alike:
    """How many registers are named alike, and how many each side has."""

    count: int
    gold: int
    gate: int

    @property
    def words(self) -> str:
        """The numbers in words."""
        verb = "is" if self.count == 1 else "are"
        return f"{self.count} of gold's {self.gold} and gate's {self.gate} registers {verb} named alike"


def named_alike(gold: Design, gate: Design) -> Alike:
    """The registers of both sides that have one name."""
    common = {register.name for register in gold.registers} & {register.name for register in gate.registers}
    return Alike(len(common), len(gold.registers), len(gate.registers))


Clock = Tuple[bytes, bool]


def clocks(design: Design) -> Dict[Clock, List[bytes]]:
    """The clocks of a design, as name and whether the edge falls, with the registers of each."""
    found: Dict[Clock, List[bytes]] = {}
    for register in design.registers:
        node = design.nodes[register.clock]
        name = node.name if node.kind is Kind.INPUT else b"?"
        found.setdefault((name, register.falling), []).append(register.name)
    return found


def only_clock(design: Design) -> Optional[Clock]:
    """The first register's clock, or none where there are no registers."""
    return next(iter(clocks(design)), None)
