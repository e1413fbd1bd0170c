"""What the calls answer, as typed values."""
from __future__ import annotations

from dataclasses import dataclass
from enum import IntEnum
from typing import Optional


# The largest limit of learned literals, and the one that a check has unless another is asked for: a query whose next clause would bring the literals of its
# learned clauses above its limit gives up.
LEARNED_LIMIT = 262_144


class Side(IntEnum):
    """A side of a pair."""

    GOLD = 0
    GATE = 1

    @property
    def word(self) -> str:
        """The side in words."""
        return self.name.lower()


class Status(IntEnum):
    """The status of an accepted check; its number is also the command's exit status."""

    EQUIVALENT = 0
    NOT_EQUIVALENT = 1
    INCONCLUSIVE = 2
    GAVE_UP = 3

    @property
    def word(self) -> str:
        """The verdict as it is written everywhere; no one of the four contains another."""
        return ("Equivalent", "NOT EQUIVALENT", "Inconclusive", "GaveUp")[self]


@dataclass(frozen=True)
class Refusal:
    """Why a call was refused: the number, the side (0 gold, 1 gate) and the place."""

    number: int
    side: Side
    place: int


@dataclass(frozen=True)
class ReadAnswer:
    """What a read answers: no refusal where the record is accepted."""

    refusal: Optional[Refusal]

    @property
    def accepted(self) -> bool:
        """Whether the record is accepted."""
        return self.refusal is None


@dataclass(frozen=True)
class ReplayAnswer:
    """What a replay answers; `yes` is false where it is refused."""

    refusal: Optional[Refusal]
    yes: bool


@dataclass(frozen=True)
class Position:
    """A replay position with the stored bits of both sides: gold's by register number from byte 0 on, gate's from byte 128 on."""

    cycle: int = 0
    agreed: bool = True
    bits: bytes = bytes(256)


@dataclass(frozen=True)
class BeginAnswer:
    """What a begin answers, and the position after it: the one lent where it is refused."""

    refusal: Optional[Refusal]
    position: Position


@dataclass(frozen=True)
class StepAnswer:
    """What a step answers, and the position after it; `yes` is false where it is refused."""

    refusal: Optional[Refusal]
    yes: bool
    position: Position


@dataclass(frozen=True)
class CheckAnswer:
    """What a check answers. `query` is the number of the query that gave up, of a GaveUp; in the mode of the earliest cycle that may be 0, which is also what
    stands there for every other status. `learned` is the largest total of learned literals over the queries asked, `learned_depth` and `learned_query` depth and
    number of the first of them that has it. `equal` and `through` say of a GaveUp that the outputs are proved equal in the cycles 0 to `through`; `equal` is false, and `through`
    0, where no cycle is, and for every other status. `trace` holds the bytes that were written for NotEquivalent, a claim that a replay takes."""

    refusal: Optional[Refusal]
    status: Optional[Status]
    depth: int
    mismatch: int
    query: int
    learned: int
    learned_depth: int
    learned_query: int
    equal: bool
    through: int
    trace: bytes

    def near(self, limit: int = LEARNED_LIMIT) -> bool:
        """Whether a query learned three quarters of the limit asked for, or more; a check in which none learned a clause is near to no limit."""
        return self.learned > 0 and self.learned * 4 >= limit * 3
