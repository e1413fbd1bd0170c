"""The hunt for a difference after GaveUp or Inconclusive: the pair is asked again with no registers named alike."""
from __future__ import annotations

from dataclasses import dataclass, replace
from typing import Optional, Set

from .answers import LEARNED_LIMIT, CheckAnswer, Status
from .library import Library
from .pair import largest_depth
from .record import Design, decode, encode


@dataclass(frozen=True)
class Hunt:
    """What the hunt asked and found; `confirmed` says that the library replays the trace with yes on the two records as they are."""

    depth: int
    answer: CheckAnswer
    confirmed: bool


def renamed(gold: Design, gate: Design) -> Design:
    """Gate with other register names, none of which gold has: a run does not depend on them."""
    prefix = _free_prefix({register.name for register in gold.registers})
    registers = [replace(register, name=prefix + str(number).encode()) for number, register in enumerate(gate.registers)]
    return Design(gate.name, gate.nodes, registers)


def _free_prefix(taken: Set[bytes]) -> bytes:
    """Two letters with which no taken name begins: of 94 × 94 there are some, since a side has at most 128 names."""
    letters = range(33, 127)
    pairs = (bytes([first, second]) for first in letters for second in letters)
    return next(pair for pair in pairs if not any(name.startswith(pair) for name in taken))


def hunt(library: Library, gold: bytes, gate: bytes, answer: CheckAnswer, depth: int, limit: int = LEARNED_LIMIT, earliest: bool = False) -> Optional[Hunt]:
    """Asks again where a verdict is missing, under the same limit and in the same mode. Inconclusive says that there is no difference up to the asked depth, so
    the hunt then goes as deep as fits."""
    if answer.status not in (Status.INCONCLUSIVE, Status.GAVE_UP):
        return None
    designs = decode(gold), decode(gate)
    if answer.status is Status.INCONCLUSIVE:
        depth = largest_depth(*designs)
    found = library.check(gold, encode(renamed(*designs)), depth, limit, earliest)
    confirmed = found.status is Status.NOT_EQUIVALENT and library.replay(gold, gate, found.mismatch, found.trace).yes
    return Hunt(depth, found, confirmed)
