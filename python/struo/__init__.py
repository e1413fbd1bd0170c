"""The checker's calls for Python: typed functions over the proved library, which alone decides."""
from __future__ import annotations

from .answers import LEARNED_LIMIT, BeginAnswer, CheckAnswer, Position, ReadAnswer, Refusal, ReplayAnswer, Side, Status, StepAnswer
from .explain import Question, explain
from .library import Library, LibraryMissing, Memory, open_library
from .record import Design, decode, encode
from .version import VERSION

__version__ = VERSION

__all__ = [
    "BeginAnswer", "CheckAnswer", "Design", "LEARNED_LIMIT", "Library", "LibraryMissing", "Memory", "Position", "Question", "ReadAnswer", "Refusal",
    "ReplayAnswer", "Side", "Status", "StepAnswer", "begin", "check", "decode", "encode", "explain", "open_library", "read", "replay", "step",
]


def read(record: bytes) -> ReadAnswer:
    """Reads a design record: accepted, or the first refusal of 1 to 15, then 30."""
    return open_library().read(record)


def check(gold: bytes, gate: bytes, depth: int = 8, limit: int = LEARNED_LIMIT, earliest: bool = False) -> CheckAnswer:
    """Checks whether two designs can ever differ, by k-induction for depths 1 to `depth`, in which each query may learn clauses of `limit` literals together;
    with `earliest` a mismatch is the earliest cycle that any input sequence can show."""
    return open_library().check(gold, gate, depth, limit, earliest)


def replay(gold: bytes, gate: bytes, cycle: int, claim: bytes) -> ReplayAnswer:
    """Replays a claimed trace: yes exactly when it shows a difference, in the claimed cycle and outputs."""
    return open_library().replay(gold, gate, cycle, claim)


def begin(gold: bytes, gate: bytes, position: Position = Position()) -> BeginAnswer:
    """Sets a replay position before cycle 0: the initial bits of both sides."""
    return open_library().begin(gold, gate, position)


def step(gold: bytes, gate: bytes, cycle: int, claim: bytes, position: Position) -> StepAnswer:
    """Moves a replay position on by one cycle of a claimed trace; from begin on, the step at the claimed cycle answers as replay."""
    return open_library().step(gold, gate, cycle, claim, position)
