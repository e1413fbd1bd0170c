"""The calls of the proved library through its C boundary (include/struo_formal.h). Nothing is decided here."""
from __future__ import annotations

import ctypes
import os
from functools import lru_cache
from pathlib import Path
from typing import List, Optional, Tuple

from .answers import LEARNED_LIMIT, BeginAnswer, CheckAnswer, Position, ReadAnswer, Refusal, ReplayAnswer, Side, Status, StepAnswer
from .build import LibraryMissing, built_library

__all__ = ["Library", "LibraryMissing", "Memory", "open_library"]

# The lengths that a check needs; a trace of this length is enough for every pair.
WORDS = 8_388_608
SCORES = 65_536
TRACE = 65 * 64 + 64

# Larger numbers than the boundary takes are refused as the largest is.
LARGEST = 2**64 - 1

# A byte that no trace has: what a check writes ends at the first one left.
UNWRITTEN = 0xFF


class _Read(ctypes.Structure):
    """struct struo_read_answer."""

    _fields_ = [(name, ctypes.c_uint32) for name in ("number", "side", "place")]


class _Replay(ctypes.Structure):
    """struct struo_replay_answer."""

    _fields_ = [*_Read._fields_, ("yes", ctypes.c_bool)]


class _Check(ctypes.Structure):
    """struct struo_check_answer."""

    _fields_ = [*_Read._fields_, *((name, ctypes.c_uint32) for name in (
        "status", "depth", "mismatch", "query", "learned", "learned_depth", "learned_query")), ("equal", ctypes.c_bool), ("through", ctypes.c_uint32)]


class _Position(ctypes.Structure):
    """struct struo_position."""

    _fields_ = [("cycle", ctypes.c_uint64), ("agreed", ctypes.c_bool)]


class _Lent:
    """A position lent to a call, and its bits."""

    def __init__(self, position: Position):
        self.position = _Position(_number(position.cycle), position.agreed)
        self.bits = (ctypes.c_uint8 * len(position.bits)).from_buffer_copy(position.bits) if position.bits else (ctypes.c_uint8 * 0)()

    def after(self) -> Position:
        """The position after the call."""
        return Position(self.position.cycle, self.position.agreed, bytes(self.bits))


# A number of 64 bits; a truth value; what has its length beside it: bytes that a call reads, and memory that it writes.
_NUMBER = ctypes.c_uint64
_TRUTH = ctypes.c_bool
_BYTES = ctypes.c_char_p
_LENT_BYTES, _LENT_WORDS, _LENT_SCORES = (ctypes.POINTER(element) for element in (ctypes.c_uint8, ctypes.c_uint32, ctypes.c_double))
_LENT_POSITION = ctypes.POINTER(_Position)
_WITH_LENGTH = (_BYTES, _LENT_BYTES, _LENT_WORDS, _LENT_SCORES)

# What each call answers, and what it takes, in order.
CALLS = {
    "struo_read": (_Read, {"record": _BYTES}),
    "struo_replay": (_Replay, {"gold": _BYTES, "gate": _BYTES, "cycle": _NUMBER, "claim": _BYTES}),
    "struo_begin": (_Read, {"gold": _BYTES, "gate": _BYTES, "position": _LENT_POSITION, "bits": _LENT_BYTES}),
    "struo_step": (
        _Replay,
        {"gold": _BYTES, "gate": _BYTES, "cycle": _NUMBER, "claim": _BYTES, "position": _LENT_POSITION, "bits": _LENT_BYTES},
    ),
    "struo_check": (
        _Check,
        {"gold": _BYTES, "gate": _BYTES, "depth": _NUMBER, "limit": _NUMBER, "earliest": _TRUTH, "trace": _LENT_BYTES, "words": _LENT_WORDS,
         "scores": _LENT_SCORES},
    ),
}


def parameters(call: str) -> List[Tuple[str, type]]:
    """The parameters of a call as C has them."""
    flat = []
    for name, kind in CALLS[call][1].items():
        flat += [(name, kind), (f"{name}_length", ctypes.c_size_t)] if kind in _WITH_LENGTH else [(name, kind)]
    return flat


class Memory:
    """What is lent to a check: enough for every pair, unless other lengths are asked for."""

    def __init__(self, trace: int = TRACE, words: int = WORDS, scores: int = SCORES):
        self.trace = (ctypes.c_uint8 * trace)()
        self.words = (ctypes.c_uint32 * words)()
        self.scores = (ctypes.c_double * scores)()

    def unwrite(self) -> None:
        """Marks every byte of the trace as not written."""
        ctypes.memset(self.trace, UNWRITTEN, len(self.trace))

    def written(self) -> bytes:
        """The bytes of the trace that were written."""
        return bytes(self.trace).split(bytes([UNWRITTEN]), 1)[0]


def _refusal(answer: ctypes.Structure) -> Optional[Refusal]:
    """The refusal of an answer, or none where the call was accepted."""
    return Refusal(answer.number, Side(answer.side), answer.place) if answer.number else None


class Library:
    """A loaded library and the memory that it is lent."""

    def __init__(self, path: Path):
        self.path = path
        self._calls = ctypes.CDLL(os.fspath(path.resolve()))
        self._memory: Optional[Memory] = None
        for name, (answer, _) in CALLS.items():
            call = getattr(self._calls, name)
            call.argtypes, call.restype = [kind for _, kind in parameters(name)], answer

    def _ask(self, call: str, **given) -> ctypes.Structure:
        """A call with its arguments by name."""
        flat = []
        for name, kind in CALLS[call][1].items():
            flat += [given[name], len(given[name])] if kind in _WITH_LENGTH else [given[name]]
        return getattr(self._calls, call)(*flat)

    def read(self, record: bytes) -> ReadAnswer:
        """Reads a design record: accepted, or the first refusal of 1 to 15, then 30."""
        return ReadAnswer(_refusal(self._ask("struo_read", record=record)))

    def replay(self, gold: bytes, gate: bytes, cycle: int, claim: bytes) -> ReplayAnswer:
        """Replays a claimed trace: a refusal of 1 to 15, 18 to 22, 25 or 30, or yes or no."""
        answer = self._ask("struo_replay", gold=gold, gate=gate, cycle=_number(cycle), claim=claim)
        return ReplayAnswer(_refusal(answer), bool(answer.yes))

    def begin(self, gold: bytes, gate: bytes, position: Position = Position()) -> BeginAnswer:
        """Sets a position before cycle 0: a refusal of 1 to 15, 18 to 22, 24 or 30, or the position with the initial bits."""
        lent = _Lent(position)
        answer = self._ask("struo_begin", gold=gold, gate=gate, position=lent.position, bits=lent.bits)
        return BeginAnswer(_refusal(answer), lent.after())

    def step(self, gold: bytes, gate: bytes, cycle: int, claim: bytes, position: Position) -> StepAnswer:
        """Moves a position on by one cycle of a claimed trace: a refusal of 1 to 15, 18 to 22, 24, 25 or 30, or yes or no and the next position."""
        lent = _Lent(position)
        answer = self._ask("struo_step", gold=gold, gate=gate, cycle=_number(cycle), claim=claim, position=lent.position, bits=lent.bits)
        return StepAnswer(_refusal(answer), bool(answer.yes), lent.after())

    def check(self, gold: bytes, gate: bytes, depth: int, limit: int = LEARNED_LIMIT, earliest: bool = False, memory: Optional[Memory] = None) -> CheckAnswer:
        """Checks a pair to a maximum depth, under a limit of learned literals for each query, in the mode of the earliest cycle or without it: a refusal of 1 to
        24 or 36, or a verdict."""
        if memory is None:
            memory = self._memory = self._memory or Memory()
        memory.unwrite()
        asked = {"depth": _number(depth), "limit": _number(limit), "earliest": _truth(earliest)}
        answer = self._ask("struo_check", gold=gold, gate=gate, **asked, trace=memory.trace, words=memory.words, scores=memory.scores)
        status = None if answer.number else Status(answer.status)
        trace = memory.written() if status is Status.NOT_EQUIVALENT else b""
        learned = answer.learned, answer.learned_depth, answer.learned_query
        return CheckAnswer(_refusal(answer), status, answer.depth, answer.mismatch, answer.query, *learned, bool(answer.equal), answer.through, trace)


def _number(number: int) -> int:
    """A number as the boundary takes it."""
    if number < 0:
        raise ValueError("a depth, a limit or a cycle is not negative")
    return min(number, LARGEST)


def _truth(value: bool) -> bool:
    """A truth value as the boundary takes it; nothing else is taken for one."""
    if not isinstance(value, bool):
        raise TypeError("earliest is True or False")
    return value


@lru_cache(maxsize=None)
def open_library() -> Library:
    """The library that STRUO_LIBRARY names, or that of the repository, built at first use."""
    path = built_library()
    try:
        return Library(path)
    except (OSError, AttributeError) as error:
        raise LibraryMissing(f"{path} cannot be loaded as the checker's library: {error}") from error
