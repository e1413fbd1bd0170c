"""Traces: the claim files that `replay` takes, and a claimed difference in names, held against the library's replay."""
from __future__ import annotations

from dataclasses import dataclass
from typing import List, Sequence

from .files import Unreadable
from .library import Library
from .record import Design, decode
from .run import Bits, Cycle, run
from .text import decimal, shown


@dataclass(frozen=True)
class Claim:
    """A claimed cycle and the bytes of a trace: inputs in byte order of names for each cycle, then a mark for each output."""

    cycle: int
    data: bytes


class Disagreement(Exception):
    """The front end's own run and the library's replay do not agree: a fault of the front end."""


@dataclass(frozen=True)
class Difference:
    """A claim run on both sides: the inputs of each cycle, both sides' cycles, and what the library says of it."""

    claim: Claim
    inputs: List[Bits]
    gold: List[Cycle]
    gate: List[Cycle]
    marked: List[bytes]
    yes: bool

    def differing(self, cycle: int) -> List[bytes]:
        """The outputs that differ in a cycle, in byte order of names."""
        gold, gate = self.gold[cycle].outputs, self.gate[cycle].outputs
        return [name for name in sorted(gold) if gold[name] != gate[name]]

    @property
    def first(self) -> int:
        """The first cycle in which outputs differ, or one past the claimed cycle."""
        return next((cycle for cycle in range(len(self.inputs)) if self.differing(cycle)), len(self.inputs))


def claim_text(gold: Design, claim: Claim) -> str:
    """A claim as a file: comments that name the columns, the cycle, a line for each cycle's inputs and a line of marks."""
    inputs, outputs = gold.inputs, gold.outputs
    count = len(inputs)
    lines = ["# A claimed difference. Each line below the cycle's number has a bit for each input of a cycle, from cycle 0 on:",
             f"#   {' '.join(map(shown, inputs))}", "# The last line has a mark for each output, 1 where it differs in the claimed cycle:",
             f"#   {' '.join(map(shown, outputs))}", f"cycle {claim.cycle}"]
    rows = [claim.data[cycle * count:(cycle + 1) * count] for cycle in range(claim.cycle + 1)]
    rows.append(claim.data[(claim.cycle + 1) * count:])
    return "\n".join(lines + [" ".join(map(str, row)) for row in rows]) + "\n"


def parse_claim(text: str, path: str) -> Claim:
    """The claim of a file: the word cycle with its number, then numbers of a byte; `#` begins a comment."""
    words = [word for line in text.splitlines() for word in line.split("#")[0].split()]
    if len(words) < 2 or words[0] != "cycle":
        raise Unreadable(f"{shown(path)} is no claim: it begins with `cycle` and a number")
    numbers = []
    for word in words[1:]:
        number = decimal(word)
        if number is None:
            raise Unreadable(f"{shown(path)} is no claim: {shown(word)} is no number")
        numbers.append(number)
    if any(number > 255 for number in numbers[1:]):
        raise Unreadable(f"{shown(path)} is no claim: a number behind the cycle is over 255")
    return Claim(numbers[0], bytes(numbers[1:]))


def _inputs(gold: Design, claim: Claim) -> List[Bits]:
    """The inputs of each cycle by name."""
    names = gold.inputs
    rows = (claim.data[cycle * len(names):(cycle + 1) * len(names)] for cycle in range(claim.cycle + 1))
    return [dict(zip(names, row)) for row in rows]


def _own_answer(difference: Difference) -> bool:
    """A replay's yes or no by the front end's own run."""
    cycle = difference.claim.cycle
    return difference.first == cycle and difference.differing(cycle) == difference.marked


def replayed(library: Library, gold: bytes, gate: bytes, claim: Claim) -> Difference:
    """A claim that the library takes, run on both sides; the run's own answer has to be the library's."""
    answer = library.replay(gold, gate, claim.cycle, claim.data)
    if answer.refusal is not None:
        raise ValueError("the library refuses this replay")
    design = decode(gold)
    inputs = _inputs(design, claim)
    marks: Sequence[int] = claim.data[len(inputs) * len(design.inputs):]
    marked = [name for name, mark in zip(design.outputs, marks) if mark]
    difference = Difference(claim, inputs, run(design, inputs), run(decode(gate), inputs), marked, answer.yes)
    if _own_answer(difference) != answer.yes:
        raise Disagreement(f"the library's replay says {'yes' if answer.yes else 'no'}, and the front end's own run does not; nothing of that run is shown")
    return difference


def trace_lines(difference: Difference) -> List[str]:
    """The inputs of each cycle by name, and both sides' bits of the outputs that differ in the last."""
    lines = [f"cycle {cycle}: " + (" ".join(f"{shown(name)}={bit}" for name, bit in inputs.items()) or "no inputs")
             for cycle, inputs in enumerate(difference.inputs)]
    last = difference.claim.cycle
    gold, gate = difference.gold[last].outputs, difference.gate[last].outputs
    return lines + [f"cycle {last}: output {shown(name)} is {gold[name]} in gold and {gate[name]} in gate" for name in difference.differing(last)]
