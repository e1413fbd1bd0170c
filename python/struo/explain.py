"""A refusal in words with names: which side, what, and where. The library has decided; here its numbers are put beside the records."""
from __future__ import annotations

from dataclasses import dataclass
from typing import Callable, Dict, List, Optional, Tuple

from . import record as form
from .answers import LEARNED_LIMIT, Refusal, Side
from .pair import LARGEST_DEPTH, Clock, clocks, largest_depth, only_clock, proof_sum
from .record import Design, Kind, Register, decode, field_at
from .refusals import BY_NUMBER, OFFSET, NODE, NONE
from .text import counted, listed, shown

WORDS_NEEDED = 8_388_608
SCORES_NEEDED = 65_536


@dataclass(frozen=True)
class Question:
    """What a call was asked; only what the call takes is set."""

    gold: bytes
    gate: Optional[bytes] = None
    depth: int = 0
    cycle: int = 0
    claim: bytes = b""
    trace_length: int = 0
    words_length: int = 0
    scores_length: int = 0
    limit: int = 0

    def record(self, side: Side) -> bytes:
        """The record of a side."""
        return self.gold if side is Side.GOLD or self.gate is None else self.gate

    def design(self, side: Side) -> Design:
        """The design of a side, whose fields the library has accepted."""
        return decode(self.record(side))


def explain(refusal: Refusal, question: Question) -> str:
    """The refusal in words, without its number: `gate: register s[0] has no reset`."""
    words = _WORDS[refusal.number](refusal, question)
    its_own = refusal.number <= 15 or refusal.number in (20, 22, 30)
    side = f"{refusal.side.word}: " if its_own and question.gate is not None else ""
    return side + words


def reference(refusal: Refusal) -> str:
    """The refusal's number and name, and its place: `22 UnknownInitialState, register 0`."""
    row = BY_NUMBER[refusal.number]
    if row.place == NONE:
        return f"{row.number} {row.name}"
    kind = {OFFSET: "byte", NODE: "node"}.get(row.place, "register")
    return f"{row.number} {row.name}, {kind} {refusal.place}"


def node_words(design: Design, number: int) -> str:
    """A node with its kind, and the name of its port or register."""
    if number >= len(design.nodes):
        return f"node {number}, which there is not"
    node = design.nodes[number]
    if node.kind is Kind.REGISTER_OUTPUT:
        register = design.register_of(number)
        return f"node {number} (RegisterOutput{'' if register is None else ' of ' + shown(design.registers[register].name)})"
    return f"node {number} ({node.kind.word}{' ' + shown(node.name) if node.name else ''})"


def register_words(design: Design, number: int) -> str:
    """A register with its name."""
    return f"register {shown(design.registers[number].name)}"


def _length(refusal: Refusal, question: Question) -> str:
    """1: how many bytes there are, and how many the length field says."""
    record = question.record(refusal.side)
    if len(record) < 5:
        return f"the record has {counted(len(record), 'byte')}, and the shortest has 5"
    if len(record) > form.LONGEST_RECORD:
        return "the record has over 65,535 bytes"
    said = int.from_bytes(record[1:5], "big")
    return f"the length field says {said:,} bytes, and the record has {len(record):,}"


def _version(refusal: Refusal, question: Question) -> str:
    """2: the version byte."""
    return f"byte 0, the version, is {question.record(refusal.side)[0]} and not 1"


def _field(refusal: Refusal, question: Question) -> str:
    """The offset with the field that begins there."""
    found = field_at(question.record(refusal.side), refusal.place)
    return f"byte {refusal.place}, {found.what if found else 'a field'},"


def _cut(refusal: Refusal, question: Question) -> str:
    """3: the field that is cut, or the bytes that remain."""
    record = question.record(refusal.side)
    found = field_at(record, refusal.place)
    left = len(record) - refusal.place
    if found and found.what.startswith("what follows"):
        return f"byte {refusal.place}: {counted(left, 'byte')} remain after the last register"
    needed = f"{counted(found.length, 'byte')} long" if found else "cut"
    return f"{_field(refusal, question)} runs past the end: it is {needed}, and {left} remain"


def _code(refusal: Refusal, question: Question) -> str:
    """4: the byte, and the values that are listed for its field."""
    record = question.record(refusal.side)
    found = field_at(record, refusal.place)
    values = ", ".join(f"{value:02x}" for value in found.listed) if found else "its list"
    return f"{_field(refusal, question)} is {record[refusal.place]:02x}, and the listed values are {values} (hex)"


def _name(refusal: Refusal, question: Question) -> str:
    """5: a name's length, or a byte of it."""
    record = question.record(refusal.side)
    found = field_at(record, refusal.place)
    if found and found.what.startswith("the length of"):
        return f"{_field(refusal, question)} is {record[refusal.place]}, and a name has 1 to 32 bytes"
    taken = record[refusal.place:refusal.place + (found.length if found else 1)]
    bad = next((byte for byte in taken if byte not in form.NAME_BYTES), 0)
    return f"{_field(refusal, question)} has a byte {bad}, and a name's bytes are 33 to 126"


def _count(refusal: Refusal, question: Question) -> str:
    """6: a count, or the port that is one too many."""
    record = question.record(refusal.side)
    found = field_at(record, refusal.place)
    if found and found.length == 2:
        number = int.from_bytes(record[refusal.place:refusal.place + 2], "big")
        most = form.MOST_NODES if "node" in found.what else form.MOST_REGISTERS
        return f"{_field(refusal, question)} is {number:,}, over {most:,}"
    return f"{_field(refusal, question)} begins a 65th {Kind(record[refusal.place]).word}"


def _undefined_net(refusal: Refusal, question: Question) -> str:
    """7: the node, and the net that it reads."""
    design = question.design(refusal.side)
    bad = next((number for number in design.nodes[refusal.place].inputs if number >= refusal.place), refusal.place)
    return f"{node_words(design, refusal.place)} reads net {bad}, which is not below its own number"


def _duplicate_port(refusal: Refusal, question: Question) -> str:
    """8: the two ports of one name."""
    design = question.design(refusal.side)
    name = design.nodes[refusal.place].name
    first = next(number for number, node in enumerate(design.nodes) if node.name == name)
    return f"{node_words(design, refusal.place)} repeats the name of {node_words(design, first)}"


def _duplicate_register(refusal: Refusal, question: Question) -> str:
    """9: the two registers of one name."""
    design = question.design(refusal.side)
    name = design.registers[refusal.place].name
    first = next(number for number, register in enumerate(design.registers) if register.name == name)
    return f"{register_words(design, refusal.place)} is there twice, as number {first} and number {refusal.place}"


def _register_output(refusal: Refusal, question: Question) -> str:
    """10: the register, and the node that is no RegisterOutput."""
    design = question.design(refusal.side)
    output = design.registers[refusal.place].output
    return f"the output of {register_words(design, refusal.place)} is {node_words(design, output)}, and no RegisterOutput"


def _multiple_drivers(refusal: Refusal, question: Question) -> str:
    """11: the two registers of one node."""
    design = question.design(refusal.side)
    output = design.registers[refusal.place].output
    earlier = design.register_of(output)
    return f"{register_words(design, refusal.place)} drives node {output}, which {register_words(design, earlier or 0)} drives already"


def _read_by(register: Register) -> List[Tuple[str, int]]:
    """The nets that a register reads, its clock not among them."""
    nets = [("data", register.data)]
    nets += [("enable", register.enable.signal)] if register.enable else []
    nets += [("reset", register.reset.signal)] if register.reset else []
    return nets


def _register_net(refusal: Refusal, question: Question) -> str:
    """12: the register, and the first of its nets that there is not."""
    design = question.design(refusal.side)
    register = design.registers[refusal.place]
    data, *controls = _read_by(register)
    nets = [data, ("clock", register.clock), *controls]
    what, number = next((net for net in nets if net[1] >= len(design.nodes)), nets[0])
    return f"the {what} of {register_words(design, refusal.place)} is net {number}, and there are {counted(len(design.nodes), 'node')}"


def _unconnected(refusal: Refusal, question: Question) -> str:
    """13: the node without a register."""
    return f"{node_words(question.design(refusal.side), refusal.place)} has no register"


def _late_reset(refusal: Refusal, question: Question) -> str:
    """14: the register, its reset and its output."""
    design = question.design(refusal.side)
    register = design.registers[design.register_of(refusal.place) or 0]
    signal = register.reset.signal if register.reset else refusal.place
    return (f"the asynchronous reset of register {shown(register.name)} is {node_words(design, signal)}, "
            f"which is not below the register's output, node {refusal.place}")


def _clock(refusal: Refusal, question: Question) -> str:
    """15: the register, and the node that is no Input."""
    design = question.design(refusal.side)
    clock = node_words(design, design.registers[refusal.place].clock)
    return f"the clock of {register_words(design, refusal.place)} is {clock}, and no Input"


def _on_the_way(design: Design, number: int) -> str:
    """The first Output that a node's value reaches through nodes, else the first register, in words; nothing for an Output itself."""
    if design.nodes[number].kind is Kind.OUTPUT:
        return ""
    reached = {number}
    for later, node in enumerate(design.nodes):
        if reached.intersection(node.inputs):
            if node.kind is Kind.OUTPUT:
                return f", on the way to output {shown(node.name)},"
            reached.add(later)
    for register in design.registers:
        for what, net in _read_by(register):
            if net in reached:
                return f", on the way to the {what} of register {shown(register.name)},"
    return ""


def _clock_read(refusal: Refusal, question: Question) -> str:
    """30: the first that reads the clock, the clock with the register that it clocks, and what can stand in its place."""
    design, clock = question.design(refusal.side), refusal.place
    nodes = [number for number, node in enumerate(design.nodes) if clock in node.inputs]
    pins = [f"the {what} of register {shown(register.name)}" for register in design.registers for what, net in _read_by(register) if net == clock]
    first = node_words(design, nodes[0]) + _on_the_way(design, nodes[0]) if nodes else pins[0]
    others = len(nodes) + len(pins) - 1
    more = f"; {others} more {'reads' if others == 1 else 'read'} it" if others else ""
    clocked = [register.name for register in design.registers if register.clock == clock]
    registers = f"register {shown(clocked[0])}{f' and {len(clocked) - 1} more' if len(clocked) > 1 else ''}"
    return (f"{first} reads the clock {shown(design.nodes[clock].name)} (Input, node {clock}) of {registers}{more}; "
            "a clock has edges and no level: in place of a gated clock take its enable")


def _zero_depth(refusal: Refusal, question: Question) -> str:
    """16: the depth 0."""
    return "the depth is 0, and the smallest is 1"


def _depth_limit(refusal: Refusal, question: Question) -> str:
    """17: the depth."""
    return f"the depth is {question.depth}, and the largest is {LARGEST_DEPTH}"


def _interface(kind: Kind) -> Callable[[Refusal, Question], str]:
    """The words of 18 or 19: the names that only one side has."""
    def words(refusal: Refusal, question: Question) -> str:
        """The sides' own names."""
        gold, gate = (set(question.design(side).ports(kind)) for side in Side)
        parts = [f"only {side.word} has {listed(sorted(names))}" for side, names in ((Side.GOLD, gold - gate), (Side.GATE, gate - gold)) if names]
        return f"the {kind.word.lower()}s differ: {'; '.join(parts)}"
    return words


def _clock_words(clock: Clock) -> str:
    """A clock with its edge."""
    return f"{shown(clock[0])} {'falling' if clock[1] else 'rising'}"


def _many_clocks(refusal: Refusal, question: Question) -> str:
    """20: the clocks of the side, each with its registers."""
    found: List[str] = []
    for clock, registers in clocks(question.design(refusal.side)).items():
        more = f" and {len(registers) - 1} more" if len(registers) > 1 else ""
        found.append(f"{_clock_words(clock)} (register {shown(registers[0])}{more})")
    return f"its registers have {len(found)} clocks: {', '.join(found)}"


def _clock_domain(refusal: Refusal, question: Question) -> str:
    """21: both sides' clocks, or the side without registers."""
    designs = {side: question.design(side) for side in Side}
    bare = [side for side in Side if not designs[side].registers]
    if bare:
        other = Side(1 - bare[0])
        return f"{other.word} has {counted(len(designs[other].registers), 'register')}, and {bare[0].word} has none"
    gold, gate = (only_clock(designs[side]) for side in Side)
    assert gold and gate
    return f"gold's registers are clocked by {_clock_words(gold)}, gate's by {_clock_words(gate)}"


def _no_reset(refusal: Refusal, question: Question) -> str:
    """22: the register."""
    design = question.design(refusal.side)
    others = sum(register.reset is None for register in design.registers) - 1
    more = f"; {others} more {'has' if others == 1 else 'have'} none" if others else ""
    return f"{register_words(design, refusal.place)} has no reset, so that its initial bit is not known{more}"


def _too_large(refusal: Refusal, question: Question) -> str:
    """23: the sum, and the largest depth that fits."""
    gold, gate = question.design(Side.GOLD), question.design(Side.GATE)
    taken = proof_sum(gold, gate, question.depth)
    return f"at depth {question.depth} the pair takes {taken:,} of 65,535; the largest depth that fits is {largest_depth(gold, gate)}"


def _memory(refusal: Refusal, question: Question) -> str:
    """24: the buffer that is too short."""
    gold = question.design(Side.GOLD)
    lent = (("trace", question.trace_length, (question.depth + 1) * len(gold.inputs) + len(gold.outputs), "bytes"),
            ("work memory", question.words_length, WORDS_NEEDED, "words"), ("work memory", question.scores_length, SCORES_NEEDED, "scores"))
    what, has, needs, unit = next((row for row in lent if row[1] < row[2]), lent[0])
    return f"the {what} has {has:,} {unit}, and {needs:,} are needed"


def _claim(refusal: Refusal, question: Question) -> str:
    """25: the cycle, the length or the byte."""
    gold = question.design(Side.GOLD)
    if question.cycle > LARGEST_DEPTH:
        return f"the claimed cycle is {question.cycle}, and the last that can be claimed is {LARGEST_DEPTH}"
    needed = (question.cycle + 1) * len(gold.inputs) + len(gold.outputs)
    if len(question.claim) != needed:
        return (f"the claim has {counted(len(question.claim), 'byte')}, and {needed:,} are needed: {counted(question.cycle + 1, 'cycle')} of "
                f"{counted(len(gold.inputs), 'input')}, then {counted(len(gold.outputs), 'mark')}")
    place = next(number for number, byte in enumerate(question.claim) if byte > 1)
    return f"byte {place} of the claim is {question.claim[place]}, and only 0 and 1 are taken"


def _learned_limit(refusal: Refusal, question: Question) -> str:
    """36: the limit."""
    return f"the limit of learned literals is {question.limit:,}, and the largest is {LEARNED_LIMIT:,}"


_WORDS: Dict[int, Callable[[Refusal, Question], str]] = {
    1: _length, 2: _version, 3: _cut, 4: _code, 5: _name, 6: _count, 7: _undefined_net, 8: _duplicate_port, 9: _duplicate_register,
    10: _register_output, 11: _multiple_drivers, 12: _register_net, 13: _unconnected, 14: _late_reset, 15: _clock, 16: _zero_depth,
    17: _depth_limit, 18: _interface(Kind.INPUT), 19: _interface(Kind.OUTPUT), 20: _many_clocks, 21: _clock_domain, 22: _no_reset,
    23: _too_large, 24: _memory, 25: _claim, 30: _clock_read, 36: _learned_limit,
}
