"""The record of a design: its fields with their offsets, decoded and encoded. For names and pictures alone: the library decides what is accepted."""
from __future__ import annotations

from dataclasses import dataclass, field
from enum import IntEnum
from typing import List, Optional, Tuple

VERSION = 1
LONGEST_RECORD = 65_535
MOST_NODES = 1_024
MOST_REGISTERS = 128
MOST_PORTS = 64
LONGEST_NAME = 32
NAME_BYTES = range(33, 127)


class Kind(IntEnum):
    """The kind byte of a node."""

    INPUT = 0x00
    CONSTANT = 0x01
    REGISTER_OUTPUT = 0x02
    NOT = 0x10
    OUTPUT = 0x11
    AND = 0x20
    OR = 0x21
    XOR = 0x22
    MUX = 0x30

    @property
    def word(self) -> str:
        """The kind as the documents write it."""
        return "".join(part.capitalize() for part in self.name.split("_"))

    @property
    def input_count(self) -> int:
        """How many nodes a node of this kind reads: the high four bits of its byte."""
        return self.value // 16


@dataclass(frozen=True)
class Node:
    """A node: its name where it is a port, its value where it is a constant, and the numbers of the nodes that it reads."""

    kind: Kind
    name: bytes = b""
    value: int = 0
    inputs: Tuple[int, ...] = ()


@dataclass(frozen=True)
class Enable:
    """An enable: its signal's node, and whether it is active low."""

    signal: int
    active_low: bool


@dataclass(frozen=True)
class Reset:
    """A reset: its signal's node, whether it is active low and asynchronous, and the value that it sets."""

    signal: int
    active_low: bool
    asynchronous: bool
    value: int


@dataclass(frozen=True)
class Register:
    """A register: its name, its output, data and clock nodes, its edge, and its controls."""

    name: bytes
    output: int
    data: int
    clock: int
    falling: bool = False
    enable: Optional[Enable] = None
    reset: Optional[Reset] = None


@dataclass
class Design:
    """A design: node i drives net i."""

    name: bytes
    nodes: List[Node] = field(default_factory=list)
    registers: List[Register] = field(default_factory=list)

    def ports(self, kind: Kind) -> List[bytes]:
        """The names of the Inputs or Outputs, in byte order."""
        return sorted(node.name for node in self.nodes if node.kind is kind)

    @property
    def inputs(self) -> List[bytes]:
        """The names of the Inputs, in byte order."""
        return self.ports(Kind.INPUT)

    @property
    def outputs(self) -> List[bytes]:
        """The names of the Outputs, in byte order."""
        return self.ports(Kind.OUTPUT)

    def register_of(self, node: int) -> Optional[int]:
        """The number of the first register with this output node."""
        return next((number for number, register in enumerate(self.registers) if register.output == node), None)


@dataclass(frozen=True)
class Field:
    """A field of a record: where it begins, how long it is, what it is, and the values that are listed for it."""

    offset: int
    length: int
    what: str
    listed: Tuple[int, ...] = ()


class Undecodable(ValueError):
    """The fields end before the record is whole: the last of `fields` is at fault."""

    def __init__(self, fields: List[Field]):
        super().__init__(fields[-1].what)
        self.fields = fields


class Decoder:
    """Walks the fields of a record in file order and keeps them; nothing is judged but what the walk needs."""

    def __init__(self, record: bytes):
        self.record = record
        self.at = 0
        self.fields: List[Field] = []

    def take(self, length: int, what: str, listed: Tuple[int, ...] = ()) -> bytes:
        """The bytes of the next field."""
        self.fields.append(Field(self.at, length, what, listed))
        taken = self.record[self.at:self.at + length]
        if len(taken) < length or (listed and taken[0] not in listed):
            raise Undecodable(self.fields)
        self.at += length
        return taken

    def number(self, what: str) -> int:
        """A 2-byte number."""
        return int.from_bytes(self.take(2, what), "big")

    def code(self, what: str, *listed: int) -> int:
        """A byte with listed values."""
        return self.take(1, what, listed)[0]

    def name(self, what: str) -> bytes:
        """A name: its length byte, then its bytes."""
        length = self.take(1, f"the length of {what}")[0]
        return self.take(length, what)

    def node(self, number: int) -> Node:
        """A node: kind, name or value, input numbers."""
        kind = Kind(self.code(f"the kind of node {number}", *Kind))
        where = f"node {number} ({kind.word})"
        name = self.name(f"the name of {where}") if kind in (Kind.INPUT, Kind.OUTPUT) else b""
        value = self.code(f"the value of {where}", 0, 1) if kind is Kind.CONSTANT else 0
        inputs = tuple(self.number(f"input number {place} of {where}") for place in range(kind.input_count))
        return Node(kind, name, value, inputs)

    def register(self, number: int) -> Register:
        """A register: name, nets, edge, enable, reset."""
        name = self.name(f"the name of register {number}")
        where = f"register {number}"
        output, data, clock = (self.number(f"the {what} number of {where}") for what in ("output", "data", "clock"))
        falling = self.code(f"the edge of {where}", 0, 1) == 1
        enable, reset = None, None
        level = self.code(f"the enable of {where}", 0, 1, 2)
        if level:
            enable = Enable(self.number(f"the enable's signal of {where}"), level == 2)
        level = self.code(f"the reset of {where}", 0, 1, 2)
        if level:
            signal = self.number(f"the reset's signal of {where}")
            asynchronous = self.code(f"the reset's kind of {where}", 0, 1) == 1
            reset = Reset(signal, level == 2, asynchronous, self.code(f"the reset's value of {where}", 0, 1))
        return Register(name, output, data, clock, falling, enable, reset)

    def design(self) -> Design:
        """The whole record."""
        self.take(1, "the version")
        self.take(4, "the length field")
        design = Design(self.name("the design's name"))
        for number in range(self.number("the node count")):
            design.nodes.append(self.node(number))
        for number in range(self.number("the register count")):
            design.registers.append(self.register(number))
        if self.at < len(self.record):
            self.fields.append(Field(self.at, len(self.record) - self.at, "what follows the last register"))
            raise Undecodable(self.fields)
        return design


def decode(record: bytes) -> Design:
    """The design of a record; raises Undecodable where the fields do not fit."""
    return Decoder(record).design()


def field_at(record: bytes, offset: int) -> Optional[Field]:
    """The field that begins at an offset, as far as the fields can be walked."""
    decoder = Decoder(record)
    try:
        decoder.design()
    except Undecodable:
        pass
    return next((found for found in reversed(decoder.fields) if found.offset == offset), None)


def _named(name: bytes) -> bytes:
    """A name as it is stored."""
    return bytes([len(name)]) + name


def _numbers(*numbers: int) -> bytes:
    """2-byte numbers."""
    return b"".join(number.to_bytes(2, "big") for number in numbers)


def _node(node: Node) -> bytes:
    """A node as it is stored."""
    name = _named(node.name) if node.kind in (Kind.INPUT, Kind.OUTPUT) else b""
    value = bytes([node.value]) if node.kind is Kind.CONSTANT else b""
    return bytes([node.kind]) + name + value + _numbers(*node.inputs)


def _register(register: Register) -> bytes:
    """A register as it is stored."""
    stored = _named(register.name) + _numbers(register.output, register.data, register.clock) + bytes([register.falling])
    enable, reset = register.enable, register.reset
    stored += b"\0" if enable is None else bytes([1 + enable.active_low]) + _numbers(enable.signal)
    if reset is None:
        return stored + b"\0"
    return stored + bytes([1 + reset.active_low]) + _numbers(reset.signal) + bytes([reset.asynchronous, reset.value])


def encode(design: Design) -> bytes:
    """The record of a design; numbers and names have to fit their fields."""
    rest = _named(design.name) + _numbers(len(design.nodes)) + b"".join(map(_node, design.nodes))
    rest += _numbers(len(design.registers)) + b"".join(map(_register, design.registers))
    return bytes([VERSION]) + (5 + len(rest)).to_bytes(4, "big") + rest
