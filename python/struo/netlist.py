"""A module of a netlist that yosys wrote with write_json: its ports, gates and flip-flops, and the names of its nets."""
from __future__ import annotations

import hashlib
from dataclasses import dataclass, field
from typing import Any, Dict, Iterator, List, Set, Tuple, Union

from .cells import GATES, IGNORED, FlipFlop, flip_flop
from .record import LONGEST_NAME, NAME_BYTES
from .text import shown

# A net of the netlist: a number, or a constant 0, 1, x or z.
Bit = Union[int, str]


class Unconvertible(Exception):
    """A netlist that a record cannot hold; the text says what and where."""


@dataclass(frozen=True)
class Cell:
    """A cell: its name, its type and the net at each pin."""

    name: str
    kind: str
    pins: Dict[str, Bit]


@dataclass
class Names:
    """The names of nets: those of ports first, then public ones, then those that the tools made."""

    found: Dict[int, List[Tuple[int, int, str]]] = field(default_factory=dict)
    initial: Dict[int, str] = field(default_factory=dict)

    def add(self, rank: int, name: str, net: Dict[str, Any]) -> None:
        """Each bit of a net under its name."""
        for bit, text in named_bits(name, net):
            if isinstance(bit, int):
                self.found.setdefault(bit, []).append((rank, len(text), text))

    def of(self, bit: int, otherwise: str) -> str:
        """The name of a net: the best rank, then the shortest, then the first in order."""
        return min(self.found[bit])[2] if bit in self.found else otherwise


def named_bits(name: str, net: Dict[str, Any]) -> Iterator[Tuple[Bit, str]]:
    """The bits of a port or net with their names: `name` where there is one bit, else `name[i]`."""
    bits = net["bits"]
    if len(bits) == 1 and not net.get("offset"):
        yield bits[0], name
        return
    first = net.get("offset", 0)
    for place, bit in enumerate(bits):
        index = first + (len(bits) - 1 - place if net.get("upto") else place)
        yield bit, f"{name}[{index}]"


def fitted(name: str) -> bytes:
    """A register's or design's name as a record holds it: one that does not fit is shortened to its digest and its end, alike for alike names."""
    data = name.encode("utf-8")
    if 1 <= len(data) <= LONGEST_NAME and all(byte in NAME_BYTES for byte in data):
        return data
    kept = bytes(byte if byte in NAME_BYTES else ord("_") for byte in data)
    return hashlib.sha256(data).hexdigest()[:8].encode() + b"~" + kept[-(LONGEST_NAME - 9):]


def port_name(name: str) -> bytes:
    """A port's name, which has to fit as it is."""
    if fitted(name) != name.encode("utf-8"):
        raise Unconvertible(f"port {shown(name)}: a record's name has 1 to {LONGEST_NAME} bytes, each from 33 to 126")
    return name.encode("utf-8")


class Module:
    """A module of the netlist: its ports, cells and names, with each net's driver."""

    def __init__(self, name: str, module: Dict[str, Any], others: Set[str]):
        self.name = name
        self.inputs: List[Tuple[Bit, bytes]] = []
        self.outputs: List[Tuple[Bit, bytes]] = []
        self.gates: Dict[int, Cell] = {}
        self.registers: List[Tuple[Cell, FlipFlop]] = []
        self.drivers: Dict[int, str] = {}
        self.names = Names()
        for port, described in module.get("ports", {}).items():
            self.port(port, described)
        for net, described in module.get("netnames", {}).items():
            self.net(net, described)
        for cell, described in module.get("cells", {}).items():
            self.cell(cell, described, others)

    def port(self, name: str, port: Dict[str, Any]) -> None:
        """The bits of a port."""
        if port["direction"] not in ("input", "output"):
            raise Unconvertible(f"port {shown(name)} is an {shown(port['direction'])} port, and a record has only inputs and outputs")
        into = self.inputs if port["direction"] == "input" else self.outputs
        for bit, text in named_bits(name, port):
            into.append((bit, port_name(text)))
            if into is self.inputs:
                self.driven(bit, f"the input {shown(text)}")
        self.names.add(0, name, port)

    def net(self, name: str, net: Dict[str, Any]) -> None:
        """The names of a net, and the initial values that are set for it."""
        if name.startswith("$") or net.get("hide_name"):
            self.names.add(2, name, net)
        else:
            self.names.add(1, name, net)
        initial = str(net.get("attributes", {}).get("init", ""))
        for bit, value in zip(net["bits"], reversed(initial)):
            if isinstance(bit, int) and value in "01":
                self.names.initial[bit] = value

    def cell(self, name: str, cell: Dict[str, Any], others: Set[str]) -> None:
        """A gate or a flip-flop; any other cell is said by its name."""
        kind = cell["type"]
        if kind in IGNORED:
            return
        wide = [pin for pin, bits in cell["connections"].items() if len(bits) != 1]
        found = flip_flop(kind)
        if (kind not in GATES and found is None) or wide:
            raise Unconvertible(f"cell {shown(name)}: {unheld(kind, others)}")
        made = Cell(name, kind, {pin: bits[0] for pin, bits in cell["connections"].items()})
        output = made.pins.get("Y" if found is None else "Q")
        if not isinstance(output, int):
            return
        self.driven(output, f"cell {shown(name)}")
        if found is None:
            self.gates[output] = made
        else:
            self.registers.append((made, found))

    def driven(self, bit: Bit, by: str) -> None:
        """A net has one driver."""
        if isinstance(bit, int) and self.drivers.setdefault(bit, by) != by:
            raise Unconvertible(f"net {shown(self.names.of(bit, str(bit)))} has two drivers: {self.drivers[bit]} and {by}")


def unheld(kind: str, others: Set[str]) -> str:
    """Why a cell's type cannot be held."""
    if kind in others:
        return f"it is an instance of the module {shown(kind)}; run `flatten` before write_json"
    if kind.startswith("$_"):
        return f"a record cannot hold its type {shown(kind)}: only gates and edge-triggered flip-flops with at most one reset and one enable"
    return f"its type {shown(kind)} is no gate; run `techmap` (and `memory` before it) before write_json"
