"""A module lowered to a design: each node after those that it reads, and each flip-flop as a register."""
from __future__ import annotations

from typing import Dict, List, Optional, Set, Tuple

from .cells import GATES, FlipFlop
from .netlist import Bit, Cell, Module, Unconvertible, fitted
from .record import Design, Enable, Kind, Node, Register, Reset
from .text import listed, shown


class Lowering:
    """The nodes and registers of a module in the making; a node comes after those that it reads."""

    def __init__(self, module: Module, unknown: Optional[str]):
        self.module = module
        self.unknown = unknown
        self.design = Design(fitted(module.name))
        self.numbers: Dict[Bit, int] = {}
        self.made: Dict[Tuple[Kind, Tuple[int, ...], int], int] = {}
        self.states = {cell.pins["Q"]: (cell, kind) for cell, kind in module.registers}
        self.shortened: List[bytes] = []

    def node(self, node: Node) -> int:
        """One more node."""
        self.design.nodes.append(node)
        return len(self.design.nodes) - 1

    def make(self, kind: Kind, *inputs: int) -> int:
        """A gate's node; a Not that is there already is taken again."""
        key = (kind, inputs, 0)
        if kind is not Kind.NOT or key not in self.made:
            self.made[key] = self.node(Node(kind, inputs=inputs))
        return self.made[key]

    def constant(self, value: int) -> int:
        """A constant, made once."""
        key = (Kind.CONSTANT, (), value)
        if key not in self.made:
            self.made[key] = self.node(Node(Kind.CONSTANT, value=value))
        return self.made[key]

    def before(self, bit: Bit) -> List[Bit]:
        """The nets whose nodes come before a net's: a gate's pins, or an asynchronous reset."""
        if bit in self.states:
            cell, kind = self.states[bit]
            return [cell.pins["R"]] if kind.asynchronous else []
        gate = self.module.gates.get(bit) if isinstance(bit, int) else None
        return [gate.pins[pin] for pin in GATES[gate.kind][0]] if gate else []

    def number(self, bit: Bit, reader: str) -> int:
        """The node of a net, made after all that it needs; the way to it is kept, so that a loop is seen."""
        way: List[Bit] = [bit]
        on_way: Set[Bit] = {bit}
        while way:
            missing = [net for net in self.before(way[-1]) if net not in self.numbers]
            if way[-1] in self.numbers or not missing:
                done = way.pop()
                on_way.discard(done)
                if done not in self.numbers:
                    self.numbers[done] = self.emit(done, reader)
            elif missing[0] in on_way:
                self.loop(way[way.index(missing[0]):])
            else:
                way.append(missing[0])
                on_way.add(missing[0])
        return self.numbers[bit]

    def loop(self, way: List[Bit]) -> None:
        """Gates that read each other, or an asynchronous reset that its own register drives."""
        cells = [self.states[bit][0].name if bit in self.states else self.module.gates[bit].name for bit in way]  # type: ignore[index]
        raise Unconvertible(f"the cells {listed(cells)} form a loop without a clock edge")

    def emit(self, bit: Bit, reader: str) -> int:
        """The node of a net whose needs are there."""
        if bit in self.states:
            return self.node(Node(Kind.REGISTER_OUTPUT))
        if isinstance(bit, int) and bit in self.module.gates:
            cell = self.module.gates[bit]
            pins, make = GATES[cell.kind]
            return make(self.make, *(self.numbers[cell.pins[pin]] for pin in pins))
        if bit in ("0", "1"):
            return self.constant(int(bit))
        if bit == "z" or self.unknown is None:
            what = f"a constant {bit}" if isinstance(bit, str) else f"net {shown(self.module.names.of(bit, str(bit)))}, which nothing drives"
            way = "" if bit == "z" else "; --x 0 or --x 1 takes that bit for it"
            raise Unconvertible(f"{self.reader_of(bit) or reader} reads {what}{way}")
        return self.constant(int(self.unknown))

    def reader_of(self, bit: Bit) -> Optional[str]:
        """A gate that reads a net."""
        return next((f"cell {shown(cell.name)}" for cell in self.module.gates.values() if bit in cell.pins.values()), None)

    def register(self, cell: Cell, kind: FlipFlop) -> None:
        """A flip-flop as a register."""
        nets = {pin: self.number(cell.pins[pin], f"cell {shown(cell.name)}") for pin in kind.pins}
        enable = None if kind.enable_low is None else Enable(nets["E"], kind.enable_low)
        reset = None
        if kind.reset_low is not None:
            reset = Reset(nets["R"], kind.reset_low, kind.asynchronous, kind.reset_value)
        if kind.enable_first:
            reset = Reset(self.make(Kind.AND, self.level(nets["R"], kind.reset_low), self.level(nets["E"], kind.enable_low)), False, False, kind.reset_value)
        output = cell.pins["Q"]
        assert isinstance(output, int)
        name = self.module.names.of(output, cell.name)
        reset = self.initial(name, reset, self.module.names.initial.get(output))
        short = fitted(name)
        if short != name.encode("utf-8"):
            self.shortened.append(short)
        self.design.registers.append(Register(short, self.numbers[output], nets["D"], nets["C"], kind.falling, enable, reset))

    def level(self, signal: int, low: Optional[bool]) -> int:
        """A control that is 1 where it is asserted."""
        return self.make(Kind.NOT, signal) if low else signal

    def initial(self, name: str, reset: Optional[Reset], value: Optional[str]) -> Optional[Reset]:
        """The reset with which a register starts at its initial value: a record knows no other start than the reset's value."""
        if value is None:
            return reset
        if reset is None:
            return Reset(self.constant(0), False, False, int(value))
        if reset.value != int(value):
            raise Unconvertible(f"register {shown(name)} starts at {value} and its reset sets {reset.value}: a record has one value for both")
        return reset

    def whole(self) -> Design:
        """The module as a design: inputs, states, gates, outputs, registers."""
        for bit, name in self.module.inputs:
            self.numbers[bit] = self.node(Node(Kind.INPUT, name))
        for bit in self.states:
            if not self.before(bit):
                self.number(bit, "")
        for cell, _ in self.module.registers:
            self.number(cell.pins["Q"], f"cell {shown(cell.name)}")
        for cell, kind in self.module.registers:
            self.register(cell, kind)
        for bit, name in self.module.outputs:
            read = self.number(bit, f"output {shown(name)}")
            self.node(Node(Kind.OUTPUT, name, inputs=(read,)))
        return self.design
