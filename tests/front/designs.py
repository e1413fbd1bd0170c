"""Designs for the tests, built node by node."""
from __future__ import annotations

import random
from typing import List, Optional, Sequence

from struo.record import Design, Enable, Kind, Node, Register, Reset


class Builder:
    """A design in the making; registers are clocked by node 0 and reset to 0 by node 1, synchronously."""

    def __init__(self, *inputs: str, name: str = "g"):
        """A design with these inputs."""
        self.design = Design(name.encode())
        self.inputs = [self.node(Kind.INPUT, text=one) for one in inputs]

    def node(self, kind: Kind, *reads: int, text: str = "", value: int = 0) -> int:
        """One more node."""
        self.design.nodes.append(Node(kind, text.encode(), value, reads))
        return len(self.design.nodes) - 1

    def output(self, name: str, read: int) -> int:
        """An Output."""
        return self.node(Kind.OUTPUT, read, text=name)

    def state(self) -> int:
        """A RegisterOutput."""
        return self.node(Kind.REGISTER_OUTPUT)

    def register(self, name: str, output: int, data: int, clock: int = 0, falling: bool = False, enable: Optional[Enable] = None,
                 reset: Optional[Reset] = Reset(1, False, False, 0)) -> None:
        """A register."""
        self.design.registers.append(Register(name.encode(), output, data, clock, falling, enable, reset))


def wire() -> Design:
    """y = a."""
    builder = Builder("a")
    builder.output("y", 0)
    return builder.design


def grounded() -> Design:
    """y = 0, beside an input a."""
    builder = Builder("a")
    builder.output("y", builder.node(Kind.CONSTANT))
    return builder.design


def inverter() -> Design:
    """y = not a."""
    builder = Builder("a")
    builder.output("y", builder.node(Kind.NOT, 0))
    return builder.design


def toggle(name: str = "q", falling: bool = False, reset: Optional[Reset] = Reset(1, False, False, 0)) -> Design:
    """A register that turns each cycle, shown at y."""
    builder = Builder("clk", "rst")
    state = builder.state()
    builder.output("y", state)
    builder.register(name, state, builder.node(Kind.NOT, state), 0, falling, None, reset)
    return builder.design


def row(*names: str) -> Design:
    """Registers in a row after e; y is the last."""
    builder = Builder("clk", "rst", "e")
    states = [builder.state() for _ in names]
    builder.output("y", states[-1])
    for name, state, data in zip(names, states, [2, *states]):
        builder.register(name, state, data)
    return builder.design


def holding() -> Design:
    """y = 0 beside a register that holds."""
    builder = Builder("clk", "rst", "e")
    state = builder.state()
    builder.output("y", builder.node(Kind.CONSTANT))
    builder.register("h", state, state)
    return builder.design


def _exclusive_or(builder: Builder, left: int, right: int, by_gates: bool) -> int:
    """left Xor right, as one node, or by Or, And and Not."""
    if not by_gates:
        return builder.node(Kind.XOR, left, right)
    either, both = builder.node(Kind.OR, left, right), builder.node(Kind.AND, left, right)
    return builder.node(Kind.AND, either, builder.node(Kind.NOT, both))


def exclusive_or(by_gates: bool) -> Design:
    """y = a Xor b; query 1 of a pair of both forms learns 16 literals at depth 1."""
    builder = Builder("a", "b")
    builder.output("y", _exclusive_or(builder, 0, 1, by_gates))
    return builder.design


def late_exclusive_or(by_gates: bool) -> Design:
    """y = q Xor f, where q is the second of two registers in a row after e, of other names by gates: in cycles 0 and 1 y is f, and query 1 of a pair of both forms
    learns nothing at depth 1 and 5 literals at depth 2."""
    builder = Builder("clk", "rst", "e", "f")
    first, second = builder.state(), builder.state()
    builder.output("y", _exclusive_or(builder, second, 3, by_gates))
    for name, state, data in zip("rs" if by_gates else "pq", (first, second), (2, first)):
        builder.register(name, state, data)
    return builder.design


def _sum(builder: Builder, first: Optional[int], second: Optional[int], carry: Optional[int]) -> tuple:
    """A full adder; none is 0."""
    bits = [bit for bit in (first, second, carry) if bit is not None]
    if len(bits) < 2:
        return (bits[0] if bits else None), None
    half = builder.node(Kind.XOR, bits[0], bits[1])
    both = builder.node(Kind.AND, bits[0], bits[1])
    if len(bits) == 2:
        return half, both
    return builder.node(Kind.XOR, half, bits[2]), builder.node(Kind.OR, both, builder.node(Kind.AND, half, bits[2]))


def product(builder: Builder, left: Sequence[int], right: Sequence[int]) -> List[Optional[int]]:
    """The bits of a product, row after row."""
    total: List[Optional[int]] = [None] * (len(left) + len(right))
    for shift, bit in enumerate(right):
        carry = None
        for place in range(len(total) - shift):
            part = builder.node(Kind.AND, left[place], bit) if place < len(left) else None
            total[place + shift], carry = _sum(builder, total[place + shift], part, carry)
    return total


def multiplied(width: int, swapped: bool, late: bool) -> Design:
    """A register m that takes a product bit of a and b, or of b and a; y follows e after two cycles, or stays 0 where it is late."""
    names = [f"{side}{place}" for side in "ab" for place in range(width)]
    builder = Builder("clk", "rst", "e", *names)
    left, right = builder.inputs[3:3 + width], builder.inputs[3 + width:]
    first, second, kept = builder.state(), builder.state(), builder.state()
    bits = product(builder, right, left) if swapped else product(builder, left, right)
    zero = builder.node(Kind.CONSTANT)
    builder.output("y", zero if late else second)
    builder.register("p", first, 2)
    builder.register("s", second, first)
    middle = bits[width]
    assert middle is not None
    builder.register("m", kept, middle)
    return builder.design


def random_design(dice: random.Random, lowest: int = 1) -> Design:
    """A design with every kind of node, enables and resets of both kinds and levels. Nodes from `lowest` on are read: from 1 on the clock, node 0, is not."""
    builder = Builder("clk", "rst", "e", "f")
    states = [builder.state() for _ in range(4)]
    builder.node(Kind.CONSTANT, value=dice.randrange(2))
    for _ in range(14):
        kind = dice.choice((Kind.NOT, Kind.AND, Kind.OR, Kind.XOR, Kind.MUX))
        builder.node(kind, *(dice.randrange(lowest, len(builder.design.nodes)) for _ in range(kind.input_count)))
    last = len(builder.design.nodes)
    for place, state in enumerate(states):
        asynchronous = bool(dice.randrange(2))
        signal = dice.randrange(lowest, 4 if asynchronous else last)
        enable = Enable(dice.randrange(lowest, last), bool(dice.randrange(2))) if dice.randrange(2) else None
        builder.register(f"r{place}", state, dice.randrange(lowest, last), enable=enable,
                         reset=Reset(signal, bool(dice.randrange(2)), asynchronous, dice.randrange(2)))
    for name in "yz":
        builder.output(name, dice.randrange(lowest, last))
    return builder.design
