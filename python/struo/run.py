"""The run of a design by cycles, for traces in names and waveforms; it is held against the library's replay before anything of it is shown."""
from __future__ import annotations

from dataclasses import dataclass
from typing import Dict, List, Sequence

from .record import Design, Kind, Node

Bits = Dict[bytes, int]


@dataclass(frozen=True)
class Cycle:
    """One cycle of one side: its outputs and what its registers show, by name."""

    outputs: Bits
    registers: Bits


def _asserted(bit: int, active_low: bool) -> bool:
    """Whether a control with this bit is asserted."""
    return bool(bit) != active_low


def _shown(design: Design, number: int, values: List[int], stored: Sequence[int]) -> int:
    """What a RegisterOutput shows: the stored bit, or the reset value while an asynchronous reset is asserted."""
    place = design.register_of(number)
    assert place is not None
    reset = design.registers[place].reset
    if reset and reset.asynchronous and _asserted(values[reset.signal], reset.active_low):
        return reset.value
    return stored[place]


def _value(design: Design, number: int, node: Node, values: List[int], inputs: Bits, stored: Sequence[int]) -> int:
    """The bit of a node from those before it."""
    if node.kind is Kind.INPUT:
        return inputs[node.name]
    if node.kind is Kind.CONSTANT:
        return node.value
    if node.kind is Kind.REGISTER_OUTPUT:
        return _shown(design, number, values, stored)
    read = [values[place] for place in node.inputs]
    if node.kind is Kind.NOT:
        return 1 - read[0]
    if node.kind is Kind.OUTPUT:
        return read[0]
    if node.kind is Kind.MUX:
        return read[1] if read[0] else read[2]
    return {Kind.AND: read[0] & read[1], Kind.OR: read[0] | read[1], Kind.XOR: read[0] ^ read[1]}[node.kind]


def node_values(design: Design, inputs: Bits, stored: Sequence[int]) -> List[int]:
    """The bits of all nodes in one cycle."""
    values: List[int] = []
    for number, node in enumerate(design.nodes):
        values.append(_value(design, number, node, values, inputs, stored))
    return values


def next_stored(design: Design, values: List[int], stored: Sequence[int]) -> List[int]:
    """The stored bits of the next cycle: data, held by an enable that is not asserted, set by a reset that is."""
    bits = []
    for register, held in zip(design.registers, stored):
        bit = values[register.data]
        if register.enable and not _asserted(values[register.enable.signal], register.enable.active_low):
            bit = held
        if register.reset and _asserted(values[register.reset.signal], register.reset.active_low):
            bit = register.reset.value
        bits.append(bit)
    return bits


def run(design: Design, cycles: Sequence[Bits]) -> List[Cycle]:
    """The cycles of a design from its initial state, which is that of its resets."""
    stored: List[int] = [register.reset.value if register.reset else 0 for register in design.registers]
    done = []
    for inputs in cycles:
        values = node_values(design, inputs, stored)
        outputs = {node.name: values[number] for number, node in enumerate(design.nodes) if node.kind is Kind.OUTPUT}
        registers = {register.name: values[register.output] for register in design.registers}
        done.append(Cycle(outputs, registers))
        stored = next_stored(design, values, stored)
    return done
