"""A design in readable form: ports, nodes, registers, counts, and what it takes of the sum that refusal 23 limits."""
from __future__ import annotations

from typing import Any, Dict, List

from .pair import largest_depth, per_cycle
from .record import Design, Kind, Node, Register
from .text import counted, shown

_SIGNS = {Kind.AND: "&", Kind.OR: "|", Kind.XOR: "^"}


def net(design: Design, number: int) -> str:
    """A net by its name where it has one: an Input's, or a register's; else by its number."""
    node = design.nodes[number]
    if node.kind is Kind.INPUT:
        return shown(node.name)
    if node.kind is Kind.REGISTER_OUTPUT:
        place = design.register_of(number)
        return f"n{number}" if place is None else shown(design.registers[place].name) + ".q"
    return str(node.value) if node.kind is Kind.CONSTANT else f"n{number}"


def node_text(design: Design, node: Node) -> str:
    """A node's kind and what it reads."""
    read = [net(design, number) for number in node.inputs]
    if node.kind in (Kind.INPUT, Kind.OUTPUT):
        return f"{node.kind.word} {shown(node.name)}" + (f" = {read[0]}" if read else "")
    if node.kind is Kind.CONSTANT:
        return f"Constant {node.value}"
    if node.kind is Kind.REGISTER_OUTPUT:
        return "RegisterOutput"
    if node.kind is Kind.NOT:
        return f"Not {read[0]}"
    if node.kind is Kind.MUX:
        return f"Mux {read[0]} ? {read[1]} : {read[2]}"
    return f"{node.kind.word} {read[0]} {_SIGNS[node.kind]} {read[1]}"


def register_text(design: Design, register: Register) -> str:
    """A register: data, clock, enable and reset."""
    parts = [f"data {net(design, register.data)}", f"clock {net(design, register.clock)} {'falling' if register.falling else 'rising'}"]
    if register.enable:
        parts.append(f"enable {net(design, register.enable.signal)} active {'low' if register.enable.active_low else 'high'}")
    reset = register.reset
    if reset:
        kind = "asynchronous" if reset.asynchronous else "synchronous"
        parts.append(f"{kind} reset {net(design, reset.signal)} active {'low' if reset.active_low else 'high'} to {reset.value}")
    else:
        parts.append("no reset")
    return f"{shown(register.name)} (node {register.output}): {', '.join(parts)}"


def size_lines(design: Design) -> List[str]:
    """The counts, and what the design takes of refusal 23's sum."""
    nodes, registers = len(design.nodes), len(design.registers)
    own = 3 * nodes + 10 * registers
    twice = per_cycle(design, design)
    depth = largest_depth(design, design)
    return [
        f"{counted(len(design.inputs), 'input')}, {counted(len(design.outputs), 'output')}, {nodes:,} of 1,024 nodes, {registers} of 128 registers",
        f"of refusal 23's sum it takes 3×{nodes} + 10×{registers} = {own:,} a cycle as one side of a pair; "
        f"against a gate of its own size a cycle takes {twice:,}, and the largest depth that fits is {depth}",
    ]


def show(design: Design) -> str:
    """The whole design."""
    lines = [f"design {shown(design.name)}", *size_lines(design)]
    lines += ["inputs: " + (" ".join(map(shown, design.inputs)) or "none"), "outputs: " + (" ".join(map(shown, design.outputs)) or "none"), "nodes:"]
    lines += [f"  {number}: {node_text(design, node)}{_of(design, number)}" for number, node in enumerate(design.nodes)]
    lines += ["registers:"] + [f"  {number}: {register_text(design, register)}" for number, register in enumerate(design.registers)]
    return "\n".join(lines)


def _of(design: Design, number: int) -> str:
    """The register of a RegisterOutput."""
    place = design.register_of(number) if design.nodes[number].kind is Kind.REGISTER_OUTPUT else None
    return "" if place is None else f" of {shown(design.registers[place].name)}"


def show_json(design: Design) -> Dict[str, Any]:
    """The whole design as JSON has it."""
    def register(one: Register) -> Dict[str, Any]:
        """A register."""
        told: Dict[str, Any] = {"name": one.name.decode("latin-1"), "output": one.output, "data": one.data, "clock": one.clock,
                                "edge": "falling" if one.falling else "rising", "enable": None, "reset": None}
        if one.enable:
            told["enable"] = {"signal": one.enable.signal, "active_low": one.enable.active_low}
        if one.reset:
            told["reset"] = {"signal": one.reset.signal, "active_low": one.reset.active_low, "asynchronous": one.reset.asynchronous,
                             "value": one.reset.value}
        return told

    nodes = [{"kind": node.kind.word, "name": node.name.decode("latin-1") or None, "value": node.value if node.kind is Kind.CONSTANT else None,
              "inputs": list(node.inputs)} for node in design.nodes]
    return {"design": design.name.decode("latin-1"), "nodes": nodes, "registers": [register(one) for one in design.registers],
            "per_cycle": 3 * len(design.nodes) + 10 * len(design.registers), "largest_depth_against_itself": largest_depth(design, design)}
