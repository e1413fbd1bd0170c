"""A record from a netlist of gates and flip-flops that yosys wrote with write_json. What a record cannot hold is said with its cell's name."""
from __future__ import annotations

import json
from dataclasses import dataclass
from typing import Any, Dict, List, Optional

from .files import Unreadable
from .lowering import Lowering
from .netlist import Module, Unconvertible
from .record import MOST_NODES, MOST_PORTS, MOST_REGISTERS, Design, encode
from .text import counted, listed, shown


@dataclass(frozen=True)
class Converted:
    """A record, and what its reader should know of how it was made."""

    record: bytes
    notes: List[str]


def limits(design: Design) -> None:
    """What of a design a record has no room for."""
    counts = ((len(design.nodes), MOST_NODES, "node"), (len(design.registers), MOST_REGISTERS, "register"),
              (len(design.inputs), MOST_PORTS, "input"), (len(design.outputs), MOST_PORTS, "output"))
    over = [f"{counted(count, what)} of at most {most:,}" for count, most, what in counts if count > most]
    if over:
        raise Unconvertible(f"the design {shown(design.name)} is too large for a record: {', '.join(over)}")


def notes(module: Module, design: Design, short: List[bytes]) -> List[str]:
    """What a reader should know: registers without a reset, registers that start at their initial value, shortened names."""
    found = []
    bare = [register.name for register in design.registers if register.reset is None]
    if bare:
        found.append(f"{counted(len(bare), 'register')} without a reset, which a check refuses (22): {listed(bare)}")
    started = [cell.name for cell, kind in module.registers if kind.reset_low is None and cell.pins["Q"] in module.names.initial]
    if started:
        found.append(f"{counted(len(started), 'register')} without a reset: the initial value is taken, as of a reset that is never asserted")
    if short:
        found.append(f"{counted(len(short), 'register name')} too long for a record, shortened to a digest and the name's end: {listed(short)}")
    return found


def choose(modules: Dict[str, Any], top: Optional[str], path: str) -> str:
    """The module to convert: the one named, the one marked as top, or the only one."""
    if top is not None:
        if top not in modules:
            raise Unreadable(f"{shown(path)} has no module {shown(top)}; it has {listed(modules)}")
        return top
    marked = [name for name, module in modules.items() if int(str(module.get("attributes", {}).get("top", 0)), 2)]
    own = [name for name, module in modules.items() if not module.get("attributes", {}).get("blackbox")]
    if len(marked) == 1 or len(own) == 1:
        return marked[0] if len(marked) == 1 else own[0]
    raise Unreadable(f"{shown(path)} has {counted(len(modules), 'module')} and none is marked as top: name one with --top")


def convert(text: str, path: str, top: Optional[str] = None, unknown: Optional[str] = None) -> Converted:
    """The record of a module; `unknown` is the bit taken for x and for undriven nets, which are refused where it is none."""
    try:
        modules = json.loads(text)["modules"]
        name = choose(modules, top, path)
        module = Module(name, modules[name], set(modules))
        lowering = Lowering(module, unknown)
        design = lowering.whole()
    except (KeyError, TypeError, AttributeError, ValueError, IndexError, RecursionError) as error:
        raise Unreadable(f"{shown(path)} is no netlist of yosys' write_json: {type(error).__name__} {shown(str(error))}") from error
    limits(design)
    return Converted(encode(design), notes(module, design, lowering.shortened))
