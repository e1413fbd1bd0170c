"""A replayed trace as a waveform (VCD): both sides' inputs, outputs and registers, and a line `differs`."""
from __future__ import annotations

from typing import Dict, List, Tuple

from .trace import Difference
from .version import VERSION

# Time units of a cycle.
CYCLE = 10

# A variable: the scopes that it stands in, its name, and its bit in each cycle.
Variable = Tuple[Tuple[str, ...], str, List[int]]


def _word(name: bytes) -> str:
    """A name as a word of the file; the one name that would end its declaration is written as an escaped one."""
    text = name.decode("latin-1")
    return "\\" + text if text == "$end" else text


def _code(number: int) -> str:
    """A short identifier of printable characters."""
    code = ""
    while True:
        code += chr(33 + number % 94)
        number = number // 94 - 1
        if number < 0:
            return code


def _variables(difference: Difference) -> List[Variable]:
    """Every bit that is shown: `differs`, then each side's inputs, outputs and registers in byte order of names."""
    count = len(difference.inputs)
    found: List[Variable] = [((), "differs", [int(bool(difference.differing(cycle))) for cycle in range(count)])]
    for side, cycles in (("gold", difference.gold), ("gate", difference.gate)):
        groups = {"inputs": difference.inputs, "outputs": [cycle.outputs for cycle in cycles], "registers": [cycle.registers for cycle in cycles]}
        for group, rows in groups.items():
            found += [((side, group), _word(name), [row[name] for row in rows]) for name in sorted(rows[0])]
    return found


def _declarations(variables: List[Variable]) -> List[str]:
    """The scopes and variables, in the order given."""
    lines, scope = ["$scope module struo $end", f"$var integer 32 {_code(0)} cycle $end"], ()
    for number, (inside, name, _) in enumerate(variables, 1):
        common = next((place for place, pair in enumerate(zip(scope, inside)) if pair[0] != pair[1]), min(len(scope), len(inside)))
        lines += ["$upscope $end"] * (len(scope) - common) + [f"$scope module {part} $end" for part in inside[common:]]
        lines.append(f"$var wire 1 {_code(number)} {name} $end")
        scope = inside
    return lines + ["$upscope $end"] * (len(scope) + 1)


def vcd(difference: Difference) -> str:
    """The text of the waveform: a cycle takes ten units; the clock has its column like every input, and no edges are drawn."""
    variables = _variables(difference)
    lines = [f"$version struo {VERSION} $end", "$timescale 1 ns $end", *_declarations(variables), "$enddefinitions $end"]
    before: Dict[int, int] = {}
    for cycle in range(len(difference.inputs)):
        lines += [f"#{cycle * CYCLE}", f"b{cycle:b} {_code(0)}"]
        for number, (_, _, bits) in enumerate(variables, 1):
            if before.get(number) != bits[cycle]:
                lines.append(f"{bits[cycle]}{_code(number)}")
                before[number] = bits[cycle]
    return "\n".join(lines + [f"#{len(difference.inputs) * CYCLE}"]) + "\n"
