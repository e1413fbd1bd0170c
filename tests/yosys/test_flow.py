"""Three Verilog designs through yosys, plain and reduced: converted, checked, and with a wrong gate whose trace is run in iverilog on both netlists."""
from __future__ import annotations

import json
import random
import re
import subprocess
import sys
import unittest
from dataclasses import dataclass
from pathlib import Path
from typing import Any, Dict, Iterator, List

sys.path.insert(0, str(Path(__file__).resolve().parents[1] / "front"))

from support import ROOT, Case  # noqa: E402
from struo.record import Design, decode  # noqa: E402
from struo.run import run as run_record  # noqa: E402

VERILOG = ROOT / "examples" / "verilog"

# The flows that the README gives: gold plain, gate reduced.
GOLD = "read_verilog -mem2reg {source}; hierarchy -check -top {top}; proc; flatten; opt_dff; techmap; opt_expr; opt_clean"
GATE = "read_verilog -mem2reg {source}; hierarchy -check -top {top}; proc; flatten; opt_dff; synth -nofsm -top {top}; abc; opt_clean"

# Gates that a faulty tool might exchange.
EXCHANGED = {"$_AND_": "$_OR_", "$_OR_": "$_AND_", "$_XOR_": "$_XNOR_", "$_XNOR_": "$_XOR_", "$_NAND_": "$_NOR_", "$_NOR_": "$_NAND_",
             "$_ANDNOT_": "$_AND_", "$_ORNOT_": "$_OR_", "$_NOT_": "$_BUF_"}


@dataclass(frozen=True)
class Chip:
    """A design: its module, and how its clock and reset are driven."""

    top: str
    reset: str
    asserted: int
    falling: bool

    @property
    def verilog(self) -> str:
        """Its Verilog, of an example or of a file of this test, clocked at its edge."""
        example = VERILOG / f"{self.top}.v"
        text = (example if example.exists() else Path(__file__).with_name(f"{self.top}.v")).read_text()
        return text.replace("posedge clk", "negedge clk") if self.falling else text


CHIPS = (Chip("command_buffer", "rst", 1, False), Chip("baud_divider", "rst_n", 0, False), Chip("card_receiver", "rst", 1, True))

# Registers of every kind on either edge, some of which either level of r resets.
FLIP_FLOPS = (Chip("flip_flops", "r", 1, False), Chip("flip_flops", "r", 1, True))


def run(*words: str) -> str:
    """The output of a program that has to end well."""
    ended = subprocess.run(words, stdout=subprocess.PIPE, stderr=subprocess.STDOUT, timeout=120)
    if ended.returncode != 0:
        raise AssertionError(f"{words[0]} ended with status {ended.returncode}: {ended.stdout.decode()[-2000:]}")
    return ended.stdout.decode()


def struo(*words: str) -> subprocess.CompletedProcess:
    """The command."""
    return subprocess.run([sys.executable, str(ROOT / "struo"), *words], stdout=subprocess.PIPE, stderr=subprocess.PIPE, timeout=120)


def wrong_gates(netlist: Dict[str, Any], top: str) -> Iterator[Dict[str, Any]]:
    """The netlist with one gate exchanged, the last one first: that is nearest to the registers."""
    for name, cell in reversed(list(netlist["modules"][top]["cells"].items())):
        if cell["type"] in EXCHANGED:
            changed = json.loads(json.dumps(netlist))
            changed["modules"][top]["cells"][name]["type"] = EXCHANGED[cell["type"]]
            yield changed


def ports(netlist: Dict[str, Any], top: str, direction: str) -> Dict[str, int]:
    """The ports of a direction with their widths."""
    return {name: len(port["bits"]) for name, port in netlist["modules"][top]["ports"].items() if port["direction"] == direction}


def bit_names(widths: Dict[str, int]) -> List[str]:
    """The bits of ports as records name them, each port's last bit first, as Verilog writes them."""
    return [name if width == 1 else f"{name}[{place}]" for name, width in widths.items() for place in reversed(range(width))]


def bench(chip: Chip, inputs: Dict[str, int], outputs: Dict[str, int], cycles: List[Dict[str, int]], modules: List[str]) -> str:
    """A test bench: a clock in reset, then the cycles given; each module's outputs are written before the clock's edge."""
    idle, active = (1, 0) if chip.falling else (0, 1)
    driven = {name: width for name, width in inputs.items() if name != "clk"}
    lines = ["module bench;", f"  reg clk = {idle};"] + [f"  reg [{width - 1}:0] {name} = 0;" for name, width in driven.items()]
    for module in modules:
        lines += [f"  wire [{width - 1}:0] {module}_{name};" for name, width in outputs.items()]
        pins = [f".{name}({name})" for name in inputs] + [f".{name}({module}_{name})" for name in outputs]
        lines.append(f"  {module} {module}_side ({', '.join(pins)});")
    shown = ", ".join("{" + ", ".join(f"{module}_{name}" for name in outputs) + "}" for module in modules)
    tick = f"#1 clk = {active}; #1 clk = {idle}; #1;"
    lines += ["  initial begin", f"    {chip.reset} = {chip.asserted}; {tick}"]
    for bits in cycles:
        lines += [f"    {bit} = {bits[bit]};" for bit in bit_names(driven)]
        lines += [f'    #1 $display("{" ".join(["%b"] * len(modules))}", {shown});', f"    {tick}"]
    return "\n".join(lines + ["  end", "endmodule"]) + "\n"


class Flow(Case):
    """From Verilog to a verdict, and from a difference back to a simulation."""

    def record(self, side: str) -> str:
        """A netlist converted to a record."""
        ended = struo("convert", self.path(f"{side}.json"), self.path(f"{side}.struo"), "--x", "0")
        self.assertEqual(ended.returncode, 0, ended.stdout + ended.stderr)
        return self.path(f"{side}.struo")

    def synthesize(self, chip: Chip) -> None:
        """Both netlists by yosys, as JSON, and gold as Verilog."""
        source = self.file("chip.v", chip.verilog)
        gold, gate = (flow.format(source=source, top=chip.top) for flow in (GOLD, GATE))
        run("yosys", "-q", "-p", f"{gold}; write_json {self.path('gold.json')}; rename {chip.top} gold; write_verilog -noattr {self.path('gold.v')}")
        run("yosys", "-q", "-p", f"{gate}; write_json {self.path('gate.json')}")

    def injected(self, chip: Chip) -> Dict[str, Any]:
        """A wrong gate that is found, preferably later than in cycle 0: what the check tells of it."""
        gold, found = self.path("gold.struo"), None
        for changed in wrong_gates(json.loads(Path(self.path("gate.json")).read_text()), chip.top):
            Path(self.path("wrong.json")).write_text(json.dumps(changed))
            ended = struo("check", gold, self.record("wrong"), "--depth", "8", "--json")
            told = json.loads(ended.stdout)
            if told["verdict"] == "NOT EQUIVALENT":
                self.assertEqual(ended.returncode, 1)
                found = told
                Path(self.path("found.json")).write_text(json.dumps(changed))
                if told["mismatch"] > 0:
                    break
        assert found is not None, "no exchanged gate is found"
        return found

    def simulate(self, chip: Chip, told: Dict[str, Any]) -> None:
        """The trace in iverilog on both netlists: alike before the named cycle, and in it different in the named outputs alone."""
        run("yosys", "-q", "-p", f"read_json {self.path('found.json')}; rename {chip.top} gate; write_verilog -noattr {self.path('gate.v')}")
        netlist = json.loads(Path(self.path("gate.json")).read_text())
        inputs, outputs = (ports(netlist, chip.top, direction) for direction in ("input", "output"))
        cycles = [dict(zip(told["trace"]["inputs"], bits)) for bits in told["trace"]["cycles"]]
        Path(self.path("bench.v")).write_text(bench(chip, inputs, outputs, cycles, ["gold", "gate"]))
        run("iverilog", "-o", self.path("bench"), self.path("bench.v"), self.path("gold.v"), self.path("gate.v"))
        lines = run("vvp", "-n", self.path("bench")).splitlines()
        self.assertEqual(len(lines), told["mismatch"] + 1)
        for line in lines[:-1]:
            gold, gate = line.split()
            self.assertEqual(gold, gate)
        gold, gate = lines[-1].split()
        self.assertNotIn("x", gold + gate)
        differing = {name: (a, b) for name, a, b in zip(bit_names(outputs), gold, gate) if a != b}
        wanted = {name: (str(a), str(b)) for name, a, b in zip(told["trace"]["differing"], told["trace"]["gold"], told["trace"]["gate"])}
        self.assertEqual(differing, wanted)

    def test_three_designs(self):
        for chip in CHIPS:
            with self.subTest(chip.top):
                self.synthesize(chip)
                pair = self.record("gold"), self.record("gate")
                ended = struo("check", *pair, "--depth", "8")
                self.assertEqual((ended.returncode, ended.stdout[:12]), (0, b"Equivalent: "))
                self.simulate(chip, self.injected(chip))

    def test_a_record_runs_as_its_verilog(self):
        dice = random.Random(18)
        for chip in CHIPS + FLIP_FLOPS:
            with self.subTest(chip.top, falling=chip.falling):
                self.synthesize(chip)
                netlist = json.loads(Path(self.path("gate.json")).read_text())
                inputs, outputs = (ports(netlist, chip.top, direction) for direction in ("input", "output"))
                cycles = [{bit: dice.randrange(2) for bit in bit_names(inputs)} for _ in range(300)]
                for place, bits in enumerate(cycles):
                    often = place < 8 or dice.randrange(6) == 0
                    bits[chip.reset] = place % 2 if place < 8 else chip.asserted if often else 1 - chip.asserted
                Path(self.path("bench.v")).write_text(bench(chip, inputs, outputs, cycles, [chip.top]))
                run("iverilog", "-o", self.path("bench"), self.path("bench.v"), self.path("chip.v"))
                lines = run("vvp", "-n", self.path("bench")).splitlines()
                for side in ("gold", "gate"):
                    design = decode(Path(self.record(side)).read_bytes())
                    self.same_from_reset(chip, design, cycles, [dict(zip(bit_names(outputs), line)) for line in lines])

    def same_from_reset(self, chip: Chip, design: Design, cycles: List[Dict[str, int]], lines: List[Dict[str, str]]) -> None:
        """From the cycle on in which the simulation knows every output, the record's run shows the same; its start state is not compared before."""
        shown = run_record(design, [{name.encode(): bit for name, bit in bits.items()} for bits in cycles])
        known = next(place for place in range(len(lines)) if all("x" not in line.values() for line in lines[place:]))
        self.assertLess(known, 20)
        for place in range(known, len(lines)):
            wanted = {name.encode(): int(bit) for name, bit in lines[place].items()}
            self.assertEqual(shown[place].outputs, wanted, (chip.top, place))

    def test_the_readme_gives_these_flows(self):
        given = re.findall(r'(?m)^ +yosys -q -p "(.*)"$', (ROOT / "README.md").read_text())
        flows = [flow.format(source="chip.v", top="chip") + f"; write_json {side}.json" for flow, side in ((GOLD, "gold"), (GATE, "gate"))]
        self.assertEqual(given, flows)

    def test_the_examples_are_what_the_flow_makes(self):
        for chip in CHIPS:
            self.synthesize(chip)
            for side in ("gold", "gate"):
                made, kept = Path(self.record(side)), ROOT / "examples" / f"{chip.top}_{side}.struo"
                ended = struo("check", str(kept), str(made), "--depth", "8")
                self.assertEqual(ended.returncode, 0, ended.stdout)


if __name__ == "__main__":
    unittest.main()
