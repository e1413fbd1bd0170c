"""`convert`: every cell that a record can hold, and what is said of those that it cannot."""
from __future__ import annotations

import itertools
import json
import unittest
from pathlib import Path
from typing import Any, Dict

from support import Case, inside
from struo import open_library
from struo.cells import GATES, flip_flop
from struo.files import Unreadable
from struo.record import Enable, Kind, Reset, decode
from struo.run import run
from struo.netlist import fitted
from struo.yosys import Unconvertible, convert

# What each gate answers for its pins in the order A, B, C, D, S.
MEANING = {
    "$_BUF_": lambda a: a, "$_NOT_": lambda a: 1 - a, "$_AND_": lambda a, b: a & b, "$_OR_": lambda a, b: a | b, "$_XOR_": lambda a, b: a ^ b,
    "$_NAND_": lambda a, b: 1 - (a & b), "$_NOR_": lambda a, b: 1 - (a | b), "$_XNOR_": lambda a, b: 1 - (a ^ b),
    "$_ANDNOT_": lambda a, b: a & (1 - b), "$_ORNOT_": lambda a, b: a | (1 - b), "$_MUX_": lambda a, b, s: b if s else a,
    "$_NMUX_": lambda a, b, s: 1 - (b if s else a), "$_AOI3_": lambda a, b, c: 1 - ((a & b) | c), "$_OAI3_": lambda a, b, c: 1 - ((a | b) & c),
    "$_AOI4_": lambda a, b, c, d: 1 - ((a & b) | (c & d)), "$_OAI4_": lambda a, b, c, d: 1 - ((a | b) & (c | d)),
}


def netlist(ports: Dict[str, Any], cells: Dict[str, Any], nets: Dict[str, Any] = {}, **attributes: str) -> str:
    """A netlist with one module, `top`; ports are a direction and bits, cells a type and a bit for each pin."""
    told = {name: {"direction": direction, "bits": bits} for name, (direction, bits) in ports.items()}
    made = {name: {"type": kind, "connections": {pin: [bit] for pin, bit in pins.items()}} for name, (kind, pins) in cells.items()}
    return json.dumps({"modules": {"top": {"attributes": attributes, "ports": told, "cells": made, "netnames": nets}}})


def flop(kind: str, init: str = "", **pins: Any) -> str:
    """A netlist with one flip-flop: clk 2, d 3, r 4, e 5, q 6."""
    nets = {"state": {"hide_name": 0, "bits": [6], "attributes": {"init": init} if init else {}}}
    wired = {"C": 2, "D": 3, "Q": 6, **({"R": 4} if "0" in kind or "1" in kind else {}), **({"E": 5} if "E_" in kind else {}), **pins}
    ports = {"clk": ("input", [2]), "d": ("input", [3]), "r": ("input", [4]), "e": ("input", [5]), "y": ("output", [6])}
    return netlist(ports, {"ff": (kind, wired)}, nets)


class Gates(unittest.TestCase):
    """Each gate by its table of values."""

    def test_every_gate(self):
        self.assertEqual(set(MEANING), set(GATES))
        for kind, meaning in MEANING.items():
            pins = sorted(GATES[kind][0])
            ports = {pin: ("input", [number]) for number, pin in enumerate(pins, 2)}
            text = netlist({**ports, "y": ("output", [9])}, {"g": (kind, {**{pin: number for number, pin in enumerate(pins, 2)}, "Y": 9})})
            record = convert(text, "").record
            self.assertTrue(open_library().read(record).accepted, kind)
            for bits in itertools.product((0, 1), repeat=len(pins)):
                inputs = {pin.encode(): bit for pin, bit in zip(pins, bits)}
                self.assertEqual(run(decode(record), [inputs])[0].outputs[b"y"], meaning(*bits), (kind, bits))


class FlipFlops(unittest.TestCase):
    """Each flip-flop by its register."""

    def register(self, text: str):
        """The register of a netlist with one."""
        converted = convert(text, "")
        self.assertTrue(open_library().read(converted.record).accepted)
        return decode(converted.record).registers[0]

    def test_edges(self):
        self.assertFalse(self.register(flop("$_DFF_P_")).falling)
        self.assertTrue(self.register(flop("$_DFF_N_")).falling)
        self.assertIsNone(self.register(flop("$_DFF_P_")).reset)

    def test_enables_and_resets(self):
        for edge, level, value, enable in itertools.product("NP", "NP", "01", "NP"):
            for prefix, asynchronous in (("$_DFF", True), ("$_SDFF", False)):
                plain = self.register(flop(f"{prefix}_{edge}{level}{value}_"))
                self.assertEqual((plain.falling, plain.enable), (edge == "N", None))
                self.assertEqual(plain.reset, Reset(2, level == "N", asynchronous, int(value)))
                enabled = self.register(flop(f"{prefix}E_{edge}{level}{value}{enable}_"))
                self.assertEqual(enabled.enable, Enable(3, enable == "N"))
                self.assertEqual(enabled.reset, plain.reset)
        self.assertEqual(self.register(flop("$_DFFE_PN_")).enable, Enable(3, True))

    def test_a_reset_that_waits_for_the_enable(self):
        for level, enable in itertools.product("NP", "NP"):
            design = decode(convert(flop(f"$_SDFFCE_P{level}1{enable}_"), "").record)
            for data, reset, enabled in itertools.product((0, 1), repeat=3):
                start = {b"clk": 0, b"d": 0, b"r": int(level == "P"), b"e": int(enable == "P")}
                kept = {b"clk": 0, b"d": data, b"r": reset, b"e": enabled}
                for first in (start, {**start, b"r": 1 - start[b"r"]}):
                    cycles = run(design, [first, kept, kept])
                    asserted, held = reset == int(level == "P"), cycles[1].outputs[b"y"]
                    wanted = (1 if asserted else data) if enabled == int(enable == "P") else held
                    self.assertEqual(cycles[2].outputs[b"y"], wanted)

    def test_types_that_are_none(self):
        for kind in ("$_FF_", "$_DLATCH_P_", "$_SR_PP_", "$_DFFSR_PPP_", "$_ALDFF_PP_", "$_SDFF_P_", "$_DFFE_P_", "$_SDFFC_PP0_", "$_DFFCE_PP0P_"):
            self.assertIsNone(flip_flop(kind), kind)
            with self.assertRaisesRegex(Unconvertible, "^cell ff: a record cannot hold its type"):
                convert(flop(kind), "")

    def test_initial_values(self):
        converted = convert(flop("$_DFF_P_", init="1"), "")
        design = decode(converted.record)
        reset = design.registers[0].reset
        self.assertEqual((design.nodes[reset.signal].kind, design.nodes[reset.signal].value, reset.value), (Kind.CONSTANT, 0, 1))
        self.assertEqual(converted.notes, ["1 register without a reset: the initial value is taken, as of a reset that is never asserted"])
        self.assertEqual(self.register(flop("$_DFF_PP0_", init="0")).reset.value, 0)
        with self.assertRaisesRegex(Unconvertible, "register y starts at 1 and its reset sets 0"):
            convert(flop("$_DFF_PP0_", init="1"), "")

    def test_a_register_without_reset_is_noted(self):
        self.assertEqual(convert(flop("$_DFF_P_"), "").notes, ["1 register without a reset, which a check refuses (22): y"])

    def test_an_asynchronous_reset_comes_before_its_register(self):
        ports = {"clk": ("input", [2]), "d": ("input", [3]), "a": ("input", [4]), "y": ("output", [6])}
        text = netlist(ports, {"ff": ("$_DFF_PP0_", {"C": 2, "D": 3, "R": 7, "Q": 6}), "n": ("$_NOT_", {"A": 4, "Y": 7})})
        self.assertEqual(self.register(text).reset.signal, 3)
        chained = netlist(ports, {"ff": ("$_DFF_PP0_", {"C": 2, "D": 3, "R": 7, "Q": 6}), "n": ("$_DFF_PP0_", {"C": 2, "D": 3, "R": 4, "Q": 7})})
        self.assertTrue(open_library().read(convert(chained, "").record).accepted)
        looped = netlist(ports, {"ff": ("$_DFF_PP0_", {"C": 2, "D": 3, "R": 7, "Q": 6}), "n": ("$_NOT_", {"A": 6, "Y": 7})})
        with self.assertRaisesRegex(Unconvertible, "the cells ff, n form a loop without a clock edge|the cells n, ff form"):
            convert(looped, "")


class Names(unittest.TestCase):
    """Ports and registers by name."""

    def test_ports_of_several_bits(self):
        text = netlist({"a": ("input", [2, 3]), "y": ("output", [3, 2])}, {})
        design = decode(convert(text, "").record)
        self.assertEqual((design.inputs, design.outputs), ([b"a[0]", b"a[1]"], [b"y[0]", b"y[1]"]))
        self.assertEqual(run(design, [{b"a[0]": 1, b"a[1]": 0}])[0].outputs, {b"y[0]": 0, b"y[1]": 1})

    def test_offsets_and_directions_of_indices(self):
        modules = json.loads(netlist({"a": ("input", [2, 3]), "y": ("output", [3])}, {}))
        modules["modules"]["top"]["ports"]["a"].update(offset=4, upto=1)
        design = decode(convert(json.dumps(modules), "").record)
        self.assertEqual([node.name for node in design.nodes[:2]], [b"a[5]", b"a[4]"])

    def test_a_register_has_its_nets_public_name(self):
        nets = {"$hidden": {"hide_name": 1, "bits": [6]}, "state": {"bits": [9, 6]}, "longer_state": {"bits": [6]}}
        ports = {"clk": ("input", [2]), "y": ("output", [7])}
        cells = {"ff": ("$_DFF_P_", {"C": 2, "D": 7, "Q": 6}), "n": ("$_NOT_", {"A": 6, "Y": 7})}
        self.assertEqual(decode(convert(netlist(ports, cells, nets), "").record).registers[0].name, b"state[1]")
        self.assertEqual(decode(convert(netlist(ports, cells), "").record).registers[0].name, b"ff")

    def test_long_names(self):
        long = "u_core.u_fifo.a_name_that_is_too_long[3]"
        self.assertEqual(len(fitted(long)), 32)
        self.assertEqual(fitted(long), fitted(long))
        self.assertTrue(fitted(long).endswith(b"_name_that_is_too_long[3]"[-23:]))
        self.assertNotEqual(fitted(long), fitted("x" + long))
        cells = {"ff": ("$_SDFF_PP0_", {"C": 2, "D": 3, "R": 3, "Q": 6})}
        converted = convert(netlist({"clk": ("input", [2]), "d": ("input", [3])}, cells, {long: {"bits": [6]}}), "")
        self.assertEqual(decode(converted.record).registers[0].name, fitted(long))
        self.assertIn("1 register name too long for a record", converted.notes[0])
        with self.assertRaisesRegex(Unconvertible, "^port .*: a record's name has 1 to 32 bytes"):
            convert(netlist({long: ("input", [2])}, {}), "")


class Faults(Case):
    """What cannot be converted, said with its name."""

    def refuse(self, text: str, words: str, top: Any = None) -> None:
        """The words of a refusal."""
        with self.assertRaisesRegex(Unconvertible, words):
            convert(text, "file", top)

    def test_cells(self):
        ports = {"a": ("input", [2]), "y": ("output", [3])}
        self.refuse(netlist(ports, {"add": ("$add", {"A": 2, "Y": 3})}), r"^cell add: its type \$add is no gate; run `techmap`")
        self.refuse(netlist(ports, {"u1": ("top", {"A": 2, "Y": 3})}), "^cell u1: it is an instance of the module top; run `flatten`")
        self.assertTrue(convert(netlist({"a": ("input", [2])}, {"s": ("$scopeinfo", {})}), "").record)

    def test_constants_and_undriven_nets(self):
        unknown = netlist({"y": ("output", [3])}, {"n": ("$_NOT_", {"A": "x", "Y": 3})})
        self.refuse(unknown, "^cell n reads a constant x; --x 0 or --x 1 takes that bit for it$")
        for bit in "01":
            self.assertEqual(run(decode(convert(unknown, "", None, bit).record), [{}])[0].outputs, {b"y": 1 - int(bit)})
        self.refuse(netlist({"y": ("output", [3])}, {}), "^output y reads net y, which nothing drives")
        self.refuse(netlist({"y": ("output", ["z"])}, {}), "^output y reads a constant z$")
        constants = decode(convert(netlist({"y": ("output", ["0", "1", "1"])}, {}), "").record)
        self.assertEqual(list(run(constants, [{}])[0].outputs.values()), [0, 1, 1])
        self.assertEqual(len(constants.nodes), 5)

    def test_drivers_and_loops(self):
        ports = {"a": ("input", [2]), "y": ("output", [3])}
        self.refuse(netlist(ports, {"m": ("$_NOT_", {"A": 2, "Y": 3}), "n": ("$_NOT_", {"A": 2, "Y": 3})}), "net y has two drivers: cell m and cell n")
        self.refuse(netlist(ports, {"m": ("$_NOT_", {"A": 3, "Y": 4}), "n": ("$_NOT_", {"A": 4, "Y": 3})}), "the cells n, m form a loop")
        self.refuse(netlist({"b": ("inout", [2])}, {}), "port b is an inout port")

    def test_limits(self):
        many = {f"n{number}": ("$_NOT_", {"A": number, "Y": number + 1}) for number in range(2, 1_100)}
        self.refuse(netlist({"a": ("input", [2]), "y": ("output", [1_100])}, many), "too large for a record: 1,100 nodes of at most 1,024")
        self.refuse(netlist({"a": ("input", list(range(2, 67)))}, {}), "65 inputs of at most 64")
        states = {f"r{number}": ("$_DFF_P_", {"C": 2, "D": 2, "Q": number}) for number in range(3, 132)}
        self.refuse(netlist({"clk": ("input", [2])}, states), "129 registers of at most 128")

    def test_modules(self):
        two = {"modules": {"a": {"ports": {}, "cells": {}}, "b": {"ports": {}, "cells": {}, "attributes": {"top": "0" * 31 + "1"}}}}
        self.assertEqual(decode(convert(json.dumps(two), "").record).name, b"b")
        self.assertEqual(decode(convert(json.dumps(two), "", "a").record).name, b"a")
        with self.assertRaisesRegex(Unreadable, "file has no module c; it has a, b"):
            convert(json.dumps(two), "file", "c")
        del two["modules"]["b"]["attributes"]
        with self.assertRaisesRegex(Unreadable, "none is marked as top: name one with --top"):
            convert(json.dumps(two), "file")

    def test_a_clock_that_is_read(self):
        ports = {"clk": ("input", [2]), "en": ("input", [3]), "d": ("input", [4]), "r": ("input", [5]), "q": ("output", [6]), "sclk": ("output", [7])}
        register = {"ff": ("$_SDFF_PP0_", {"C": 2, "D": 4, "R": 5, "Q": 6})}
        gated = netlist(ports, {**register, "gate": ("$_AND_", {"A": 2, "B": 3, "Y": 7})})
        straight = netlist({**ports, "sclk": ("output", [2])}, register)
        sampled = netlist({**ports, "sclk": ("output", [3])}, {"ff": ("$_SDFF_PP0_", {"C": 2, "D": 2, "R": 5, "Q": 6})})
        for text, reader in ((gated, r"node \d \(And\), on the way to output sclk,"), (straight, r"node \d \(Output sclk\)"), (sampled, "the data of register q")):
            ended = inside("convert", self.file("n.json", text), self.path("read"))
            self.assertEqual(ended.status, 4)
            self.assertRegex(ended.out, rf"^Refused: .*n\.json: {reader} reads the clock clk \(Input, node 0\) of register q; .* \(30 ClockRead, node 0\)\n$")
            self.assertFalse(Path(self.path("read")).exists())
        shown = netlist({**ports, "sclk": ("output", [3])}, register)
        self.assertEqual(inside("convert", self.file("n.json", shown), self.path("read")).status, 0)

    def test_the_command(self):
        source, out = self.file("n.json", flop("$_SDFF_PP0_")), self.path("out")
        ended = inside("convert", source, out)
        self.assertEqual((ended.status, ended.out), (0, f"accepted: {out}: design top, 4 inputs, 1 output, 6 nodes, 1 register\n"))
        self.assertEqual(inside("read", out).status, 0)
        self.assertEqual(inside("convert", source, self.path("none/out")).status, 74)
        refused = inside("convert", self.file("l.json", flop("$_DLATCH_P_")), self.path("latch"))
        self.assertEqual(refused.status, 4)
        self.assertRegex(refused.out, r"^Refused: .*l\.json: cell ff: a record cannot hold its type")
        gated = inside("convert", self.file("g.json", flop("$_DFF_P_", C="1")), self.path("gated"))
        self.assertEqual(gated.status, 4)
        self.assertIn("the clock of register y is node", gated.out)
        self.assertFalse(Path(self.path("latch")).exists() or Path(self.path("gated")).exists())
        self.assertEqual(json.loads(inside("convert", source, out, "--json").out)["registers"], 1)
        self.assertEqual(inside("convert", source, out, "--top", "other").status, 66)


if __name__ == "__main__":
    unittest.main()
