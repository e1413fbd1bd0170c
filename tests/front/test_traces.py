"""Claim files, replays and waveforms."""
from __future__ import annotations

import random
import unittest
from pathlib import Path
from typing import Dict, List

from support import INVERTER, WIRE, Case, inside
import designs
from struo import open_library
from struo.answers import Status
from struo.record import Design, Enable, Kind, Node, Register, Reset, decode, encode
from struo.trace import Claim, claim_text, parse_claim, replayed


def read_vcd(text: str) -> Dict[str, List[int]]:
    """The values of each variable of a waveform by its path, one for each time step but the last."""
    scope, codes, values, rows = [], {}, {}, []
    head, body = text.split("$enddefinitions $end\n")
    for words in (line.split() for line in head.splitlines()):
        if words[0] == "$scope":
            scope.append(words[2])
        elif words[0] == "$upscope":
            scope.pop()
        elif words[0] == "$var":
            codes.setdefault(words[3], []).append(".".join(scope + [words[4]]))
    for line in body.splitlines():
        if line.startswith("#"):
            rows.append(dict(values))
        elif line.startswith("b"):
            bits, code = line[1:].split()
            values[code] = int(bits, 2)
        else:
            values[line[1:]] = int(line[0])
    return {path: [row[code] for row in rows[1:]] for code, paths in codes.items() for path in paths}


class Claims(Case):
    """Claims as files, written and replayed."""

    def test_a_written_claim_is_replayed(self):
        gold, gate, claim = self.file("gold", designs.row("p", "q")), self.file("gate", designs.holding()), self.path("claim")
        self.assertEqual(inside("check", gold, gate, "--depth", "3", "--claim", claim).status, 1)
        self.assertRegex(Path(claim).read_text(), r"(?s)^# .*\n#   clk e rst\n# .*\n#   y\ncycle 2\n[01] 1 0\n[01] [01] 0\n[01] [01] [01]\n1\n$")
        ended = inside("replay", gold, gate, "--claim", claim)
        self.assertEqual((ended.status, ended.out), (0, "yes: in cycle 2 output y differs, and none before\n"))

    def test_no_says_why(self):
        claim = self.file("claim", "cycle 0\n0\n0\n")
        self.assertEqual(inside("replay", WIRE, INVERTER, "--claim", claim).out, "no: in cycle 0 output y differs, and none is marked\n")
        claim = self.file("claim", "cycle 0 0 1 # a comment\n")
        self.assertEqual(inside("replay", WIRE, WIRE, "--claim", claim).out, "no: in cycle 0 no output differs, and y is marked\n")
        claim = self.file("claim", "cycle 1\n0 0 1")
        self.assertEqual(inside("replay", WIRE, INVERTER, "--claim", claim).out, "no: in cycle 0, before the claimed cycle 1, output y differs\n")

    def test_refused_claims(self):
        for text, words in (("cycle 70", "the claimed cycle is 70"), ("cycle 99999999999999999999999", "the claimed cycle is 18446744073709551615"),
                            ("cycle 0\n0", "the claim has 1 byte"), ("cycle 0\n7 0", "byte 0 of the claim is 7")):
            ended = inside("replay", WIRE, WIRE, "--claim", self.file("claim", text))
            self.assertEqual(ended.status, 4)
            self.assertTrue(ended.out.startswith(f"Refused: {words}"), ended.out)
            self.assertTrue(ended.out.endswith("(25 Claim)\n"))

    def test_no_claim_where_there_is_no_difference(self):
        inside("check", WIRE, WIRE, "--claim", self.path("claim"), "--vcd", self.path("wave"))
        self.assertFalse(Path(self.path("claim")).exists() or Path(self.path("wave")).exists())

    def test_claims_read_back(self):
        for design, claim in ((designs.row("p"), Claim(1, bytes([0, 1, 1, 0, 0, 1, 1]))), (Design(b"g"), Claim(3, b""))):
            self.assertEqual(parse_claim(claim_text(design, claim), "a file"), claim)


class Waveforms(Case):
    """Waveforms, read back."""

    def test_every_cycle_of_both_sides(self):
        gold, gate, wave = self.file("gold", designs.row("p", "q")), self.file("gate", designs.holding()), self.path("wave.vcd")
        inside("check", gold, gate, "--depth", "3", "--vcd", wave, "--claim", self.path("claim"))
        rows = read_vcd(Path(wave).read_text())
        names = {f"struo.{side}.{part}" for side in ("gold", "gate") for part in ("inputs.clk", "inputs.rst", "inputs.e", "outputs.y")}
        self.assertEqual(set(rows), names | {"struo.cycle", "struo.differs", "struo.gold.registers.p", "struo.gold.registers.q", "struo.gate.registers.h"})
        self.assertEqual(rows["struo.cycle"], [0, 1, 2])
        self.assertEqual(rows["struo.differs"], [0, 0, 1])
        self.assertEqual((rows["struo.gold.outputs.y"], rows["struo.gate.outputs.y"]), ([0, 0, 1], [0, 0, 0]))
        self.assertEqual(rows["struo.gold.registers.q"], [0, 0, 1])
        self.assertEqual(rows["struo.gold.registers.p"][1], 1)
        claim = parse_claim(Path(self.path("claim")).read_text(), "")
        self.assertEqual(rows["struo.gold.inputs.e"], [claim.data[3 * cycle + 1] for cycle in range(3)])
        again = self.path("again.vcd")
        inside("replay", gold, gate, "--claim", self.path("claim"), "--vcd", again)
        self.assertEqual(Path(again).read_text(), Path(wave).read_text())

    def test_a_claim_that_is_not_so_is_shown_too(self):
        inside("replay", WIRE, WIRE, "--claim", self.file("claim", "cycle 1 0 1 1"), "--vcd", self.path("wave"))
        rows = read_vcd(Path(self.path("wave")).read_text())
        self.assertEqual((rows["struo.differs"], rows["struo.gold.inputs.a"]), ([0, 0], [0, 1]))

    def test_names_that_could_end_a_declaration(self):
        builder = designs.Builder("$end", "rst")
        builder.output("y[0]", 0)
        record = self.file("r", builder.design)
        inside("replay", record, record, "--claim", self.file("claim", "cycle 0 1 0 0"), "--vcd", self.path("wave"))
        rows = read_vcd(Path(self.path("wave")).read_text())
        self.assertEqual((rows["struo.gold.inputs.\\$end"], rows["struo.gate.outputs.y[0]"]), ([1], [1]))


class OwnRun(unittest.TestCase):
    """The front end's own run beside the library's replay: `replayed` raises where they disagree."""

    def test_random_pairs_and_claims(self):
        dice, library, yes = random.Random(18), open_library(), 0
        for _ in range(300):
            gold, gate = (encode(designs.random_design(dice)) for _ in range(2))
            cycle = dice.randrange(4)
            claim = Claim(cycle, bytes(dice.randrange(2) for _ in range((cycle + 1) * 4 + 2)))
            replayed(library, gold, gate, claim)
            answer = library.check(gold, gate, 3)
            if answer.status is Status.NOT_EQUIVALENT:
                found = replayed(library, gold, gate, Claim(answer.mismatch, answer.trace))
                self.assertTrue(found.yes)
                yes += 1
        self.assertGreater(yes, 100)


class Records(unittest.TestCase):
    """The front end's decoding and encoding."""

    def test_random_designs_read_back(self):
        dice, library = random.Random(1), open_library()
        for _ in range(200):
            design = designs.random_design(dice)
            self.assertEqual(decode(encode(design)), design)
            self.assertTrue(library.read(encode(design)).accepted)

    def test_the_wire(self):
        self.assertEqual(Path(WIRE).read_bytes(), bytes.fromhex("0100000013016700020001611101790000" + "0000"))
        self.assertEqual(decode(Path(WIRE).read_bytes()), Design(b"g", [Node(Kind.INPUT, b"a"), Node(Kind.OUTPUT, b"y", inputs=(0,))], []))

    def test_registers_are_held_whole(self):
        register = Register(b"r", 1, 2, 3, True, Enable(4, True), Reset(5, True, True, 1))
        self.assertEqual(decode(encode(Design(b"g", [], [register]))).registers, [register])


if __name__ == "__main__":
    unittest.main()
