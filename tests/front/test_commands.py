"""Every command: what it writes, and that a verdict cannot be mistaken."""
from __future__ import annotations

import os
import re
import unittest

from support import EXAMPLES, INVERTER, ROOT, WIRE, Case, inside, program
import designs
from struo.record import Design, Kind, Node

VERDICTS = ("Equivalent", "NOT EQUIVALENT", "Inconclusive", "GaveUp")


class Check(Case):
    """`check`."""

    def check(self, gold: Design, gate: Design, *words: str):
        """A check of two designs."""
        return inside("check", self.file("gold", gold), self.file("gate", gate), *words)

    def test_equivalent(self):
        ended = self.check(designs.toggle("q"), designs.toggle("p"), "--depth", "3")
        self.assertEqual(ended.out, "Equivalent: the outputs agree in every cycle of every input sequence (proved at depth 1 of 3)\n")
        self.assertEqual((ended.status, ended.err), (0, "learned 1 of 262,144 literals, most in query 3 of depth 1\n"))

    def test_a_difference_is_told_with_names(self):
        ended = self.check(designs.row("p", "q"), designs.holding(), "--depth", "2")
        self.assertEqual(ended.out, "NOT EQUIVALENT: in cycle 2 output y differs, and that is the earliest cycle that any input sequence can show "
                                    "(found at depth 2 of 2)\n")
        self.assertEqual(ended.status, 1)
        self.assertEqual(len(re.findall(r"(?m)^cycle \d: clk=[01] e=[01] rst=[01]$", ended.err)), 3)
        self.assertIn("cycle 2: output y is 1 in gold and 0 in gate\n", ended.err)

    def test_inconclusive_is_no_pass(self):
        ended = self.check(designs.row("p", "h"), designs.holding(), "--depth", "1")
        self.assertEqual(ended.out, "Inconclusive: no pass: neither a difference nor a proof up to depth 1; "
                                    "1 of gold's 2 and gate's 1 registers is named alike\n")
        self.assertEqual(ended.status, 2)
        self.assertIn("- a larger depth: up to --depth 64 fits this pair\n", ended.err)
        self.assertIn("- splitting", ended.err)
        self.assertNotIn("names kept", ended.err)
        renamed = self.check(designs.row("p", "q"), designs.holding(), "--depth", "1")
        self.assertIn("- register names kept by the tools", renamed.err)

    def test_gave_up_is_no_pass(self):
        ended = self.check(designs.multiplied(7, False, False), designs.multiplied(7, True, True), "--depth", "4")
        self.assertEqual(ended.out, "GaveUp: no pass: query 2 at depth 1 reached the limit of 262,144 learned literals; the outputs are proved equal in "
                                    "cycles 0 to 1, and nothing is proved of later ones; 3 of gold's 3 and gate's 3 registers are named alike\n")
        self.assertEqual(ended.status, 3)
        self.assertIn("This is no pass", ended.err)
        self.assertIn("- --hunt", ended.err)

    def test_the_default_depth(self):
        self.assertIn("depth 1 of 8", inside("check", WIRE, WIRE).out)

    def test_depths_of_any_size(self):
        for depth in ("65", "18446744073709551616", "9" * 5000):
            ended = inside("check", WIRE, WIRE, "--depth", depth)
            self.assertEqual(ended.status, 4)
            self.assertTrue(ended.out.startswith("Refused: the depth is "), ended.out)
            self.assertTrue(ended.out.endswith("and the largest is 64 (17 DepthLimit)\n"), ended.out)

    def test_a_search_for_a_verdict_finds_no_other(self):
        for status, word in enumerate(VERDICTS):
            self.assertEqual([other for other in VERDICTS if word in other], [word])

    def test_names_and_files_are_no_verdict(self):
        name = b"Equivalent"
        gold = Design(name, [Node(Kind.INPUT, b"a"), Node(Kind.OUTPUT, name, inputs=(0,))])
        gate = Design(name, [Node(Kind.INPUT, b"a"), Node(Kind.NOT, inputs=(0,)), Node(Kind.OUTPUT, name, inputs=(1,))])
        files = self.file("Equivalent", gold), self.file("NOT EQUIVALENT", gate)
        for words in ([], ["--json"]):
            ended = inside("check", *files, *words)
            self.assertEqual(ended.status, 1)
            self.assertIn("NOT EQUIVALENT", ended.out)
            self.assertEqual(len(re.findall("equivalent", ended.out, re.IGNORECASE)), 1)
        bare = designs.toggle("NOT_EQUIVALENT", reset=None)
        refused = inside("check", self.file("Equivalent", bare), self.file("Equivalent2", bare))
        self.assertEqual(refused.status, 4)
        self.assertNotRegex(refused.out, "(?i)equivalent")

    def test_an_answer_is_one_line(self):
        for pair in ((WIRE, WIRE), (WIRE, INVERTER), (WIRE, str(ROOT / "struo"))):
            for words in ([], ["--json"]):
                self.assertEqual(inside("check", *pair, *words).out.count("\n"), 1)


class Read(Case):
    """`read`."""

    def test_accepted(self):
        ended = inside("read", WIRE)
        self.assertEqual(ended.out, f"accepted: {WIRE}: design g, 1 input, 1 output, 2 nodes, 0 registers\n")
        self.assertEqual(ended.status, 0)

    def test_many_records_and_the_gravest_status(self):
        bad = self.file("bad", b"\x09\0\0\0\x05")
        ended = inside("read", bad, WIRE)
        self.assertEqual(ended.status, 4)
        self.assertEqual([line.split(":")[0] for line in ended.out.splitlines()], ["Refused", "accepted"])
        missing = inside("read", self.path("none"), bad, WIRE)
        self.assertEqual(missing.status, 66)
        self.assertEqual(len(missing.out.splitlines()), 2)
        self.assertIn("none cannot be read: No such file", missing.err)

    def test_a_file_longer_than_a_record(self):
        ended = inside("read", "/dev/zero")
        self.assertEqual(ended.status, 4)
        self.assertIn("the record has over 65,535 bytes (1 Length)", ended.out)


class Show(Case):
    """`show`."""

    def test_every_part_of_a_design(self):
        ended = inside("show", self.file("r", designs.row("p", "q")))
        self.assertEqual(ended.status, 0)
        self.assertEqual(ended.out, (
            "design g\n"
            "3 inputs, 1 output, 6 of 1,024 nodes, 2 of 128 registers\n"
            "of refusal 23's sum it takes 3×6 + 10×2 = 38 a cycle as one side of a pair; "
            "against a gate of its own size a cycle takes 84, and the largest depth that fits is 64\n"
            "inputs: clk e rst\noutputs: y\nnodes:\n"
            "  0: Input clk\n  1: Input rst\n  2: Input e\n  3: RegisterOutput of p\n  4: RegisterOutput of q\n  5: Output y = q.q\n"
            "registers:\n"
            "  0: p (node 3): data e, clock clk rising, synchronous reset rst active high to 0\n"
            "  1: q (node 4): data p.q, clock clk rising, synchronous reset rst active high to 0\n"))

    def test_a_refused_record_is_not_shown(self):
        ended = inside("show", self.file("bad", b""))
        self.assertEqual(ended.status, 4)
        self.assertTrue(ended.out.startswith("Refused: "))

    def test_all_kinds_are_shown(self):
        builder = designs.Builder("a", "b", "c")
        for kind in (Kind.AND, Kind.OR, Kind.XOR):
            builder.node(kind, 0, 1)
        builder.output("y", builder.node(Kind.MUX, 0, 1, builder.node(Kind.CONSTANT, value=1)))
        text = inside("show", self.file("r", builder.design)).out
        for part in ("And a & b", "Or a | b", "Xor a ^ b", "Mux a ? b : 1", "Constant 1", "Output y = n7"):
            self.assertIn(part, text)


class Others(Case):
    """`version`, help, and the package as a module."""

    def test_version(self):
        ended = inside("version")
        self.assertRegex(ended.out, r"^struo 0\.1\.0, record version 1, library .*\.so with SHA-256 [0-9a-f]{64}\n$")

    def test_help_is_an_answer(self):
        for words in (["--help"], ["check", "--help"]):
            ended = program(*words)
            self.assertEqual(ended.status, 0)
            self.assertIn("Exit status: 0 Equivalent", " ".join(ended.out.split()))

    def test_the_examples_of_the_readme(self):
        pairs = {name.rsplit("_", 1)[0] for name in os.listdir(EXAMPLES) if name.endswith(("_gold.struo", "_gate.struo"))}
        self.assertTrue(pairs)
        for pair in pairs:
            ended = inside("check", str(EXAMPLES / f"{pair}_gold.struo"), str(EXAMPLES / f"{pair}_gate.struo"), "--depth", "8")
            self.assertEqual(ended.out, "Equivalent: the outputs agree in every cycle of every input sequence (proved at depth 1 of 8)\n")
        self.assertEqual(inside("check", WIRE, INVERTER, "--depth", "8").status, 1)

    def test_the_outputs_of_the_readme(self):
        text = (ROOT / "README.md").read_text()
        buffers = ("command_buffer_gold", "command_buffer_gate")
        for pair, words in ((buffers, []), (("wire", "inverter"), []), (buffers, ["--limit", "100"]),
                            (("wire", "grounded"), []), (("wire", "grounded"), ["--earliest"])):
            ended = inside("check", *(str(EXAMPLES / f"{name}.struo") for name in pair), "--depth", "8", *words)
            block = "".join(f"    {line}\n" for line in (ended.out + ended.err).splitlines())
            self.assertIn(f"\n\n{block}\n", text)


if __name__ == "__main__":
    unittest.main()
