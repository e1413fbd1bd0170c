"""The JSON's fields, and the line for the release sheet."""
from __future__ import annotations

import hashlib
import json
import re
import unittest
from pathlib import Path

from support import INVERTER, WIRE, Case, inside
import designs
from struo.version import VERSION


def digest(path: str) -> str:
    """The SHA-256 of a file."""
    return hashlib.sha256(Path(path).read_bytes()).hexdigest()


FIELDS = {"command", "verdict", "exit_status", "words", "refusal", "asked_depth", "limit", "earliest", "depth", "mismatch", "query", "learned",
          "learned_depth", "learned_query", "equal", "through", "gold", "gate", "found_by", "first_status", "hunt", "trace", "named_alike", "versions"}


class Json(Case):
    """One line of JSON for each answer."""

    def told(self, *words: str):
        """What a command tells, as a value."""
        ended = inside(*words, "--json")
        self.assertEqual(ended.out.count("\n"), 1)
        return ended.status, json.loads(ended.out)

    def test_equivalent(self):
        status, told = self.told("check", WIRE, WIRE, "--depth", "5")
        self.assertEqual(set(told), FIELDS)
        self.assertEqual((status, told["verdict"], told["exit_status"]), (0, "Equivalent", 0))
        self.assertEqual((told["asked_depth"], told["depth"], told["mismatch"], told["trace"], told["refusal"]), (5, 1, None, None, None))
        side = {"file": WIRE, "sha256": digest(WIRE), "bytes": 19, "design": "g", "inputs": 1, "outputs": 1, "nodes": 2, "registers": 0}
        self.assertEqual((told["gold"], told["gate"]), (side, side))
        self.assertEqual(told["versions"]["struo"], VERSION)
        self.assertEqual(told["versions"]["record"], 1)
        self.assertEqual(told["versions"]["library_sha256"], digest(told["versions"]["library"]))

    def test_not_equivalent(self):
        status, told = self.told("check", WIRE, INVERTER)
        self.assertEqual((status, told["verdict"], told["mismatch"], told["found_by"]), (1, "NOT EQUIVALENT", 0, "check"))
        self.assertEqual(told["trace"], {"inputs": ["a"], "cycles": [[0]], "differing": ["y"], "gold": [0], "gate": [1]})

    def test_no_verdict(self):
        gold, gate = self.file("gold", designs.row("p", "q")), self.file("gate", designs.holding())
        status, told = self.told("check", gold, gate, "--depth", "1")
        self.assertEqual((status, told["verdict"], told["named_alike"], told["depth"]), (2, "Inconclusive", 0, 1))
        hard = self.file("gold", designs.multiplied(7, False, False)), self.file("gate", designs.multiplied(7, True, True))
        status, told = self.told("check", *hard)
        self.assertEqual((status, told["verdict"], told["query"], told["depth"], told["named_alike"]), (3, "GaveUp", 2, 1, 3))

    def test_refused(self):
        bad = self.file("bad", b"")
        status, told = self.told("check", WIRE, bad)
        self.assertEqual((status, told["verdict"], told["exit_status"]), (4, None, 4))
        self.assertEqual(told["refusal"], {"number": 1, "name": "Length", "side": "gate", "place": 0,
                                           "words": "gate: the record has 0 bytes, and the shortest has 5"})
        self.assertEqual(told["gate"], {"file": bad, "sha256": digest(bad), "bytes": 0})
        self.assertEqual(self.told("read", "/dev/zero")[1]["sha256"], None)

    def test_other_commands(self):
        status, told = self.told("read", WIRE)
        self.assertEqual((status, told["accepted"], told["sha256"]), (0, True, digest(WIRE)))
        claim = self.file("claim", "cycle 0\n0\n1\n")
        status, told = self.told("replay", WIRE, INVERTER, "--claim", claim)
        self.assertEqual((status, told["yes"], told["marked"], told["cycle"]), (0, True, ["y"], 0))
        status, told = self.told("show", self.file("r", designs.toggle()))
        self.assertEqual(told["registers"][0], {"name": "q", "output": 2, "data": 4, "clock": 0, "edge": "rising", "enable": None,
                                                "reset": {"signal": 1, "active_low": False, "asynchronous": False, "value": 0}})
        self.assertEqual(told["nodes"][3], {"kind": "Output", "name": "y", "value": None, "inputs": [2]})
        self.assertEqual(set(self.told("version")[1]), {"struo", "record", "library", "library_sha256"})

    def test_foreign_text_reads_back(self):
        odd = self.file('Equivalent "NOT EQUIVALENT"\\equivalent \u00e9', designs.wire())
        ended = inside("check", odd, odd, "--json")
        self.assertEqual(len(re.findall("(?i)equivalent", ended.out)), 1)
        self.assertEqual(json.loads(ended.out)["gold"]["file"], odd)


class Sheet(Case):
    """The line for the release sheet."""

    def test_a_line_at_the_end_for_each_check(self):
        sheet = self.file("sheet", "first\n")
        for gate in (WIRE, INVERTER, self.file("bad", b"")):
            inside("check", WIRE, gate, "--depth", "4", "--sheet", sheet)
        lines = Path(sheet).read_text().splitlines()
        self.assertEqual(lines[0], "first")
        columns = [line.split("\t") for line in lines[1:]]
        self.assertEqual([row[1] for row in columns], ["Equivalent", "NOT EQUIVALENT", "Refused"])
        for row in columns:
            self.assertRegex(row[0], r"^\d{4}-\d\d-\d\dT\d\d:\d\d:\d\dZ$")
            self.assertIn("asked depth 4", row)
            self.assertIn(f"gold SHA-256 {digest(WIRE)}", row)
            self.assertIn(f"struo {VERSION}", row)
            self.assertEqual(len(row), 16)
            self.assertRegex(row[11], r"^library SHA-256 [0-9a-f]{64}$")
            self.assertTrue(row[12].startswith("learned nothing"))
            self.assertEqual(row[13], "limit 262,144")
            self.assertEqual(row[15], "earliest cycle not asked for")
        self.assertEqual([row[14] for row in columns], ["no query gave up", "no query gave up", "no query was asked"])
        self.assertIn("in cycle 0 output y differs", columns[1][2])
        self.assertIn("1 Length", columns[2][2])

    def test_a_file_name_makes_no_second_line_or_verdict(self):
        odd = self.file("a\nb\tNOT EQUIVALENT", designs.wire())
        sheet = self.path("sheet")
        inside("check", odd, WIRE, "--sheet", sheet)
        text = Path(sheet).read_text()
        self.assertEqual(text.count("\n"), 1)
        self.assertEqual(len(re.findall("(?i)equivalent", text)), 1)


if __name__ == "__main__":
    unittest.main()
