"""The hunt for a difference where a verdict is missing."""
from __future__ import annotations

import json
import unittest
from pathlib import Path

from support import Case, inside
import designs
from struo import open_library
from struo.answers import Status
from struo.hunt import hunt, renamed
from struo.record import Design, encode


class Hunts(Case):
    """`check --hunt`."""

    def hard(self, late: bool):
        """A pair whose query 2 gives up, with or without a difference in cycle 2."""
        return self.file("gold", designs.multiplied(7, False, False)), self.file("gate", designs.multiplied(7, True, late))

    def test_a_difference_behind_a_give_up(self):
        pair, claim = self.hard(True), self.path("claim")
        ended = inside("check", *pair, "--depth", "4", "--hunt", "--claim", claim)
        self.assertEqual(ended.out, "NOT EQUIVALENT: in cycle 2 output y differs, and that is the earliest cycle that any input sequence can show (found by a "
                                    "hunt after GaveUp at depth 1, and confirmed by a replay of the two records as they are)\n")
        self.assertEqual(ended.status, 1)
        self.assertEqual(inside("replay", *pair, "--claim", claim).status, 0)
        told = json.loads(inside("check", *pair, "--depth", "4", "--hunt", "--json").out)
        self.assertEqual((told["verdict"], told["found_by"], told["first_status"], told["mismatch"]), ("NOT EQUIVALENT", "hunt", 3, 2))
        self.assertEqual(told["hunt"], {"asked_depth": 4, "status": "NOT EQUIVALENT", "depth": 2, "query": 0, "learned": 0, "learned_depth": 1,
                                        "learned_query": 1, "equal": None, "through": None, "confirmed_by_replay": True})
        self.assertEqual((told["learned"], told["learned_depth"], told["learned_query"]), (262_144, 1, 2))
        self.assertEqual((told["equal"], told["through"]), (True, 1))

    def test_the_hunt_keeps_to_the_asked_depth_after_a_give_up(self):
        ended = inside("check", *self.hard(True), "--depth", "1", "--hunt")
        self.assertEqual(ended.status, 3)
        self.assertIn("The hunt to depth 1 with gate's registers renamed found no difference", ended.err)

    def test_the_hunt_keeps_to_the_asked_limit(self):
        pair = self.file("gold", designs.late_exclusive_or(False)), self.file("gate", designs.late_exclusive_or(True))
        for limit, status, through in ((4, "GaveUp", 1), (5, "Equivalent", None)):
            told = json.loads(inside("check", *pair, "--depth", "1", "--limit", str(limit), "--hunt", "--json").out)
            self.assertEqual((told["verdict"], told["hunt"]["status"], told["hunt"]["through"]), ("Inconclusive", status, through))
        self.assertIn("- a larger limit, up to --limit 262144", inside("check", *pair, "--depth", "1", "--limit", "4", "--hunt").err)
        self.assertNotIn("- a larger limit", inside("check", *pair, "--depth", "1", "--limit", "5", "--hunt").err)

    def test_a_proof_for_the_renamed_record_is_no_verdict(self):
        ended = inside("check", *self.hard(False), "--depth", "3", "--hunt")
        self.assertEqual(ended.status, 3)
        self.assertTrue(ended.out.startswith("GaveUp: no pass"))
        self.assertIn("That is an answer for the renamed record, not for this one.", ended.err)

    def test_inconclusive_hunts_as_deep_as_fits(self):
        pair = self.file("gold", designs.row("p", "q")), self.file("gate", designs.holding())
        ended = inside("check", *pair, "--depth", "1", "--hunt")
        self.assertEqual(ended.status, 1)
        self.assertIn("in cycle 2 output y differs, and that is the earliest cycle that any input sequence can show (found by a hunt after Inconclusive at depth 1",
                      ended.out)

    def test_what_is_proved_of_the_renamed_record_is_told_so(self):
        pair = self.file("gold", designs.row("p", "q", "r")), self.file("gate", designs.holding())
        for words in ([], ["--earliest"]):
            ended = inside("check", *pair, "--depth", "1", "--hunt", *words)
            self.assertEqual(ended.out, "NOT EQUIVALENT: in cycle 3 output y differs (found by a hunt after Inconclusive at depth 1, and confirmed by a replay of "
                                        "the two records as they are; that no input sequence shows an earlier cycle is proved with gate's registers renamed)\n")
        self.assertIn("in cycle 3 output y differs, and that is the earliest cycle", inside("check", *pair, "--depth", "2", "--hunt").out)

    def test_a_verdict_is_not_hunted(self):
        answer = open_library().check(encode(designs.wire()), encode(designs.wire()), 1)
        self.assertIsNone(hunt(open_library(), encode(designs.wire()), encode(designs.wire()), answer, 1))

    def test_no_register_is_named_alike(self):
        gold = designs.toggle("!!0")
        for name in ("!!0", "h0", "q"):
            gate = renamed(gold, designs.toggle(name))
            self.assertTrue({one.name for one in gate.registers}.isdisjoint({one.name for one in gold.registers}))
            self.assertTrue(open_library().read(encode(gate)).accepted)
        many = Design(b"g", [], [designs.toggle(f"!{chr(33 + place % 94)}").registers[0] for place in range(128)])
        self.assertTrue({one.name for one in renamed(many, many).registers}.isdisjoint({one.name for one in many.registers}))

    def test_what_is_not_confirmed_is_no_verdict(self):
        pair = [Path(path).read_bytes() for path in self.hard(True)]
        library = open_library()
        answer = library.check(*pair, 4)
        self.assertEqual(answer.status, Status.GAVE_UP)
        class Denies:
            """A library whose replay never says yes."""
            check = staticmethod(library.check)
            @staticmethod
            def replay(*words):
                return type("Answer", (), {"yes": False})
        self.assertFalse(hunt(Denies(), *pair, answer, 4).confirmed)


if __name__ == "__main__":
    unittest.main()
