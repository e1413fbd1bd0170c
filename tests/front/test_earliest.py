"""The mode of the earliest cycle: the library's answers beside those without it, every input sequence run, and what the command tells of it."""
from __future__ import annotations

import itertools
import json
import random
import unittest
from pathlib import Path

from support import EXAMPLES, INVERTER, WIRE, Case, inside, program
import designs
import struo
from struo import Memory, open_library
from struo.answers import LEARNED_LIMIT, CheckAnswer, Status
from struo.files import RecordFile
from struo.hunt import hunt
from struo.options import parser
from struo.record import Design, encode
from struo.report import CheckReport
from struo.run import run

GROUNDED = str(EXAMPLES / "grounded.struo")

PAIRS = {
    "grounded": (designs.wire(), designs.grounded()),
    "inverter": (designs.wire(), designs.inverter()),
    "toggles": (designs.toggle("q"), designs.toggle("p")),
    "xors": (designs.exclusive_or(False), designs.exclusive_or(True)),
    "late": (designs.late_exclusive_or(False), designs.late_exclusive_or(True)),
    "row": (designs.row("p", "q"), designs.holding()),
}

EARLIEST = ", and that is the earliest cycle that any input sequence can show"


def check(pair: str, depth: int, limit: int = LEARNED_LIMIT, earliest: bool = True) -> CheckAnswer:
    """A check of one of the pairs."""
    gold, gate = PAIRS[pair]
    return struo.check(encode(gold), encode(gate), depth, limit, earliest)


def numbers(answer: CheckAnswer) -> tuple:
    """Status, depth, mismatch, query, what was learned, how far the outputs are proved equal, and the trace."""
    learned = answer.learned, answer.learned_depth, answer.learned_query
    return int(answer.status), answer.depth, answer.mismatch, answer.query, *learned, answer.equal, answer.through, answer.trace


def first_difference(gold: Design, gate: Design, cycles: int):
    """The earliest of so many cycles in which any input sequence makes outputs differ, or none: every sequence is run."""
    names = gold.inputs
    rows = [dict(zip(names, bits)) for bits in itertools.product((0, 1), repeat=len(names))]
    found = [cycle for inputs in itertools.product(rows, repeat=cycles)
             for cycle, (one, other) in enumerate(zip(run(gold, inputs), run(gate, inputs))) if one.outputs != other.outputs]
    return min(found, default=None)


class Answers(unittest.TestCase):
    """The library's answers in the mode and without it."""

    def test_cycle_0_alone_is_asked_first(self):
        self.assertEqual(numbers(check("grounded", 1, earliest=False)), (1, 1, 1, 0, 0, 1, 1, False, 0, b"\0\1\1"))
        self.assertEqual(numbers(check("grounded", 1)), (1, 1, 0, 0, 0, 1, 0, False, 0, b"\1\1"))
        self.assertEqual(numbers(check("grounded", 64)), numbers(check("grounded", 1)))

    def test_a_difference_that_was_in_cycle_0_already(self):
        for limit in (0, LEARNED_LIMIT):
            self.assertEqual(numbers(check("inverter", 1, limit, False)), (1, 1, 0, 0, 0, 1, 1, False, 0, b"\0\1"))
            self.assertEqual(numbers(check("inverter", 1, limit)), (1, 1, 0, 0, 0, 1, 0, False, 0, b"\0\1"))

    def test_after_a_no_all_goes_on_as_without_the_mode(self):
        self.assertEqual(numbers(check("toggles", 1, 1)), (0, 1, 0, 0, 1, 1, 3, False, 0, b""))
        self.assertEqual(numbers(check("xors", 1)), (0, 1, 0, 0, 16, 1, 1, False, 0, b""))
        self.assertEqual(numbers(check("late", 8)), (0, 2, 0, 0, 5, 2, 1, False, 0, b""))
        for limit in (0, LEARNED_LIMIT):
            trace = bytes.fromhex("00010000000000000001")
            self.assertEqual(numbers(check("row", 2, limit)), (1, 2, 2, 0, 0, 1, 0, False, 0, trace))
            self.assertEqual(numbers(check("row", 1, limit)), (2, 1, 0, 0, 0, 1, 0, False, 0, b""))
        for pair in ("toggles", "xors", "late"):
            self.assertEqual(check(pair, 8), check(pair, 8, earliest=False))

    def test_give_ups(self):
        self.assertEqual(numbers(check("toggles", 1, 0)), (3, 1, 0, 3, 0, 1, 0, True, 1, b""))
        self.assertEqual(numbers(check("xors", 1, 12)), (3, 1, 0, 1, 11, 1, 1, True, 0, b""))
        self.assertEqual(numbers(check("xors", 1, 5)), (3, 1, 0, 1, 5, 1, 0, True, 0, b""))
        self.assertEqual(numbers(check("xors", 1, 3)), (3, 1, 0, 0, 3, 1, 0, False, 0, b""))
        self.assertEqual(numbers(check("xors", 1, 0)), (3, 1, 0, 0, 0, 1, 0, False, 0, b""))
        self.assertEqual(numbers(check("late", 8, 3)), (3, 2, 0, 1, 3, 2, 1, True, 1, b""))

    def test_a_larger_limit_gets_as_far_and_keeps_a_verdict(self):
        for pair in ("toggles", "xors", "late"):
            answers = [check(pair, 4, limit) for limit in (*range(24), LEARNED_LIMIT)]
            found = [answer for answer in answers if answer.status is not Status.GAVE_UP]
            self.assertTrue(0 < len(found) < len(answers), pair)
            self.assertEqual(answers[-len(found):], [found[-1]] * len(found))
            far = [answer.through if answer.equal else -1 for answer in answers[:-len(found)]]
            self.assertEqual(far, sorted(far))

    def test_no_mode_is_the_default(self):
        for pair in PAIRS:
            gold, gate = map(encode, PAIRS[pair])
            self.assertEqual(struo.check(gold, gate, 4), check(pair, 4, earliest=False))
            self.assertEqual(open_library().check(gold, gate, 4), check(pair, 4, earliest=False))

    def test_nothing_else_is_taken_for_the_mode(self):
        wire = encode(designs.wire())
        for value in (1, None, "False", Memory(0, 0, 0)):
            with self.assertRaises(TypeError):
                open_library().check(wire, wire, 1, LEARNED_LIMIT, value)

    def test_refusals_are_those_without_it(self):
        wire, library = encode(designs.wire()), open_library()
        for gate, depth, limit, lent, number in (
                (b"", 1, LEARNED_LIMIT, (3, 8_388_608, 65_536), 1), (wire, 0, 262_145, (3, 8_388_608, 65_536), 16), (wire, 65, 262_145, (3, 8_388_608, 65_536), 17),
                (wire, 1, 262_145, (3, 8_388_608, 65_536), 36), (encode(designs.toggle()), 1, LEARNED_LIMIT, (3, 8_388_608, 65_536), 18),
                (wire, 1, LEARNED_LIMIT, (2, 8_388_608, 65_536), 24), (wire, 1, LEARNED_LIMIT, (3, 8_388_607, 65_536), 24),
                (wire, 1, LEARNED_LIMIT, (3, 8_388_608, 65_535), 24)):
            answers = [library.check(wire, gate, depth, limit, earliest, Memory(*lent)) for earliest in (False, True)]
            self.assertEqual(answers[0].refusal.number, number)
            self.assertEqual(answers[0], answers[1])
        answer = library.check(wire, encode(designs.grounded()), 1, earliest=True, memory=Memory(3))
        self.assertEqual((answer.mismatch, answer.trace), (0, b"\1\1"))


class EverySequence(unittest.TestCase):
    """Small pairs whose input sequences of two cycles are all run."""

    def test_the_mismatch_is_the_least(self):
        dice, library, met = random.Random(7), open_library(), set()
        for _ in range(60):
            gold, gate = (designs.random_design(dice) for _ in range(2))
            if dice.randrange(2):
                gate = Design(gold.name, [*gold.nodes[:-1], gate.nodes[-1]], gold.registers)
            pair = encode(gold), encode(gate)
            least = first_difference(gold, gate, 2)
            plain, found = library.check(*pair, 3), library.check(*pair, 3, earliest=True)
            self.assertEqual((plain.status, plain.depth), (found.status, found.depth))
            self.assertEqual((found.status is Status.NOT_EQUIVALENT and found.mismatch < 2), least is not None)
            if least is not None:
                self.assertEqual((found.depth, found.mismatch), (1, least))
            if found.status is Status.NOT_EQUIVALENT:
                self.assertEqual(len(found.trace), (found.mismatch + 1) * 4 + 2)
                self.assertTrue(library.replay(*pair, found.mismatch, found.trace).yes)
            if least != 0:
                self.assertEqual((plain.mismatch, plain.trace), (found.mismatch, found.trace))
            met.add((least, plain.mismatch if plain.status is Status.NOT_EQUIVALENT else None))
        self.assertLessEqual({(0, 0), (0, 1), (1, 1), (None, None)}, met)


def report(answer: CheckAnswer, earliest: bool = True, limit: int = LEARNED_LIMIT) -> CheckReport:
    """A report of an answer on a pair without registers, to depth 8."""
    file = RecordFile("file", encode(designs.wire()))
    return CheckReport(None, file, file, 8, limit, earliest, answer, None, None)


def gave_up(depth: int, query: int, learned: int, learned_query: int, equal: bool, through: int) -> CheckAnswer:
    """A check that gave up in a query of a depth, in which a query of depth 1 learned most."""
    return CheckAnswer(None, Status.GAVE_UP, depth, 0, query, learned, 1, learned_query, equal, through, b"")


class Words(unittest.TestCase):
    """The lines of an answer, whoever gave it."""

    def test_the_most_learned_may_be_of_query_0(self):
        answer = CheckAnswer(None, Status.EQUIVALENT, 1, 0, 0, 160_771, 1, 0, False, 0, b"")
        self.assertEqual(report(answer).learned_lines(), ["learned 160,771 of 262,144 literals, most in query 0 of depth 1"])
        near = CheckAnswer(None, Status.EQUIVALENT, 1, 0, 0, 196_608, 1, 0, False, 0, b"")
        self.assertEqual(report(near).learned_lines(), ["learned 196,608 of 262,144 literals, most in query 0 of depth 1",
                                                        "The search came near its limit: splitting the design helps."])
        nothing = CheckAnswer(None, Status.EQUIVALENT, 1, 0, 0, 0, 1, 0, False, 0, b"")
        self.assertEqual(report(nothing).learned_lines(), ["learned nothing: no query had to learn a clause"])

    def test_a_give_up_in_query_0_is_no_unused_number(self):
        told = report(gave_up(1, 0, 262_095, 0, False, 0))
        self.assertEqual(told.line(), "GaveUp: no pass: query 0 at depth 1, cycle 0 alone, reached the limit of 262,144 learned literals; nothing is proved: the "
                                      "outputs are proved equal in no cycle; 0 of gold's 0 and gate's 0 registers are named alike")
        self.assertEqual(told.learned_lines(), ["learned 262,095 of 262,144 literals, most in query 0 of depth 1",
                                                "The search came to its limit: splitting the design helps."])
        self.assertIn("- the same without --earliest, which leaves query 0 out and asks of cycles 0 and 1 together", told.advice())
        self.assertFalse([line for line in told.advice() if line.startswith("- --hunt")])

    def test_a_give_up_after_it_has_proved_cycle_0(self):
        told = report(gave_up(1, 1, 262_078, 1, True, 0))
        self.assertEqual(told.line(), "GaveUp: no pass: query 1 at depth 1 reached the limit of 262,144 learned literals; the outputs are proved equal in cycle 0, "
                                      "and nothing is proved of later ones; 0 of gold's 0 and gate's 0 registers are named alike")
        self.assertFalse([line for line in told.advice() if "--earliest" in line or line.startswith("- --hunt")])

    def test_a_hunt_is_advised_where_it_was(self):
        inconclusive = CheckAnswer(None, Status.INCONCLUSIVE, 8, 0, 0, 0, 1, 0, False, 0, b"")
        for earliest in (False, True):
            for answer in (inconclusive, gave_up(1, 2, 9, 2, True, 1), gave_up(3, 4, 9, 1, True, 3)):
                told = report(answer, earliest).advice()
                self.assertIn("- --hunt, which looks for a difference alone", told)
                self.assertFalse([line for line in told if "--earliest" in line])


class Told(Case):
    """`check --earliest`."""

    def told(self, pair: str, *words: str):
        """A check of one of the pairs by the command."""
        gold, gate = PAIRS[pair]
        return inside("check", self.file("gold", gold), self.file("gate", gate), *words)

    def test_the_word_of_the_command(self):
        self.assertFalse(parser().parse_args(["check", WIRE, WIRE]).earliest)
        self.assertTrue(parser().parse_args(["check", "--earliest", WIRE, WIRE]).earliest)
        said = " ".join(program("check", "--help").out.split())
        self.assertIn("[--earliest]", said)
        self.assertIn("the earliest cycle that any input sequence can show", said)

    def test_it_is_said_where_it_is_proved(self):
        for pair, words, line in (("grounded", [], "in cycle 1 output y differs (found at depth 1 of 8)"),
                                  ("grounded", ["--earliest"], f"in cycle 0 output y differs{EARLIEST} (found at depth 1 of 8)"),
                                  ("inverter", [], "in cycle 0 output y differs (found at depth 1 of 8)"),
                                  ("inverter", ["--earliest"], f"in cycle 0 output y differs{EARLIEST} (found at depth 1 of 8)"),
                                  ("row", [], f"in cycle 2 output y differs{EARLIEST} (found at depth 2 of 8)"),
                                  ("row", ["--earliest"], f"in cycle 2 output y differs{EARLIEST} (found at depth 2 of 8)")):
            ended = self.told(pair, *words)
            self.assertEqual((ended.status, ended.out), (1, f"NOT EQUIVALENT: {line}\n"))
        for pair, words in (("xors", []), ("row", ["--depth", "1"])):
            self.assertEqual(self.told(pair, *words, "--earliest").out, self.told(pair, *words).out)

    def test_the_trace_is_that_of_cycle_0(self):
        claim = self.path("claim")
        ended = inside("check", WIRE, GROUNDED, "--earliest", "--claim", claim, "--vcd", self.path("wave"))
        self.assertEqual(ended.err, "cycle 0: a=1\ncycle 0: output y is 1 in gold and 0 in gate\nlearned nothing: no query had to learn a clause\n")
        self.assertEqual(Path(claim).read_text().splitlines()[-3:], ["cycle 0", "1", "1"])
        self.assertEqual(inside("replay", WIRE, GROUNDED, "--claim", claim).status, 0)
        self.assertTrue(Path(self.path("wave")).stat().st_size)

    def test_a_give_up_in_query_0(self):
        ended = self.told("xors", "--earliest", "--limit", "3")
        self.assertEqual(ended.out, "GaveUp: no pass: query 0 at depth 1, cycle 0 alone, reached the limit of 3 learned literals; nothing is proved: the outputs are "
                                    "proved equal in no cycle; 0 of gold's 0 and gate's 0 registers are named alike\n")
        self.assertEqual(ended.status, 3)
        self.assertEqual(ended.err, "learned 3 of 3 literals, most in query 0 of depth 1\n"
                                    "The search came to its limit: a larger limit or splitting the design helps.\n"
                                    "This is no pass: nothing may be written on the release sheet on its strength. What can be tried:\n"
                                    "- a larger limit, up to --limit 262144: it never gets less far\n"
                                    "- the same without --earliest, which leaves query 0 out and asks of cycles 0 and 1 together\n"
                                    "- splitting: records with fewer outputs each, and only the logic that these need\n")
        first = self.told("xors", "--earliest", "--limit", "1").err
        self.assertTrue(first.startswith("learned nothing: the first clause, in query 0 of depth 1, would have passed the limit of 1 literal\n"), first)

    def test_a_give_up_after_a_no_to_query_0(self):
        ended = self.told("xors", "--earliest", "--limit", "5")
        self.assertIn("query 1 at depth 1 reached the limit of 5 learned literals; the outputs are proved equal in cycle 0, and nothing is proved of later ones;", ended.out)
        self.assertTrue(ended.err.startswith("learned 5 of 5 literals, most in query 0 of depth 1\n"), ended.err)

    def test_the_remark_near_the_limit(self):
        for limit, near in ((21, True), (22, False)):
            self.assertEqual("came near its limit" in self.told("xors", "--earliest", "--limit", str(limit)).err, near)

    def test_json(self):
        for pair, words, verdict, earliest, mismatch, query, learned, proved in (
                ("grounded", [], "NOT EQUIVALENT", False, 1, None, (0, 1, 1), (None, None)),
                ("grounded", ["--earliest"], "NOT EQUIVALENT", True, 0, None, (0, 1, 0), (None, None)),
                ("xors", ["--earliest"], "Equivalent", True, None, None, (16, 1, 1), (None, None)),
                ("row", ["--earliest", "--depth", "1"], "Inconclusive", True, None, None, (0, 1, 0), (None, None)),
                ("xors", ["--earliest", "--limit", "3"], "GaveUp", True, None, 0, (3, 1, 0), (False, None)),
                ("xors", ["--earliest", "--limit", "5"], "GaveUp", True, None, 1, (5, 1, 0), (True, 0)),
                ("xors", ["--limit", "5"], "GaveUp", False, None, 1, (4, 1, 1), (False, None)),
                ("xors", ["--earliest", "--limit", "262145"], None, True, None, None, (None, None, None), (None, None))):
            told = json.loads(self.told(pair, *words, "--json").out)
            self.assertEqual((told["verdict"], told["mismatch"], told["query"]), (verdict, mismatch, query))
            self.assertIs(told["earliest"], earliest)
            self.assertEqual((told["learned"], told["learned_depth"], told["learned_query"]), learned)
            self.assertEqual((told["equal"], told["through"]), proved)

    def test_the_release_sheet_ends_with_it(self):
        sheet = self.path("sheet")
        for pair, words in (("grounded", []), ("grounded", ["--earliest"]), ("xors", ["--earliest", "--limit", "3"]), ("xors", ["--earliest", "--limit", "12"]),
                            ("xors", ["--earliest", "--depth", "0"]), ("row", [])):
            self.told(pair, *words, "--sheet", sheet)
        columns = [line.split("\t") for line in Path(sheet).read_text().splitlines()]
        self.assertEqual([row[1] for row in columns], ["NOT EQUIVALENT", "NOT EQUIVALENT", "GaveUp", "GaveUp", "Refused", "NOT EQUIVALENT"])
        self.assertEqual([row[14:] for row in columns], [
            ["no query gave up", "earliest cycle not asked for"], ["no query gave up", "earliest cycle asked for"],
            ["proved equal in no cycle", "earliest cycle asked for"], ["proved equal in cycle 0", "earliest cycle asked for"],
            ["no query was asked", "earliest cycle asked for"], ["no query gave up", "earliest cycle not asked for"]])
        self.assertEqual([EARLIEST in row[2] for row in columns], [False, True, False, False, False, True])

    def test_refusals_are_those_without_it(self):
        for words in (["--depth", "0"], ["--depth", "65"], ["--limit", "262145"]):
            plain, found = inside("check", WIRE, INVERTER, *words), inside("check", WIRE, INVERTER, *words, "--earliest")
            self.assertEqual(plain.status, 4)
            self.assertEqual(plain, found)


class Hunts(Case):
    """`check --earliest --hunt`."""

    def test_the_hunt_is_in_the_mode_asked_for(self):
        gold, gate = encode(designs.row("p", "q")), encode(designs.holding())
        asked = []
        class Listens:
            """A library that keeps the options of each check."""
            replay = staticmethod(open_library().replay)
            @staticmethod
            def check(gold, gate, depth, limit, earliest):
                asked.append((depth, limit, earliest))
                return open_library().check(gold, gate, depth, limit, earliest)
        answer = struo.check(gold, gate, 1)
        for earliest in (False, True):
            self.assertTrue(hunt(Listens(), gold, gate, answer, 1, 100, earliest).confirmed)
        self.assertEqual(asked, [(64, 100, False), (64, 100, True)])

    def test_a_difference_behind_inconclusive(self):
        pair = self.file("gold", designs.row("p", "q")), self.file("gate", designs.holding())
        for words, query in (([], 1), (["--earliest"], 0)):
            told = json.loads(inside("check", *pair, "--depth", "1", "--hunt", "--json", *words).out)
            self.assertEqual((told["verdict"], told["found_by"], told["mismatch"], told["earliest"]), ("NOT EQUIVALENT", "hunt", 2, bool(words)))
            self.assertEqual((told["learned_query"], told["hunt"]["learned_query"]), (query, query))

    def test_a_give_up_in_query_0_gives_up_again(self):
        pair = self.file("gold", designs.exclusive_or(False)), self.file("gate", designs.exclusive_or(True))
        ended = inside("check", *pair, "--limit", "3", "--earliest", "--hunt")
        self.assertEqual(ended.status, 3)
        self.assertTrue(ended.err.endswith("The hunt to depth 8 with gate's registers renamed found no difference (GaveUp at depth 1).\n"), ended.err)
        told = json.loads(inside("check", *pair, "--limit", "3", "--earliest", "--hunt", "--json").out)
        self.assertEqual((told["query"], told["hunt"]["status"], told["hunt"]["query"], told["hunt"]["equal"]), (0, "GaveUp", 0, False))


if __name__ == "__main__":
    unittest.main()
