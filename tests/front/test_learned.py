"""What a check tells of what its queries learned: the line, the remark near the limit, the JSON and the release sheet."""
from __future__ import annotations

import json
import unittest
from pathlib import Path

from support import INVERTER, WIRE, Case, inside
import designs
from struo.answers import LEARNED_LIMIT, CheckAnswer, Refusal, Side, Status
from struo.files import RecordFile
from struo.record import encode
from struo.report import CheckReport, learned_words

NOTHING = "learned nothing: no query had to learn a clause"


def answered(learned: int, depth: int = 1, query: int = 1, status: Status = Status.INCONCLUSIVE) -> CheckAnswer:
    """An accepted check whose query of this depth and number learned most."""
    return CheckAnswer(None, status, 8, 0, query if status is Status.GAVE_UP else 0, learned, depth, query, False, 0, b"")


def report(answer: CheckAnswer, limit: int = LEARNED_LIMIT) -> CheckReport:
    """A report of an answer under a limit, on a pair without registers."""
    file = RecordFile("file", encode(designs.wire()))
    return CheckReport(None, file, file, 8, limit, False, answer, None, None)


def lines(answer: CheckAnswer, limit: int = LEARNED_LIMIT):
    """What a report says of what was learned."""
    return report(answer, limit).learned_lines()


class Words(unittest.TestCase):
    """The lines of an answer, whoever gave it."""

    def test_the_most_learned_with_its_query(self):
        self.assertEqual(lines(answered(11_643, 37)), ["learned 11,643 of 262,144 literals, most in query 1 of depth 37"])
        self.assertEqual(lines(answered(1, 2, 4)), ["learned 1 of 262,144 literals, most in query 4 of depth 2"])

    def test_nothing_learned(self):
        for status in (Status.EQUIVALENT, Status.NOT_EQUIVALENT, Status.INCONCLUSIVE):
            self.assertEqual(lines(answered(0, status=status)), [NOTHING])

    def test_a_refused_check_asked_no_query(self):
        refused = CheckAnswer(Refusal(16, Side.GOLD, 0), None, 0, 0, 0, 0, 0, 0, False, 0, b"")
        self.assertEqual(lines(refused), [])
        self.assertEqual(learned_words(refused, LEARNED_LIMIT), "learned nothing: no query was asked")

    def test_the_remark_begins_at_three_quarters(self):
        below, at = lines(answered(196_607, 5)), lines(answered(196_608, 5))
        self.assertEqual(below, ["learned 196,607 of 262,144 literals, most in query 1 of depth 5"])
        self.assertEqual(at, ["learned 196,608 of 262,144 literals, most in query 1 of depth 5",
                              "The search came near its limit: splitting the design or a smaller depth helps."])
        self.assertEqual(len(lines(answered(262_144, 5, status=Status.EQUIVALENT))), 2)

    def test_the_remark_is_of_the_limit_asked_for(self):
        self.assertEqual(lines(answered(74, 5), 100), ["learned 74 of 100 literals, most in query 1 of depth 5"])
        self.assertEqual(lines(answered(75, 5), 100), ["learned 75 of 100 literals, most in query 1 of depth 5",
                                                       "The search came near its limit: a larger limit, splitting the design or a smaller depth helps."])
        self.assertEqual(lines(answered(1), 1), ["learned 1 of 1 literal, most in query 1 of depth 1",
                                                 "The search came near its limit: a larger limit or splitting the design helps."])

    def test_a_check_that_learned_nothing_is_near_to_no_limit(self):
        for limit in (0, 1, LEARNED_LIMIT):
            self.assertEqual(lines(answered(0), limit), [NOTHING])

    def test_near_the_limit_a_larger_depth_may_give_up(self):
        self.assertIn("- a larger depth: up to --depth 64 fits this pair", report(answered(196_607, 5)).advice())
        self.assertIn("- a larger depth: up to --depth 64 fits this pair, though a query may then give up", report(answered(196_608, 5)).advice())

    def test_no_depth_is_smaller_than_1(self):
        self.assertEqual(lines(answered(200_000))[1], "The search came near its limit: splitting the design helps.")

    def test_a_give_up_came_to_the_limit(self):
        told = lines(answered(262_136, 50, 1, Status.GAVE_UP))
        self.assertEqual(told, ["learned 262,136 of 262,144 literals, most in query 1 of depth 50",
                                "The search came to its limit: splitting the design or a smaller depth helps."])

    def test_every_give_up_came_to_the_limit(self):
        told = lines(answered(2, 1, 3, Status.GAVE_UP), 100)
        self.assertEqual(told, ["learned 2 of 100 literals, most in query 3 of depth 1",
                                "The search came to its limit: a larger limit, splitting the design or a smaller depth helps."])

    def test_a_first_clause_past_the_limit(self):
        told = lines(answered(0, 1, 3, Status.GAVE_UP), 0)
        self.assertEqual(told[0], "learned nothing: the first clause, in query 3 of depth 8, would have passed the limit of 0 literals")
        self.assertEqual(len(told), 2)


class Told(Case):
    """The command's outputs."""

    def pair(self):
        """A pair in whose query 1 of depth 1 clauses of 16 literals are learned."""
        return self.file("gold", designs.exclusive_or(False)), self.file("gate", designs.exclusive_or(True))

    def test_the_line_is_on_the_error_output(self):
        ended = inside("check", *self.pair(), "--depth", "1")
        self.assertEqual(ended.err, "learned 16 of 262,144 literals, most in query 1 of depth 1\n")
        self.assertTrue(inside("check", WIRE, INVERTER).err.endswith(NOTHING + "\n"))
        self.assertEqual(inside("check", WIRE, WIRE).err, NOTHING + "\n")
        refused = inside("check", WIRE, WIRE, "--depth", "0")
        self.assertEqual((refused.status, refused.err), (4, ""))

    def test_a_give_up(self):
        ended = inside("check", self.file("gold", designs.multiplied(7, False, False)), self.file("gate", designs.multiplied(7, True, True)), "--depth", "4")
        self.assertTrue(ended.err.startswith("learned 262,144 of 262,144 literals, most in query 2 of depth 1\n"
                                             "The search came to its limit: splitting the design helps.\nThis is no pass"), ended.err)

    def test_json_has_the_three_numbers(self):
        told = json.loads(inside("check", *self.pair(), "--json").out)
        self.assertEqual((told["learned"], told["learned_depth"], told["learned_query"]), (16, 1, 1))
        told = json.loads(inside("check", WIRE, WIRE, "--json").out)
        self.assertEqual((told["learned"], told["learned_depth"], told["learned_query"]), (0, 1, 1))
        told = json.loads(inside("check", WIRE, WIRE, "--depth", "0", "--json").out)
        self.assertEqual((told["learned"], told["learned_depth"], told["learned_query"]), (None, None, None))

    def test_the_release_sheet_has_it(self):
        sheet = self.path("sheet")
        for words in ([*self.pair()], [WIRE, WIRE], [WIRE, WIRE, "--depth", "0"]):
            inside("check", *words, "--sheet", sheet)
        columns = [line.split("\t") for line in Path(sheet).read_text().splitlines()]
        self.assertEqual([row[12] for row in columns], [
            "learned 16 of 262,144 literals, most in query 1 of depth 1", NOTHING, "learned nothing: no query was asked"])


if __name__ == "__main__":
    unittest.main()
