"""The limit of learned literals that a caller sets, and how far a check that gives up has proved the outputs equal: answers, line, hints, JSON and release sheet."""
from __future__ import annotations

import json
import unittest
from pathlib import Path

from support import WIRE, Case, inside
import designs
import struo
from struo.answers import LEARNED_LIMIT, Status
from struo.record import encode

PAIRS = {
    "toggles": (designs.toggle("q"), designs.toggle("p")),
    "xors": (designs.exclusive_or(False), designs.exclusive_or(True)),
    "late": (designs.late_exclusive_or(False), designs.late_exclusive_or(True)),
    "products": (designs.multiplied(3, False, False), designs.multiplied(3, True, True)),
}


def check(pair: str, limit: int, depth: int = 4) -> struo.CheckAnswer:
    """A check of one of the pairs under a limit."""
    gold, gate = PAIRS[pair]
    return struo.check(encode(gold), encode(gate), depth, limit)


def numbers(answer: struo.CheckAnswer) -> tuple:
    """Status, depth, query, what was learned, and how far the outputs are proved equal."""
    return answer.status, answer.depth, answer.query, answer.learned, answer.learned_depth, answer.learned_query, answer.equal, answer.through


class Answers(unittest.TestCase):
    """The library's answers under limits."""

    def test_just_at_the_limit_no_query_gives_up(self):
        self.assertEqual(numbers(check("toggles", 1)), (Status.EQUIVALENT, 1, 0, 1, 1, 3, False, 0))
        self.assertEqual(numbers(check("xors", 16)), (Status.EQUIVALENT, 1, 0, 16, 1, 1, False, 0))
        self.assertEqual(numbers(check("late", 5)), (Status.EQUIVALENT, 2, 0, 5, 2, 1, False, 0))

    def test_after_query_1_its_own_depth_is_proved(self):
        self.assertEqual(numbers(check("toggles", 0)), (Status.GAVE_UP, 1, 3, 0, 1, 1, True, 1))

    def test_in_query_1_the_depth_before_it_is_proved(self):
        self.assertEqual(numbers(check("late", 3)), (Status.GAVE_UP, 2, 1, 3, 2, 1, True, 1))

    def test_where_no_query_was_answered_no_cycle_is(self):
        for limit, learned in ((12, 11), (5, 4), (3, 0), (0, 0)):
            self.assertEqual(numbers(check("xors", limit)), (Status.GAVE_UP, 1, 1, learned, 1, 1, False, 0))

    def test_a_larger_limit_gets_as_far_and_keeps_a_verdict(self):
        for pair in PAIRS:
            answers = [check(pair, limit) for limit in (*range(0, 130, 3), LEARNED_LIMIT)]
            found = [answer for answer in answers if answer.status is not Status.GAVE_UP]
            self.assertTrue(0 < len(found) < len(answers), pair)
            self.assertEqual(answers[-len(found):], [found[-1]] * len(found))
            far = [answer.through if answer.equal else -1 for answer in answers[:-len(found)]]
            self.assertEqual(far, sorted(far))

    def test_a_mismatch_lies_beyond_what_was_proved(self):
        first, found = check("products", 100), check("products", 200)
        self.assertEqual((first.status, first.query, first.equal, first.through), (Status.GAVE_UP, 2, True, 1))
        self.assertEqual((found.status, found.mismatch, found.equal, found.through), (Status.NOT_EQUIVALENT, 2, False, 0))

    def test_the_largest_limit_is_the_default(self):
        for pair in PAIRS:
            gold, gate = map(encode, PAIRS[pair])
            self.assertEqual(struo.check(gold, gate, 4), check(pair, 262_144))

    def test_a_negative_limit_is_no_number(self):
        with self.assertRaises(ValueError):
            check("xors", -1)


class Told(Case):
    """`check --limit`."""

    def told(self, pair: str, *words: str):
        """A check of one of the pairs by the command."""
        gold, gate = PAIRS[pair]
        return inside("check", self.file("gold", gold), self.file("gate", gate), *words)

    def test_a_give_up_with_a_cycle(self):
        ended = self.told("late", "--limit", "3")
        self.assertEqual(ended.out, "GaveUp: no pass: query 1 at depth 2 reached the limit of 3 learned literals; the outputs are proved equal in cycles 0 to 1, "
                                    "and nothing is proved of later ones; 0 of gold's 2 and gate's 2 registers are named alike\n")
        self.assertEqual(ended.status, 3)
        self.assertTrue(ended.err.startswith("learned 3 of 3 literals, most in query 1 of depth 2\n"
                                             "The search came to its limit: a larger limit, splitting the design or a smaller depth helps.\nThis is no pass"), ended.err)

    def test_a_give_up_with_none(self):
        ended = self.told("xors", "--limit", "1")
        self.assertEqual(ended.out, "GaveUp: no pass: query 1 at depth 1 reached the limit of 1 learned literal; the outputs are proved equal in no cycle; "
                                    "0 of gold's 0 and gate's 0 registers are named alike\n")
        self.assertEqual(ended.status, 3)
        self.assertTrue(ended.err.startswith("learned nothing: the first clause, in query 1 of depth 1, would have passed the limit of 1 literal\n"
                                             "The search came to its limit: a larger limit or splitting the design helps.\nThis is no pass"), ended.err)

    def test_a_larger_limit_is_a_hint_where_there_is_one(self):
        hint = "- a larger limit, up to --limit 262144: it never gets less far\n"
        self.assertIn(hint, self.told("xors", "--limit", "12").err)
        hard = self.file("gold", designs.multiplied(7, False, False)), self.file("gate", designs.multiplied(7, True, True))
        ended = inside("check", *hard)
        self.assertEqual(ended.status, 3)
        self.assertNotIn("larger limit", ended.err)
        self.assertNotIn("larger limit", self.told("late", "--depth", "1", "--limit", "3").err)

    def test_what_other_statuses_say_is_not_changed(self):
        self.assertEqual(self.told("xors", "--limit", "16").out, self.told("xors").out)
        self.assertEqual(self.told("products", "--limit", "200").out, self.told("products").out)

    def test_the_remark_near_the_limit(self):
        near = "The search came near its limit: a larger limit or splitting the design helps.\n"
        self.assertEqual(self.told("xors", "--limit", "21").err, "learned 16 of 21 literals, most in query 1 of depth 1\n" + near)
        self.assertEqual(self.told("xors", "--limit", "22").err, "learned 16 of 22 literals, most in query 1 of depth 1\n")
        self.assertEqual(inside("check", WIRE, WIRE, "--limit", "0").err, "learned nothing: no query had to learn a clause\n")

    def test_refused_limits(self):
        for limit, shown in (("262145", "262,145"), ("4294967296", "4,294,967,296"), ("9" * 5000, "18,446,744,073,709,551,615")):
            ended = inside("check", WIRE, WIRE, "--limit", limit)
            self.assertEqual((ended.status, ended.err), (4, ""))
            self.assertEqual(ended.out, f"Refused: the limit of learned literals is {shown}, and the largest is 262,144 (36 LearnedLimit)\n")
        self.assertEqual(inside("check", WIRE, WIRE, "--limit", "262144").status, 0)

    def test_json(self):
        for pair, words, verdict, limit, equal, through in (
                ("late", ["--limit", "3"], "GaveUp", 3, True, 1), ("xors", ["--limit", "12"], "GaveUp", 12, False, None),
                ("xors", ["--limit", "16"], "Equivalent", 16, None, None), ("products", [], "NOT EQUIVALENT", 262_144, None, None),
                ("late", ["--depth", "1"], "Inconclusive", 262_144, None, None), ("xors", ["--limit", "262145"], None, 262_145, None, None)):
            told = json.loads(self.told(pair, *words, "--json").out)
            self.assertEqual((told["verdict"], told["limit"], told["equal"], told["through"]), (verdict, limit, equal, through))

    def test_the_release_sheet_has_it(self):
        sheet = self.path("sheet")
        self.told("late", "--limit", "3", "--sheet", sheet)
        self.told("xors", "--limit", "12", "--sheet", sheet)
        self.told("xors", "--sheet", sheet)
        self.told("products", "--depth", "4", "--limit", "100", "--hunt", "--sheet", sheet)
        self.told("xors", "--limit", "262145", "--sheet", sheet)
        columns = [line.split("\t") for line in Path(sheet).read_text().splitlines()]
        self.assertEqual([row[1] for row in columns], ["GaveUp", "GaveUp", "Equivalent", "NOT EQUIVALENT", "Refused"])
        self.assertEqual([row[13:15] for row in columns], [
            ["limit 3", "proved equal in cycles 0 to 1"], ["limit 12", "proved equal in no cycle"], ["limit 262,144", "no query gave up"],
            ["limit 100", "proved equal in cycles 0 to 1"], ["limit 262,145", "no query was asked"]])


if __name__ == "__main__":
    unittest.main()
