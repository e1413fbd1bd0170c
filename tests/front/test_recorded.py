"""The recorded calls through the front end's boundary: the answers as recorded, every refusal in words; and damaged records, which are always explained."""
from __future__ import annotations

import random
import unittest
from functools import lru_cache

from support import EXAMPLES, ROOT
from struo import Memory, Question, explain, open_library
from struo.answers import LEARNED_LIMIT, Status
from struo.explain import reference

RECORDED = ROOT / "crates" / "vectors" / "data" / "recorded.txt"

# Checks that learned more take seconds.
QUICK = 20_000


def data(word: str) -> bytes:
    """The bytes of a word in hex."""
    return b"" if word == "-" else bytes.fromhex(word)


memory = lru_cache(maxsize=8)(Memory)


class Recorded(unittest.TestCase):
    """Lines of the recorded list."""

    def lines(self, call: str):
        """The words left and right of the sign, for each line of a call."""
        for line in RECORDED.read_text().splitlines():
            if line.startswith(call + " "):
                asked, answered = line.split(" = ")
                yield asked.split()[1:], answered.split()

    def same(self, refusal, answered, question: Question) -> None:
        """A refusal's three numbers are as recorded, and there are words for it."""
        found = (0, 0, 0) if refusal is None else (refusal.number, int(refusal.side), refusal.place)
        self.assertEqual(found, tuple(map(int, answered[:3])))
        if refusal is not None:
            self.assertTrue(explain(refusal, question) and reference(refusal))

    def test_reads(self):
        for (record,), answered in self.lines("read"):
            self.same(open_library().read(data(record)).refusal, answered, Question(data(record)))

    def test_replays(self):
        for (gold, gate, cycle, claim), answered in self.lines("replay"):
            question = Question(data(gold), data(gate), cycle=int(cycle), claim=data(claim))
            answer = open_library().replay(question.gold, data(gate), question.cycle, question.claim)
            self.same(answer.refusal, answered, question)
            self.assertEqual(answer.yes, answered[3] == "yes")

    def test_every_fourth_check_and_all_of_other_limits_or_for_the_earliest_cycle(self):
        count, refused, proved, met = 0, set(), set(), set()
        for place, ((gold, gate, depth, limit, earliest, trace, words, scores), answered) in enumerate(self.lines("check")):
            if int(answered[7]) > QUICK or (place % 4 and int(limit) == LEARNED_LIMIT and earliest == "0"):
                continue
            self.assertIn(earliest, ("0", "1"))
            lent = int(trace), int(words), int(scores)
            question = Question(data(gold), data(gate), int(depth), 0, b"", *lent, limit=int(limit))
            answer = open_library().check(question.gold, data(gate), question.depth, question.limit, earliest=earliest == "1", memory=memory(*lent))
            self.same(answer.refusal, answered, question)
            if answer.refusal is None:
                told = (int(answer.status), answer.depth, answer.mismatch, answer.query, answer.learned, answer.learned_depth, answer.learned_query,
                        int(answer.equal), answer.through)
                self.assertEqual(told, tuple(map(int, answered[3:12])))
                self.assertEqual(answer.trace, data(answered[12]) if answer.status is Status.NOT_EQUIVALENT else b"")
            count += 1
            refused.add(int(answered[0]))
            proved.add((answer.status is Status.GAVE_UP, answer.equal, answer.through))
            if earliest == "1":
                met.add((int(answered[0]), answer.status, answer.mismatch if answer.status is Status.NOT_EQUIVALENT else answer.query))
        self.assertGreater(count, 100)
        self.assertLessEqual({0, 16, 17, 18, 24, 30, 36}, refused)
        self.assertLessEqual({(False, False, 0), (True, False, 0), (True, True, 0), (True, True, 1), (True, True, 2)}, proved)
        self.assertLessEqual({(0, Status.GAVE_UP, query) for query in range(5)} | {(0, Status.NOT_EQUIVALENT, cycle) for cycle in range(4)}, met)
        self.assertLessEqual({(0, Status.EQUIVALENT, 0), (0, Status.INCONCLUSIVE, 0), (16, None, 0), (17, None, 0), (18, None, 0), (24, None, 0), (30, None, 0), (36, None, 0)}, met)


class Damaged(unittest.TestCase):
    """Records with bytes changed, cut and added."""

    def test_every_refusal_is_explained(self):
        dice, library, met = random.Random(18), open_library(), set()
        records = [path.read_bytes() for path in sorted(EXAMPLES.glob("*.struo"))]
        for _ in range(1_500):
            record = bytearray(dice.choice(records))
            for _ in range(dice.randrange(1, 3)):
                record[dice.randrange(len(record))] = dice.randrange(256) if dice.randrange(2) else dice.randrange(49)
            record = record[:dice.randrange(5, len(record) + 1)] if dice.randrange(4) == 0 else record
            if dice.randrange(8):
                record[1:5] = len(record).to_bytes(4, "big")
            refusal = library.read(bytes(record)).refusal
            if refusal is not None:
                self.assertTrue(explain(refusal, Question(bytes(record))))
                met.add(refusal.number)
        self.assertGreater(len(met), 8)


if __name__ == "__main__":
    unittest.main()
