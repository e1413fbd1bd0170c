"""A replay by steps through the library: the same answer as the replay, and what is lent after each call."""
from __future__ import annotations

import unittest

from support import Case
from designs import toggle
from struo import Position, begin, replay, step
from struo.answers import Refusal, Side
from struo.record import encode

TOGGLE = encode(toggle())
CLAIM = bytes([0, 0, 0, 0, 1])


def bits(gold: int, gate: int, others: int = 0, length: int = 256) -> bytes:
    """Lent bits with one register on each side."""
    lent = bytearray([others] * length)
    lent[0], lent[128] = gold, gate
    return bytes(lent)


class Steps(Case):
    """One position after another."""

    def test_begin_sets_the_initial_bits_alone(self):
        answer = begin(TOGGLE, TOGGLE, Position(9, False, bits(7, 8, 2, 260)))
        self.assertIsNone(answer.refusal)
        self.assertEqual(answer.position, Position(0, True, bits(0, 0, 2, 260)))

    def test_steps_from_begin_answer_as_replay(self):
        position = begin(TOGGLE, TOGGLE).position
        for cycle, bit in ((1, 1), (2, 0), (2, 0)):
            answer = step(TOGGLE, TOGGLE, 1, CLAIM, position)
            self.assertEqual((answer.refusal, answer.yes), (None, False))
            self.assertEqual(answer.position, Position(cycle, True, bits(bit, bit)))
            position = answer.position
        self.assertFalse(replay(TOGGLE, TOGGLE, 1, CLAIM).yes)

    def test_a_position_of_ones_own(self):
        answer = step(TOGGLE, TOGGLE, 1, CLAIM, Position(1, True, bits(0, 1)))
        self.assertTrue(answer.yes)
        self.assertEqual(answer.position, Position(2, False, bits(1, 0)))
        self.assertFalse(step(TOGGLE, TOGGLE, 1, CLAIM, Position(1, False, bits(0, 1))).yes)

    def test_past_the_claimed_cycle_nothing_changes(self):
        for cycle in (2, 65, 2**64 - 1):
            lent = Position(cycle, True, bits(0, 1, 9))
            answer = step(TOGGLE, TOGGLE, 1, CLAIM, lent)
            self.assertEqual((answer.refusal, answer.yes, answer.position), (None, False, lent))

    def test_refused_calls_change_nothing(self):
        for claim, lent, number in (
            (CLAIM, bits(0, 0, 0, 255), 24),
            (bytes([0, 0, 0, 0, 2]), bits(0, 0, 0, 255), 25),
            (CLAIM, bits(2, 0), 25),
            (CLAIM, bits(0, 2), 25),
        ):
            position = Position(1, True, lent)
            answer = step(TOGGLE, TOGGLE, 1, claim, position)
            self.assertEqual((answer.refusal, answer.yes, answer.position), (Refusal(number, Side.GOLD, 0), False, position))
        position = Position(9, False, b"")
        answer = begin(TOGGLE, TOGGLE, position)
        self.assertEqual((answer.refusal, answer.position), (Refusal(24, Side.GOLD, 0), position))


if __name__ == "__main__":
    unittest.main()
