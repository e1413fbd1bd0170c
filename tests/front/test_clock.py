"""The clock is no data: refusal 30 for every way to read a clock, in every call, with its side, place, order and words; and the clock's column in traces and claims."""
from __future__ import annotations

import itertools
import json
import random
import unittest
from dataclasses import replace
from typing import Iterator, Optional, Tuple

from support import ROOT, Case, inside
from designs import Builder, holding, random_design, row, toggle, wire
from struo import Position, Question, begin, check, explain, read, replay, step
from struo.answers import Refusal, Side, Status
from struo.explain import reference
from struo.record import Design, Enable, Kind, Node, Reset, decode, encode

TOGGLE = encode(toggle())
NO_DATA = "a clock has edges and no level: in place of a gated clock take its enable"
LENT = Position(1, True, bytes([7] * 256))


def with_node(kind: Kind, *reads: int) -> Design:
    """The toggle with one more node, number 5."""
    design = toggle()
    return Design(design.name, [*design.nodes, Node(kind, b"z" if kind is Kind.OUTPUT else b"", 0, reads)], design.registers)


def with_register(**parts) -> Design:
    """The toggle with another register."""
    design = toggle()
    return Design(design.name, design.nodes, [replace(design.registers[0], **parts)])


# Every way to read the clock, node 0, with what is said to read it; node 1 is rst.
WAYS = tuple((with_node(kind, *reads), f"node 5 ({kind.word}{' z' if kind is Kind.OUTPUT else ''})")
             for kind in Kind for reads in itertools.product((0, 1), repeat=kind.input_count) if 0 in reads) + (
    (with_register(data=0), "the data of register q"),
    (with_register(enable=Enable(0, False)), "the enable of register q"),
    (with_register(enable=Enable(0, True)), "the enable of register q"),
    (with_register(reset=Reset(0, False, False, 0)), "the reset of register q"),
    (with_register(reset=Reset(0, True, False, 1)), "the reset of register q"),
    (with_register(reset=Reset(0, False, True, 0)), "the reset of register q"),
)


def in_every_call(gold: bytes, gate: bytes) -> Iterator[Tuple[str, Optional[Refusal]]]:
    """The calls on a pair, each with its refusal; what is lent to begin and step stays where they refuse."""
    yield "check", check(gold, gate, 1).refusal
    yield "replay", replay(gold, gate, 0, b"").refusal
    for call, answer in (("begin", begin(gold, gate, LENT)), ("step", step(gold, gate, 0, b"", LENT))):
        assert answer.refusal is None or answer.position == LENT, call
        yield call, answer.refusal


def read_clock(design: Design) -> Optional[int]:
    """The lowest node that is the clock of a register and is read."""
    nets = {net for node in design.nodes for net in node.inputs}
    for register in design.registers:
        nets |= {register.data, *(control.signal for control in (register.enable, register.reset) if control is not None)}
    return min(nets & {register.clock for register in design.registers}, default=None)


def two_clocks(*shown: int) -> Design:
    """Registers p and q, clocked by ck (node 1) and clk (node 2), that hold; the Outputs y and z show two nodes."""
    builder = Builder("a", "ck", "clk", "rst")
    for name, clock in (("q", 2), ("p", 1)):
        state = builder.state()
        builder.register(name, state, state, clock, reset=Reset(3, False, False, 0))
    for name, node in zip("yz", shown):
        builder.output(name, node)
    return builder.design


class Refused(Case):
    """Where a clock is read."""

    def test_every_way_in_every_call(self):
        for design, reader in WAYS:
            record = encode(design)
            with self.subTest(reader=reader, record=record.hex()):
                self.assertEqual(read(record).refusal, Refusal(30, Side.GOLD, 0))
                words = f"{reader} reads the clock clk (Input, node 0) of register q; {NO_DATA}"
                self.assertEqual(explain(read(record).refusal, Question(record)), words)
                for side, pair in ((Side.GOLD, (record, TOGGLE)), (Side.GATE, (TOGGLE, record))):
                    for call, refusal in in_every_call(*pair):
                        self.assertEqual(refusal, Refusal(30, side, 0), call)
                        self.assertEqual(explain(refusal, Question(*pair)), f"{side.word}: {words}")

    def test_the_place_is_the_lowest_that_is_read(self):
        for shown, place in (((1, 2), 1), ((2, 1), 1), ((2, 2), 2), ((0, 2), 2), ((0, 1), 1)):
            refusal = read(encode(two_clocks(*shown))).refusal
            self.assertEqual(refusal, Refusal(30, Side.GOLD, place))
            self.assertEqual(reference(refusal), f"30 ClockRead, node {place}")
        self.assertIsNone(read(encode(two_clocks(0, 4))).refusal)

    def test_after_15_of_its_own_record_and_before_all_else(self):
        bad, design = encode(with_register(data=0)), two_clocks(1, 2)
        late = Design(design.name, design.nodes, [design.registers[0], replace(design.registers[1], clock=4)])
        self.assertEqual(read_clock(late), 2)
        self.assertEqual(read(encode(late)).refusal, Refusal(15, Side.GOLD, 1))
        for gate in (b"", encode(late), encode(wire()), bad):
            for call, refusal in in_every_call(bad, gate):
                self.assertEqual(refusal, Refusal(30, Side.GOLD, 0), call)
        for call, refusal in in_every_call(encode(wire()), bad):
            self.assertEqual(refusal, Refusal(30, Side.GATE, 0), call)
        for call, refusal in in_every_call(TOGGLE, encode(late)):
            self.assertEqual(refusal, Refusal(15, Side.GATE, 1), call)
        for depth, limit in ((0, 2**64 - 1), (65, 0), (1, 262_145)):
            self.assertEqual(check(TOGGLE, bad, depth, limit).refusal, Refusal(30, Side.GATE, 0))
        for lent in (b"", bytes([2] * 256)):
            self.assertEqual(step(TOGGLE, bad, 65, b"\2", Position(0, True, lent)).refusal, Refusal(30, Side.GATE, 0))
        self.assertEqual(check(encode(with_register(data=0, reset=None)), TOGGLE, 1).refusal, Refusal(30, Side.GOLD, 0))

    def test_exactly_where_a_clock_is_read(self):
        dice, met = random.Random(30), {}
        for _ in range(600):
            design = random_design(dice, dice.randrange(2))
            clocks = dice.sample(range(4), dice.randrange(1, 3))
            design.registers = [replace(register, clock=dice.choice(clocks)) for register in design.registers]
            place, refusal = read_clock(design), read(encode(design)).refusal
            self.assertEqual(refusal, None if place is None else Refusal(30, Side.GOLD, place))
            met[place] = met.get(place, 0) + 1
        self.assertEqual(set(met), {None, 0, 1, 2, 3})
        self.assertGreater(min(met.values()), 5, met)


class Accepted(unittest.TestCase):
    """Where no clock is read."""

    def test_without_registers_no_input_is_a_clock(self):
        builder = Builder("clk")
        builder.output("y", builder.node(Kind.NOT, 0))
        record = encode(builder.design)
        self.assertIsNone(read(record).refusal)
        self.assertEqual(check(record, record, 1).status, Status.EQUIVALENT)

    def test_a_name_makes_no_clock(self):
        builder = Builder("tick", "rst", "clk")
        state = builder.state()
        builder.output("y", builder.node(Kind.AND, state, 2))
        builder.register("q", state, 2, enable=Enable(2, False))
        record = encode(builder.design)
        self.assertIsNone(read(record).refusal)
        self.assertEqual(check(record, record, 1).status, Status.EQUIVALENT)

    def test_the_other_sides_clock_counts_for_nothing(self):
        gold, gate = (Builder("clk", "rst", "tick") for _ in range(2))
        for builder, clock, other in ((gold, 0, 2), (gate, 2, 0)):
            state = builder.state()
            builder.output("y", state)
            builder.register("q", state, other, clock)
        for call, refusal in in_every_call(encode(gold.design), encode(gate.design)):
            self.assertEqual(refusal, Refusal(21, Side.GOLD, 0), call)


class Words(Case):
    """What is said of a clock that is read."""

    def said(self, design: Design) -> str:
        """The words of a read."""
        record = encode(design)
        return explain(read(record).refusal, Question(record))

    def test_the_way_from_the_reader(self):
        builder = Builder("clk", "rst", "e")
        state = builder.state()
        gated = builder.node(Kind.AND, 0, 2)
        turned = builder.node(Kind.NOT, gated)
        builder.register("q", state, turned)
        clock = "reads the clock clk (Input, node 0) of register q"
        self.assertEqual(self.said(builder.design), f"node 4 (And), on the way to the data of register q, {clock}; {NO_DATA}")
        builder.output("sclk", turned)
        words = f"node 4 (And), on the way to output sclk, {clock}; {NO_DATA}"
        self.assertEqual(self.said(builder.design), words)
        self.assertIn(f"\n    Refused: gold: {words} (30 ClockRead, node 0)\n", (ROOT / "README.md").read_text())
        builder.output("z", 0)
        self.assertEqual(self.said(builder.design), f"node 4 (And), on the way to output sclk, {clock}; 1 more reads it; {NO_DATA}")

    def test_more_registers_and_readers(self):
        design = row("p", "q", "s")
        design.registers = [replace(register, data=0) for register in design.registers]
        self.assertEqual(self.said(design), f"the data of register p reads the clock clk (Input, node 0) of register p and 2 more; 2 more read it; {NO_DATA}")

    def test_the_commands_say_it(self):
        good, bad = self.file("good", toggle()), self.file("bad", with_node(Kind.OUTPUT, 0))
        words = f"node 5 (Output z) reads the clock clk (Input, node 0) of register q; {NO_DATA} (30 ClockRead, node 0)"
        for command in (("read", bad), ("show", bad)):
            ended = inside(*command)
            self.assertEqual((ended.status, ended.out), (4, f"Refused: {bad}: {words}\n"))
        claim = self.file("claim", "cycle 0 0 0 1")
        for command in (("check", good, bad), ("check", good, bad, "--earliest", "--hunt"), ("replay", good, bad, "--claim", claim)):
            ended = inside(*command)
            self.assertEqual((ended.status, ended.out), (4, f"Refused: gate: {words}\n"))
        told = json.loads(inside("check", bad, good, "--json").out)
        self.assertEqual((told["verdict"], told["refusal"]["number"], told["refusal"]["name"], told["refusal"]["place"]), (None, 30, "ClockRead", 0))


class Column(Case):
    """The clock's bytes in traces and claims: there, and without effect."""

    def test_a_trace_keeps_it(self):
        answer = check(encode(row("p", "q")), encode(holding()), 3)
        self.assertEqual((answer.mismatch, answer.trace), (2, bytes([0, 1, 0, 0, 0, 0, 0, 0, 0, 1])))
        self.assertEqual(decode(encode(holding())).inputs, [b"clk", b"e", b"rst"])

    def test_it_changes_no_answer(self):
        gold, gate = encode(row("p", "q")), encode(holding())
        for rest, yes in (((1, 0, 0, 0, 0, 0), True), ((0, 0, 0, 0, 0, 0), False), ((1, 0, 0, 1, 0, 0), False)):
            for clock in itertools.product((0, 1), repeat=3):
                claim = bytes(bit for cycle in range(3) for bit in (clock[cycle], *rest[2 * cycle:2 * cycle + 2])) + b"\1"
                answer = replay(gold, gate, 2, claim)
                self.assertEqual((answer.refusal, answer.yes), (None, yes))

    def test_it_changes_no_answer_of_random_pairs(self):
        dice, answers = random.Random(6), []
        for place in range(200):
            gold, gate = (encode(random_design(dice)) for _ in range(2))
            cycle = dice.randrange(3)
            found = check(gold, gate, 2)
            inputs, marks = [[dice.randrange(2) for _ in range(3)] for _ in range(cycle + 1)], [dice.randrange(2) for _ in range(2)]
            if place % 2 and found.status is Status.NOT_EQUIVALENT:
                cycle = found.mismatch
                self.assertEqual(found.trace[:4 * cycle + 4:4], bytes(cycle + 1))
                inputs, marks = [list(found.trace[4 * at + 1:4 * at + 4]) for at in range(cycle + 1)], list(found.trace[-2:])
            told = {self.stepped(gold, gate, cycle, inputs, marks, clock) for clock in ([0] * 3, [1] * 3, [dice.randrange(2) for _ in range(3)])}
            self.assertEqual(len(told), 1)
            answers += told
        yes = sum(answer[0] for answer in answers)
        self.assertGreater(min(yes, len(answers) - yes), 50)

    def stepped(self, gold: bytes, gate: bytes, cycle: int, inputs: list, marks: list, clock: list) -> tuple:
        """The answer of a claim with these bits of the clock, clk before e, f and rst, and every position on its way by steps."""
        claim = bytes([bit for at in range(cycle + 1) for bit in (clock[at], *inputs[at])] + marks)
        answer, position, way = replay(gold, gate, cycle, claim), begin(gold, gate).position, []
        self.assertIsNone(answer.refusal)
        for _ in range(cycle + 1):
            last = step(gold, gate, cycle, claim, position)
            position = last.position
            way.append(position)
        self.assertEqual(last.yes, answer.yes)
        return (answer.yes, *way)

    def test_its_bytes_are_judged(self):
        gold, gate, claim = encode(row("p", "q")), encode(holding()), bytes([0, 1, 0, 0, 0, 0, 0, 0, 0, 1])
        for cycle in range(3):
            for byte in (2, 255):
                other = bytes(byte if place == 3 * cycle else kept for place, kept in enumerate(claim))
                self.assertEqual(replay(gold, gate, 2, other).refusal, Refusal(25, Side.GOLD, 0))
                self.assertEqual(step(gold, gate, 2, other, begin(gold, gate).position).refusal, Refusal(25, Side.GOLD, 0))
        without = bytes(kept for place, kept in enumerate(claim) if place % 3 or place == 9)
        self.assertEqual(replay(gold, gate, 2, without).refusal, Refusal(25, Side.GOLD, 0))

    def test_a_claim_file_has_it(self):
        gold, gate, wave = self.file("gold", row("p", "q")), self.file("gate", holding()), self.path("wave")
        answers = set()
        for clock in ("0 0 0", "1 1 1", "1 0 1"):
            lines = [f"{bit} {rest}\n" for bit, rest in zip(clock.split(), ("1 0", "0 0", "0 0"))]
            ended = inside("replay", gold, gate, "--claim", self.file("claim", f"cycle 2\n{''.join(lines)}1\n"), "--vcd", wave)
            answers.add((ended.status, ended.out))
        self.assertEqual(answers, {(0, "yes: in cycle 2 output y differs, and none before\n")})


if __name__ == "__main__":
    unittest.main()
