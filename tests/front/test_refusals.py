"""Refusals 1 to 25, 30 and 36: each one met, with its words, its names and its place; and the one table of them beside the documents."""
from __future__ import annotations

import re
import unittest
from dataclasses import replace

from support import ROOT, Case, inside
from designs import Builder, toggle, wire
from struo import Memory, Question, explain, open_library
from struo.answers import Side
from struo.explain import reference
from struo.record import Design, Enable, Kind, Node, Register, Reset, encode
from struo.refusals import TABLE, markdown

NAMES = ("Length Version Cut Code Name Count UndefinedNet DuplicatePortName DuplicateRegisterName InvalidRegisterOutput MultipleDrivers RegisterNet "
         "UnconnectedRegister UnsupportedAsyncReset UnsupportedClock ZeroDepth DepthLimit InputInterface OutputInterface MultipleClockDomains "
         "ClockDomain UnknownInitialState TooLarge Memory Claim ClockRead LearnedLimit").split()
NUMBERS = [*range(1, 26), 30, 36]

WIRE = encode(wire())

# What is said of every clock that is read.
NO_DATA = "a clock has edges and no level: in place of a gated clock take its enable"


def changed(record: bytes, offset: int, *values: int) -> bytes:
    """A record with other bytes at an offset."""
    return record[:offset] + bytes(values) + record[offset + len(values):]


def sized(rest: bytes) -> bytes:
    """A record of these bytes behind the length field."""
    return b"\x01" + (5 + len(rest)).to_bytes(4, "big") + rest


def with_register(**parts) -> bytes:
    """A toggle with another register."""
    design = toggle()
    return encode(Design(design.name, design.nodes, [replace(design.registers[0], **parts)]))


def with_second(**parts) -> Design:
    """A toggle with a second state and register, which takes what the toggle shows."""
    design = toggle()
    nodes = [*design.nodes, Node(Kind.REGISTER_OUTPUT)]
    second = Register(b"p", len(nodes) - 1, 2, 0, False, None, Reset(1, False, False, 0))
    return Design(design.name, nodes, [*design.registers, replace(second, **parts)])


def ports(kind: Kind, count: int) -> bytes:
    """So many ports of a kind."""
    builder = Builder("a")
    for number in range(count):
        builder.node(kind, *([0] if kind is Kind.OUTPUT else []), text=f"p{number}")
    return encode(builder.design)


def late_reset() -> bytes:
    """An asynchronous reset from behind its state."""
    design = toggle()
    return encode(Design(design.name, design.nodes, [replace(design.registers[0], reset=Reset(4, False, True, 0))]))


# Records that are refused: their number, the record, the words, and the number with name and place.
RECORDS = (
    (1, b"", "the record has 0 bytes, and the shortest has 5", "1 Length"),
    (1, b"\x01", "the record has 1 byte, and the shortest has 5", "1 Length"),
    (1, bytes(65_536), "the record has over 65,535 bytes", "1 Length"),
    (1, WIRE + b"\0", "the length field says 19 bytes, and the record has 20", "1 Length"),
    (2, changed(WIRE, 0, 9), "byte 0, the version, is 9 and not 1", "2 Version"),
    (3, sized(b""), "byte 5, the length of the design's name, runs past the end: it is 1 byte long, and 0 remain", "3 Cut, byte 5"),
    (3, sized(WIRE[5:-3]), "byte 15, input number 0 of node 1 (Output), runs past the end: it is 2 bytes long, and 1 remain", "3 Cut, byte 15"),
    (3, sized(WIRE[5:] + b"ab"), "byte 19: 2 bytes remain after the last register", "3 Cut, byte 19"),
    (4, changed(WIRE, 9, 0x7F), "byte 9, the kind of node 0, is 7f, and the listed values are 00, 01, 02, 10, 11, 20, 21, 22, 30 (hex)",
     "4 Code, byte 9"),
    (4, changed(encode(toggle()), 38, 2), "byte 38, the edge of register 0, is 02, and the listed values are 00, 01 (hex)", "4 Code, byte 38"),
    (5, changed(WIRE, 5, 0), "byte 5, the length of the design's name, is 0, and a name has 1 to 32 bytes", "5 Name, byte 5"),
    (5, sized(b"\x21" + b"g" * 33 + b"\0\0\0\0"), "byte 5, the length of the design's name, is 33, and a name has 1 to 32 bytes", "5 Name, byte 5"),
    (5, changed(WIRE, 11, 0x20), "byte 11, the name of node 0 (Input), has a byte 32, and a name's bytes are 33 to 126", "5 Name, byte 11"),
    (6, changed(WIRE, 7, 4, 1), "byte 7, the node count, is 1,025, over 1,024", "6 Count, byte 7"),
    (6, changed(WIRE, 17, 0, 129), "byte 17, the register count, is 129, over 128", "6 Count, byte 17"),
    (6, ports(Kind.INPUT, 64), "byte 317, the kind of node 64, begins a 65th Input", "6 Count, byte 317"),
    (6, ports(Kind.OUTPUT, 65), "byte 450, the kind of node 65, begins a 65th Output", "6 Count, byte 450"),
    (7, changed(WIRE, 16, 1), "node 1 (Output y) reads net 1, which is not below its own number", "7 UndefinedNet, node 1"),
    (8, changed(WIRE, 14, ord("a")), "node 1 (Output a) repeats the name of node 0 (Input a)", "8 DuplicatePortName, node 1"),
    (9, encode(with_second(name=b"q")), "register q is there twice, as number 0 and number 1", "9 DuplicateRegisterName, register 1"),
    (10, with_register(output=4), "the output of register q is node 4 (Not), and no RegisterOutput", "10 InvalidRegisterOutput, register 0"),
    (10, with_register(output=99), "the output of register q is node 99, which there is not, and no RegisterOutput",
     "10 InvalidRegisterOutput, register 0"),
    (11, encode(with_second(output=2)), "register p drives node 2, which register q drives already", "11 MultipleDrivers, register 1"),
    (12, with_register(data=5), "the data of register q is net 5, and there are 5 nodes", "12 RegisterNet, register 0"),
    (12, with_register(clock=9), "the clock of register q is net 9, and there are 5 nodes", "12 RegisterNet, register 0"),
    (12, with_register(enable=Enable(7, False)), "the enable of register q is net 7, and there are 5 nodes", "12 RegisterNet, register 0"),
    (12, with_register(reset=Reset(8, True, False, 0)), "the reset of register q is net 8, and there are 5 nodes", "12 RegisterNet, register 0"),
    (13, encode(Design(b"g", toggle().nodes, [])), "node 2 (RegisterOutput) has no register", "13 UnconnectedRegister, node 2"),
    (14, late_reset(), "the asynchronous reset of register q is node 4 (Not), which is not below the register's output, node 2",
     "14 UnsupportedAsyncReset, node 2"),
    (15, with_register(clock=4), "the clock of register q is node 4 (Not), and no Input", "15 UnsupportedClock, register 0"),
    (30, with_register(data=0), f"the data of register q reads the clock clk (Input, node 0) of register q; {NO_DATA}", "30 ClockRead, node 0"),
)


def two_clocks() -> Design:
    """A toggle beside a register on the other edge."""
    return with_second(falling=True)


def tick_too(first: int, second: int) -> Design:
    """Two registers that hold, p and q, each clocked by node 0, clk, or by node 2, tick."""
    builder = Builder("clk", "rst", "tick")
    for name, clock in (("p", first), ("q", second)):
        state = builder.state()
        builder.register(name, state, state, clock)
    return builder.design


def only(inputs: str, outputs: str) -> Design:
    """A design of ports alone."""
    builder = Builder(*inputs)
    for name in outputs:
        builder.output(name, 0)
    return builder.design


def large() -> Design:
    """600 nodes."""
    builder = Builder("a")
    for number in range(598):
        builder.node(Kind.NOT, number)
    builder.output("y", 598)
    return builder.design


def bare_pair() -> Design:
    """Two registers without a reset; the second is the first by name."""
    design = with_second(reset=None)
    return Design(design.name, design.nodes, [replace(register, reset=None) for register in design.registers])


# Pairs that are refused: number, side, gold, gate, depth, words, and the number with name and place.
PAIRS = (
    (16, 0, wire(), wire(), 0, "the depth is 0, and the smallest is 1", "16 ZeroDepth"),
    (17, 0, wire(), wire(), 65, "the depth is 65, and the largest is 64", "17 DepthLimit"),
    (18, 0, only("abc", "y"), only("bd", "y"), 1, "the inputs differ: only gold has a, c; only gate has d", "18 InputInterface"),
    (18, 0, only("a", "y"), only("ab", "y"), 1, "the inputs differ: only gate has b", "18 InputInterface"),
    (19, 0, only("a", "yz"), only("a", "xy"), 1, "the outputs differ: only gold has z; only gate has x", "19 OutputInterface"),
    (20, 0, two_clocks(), toggle(), 1, "gold: its registers have 2 clocks: clk rising (register q), clk falling (register p)", "20 MultipleClockDomains"),
    (20, 1, tick_too(0, 0), tick_too(2, 0), 1, "gate: its registers have 2 clocks: tick rising (register p), clk rising (register q)",
     "20 MultipleClockDomains"),
    (21, 0, toggle(), toggle(falling=True), 1, "gold's registers are clocked by clk rising, gate's by clk falling", "21 ClockDomain"),
    (21, 0, tick_too(2, 2), tick_too(0, 0), 1, "gold's registers are clocked by tick rising, gate's by clk rising", "21 ClockDomain"),
    (21, 0, toggle(), only(["clk", "rst"], "y"), 1, "gold has 1 register, and gate has none", "21 ClockDomain"),
    (22, 0, toggle(reset=None), toggle(), 1, "gold: register q has no reset, so that its initial bit is not known", "22 UnknownInitialState, register 0"),
    (22, 1, toggle(), with_second(name=b"s[0]", reset=None), 1, "gate: register s[0] has no reset, so that its initial bit is not known",
     "22 UnknownInitialState, register 1"),
    (22, 0, with_second(reset=None), toggle(), 1, "gold: register p has no reset, so that its initial bit is not known",
     "22 UnknownInitialState, register 1"),
    (22, 1, toggle(), bare_pair(), 1, "gate: register p has no reset, so that its initial bit is not known; 1 more has none",
     "22 UnknownInitialState, register 1"),
    (23, 0, large(), large(), 64, "at depth 64 the pair takes 234,390 of 65,535; the largest depth that fits is 17", "23 TooLarge"),
)


class Refusals(Case):
    """Each refusal as the library answers it, and its words."""

    def test_records(self):
        library = open_library()
        for number, record, words, told in RECORDS:
            with self.subTest(number=number, words=words):
                refusal = library.read(record).refusal
                self.assertIsNotNone(refusal)
                self.assertEqual(refusal.number, number)
                self.assertEqual(explain(refusal, Question(record)), words)
                self.assertEqual(reference(refusal), told)

    def test_records_in_a_pair_have_their_side(self):
        library = open_library()
        for number, record, words, _ in RECORDS:
            for side, pair in ((Side.GOLD, (record, WIRE)), (Side.GATE, (WIRE, record))):
                refusal = library.check(*pair, 1).refusal
                self.assertEqual((refusal.number, refusal.side), (number, side))
                self.assertEqual(explain(refusal, Question(*pair, depth=1)), f"{side.word}: {words}")

    def test_pairs(self):
        library = open_library()
        for number, side, gold, gate, depth, words, told in PAIRS:
            with self.subTest(number=number, words=words):
                pair = encode(gold), encode(gate)
                refusal = library.check(*pair, depth).refusal
                self.assertEqual((refusal.number, refusal.side), (number, side))
                self.assertEqual(explain(refusal, Question(*pair, depth=depth)), words)
                self.assertEqual(reference(refusal), told)

    def test_the_depth_that_fits_is_the_largest(self):
        library, record = open_library(), encode(large())
        self.assertIsNone(library.check(record, record, 17).refusal)
        self.assertEqual(library.check(record, record, 18).refusal.number, 23)

    def test_the_largest_pair_fits_to_depth_six(self):
        nodes = [Node(Kind.INPUT, b"clk"), Node(Kind.INPUT, b"rst")] + [Node(Kind.NOT, inputs=(1,))] * 894 + [Node(Kind.REGISTER_OUTPUT)] * 128
        registers = [Register(f"r{place}".encode(), 896 + place, 1, 0, False, None, Reset(1, False, False, 0)) for place in range(128)]
        record = encode(Design(b"g", nodes, registers))
        refusal = open_library().check(record, record, 7).refusal
        self.assertEqual(refusal.number, 23)
        self.assertEqual(explain(refusal, Question(record, record, depth=7)),
                         "at depth 7 the pair takes 69,912 of 65,535; the largest depth that fits is 6")

    def test_memory(self):
        library = open_library()
        for lent, words in (((8, 8_388_608, 65_536), "the trace has 8 bytes, and 9 are needed"),
                            ((80, 8_388_607, 65_536), "the work memory has 8,388,607 words, and 8,388,608 are needed"),
                            ((80, 8_388_608, 65_535), "the work memory has 65,535 scores, and 65,536 are needed")):
            refusal = library.check(WIRE, WIRE, 7, memory=Memory(*lent)).refusal
            self.assertEqual(refusal.number, 24)
            self.assertEqual(explain(refusal, Question(WIRE, WIRE, 7, trace_length=lent[0], words_length=lent[1], scores_length=lent[2])), words)
            self.assertEqual(reference(refusal), "24 Memory")

    def test_claims(self):
        library = open_library()
        for cycle, claim, words in ((65, b"", "the claimed cycle is 65, and the last that can be claimed is 64"),
                                    (2**64, b"", f"the claimed cycle is {2**64}, and the last that can be claimed is 64"),
                                    (1, b"\0\0", "the claim has 2 bytes, and 3 are needed: 2 cycles of 1 input, then 1 mark"),
                                    (1, b"\0\1\2", "byte 2 of the claim is 2, and only 0 and 1 are taken")):
            refusal = library.replay(WIRE, WIRE, cycle, claim).refusal
            self.assertEqual(refusal.number, 25)
            self.assertEqual(explain(refusal, Question(WIRE, WIRE, cycle=cycle, claim=claim)), words)
            self.assertEqual(reference(refusal), "25 Claim")

    def test_limits(self):
        library, other = open_library(), encode(only("b", "y"))
        for limit, words in ((262_145, "262,145"), (2**32 + 5, "4,294,967,301"), (2**64 - 1, "18,446,744,073,709,551,615"), (2**64, "18,446,744,073,709,551,616")):
            refusal = library.check(WIRE, other, 1, limit, memory=Memory(0, 0, 0)).refusal
            self.assertEqual((refusal.number, refusal.side, refusal.place), (36, 0, 0))
            self.assertEqual(explain(refusal, Question(WIRE, other, 1, limit=limit)), f"the limit of learned literals is {words}, and the largest is 262,144")
            self.assertEqual(reference(refusal), "36 LearnedLimit")
        for depth, limit, number in ((0, 262_145, 16), (65, 262_145, 17), (1, 262_144, 18)):
            self.assertEqual(library.check(WIRE, other, depth, limit).refusal.number, number)
        self.assertIsNone(library.check(WIRE, WIRE, 1, 262_144).refusal)

    def test_every_number_is_met_here(self):
        met = {row[0] for row in RECORDS} | {row[0] for row in PAIRS} | {24, 25, 36}
        self.assertEqual(met, set(NUMBERS))

    def test_the_command_says_the_same(self):
        gold, gate = self.file("gold", toggle()), self.file("gate", with_second(name=b"s[0]", reset=None))
        ended = inside("check", gold, gate)
        self.assertEqual(ended.out, "Refused: gate: register s[0] has no reset, so that its initial bit is not known "
                                    "(22 UnknownInitialState, register 1)\n")
        self.assertEqual(ended.status, 4)
        ended = inside("read", self.file("bad", changed(WIRE, 16, 1)))
        self.assertIn("node 1 (Output y) reads net 1, which is not below its own number (7 UndefinedNet, node 1)\n", ended.out)


class Table(unittest.TestCase):
    """The one table."""

    def test_numbers_and_names(self):
        self.assertEqual([row.number for row in TABLE], NUMBERS)
        self.assertEqual([row.name for row in TABLE], NAMES)

    def test_calls_are_those_that_give_it(self):
        calls = {row.number: row.calls for row in TABLE}
        for number in NUMBERS:
            own = number <= 15 or number == 30
            self.assertEqual("read" in calls[number], own)
            self.assertEqual("check" in calls[number], own or 16 <= number <= 24 or number == 36)
            self.assertEqual("replay" in calls[number], own or 18 <= number <= 22 or number == 25)
            self.assertEqual("begin" in calls[number], own or 18 <= number <= 22 or number == 24)
            self.assertEqual("step" in calls[number], own or 18 <= number <= 22 or number in (24, 25))

    def test_the_specification_has_the_same_rows(self):
        path = ROOT / "docs" / "SPECIFICATION.md"
        if not path.exists():
            self.skipTest("there is no docs/SPECIFICATION.md")
        rows = re.findall(r"(?m)^\| (\d+) \| (\w+) \|", path.read_text())
        self.assertEqual([(int(number), name) for number, name in rows if name in NAMES], [(row.number, row.name) for row in TABLE])

    def test_the_header_and_the_rust_binding_have_the_same_names(self):
        header = (ROOT / "include" / "struo_formal.h").read_text()
        found = re.findall(r"STRUO_REFUSAL_(\w+) = (\d+)", header)
        wanted = [(re.sub(r"(?<!^)(?=[A-Z])", "_", row.name).upper(), str(row.number)) for row in TABLE]
        self.assertEqual(found, wanted)
        binding = (ROOT / "bindings" / "rust" / "src" / "refusal.rs").read_text()
        for row in TABLE:
            self.assertIn(f'Self::{row.name} => "{row.condition}"', binding)
        self.assertEqual(re.findall(r"(?m)^    (\w+) = (\d+),", binding), [(row.name, str(row.number)) for row in TABLE])

    def test_the_table_as_the_documents_have_it(self):
        lines = markdown().splitlines()
        self.assertEqual(len(lines), 29)
        self.assertTrue(lines[2].startswith("| 1 | Length | read, check, replay, begin, step | "))


if __name__ == "__main__":
    unittest.main()
