"""Verilog whose logic reads its clock, through yosys plain and reduced: refused with the names of the source, and accepted with an enable in its place."""
from __future__ import annotations

import subprocess
import unittest
from pathlib import Path

from test_flow import GATE, GOLD, run, struo
from support import Case  # noqa: E402, whose folder test_flow puts on the path

SOURCE = Path(__file__).with_name("clock_reads.v")

# What is said to read the clock in each module.
READERS = {
    "clock_gated": r"node \d+ \(\w+\), on the way to output sclk,",
    "clock_shown": r"node \d+ \(Output sclk\)",
    "clock_sampled": r"the data of register q",
    "clock_enables": r"the enable of register q",
    "clock_resets": r"node \d+ \(\w+\), on the way to the reset of register q,",
}


class ClockReads(Case):
    """From Verilog to refusal 30."""

    def converted(self, flow: str, top: str) -> subprocess.CompletedProcess:
        """A module through a flow of yosys, and what the conversion of its netlist says; its record is the file of its name."""
        run("yosys", "-q", "-p", f"{flow.format(source=SOURCE, top=top)}; write_json {self.path('netlist.json')}")
        return struo("convert", self.path("netlist.json"), self.path(top), "--x", "0")

    def test_each_reading_is_refused_by_name(self):
        for flow in (GOLD, GATE):
            for top, reader in READERS.items():
                with self.subTest(top, reduced=flow is GATE):
                    ended = self.converted(flow, top)
                    self.assertEqual(ended.returncode, 4)
                    self.assertRegex(ended.stdout.decode(), rf"^Refused: .*netlist\.json: {reader} reads the clock clk \(Input, node 0\) of register q; .* \(30 ClockRead, node 0\)\n$")
                    self.assertFalse(Path(self.path(top)).exists())

    def test_a_gated_clock_of_a_register_is_no_input(self):
        for flow in (GOLD, GATE):
            ended = self.converted(flow, "clock_of_a_gate")
            self.assertEqual(ended.returncode, 4)
            self.assertRegex(ended.stdout.decode(), r"the clock of register q is node \d+ \(\w+\), and no Input \(15 UnsupportedClock, register 0\)\n$")

    def test_an_enable_is_accepted(self):
        records = []
        for flow in (GOLD, GATE):
            self.assertEqual(self.converted(flow, "enabled").returncode, 0)
            records.append(Path(self.path("enabled")).rename(self.path(f"enabled{len(records)}")))
        ended = struo("check", *map(str, records))
        self.assertEqual((ended.returncode, ended.stdout[:12]), (0, b"Equivalent: "))


if __name__ == "__main__":
    unittest.main()
