"""Every exit status, as a program ends with it: also with closed pipes, closed outputs and full disks."""
from __future__ import annotations

import os
import subprocess
import sys
import unittest
from unittest import mock

from support import INVERTER, ROOT, WIRE, Case, inside, program
import designs
from struo import command, library
from struo.answers import ReplayAnswer


class Statuses(Case):
    """0 to 4, 64, 66, 69, 70 and 74."""

    def pair(self, gold, gate):
        """The files of two designs."""
        return self.file("gold", gold), self.file("gate", gate)

    def test_verdicts(self):
        self.assertEqual(program("check", WIRE, WIRE).status, 0)
        self.assertEqual(program("check", WIRE, INVERTER).status, 1)
        self.assertEqual(program("check", *self.pair(designs.row("p", "q"), designs.holding()), "--depth", "1").status, 2)
        self.assertEqual(program("check", *self.pair(designs.multiplied(7, False, False), designs.multiplied(7, True, True))).status, 3)
        self.assertEqual(program("check", WIRE, WIRE, "--depth", "0").status, 4)

    def test_replays(self):
        claim = self.file("claim", "cycle 0\n0\n1\n")
        self.assertEqual(program("replay", WIRE, INVERTER, "--claim", claim).status, 0)
        self.assertEqual(program("replay", WIRE, WIRE, "--claim", claim).status, 1)
        self.assertEqual(program("replay", WIRE, self.file("bad", b""), "--claim", claim).status, 4)

    def test_wrong_usage(self):
        for words in ([], ["chek"], ["check"], ["check", WIRE], ["check", WIRE, WIRE, "--depth", "x"], ["check", WIRE, WIRE, "--depth", "-1"],
                      ["check", WIRE, WIRE, "--limit", "x"], ["check", WIRE, WIRE, "--limit", "-1"], ["check", WIRE, WIRE, "--limit"],
                      ["check", WIRE, WIRE, "--earliest=yes"], ["check", WIRE, WIRE, "--early"], ["read", WIRE, "--earliest"],
                      ["check", WIRE, WIRE, "--dep", "1"], ["read"], ["replay", WIRE, WIRE], ["convert", "a", "b", "--x", "2"], ["check", WIRE, WIRE, WIRE]):
            ended = inside(*words)
            self.assertEqual((ended.status, ended.out), (64, ""), words)
            self.assertTrue(ended.err.startswith("usage: struo"), ended.err)
        self.assertEqual(program("chek").status, 64)

    def test_files_that_cannot_be_read(self):
        for words in (["check", WIRE, self.path("none")], ["check", str(ROOT), WIRE], ["read", self.path("none")], ["show", self.path("none")],
                      ["replay", WIRE, WIRE, "--claim", self.path("none")], ["convert", self.path("none"), self.path("out")],
                      ["read", ""]):
            ended = inside(*words)
            self.assertEqual((ended.status, ended.out), (66, ""), words)
            self.assertIn("cannot be read", ended.err)
        self.assertEqual(program("read", self.path("none")).status, 66)

    def test_files_of_another_form(self):
        for name, text in (("claim", "cycle\n"), ("words", "cycle 0 y"), ("large", "cycle 0\n256\n"), ("empty", "")):
            ended = inside("replay", WIRE, WIRE, "--claim", self.file(name, text))
            self.assertEqual((ended.status, ended.out), (66, ""), text)
        self.assertEqual(inside("replay", WIRE, WIRE, "--claim", self.file("bytes", b"\xff\xfe")).status, 66)
        for text in ("", "{}", "[]", '{"modules": {}}', '{"modules": 5}', "[" * 100000):
            self.assertEqual(inside("convert", self.file("n.json", text), self.path("out")).status, 66, text[:20])

    def test_no_library(self):
        self.assertEqual(program("read", WIRE, env={**os.environ, "STRUO_LIBRARY": self.path("none")}).status, 69)
        broken = program("read", WIRE, env={**os.environ, "STRUO_LIBRARY": WIRE})
        self.assertEqual((broken.status, broken.out), (69, ""))
        self.assertIn("cannot be loaded", broken.err)

    def test_a_run_that_disagrees_with_the_library(self):
        with mock.patch.object(library.Library, "replay", lambda *words: ReplayAnswer(None, False)):
            ended = inside("check", WIRE, INVERTER, "--vcd", self.path("wave.vcd"))
        self.assertEqual((ended.status, ended.out), (70, ""))
        self.assertFalse(os.path.exists(self.path("wave.vcd")))

    def test_a_fault_is_no_verdict(self):
        with mock.patch.object(library.Library, "check", lambda *words: 1 // 0):
            ended = inside("check", WIRE, WIRE)
        self.assertEqual((ended.status, ended.out), (70, ""))
        self.assertIn("a fault of this front end", ended.err)

    def test_every_ending_has_its_status(self):
        self.assertEqual(sorted(command.ENDINGS.values()), [64, 66, 69, 70, 74])


class Unwritten(Case):
    """74: output that could not be written, whatever the verdict was."""

    def test_a_full_disk(self):
        with open("/dev/full", "wb") as full:
            for words in (["check", WIRE, WIRE], ["check", WIRE, INVERTER, "--json"], ["read", WIRE], ["show", WIRE], ["version"], ["--help"]):
                ended = program(*words, stdout=full)
                self.assertEqual(ended.status, 74, words)
                self.assertIn("No space left on device", ended.err)

    def test_a_closed_pipe(self):
        read, write = os.pipe()
        os.close(read)
        try:
            ended = program("check", WIRE, WIRE, stdout=write)
        finally:
            os.close(write)
        self.assertEqual(ended.status, 74)
        self.assertIn("Broken pipe", ended.err)
        self.assertNotIn("Traceback", ended.err)

    def test_a_closed_output(self):
        words = f'exec {sys.executable} {ROOT / "struo"} check {WIRE} {INVERTER} --claim {self.path("claim")} >&-'
        self.assertEqual(subprocess.run(["sh", "-c", words], stderr=subprocess.DEVNULL, timeout=60).returncode, 74)
        closed = f'exec {sys.executable} {ROOT / "struo"} check {WIRE} {WIRE} 2>&- <&-'
        ended = subprocess.run(["sh", "-c", closed], stdout=subprocess.PIPE, timeout=60)
        self.assertEqual(ended.returncode, 0)
        self.assertTrue(ended.stdout.startswith(b"Equivalent: "))

    def test_files_that_were_asked_for(self):
        for option in ("--claim", "--vcd", "--sheet"):
            for path in ("/dev/full", self.path("none/file")):
                ended = program("check", WIRE, INVERTER, option, path)
                self.assertEqual(ended.status, 74, option)
                self.assertTrue(ended.out.startswith("NOT EQUIVALENT: "))
                self.assertIn("cannot be written", ended.err)

    def test_one_file_keeps_no_other_from_being_written(self):
        ended = inside("check", WIRE, INVERTER, "--sheet", "/dev/full", "--claim", self.path("claim"), "--vcd", self.path("wave"))
        self.assertEqual(ended.status, 74)
        self.assertTrue(os.path.exists(self.path("claim")) and os.path.exists(self.path("wave")))

    def test_explanations_that_are_lost_change_nothing(self):
        with open("/dev/full", "wb") as full:
            ended = subprocess.run([sys.executable, str(ROOT / "struo"), "check", WIRE, INVERTER], stdout=subprocess.PIPE, stderr=full, timeout=60)
        self.assertEqual(ended.returncode, 1)


if __name__ == "__main__":
    unittest.main()
