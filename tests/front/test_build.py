"""The first use: the library built with its progress shown, kept, built again for changed sources, and what is said where it cannot be built."""
from __future__ import annotations

import os
import pty
import shutil
import subprocess
import sys
import time
import unittest
from pathlib import Path

from support import ROOT, WIRE, Case, Ended
from struo.build import Build
from struo.progress import duration

ARCHIVE = ROOT / "target" / "staticlib" / "libstruo_formal.a"

# The crates of the stand-in repository, in the order in which they are proved.
CRATES = "model checker struo_formal struo_formal_c"

# Stands for the toolchain's command, run in a crate's folder: says that crates are proved, the last one only in the lines that sum up, and leaves the archive where the toolchain leaves it.
FAKE = """#!/bin/sh
echo "$(/usr/bin/basename "$PWD"): $*" >> "{folder}/calls"
[ -f "{folder}/fail" ] && {{ echo "model: failed (1)"; exit 1; }}
case $1 in
all) for name in {crates}; do
    echo "== $name"; [ $name = struo_formal_c ] || {{ echo "fn $name::one: proved"; echo "logic=proved functions=1"; {sleep} }}
done; echo "== summary"; for name in {crates}; do echo "$name: ok"; done ;;
lib) /bin/mkdir -p out; /bin/cp "{archive}" out/libstruo_formal_c.a ;;
esac
"""


# What the check of a wire against itself says on the error output, where nothing is built.
SAID = "learned nothing: no query had to learn a clause\n"


@unittest.skipUnless(ARCHIVE.exists(), "target/staticlib has no library")
class FirstUse(Case):
    """A repository with a stand-in for the toolchain."""

    def setUp(self) -> None:
        super().setUp()
        self.root = self.folder / "repository"
        shutil.copytree(ROOT / "python", self.root / "python", ignore=shutil.ignore_patterns("__pycache__"))
        shutil.copy(ROOT / "struo", self.root / "struo")
        (self.root / "crates.txt").write_text("# a comment\nmodel:\nchecker: model\nstruo_formal: model checker\nstruo_formal_c staticlib: model struo_formal\nother: model\n")
        (self.root / "tools").mkdir()
        shutil.copy(ROOT / "tools" / "staticlib", self.root / "tools")
        for crate in (*CRATES.split(), "other"):
            (self.root / "crates" / crate / "src").mkdir(parents=True)
            (self.root / "crates" / crate / "src" / "lib.rt").write_text("// nothing\n")
        self.tools = self.folder / "tools"
        self.tools.mkdir()
        for word in ("bash", "dirname", "mkdir", "cp", "mv"):
            self.tools.joinpath(word).symlink_to(shutil.which(word))
        self.toolchain("")

    def toolchain(self, sleep: str) -> None:
        """The stand-in on the path."""
        self.tools.joinpath("rt").write_text(FAKE.format(folder=self.folder, archive=ARCHIVE, crates=CRATES, sleep=sleep))
        self.tools.joinpath("rt").chmod(0o755)

    def environment(self, path: str = "") -> dict:
        """The environment with the stand-in first on the path."""
        kept = {name: value for name, value in os.environ.items() if name not in ("STRUO_LIBRARY", "RATTLE_HOME")}
        return {**kept, "RT_JOBS": "2", "PATH": path or f"{self.tools}:{os.environ['PATH']}"}

    def struo(self, *words: str, **environment: str) -> Ended:
        """The command of this repository."""
        ended = subprocess.run([sys.executable, str(self.root / "struo"), *words], stdout=subprocess.PIPE, stderr=subprocess.PIPE, timeout=60,
                               env={**self.environment(), **environment})
        return Ended(ended.returncode, ended.stdout.decode(), ended.stderr.decode())

    def calls(self) -> list:
        """The commands that the toolchain was given."""
        path = self.folder / "calls"
        return path.read_text().splitlines() if path.exists() else []

    def test_it_is_built_once(self):
        ended = self.struo("check", WIRE, WIRE)
        self.assertEqual((ended.status, ended.out[:12]), (0, "Equivalent: "))
        self.assertEqual(self.calls(), ["struo_formal_c: all check --jobs 2", "struo_formal_c: lib"])
        self.assertTrue(ended.err.endswith(SAID), ended.err)
        lines = ended.err[:-len(SAID)].splitlines()
        self.assertRegex(lines[0], "proved and built first, once: 4 crates, about 8 minutes on two processors")
        self.assertEqual(lines[1], "struo: what the prover says goes to target/struo/build.log")
        self.assertEqual([line.split(" crates")[0] for line in lines[2:6]], [f"struo: {count} of 4" for count in (1, 2, 3, 4)])
        self.assertRegex(lines[-1], r"^struo: proved and built in \d+ s\.$")
        self.assertIn("fn model::one: proved", (self.root / "target" / "struo" / "build.log").read_text())
        again = self.struo("check", WIRE, WIRE)
        self.assertEqual((again.status, again.err, len(self.calls())), (0, SAID, 2))

    def test_changed_sources_are_proved_again(self):
        self.struo("version")
        later = time.time() + 5
        os.utime(self.root / "crates" / "other" / "src" / "lib.rt", (later, later))
        self.struo("version")
        self.assertEqual(len(self.calls()), 2)
        os.utime(self.root / "crates" / "model" / "src" / "lib.rt", (later, later))
        self.struo("version")
        self.assertEqual(len(self.calls()), 4)

    def test_a_proved_archive_is_only_linked(self):
        (self.root / "target" / "staticlib").mkdir(parents=True)
        shutil.copy(ARCHIVE, self.root / "target" / "staticlib")
        ended = self.struo("check", WIRE, WIRE)
        self.assertEqual((ended.status, ended.err, self.calls()), (0, SAID, []))

    def test_an_archive_made_anew_is_linked_anew(self):
        self.struo("version")
        made = self.root / "target" / "struo" / "libstruo_formal.so"
        before, later = made.stat().st_ino, time.time() + 5
        os.utime(self.root / "target" / "staticlib" / "libstruo_formal.a", (later, later))
        self.assertEqual(self.struo("check", WIRE, WIRE).status, 0)
        self.assertNotEqual(made.stat().st_ino, before)
        self.assertEqual(len(self.calls()), 2)

    def test_a_proof_that_fails(self):
        (self.folder / "fail").touch()
        ended = self.struo("check", WIRE, WIRE)
        self.assertEqual((ended.status, ended.out), (69, ""))
        self.assertIn(f"`tools/staticlib struo_formal` ended with status 1; what it said is in {self.root}/target/struo/build.log", ended.err)
        self.assertIn("model: failed", (self.root / "target" / "struo" / "build.log").read_text())

    def test_two_first_runs_build_once(self):
        self.toolchain("sleep 1.5;")
        words = [sys.executable, str(self.root / "struo"), "check", WIRE, WIRE]
        runs = [subprocess.Popen(words, stdout=subprocess.PIPE, stderr=subprocess.PIPE, env=self.environment()) for _ in range(2)]
        texts = [run.communicate(timeout=60) for run in runs]
        self.assertEqual([run.returncode for run in runs], [0, 0])
        self.assertEqual(sorted(b"this one waits" in err for _, err in texts), [False, True])
        self.assertEqual(len(self.calls()), 2)

    def test_a_folder_that_cannot_be_written(self):
        (self.root / "target").write_text("a file where a folder has to be")
        ended = self.struo("check", WIRE, WIRE)
        self.assertEqual((ended.status, ended.out), (69, ""))
        self.assertIn("the library cannot be built", ended.err)

    def test_no_toolchain(self):
        empty = self.folder / "empty"
        empty.mkdir()
        ended = self.struo("check", WIRE, WIRE, PATH=str(empty))
        self.assertEqual((ended.status, ended.out), (69, ""))
        self.assertIn("`rt`, the command of the Rattle toolchain, is not on the path", ended.err)

    def test_the_toolchains_linker_where_there_is_no_compiler(self):
        rt = shutil.which("rt")
        home = rt and Path(rt).resolve().parents[1]
        if not home or not (home / "toolchain" / "bin" / "ld.lld").exists():
            self.skipTest("no toolchain with a linker")
        ended = self.struo("check", WIRE, WIRE, PATH=str(self.tools), RATTLE_HOME=str(home))
        self.assertEqual((ended.status, ended.out[:12]), (0, "Equivalent: "))

    def test_no_linker(self):
        ended = self.struo("check", WIRE, WIRE, PATH=str(self.tools))
        self.assertEqual((ended.status, ended.out), (69, ""))
        self.assertIn("no linker could make target/struo/libstruo_formal.so: there is none", ended.err)

    def test_a_changing_line_on_a_terminal(self):
        self.toolchain("sleep 1.3;")
        shown = self.on_terminal([sys.executable, str(self.root / "struo"), "check", WIRE, WIRE])
        self.assertRegex(shown, r"\r\x1b\[Kstruo: [01234] of 4 crates proved, \d+ s so far")
        self.assertIn("Equivalent: ", shown)

    def on_terminal(self, words: list) -> str:
        """What a program writes to a terminal."""
        master, slave = pty.openpty()
        with subprocess.Popen(words, stdin=slave, stdout=slave, stderr=slave, env=self.environment()) as child:
            os.close(slave)
            parts = []
            while True:
                try:
                    part = os.read(master, 4096)
                except OSError:
                    break
                if not part:
                    break
                parts.append(part)
        os.close(master)
        self.assertEqual(child.returncode, 0)
        return b"".join(parts).decode()


class Progress(Case):
    """What is said while a check takes long."""

    def test_a_line_on_a_terminal_alone(self):
        script = ("import sys, time; sys.path.insert(0, sys.argv[1]); from struo.progress import CheckProgress\n"
                  "with CheckProgress('checking to depth 8'): time.sleep(1.3)")
        words = [sys.executable, "-c", script, str(ROOT / "python")]
        self.assertEqual(subprocess.run(words, stderr=subprocess.PIPE, timeout=60).stderr, b"")
        master, slave = pty.openpty()
        subprocess.run(words, stderr=slave, timeout=60)
        os.close(slave)
        self.assertRegex(os.read(master, 4096), rb"^(\r\x1b\[Kstruo: checking to depth 8, \d+ s so far)+\r\x1b\[K$")
        os.close(master)

    def test_durations(self):
        self.assertEqual([duration(seconds) for seconds in (0.9, 59, 60, 491)], ["0 s", "59 s", "1 min 00 s", "8 min 11 s"])

    def test_the_crates_that_the_library_needs(self):
        crates = Build(ROOT).crates()
        self.assertEqual(crates[-2:], ["struo_formal", "struo_formal_c"])
        self.assertEqual(len(crates), len(set(crates)))
        self.assertIn("model", crates)
        self.assertNotIn("vectors", crates)


if __name__ == "__main__":
    unittest.main()
