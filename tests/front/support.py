"""What the tests share: the command run as a program or inside this process, and files in a folder of their own."""
from __future__ import annotations

import os
import subprocess
import sys
import tempfile
import unittest
from dataclasses import dataclass
from pathlib import Path
from typing import Union

ROOT = Path(__file__).resolve().parents[2]
sys.path.insert(0, str(ROOT / "python"))

from struo.command import run  # noqa: E402
from struo.record import Design, encode  # noqa: E402

EXAMPLES = ROOT / "examples"
WIRE = str(EXAMPLES / "wire.struo")
INVERTER = str(EXAMPLES / "inverter.struo")


@dataclass
class Ended:
    """How a command ended, and what it wrote."""

    status: int
    out: str
    err: str


def program(*words: str, **more) -> Ended:
    """The command as a program of its own."""
    more.setdefault("stdout", subprocess.PIPE)
    ended = subprocess.run([sys.executable, str(ROOT / "struo"), *words], stdin=subprocess.DEVNULL, stderr=subprocess.PIPE, timeout=60, **more)
    return Ended(ended.returncode, (ended.stdout or b"").decode(), ended.stderr.decode())


def inside(*words: str) -> Ended:
    """The command inside this process, with both outputs caught."""
    kept = [os.dup(number) for number in (1, 2)]
    with tempfile.TemporaryFile() as out, tempfile.TemporaryFile() as err:
        try:
            for file, number in ((out, 1), (err, 2)):
                os.dup2(file.fileno(), number)
            status = run(words)
        finally:
            for old, number in zip(kept, (1, 2)):
                os.dup2(old, number)
                os.close(old)
        texts = []
        for file in (out, err):
            file.seek(0)
            texts.append(file.read().decode())
    return Ended(int(status), *texts)


class Case(unittest.TestCase):
    """A test with a folder of its own."""

    maxDiff = None

    def setUp(self) -> None:
        folder = tempfile.TemporaryDirectory()
        self.addCleanup(folder.cleanup)
        self.folder = Path(folder.name)

    def path(self, name: str) -> str:
        """A file's path in the folder."""
        return str(self.folder / name)

    def file(self, name: str, contents: Union[bytes, str, Design]) -> str:
        """A file with these contents, or with the record of a design."""
        data = encode(contents) if isinstance(contents, Design) else contents.encode() if isinstance(contents, str) else contents
        Path(self.path(name)).write_bytes(data)
        return self.path(name)
