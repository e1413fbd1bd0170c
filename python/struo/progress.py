"""What is said while something takes long: on the error output, and a changing line only on a terminal."""
from __future__ import annotations

import os
import re
import threading
import time
from types import TracebackType
from typing import List, Optional, Set, Type

# A crate's lines begin with its name, and one of them is the verdict; the last lines sum all crates up.
_BEGUN = re.compile(r"^== (\w+)$")
_PROVED = re.compile(r"^logic=proved ")
_SUMMED = re.compile(r"^(\w+): ok$")


def tell(text: str) -> None:
    """A line on the error output; a lost explanation changes no answer, so that an error there is passed over."""
    put(text + "\n")


def put(text: str) -> None:
    """Text on the error output as it is."""
    try:
        data = text.encode("utf-8", "backslashreplace")
        while data:
            data = data[os.write(2, data):]
    except OSError:
        pass


def on_terminal() -> bool:
    """Whether the error output is a terminal."""
    try:
        return os.isatty(2)
    except OSError:
        return False


def duration(seconds: float) -> str:
    """A time in minutes and seconds."""
    minutes, rest = divmod(int(seconds), 60)
    return f"{minutes} min {rest:02d} s" if minutes else f"{rest} s"


class Ticker:
    """A line that is written anew each second on a terminal, from a second after the start on, and is removed at the end."""

    def __init__(self) -> None:
        self.began = time.monotonic()
        self._ended = threading.Event()
        self._thread = threading.Thread(target=self._tick, daemon=True)
        self._shown = False

    def text(self) -> str:
        """What the line says now."""
        raise NotImplementedError

    @property
    def time(self) -> str:
        """The time so far."""
        return duration(time.monotonic() - self.began)

    def _tick(self) -> None:
        """Writes the line until the end."""
        while not self._ended.wait(1.0):
            put(f"\r\033[K{self.text()}")
            self._shown = True

    def __enter__(self):
        """Begins, on a terminal."""
        if on_terminal():
            self._thread.start()
        return self

    def __exit__(self, kind: Optional[Type[BaseException]], value: Optional[BaseException], trace: Optional[TracebackType]) -> None:
        """Ends, and removes the line."""
        self._ended.set()
        if self._thread.is_alive():
            self._thread.join()
        if self._shown:
            put("\r\033[K")


class CheckProgress(Ticker):
    """The line of a check that takes longer than a second."""

    def __init__(self, what: str) -> None:
        super().__init__()
        self.what = what

    def text(self) -> str:
        """What is asked, and the time so far."""
        return f"struo: {self.what}, {self.time} so far"


class BuildProgress(Ticker):
    """How many crates of all are proved: one changing line on a terminal, else a line for each."""

    def __init__(self, crates: List[str]) -> None:
        super().__init__()
        self.crates: Set[str] = set(crates)
        self.proved: Set[str] = set()
        self.named = ""

    def text(self) -> str:
        """The crates proved of all, and the time so far."""
        return f"struo: {len(self.proved)} of {len(self.crates)} crates proved, {self.time} so far"

    def line(self, line: str) -> None:
        """Counts a line of the toolchain where it says that a crate is proved."""
        begun, summed = _BEGUN.match(line), _SUMMED.match(line)
        if begun:
            self.named = begun[1]
        name = summed[1] if summed else self.named if _PROVED.match(line) else ""
        if name in self.crates - self.proved:
            self.proved.add(name)
            if not on_terminal():
                tell(self.text())
