"""The files that a command is given: records with their digests, and texts."""
from __future__ import annotations

import hashlib
from dataclasses import dataclass
from typing import Optional

from .record import LONGEST_RECORD
from .text import shown

LONGEST_TEXT = 1 << 30


class Unreadable(Exception):
    """A file that cannot be read, or is not of its form; the text says which and why."""


@dataclass(frozen=True)
class RecordFile:
    """A record and the file that it came from."""

    path: str
    record: bytes

    @property
    def whole(self) -> bool:
        """Whether the file was read to its end: of a longer one than a record can be, only so much is read that it is refused."""
        return len(self.record) <= LONGEST_RECORD

    @property
    def sha256(self) -> Optional[str]:
        """The digest of the file, where it is no longer than a record can be."""
        return hashlib.sha256(self.record).hexdigest() if self.whole else None


def _read(path: str, most: int) -> bytes:
    """The bytes of a file, at most so many."""
    try:
        with open(path, "rb") as file:
            return file.read(most)
    except (OSError, ValueError) as error:
        raise Unreadable(f"{shown(path)} cannot be read: {getattr(error, 'strerror', None) or error}") from error


def load_record(path: str) -> RecordFile:
    """The record in a file."""
    return RecordFile(path, _read(path, LONGEST_RECORD + 1))


def load_text(path: str) -> str:
    """The text in a file."""
    try:
        return _read(path, LONGEST_TEXT).decode("utf-8")
    except UnicodeDecodeError as error:
        raise Unreadable(f"{shown(path)} is no text: {error.reason} at byte {error.start}") from error
