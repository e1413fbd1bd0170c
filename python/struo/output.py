"""Output that is either written whole or answered by a status: the standard output, and the files that a command is asked for."""
from __future__ import annotations

import os
from typing import Union

from .text import shown


class Unwritten(Exception):
    """Output that could not be written; the text says which and why."""


def keep_streams() -> None:
    """A standard stream that is closed gets a place holder, so that no file takes its number; one for the standard output takes no bytes."""
    for number, mode in ((0, os.O_RDONLY), (1, os.O_RDONLY), (2, os.O_WRONLY)):
        try:
            os.fstat(number)
        except OSError:
            os.open(os.devnull, mode)


def write_all(number: int, data: bytes) -> None:
    """All the bytes to an open file: at once, and what a pipe did not take after it."""
    while data:
        data = data[os.write(number, data):]


def answer(text: str) -> None:
    """A line of the standard output, written at once."""
    try:
        write_all(1, (text + "\n").encode("utf-8", "backslashreplace"))
    except OSError as error:
        raise Unwritten(f"the standard output cannot be written: {error.strerror}") from error


def write_file(path: str, data: Union[bytes, str], append: bool = False) -> None:
    """A file with these contents, or with them at its end."""
    contents = data.encode("utf-8", "backslashreplace") if isinstance(data, str) else data
    mode = os.O_WRONLY | os.O_CREAT | (os.O_APPEND if append else os.O_TRUNC)
    try:
        number = os.open(path, mode, 0o666)
        try:
            write_all(number, contents)
        finally:
            os.close(number)
    except OSError as error:
        raise Unwritten(f"{shown(path)} cannot be written: {error.strerror}") from error
