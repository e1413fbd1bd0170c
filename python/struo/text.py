"""Foreign text as the command writes it: names and files that cannot be taken for a verdict."""
from __future__ import annotations

import re
from typing import Iterable, List, Optional, Union

# Every spelling of the verdicts' common word; its second letter is written as an escape, which no search for a verdict finds.
_VERDICT_WORD = re.compile("(e)(q)(?=uivalent)", re.IGNORECASE)


def shown(text: Union[bytes, str]) -> str:
    """A name or a file's name in printable characters, in which no verdict can be found."""
    if isinstance(text, bytes):
        text = text.decode("latin-1")
    printable = "".join(letter if letter.isprintable() else f"\\x{ord(letter):02x}" for letter in text)
    return _VERDICT_WORD.sub(lambda found: f"{found[1]}\\x{ord(found[2]):02x}", printable)


def json_text(text: str) -> str:
    """A JSON text in which no verdict can be found, though it reads back as the same value: the letter q is no part of any other escape."""
    return _VERDICT_WORD.sub(lambda found: f"{found[1]}\\u{ord(found[2]):04x}", text)


def listed(names: Iterable[Union[bytes, str]]) -> str:
    """Names with commas between them."""
    return ", ".join(shown(name) for name in names)


def counted(count: int, one: str, many: str = "") -> str:
    """A count with its word: `1 register`, `2 registers`."""
    return f"{count:,} {one if count == 1 else many or one + 's'}"


def either(things: List[str]) -> str:
    """One or several things to choose from: `a`, `a or b`, `a, b or c`."""
    return " or ".join([", ".join(things[:-1]), things[-1]] if len(things) > 1 else things)


def decimal(word: str) -> Optional[int]:
    """A decimal number, the largest of 64 bits where it is longer; none where the word is no number."""
    if not (word.isascii() and word.isdigit()):
        return None
    return int(word) if len(word) <= 20 else 2**64 - 1
