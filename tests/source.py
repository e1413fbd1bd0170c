"""What Rattle sources declare: functions with their contracts, structs with their fields. It reads the text, as `rt fmt` writes it, and proves nothing."""
from __future__ import annotations

import re
from dataclasses import dataclass
from pathlib import Path
from typing import Dict, List, Tuple

ROOT = Path(__file__).resolve().parents[1]

# A text by its path under the root.
Texts = Dict[str, str]

# A name and its type.
Typed = Tuple[str, str]


@dataclass(frozen=True)
class Function:
    """A function as its source declares it."""

    path: str
    name: str
    exported: bool
    attributes: str
    comment: str
    parameters: Tuple[Typed, ...]
    answer: str
    requires: str
    ensures: str

    @property
    def crate(self) -> str:
        """The crate that it stands in."""
        return self.path.split("/")[1]


def texts(pattern: str) -> Texts:
    """The files of a pattern."""
    return {str(path.relative_to(ROOT)): path.read_text() for path in sorted(ROOT.glob(pattern))}


def uncommented(text: str) -> str:
    """The text with blanks for its line comments, each character at its place."""
    return re.sub(r"//[^\n]*", lambda found: " " * len(found[0]), text)


def closing(text: str, place: int) -> int:
    """The place of the bracket that closes the one at a place."""
    pairs = {"(": ")", "{": "}", "[": "]"}
    opened, closes = text[place], pairs[text[place]]
    depth = 0
    for at in range(place, len(text)):
        depth += (text[at] == opened) - (text[at] == closes)
        if depth == 0:
            return at
    raise ValueError(f"a bracket is not closed: {text[place:place + 60]!r}")


def split(text: str) -> List[str]:
    """The parts between commas, those inside brackets left whole."""
    parts, depth, begin = [], 0, 0
    for at, letter in enumerate(text):
        depth += (letter in "([{<") - (letter in ")]}>")
        if letter == "," and depth == 0:
            parts.append(text[begin:at])
            begin = at + 1
    return [part.strip() for part in [*parts, text[begin:]] if part.strip()]


def typed(part: str) -> Typed:
    """`name: type`, with one blank where there are several; a `self` has no type."""
    name, _, kind = part.partition(":")
    return name.split()[-1], " ".join(kind.split())


def above(text: str, place: int) -> Tuple[str, str]:
    """The attributes and the comment in the lines just above a place."""
    attributes, comment = [], []
    for line in reversed(text[:place].splitlines()):
        line = line.strip()
        if line.startswith("#["):
            attributes.insert(0, line)
        elif line.startswith("//"):
            comment.insert(0, line.lstrip("/").strip())
        else:
            break
    return " ".join(attributes), " ".join(comment)


def functions(path: str, text: str) -> List[Function]:
    """Every function of a source that is public or exported for C."""
    code = uncommented(text)
    found = []
    for start in re.finditer(r'^[ \t]*(?=pub\b|extern\b)(?:pub\s+)?(extern\s+"C"\s+)?fn\s+(\w+)(?:<[^>]*>)?\s*', code, re.M):
        opened = start.end()
        end = closing(code, opened)
        parameters = tuple(typed(part) for part in split(code[opened + 1:end]))
        answer = re.compile(r"\s*->\s*([^{}]+?)(?=\s*(?:\b(?:requires|ensures|where)\b|\{))").match(code, end + 1)
        at = answer.end() if answer else end + 1
        clauses = {"requires": [], "ensures": []}
        while clause := re.compile(r"\s*\b(requires|ensures)\b\*?(?:\s+\w+)?\s*\{").match(code, at):
            at = closing(code, clause.end() - 1)
            clauses[clause[1]].append(" ".join(code[clause.end():at].split()))
            at += 1
        attributes, comment = above(text, start.start())
        found.append(Function(path, start[2], bool(start[1]), attributes, comment, parameters, answer[1] if answer else "", *(" × ".join(clauses[kind]) for kind in ("requires", "ensures"))))
    return found


def structs(text: str) -> Dict[str, Tuple[Typed, ...]]:
    """The structs of a Rattle or Rust source that are laid out as C does, by name."""
    code = uncommented(text)
    found = {}
    for start in re.finditer(r"#\[repr\(C\)\]\s*(?:#\[[^\]]*\]\s*)*(?:pub\s+)?struct\s+(\w+)\s*\{", code):
        inside = re.sub(r"#\[[^\]]*\]", "", code[start.end():closing(code, start.end() - 1)])
        found[start[1]] = tuple(typed(part) for part in split(inside))
    return found
