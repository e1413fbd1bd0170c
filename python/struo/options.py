"""The words of the command: its commands, their options, and what is wrong usage."""
from __future__ import annotations

import argparse

from .answers import LEARNED_LIMIT
from .output import answer
from .text import decimal, shown

DEFAULT_DEPTH = 8

DESCRIPTION = "Says whether two netlists can ever differ: gold, as designed, and gate, as the tools reduced it."
EPILOG = ("Exit status: 0 Equivalent, accepted or yes; 1 NOT EQUIVALENT or no; 2 Inconclusive; 3 GaveUp; 4 refused; 64 wrong usage; "
          "66 a file that cannot be read; 69 no library; 70 a fault of this front end; 74 output that could not be written.")


class Usage(Exception):
    """Words that are no command; the text says how it is called."""


class Parser(argparse.ArgumentParser):
    """A parser that leaves all output and the exit status to the command."""

    def error(self, message: str) -> None:  # type: ignore[override]
        """Wrong usage."""
        raise Usage(f"{self.format_usage()}{self.prog}: {shown(message)}")

    def print_help(self, file=None) -> None:
        """Help is an answer."""
        answer(self.format_help().rstrip("\n"))


def number(word: str) -> int:
    """A depth or a limit: a decimal number."""
    found = decimal(word)
    if found is None:
        raise argparse.ArgumentTypeError(f"{shown(word)} is no number")
    return found


def parser() -> Parser:
    """The command's words."""
    whole = Parser(prog="struo", description=DESCRIPTION, epilog=EPILOG, allow_abbrev=False)
    commands = whole.add_subparsers(dest="command", metavar="COMMAND", required=True)

    def command(name: str, does: str) -> argparse.ArgumentParser:
        """One command; each can answer in JSON."""
        one = commands.add_parser(name, help=does, description=does, epilog=EPILOG, allow_abbrev=False)
        one.add_argument("--json", action="store_true", help="one line of JSON for each answer")
        return one

    check = command("check", "says whether two designs can ever differ")
    check.add_argument("gold", metavar="GOLD", help="the record of the design as designed")
    check.add_argument("gate", metavar="GATE", help="the record of the design as reduced")
    check.add_argument("--depth", type=number, default=DEFAULT_DEPTH, metavar="D",
                       help=f"the maximum depth of the induction, 1 to 64 (default {DEFAULT_DEPTH})")
    check.add_argument("--limit", type=number, default=LEARNED_LIMIT, metavar="N",
                       help=f"how many literals one query may learn before the check gives up, 0 to {LEARNED_LIMIT} (the default)")
    check.add_argument("--earliest", action="store_true",
                       help="ask of cycle 0 alone first, so that a difference is told in the earliest cycle that any input sequence can show")
    check.add_argument("--hunt", action="store_true", help="after GaveUp or Inconclusive, look for a difference alone")
    check.add_argument("--claim", metavar="FILE", help="where they differ: the trace, as replay takes it")
    check.add_argument("--vcd", metavar="FILE", help="where they differ: the trace on both sides as a waveform")
    check.add_argument("--sheet", metavar="FILE", help="a line at the end of this file for the release sheet")
    read = command("read", "says whether records are accepted")
    read.add_argument("records", metavar="RECORD", nargs="+")
    replay = command("replay", "says whether a claimed trace shows a difference")
    replay.add_argument("gold", metavar="GOLD")
    replay.add_argument("gate", metavar="GATE")
    replay.add_argument("--claim", metavar="FILE", required=True, help="the claimed trace")
    replay.add_argument("--vcd", metavar="FILE", help="the trace on both sides as a waveform")
    command("show", "writes a design in readable form").add_argument("record", metavar="RECORD")
    converted = command("convert", "makes a record from a netlist that yosys wrote with write_json")
    converted.add_argument("netlist", metavar="FILE.json")
    converted.add_argument("out", metavar="OUT", help="the record to write")
    converted.add_argument("--top", metavar="NAME", help="the module (default: the one marked as top, or the only one)")
    converted.add_argument("--x", choices=("0", "1"), metavar="BIT", help="take this bit for every x and every undriven net, which are refused otherwise")
    command("version", "writes the versions of the command and the library")
    return whole
