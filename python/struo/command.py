"""The command `struo`: what each of its commands answers, and its exit statuses."""
from __future__ import annotations

import argparse
import json
import signal
import sys
import traceback
from dataclasses import replace
from typing import Callable, Dict, List, Optional, Sequence, Tuple

from . import output
from .answers import Status
from .exits import Exit
from .explain import Question
from .files import RecordFile, Unreadable, load_record, load_text
from .hunt import hunt
from .library import Library, LibraryMissing, open_library
from .options import Usage, parser
from .progress import CheckProgress, tell
from .record import decode
from .report import CheckReport, accepted_words, names, outputs_words, refusal_json, refusal_words, side_json, verdict_json, versions
from .show import show, show_json
from .text import listed, shown
from .trace import Difference, Disagreement, claim_text, parse_claim, replayed, trace_lines
from .version import VERSION
from .waveform import vcd
from .yosys import Unconvertible, convert


def write_files(files: Sequence[Tuple[Optional[str], str, bool]]) -> None:
    """Each file that was asked for, as path, contents and whether they go to its end; one that cannot be written keeps no other from being written."""
    faults = []
    for path, contents, append in files:
        try:
            if path is not None:
                output.write_file(path, contents, append)
        except output.Unwritten as fault:
            faults.append(fault)
    if faults:
        raise faults[0]


def difference_of(library: Library, report: CheckReport) -> Optional[Difference]:
    """The trace of NotEquivalent, replayed by the library."""
    claim = report.claim
    return None if claim is None else replayed(library, report.gold.record, report.gate.record, claim)


def checked(library: Library, gold: RecordFile, gate: RecordFile, depth: int, limit: int, earliest: bool, hunting: bool) -> CheckReport:
    """A check, with a hunt where it is asked for and a verdict is missing, and the trace of a difference in names."""
    with CheckProgress(f"checking to depth {depth}"):
        answer = library.check(gold.record, gate.record, depth, limit, earliest)
    found = None
    if hunting and answer.status in (Status.INCONCLUSIVE, Status.GAVE_UP):
        with CheckProgress("hunting for a difference"):
            found = hunt(library, gold.record, gate.record, answer, depth, limit, earliest)
    report = CheckReport(library, gold, gate, depth, limit, earliest, answer, found, None)
    return replace(report, difference=difference_of(library, report))


def check_command(options: argparse.Namespace) -> Exit:
    """`check GOLD GATE`."""
    gold, gate = load_record(options.gold), load_record(options.gate)
    report = checked(open_library(), gold, gate, options.depth, options.limit, options.earliest, options.hunt)
    files = [(options.sheet, report.sheet(), True)]
    difference = report.difference
    if difference is not None:
        files += [(options.claim, claim_text(decode(gold.record), difference.claim), False), (options.vcd, vcd(difference), False)]
    output.answer(report.json() if options.json else report.line())
    for line in (trace_lines(difference) if difference else []) + report.learned_lines() + report.advice():
        tell(line)
    write_files(files)
    return report.exit


def read_one(command: str, library: Library, file: RecordFile, as_json: bool) -> Exit:
    """The answer for one record."""
    refusal = library.read(file.record).refusal
    question = Question(file.record)
    if as_json:
        told = {"accepted": refusal is None, "refusal": refusal_json(refusal, question), **side_json(file, refusal is None), "versions": versions(library)}
        output.answer(verdict_json(command, None, told))
    elif refusal is None:
        output.answer(f"accepted: {accepted_words(file)}")
    else:
        output.answer(f"Refused: {shown(file.path)}: {refusal_words(refusal, question)}")
    return Exit.YES if refusal is None else Exit.REFUSED


def read_command(options: argparse.Namespace) -> Exit:
    """`read RECORD…`: the gravest status of all."""
    library = open_library()
    worst = Exit.YES
    for path in options.records:
        try:
            found = read_one("read", library, load_record(path), options.json)
        except Unreadable as error:
            tell(f"struo: {error}")
            found = Exit.UNREADABLE
        worst = max(worst, found)
    return worst


def replay_words(difference: Difference) -> str:
    """What a replay shows."""
    cycle, first = difference.claim.cycle, difference.first
    if difference.yes:
        return f"yes: in cycle {cycle} {outputs_words(difference.marked)}, and none before"
    if first < cycle:
        return f"no: in cycle {first}, before the claimed cycle {cycle}, {outputs_words(difference.differing(first))}"
    found = difference.differing(cycle)
    marked = f"and {listed(difference.marked)} {'is' if len(difference.marked) == 1 else 'are'} marked" if difference.marked else "and none is marked"
    return f"no: in cycle {cycle} {outputs_words(found) if found else 'no output differs'}, {marked}"


def replay_command(options: argparse.Namespace) -> Exit:
    """`replay GOLD GATE --claim FILE`."""
    gold, gate = load_record(options.gold), load_record(options.gate)
    claim = parse_claim(load_text(options.claim), options.claim)
    library = open_library()
    answer = library.replay(gold.record, gate.record, claim.cycle, claim.data)
    question = Question(gold.record, gate.record, cycle=claim.cycle, claim=claim.data)
    difference = replayed(library, gold.record, gate.record, claim) if answer.refusal is None else None
    words = replay_words(difference) if difference else ""
    if answer.refusal is not None:
        words = f"Refused: {refusal_words(answer.refusal, question)}"
    if options.json:
        told = {"yes": answer.yes, "words": words, "refusal": refusal_json(answer.refusal, question), "cycle": claim.cycle,
                "marked": names(difference.marked) if difference else None, "claim": options.claim,
                "gold": side_json(gold, difference is not None), "gate": side_json(gate, difference is not None), "versions": versions(library)}
        words = verdict_json("replay", None, told)
    output.answer(words)
    if difference is not None:
        write_files([(options.vcd, vcd(difference), False)])
    return Exit.REFUSED if answer.refusal is not None else Exit.YES if answer.yes else Exit.NO


def show_command(options: argparse.Namespace) -> Exit:
    """`show RECORD`."""
    file = load_record(options.record)
    library = open_library()
    refusal = library.read(file.record).refusal
    if refusal is not None:
        return read_one("show", library, file, options.json)
    design = decode(file.record)
    if options.json:
        output.answer(verdict_json("show", None, {"file": file.path, "sha256": file.sha256, **show_json(design)}))
    else:
        output.answer(show(design))
    return Exit.YES


def convert_command(options: argparse.Namespace) -> Exit:
    """`convert FILE.json OUT`: written only where the library accepts the record."""
    try:
        converted = convert(load_text(options.netlist), options.netlist, options.top, options.x)
    except Unconvertible as error:
        words = f"{shown(options.netlist)}: {error}"
        output.answer(verdict_json("convert", None, {"accepted": False, "words": str(error)}) if options.json else f"Refused: {words}")
        return Exit.REFUSED
    library = open_library()
    file = RecordFile(options.out, converted.record)
    refusal = library.read(file.record).refusal
    if refusal is None:
        output.write_file(options.out, file.record)
    question = Question(file.record)
    if options.json:
        told = {"accepted": refusal is None, "refusal": refusal_json(refusal, question), **side_json(file, refusal is None), "notes": converted.notes}
        output.answer(verdict_json("convert", None, told))
    elif refusal is None:
        output.answer(f"accepted: {accepted_words(file)}")
    else:
        output.answer(f"Refused: {shown(options.netlist)}: {refusal_words(refusal, question)}")
    for note in converted.notes:
        tell(f"struo: {note}")
    return Exit.YES if refusal is None else Exit.REFUSED


def version_command(options: argparse.Namespace) -> Exit:
    """`version`."""
    made = versions(open_library())
    if options.json:
        output.answer(json.dumps(made))
    else:
        output.answer(f"struo {VERSION}, record version {made['record']}, library {shown(made['library'])} with SHA-256 {made['library_sha256']}")
    return Exit.YES


COMMANDS: Dict[str, Callable[[argparse.Namespace], Exit]] = {
    "check": check_command, "read": read_command, "replay": replay_command, "show": show_command, "convert": convert_command,
    "version": version_command,
}

# How a command ends that cannot answer.
ENDINGS = {Usage: Exit.USAGE, Unreadable: Exit.UNREADABLE, LibraryMissing: Exit.NO_LIBRARY, Disagreement: Exit.FAULT,
           output.Unwritten: Exit.UNWRITTEN}


def run(words: Sequence[str]) -> int:
    """The status of a command given by its words."""
    try:
        options = parser().parse_args(words)
        return COMMANDS[options.command](options)
    except tuple(ENDINGS) as error:
        tell(str(error) if isinstance(error, Usage) else f"struo: {error}")
        return ENDINGS[type(error)]
    except Exception:
        tell(f"struo: a fault of this front end\n{traceback.format_exc()}")
        return Exit.FAULT


def main(words: Optional[List[str]] = None) -> int:
    """The whole command. An interrupt ends it at once, also inside a call of the library."""
    signal.signal(signal.SIGINT, signal.SIG_DFL)
    output.keep_streams()
    return int(run(sys.argv[1:] if words is None else words))
