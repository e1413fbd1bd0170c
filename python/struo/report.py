"""What a check found, told four ways: a line, an explanation, JSON and a line of the release sheet."""
from __future__ import annotations

import hashlib
import json
import time
from dataclasses import dataclass
from typing import Any, Dict, List, Optional

from .answers import LEARNED_LIMIT, CheckAnswer, Refusal, Status
from .explain import Question, explain, reference
from .exits import Exit
from .files import RecordFile
from .hunt import Hunt
from .library import Library
from .pair import largest_depth, named_alike
from .record import decode
from .refusals import BY_NUMBER
from .text import counted, either, json_text, listed, shown
from .trace import Claim, Difference
from .version import RECORD_VERSION, VERSION


def versions(library: Library) -> Dict[str, Any]:
    """What answered: the front end's version, the record's, and the library's digest."""
    return {"struo": VERSION, "record": RECORD_VERSION, "library": str(library.path),
            "library_sha256": hashlib.sha256(library.path.read_bytes()).hexdigest()}


def refusal_words(refusal: Refusal, question: Question) -> str:
    """A refusal in words with its number: `gate: register s[0] has no reset (22 UnknownInitialState, register 0)`."""
    return f"{explain(refusal, question)} ({reference(refusal)})"


def refusal_json(refusal: Optional[Refusal], question: Question) -> Optional[Dict[str, Any]]:
    """A refusal as JSON has it."""
    if refusal is None:
        return None
    return {"number": refusal.number, "name": BY_NUMBER[refusal.number].name, "side": refusal.side.word, "place": refusal.place,
            "words": explain(refusal, question)}


def names(found: List[bytes]) -> List[str]:
    """Names as text."""
    return [name.decode("latin-1") for name in found]


def side_json(file: RecordFile, accepted: bool) -> Dict[str, Any]:
    """A record as JSON has it: file, digest, and the counts of its design where it is accepted."""
    told: Dict[str, Any] = {"file": file.path, "sha256": file.sha256, "bytes": len(file.record) if file.whole else None}
    if accepted:
        design = decode(file.record)
        told.update(design=design.name.decode("latin-1"), inputs=len(design.inputs), outputs=len(design.outputs), nodes=len(design.nodes),
                    registers=len(design.registers))
    return told


def verdict_json(command: str, verdict: Optional[str], rest: Dict[str, Any]) -> str:
    """One line of JSON, in which a search finds a verdict only where it is the answer."""
    return f'{{"command": {json.dumps(command)}, "verdict": {json.dumps(verdict)}, {json_text(json.dumps(rest))[1:]}'


def outputs_words(found: List[bytes]) -> str:
    """`output y differs`, `outputs y, z differ`."""
    return f"output {listed(found)} differs" if len(found) == 1 else f"outputs {listed(found)} differ"


def learned_words(answer: CheckAnswer, limit: int) -> str:
    """How near a check came to giving up: `learned 11,643 of 262,144 literals, most in query 1 of depth 37`."""
    if answer.refusal is not None:
        return "learned nothing: no query was asked"
    if answer.learned == 0 and answer.status is Status.GAVE_UP:
        return f"learned nothing: the first clause, in query {answer.query} of depth {answer.depth}, would have passed the limit of {counted(limit, 'literal')}"
    if answer.learned == 0:
        return "learned nothing: no query had to learn a clause"
    where = f"query {answer.learned_query} of depth {answer.learned_depth}"
    return f"learned {answer.learned:,} of {counted(limit, 'literal')}, most in {where}"


def learned_json(answer: CheckAnswer) -> Dict[str, Any]:
    """What was learned as JSON has it."""
    asked = answer.refusal is None
    return {name: getattr(answer, name) if asked else None for name in ("learned", "learned_depth", "learned_query")}


def proved_words(answer: CheckAnswer) -> str:
    """How far a check that gave up has proved the outputs equal: `proved equal in cycles 0 to 5`."""
    if answer.status is not Status.GAVE_UP:
        return "no query was asked" if answer.status is None else "no query gave up"
    if not answer.equal:
        return "proved equal in no cycle"
    return f"proved equal in cycles 0 to {answer.through}" if answer.through else "proved equal in cycle 0"


def proved_json(answer: CheckAnswer) -> Dict[str, Any]:
    """The same as JSON has it: null where it is not used."""
    gave_up = answer.status is Status.GAVE_UP
    return {"equal": answer.equal if gave_up else None, "through": answer.through if gave_up and answer.equal else None}


@dataclass(frozen=True)
class CheckReport:
    """A check with all that was asked and found."""

    library: Library
    gold: RecordFile
    gate: RecordFile
    depth: int
    limit: int
    earliest: bool
    answer: CheckAnswer
    hunt: Optional[Hunt]
    difference: Optional[Difference]

    @property
    def question(self) -> Question:
        """What was asked."""
        return Question(self.gold.record, self.gate.record, self.depth, limit=self.limit)

    @property
    def hunted(self) -> bool:
        """Whether the hunt found a difference that the library confirmed."""
        return self.hunt is not None and self.hunt.confirmed

    @property
    def deciding(self) -> CheckAnswer:
        """The answer that the verdict is from."""
        return self.hunt.answer if self.hunt is not None and self.hunt.confirmed else self.answer

    @property
    def status(self) -> Optional[Status]:
        """The verdict, or none where the check was refused."""
        return self.deciding.status

    @property
    def claim(self) -> Optional[Claim]:
        """The trace of NotEquivalent, as a replay takes it."""
        return Claim(self.deciding.mismatch, self.deciding.trace) if self.status is Status.NOT_EQUIVALENT else None

    @property
    def exit(self) -> Exit:
        """The command's status."""
        return Exit.REFUSED if self.status is None else Exit(self.status)

    def detail(self) -> str:
        """What stands behind the verdict's word on the line."""
        if self.answer.refusal is not None:
            return refusal_words(self.answer.refusal, self.question)
        if self.status is Status.EQUIVALENT:
            return f"the outputs agree in every cycle of every input sequence (proved at depth {self.answer.depth} of {self.depth})"
        if self.difference is not None:
            earliest = ", and that is the earliest cycle that any input sequence can show" if self.is_earliest else ""
            return f"in cycle {self.difference.claim.cycle} {outputs_words(self.difference.marked)}{earliest} ({self.how()})"
        alike = named_alike(decode(self.gold.record), decode(self.gate.record)).words
        if self.status is Status.INCONCLUSIVE:
            return f"no pass: neither a difference nor a proof up to depth {self.depth}; {alike}"
        alone, nothing = (", cycle 0 alone,", "nothing is proved: ") if self.answer.query == 0 else ("", "")
        beyond = ", and nothing is proved of later ones" if self.answer.equal else ""
        return (f"no pass: query {self.answer.query} at depth {self.answer.depth}{alone} reached the limit of {counted(self.limit, 'learned literal')}; "
                f"{nothing}the outputs are {proved_words(self.answer)}{beyond}; {alike}")

    def proves_earliest(self, answer: CheckAnswer) -> bool:
        """Whether the library's NotEquivalent says of the records that it was asked about that no input sequence shows an earlier cycle: in the mode of the earliest
        cycle, and from depth 2 on."""
        return self.earliest or answer.depth > 1

    @property
    def is_earliest(self) -> bool:
        """Whether that is proved of the two records as they are: of a hunt's difference, where the check before the hunt proved every earlier cycle."""
        if not self.hunted:
            return self.proves_earliest(self.answer)
        inconclusive = self.answer.status is Status.INCONCLUSIVE
        proved = self.depth if inconclusive else self.answer.through
        return (inconclusive or self.answer.equal) and self.deciding.mismatch == proved + 1

    def how(self) -> str:
        """How a difference was found."""
        if not self.hunted or self.answer.status is None:
            return f"found at depth {self.answer.depth} of {self.depth}"
        of_renamed = self.proves_earliest(self.deciding) and not self.is_earliest
        renamed = "; that no input sequence shows an earlier cycle is proved with gate's registers renamed" if of_renamed else ""
        return (f"found by a hunt after {self.answer.status.word} at depth {self.answer.depth}, and confirmed by a replay of the two records as they are"
                f"{renamed}")

    def line(self) -> str:
        """The answer, one line."""
        word = "Refused" if self.status is None else self.status.word
        return f"{word}: {self.detail()}"

    def learned_lines(self) -> List[str]:
        """How near an accepted check came to giving up, and what helps where that was near."""
        if self.answer.refusal is not None:
            return []
        gave_up = self.answer.status is Status.GAVE_UP
        lines = [learned_words(self.answer, self.limit)]
        if gave_up or self.answer.near(self.limit):
            deep = self.answer.depth if gave_up else self.answer.learned_depth
            helps = ["a larger limit"] * (self.limit < LEARNED_LIMIT) + ["splitting the design"] + ["a smaller depth"] * (deep > 1)
            lines.append(f"The search came {'to' if gave_up else 'near'} its limit: {either(helps)} helps.")
        return lines

    def advice(self) -> List[str]:
        """What can be tried where a verdict is missing."""
        if self.status not in (Status.INCONCLUSIVE, Status.GAVE_UP):
            return []
        gold, gate = decode(self.gold.record), decode(self.gate.record)
        fits, alike = largest_depth(gold, gate), named_alike(gold, gate)
        lines = ["This is no pass: nothing may be written on the release sheet on its strength. What can be tried:"]
        if self.status is Status.INCONCLUSIVE and self.depth < fits:
            lines.append(f"- a larger depth: up to --depth {fits} fits this pair{', though a query may then give up' if self.answer.near(self.limit) else ''}")
        gave_up = Status.GAVE_UP in (self.status, self.hunt.answer.status if self.hunt else None)
        if gave_up and self.limit < LEARNED_LIMIT:
            lines.append(f"- a larger limit, up to --limit {LEARNED_LIMIT}: it never gets less far")
        if alike.count < min(alike.gold, alike.gate):
            lines.append("- register names kept by the tools, so that more registers are named alike")
        before_proof = self.answer.status is Status.GAVE_UP and self.answer.query <= 1
        if before_proof and self.answer.query == 0:
            lines.append("- the same without --earliest, which leaves query 0 out and asks of cycles 0 and 1 together")
        if self.hunt is None and not before_proof:
            lines.append("- --hunt, which looks for a difference alone")
        return lines + ["- splitting: records with fewer outputs each, and only the logic that these need"] + self.hunt_lines()

    def hunt_lines(self) -> List[str]:
        """What a hunt without a difference asked and was answered."""
        if self.hunt is None or self.hunted:
            return []
        answer = self.hunt.answer
        if answer.status is Status.EQUIVALENT:
            return [f"The hunt found no difference: with gate's registers renamed the library proves at depth {answer.depth} that there is none. "
                    "That is an answer for the renamed record, not for this one."]
        ended = "" if answer.status is None else f" ({answer.status.word} at depth {answer.depth})"
        return [f"The hunt to depth {self.hunt.depth} with gate's registers renamed found no difference{ended}."]

    def hunt_json(self) -> Optional[Dict[str, Any]]:
        """The hunt as JSON has it."""
        if self.hunt is None:
            return None
        answer = self.hunt.answer
        word = None if answer.status is None else answer.status.word
        return {"asked_depth": self.hunt.depth, "status": word, "depth": answer.depth, "query": answer.query, **learned_json(answer), **proved_json(answer),
                "confirmed_by_replay": self.hunt.confirmed}

    def json(self) -> str:
        """Everything as one line of JSON."""
        accepted = self.answer.refusal is None
        first = self.answer.status
        told: Dict[str, Any] = {
            "exit_status": int(self.exit), "words": self.detail(), "refusal": refusal_json(self.answer.refusal, self.question),
            "asked_depth": self.depth, "limit": self.limit, "earliest": self.earliest, "depth": self.deciding.depth,
            "mismatch": self.deciding.mismatch if self.claim else None,
            "query": self.answer.query if first is Status.GAVE_UP else None, **learned_json(self.answer), **proved_json(self.answer),
            "gold": side_json(self.gold, accepted), "gate": side_json(self.gate, accepted),
            "found_by": None if self.claim is None else "hunt" if self.hunted else "check",
            "first_status": None if first is None else int(first), "hunt": self.hunt_json(), "trace": self.trace_json(),
            "named_alike": named_alike(decode(self.gold.record), decode(self.gate.record)).count if accepted else None,
            "versions": versions(self.library),
        }
        return verdict_json("check", None if self.status is None else self.status.word, told)

    def trace_json(self) -> Optional[Dict[str, Any]]:
        """The trace as JSON has it: names, the inputs of each cycle, and the outputs that differ."""
        if self.difference is None:
            return None
        cycles = self.difference.inputs
        last = self.difference.claim.cycle
        return {"inputs": names(list(cycles[0])), "cycles": [list(row.values()) for row in cycles], "differing": names(self.difference.marked),
                "gold": [self.difference.gold[last].outputs[name] for name in self.difference.marked],
                "gate": [self.difference.gate[last].outputs[name] for name in self.difference.marked]}

    def sheet(self) -> str:
        """One line for the release sheet, its columns apart by tabs."""
        made = versions(self.library)
        columns = [time.strftime("%Y-%m-%dT%H:%M:%SZ", time.gmtime()), "Refused" if self.status is None else self.status.word, self.detail()]
        columns += [f"asked depth {self.depth}", f"depth {self.deciding.depth}"]
        for side, file in (("gold", self.gold), ("gate", self.gate)):
            columns += [f"{side} {shown(file.path)}", f"{side} SHA-256 {file.sha256 or 'none, the file is longer than a record'}"]
        columns += [f"struo {VERSION}", f"record version {RECORD_VERSION}", f"library SHA-256 {made['library_sha256']}"]
        columns += [learned_words(self.answer, self.limit), f"limit {self.limit:,}", proved_words(self.answer)]
        columns += [f"earliest cycle {'asked for' if self.earliest else 'not asked for'}"]
        return "\t".join(columns) + "\n"


def accepted_words(file: RecordFile) -> str:
    """The counts of an accepted record."""
    design = decode(file.record)
    counts = (counted(len(design.inputs), "input"), counted(len(design.outputs), "output"), counted(len(design.nodes), "node"),
              counted(len(design.registers), "register"))
    return f"{shown(file.path)}: design {shown(design.name)}, {', '.join(counts)}"
