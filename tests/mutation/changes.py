"""The changes of a definition, made from its text by rules."""
import re

from mutation import source as src

PRELUDE = "Rattle.std.specs.Prelude."
# Words that stand for each other, each with its whole name where a file may not import it: '$' for that of the Prelude, '@' for that of `model`.
GROUPS = ["true:$true false:$false", "ltb:$ltb leb:$leb", "eqb:$eqb leb:$leb", "take:$take drop:$drop",
          "min:$min max:$max", "Rising Falling", "High Low", "True False Unassigned", "slot0 slot1 neither",
          "Equivalent NotEquivalent Inconclusive GaveUp", "no_model gave_up out_of_fuel", "And Or Xor", "Ordering.lt Ordering.eq Ordering.gt",
          "FALSE:@Literal.FALSE TRUE:@Literal.TRUE", "and:@Aig.and or:@Aig.or xor:@Aig.xor", "inputs:@Netlist.inputs outputs:@Netlist.outputs",
          "input_name:@Netlist.input_name output_name:@Netlist.output_name", "input_count:@Netlist.input_count output_count:@Netlist.output_count",
          "score_zero:@Sat.score_zero score_one:@Sat.score_one", "≤ <", "Ieee.add Ieee.mul Ieee.div", "ceiling rescale_factor decay"]
OPERATORS = ["&&", "||", "+", "-", "*", "/", "%", "++", "∷", "otherwise", ">>=", "≡", "≤", "<", "→", "×", "⊎", "↔", "≢"]
BREAKS = ["=", "in", "let", "λ", ".", "↦", "|", ";", ",", "←", "do", ":"]


def words():
    """By word, those that may stand in its place."""
    table = {}
    for group in GROUPS:
        pairs = [word.partition(":") for word in group.split()]
        for word, other in zip(pairs, pairs[1:] + pairs[:1]):
            table.setdefault(word[0], []).append((other[2] or other[0]).replace("@", "Rattle.model.specs.").replace("$", PRELUDE))
    return table


WORDS = words()


class Change:
    """A definition with one change: its kind, the whole file's text with it, and the lines before and after."""

    def __init__(self, d, kind, text, before, after):
        self.d, self.kind, self.text, self.before, self.after = d, kind, text, before, after

    def label(self):
        return f"{self.d.file}.{self.d.name}: {self.before} -> {self.after}"


def levels(nodes):
    """Every list of siblings of a tree."""
    yield nodes
    for n in nodes:
        if len(n) == 4:
            yield from levels(n[3])


def span(nodes):
    return nodes[0][1], nodes[-1][2]


def exchanged(source, a, b):
    """Two pieces of the source, each in the place of the other."""
    return [(a[0], a[1], source[b[0]:b[1]]), (b[0], b[1], source[a[0]:a[1]])]


def word_changes(before, n, typed, siblings):
    """The changes of one word, given the one before it."""
    word, at = n[0], (n[1], n[2])
    if re.fullmatch(r"\d+|0x[0-9a-f]+", word):
        value = int(word, 0)
        yield "number", [(*at, str(value + 1))]
        if value:
            yield "number", [(*at, str(value - 1))]
    for other in WORDS.get(word, []):
        yield "word", [(*at, other)]
    if word in (".0", ".1"):
        yield "part", [(*at, ".1" if word == ".0" else ".0")]
    of = typed.get(before[0]) if before and src.is_word(before) else None
    for record, others in siblings.get(word[1:], {}).items() if word.startswith(".") else []:
        if (of is None or of == record) and others:
            yield "field", [(*at, "." + others[0])]
    alike = [other for other in typed if typed[other] == typed.get(word)]
    if word in typed and len(alike) > 1:
        yield "variable", [(*at, alike[(alike.index(word) + 1) % len(alike)])]


def application_changes(source, run, signatures):
    """The changes of an application: arguments of one type exchanged, a truth value negated, `suc`, `not` and `¬` dropped, none for some."""
    head = run[0][0] if run else None
    args = run[1:]
    cut = next((i for i, a in enumerate(args) if src.is_word(a) and a[0].startswith(".") and len(a[0]) > 1), len(args))
    typed = list(zip(args[:cut], signatures.get(head, [])))
    for i, (x, kind) in enumerate(typed):
        if kind == "Bool":
            yield "negated", [(x[1], x[2], f"({PRELUDE}not {source[x[1]:x[2]]})")]
        for y, other in typed[i + 1:]:
            if kind == other and source[x[1]:x[2]] != source[y[1]:y[2]]:
                yield "arguments exchanged", exchanged(source, (x[1], x[2]), (y[1], y[2]))
    if head in ("suc", "not") and len(run) == 2:
        yield head + " dropped", [(run[0][1], run[1][2], source[run[1][1]:run[1][2]])]
    if head == "¬":
        yield "¬ dropped", [(run[0][1], run[1][1], "")]
    if head == "some" and len(run) == 2:
        yield "none for some", [(run[0][1], run[1][2], "none")]


def operator_changes(source, left, sign, right):
    """The changes of an operator: an operand dropped, operands exchanged, the other connective."""
    a, b, word = span(left), span(right), sign[0]
    yield f"left operand of {word} dropped", [(a[0], b[0], "")]
    if word != "∷":
        yield f"right operand of {word} dropped", [(a[1], b[1], "")]
    if word in ("++", "otherwise", "-"):
        yield f"operands of {word} exchanged", exchanged(source, a, b)
    if word in ("&&", "||"):
        yield f"connective {word} exchanged", [(sign[1], sign[2], "||" if word == "&&" else "&&")]


def part_changes(source, level, siblings):
    """Values of two fields of one type of a record, and of neighbouring cases of an `elim`, exchanged."""
    for sign in (";", "|"):
        values = []
        for part in src.split(level, sign):
            at = next((i for i, n in enumerate(part) if src.is_word(n, "=", "↦")), len(part))
            if at + 1 < len(part):
                values.append((part[0][0], span(part[at + 1:])))
        for i, (name, a) in enumerate(values):
            for j, (other, b) in enumerate(values[i + 1:]):
                alike = any(other in others for others in siblings.get(name, {}).values()) if sign == ";" else j == 0
                if alike and source[a[0]:a[1]] != source[b[0]:b[1]]:
                    yield "values exchanged", exchanged(source, a, b)


def level_changes(source, level, typed, siblings, signatures):
    """The changes among siblings."""
    for before, n, after in zip([None] + level, level, level[1:] + [None]):
        if src.is_word(n) and not (after and after[0] == "="):
            yield from word_changes(before, n, typed, siblings)
    runs = src.split(level, *OPERATORS, *BREAKS)
    for run in runs:
        yield from application_changes(source, run, signatures)
    signs = [n for n in level if src.is_word(n, *OPERATORS, *BREAKS)]
    for left, sign, right in zip(runs, signs, runs[1:]):
        if sign[0] in OPERATORS and left and right:
            yield from operator_changes(source, left, sign, right)
    yield from part_changes(source, level, siblings)


def scoped(body, lhs, other):
    """Whether what a case's body uses of its own left-hand side is on the other one too."""
    used, own, there = ({t[0] for t in src.tokens(text, 0, len(text)) if t[0] not in "(){}[];,"} for text in (body, lhs, other))
    return used & own <= there


def case_changes(source, cases):
    """Neighbouring cases with each other's bodies."""
    for (lhs, a, b), (other, c, d) in zip(cases, cases[1:]):
        if source[a:b] != source[c:d] and scoped(source[a:b], lhs, other) and scoped(source[c:d], other, lhs):
            yield "cases exchanged", exchanged(source, (a, b), (c, d))


def changes(source, d, siblings, signatures):
    """The changes of a definition: the kind, and the pieces of the source to replace."""
    for lhs, start, end in d.clauses:
        typed = d.parameters(lhs, signatures)
        for level in levels(src.tree(src.tokens(source, start, end))):
            yield from level_changes(source, level, typed, siblings, signatures)
    if d.known is None:
        yield from case_changes(source, d.clauses)


def squeezed(text):
    return re.sub(r"\s+", " ", text).strip()


def changed(source, d, kind, pieces):
    """The change that replaces the pieces, with the lines that it touches."""
    text = source
    for a, b, new in sorted(pieces, reverse=True):
        text = text[:a] + new + text[b:]
    low = source.rfind("\n", 0, min(p[0] for p in pieces)) + 1
    high = source.find("\n", max(p[1] for p in pieces))
    return Change(d, kind, text, squeezed(source[low:high]), squeezed(text[low:high + len(text) - len(source)]))


def all_changes(only):
    """Every change of the definitions reached, of some files or of all, each once."""
    texts = src.sources()
    defs = {f: src.definitions(f, source) for f, source in texts.items()}
    reach, siblings, signatures = src.reached(texts, defs), src.fields(texts), src.signatures_of(texts, defs)
    found = {}
    for f in src.FILES:
        for d in defs[f]:
            if (f, d.name) in reach and (not only or f in only):
                for kind, pieces in changes(texts[f], d, siblings, signatures[f]):
                    c = changed(texts[f], d, kind, pieces)
                    if c.text != texts[f]:
                        found.setdefault(c.label(), c)
    return list(found.values())


def few(found, most):
    """At most so many changes of one kind of each definition."""
    counts, kept = {}, []
    for c in found:
        key = (c.d.file, c.d.name, c.kind)
        counts[key] = counts.get(key, 0) + 1
        if most is None or counts[key] <= most:
            kept.append(c)
    return kept
