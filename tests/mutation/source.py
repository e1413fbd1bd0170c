"""The definitions of `model` as text: their clauses, tokens, types and imports, and which of them a contract or a promise reaches."""
import os
import re

ROOT = os.path.dirname(os.path.dirname(os.path.dirname(os.path.abspath(__file__))))
SPECS = os.path.join(ROOT, "crates", "model", "specs")
# The files of `model`: closed cases, and definitions.
with open(os.path.join(SPECS, "Lib.antt"), encoding="utf-8") as lib:
    MODULES = [line.split()[-1] for line in lib if line.strip()]
CASES = [name for name in MODULES if name.endswith(("Cases", "States"))]
FILES = [name for name in MODULES if name not in CASES]
# The types of the arguments of what the libraries have; those whose order is of no account are left out.
LIBRARY = {"ltb": "ℕ ℕ", "leb": "ℕ ℕ", "lt": "Float Float", "compare": "ℕ ℕ", "cond": "Bool A A", "get_or": "L ℕ A", "set": "L ℕ A", "take": "ℕ L", "drop": "ℕ L", "replicate": "ℕ A",
           "Ieee.div": "F Float Float"}
# A projection is a token of its own (`.field`, also where it is written tight behind a value); a name of another file is one with its file.
TOKEN = re.compile(r"[(){}\[\];,]|λ|\.[\w«»]+|(?:[A-Z]\w*\.)*[^\s(){}\[\];,.]+(?:\.(?=\s))?|\.")
USE = re.compile(r"^(?:pub )?(?:ghost )?use Rattle\.model\.specs\.(\w+)(?:\.\{([^}]*)\}| as (\w+))", re.M)


def read(path):
    with open(path, encoding="utf-8") as f:
        return f.read()


def sources():
    """The text of each file of definitions."""
    return {f: read(os.path.join(SPECS, f + ".antt")) for f in FILES}


class Definition:
    """A definition: its file, name, signature and whole text, and of each clause the left-hand side and where the right-hand side begins and ends.
    A statement is a record or a type with parameters: its clauses are the types of its fields or constructors, each with what is known there."""

    def __init__(self, file, name, signature, clauses, text, known=None):
        self.file, self.name, self.signature, self.clauses, self.text, self.known = file, name, signature, clauses, text, known

    def parameters(self, lhs, signatures):
        """The variables of a clause with their types."""
        return parameters(self.signature, lhs, signatures) if self.known is None else self.known[lhs]


def clauses(source, start, end):
    """The clauses between two places: a line that is not indented begins one."""
    found, at = [], start
    for line in source[start:end].split("\n"):
        if line and not line.startswith((" ", "-", "unfolding")):
            found.append([at, at + len(line)])
        elif found and not line.startswith("unfolding"):
            found[-1][1] = at + len(line)
        at += len(line) + 1
    cuts = [(a, re.search(r" =(?: |\n)", source[a:b]), b) for a, b in found]
    return [(source[a:a + cut.start()], a + cut.end(), b) for a, cut, b in cuts if cut]


def statements(file, source):
    """The records and types of a file that have parameters: what is known in a field are the parameters and the fields before it."""
    found = []
    for m in re.finditer(r"^pub (record|data) (\S+) ((?:[({][^)}]*[)}] ?)+): [^\n]*where\n((?:  [^\n]*\n)+)", source, re.M):
        typed = {name: kind.strip() for names, kind in re.findall(r"\(([^:)]*):([^)]*)\)", m.group(3)) for name in names.split()}
        clauses, known, at = [], {}, m.start(4)
        for line in m.group(4).splitlines():
            field, _, kind = re.sub(r"^  (?:pub )?", "", line).partition(" : ")
            clauses.append((field, at + len(line) - len(kind), at + len(line)))
            known[field] = dict(typed)
            if m.group(1) == "record":
                typed[field] = kind
            at += len(line) + 1
        found.append(Definition(file, m.group(2), "", clauses, m.group(0), known))
    return found


def definitions(file, source):
    """The definitions of a file, in order, each of which ends with an empty line; then its statements."""
    found = []
    for m in re.finditer(r"^(?:unfoldable |abbrev )?(?:pub )?(\S+) : (.*)$", source, re.M):
        end = source.find("\n\n", m.start())
        end = len(source) if end < 0 else end
        if m.group(1) != "all" and not m.group(0).startswith(" ") and m.end() < end:
            found.append(Definition(file, m.group(1), m.group(2), clauses(source, m.end() + 1, end), source[m.start():end]))
    return found + statements(file, source)


def tokens(source, start, end):
    """The tokens of a piece of the source, as (text, start, end)."""
    return [(m.group(0), m.start() + start, m.end() + start) for m in TOKEN.finditer(source[start:end])]


def tree(toks):
    """The tokens with what brackets hold in lists: a group is (bracket, start, end, children), and so is a value with its projections, with '.' for the bracket."""
    stack, opens = [[]], []
    for t in toks:
        if t[0] in ("(", "[", "{"):
            opens.append(t)
            stack.append([])
        elif t[0] in (")", "]", "}"):
            children = stack.pop()
            o = opens.pop()
            stack[-1].append((o[0], o[1], t[2], children))
        elif re.match(r"\.[\w«]", t[0]) and stack[-1] and stack[-1][-1][2] == t[1]:
            of = stack[-1].pop()
            stack[-1].append((".", of[1], t[2], [*(of[3] if of[0] == "." and len(of) == 4 else [of]), t]))
        else:
            stack[-1].append(t)
    return stack[0]


def is_word(n, *texts):
    """Whether a node of the tree is a token, one of these where any are given."""
    return len(n) == 3 and (not texts or n[0] in texts)


def split(nodes, *signs):
    """The parts of siblings between tokens."""
    parts = [[]]
    for n in nodes:
        if is_word(n, *signs):
            parts.append([])
        else:
            parts[-1].append(n)
    return parts


def types_of(signature):
    """The types of the explicit arguments of a signature."""
    types = []
    for part in split(tree(tokens(signature, 0, len(signature))), "→"):
        if part and all(len(g) == 4 and any(is_word(c, ":") for c in g[3]) for g in part):
            for g in part:
                names = split(g[3], ":")[0]
                types += [signature[g[3][len(names) + 1][1]:g[2] - 1]] * len(names) if g[0] == "(" else []
        elif part and not (len(part) == 1 and part[0][0] == "{"):
            types.append(signature[part[0][1]:part[-1][2]])
    return types[:-1]


def bind(n, kind, signatures, typed):
    """Adds the variables of a pattern of this type, with their types."""
    if is_word(n):
        if re.fullmatch(r"[a-z][\w']*", n[0]) and n[0] not in ("zero", "none", "true", "false"):
            typed[n[0]] = kind
    elif any(is_word(c, "∷") for c in n[3]):
        parts = split(n[3], "∷")
        kinds = [kind[5:].strip() if kind.startswith("List ") else kind + "'s"] * (len(parts) - 1) + [kind]
        for part, k in zip(parts, kinds):
            bind(part[0] if len(part) == 1 else ("(", 0, 0, part), k, signatures, typed)
    elif n[3] and is_word(n[3][0]):
        known = {"some": [re.sub(r"^Option \(?(.*?)\)?$", r"\1", kind)], "suc": ["ℕ"]}
        for c, k in zip(n[3][1:], known.get(n[3][0][0]) or signatures.get(n[3][0][0], [])):
            bind(c, k, signatures, typed)


def parameters(signature, lhs, signatures):
    """The variables of a clause with their types."""
    typed = {}
    for n, kind in zip(tree(tokens(lhs, 0, len(lhs)))[1:], types_of(signature)):
        bind(n, kind, signatures, typed)
    return typed


def fields(texts):
    """By field and record, the other fields of the record that have the field's type, from the next one on."""
    siblings = {}
    for source in texts.values():
        for m in re.finditer(r"^pub record (\S+)[^\n]*where\n((?:  pub [^\n]*\n)+)", source, re.M):
            pairs = re.findall(r"  pub (\S+) : (.*)", m.group(2))
            for name, kind in pairs:
                alike = [n for n, k in pairs if k == kind]
                at = alike.index(name) + 1
                siblings.setdefault(name, {})[m.group(1)] = alike[at:] + alike[:at - 1]
    return siblings


def imports(source):
    """What the names of a file stand for: a name for (file, name), an alias for a file."""
    names, aliases = {}, {}
    for m in USE.finditer(source):
        if m.group(3):
            aliases[m.group(3)] = m.group(1)
        for name in (m.group(2) or "").split(","):
            names[name.split(" as ")[-1].strip()] = (m.group(1), name.split(" as ")[0].strip())
    return names, aliases


def own_signatures(source, defs):
    """The types of the arguments of a file's definitions and constructors."""
    own = {d.name: types_of(d.signature) for d in defs}
    for m in re.finditer(r"^pub data [^\n]*where\n((?:  [^\n]*\n)+)", source, re.M):
        for names, signature in re.findall(r"  ([^:\n]*) : (.*)", m.group(1)):
            own.update((name, types_of(signature)) for name in names.split())
    return own


def signatures_of(texts, defs):
    """By file, the types of the arguments of what it names: the libraries', those that it imports, and its own."""
    own = {f: own_signatures(source, defs[f]) for f, source in texts.items()}
    every = {}
    for f, source in texts.items():
        every[f] = {name: kinds.split() for name, kinds in LIBRARY.items()}
        every[f].update((name, own[file][old]) for name, (file, old) in imports(source)[0].items() if old in own.get(file, {}))
        every[f].update(own[f])
    return every


def named_in(text, names, aliases):
    """The definitions that a text names, by a file's imports."""
    words = [t[0] for t in tokens(text, 0, len(text))]
    operators = [o for o in names if o.startswith("◌") and o.strip("◌") in words]
    dotted = [(aliases[w.partition(".")[0]], w.partition(".")[2]) for w in words if "." in w and w.partition(".")[0] in aliases]
    return [names[w] for w in words + operators if w in names] + dotted


def roots():
    """The definitions that the exported functions' contracts name, and those that the promises do."""
    found = []
    for folder, _, files in os.walk(os.path.join(ROOT, "crates")):
        for f in files:
            text = read(os.path.join(folder, f)) if f.endswith(".rt") else ""
            if 'pub extern "C"' in text:
                found += named_in(text, *imports(text))
    for f in (os.path.join("proofs", "Promises.antt"), os.path.join("specs", "Terms.antt")):
        found += imports(read(os.path.join(ROOT, "crates", "laws", f)))[0].values()
    return found


def reached(texts, defs):
    """The definitions that the roots reach, as (file, name)."""
    known = {(d.file, d.name): d for ds in defs.values() for d in ds}
    todo, seen = roots(), set()
    while todo:
        key = todo.pop()
        if key in known and key not in seen:
            seen.add(key)
            names, aliases = imports(texts[key[0]])
            names.update((d.name, (key[0], d.name)) for d in defs[key[0]])
            todo += named_in(known[key].text, names, aliases)
    return seen
