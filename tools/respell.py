#!/usr/bin/env python3
"""Brings the repository's own definitions and lemmas to the library's spelling.

usage: python3 tools/respell.py          at the top of the repository, once, right after the toolchain's port.py

Words are in snake case, in .antt files, in the clauses of .rt files and in must-fail edits; a dash in a name stays only
between two names of definitions, else it becomes '_'. Functions of src/, types, modules, constructors, constants and
strings keep their spelling. With --look it changes nothing, and prints the names that would fall together.
"""
import collections
import os
import re
import sys

ROOT = os.getcwd()
WORD = re.compile(r"[^\s(){}\[\],;.\"`⌜⌝:|]+")
CAMEL = re.compile(r"^[a-z][a-z0-9_]*[A-Z]")
DECLARED = re.compile(r"^( *)((?:unfoldable |abbrev )?)((?:pub )?)([^\s(){}\[\],;.\"]+) : ")
# parts of old names that name what the library now calls otherwise
PARTS = {"getD": "get_or", "getElem": "get_elem", "xorBool": "xor_bool"}


def snake(part):
    if part in PARTS:
        return PARTS[part]
    part = re.sub(r"([A-Z]+)([A-Z][a-z])", r"\1_\2", part)
    return re.sub(r"([a-z0-9])([A-Z])", r"\1_\2", part).lower()


def files():
    for folder, dirs, names in os.walk(os.path.join(ROOT, "crates")):
        dirs[:] = sorted(d for d in dirs if d != "out")
        for n in sorted(names):
            if n.endswith((".antt", ".rt", ".edit")) or os.path.basename(folder) == "model-edits":
                yield os.path.join(folder, n)


def read(path):
    with open(path, encoding="utf-8") as f:
        return f.read()


def declared(texts):
    """Names that specs/ declares: the definitions, and the lemmas."""
    words, lemmas = set(), set()
    for p, t in texts.items():
        if not p.endswith(".antt") or "/specs/" not in p:
            continue
        inside = None
        for line in t.splitlines():
            m = re.match(r"^(?:pub )?(data|record) (\S+)", line)
            if m:
                inside = m.group(1)
                words.add(m.group(2))
                continue
            if line and not line.startswith(" "):
                inside = None
            m = DECLARED.match(line)
            if not m or m.group(4).startswith("--"):
                continue
            name = m.group(4)
            if inside or m.group(2):
                words.add(name)
            else:
                lemmas.add(name)
    return words, lemmas


def imported(texts):
    """Names that come from the library."""
    found = set()
    for p, t in texts.items():
        for m in re.finditer(r"use (Rattle\.std|mathlib|lib|native|Prim|borrow|logic)[^{;\n]*\.\{([^}]*)\}", t):
            for n in m.group(2).split(","):
                found.add(n.strip().split(" as ")[-1])
    return found


def renames(texts):
    words, lemmas = declared(texts)
    library = imported(texts)
    new = {}
    for p, t in texts.items():
        for w in WORD.findall(t):
            if w.startswith("get_d_"):
                new[w] = "get_or-" + w[len("get_d_"):]
            elif "-" not in w and CAMEL.match(w) and w not in library:
                new[w] = snake(w)
    names = {snake(w) if CAMEL.match(w) else w for w in words | library}
    for w in sorted(words | lemmas):
        if "-" not in w.strip("-") or "◌" in w or w in library:
            continue
        parts = [snake(x) if CAMEL.match(x) or x in PARTS else x for x in w.split("-")]
        if w in words:
            name = "_".join(parts)
            new[w] = name if name not in names else name + "_lem"
            continue
        # runs of parts that are one name count as that name
        text = parts[0]
        left = parts[0] in names
        for x in parts[1:]:
            right = x in names
            text += ("-" if left and right else "_") + x
            left = right
        # a lemma that would have its function's name
        new[w] = text + "_lem" if text in names else text
    return {k: v for k, v in new.items() if k != v and (k == k.lower() or CAMEL.match(k))}


def together(texts, new):
    """Pairs of names that would fall together in one file."""
    back = collections.defaultdict(set)
    for k, v in new.items():
        back[v].add(k)
    said = []
    for v, ks in back.items():
        if len(ks) > 1:
            said.append((v, sorted(ks), "two old names"))
    for p, t in texts.items():
        bare = re.sub(r"(?m)^\s*(--|//).*$", "", t)
        have = set(WORD.findall(bare))
        for k in have & set(new):
            v = new[k]
            if v in new:
                continue
            binds = r"[({ ]%s(?: [\w' ]+)? ?: |λ (?:[\w']+ )*%s[ .]|[(, ]%s: |let (?:mut )?%s\b" % ((re.escape(v),) * 4)
            if re.search(binds, bare) and "pub " + v + " :" not in bare:
                said.append((v, [k], os.path.relpath(p, ROOT)))
    return said


def turn(text, new):
    return WORD.sub(lambda m: new.get(m.group(0), m.group(0)), text)


def main(argv):
    texts = {p: read(p) for p in files()}
    new = renames(texts)
    if "--look" in argv:
        for v, ks, where in together(texts, new):
            print(v, ks, where)
        print(len(new), "names")
        return 0
    changed = 0
    for p, t in texts.items():
        u = turn(t, new)
        if u != t:
            changed += 1
            with open(p, "w", encoding="utf-8") as f:
                f.write(u)
    print(f"respell: {len(new)} names, {changed} files")
    return 0


if __name__ == "__main__":
    raise SystemExit(main(sys.argv[1:]))
