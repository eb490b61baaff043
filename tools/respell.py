#!/usr/bin/env python3
"""Brings the repository's own definitions and lemmas to the spelling of its Rattle: words in snake case.

usage: python3 tools/respell.py          at the top, once, after port.py and before any edit by hand

A name in camel case is written in snake case. A dash of a lemma's name becomes an underscore, except between two
names of definitions, as in length-row. A lemma that would get the name of a definition, of another lemma or of a
function of src/ gets _lem behind it. Names of the library, of modules and types, and those that Rattle makes of the
code stay as they are. It prints the old and the new names, and those that would fall together.
"""

import glob
import re
import sys

TOKEN = re.compile(r"[\w'′₀-₉μ⊑→⊔-]+")
DECLARED = re.compile(r"^\s*(?:pub |abbrev |unfoldable )*([^\s:(){},]+) :(?!=)")
FIELD = re.compile(r"^\s+(?:pub )?([^\s:(){},]+) :(?!=)")
IMPORT = re.compile(r"^(?:ghost )?use ([^{]*)\.\{([^}]*)\}")
CAMEL = re.compile(r"[a-z0-9][A-Z]")
# what port.py left of the library's older names in ours
OLDER = {"getD": "get_or", "get_d": "get_or"}
LIBRARY_WORDS = set(
    "length append concat take drop map set get_or replicate reverse sum cons nil zero suc add mul sub slice".split()
)


def snake(part):
    for old, new in OLDER.items():
        part = re.sub(rf"^{old}(?=_|$)", new, part)
    return re.sub(r"(?<=[a-z0-9])([A-Z])", lambda m: "_" + m[1].lower(), part)


def read(path):
    with open(path, encoding="utf-8") as f:
        return f.read()


def main():
    antt = sorted(glob.glob("crates/**/*.antt", recursive=True))
    rust = sorted(glob.glob("crates/**/*.rt", recursive=True))
    edits = sorted(glob.glob("crates/*/must-fail/*.edit"))
    antt = [p for p in antt if "/out/" not in p]
    rust = [p for p in rust if "/out/" not in p]
    functions = set()
    for p in rust:
        functions |= set(re.findall(r"\bfn (\w+)", read(p)))

    definitions, lemmas, made, foreign = set(), set(), set(), {}
    for p in antt:
        foreign[p] = set()
        for line in read(p).split("\n"):
            m = IMPORT.match(line)
            if m and not re.match(r"Rattle\.(?!std\b)", m[1]):
                foreign[p] |= {w.strip().split(" as ")[0] for w in m[2].split(",")}
            if line.startswith(("use ", "--")):
                continue
            m = DECLARED.match(line)
            if not m:
                continue
            if re.search(r": *(\{M : Type 1\} → )?(tie\.|goal\.|statement)", line):
                made.add(m[1])
            elif "/specs/" in p:
                definitions.add(m[1])
            else:
                lemmas.add(m[1])
    lemmas -= made | definitions

    known = {snake(n) for n in definitions if "-" not in n} | LIBRARY_WORDS
    new = {}
    for n in sorted(definitions | lemmas):
        if not re.match(r"[a-z]", n):
            continue
        parts = [snake(x) for x in n.split("-")]
        if len(parts) == 1 or (len(parts) == 2 and parts[0] in known and parts[1] in known):
            to = "-".join(parts)
        else:
            to = "_".join(parts)
        if to != n:
            new[n] = to
    # names in camel case that are no declaration: variables, and what a where clause names
    for p in antt:
        for w in TOKEN.findall(re.sub(r"--.*", "", read(p))):
            if w not in new and w not in made and re.match(r"[a-z]", w) and CAMEL.search(w) and "-" not in w and not re.match(r"(from|not)_", w):
                new[w] = snake(w)

    # where names would fall together, the definition keeps the plain name, and a lemma gets _lem
    taken = {}
    for n in sorted(definitions | lemmas | set(new)):
        taken.setdefault(new.get(n, n), set()).add(n)
    for to, names in taken.items():
        first = min(names, key=lambda n: (n not in definitions, not CAMEL.search(n), "-" not in n, n))
        for n in names - {first}:
            new[n] = to + "_lem"
        if first in lemmas and first != to and "-" in first and to in functions:
            new[first] = to + "_lem"
    by = {}
    for n in definitions | lemmas | set(new):
        by.setdefault(new.get(n, n), set()).add(n)
    for to, names in sorted(by.items()):
        if len(names) > 1:
            print("together:", to, sorted(names))

    changed = 0
    for p in antt + rust + edits:
        text = read(p)
        skip = foreign.get(p, set())

        def turn(m):
            w = m[0]
            if w in skip or w not in new:
                return w
            if "-" in w and text[m.start() - 1 : m.start()] == ".":
                return w  # a step or a goal that Rattle named
            return new[w]

        turned = TOKEN.sub(turn, text)
        if turned != text:
            with open(p, "w", encoding="utf-8") as f:
                f.write(turned)
            changed += 1
    for n in sorted(new):
        print("turned:", n, "→", new[n])
    print(f"respell: {len(new)} names, {changed} files", file=sys.stderr)


if __name__ == "__main__":
    main()
