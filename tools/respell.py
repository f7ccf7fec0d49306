#!/usr/bin/env python3
"""Brings this repository's own names in specs/, proofs/ and clauses to today's spelling: snake case for all but types and modules.

usage: python3 tools/respell.py          at the top of the repository, after the kit's port.py, once

A name with a capital inside (`statusOf`) and a name of ours with a dash (`half-again`) get underscores (`status_of`, `half_again`). Names
that the checker makes (goals, steps: `returns-in_ok`, `c.loop-i`), names of the library, functions of src/ and strings stay as they are.
A new name that already stands in a file where the old one stands is printed: there two names would fall together.
"""

import glob
import re
import sys

WORD = re.compile(r"(?<![\w'◌.-])[A-Za-z_◌][\w'◌]*(?:-[\w'◌]+)*")
CAMEL = re.compile(r"^[a-z][a-z0-9_]*(?:[A-Z][a-z0-9_']*)+$")
DEFINED = re.compile(r"^\s*(?:(?:abbrev|unfoldable|pub) )*([a-z_][\w'-]*)((?: [a-z_][\w'-]*)*)(?:\s*(?:\([^()]*\)|\{[^{}]*\}))*\s*:(?:\s|$)(.*)")
STRING = re.compile(r'"(?:\\.|[^"\\])*"|//.*')
KEEP = {"xNN"}
# lemmas whose definition takes their name
LEMMAS = {"flags-of": "flags_of_lem", "type-of": "type_of_lem"}
# port.py gave this lemma the name that a definition takes here
FIRST = {"same_key": "same_key_lem"}


def files(*ends):
    return sorted(f for end in ends for f in glob.glob("crates/**/*" + end, recursive=True) if "/out/" not in f)


def snake(name):
    return re.sub(r"(?<=[a-z0-9_])([A-Z])", lambda m: "_" + m[1].lower(), name).replace("-", "_")


def named(path):
    """Names with a dash that a file of specs/ or proofs/ defines itself, without the goals that it answers."""
    found = set()
    with open(path, encoding="utf-8") as f:
        for line in f:
            if line.startswith(("use ", "--")):
                continue
            m = DEFINED.match(line)
            if m and not m[3].startswith("goal."):
                found |= {n for n in [m[1], *m[2].split()] if "-" in n}
    return found


def main():
    dashed, goals = set(), set()
    for path in files(".antt"):
        dashed |= named(path)
        with open(path, encoding="utf-8") as f:
            goals |= set(re.findall(r"(?m)^(?:abbrev )?pub ([\w'-]+) : goal\.", f.read()))
    if dashed & goals:
        sys.exit(f"also names of goals: {sorted(dashed & goals)}")
    table = {}

    def new(m):
        word = m[0]
        if word in KEEP or not (word in dashed or CAMEL.match(word)):
            return word
        table[word] = LEMMAS.get(word) or snake(word)
        return table[word]

    def code(text, done):
        """A line of src/: what is in strings and comments stays."""
        at, out = 0, []
        for m in STRING.finditer(text):
            out += [WORD.sub(new, text[at:m.start()]), m[0]]
            at = m.end()
        return "".join(out) + WORD.sub(new, text[at:])

    for path in files(".antt", ".rt"):
        with open(path, encoding="utf-8") as f:
            old = f.read()
        table.clear()
        if path.endswith(".rt"):
            text = code(old, table)
        else:
            # a path's last part is ours too: `use Rattle.c.specs.M.name`
            old = WORD.sub(lambda m: FIRST.get(m[0], m[0]), old)
            text = WORD.sub(new, old)
        words = set(WORD.findall(old))
        for a, b in sorted(table.items()):
            if b in words:
                print(f"{path}: {a} and {b} are both {b} now")
        if text != old:
            with open(path, "w", encoding="utf-8") as f:
                f.write(text)


main()
