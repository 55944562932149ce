#!/usr/bin/env python3
"""Respells this repository's own definitions and lemmas for today's Rattle; run once, at the top, after port.py.

Words are joined by an underscore (`live-closes` becomes `live_closes`), and the parts of a type's or a fact's name are joined (`Who-is-met` becomes `WhoIsMet`).
Names that the library or the check gives stay, and so do the functions of src/, strings, inputs and outputs. It stops, and writes nothing, where two of these names would become one, and points at each that becomes a word which its crate has already.
"""

import collections
import os
import re
import sys

NAME = re.compile(r"(?<![\w'-])[A-Za-z][\w']*(?:-[\w']+)+(?![\w'-])")
IMPORT = re.compile(r"use ((?:Rattle\.std|borrow|lib|native|mathlib|Prim)[\w.]*)\.\{([^}]*)\}")

# The names of goals and steps, which the check makes from the code.
MADE = re.compile(
    r"^(?:returns|loop|invariant|decreases|overflow|if|then|else|in-(?:None|Some|default))\b.*"
    r"|^(?:accepted-is|b-index|posting-index|is-ok|split-at|at-line|place-taken-self)$"
    r"|^(?:shrink|transfer)-(?:requires-)?2$|^.*-requires(?:-.*)?$"
)


def files():
    for folder, dirs, names in os.walk("crates"):
        dirs[:] = sorted(d for d in dirs if d != "out")
        for name in sorted(names):
            if name.endswith((".antt", ".rt")):
                yield os.path.join(folder, name)


def crate(path):
    return path.split(os.sep)[1]


def respelled(name):
    parts = name.split("-")
    return "".join(p[:1].upper() + p[1:] for p in parts) if name[0].isupper() else "_".join(parts)


def main():
    texts = {p: open(p, encoding="utf-8").read() for p in files()}
    given = {n.strip() for t in texts.values() for m in IMPORT.finditer(t) for n in m.group(2).split(",")}
    words = collections.defaultdict(set)
    for p, t in texts.items():
        words[crate(p)] |= set(re.findall(r"[A-Za-z][\w']*", NAME.sub(" ", t)))
    turned, clashes = {}, []
    for p, t in texts.items():
        for old in set(NAME.findall(t)):
            if old in given or MADE.match(old):
                continue
            new = respelled(old)
            turned[old] = new
            if new in given or new in words[crate(p)]:
                clashes.append((p, old, new))
    for p, old, new in sorted(clashes):
        print(f"look: {p}: {old} becomes {new}, which stands in that crate already")
    several = collections.Counter(turned.values())
    for new in [n for n, k in several.items() if k > 1]:
        print(f"stop: several names become {new}")
    if any(k > 1 for k in several.values()):
        return 1
    for p, t in texts.items():
        new = NAME.sub(lambda m: turned.get(m.group(0), m.group(0)), t)
        if new != t:
            with open(p, "w", encoding="utf-8") as f:
                f.write(new)
    print(f"respell: {len(turned)} names")
    return 0


if __name__ == "__main__":
    sys.exit(main())
