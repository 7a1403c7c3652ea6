#!/usr/bin/env python3
"""Respells this repository's own definitions and lemmas: words in snake case, where the older Rattle's were in camel case or had dashes.

usage: tools/respell.py [--list]    over crates/, once, after /opt/rattle/port/port.py

Functions, types, fields, variants and constants of src/ keep their names, and so do modules, facts (which begin with a capital), operators,
and the names in proofs/FUNCTION/, which follow Rattle's. Strings stay; comments follow the camel-case names only.
A lemma that would have its definition's name gets _lem.
"""

import collections
import os
import re
import sys

TOKEN = re.compile(r"[^\s(){}\[\],;.«»\"`|]+")
DECLARED = re.compile(r"^\s*(?:(?:pub|abbrev|unfoldable|axiom)\s+)*([^\s(){}\[\],;.:]+)(?:\s+\{[^}]*\})?\s+:\s")
WORD = re.compile(r"[a-z][A-Za-z0-9_'-]*$")


def snake(name):
    name = re.sub(r"(?<=[a-z0-9])([A-Z])(?![A-Z])", lambda m: "_" + m.group(1).lower(), name)
    return re.sub(r"(?<=[a-z0-9_'])-(?=[a-z0-9_'])", "_", name)


def files(suffixes):
    for folder, dirs, names in os.walk("crates"):
        dirs[:] = sorted(d for d in dirs if d not in ("out", "must-fail"))
        for n in sorted(names):
            if n.endswith(suffixes):
                yield os.path.join(folder, n)


def own(path):
    """A file of lemmas or definitions, not a function's own proof."""
    parts = path.split(os.sep)
    return parts[2] == "specs" or (parts[2] == "proofs" and len(parts) == 4)


def declared():
    names = collections.defaultdict(set)
    for p in files((".antt",)):
        if own(p):
            with open(p, encoding="utf-8") as f:
                for line in f:
                    m = DECLARED.match(line)
                    if m and WORD.match(m.group(1)):
                        names[m.group(1)].add(p)
    return names


def code_and_comment(line, mark):
    """The line's code, and its comment from the mark on."""
    quoted = False
    for i, c in enumerate(line):
        if c == '"':
            quoted = not quoted
        elif not quoted and line.startswith(mark, i) and (i == 0 or line[i - 1].isspace()):
            return line[:i], line[i:]
    return line, ""


def respell(line, mark, names, walks):
    """walks: in a proof that walks the code, what stands behind a dot is a step's name, which follows Rattle's."""
    code, comment = code_and_comment(line, mark)
    steps = walks and not line.startswith("use ")
    pieces = re.split(r'("(?:[^"\\]|\\.)*")', code)

    def word(m):
        if steps and m.start() and m.string[m.start() - 1] == ".":
            return m.group(0)
        return names.get(m.group(0), m.group(0))

    pieces[::2] = [TOKEN.sub(word, p) for p in pieces[::2]]
    camel = {k: v for k, v in names.items() if "-" not in k}
    return "".join(pieces) + TOKEN.sub(lambda m: camel.get(m.group(0), m.group(0)), comment)


# Lemmas that port.py respelled already, so that they have the name of a definition in camel case.
LEMMAS = ("held_back", "joined_word", "kept_byte", "kept_in", "link_fits", "read_answer")


def main(argv):
    names = declared()
    new = {n: snake(n) for n in names if snake(n) != n}
    defined = {snake(n) for n in names if "-" not in n and n not in LEMMAS}
    new = {n: to + "_lem" if "-" in n and to in defined else to for n, to in new.items()}
    lemmas = {n: names[n] for n in LEMMAS}
    taken = collections.defaultdict(set)
    for n in list(names):
        taken[n + "_lem" if n in LEMMAS else new.get(n, n)].add(n)
    for n, old in sorted(taken.items()):
        if len(old) > 1:
            print("falls together:", n, sorted(old), sorted({p for o in old for p in names[o]}))
    if argv == ["--list"]:
        for old, to in sorted(new.items()):
            print(old, to)
        return
    for p in files((".antt", ".rt")):
        with open(p, encoding="utf-8") as f:
            lines = f.read().split("\n")
        mark = "--" if p.endswith(".antt") else "//"
        here = dict(new)
        for n, homes in lemmas.items():
            modules = ["Rattle." + os.path.splitext(h.split(os.sep, 1)[1])[0].replace(os.sep, ".") for h in homes]
            if p in homes or any(re.search(r"\buse " + re.escape(m) + r"\.(\{[^}]*\b)?" + n + r"\b", l) for m in modules for l in lines):
                here[n] = n + "_lem"
        to = "\n".join(respell(l, mark, here, p.endswith("Proof.antt")) for l in lines)
        if to != "\n".join(lines):
            with open(p, "w", encoding="utf-8") as f:
                f.write(to)


main(sys.argv[1:])
