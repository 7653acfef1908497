#!/usr/bin/env python3
"""Brings the names that this repository declares to snake case, once, after the port.py of the kit.

usage: python3 tools/respell.py        at the top of the repository; files are rewritten in place

The names are those with a dash that stand in crates/*/specs and are not imported from a library of the kit: definitions, lemmas,
constructors, fields and bound variables. Each is turned as a whole word, in specs/, proofs/, the clauses of src/, the edits, and in
backticks in comments and documents. Functions, exported names, strings and outputs keep their names.
"""
import glob
import re
import sys

WORD = r"[^\s(){}\[\],;.`\"|]+"
COMMENT = re.compile(r"^\s*--")
USE = re.compile(r"^(?:pub )?use (\S+?)\.\{(.*)\}\s*$")
KEEP = {"Cell-discrete"}
# Names that would fall together with one of the kit's that stands beside them.
APART = {"bit-and": "bit_of_and", "bit-or": "bit_of_or", "bit-xor": "bit_of_xor", "ones-in": "ones_within"}


def lines(pattern):
    for path in sorted(glob.glob(pattern, recursive=True)):
        with open(path, encoding="utf-8") as f:
            for line in f:
                yield path, line


def own_names():
    kit, found = set(), set()
    for path, line in list(lines("crates/*/specs/**/*.antt")) + list(lines("crates/*/proofs/**/*.antt")):
        use = USE.match(line)
        if use and (not use.group(1).startswith("Rattle.") or use.group(1).startswith("Rattle.std.")):
            kit.update(re.split(r"[ ,]+", use.group(2)))
        elif "/specs/" in path and not COMMENT.match(line):
            found.update(w for w in re.findall(WORD, line) if "-" in w and re.search("[A-Za-z]", w) and "◌" not in w)
    return found - kit - KEEP


def turned(name):
    if name in APART:
        return APART[name]
    return re.sub(r"(?<=[a-z])(?=[A-Z])", "_", name).lower().replace("-", "_") if name[0].islower() else name.replace("-", "_")


def main():
    names = {n: turned(n) for n in own_names()}
    if len(sys.argv) > 1:
        for n in sorted(names):
            print(n, names[n])
        return
    change = lambda text: re.sub(WORD, lambda m: names.get(m.group(0), m.group(0)), text)
    ticks = lambda text: re.sub(r"`[^`\n]*`", lambda m: change(m.group(0)), text)

    def rewrite(path, each):
        with open(path, encoding="utf-8") as f:
            old = f.read()
        new = "".join(each(line) for line in old.splitlines(keepends=True))
        if new != old:
            with open(path, "w", encoding="utf-8") as f:
                f.write(new)

    for path in glob.glob("crates/*/specs/**/*.antt", recursive=True) + glob.glob("crates/*/proofs/**/*.antt", recursive=True):
        rewrite(path, lambda line: ticks(line) if COMMENT.match(line) else change(line))
    for path in glob.glob("crates/*/src/**/*.rt", recursive=True):
        rewrite(path, lambda line: ticks(line) if re.match(r"^\s*//", line) else change(line))
    for path in glob.glob("crates/*/must-fail/*.edit") + glob.glob("tests/definitions/*.edit"):
        rewrite(path, lambda line: change(line) if re.match(r"^(old|new|refused):", line) else ticks(line))
    for path in glob.glob("README.md") + glob.glob("docs/*.md"):
        rewrite(path, ticks)


main()
