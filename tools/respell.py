#!/usr/bin/env python3
"""Brings the repository's own definitions and lemmas to one spelling: words joined by underscores.

usage: python3 tools/respell.py            at the top of the repository, once, after the kit's port.py

Every name that a signature in specs/ or proofs/ declares (definitions, lemmas, fields and constructors) and that has a
dash in it is written with underscores instead, wherever it stands in a .rt, .antt or .edit file. Names that Rattle makes
for goals (their signature is `goal.NAME`) keep their dashes. A name whose new spelling stands anywhere already is listed.
"""

import glob
import os
import re

WORD = re.compile(r"[^\s(){}\[\].,;:`\"|]+")
SIGNATURE = re.compile(
    r"(?m)^\s*(?:(?:abbrev|unfoldable|pub|record|data|private) )*([^\s(){}\[\].,;:|]+)(?: [({][^)}]*[)}])* :(?= |$)(.*)$"
)


def files(ending):
    return sorted(p for p in glob.glob("crates/**/*" + ending, recursive=True) if "/out/" not in p)


def read(path):
    with open(path, encoding="utf-8") as f:
        return f.read()


def declared():
    names, goals = set(), set()
    for path in files(".antt"):
        for m in SIGNATURE.finditer(read(path)):
            (goals if re.match(r"\s*goal\.", m.group(2)) else names).add(m.group(1))
    return {n for n in names - goals if "-" in n.strip("-") and not n.startswith("◌")}


def main():
    names = declared()
    texts = files(".rt") + files(".antt") + files(".edit")
    there = {w for p in texts for w in WORD.findall(read(p))}
    for n in sorted(names):
        if n.replace("-", "_") in there:
            print("falls together:", n)
    changed = 0
    for path in texts:
        text = read(path)
        new = WORD.sub(lambda m: m.group(0).replace("-", "_") if m.group(0) in names else m.group(0), text)
        if new != text:
            changed += 1
            with open(path, "w", encoding="utf-8") as f:
                f.write(new)
    print(len(names), "names,", changed, "files")


if __name__ == "__main__":
    if not os.path.isdir("crates"):
        raise SystemExit("run it at the top of the repository")
    main()
