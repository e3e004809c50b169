#!/usr/bin/env python3
"""Gives another name to what was called by a word that the installed Rattle keeps for itself.

usage: python3 tools/reword.py            at the top of the repository, once, after tools/respell.py

`ground` is a tactic. The ghost member of `Ground` is `meaning`, the ground in the record of a sheet is `area`, and so is
a parameter or a variable of that name that clauses and proofs cite. Names after `as` in `use` lines get underscores.
Comments keep the word.
"""

import glob
import os
import re

ALIAS = re.compile(r"(?<= as )[a-z]+(?:-[a-z]+)+(?=[},])")


def comment(line):
    return line.lstrip().startswith(("//", "--"))


def turn(line, path):
    line = re.sub(r"(?<![\w-])Ground\.ground(?![\w-])", "Ground.meaning", line)
    line = re.sub(r"(?<![\w-])ghost ground(?![\w-])", "ghost meaning", line)
    if path.endswith(".rt"):
        line = re.sub(r"\(ground (?=s\)|self\.)", "(meaning ", line)
    return re.sub(r"(?<![\w-])ground(?![\w-])", "area", line)


def main():
    paths = [p for p in glob.glob("crates/**/*", recursive=True) if p.endswith((".rt", ".antt", ".edit")) and "/out/" not in p]
    for path in sorted(paths):
        with open(path, encoding="utf-8") as f:
            text = f.read()
        aliases = set(ALIAS.findall(text))
        lines = [l if comment(l) else turn(l, path) for l in text.split("\n")]
        new = "\n".join(lines)
        for a in aliases:
            new = re.sub(r"(?<![\w-])" + re.escape(a) + r"(?![\w-])", a.replace("-", "_"), new)
        if new != text:
            print(path)
            with open(path, "w", encoding="utf-8") as f:
                f.write(new)


if __name__ == "__main__":
    if not os.path.isdir("crates"):
        raise SystemExit("run it at the top of the repository")
    main()
