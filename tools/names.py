#!/usr/bin/env python3
"""Respells the repository's own definitions, lemmas and fields as today's Rattle does: words in snake case, and a dash where two names meet.

usage: python3 tools/names.py        at the top of the repository, once, right after port.py

names.tsv beside this file has the table, a line for each name: the old spelling, a tab, the new one. A word is a maximal run of characters
that antt takes as one name. In a file that brings in a name of the library that has an old spelling of the table, that name stays. Names of
src/ and names that Rattle makes (`loop-holds`, `f-requires`) are not in the table. Pages are turned between backquotes alone, and the
notes of past changes (docs/notes) stay as they are.
"""

import os
import re
import sys

HERE = os.path.dirname(os.path.realpath(__file__))
WORD = re.compile(r"[^\s(){}\[\].,;:\"|=«»`\\/#!?&*<>]+")
USE = re.compile(r"(?:^|\n)\s*(?:pub )?(?:ghost )?use ([^\s{;]+?)\.?\{([^}]*)\}")
MADE = re.compile(r"Rattle\.\w+\.proofs\.\w+\.(?:Statement|Tie|Goals|Given|Reads)\b")
SPAN = re.compile(r"`[^`\n]+`")


def table():
    with open(os.path.join(HERE, "names.tsv"), encoding="utf-8") as f:
        return dict(line.rstrip("\n").split("\t") for line in f if line.strip())


def brought_in(text, own):
    """The names that a file takes from elsewhere than this repository's own specs and proofs."""
    names = set()
    for m in USE.finditer(text):
        crate = re.match(r"Rattle\.(\w+)\.", m.group(1) + ".")
        if crate and crate.group(1) in own and not MADE.match(m.group(1)):
            continue
        names.update(n.strip().split(" as ")[-1].strip() for n in m.group(2).split(","))
    return names


def respelled(text, names, own, ghost_only=False):
    stay = brought_in(text, own) if not ghost_only else set()
    return WORD.sub(lambda m: names.get(m.group(0), m.group(0)) if m.group(0) not in stay else m.group(0), text)


def main():
    names = table()
    root = os.getcwd()
    own = {c for c in os.listdir(os.path.join(root, "crates"))}
    changed = 0
    for folder, dirs, files in os.walk(root):
        dirs[:] = sorted(d for d in dirs if d not in (".git", "out", "target"))
        for f in sorted(files):
            path = os.path.join(folder, f)
            code = f.endswith((".antt", ".rt")) and path.startswith(os.path.join(root, "crates", ""))
            page = f.endswith(".md") and not path.startswith(os.path.join(root, "docs", "notes", ""))
            if not code and not page:
                continue
            with open(path, encoding="utf-8") as it:
                old = it.read()
            if code:
                new = respelled(old, names, own)
            else:
                new = SPAN.sub(lambda m: respelled(m.group(0), names, own, True), old)
            if new != old:
                changed += 1
                with open(path, "w", encoding="utf-8") as it:
                    it.write(new)
    print(f"names: {len(names)} names, {changed} files changed")


if __name__ == "__main__":
    sys.exit(main())
