#!/usr/bin/env python3
"""Says which must-fail edits no longer fit the text that they edit.

usage: python3 tools/edits_fit.py        at the top of the repository

An edit is a file crates/NAME/must-fail/*.edit: a line `file: PATH`, of a file in the crate, and then pairs of lines `old: TEXT` and
`new: TEXT`, of which the later ones are read against what the earlier ones made. Each old text has to stand in its file exactly once.
A line is printed for each one that doesn't, and for each edit that can't be read; the last line counts. The status is 1 if any edit
doesn't fit, and 0 otherwise.
"""

import sys
from pathlib import Path

FILE, OLD, NEW = "file: ", "old: ", "new: "


def faults(edit):
    """What is wrong with an edit, a text for each fault."""
    crate = edit.parent.parent
    texts, path, old, pairs = {}, None, None, 0
    for line in edit.read_text(encoding="utf-8").split("\n"):
        if line.startswith(FILE):
            path = line[len(FILE):]
            if path not in texts:
                file = crate / path
                if not file.is_file():
                    yield f"{path}: no such file"
                    return
                texts[path] = file.read_text(encoding="utf-8")
        elif line.startswith(OLD):
            if path is None or old is not None:
                yield f"not where an old text belongs: {line}"
                return
            old = line[len(OLD):]
        elif line.startswith(NEW):
            if old is None:
                yield f"not where a new text belongs: {line}"
                return
            times = texts[path].count(old)
            if times == 1:
                texts[path] = texts[path].replace(old, line[len(NEW):])
            else:
                yield f"{path}: stands {times} times: {old}"
            old, pairs = None, pairs + 1
    if old is not None or pairs == 0:
        yield "an old text without a new one" if old is not None else "no pair of texts"


def main():
    edits = sorted(Path("crates").glob("*/must-fail/*.edit"))
    misfits = 0
    for edit in edits:
        found = list(faults(edit))
        misfits += bool(found)
        for fault in found:
            print(f"{edit}: {fault}")
    print(f"edits: {len(edits)}, of which {misfits} don't fit")
    return 1 if misfits or not edits else 0


if __name__ == "__main__":
    sys.exit(main())
