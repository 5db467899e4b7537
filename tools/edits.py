#!/usr/bin/env python3
"""Brings the texts of the must-fail edits to today's spelling, after port.py and tools/respell.py; then says which don't stand.

usage: tools/edits.py [FOLDER]          respells the edits of FOLDER (this checkout if left out) and checks them
       tools/edits.py --check [FOLDER]  only checks: each 'old:' text stands exactly once in its file, where the pairs
                                        before it are made; each 'new:' text is another; exit code 1 if one isn't so

What it respells is what port.py does in .antt files and not in edits: projections are tight, with no parentheses around them.
"""

import glob
import os
import re
import sys

ARGS = [a for a in sys.argv[1:] if a != "--check"]
TOP = ARGS[0] if ARGS else os.path.dirname(os.path.dirname(os.path.abspath(__file__)))
NAME = r"[a-zA-Z][\w']*"


def edits():
    yield from sorted(glob.glob(os.path.join(TOP, "crates", "*", "must-fail", "*.edit")))
    yield from sorted(glob.glob(os.path.join(TOP, "tests", "edits", "*", "*.edit")))


def crate(path):
    return path.split(os.sep)[-3 if path.split(os.sep)[-2] == "must-fail" else -2]


def tight(text):
    """x .f as x.f, and (x .f) as x.f"""
    text = re.sub(rf"({NAME}) \.«?({NAME})»?", r"\1.\2", text)
    text = re.sub(rf"({NAME}(?:\.{NAME})+) \.«?({NAME})»?", r"\1.\2", text)
    return re.sub(rf"\(({NAME}(?:\.{NAME})+)\)", r"\1", text)


def respell(path):
    with open(path, encoding="utf-8") as it:
        lines = it.read().split("\n")
    if not any(l.startswith("file: specs/") for l in lines):
        return
    new = [tight(l) if l.startswith(("old: ", "new: ")) else l for l in lines]
    if new != lines:
        with open(path, "w", encoding="utf-8") as it:
            it.write("\n".join(new))


def check(path):
    """What is wrong with an edit."""
    with open(path, encoding="utf-8") as it:
        lines = it.read().split("\n")
    text = old = None
    pairs = 0
    for line in lines:
        if line.startswith("file: "):
            with open(os.path.join(TOP, "crates", crate(path), line[6:].strip()), encoding="utf-8") as it:
                text = it.read()
        elif line.startswith("old: "):
            old = line[5:]
        elif line.startswith("new: "):
            pairs += 1
            if text is None or old is None:
                yield "no file or old text before " + line
            elif text.count(old) != 1:
                yield f"stands {text.count(old)} times: {old}"
            elif line[5:] == old:
                yield f"changes nothing: {old}"
            else:
                text = text.replace(old, line[5:], 1)
            old = None
        elif line and not line.startswith("#"):
            yield f"no line of an edit: {line}"
    if not pairs:
        yield "no pair"


def main():
    said = number = 0
    for path in edits():
        number += 1
        if "--check" not in sys.argv:
            respell(path)
        for what in check(path):
            said += 1
            print(f"{os.path.relpath(path, TOP)}: {what}")
    print(f"{number} edits, {said} to mend")
    sys.exit(said > 0)


main()
