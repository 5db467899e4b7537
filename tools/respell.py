#!/usr/bin/env python3
"""Respells the repository's own definitions and lemmas as today's Rattle spells them: words in snake case, ′ as '.

usage: tools/respell.py [FOLDER]     FOLDER is the top of a checkout in which port.py has run (this one if left out)

A name, or a part of a name between dashes, that begins small and has a capital inside becomes snake case, as codeBits and
conditionState-open become code_bits and condition_state-open. Fields of records get _ for their dashes. A dash between the
two sides of a law stays. It rewrites the .antt and .rt files of crates/, and the texts of edits, but no string and no
function's name: a name of src/ has no capital inside. It prints the names that fall together with another.
"""

import glob
import os
import re
import sys

TOP = sys.argv[1] if len(sys.argv) > 1 else os.path.dirname(os.path.dirname(os.path.abspath(__file__)))
WORD = re.compile(r"\"(?:[^\"\\]|\\.)*\"|[^\s(){}\[\];,.\"«»`]+")
DECLARED = re.compile(r"\s*(?:(?:abbrev|opaque|unfoldable|pub)\s+)*(?:(?:record|data)\s+)?([^\s:(){},.=|]+)(?:\s+[^=]*?)?\s*:(?:\s|$)")


# Lemmas that would get a definition's name, and a word of the library that today has another.
LEMMAS = {"hits_at": "hits_at_lem", "kept_by": "kept_by_lem", "row_fits": "row_fits_lem", "rows_in": "rows_in_lem"}
LIBRARY = {"getD": "get_or", "vecLen": "vec_len", "not_T": "not_T"}


def snake(part):
    if part in LIBRARY:
        return LIBRARY[part]
    if not re.match(r"[a-z][a-zA-Z0-9_']*$", part) or not re.search(r"[A-Z]", part):
        return part
    part = re.sub(r"([a-z0-9])([A-Z])", r"\1_\2", part)
    return re.sub(r"([A-Z])([A-Z][a-z])", r"\1_\2", part).lower()


def files():
    for folder in sorted(glob.glob(os.path.join(TOP, "crates", "*"))):
        for part, end in (("src", ".rt"), ("specs", ".antt"), ("proofs", ".antt"), ("must-fail", ".edit")):
            yield from sorted(glob.glob(os.path.join(folder, part, "**", "*" + end), recursive=True))
    yield from sorted(glob.glob(os.path.join(TOP, "tests", "edits", "**", "*.edit"), recursive=True))


def text(path):
    with open(path, encoding="utf-8") as it:
        return it.read()


def dashed_fields(texts):
    """The dashed fields of the repository's own records."""
    found = set()
    for of in texts:
        for record in re.findall(r"(?ms)^ *(?:pub )?record .*?(?=\n\n|\Z)", of):
            found |= set(re.findall(r"(?m)^ +(?:pub )?([^\s:(){}]+-[^\s:(){}]+) : ", record))
    return found


def main():
    all_files = list(files())
    texts = {path: text(path) for path in all_files}
    antt = [t for p, t in texts.items() if p.endswith(".antt")]
    fields = dashed_fields(antt)
    known = {w for t in antt for w in WORD.findall(t)}
    made = {}

    def one(found):
        word = found[0]
        if word.startswith('"') or re.match(r"b'.'$", word):
            return word
        new = word.replace("-", "_") if word in fields else LEMMAS.get(word, word)
        new = "-".join(snake(part) for part in new.replace("′", "'").split("-"))
        if new != word:
            made.setdefault(new, set()).add(word)
        return new

    for path, old in texts.items():
        new = "\n".join(line if line.startswith("file:") else WORD.sub(one, line) for line in old.split("\n"))
        if new != old:
            with open(path, "w", encoding="utf-8") as it:
                it.write(new)
    for new, olds in sorted(made.items()):
        if len(olds) > 1 or new in known:
            print(f"falls together: {' '.join(sorted(olds))} -> {new}{' (there already)' if new in known else ''}")
    print(f"respelled {sum(len(o) for o in made.values())} names")


main()
