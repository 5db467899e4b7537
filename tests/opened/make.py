#!/usr/bin/env python3
"""Writes crates/model/specs/Opened.antt: one name that opens every definition, for statements that are proved by computation.

    tests/opened/make.py          writes it
    tests/opened/make.py --check  exits with 1 if it is not what would be written

The definitions are all that the files below declare `unfoldable pub`.
"""
import os
import re
import sys
import textwrap

ROOT = os.path.join(os.path.dirname(os.path.abspath(__file__)), '..', '..', 'crates')
# crates and their files, each after those that it builds on
FILES = [('lists', 'Lists'), ('words', 'Bit'), ('words', 'Literal'), ('words', 'Region'), ('meter', 'Meter')] + [
    ('model', name) for name in ('Records', 'Rows', 'Union', 'Slots', 'Postings', 'Deduction', 'Retention', 'Transfers', 'Closing',
                                 'Refusals', 'Operations', 'Calls')
]


def names(crate, name):
    text = open(os.path.join(ROOT, crate, 'specs', name + '.antt')).read()
    return re.findall(r'^ *unfoldable pub (\S+)', text, re.MULTILINE)


def write():
    uses, opened = [], []
    for number, (crate, name) in enumerate(FILES):
        uses.append(f'use Rattle.{crate}.specs.{name} as m{number}')
        opened += [f'm{number}.{definition}' for definition in names(crate, name)]
    return '\n'.join([
        '-- One name that opens every definition, for what is proved by computation; written by tests/opened/make.py. Assumes nothing.',
        *uses, '', 'unfoldable pub opened : Unit {0}',
        *textwrap.wrap('unfolding ' + ' '.join(opened), 140, subsequent_indent='    ', break_on_hyphens=False), 'opened = tt', ''
    ])


def main():
    path = os.path.join(ROOT, 'model', 'specs', 'Opened.antt')
    text = write()
    if '--check' in sys.argv:
        # where lines break is no difference
        sys.exit(0 if open(path).read().split() == text.split() else 1)
    open(path, 'w').write(text)


main()
