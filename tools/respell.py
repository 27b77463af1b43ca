#!/usr/bin/env python3
"""Brings the names that this repository defines in specs/ and proofs/ to the library's spelling: words in snake case.

usage: python3 tools/respell.py [FILE..]    at the top of the repository; with no FILE: every .rt, .antt and .edit file of crates/

A name is a word that begins with a small letter and has a capital inside, as `recordAt`: it becomes `record_at`. Rust names, types and
modules have no such words. A few would fall together with another name, or with a tactic's, and get a name of their own.
"""
import glob
import re
import sys

OWN = {
    "firstOf": "first_refusal",
    "byZero": "divided_by_zero",
    "cellsAt": "job_cells",
    "slotOk": "operand_slot_ok",
    "heldIn": "held_count_in",
    "bothStored": "both_stored_in",
    "labelAPlace": "label_a_place",
    "labelBPlace": "label_b_place",
}
WORD = re.compile(r"(?<![\w'])([a-z][a-z0-9]*(?:[A-Z][A-Za-z0-9]*)+)(?![\w])")


def snake(m):
    name = m.group(1)
    return OWN.get(name) or re.sub(r"(?<=[a-z0-9])[A-Z]", lambda c: "_" + c.group(0).lower(), name)


def files():
    for end in ("rt", "antt", "edit"):
        yield from glob.glob("crates/*/*/**/*." + end, recursive=True)


for path in sys.argv[1:] or sorted(files()):
    with open(path, encoding="utf-8") as f:
        text = f.read()
    new = WORD.sub(snake, text)
    if new != text:
        with open(path, "w", encoding="utf-8") as f:
            f.write(new)
