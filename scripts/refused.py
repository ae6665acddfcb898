"""Reads and writes the record of a crate's refused must-fail edits: must-fail/REFUSED.md, with a row and a sum for each.

An edit is up to date if it has a row with today's sum (scripts/edit_sums.py).
"""

import os
import re

from kit import rt, rtlib

RECORD = "must-fail/REFUSED.md"
HEAD = """# Refused

The prover refused each edit of this folder. Written by `scripts/must-fail` alone, which tries an edit again where its sum isn't of what it rests on today.

| Edit | In | Open there | Sum |
|---|---|---|---|
"""
ROW = re.compile(r"^\| ([\w.-]+) \| (.*?) \| (.*) \| ([0-9a-f]{16}) \|$", re.M)


class Row:
    """The row of a refused edit: where it was tried, which goals are open there, and its sum."""

    def __init__(self, place, goals, sum):
        self.place, self.goals, self.sum = place, goals, sum


def rows_of(crate):
    """The rows of a crate's record, by the edits' names."""
    text = rtlib.text_of(f"{crate.folder}/{RECORD}") or ""
    return {name: Row(*rest) for name, *rest in ROW.findall(text)}


def write(crate, rows, tried):
    """Adds these rows to a crate's record, or replaces them. Drops those of other edits that were tried or don't exist any more."""
    existing = {name_of(it) for it in rt.edits_of(crate)[0]}
    before = {name: it for name, it in rows_of(crate).items() if name in existing - tried}
    rows = dict(sorted({**before, **rows}.items()))
    if not rows and not os.path.exists(f"{crate.folder}/{RECORD}"):
        return
    lines = [f"| {name} | {it.place} | {it.goals} | {it.sum} |\n" for name, it in rows.items()]
    with open(f"{crate.folder}/{RECORD}", "w", encoding="utf-8") as file:
        file.write(HEAD + "".join(lines))


def name_of(path):
    return os.path.basename(path).removesuffix(".edit")


def stale(crate, sums):
    """The edits of a crate that have no row with their sum, and the files next to them that aren't named like edits."""
    rows = rows_of(crate)
    bad = [os.path.basename(it) for it in rt.edits_of(crate)[1]]
    return [name for name, it in sums.items() if name not in rows or rows[name].sum != it] + bad


def same(crate):
    """The groups of edits in a crate's record that were tried at the same place and leave the same goals open."""
    groups = {}
    for name, it in rows_of(crate).items():
        groups.setdefault((it.place, it.goals), []).append(name)
    return {key: names for key, names in groups.items() if len(names) > 1}
