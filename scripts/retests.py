"""Reads what `rig_host retest` and `rig_host trial` print."""

import re
from collections import namedtuple

# A bind of a chain. It existed just before the tick with this line and number.
Link = namedtuple("Link", "sensor supplier actuator line tick")

# The table of `retest` for a rig whose plant isn't declared: the chain of each pair of a tenant and a source, the tenants without a source, and for
# each tenant the set of those to test again if it is changed.
Retests = namedtuple("Retests", "chains alone changes")

# The table of `trial`: for each line number a mark and the jobs that are left out, with ".." after a list that is cut off; and the
# tenant's answers in both runs.
Trial = namedtuple("Trial", "lines whole kept")

ROW = re.compile(r"(\w+) +(\w+) +line (\d+) tick (\d+) +(.*)")
BIND = re.compile(r"(\w+) from (\w+)\.(\w+)(?: \(line (\d+) tick (\d+)\))?")


def chain_of(text, line, tick):
    """A chain of binds. The text of a single bind has no place, which is that of the row."""
    binds = [BIND.fullmatch(it).groups() for it in text.split(", ")]
    if len(binds) == 1 and binds[0][3] is None:
        binds = [(*binds[0][:3], line, tick)]
    return [Link(sensor, supplier, actuator, int(line), int(tick)) for sensor, supplier, actuator, line, tick in binds]


def retests_of(lines):
    """The table in the lines of `rig_host retest`. A row whose place isn't that of its first bind counts as an empty chain."""
    end = lines.index("")
    read = Retests({}, set(), {})
    for row in lines[1:end]:
        if row.split()[1:] in (["nobody", "else"], ["nobody", "through", "binds"]):
            read.alone.add(row.split()[0])
            continue
        tenant, source, line, tick, text = ROW.fullmatch(row).groups()
        chain = chain_of(text, line, tick)
        read.chains[tenant, source] = chain if (chain[0].line, chain[0].tick) == (int(line), int(tick)) else []
    for row in lines[end + 2:lines.index("", end + 1)]:
        source, _, tenants = row.partition(" ")
        read.changes[source] = set(tenants.strip().split(", "))
    return read


def trial_of(lines, tenant):
    """The table in the lines of `rig_host trial`. Long answers have their own rows, below that of their line."""
    places = [0] + [lines[0].index(it) for it in ("is", "script", "whole run", "kept run")]
    read = Trial({}, [], [])
    for row in lines[1:lines.index("")]:
        number, mark, text, whole, kept = (row[a:b].strip() for a, b in zip(places, places[1:] + [None]))
        if not number:
            {"whole run": read.whole, "kept run": read.kept}[mark].append(row[places[2]:])
            continue
        read.lines[int(number)] = mark, re.split(",? ", kept)[1:] if kept.startswith("without ") else []
        if text.split()[0] == tenant and whole:
            read.whole.append(whole)
            read.kept.append(kept)
    return read
