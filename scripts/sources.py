"""Functions that the scripts share: crates and their files, and the generated parts of documents."""

import os
import re
import sys

TOP = os.path.dirname(os.path.dirname(os.path.abspath(__file__)))


def read(path):
    """The text of a file of the repository."""
    with open(os.path.join(TOP, path), encoding="utf-8") as file:
        return file.read()


def crates():
    """The names of the crates, in the order of crates.txt."""
    lines = [line.split("#")[0] for line in read("crates.txt").splitlines()]
    return [line.split(":")[0].split()[0] for line in lines if line.strip()]


def files_of(crate, folder, ending):
    """The files in a folder of a crate with this ending, as sorted paths from the top."""
    found = []
    for place, _, names in os.walk(os.path.join(TOP, "crates", crate, folder)):
        found += [os.path.relpath(os.path.join(place, name), TOP) for name in names if name.endswith(ending)]
    return sorted(found)


def between(text, what, path):
    """The text before, between and after the two markers of a generated part."""
    begin, end = f"<!-- {what}: begin -->\n", f"<!-- {what}: end -->\n"
    if text.count(begin) != 1 or text.count(end) != 1 or text.index(begin) > text.index(end):
        sys.exit(f"{path}:1: the markers of the generated part are missing: {begin.strip()} and {end.strip()}")
    before, rest = text.split(begin)
    made, after = rest.split(end)
    return before + begin, made, end + after


def put(path, what, made):
    """Writes the generated part of a document."""
    before, _, after = between(read(path), what, path)
    with open(os.path.join(TOP, path), "w", encoding="utf-8") as file:
        file.write(before + made + after)


def differs(path, what, made):
    """The line at which the generated part of a document differs from this text, or None."""
    before, present, _ = between(read(path), what, path)
    old, new = present.splitlines(), made.splitlines()
    if old == new:
        return None
    same = next((i for i, (a, b) in enumerate(zip(old, new)) if a != b), min(len(old), len(new)))
    return before.count("\n") + 1 + same


def first_sentence(text):
    """The text up to its first full stop."""
    return re.split(r"(?<=\.)\s", text.strip(), maxsplit=1)[0]
