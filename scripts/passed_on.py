"""Finds the crate that has the module, definition or type of a path, through what crates pass on, and the names down to it there.

A crate lists only the crates directly below it, and reaches deeper ones through these. Code passes on a crate by `pub use low as name;` in
src/lib.rt, definitions by `pub use Rattle.low.specs as name` in specs/Lib.antt, and lemmas by `pub use Rattle.low.proofs.cited as of_name`
in proofs/Lib.antt. Without `as`, the same lines pass on what `low` itself passes on. A file of src/ also passes on single items, by
`pub use low::part::Item;`.
"""

import functools
import os
import re

from sources import TOP

RUST = re.compile(r"^pub use (\w+)((?:::\w+)*?)(?: as (\w+)|::(?:\{([^}]*)\}|(\w+)));", re.M)
ANTT = re.compile(r"^pub use Rattle\.(\w+)\.(?:specs|proofs)((?:\.\w+)*)(?: as (\w+))?$", re.M)


def text_of(path):
    if not os.path.isfile(path):
        return ""
    with open(path, encoding="utf-8") as file:
        return file.read()


@functools.cache
def passed_by_code(top, crate, module):
    """What a file of src/ passes on from other crates: for each name the crate, and the names there."""
    found, at = {}, f"{top}/crates/{crate}/src/{module or 'lib'}.rt"
    for low, middle, alias, braced, single in RUST.findall(text_of(at)):
        inside = middle.split("::")[1:]
        names = [it.strip() for it in (braced or single).split(",") if it.strip()]
        found.update({alias: (low, inside)} if alias else {it: (low, [*inside, it]) for it in names})
    return {name: it for name, it in found.items() if os.path.isdir(f"{top}/crates/{it[0]}")}


@functools.cache
def passed_by_part(top, crate, part):
    """What specs/Lib.antt or proofs/Lib.antt passes on from other crates: for each name the crate, and the names there."""
    found = ANTT.findall(text_of(f"{top}/crates/{crate}/{part}/Lib.antt"))
    parts = [(low, names.split(".")[1:], alias) for low, names, alias in found]
    return {alias or inside[-1]: (low, inside) for low, inside, alias in parts}


def origin(crate, part, names, top=TOP):
    """The crate whose own files have the item to which names in a part of a crate (src, specs or proofs) lead, and the names there."""
    names = list(names)
    if part == "src":
        for at, name in enumerate(names):
            passed = passed_by_code(top, crate, "/".join(names[:at]))
            if name in passed:
                low, inside = passed[name]
                return origin(low, part, [*inside, *names[at + 1 :]], top)
        return crate, names
    if part == "specs" and names[:1] == ["declared"]:
        crate, rest = origin(crate, "src", names[1:], top)
        return crate, ["declared", *rest]
    passed = passed_by_part(top, crate, part)
    if names and names[0] in passed:
        low, inside = passed[names[0]]
        return origin(low, part, [*inside, *names[1:]], top)
    # what the compiler makes of a type is at the place of the type's module
    return origin(crate, "src", names, top) if part == "proofs" else (crate, names)
