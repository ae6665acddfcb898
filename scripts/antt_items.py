"""Reads the items of a file of definitions or lemmas: their names, their text, and the file's imports.

An item is a definition, a record, a type with its constructors, or a lemma. If no other module can open a lemma, its statement is
kept apart from its proof. Comments and empty lines are dropped. Indentation is kept, since it shows what belongs to what. Lines that
belong to no item, such as `infix`, count for each item of the file.
"""

import re

USE = re.compile(r"^[ \t]*(pub )?use ([^\s{};]+?)(?:\.\{([^}]*)\}| as ([^\s{};]+))?[ \t]*;?[ \t]*$", re.M)
COMMENT = re.compile(r"^[ \t]*--.*$", re.M)
MODULES = re.compile(r"^[ \t]*(pub )?mod [\w'-]+[ \t]*$", re.M)
OPENED = re.compile(r"(?:abbrev |unfoldable |record |data |ruleset )")
HEAD = re.compile(r"\s*((?:abbrev |unfoldable |pub |axiom |record |data |ruleset )*)(.*)")
SIGNATURE = re.compile(r"\s*(?!= )[^\s(){};]+(?: (?![=:]\s)[^\s(){};]+)* :(?=\s|$)")
OF_FILE = re.compile(r"\s*(infix\w*|open|package|as)\b")


class Imports:
    """What the `use` and `pub use` lines of a file import.

    `names` has for each name the modules that it may come from, each with its name there. `aliases` has the modules of each alias."""

    def __init__(self, text):
        self.names, self.aliases = {}, {}
        for _, module, braced, alias in USE.findall(text):
            parts = module.split(".")
            for name in filter(None, map(str.strip, braced.split(","))):
                own, _, other = name.partition(" as ")
                self.names.setdefault(other.strip() or own.strip(), []).append((parts, own.strip()))
            if not braced:
                self.aliases.setdefault(alias or parts[-1], []).append(parts)


class AnttItem:
    """An item: its names, with those of constructors and fields, its whole text, and its statement.

    If other modules can open it, its statement is the whole text."""

    def __init__(self, names, text, statement):
        self.names, self.text, self.statement = names, text, statement


def read_antt(text, is_of_proofs):
    """Returns the items of a file with this text, the text that belongs to no item, and the imports."""
    text = COMMENT.sub("", text)
    if len(USE.findall(text)) != len(re.findall(r"^[ \t]*(?:pub )?use ", text, re.M)):
        raise ValueError("a `use` line can't be read")
    imports = Imports(text)
    lines = [it.rstrip() for it in MODULES.sub("", USE.sub("", text)).splitlines() if it.strip()]
    items, rest = [], []
    split(lines, "", is_of_proofs, items, rest)
    return items, "\n".join(rest), imports


def depth_of(line):
    return len(line) - len(line.lstrip())


def split(lines, around, is_of_proofs, items, rest):
    """Adds the items of these lines to `items` and the other lines to `rest`. `around` is the header of the block that they are in."""
    at = 0
    while at < len(lines):
        depth, first = depth_of(lines[at]), at
        if re.match(r"\s*(pub )?(module|(abbrev )?mutual)\b", lines[at]):
            while not re.search(r"\b(where|mutual)$", lines[at]) and at + 1 < len(lines):
                at += 1
            header, first = "\n".join(lines[first : at + 1]), at + 1
            at = end_of(lines, first, lambda line: depth_of(line) > depth)
            block = lines[first:at]
            if "mutual" in header.split() and (not is_of_proofs or "abbrev" in header):
                items.append(AnttItem(names_of_all(block), *2 * ["\n".join([around, header, *block])]))
            else:
                split(block, f"{around}\n{header}", is_of_proofs, items, rest)
        elif OF_FILE.match(lines[at]):
            at = end_of(lines, at + 1, lambda line: depth_of(line) > depth)
            rest += lines[first:at]
        else:
            at = end_of(lines, at + 1, lambda line: depth_of(line) > depth or depth_of(line) == depth and continues_item(line))
            items.append(item_of(lines[first:at], around, is_of_proofs))


def end_of(lines, at, is_inside):
    return next((end for end in range(at, len(lines)) if not is_inside(lines[end])), len(lines))


def continues_item(line):
    """Whether a line with the same indentation as an item's head belongs to that item, as an equation or an `unfolding` line does."""
    is_new = re.match(r"\s*(abbrev|unfoldable|pub|axiom|record|data|ruleset|module|mutual)\b", line) or OF_FILE.match(line)
    return not is_new and not SIGNATURE.match(line)


def item_of(lines, around, is_of_proofs):
    """Makes an item of these lines."""
    words, rest = HEAD.match(lines[0]).groups()
    names = names_in(rest)
    if {"record", "data"} & {*words.split()}:
        names = [*names[:1], *names_of_all(lines[1:])]
    text = "\n".join([around, *lines])
    if not is_of_proofs or OPENED.search(words):
        return AnttItem(names, text, text)
    depth = depth_of(lines[0])
    end = end_of(lines, 1, lambda line: depth_of(line) > depth)
    return AnttItem(names, text, "\n".join([around, *lines[:end]]))


def names_in(head):
    """The names that the head of an item defines."""
    before = re.split(r" [:=](?=\s|$)", head)[0]
    return [it for it in re.split(r"[\s(){};]+", before) if it]


def names_of_all(lines):
    """The names in all signatures and heads of these lines."""
    found = []
    for line in lines:
        words, rest = HEAD.match(line).groups()
        if words or SIGNATURE.match(line):
            found += names_in(rest)
    return found
