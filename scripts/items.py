"""The nodes that a sum can depend on: items of code, of definitions or of lemmas, each with the words that lead to others."""

import hashlib
import re

WORD = re.compile(r"[^\W\d][\w'-]*")
CHUNK = re.compile(r"[^\s(){};,\"]+")


class Node:
    """A node: its file, its name, its text without comments, and its words of code (`code`) and of clauses (`antt`).

    `owner` is the type that it belongs to, and `trait` the trait that it implements. `adjoined` has the implementations for it. `outer` is
    the part of it that other crates can see, if that is less."""

    def __init__(self, file, name, text, code="", antt=""):
        self.file, self.name, self.text, self.code, self.antt = file, name, text, code, antt
        self.crate, self.id = file.crate, f"{file.path.rpartition(f'/{file.crate}/')[2]}: {file.crate}: {name}"
        self.whole = self.owner = self.type = self.function = self.trait = self.outer = self.found = self.made = None
        self.adjoined, self.called = [], set()

    def sum(self, leads):
        """The sum of this node alone: its place, its text, and the nodes that its words lead to."""
        if self.made is None:
            names = sorted({it if isinstance(it, str) else it.id for it in leads})
            self.made = hashlib.sha256(repr((self.id, self.text, names)).encode()).digest()
        return self.made


def code_text(tokens):
    return " ".join(it.text for it in tokens)


def words_of_text(text):
    """The words of definitions or proofs: all that may be names, and those of them with dots."""
    chunks = {it.strip(".") for it in CHUNK.findall(text)}
    dotted = {it for it in chunks if "." in it}
    words = {*chunks, *WORD.findall(text)}
    return words | {part for it in dotted for part in it.split(".")}, dotted
