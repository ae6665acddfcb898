"""Computes a sum for each must-fail edit, of all that the prover's verdict on it depends on.

The sum covers:
- the kit's logic and the edit's own changes;
- the changed function with its attributes and clauses, without comments and layout, and its own proof files;
- what these lead to (scripts/meanings.py): definitions, types with what is implemented for them, constants, statements of lemmas, and
  signatures and clauses of called functions.

From there it goes on through definitions, types, statements and clauses, in the crate and those below. Bodies and proofs of other functions
aren't followed. If contracts see a type of a crate below as another value, by its model, its fields and its view don't count. How a type is
hashed counts only if something may hash it, and how it implements a trait of ours only if the trait is found: by its name, or by a method
that is called. A method that is called on a value is taken by its name, of each type found. An edit that
changes no function, or several, has the sum of its whole crate and of what that leads to.
"""

import hashlib
import os
import re

from items import Node
from kit import rt, rtlib
from meanings import Meanings
from planting import Crate, Edit, code_of, functions_in

LINES = ("file: ", "old: ", "new:")
HASHES = re.compile(r"\bhash\b|\b(?:Hash|Index)(?:Map|Set)\b")


class Found:
    """What was found so far for a crate: the nodes, the types and the traits among them, and the names of the called methods.

    `hashes` has the implementations of `Hash`, which count only if something may hash a value, and `held` those of traits of ours that
    weren't found yet."""

    def __init__(self, names, crate, allowed):
        self.names, self.crate, self.allowed = names, crate, allowed
        self.nodes, self.types, self.called, self.hashes, self.may_hash = set(), set(), set(), set(), False
        self.traits, self.held = set(), {}

    def copy(self):
        made = Found(self.names, self.crate, self.allowed)
        made.may_hash = self.may_hash
        made.nodes, made.types, made.called, made.hashes = {*self.nodes}, {*self.types}, {*self.called}, {*self.hashes}
        made.traits, made.held = {*self.traits}, {trait: [*them] for trait, them in self.held.items()}
        return made

    def add(self, waiting):
        """Adds these nodes and all that they lead to, in the crate and those below."""
        waiting, methods = [*waiting], self.names.methods
        while waiting:
            node = waiting.pop()
            if isinstance(node, str) or node.crate not in self.allowed:
                continue
            node = node.outer if node.outer and node.crate != self.crate else node
            if node in self.nodes:
                continue
            self.nodes.add(node)
            waiting += self.names.leads(node)
            waiting += self.implemented(node)
            self.may_hash = self.may_hash or HASHES.search(node.text) is not None
            waiting += self.hashes if self.may_hash else []
            if node.type:
                self.types.add(node.type)
                own = methods.get(node.type, {})
                waiting += [it for name in self.called & own.keys() for it in own[name]]
            for name in node.called - self.called:
                self.called.add(name)
                waiting += self.names.of_traits.get(name, [])
                waiting += [it for own in self.types for it in methods.get(own, {}).get(name, [])]
        return self

    def implemented(self, node):
        """The implementations that count now: those for a node, and those that were held until this trait was found."""
        counted = []
        for it in node.adjoined:
            if not it.trait and it.text.strip() == it.name:
                # a bare header, whose functions are nodes themselves
                continue
            if it.trait == "Hash":
                self.hashes.add(it)
            elif it.trait in self.names.traits - self.traits:
                self.held.setdefault(it.trait, []).append(it)
            else:
                counted.append(it)
        if node.name.startswith("trait "):
            trait = node.name.removeprefix("trait ")
            self.traits.add(trait)
            counted += self.held.pop(trait, [])
        return counted

    def sum(self):
        return hashlib.sha256(b"".join(sorted(it.sum(self.names.leads(it)) for it in self.nodes))).digest()


class EditSums:
    """The sums of the edits of these crates of `rtlib`. The constructor reads all code once."""

    def __init__(self, crates):
        self.names, self.functions, self.allowed = Meanings(crates), {}, {}
        with open(f"{rt.KIT}/KIT-ID", "rb") as it:
            # kits with different names may have the same logic
            self.kit = it.read().partition(b" ")[2]

    def of(self, crate):
        """The sum of each edit of a crate, by the edit's name."""
        copy = Crate(crate.folder)
        for it in self.names.files_of(crate.name):
            copy.found[os.path.relpath(it.path, crate.folder)] = functions_in(code_of(it.tokens))
        return {it.name: self.sum_of(crate, it) for path in rt.edits_of(crate)[0] for it in [Edit(path, copy)]}

    def sum_of(self, crate, edit):
        """The sum of an edit, as 16 hexadecimal digits."""
        text = rtlib.text_of(f"{crate.folder}/must-fail/{edit.name}.edit")
        lines = [it for it in text.split("\n") if it.startswith(LINES)]
        whole = self.node_of(crate, edit) if edit.function else None
        found = self.of_function(crate, whole).copy() if whole else self.of_crate(crate)
        if whole:
            new = "\n".join(it[4:] for it in lines if it.startswith("new:"))
            # its words are followed; its text is empty, since `lines` has the edit's text
            node = Node(whole.file, f"edit {edit.name}", "", " ".join(re.findall(r"\w+|[^\s\w]", new)), new)
            node.owner = whole.owner
            found.add([node])
        return hashlib.sha256(repr((self.kit, edit.name, lines, found.sum())).encode()).hexdigest()[:16]

    def node_of(self, crate, edit):
        """The node of the function that an edit changes, or None if it is in a macro."""
        path = f"{crate.folder}/{edit.file}"
        return next(it for it in self.names.files_of(crate.name) if it.path == path).functions.get(edit.function.end)

    def found(self, crate):
        """A `Found` without nodes, for a crate and those below it."""
        if crate not in self.allowed:
            self.allowed[crate] = {crate.name, *(it.name for it in crate.below())}
        return Found(self.names, crate.name, self.allowed[crate])

    def of_function(self, crate, node):
        """What a function depends on."""
        if node not in self.functions:
            self.functions[node] = self.found(crate).add([node])
        return self.functions[node]

    def of_crate(self, crate):
        """What a whole crate depends on."""
        if crate.name not in self.functions:
            files = self.names.files_of(crate.name)
            nodes = [it.whole or it for file in files for it in file.nodes]
            nodes += [Node(it, "attributes", it.inner) for it in files]
            nodes += [self.names.antt_file(*it).whole() for it in [*self.names.antt_files] if it[0] == crate.name]
            self.functions[crate.name] = self.found(crate).add(nodes)
        return self.functions[crate.name]
