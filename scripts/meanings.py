"""Resolves the words of code, definitions and proofs to the items that they stand for, in any crate.

A name is followed through the imports of its file and through what other modules pass on (`pub use`), to the item itself. So it doesn't
matter how it is imported. A name of the kit stays a name. A local name that hides an imported one is taken for the imported one:
more is found than is meant, never less.
"""

import os
import re

from antt_items import Imports, read_antt
from items import Node, code_text, words_of_text
from kit import rtlib
from planting import tokens_of
from rust_items import imports_of, names_in_header, read_rust, without_bodies_attributes, without_imports

MADE = re.compile(r"The[A-Z]\w*")
OF_FUNCTIONS = {"Goals", "Given"}
OURS = ("crate", "self", "super")
TYPES = {"struct", "enum", "union", "type"}
# the items of a model that contracts of other crates use
OF_VALUES = {"Value", "coded"}


class AnttFile:
    """A file of definitions or lemmas: its items by name, and its imports."""

    def __init__(self, crate, part, path):
        self.crate, self.path, self.made = crate, path, None
        try:
            items, self.rest, self.imports = read_antt(rtlib.text_of(path), part == "proofs")
        except ValueError as error:
            raise ValueError(f"{path}: {error}") from error
        self.own, self.nodes = {}, []
        for it in items:
            node = Node(self, it.names[0] if it.names else "", f"{it.statement}\n{self.rest}", antt=it.statement)
            if it.statement != it.text:
                node.whole = Node(self, f"{node.name} whole", f"{it.text}\n{self.rest}", antt=it.text)
            self.nodes.append(node)
            for name in it.names:
                self.own.setdefault(name, []).append(node)

    def whole(self):
        """The whole file as one node, for the function whose proof file it is."""
        if self.made is None:
            text = "\n".join([*(it.whole.text if it.whole else it.text for it in self.nodes), self.rest])
            self.made = Node(self, "all", text, antt=text)
        return self.made


class RustFile:
    """A file of code: its items by name, and its imports."""

    def __init__(self, crate, module, path, tokens):
        self.crate, self.module, self.path, self.tokens, self.own, self.uses = crate, module, path, tokens, {}, {}
        ghost, (imports, others) = [], without_imports(tokens)
        for item in imports:
            if item[0].kind == "Head":
                ghost.append(re.sub(r" ?([.{},;]) ?", r"\1", code_text(item)))
            else:
                for parts, name in imports_of(item):
                    self.uses.setdefault(name, []).append(parts)
        self.imports = Imports("\n".join(ghost))
        if sum(map(len, [*self.imports.names.values(), *self.imports.aliases.values()])) < len(ghost):
            raise ValueError(f"{path}: a `ghost use` can't be read")
        self.items = read_rust(others)
        self.inner = " ".join(code_text(it.tokens) for it in self.items if it.keyword == "inner")
        self.nodes, self.functions = [], {}


class Meanings:
    """The files of these crates of `rtlib`, and what the names in them stand for."""

    def __init__(self, crates):
        self.crates = {it.name: it for it in crates}
        self.rust, self.antt_files, self.proofs = {}, {}, {it: [] for it in self.crates}
        self.methods, self.of_traits, self.traits, self.implemented = {}, {}, set(), []
        self.read_antt_paths()
        self.read_rust_files()
        self.unresolved, self.known, self.begun, self.is_cut = set(), {}, set(), False
        for file in [it for them in self.rust.values() for it in them]:
            self.add_items(file)
        for node, header, file in self.implemented:
            self.add_implementation(node, header, file)
        for it in [it for them in self.rust.values() for file in them for it in file.nodes if it.type]:
            self.set_outer(it)

    def read_antt_paths(self):
        """Records the paths of the files of definitions and lemmas. Each file is read when a name leads there."""
        for name, crate in self.crates.items():
            for part in ("specs", "proofs"):
                top = f"{crate.folder}/{part}"
                for at, _, files in os.walk(top):
                    place = tuple(os.path.relpath(at, top).split("/")) if at != top else ()
                    for it in files:
                        if it.endswith(".antt"):
                            own = () if not place and it == "Lib.antt" else (*place, it.removesuffix(".antt"))
                            self.antt_files[name, part, own] = f"{at}/{it}"
                            self.proofs[name] += [(name, part, own)] if part == "proofs" else []

    def read_rust_files(self):
        """Reads all files of code at once."""
        paths = [path for it in self.crates.values() for path in rtlib.files_of(it.folder) if path.endswith(".rt")]
        owner = {path: it for it in self.crates.values() for path in paths if path.startswith(f"{it.folder}/src/")}
        for path, tokens in tokens_of(*owner).items():
            names = path.removeprefix(f"{owner[path].folder}/src/").removesuffix(".rt").split("/")
            module = tuple(names[:-1] if names[-1] in ("lib", "main", "mod") else names)
            try:
                file = RustFile(owner[path].name, module, path, tokens)
            except (IndexError, KeyError, StopIteration) as error:
                raise ValueError(f"{path}: its braces can't be read") from error
            self.rust.setdefault((owner[path].name, module), []).append(file)

    def antt_file(self, crate, part, place):
        """A file of definitions or lemmas, if there is one at this place."""
        path = self.antt_files.get((crate, part, place))
        if isinstance(path, str):
            path = self.antt_files[crate, part, place] = AnttFile(crate, part, path)
        return path

    def add_items(self, file):
        """Makes the nodes of a file of code. A function has two: what its callers see, and the whole function."""
        for it in file.items:
            of_type, of_trait = names_around(it)
            around = code_text(it.around or [])
            if it.keyword == "fn":
                name = "::".join(filter(None, [of_trait, of_type, it.name]))
                node = Node(file, name, *texts(without_bodies_attributes(it.head), around))
                node.whole = Node(file, f"{name} whole", *texts(it.tokens, around))
                node.whole.text += f"\n{self.inner_of(file)}"
                cycle = re.search(r"# \[ cycle \( (\w+)", code_text(it.head))
                node.whole.function = (of_type, it.name, cycle and cycle[1])
                file.functions[it.end] = node.whole
                if it.around:
                    self.methods.setdefault((file.crate, of_type), {}).setdefault(it.name, []).append(node)
                else:
                    file.own.setdefault(it.name, []).append(node)
                node.owner = node.whole.owner = of_type
                if of_trait:
                    self.implemented.append((node, it.around, file))
            elif it.keyword not in ("inner", "mod", None):
                node = Node(file, f"{it.keyword} {it.name}", *texts(it.tokens, ""))
                self.add_other(file, it, node)
            else:
                continue
            file.nodes.append(node)

    def add_other(self, file, item, node):
        """Registers the node of an item other than a function: by its name, or as an implementation for its type."""
        node.outer = outer_of(item, node)
        if item.keyword == "impl":
            node.owner = names_in_header(item.head)[0]
            node.name = code_text(item.head)
            node.id = f"{node.id} {node.name}"
            self.implemented.append((node, item.head, file))
            return
        node.owner = item.name if item.keyword in TYPES | {"trait"} else None
        node.type = (file.crate, item.name) if item.keyword in TYPES else None
        file.own.setdefault(item.name, []).append(node)
        if item.keyword == "trait":
            self.traits.add(item.name)
            for name in re.findall(r"\bfn (\w+)", code_text(item.tokens)):
                self.of_traits.setdefault(name, []).append(node)

    def inner_of(self, file):
        """The attributes of a file and of the modules around it, which say how bodies are proved."""
        places = [file.module[:end] for end in range(len(file.module) + 1)]
        return "\n".join(it.inner for place in places for it in self.rust.get((file.crate, place), []))

    def add_implementation(self, node, header, file):
        """Adds an implementation to its type or, if that isn't of our crates, to each item of ours that its header names."""
        of_type, node.trait = names_in_header(header)
        types = self.of_path(file.crate, file.module, (of_type,)) if of_type else set()
        ours = [it for it in types if isinstance(it, Node)]
        for it in ours or [it for it in self.leads(node) if isinstance(it, Node)]:
            it.adjoined.append(node)

    def set_outer(self, node):
        """Keeps `outer` of a type that contracts see as another value, by a model. Drops it for any other type."""
        if any(it.trait == "Model" for it in node.adjoined):
            node.outer.type, node.outer.adjoined = node.type, node.adjoined
        else:
            node.outer = None

    # names

    def of_path(self, crate, module, parts):
        """The items, or the names of the kit, that a path of code stands for in a module."""
        return self.once((crate, module, parts), self.path_of, crate, module, parts[0], parts[1:])

    def once(self, key, find, *given):
        """What `find` finds, which is kept. An import that leads to itself adds nothing; what is found inside such a cycle isn't kept."""
        if key in self.known:
            return self.known[key]
        if key in self.begun:
            self.is_cut = True
            return set()
        self.begun.add(key)
        found = find(*given)
        self.begun.discard(key)
        if not self.is_cut or not self.begun:
            self.known[key] = found
        self.is_cut &= bool(self.begun)
        return found

    def path_of(self, crate, module, head, rest):
        if head in OURS:
            base = {"crate": (), "self": module, "super": module[:-1]}[head]
            return self.of_path(crate, base, rest) if rest else set()
        found = self.inside(crate, module, head, rest)
        return found | self.of_path(head, (), rest) if head in self.crates and rest else found

    def inside(self, crate, module, head, rest):
        found = set()
        for file in self.rust.get((crate, module), []):
            for it in file.own.get(head, []):
                found.add(it)
                if it.type and rest:
                    found.update(self.methods.get(it.type, {}).get(rest[0], []))
            for target in file.uses.get(head, []):
                found |= self.passed_on(crate, module, tuple(target), rest)
            for target in file.uses.get("*", []):
                found |= self.passed_on(crate, module, (*target[:-1], head), rest) if target[0] in (*self.crates, *OURS) else set()
        if rest and (crate, (*module, head)) in self.rust:
            found |= self.of_path(crate, (*module, head), rest)
        return found

    def passed_on(self, crate, module, target, rest):
        """What an imported path, with more names after it, stands for: its own name if it is of the kit."""
        path = target + rest
        found = self.once((crate, module, target, rest), self.of_path, crate, module, path) if not self.is_begun(crate, module, target) else set()
        is_ours = path[0] in (*self.crates, *OURS) or self.names_something(crate, module, path[0])
        if found or self.is_cut:
            return found
        # a path of ours in lower case, with no names after it, may be a module, which isn't an item
        named = self.named(path) if is_ours and (rest or path[-1][:1].isupper()) else set()
        return named if is_ours else {"::".join(path)}

    def named(self, path):
        """For a path of ours that can't be resolved: all items of code that have the name of its last part."""
        self.unresolved.add(path)
        return {"::".join(path), *(it for them in self.rust.values() for file in them for it in file.own.get(path[-1], []))}

    def is_begun(self, crate, module, target):
        """Whether this import is being followed already, which means that a name leads to itself."""
        is_begun = any(it[:3] == (crate, module, target) for it in self.begun if len(it) == 4)
        self.is_cut |= is_begun
        return is_begun

    def names_something(self, crate, module, name):
        """Whether a name of code stands for an item or a module of ours in a module."""
        return (crate, (*module, name)) in self.rust or any(name in it.own for it in self.rust.get((crate, module), []))

    def of_module(self, parts, names):
        """The items, or the names of the kit, that names after a module of definitions or lemmas stand for."""
        if parts[0] != "Rattle" or len(parts) < 3 or parts[1] not in self.crates:
            return {".".join([*parts, *names])}
        return self.once((*parts, "", *names), self.module_of, parts[1], parts[2], [*parts[3:], *names])

    def module_of(self, crate, part, rest):
        if part == "specs" and rest[0] in ("declared", "contracts"):
            found = self.of_made(crate, rest[1:])
        else:
            found = self.walk(crate, part, rest) or self.of_made(crate, rest)
        return found or self.unknown(crate, part, rest)

    def walk(self, crate, part, rest):
        """The items to which these names lead, from the root of a crate's definitions or proofs."""
        place = ()
        while True:
            file, found = self.antt_file(crate, part, place), set()
            imports = file.imports if file else Imports("")
            for target in imports.aliases.get(rest[0], []):
                found |= self.of_module(target, rest[1:]) if rest[1:] else set()
            end = next((it for it in range(1, len(rest)) if (crate, part, (*place, *rest[:it])) in self.antt_files), None)
            if found or not end:
                break
            place, rest = (*place, *rest[:end]), rest[end:]
        for it in rest if not found else []:
            found.update(file.own.get(it, []) if file else [])
            for target, name in imports.names.get(it, []):
                found |= self.of_module(target, [name])
            if found:
                break
        return found

    def of_made(self, crate, names):
        """The items of code from which the compiler makes a module: a type, a constant, or the function whose goals it has."""
        end = next((at for at, it in enumerate(names) if it in OF_FUNCTIONS), None)
        if end is not None:
            return self.once((crate, "goals", *names[:end]), self.with_goals, crate, (*names[:end], ""))
        path = tuple(it for it in names if not MADE.fullmatch(it))
        return self.of_path(crate, (), path) if path else set()

    def with_goals(self, crate, place):
        """The functions whose proof files are at this place."""
        return {it for file in self.files_of(crate) for it in file.functions.values() if is_proof_place(place, it)}

    def unknown(self, crate, part, rest):
        """For a name that can't be resolved: all items of the crate that have the name of its last part, or else all its items."""
        self.unresolved.add((crate, part, *rest))
        files = [self.antt_file(*it) for it in [*self.antt_files] if it[0] == crate and it[1] == part]
        files += self.files_of(crate)
        named = {it for file in files for it in file.own.get(rest[-1], [])}
        return (named or {it for file in files for it in file.nodes}) | {".".join(["Rattle", crate, part, *rest])}

    # what a text leads to

    def leads(self, node):
        """What the words of a node lead to. Adds to `called` what it calls by a name alone. This is computed once."""
        if node.found is None:
            found = set()
            if node.code:
                for path in set(re.findall(r"[A-Za-z_]\w*(?: : : [A-Za-z_]\w*)*", node.code)):
                    found |= self.of_code(node, tuple(path.split(" : : ")))
                node.called.update(re.findall(r"\. (\w+) (?:\(|: : <)", node.code), re.findall(r"> : : (\w+)", node.code))
            if node.antt:
                found |= self.of_text(node)
            if node.name.startswith(("const ", "static ")):
                found = {it.whole or it if isinstance(it, Node) else it for it in found}
            if node.function:
                found |= self.belonging_to(node)
            found.discard(node)
            node.found = found
        return node.found

    def belonging_to(self, node):
        """What belongs to a whole function: its proof files and, if it is in a cycle of calls, the other functions of the cycle."""
        _, _, cycle = node.function
        keys = [it for it in self.proofs[node.crate] if is_proof_place(it[2], node)]
        wholes = [it for file in self.files_of(node.crate) for it in file.functions.values() if cycle and it.function[2] == cycle]
        return {*(self.antt_file(*it).whole() for it in keys), *wholes}

    def files_of(self, crate):
        """The files of code of a crate."""
        return [it for (own, _), them in self.rust.items() if own == crate for it in them]

    def of_code(self, node, parts):
        """What a path in code leads to."""
        file, head = node.file, parts[0]
        if head == "Self" and node.owner:
            parts = (node.owner, *parts[1:])
        is_known = head in (file.uses if isinstance(file, RustFile) else {}) or "*" in file.uses or self.names_something(file.crate, file.module, parts[0])
        is_path = len(parts) > 1 and (head in OURS or head in self.crates)
        found = self.of_path(file.crate, file.module, parts) if is_known or is_path else set()
        if len(parts) > 1 and not any(isinstance(it, Node) and it.name.split("::")[-1] == parts[-1] for it in found):
            node.called.add(parts[-1])
        return found

    def of_text(self, node):
        """What the words of definitions, clauses or proofs lead to."""
        file, imports = node.file, node.file.imports
        words, dotted = words_of_text(node.antt)
        opened = {it for line in re.findall(r"\bunfold(?:ing)?\b (.*)", node.antt) for it in words_of_text(line)[0]}
        found = set()
        for name in [*imports.names, *(file.own if isinstance(file, AnttFile) else [])]:
            if name in words or "◌" in name and is_written(name, words, node.antt):
                them = {*file.own.get(name, [])} if isinstance(file, AnttFile) else set()
                for module, own in imports.names.get(name, []):
                    them |= self.of_module(module, [own])
                found |= {it.whole or it if isinstance(it, Node) else it for it in them} if name in opened else them
        for chunk in dotted:
            parts = chunk.split(".")
            for module in imports.aliases.get(parts[0], []):
                them = self.of_module(module, parts[1:])
                found |= {it.whole or it if isinstance(it, Node) else it for it in them} if parts[-1] in opened else them
            if parts[0] == "Rattle" and len(parts) > 3 and (*parts[1:3], tuple(parts[3:])) not in self.antt_files:
                found |= self.of_module(parts[:-1], parts[-1:])
        if isinstance(file, RustFile):
            for word in words:
                if word[:1].isupper() and (word in file.uses or word in file.own):
                    found |= self.of_path(file.crate, file.module, (word,))
        return found


def outer_of(item, node):
    """What other crates can see of an item, or None. Of a struct it is the header without fields, of a model what its value is."""
    if item.keyword == "struct":
        return Node(node.file, f"{node.name} outside", *texts(item.head, ""))
    if item.keyword != "impl" or names_in_header(item.head)[1] != "Model":
        return None
    starts = [at for at, it in enumerate(item.tokens) if it.text in OF_VALUES and item.tokens[at - 1].text == "ghost"]
    ends = [next(end for end in range(at, len(item.tokens)) if item.tokens[end].text == ";") for at in starts]
    kept = [it for at, end in zip(starts, ends) for it in item.tokens[at:end]]
    return Node(node.file, f"{code_text(item.head)} outside", *texts([*item.head, *kept], ""))


def names_around(item):
    """The type and the trait of the implementation around an item. In a trait, the trait counts as the type."""
    words = [it.text for it in item.around or []]
    if "impl" in words:
        return names_in_header(item.around)
    return (words[words.index("trait") + 1], None) if "trait" in words else (None, None)


def is_proof_place(place, node):
    """Whether a place in proofs/ is in the folder of a function, or of its cycle.

    That folder is below the function's module, or below a folder whose name begins with the type's. A trait's method has one that is named
    by both."""
    of_type, name, cycle = node.function
    module, ends = node.file.module, [at for at, it in enumerate(place[:-1]) if it in (name, f"+{name}", f"+{cycle}")]
    is_below = place[: len(module)] == module
    return any(at >= len(module) and is_below or of_type and any(it.startswith(of_type) for it in place[:at]) for at in ends)


def texts(tokens, around):
    """The text of a node of code, and its words of code and of clauses."""
    # a literal uses the names in its braces
    code = " ".join(it.text if it.kind == "Code" else " ".join(re.findall(r"{(\w+)", it.text)) for it in tokens if it.kind in ("Code", "Literal"))
    antt = " ".join(it.text for it in tokens if it.kind not in ("Code", "Literal"))
    return f"{around}\n{code_text(tokens)}", f"{around} {code}", antt


def is_written(name, words, text):
    """Whether a text uses an operator. A `do` block stands for two of them."""
    return "do" in words and ">>" in name or all(it in text for it in name.split("◌") if it)
