"""Finds what a contract depends on: the definitions and types that its words name, directly or through others.

An item is a definition of specs/ with its constructors, or a type of src/ as contracts see it: its declaration and, if it has a model,
the model's `Value` and `view` in place of the fields that the view doesn't name. Names are resolved through the `use` lines of their
file. A name bound by a λ, a `let`, a parameter or a pattern is not a use of a definition, and neither is a field. Fields need no
search: the definition that gives a value names the value's type.
"""

import os
import re

from passed_on import origin
from planting import Crate
from sources import TOP, crates, files_of, read

USE = re.compile(r"\buse Rattle\.([\w.'-]+?)(?:\.\{([^}]*)\}| as ([\w']+))?(?:;|$)", re.M)
RUST_USE = re.compile(r"^\s*(?:pub )?use ([\w:]+?)(?:::\{([^}]*)\})?;", re.M)
START = re.compile(r"( *)(?:(?:abbrev|unfoldable) )?(?:pub )?(?:(record|data) )?([^\s:({]+)")
WORD = r"[^\W\d][\w'-]*"
BINDERS = [rf"λ ((?:{WORD} ?)+)\.(?=\s)", rf"[({{]((?:{WORD} )+):", rf"\blet ({WORD})"]
TYPE = re.compile(r"^( *)(?:pub(?:\([a-z]+\))? )?(?:enum|struct|trait|type|const) (\w+)", re.M)
CALL = re.compile(r"(\w+)::(?:(\w+)::)?(\w+)")


class Item:
    """A definition or a type: its name, file and line, its number of lines without comments, and the text that is searched for names."""

    def __init__(self, name, path, line, text, is_type=False):
        self.name, self.path, self.line, self.text, self.is_type = name, path, line, text, is_type
        self.lines = sum(1 for it in text.splitlines() if it.strip())
        self.around, self.comment, self.constructors, self.uses, self.kit = "", "", [], [], set()


def without_comments(text):
    return re.sub(r"^\s*(--|//|#\[).*$", "", text, flags=re.M)


class Definitions:
    """A file of specs/ with its items."""

    def __init__(self, path):
        self.path, self.text = path, read(path)
        self.items = list(self.found())
        self.own = {name: it for it in self.items for name in [it.name, *it.constructors]}

    def found(self):
        """Yields the items, in the order of the file."""
        lines, blocks, at = self.text.splitlines(), [], 0
        while at < len(lines):
            line, depth = lines[at], depth_of(lines[at])
            if not line.strip() or line.strip().startswith(("--", "use ", "infix", "pub mod ", "pub use ")):
                at += 1
                continue
            blocks = [it for it in blocks if it[0] < depth]
            if re.match(r"\s*(module .*where|(abbrev )?mutual)$", line):
                blocks.append((depth, line))
                at += 1
                continue
            end = self.end_of(lines, at, depth)
            yield self.item(lines, at, end, blocks)
            at = end

    def end_of(self, lines, at, depth):
        """The first line after an item: another one begins there, its block ends, or a comment has the item's indentation."""
        for end in range(at + 1, len(lines)):
            line = lines[end]
            if not line.strip() or depth_of(line) > depth:
                continue
            is_equation = re.match(r"\s*(abbrev|unfoldable|pub|record|data|module|mutual|use|--)\b", line) is None and not line.strip().startswith("--")
            if depth_of(line) < depth or not is_equation or re.match(rf"\s*{WORD} :", line):
                return end
        return len(lines)

    def item(self, lines, at, end, blocks):
        match = START.match(lines[at])
        made = Item(match[3], self.path, at + 1, without_comments("\n".join(lines[at:end])))
        made.around = " ".join(it[1] for it in blocks)
        first = next((it + 1 for it in range(at - 1, -1, -1) if not lines[it].strip().startswith("--")), 0)
        made.comment = " ".join(it.strip()[2:].strip() for it in lines[first:at]) if first else ""
        if match[2] == "data":
            made.constructors = re.findall(rf"^ +({WORD}) :", made.text.partition("\n")[2], re.M)
        return made


def depth_of(line):
    return len(line) - len(line.lstrip())


class Source:
    """A file of src/ with its types as items."""

    def __init__(self, path):
        self.path, self.text = path, read(path)
        self.items = [self.item(match) for match in TYPE.finditer(self.text)]
        self.own = {it.name: it for it in self.items}

    def item(self, match):
        """Makes an item of a type's declaration and model."""
        line_end = self.text.index("\n", match.start())
        first = self.text[match.start() : line_end]
        if first.rstrip().endswith((";", "{}")):
            end = line_end
        elif "const" in first.split()[:2]:
            end = self.text.index(";\n", match.start()) + 1
        else:
            end = self.text.index(f"\n{match[1]}}}", match.start()) + 2
        declared = without_comments(self.text[match.start() : end])
        model = re.search(rf"^impl(?:<[^{{]*>)? Model for {match[2]}\b.*?^}}", self.text, re.M | re.S)
        ghosts = re.findall(r"^ +ghost (?:Value|view) = .*?};$", model[0], re.M | re.S) if model else []
        made = Item(match[2], self.path, self.text.count("\n", 0, match.start()) + 1, "\n".join([declared, *ghosts]), True)
        made.model, made.seen = "\n".join(ghosts), self.seen(declared, ghosts)
        return made

    def seen(self, declared, ghosts):
        """The part of a declaration that contracts see: the fields that the model's view names, or all of it without a model."""
        if not ghosts:
            return declared
        named = set(re.findall(r"\.(\w+)", "".join(it for it in ghosts if "ghost view" in it)))
        return "\n".join(line for line in declared.splitlines() if (it := re.match(r"\s+(?:pub(?:\(\w+\))? )?(\w+):", line)) and it[1] in named)


class Sources:
    """All items of the crates, each with the items that it uses."""

    def __init__(self):
        self.definitions = {path: Definitions(path) for crate in crates() for path in files_of(crate, "specs", ".antt")}
        self.sources = {path: Source(path) for crate in crates() for path in files_of(crate, "src", ".rt")}
        for file in self.definitions.values():
            scope, aliases = self.scope(file.text)
            scope.update({name: (it, name in it.constructors) for name, it in file.own.items()})
            for it in file.items:
                self.add_uses(it, it.text, it.around, scope, aliases)
        for file in self.sources.values():
            scope, aliases = self.scope(file.text)
            for it in file.items:
                self.add_uses(it, it.model, "", scope, aliases)
                it.uses += self.types_in(it.seen, file)

    def scope(self, text):
        """What the `use` lines of a file import: a dict of names and one of aliases.

        A name has its item and whether it is a constructor; a name of the kit has its module. An alias has a module."""
        names, aliases = {}, {}
        for module, braced, alias in USE.findall(text):
            if alias:
                aliases[alias] = module
            for name in filter(None, map(str.strip, (braced or "").split(","))):
                own, _, other = name.partition(" as ")
                names[other or own] = self.named(module, own)
            if not braced and not alias:
                aliases[module.rpartition(".")[2]] = module
        return names, aliases

    def named(self, module, name):
        """The item that a module has under this name, and whether it is a constructor. For a module of the kit: the module."""
        crate, _, rest = module.partition(".specs.")
        if crate not in crates():
            return module, False
        crate, names = origin(crate, "specs", rest.split("."))
        if names[0] == "declared":
            return self.declared(crate, [*names[1:], *([name] if names[-1] == "TheConstants" else [])]), True
        file = self.definitions.get(f"crates/{crate}/specs/{'/'.join(names)}.antt")
        found = file.own.get(name) if file else None
        if found is None and file:
            passed_on = re.search(rf"^pub use Rattle\.(\S+)\.{{[^}}]*\b{re.escape(name)}\b[^}}]*}}$", file.text, re.M)
            if passed_on:
                return self.named(passed_on[1], name)
        if found is None:
            raise LookupError(f"{module} has no {name}")
        return found, name in found.constructors

    def declared(self, crate, parts):
        """The type or constant of src/ from which a module of specs.declared is made."""
        crate, parts = origin(crate, "src", [it for it in parts if not it.startswith("The")])
        own = [it for path, it in self.sources.items() if path.startswith(f"crates/{crate}/src/")]
        for path in (f"crates/{crate}/src/{'/'.join(parts[:-1]) or 'lib'}.rt", f"crates/{crate}/src/main.rt"):
            if path in self.sources and parts[-1] in self.sources[path].own:
                return self.sources[path].own[parts[-1]]
        found = [it.own[parts[-1]] for it in own if parts[-1] in it.own]
        if len(found) != 1:
            raise LookupError(f"{crate} has {len(found)} types {parts[-1]}")
        return found[0]

    def add_uses(self, item, text, around, scope, aliases):
        """Adds to an item's uses what the words of this text name."""
        text = re.sub(r'"(?:[^"\\\n]|\\.)*"', " ", text)
        for alias, module in aliases.items():
            for name in re.findall(rf"(?<![\w.'-]){re.escape(alias)}\.({WORD}|◌\S+◌)", text + " " + around):
                self.note(item, self.named(module, name), name)
        text = re.sub(rf"(?<=[\w)'])\.(?:{WORD}|\d+)", " ", text)
        own, bound = re.escape(item.name), set()
        for left in re.findall(rf"^ *{own} ([^=\n]*?) =", text, re.M) + [it for pattern in BINDERS for it in re.findall(pattern, text)]:
            bound.update(it for it in re.findall(WORD, left) if not (it in scope and scope[it][1]))
        text = re.sub(rf"(?<=[{{;])(\s*){WORD}(?= =)", r"\1", text)
        text = re.sub(rf"^ +(?:pub )?{WORD}( {WORD})* :", " ", text, flags=re.M) if not item.is_type else text
        words = set(re.findall(WORD, text + " " + around)) - bound
        signs = set(re.findall(r"[^\s\w(){},;.\"]+", text))
        signs |= {">>=", ">>"} if "do" in words else set()  # a `do` block stands for these operators
        for name, found in scope.items():
            parts = [it for it in name.split("◌") if it]
            if name in words or ("◌" in name and all(it in words or it in signs or it in text.split() for it in parts)):
                self.note(item, found, name)

    def note(self, item, found, name):
        if isinstance(found[0], str):
            item.kit.add((found[0].partition(".")[0], name))
        elif found[0] is not item:
            item.uses.append(found[0])

    def types_in(self, text, file):
        """The types of our crates that a Rust text names."""
        crate = file.path.split("/")[1]
        scope = {}
        for path, braced in RUST_USE.findall(file.text):
            path = path if braced else path.rpartition("::")[0]
            names = braced.split(",") if braced else [RUST_USE.sub("", "") or ""]
            for name in map(str.strip, names):
                scope[name] = path
        for path in re.findall(r"^\s*use ([\w:]+)::(\w+);", file.text, re.M):
            scope[path[1]] = path[0]
        found = []
        for name in dict.fromkeys(re.findall(r"\b[A-Z]\w*", text)):
            if name in file.own:
                found.append(file.own[name])
            elif name in scope:
                head, *rest = scope[name].split("::")
                head = crate if head in ("crate", "super", "self") else head
                if head in crates():
                    found.append(self.declared(head, [*rest, name]))
        return found

    def call(self, name):
        """A public call as an item, which uses what its signature and contract name."""
        match = CALL.fullmatch(name)
        if not match or match[1] not in crates():
            raise LookupError(f"no call CRATE::NAME or CRATE::TYPE::NAME: {name}")
        crate, found = Crate(os.path.join(TOP, "crates", match[1])), []
        for path in files_of(match[1], "src", ".rt"):
            file = path.split("/", 2)[2]
            if re.search(rf"\bpub fn {match[3]}\b", read(path)):
                found += [(path, file, it) for it in crate.functions(file) if (it.type, it.name) == (match[2], match[3])]
        if len(found) != 1:
            raise LookupError(f"{match[1]} has {len(found)} public calls {name}")
        path, file, function = found[0]
        text = crate.text(file)[function.head : function.body].decode()
        made = Item(name, path, crate.text(file)[: function.head].count(b"\n") + 1, text)
        scope, aliases = self.scope(self.sources[path].text)
        clauses = re.search(r"\b(requires|ensures)\b.*", text, re.S)
        self.add_uses(made, clauses[0] if clauses else "", "", scope, aliases)
        made.uses += self.types_in(text[: clauses.start()] if clauses else text, self.sources[path])
        return made

    def public_of(self, path):
        """The public functions of a file of src/, as calls."""
        crate, file = path.split("/")[1], path.split("/", 2)[2]
        public = set(re.findall(r"^ *pub fn (\w+)", read(path), re.M))
        own = [it for it in Crate(os.path.join(TOP, "crates", crate)).functions(file) if it.name in public]
        return [self.call("::".join(filter(None, [crate, it.type, it.name]))) for it in own]

    def below(self, calls):
        """All items that the calls depend on, in reading order.

        Crates come lowest first. In a crate types come first, then files of definitions, each after those that it uses."""
        found, waiting = set(), list(calls)
        while waiting:
            waiting += [it for it in dict.fromkeys(waiting.pop().uses) if it not in found and not found.add(it)]
        places = {path: at for at, path in enumerate(self.files_in_order())}
        return sorted(found, key=lambda it: (places[it.path], it.line))

    def files_in_order(self):
        """The files of each crate, those of types first, each file after those that it uses."""
        ordered = []
        for files, crate in ((files, crate) for crate in crates() for files in (self.sources, self.definitions)):
            left = [it for it in files if it.startswith(f"crates/{crate}/")]
            uses = {path: {it.path for own in files[path].items for it in own.uses} - {path} for path in left}
            while left:
                ordered.append(next((it for it in left if not uses[it] & set(left)), left[0]))
                left.remove(ordered[-1])
        return ordered
