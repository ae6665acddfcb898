"""Plants wrong bodies: adds each must-fail edit of a crate as a separate function, next to the one that it changes.

Most edits change the body of one function. The changed function is added under another name, with the same attributes, signature and
clauses and a copy of the proof files. So all such functions of a crate can be checked at once, over an unchanged crate.
"""

import json
import os
import re
import subprocess

from kit import rt, rtlib

ROW = re.compile(rb"(\d+) (\d+) (\d+) (\w+) (.*)")


class Token:
    """A token: its line, its first byte, the byte after it, its kind (Rattle's code, a clause or something else), and its text."""

    def __init__(self, line, start, end, kind, text):
        self.line, self.start, self.end, self.kind, self.text = line, start, end, kind, text


def tokens_of(*paths):
    """The tokens of each of these files without comments, by its path."""
    ran = subprocess.run([rtlib.RATTLE, "fmt", "--tokens", *paths], capture_output=True) if paths else None
    if ran and ran.returncode:
        raise ValueError(f"rattle can't read {', '.join(paths[:3])}{', ..' * (len(paths) > 3)}: {ran.stderr.decode(errors='replace').strip()[:200]}")
    found = {path: [] for path in paths}
    for line in ran.stdout.splitlines() if ran else []:
        if line.startswith(b"file "):
            own = found[paths[int(line[5:])]]
        elif it := ROW.fullmatch(line):
            text = json.loads(it[5]) if b"\\" in it[5] else it[5][1:-1].decode()
            own.append(Token(int(it[1]), int(it[2]), int(it[3]), it[4].decode(), text))
    return found


def code_of(tokens):
    """The tokens of Rattle's code, without clauses, ghost items and literals."""
    return [it for it in tokens if it.kind == "Code"]


class Function:
    """A function of a file: its place in bytes (`start` with its attributes, `head` at `fn`, `body` at the brace, `end`), and its name.

    Also the inline modules and the type that it is in, whether it is of a trait, and whether it can't be in the file twice (`is_single`)."""

    def __init__(self, start, head, name):
        self.start, self.head, self.name = start, head, name
        self.body = self.end = self.type = None
        self.modules, self.is_single, self.is_of_trait = [], False, False

    def holds(self, start, end):
        """Whether these bytes are in its body."""
        return self.body < start and end < self.end

    def close(self, end, headers, body):
        """Sets what is known at its end, from the headers of the items around it and the tokens of its body."""
        self.end = end
        for header in map(without_attributes, headers):
            if header[:1] == ["mod"]:
                self.modules.append(header[1])
            elif header[:1] == ["impl"]:
                self.type = type_of(header)
                self.is_of_trait |= self.type is None
            else:
                self.is_of_trait = True
        self.is_single = self.is_of_trait or self.calls_itself(body)

    def calls_itself(self, body):
        for at in range(1, len(body) - 1):
            before = "".join(it.text for it in body[max(at - 3, 0) : at])
            is_own = before.endswith(("self.", "Self::")) if self.type else not before.endswith((".", ":"))
            if body[at].text == self.name and body[at + 1].text == "(" and is_own:
                return True
        return False


def without_attributes(header):
    """The texts of an item's header after its attributes and its visibility."""
    text = re.sub(r"# (! )?\[ .*?\] (?=#|pub|unsafe|impl|mod|trait|const|fn)", "", " ".join(header) + " ")
    return re.sub(r"^(pub )?(\( .*? \) )?(unsafe )?", "", text).split()


def type_of(header):
    """The name of the type of an `impl` header, or None if it is of a trait."""
    depth, name = 0, None
    for before, text in zip(["", *header[1:]], header[1:]):
        depth += {"<": 1, ">": -1}.get(text, 0) if before != "-" else 0
        if depth == 0 and text in ("for", "where"):
            return None if text == "for" else name
        if depth == 0 and re.fullmatch(r"\w+", text):
            name = text
    return name


def functions_of(path):
    """The functions of a file that have a body, in their order, without those inside another one."""
    return functions_in(code_of(tokens_of(path)[path]))


def functions_in(tokens):
    """The functions in these tokens of code."""
    found, blocks, since, depth, begun = [], [], [], 0, None
    for at, token in enumerate(tokens):
        text = token.text
        depth += {"(": 1, "[": 1, ")": -1, "]": -1}.get(text, 0)
        if text == "{":
            function = None if depth else begun
            blocks.append(([it.text for it in since], depth, function, at))
            if function:
                function.body, begun = token.start, None
            since, depth = [], 0
        elif text == "}":
            _, depth, function, opened = blocks.pop()
            if function and not any(it[2] for it in blocks):
                function.close(token.end, [it[0] for it in blocks], tokens[opened:at])
                found.append(function)
            since = []
        elif text == ";" and not depth:
            since, begun = [], None
        else:
            since.append(token)
            if at and tokens[at - 1].text == "fn" and re.fullmatch(r"\w+", text):
                begun = Function(since[0].start, tokens[at - 1].start, text)
    return found


def changed(before, after):
    """The part of a text that differs from another text: its first byte, and the byte after it."""
    start = as_long_as(min(len(before), len(after)), lambda at: before[:at] == after[:at])
    most = min(len(before), len(after)) - start
    same = as_long_as(most, lambda at: before[len(before) - at :] == after[len(after) - at :])
    return start, len(before) - same


def as_long_as(most, is_same):
    """The greatest length up to `most` for which `is_same` holds. It holds for each lesser length too."""
    least = 0
    while least < most:
        middle = (least + most + 1) // 2
        least, most = (middle, most) if is_same(middle) else (least, middle - 1)
    return least


class Edit:
    """A must-fail edit: its name, and the texts of the files that it makes or why it can't be applied.

    If it changes the body of one function, it has the file, the function and its changed text. `is_single` says whether the changed
    function can't be next to the original."""

    def __init__(self, path, crate):
        self.name = os.path.basename(path).removesuffix(".edit")
        self.texts, self.fault = rt.read_edit(path, crate.folder)
        self.file = self.function = self.text = self.is_single = None
        if self.texts and len(self.texts) == 1 and next(iter(self.texts)).startswith("src/"):
            self.find(crate, *self.texts.items())

    def find(self, crate, change):
        file, before, after = change[0], crate.text(change[0]), change[1].encode()
        inside = next((it for it in crate.functions(file) if it.holds(*changed(before, after))), None)
        if inside:
            self.file, self.function, self.is_single = file, inside, crate.is_single(file, inside)
            self.text = after[inside.start : inside.end + len(after) - len(before)]

    def place_name(self):
        """What it changes, as text for a reader."""
        if not self.function:
            return ", ".join(f"`{it}`" for it in self.texts)
        return f"`{self.function.type}::{self.function.name}`" if self.function.type else f"`{self.function.name}`"


class Planted:
    """A function to be planted: its name, the file and function that it is made from, and its text if that differs."""

    def __init__(self, name, file, function, text):
        self.name, self.file, self.function, self.text = name, file, function, text
        self.lines = range(0)

    def renamed(self, own):
        """Its text with its name. `own` is the text of the function that it is made from."""
        return re.sub(rb"\bfn\s+%b\b" % self.function.name.encode(), b"fn " + self.name.encode(), self.text or own, count=1)


class Crate:
    """The sources of a crate in a folder that this run may write to."""

    def __init__(self, folder):
        self.folder, self.texts, self.found, self.places = folder, {}, {}, None

    def text(self, file):
        """A file's bytes, as they were first read."""
        if file not in self.texts:
            with open(f"{self.folder}/{file}", "rb") as it:
                self.texts[file] = it.read()
        return self.texts[file]

    def functions(self, file):
        if file not in self.found:
            self.found[file] = functions_of(f"{self.folder}/{file}")
        return self.found[file]

    def module(self, file, function):
        """The path of the function's module below the crate, as a list of names."""
        names = file.removeprefix("src/").removesuffix(".rt").split("/")
        return [*(names[:-1] if names[-1] in ("lib", "main", "mod") else names), *function.modules]

    def proofs(self, file, function):
        """The folder below proofs/ that has, or would have, the folder of the function.

        That of a method is at the module of its type, wherever its `impl` block is."""
        module = self.module(file, function)
        own = "/".join([*module, *([function.type] if function.type else [])])
        names = (f"{function.type}/{function.name}", f"{function.type}/+{function.name}")
        if self.places is None:
            self.places = [os.path.relpath(at, f"{self.folder}/proofs") for at, _, _ in os.walk(f"{self.folder}/proofs")]
        places = [it for it in self.places if function.type and f"/{it}".endswith(tuple(f"/{own}" for own in names))]
        folders = sorted({os.path.dirname(it) for it in places}, key=lambda it: (it != own, it))
        return folders[0] if folders else own

    def path(self, file, function):
        """What names the function to the prover: its path below the crate.

        For a method it is only `TYPE::NAME`, since a method is at the module of its type. For a function of a trait it is the path of the
        module, which is empty for the root of a crate."""
        if function.type:
            return f"{function.type}::{function.name}"
        return "::".join([*self.module(file, function), *([] if function.is_of_trait else [function.name])])

    def is_single(self, file, function):
        """Whether the function can't be there twice: it is of a trait, in a cycle of calls, or shares its proof with others."""
        in_cycle = b"#[cycle" in self.text(file)[function.start : function.head]
        return function.is_single or in_cycle or self.has_proofs(file, function, "+")

    def has_proofs(self, file, function, mark=""):
        """Whether the function has its own proof files or, with the mark `+`, those of a cycle of calls."""
        return os.path.isdir(f"{self.folder}/proofs/{self.proofs(file, function)}/{mark}{function.name}")

    def plant(self, planted):
        """Writes each function after the one that it is made from, and copies the proof files."""
        for file in {it.file for it in planted}:
            text, at = b"", 0
            for it in sorted((it for it in planted if it.file == file), key=lambda it: it.function.end):
                text, at = text + self.text(file)[at : it.function.end] + b"\n\n", it.function.end
                first = text.count(b"\n") + 1
                text += it.renamed(self.text(file)[it.function.start : it.function.end])
                it.lines = range(first, text.count(b"\n") + 2)
            self.put(file, text + self.text(file)[at:])
        for it in planted:
            self.copy_proofs(self.proofs(it.file, it.function), it.function.name, it.name)

    def copy_proofs(self, place, old, new):
        """Copies the proof files of a function to another name, and changes the names of its modules in them."""
        path, folder = ".".join(["proofs", *filter(None, place.split("/"))]), f"{self.folder}/proofs/{place}"
        if not os.path.isdir(f"{folder}/{old}"):
            return
        os.makedirs(f"{folder}/{new}")
        for file in os.listdir(f"{folder}/{old}"):
            with open(f"{folder}/{old}/{file}", encoding="utf-8") as it:
                text = re.sub(rf"{re.escape(path)}\.{old}(?=[.\s{{])", f"{path}.{new}", it.read())
            with open(f"{folder}/{new}/{file}", "w", encoding="utf-8") as it:
                it.write(re.sub(rf"\b{old}_spec\b", f"{new}_spec", text))

    def uproot(self, planted):
        """Removes what was planted."""
        for file in {it.file for it in planted}:
            self.put(file, self.text(file))
        for it in planted:
            folder = f"{self.folder}/proofs/{self.proofs(it.file, it.function)}/{it.name}"
            for file in os.listdir(folder) if os.path.isdir(folder) else []:
                os.remove(f"{folder}/{file}")
            if os.path.isdir(folder):
                os.rmdir(folder)

    def put(self, file, text):
        with open(f"{self.folder}/{file}", "wb") as it:
            it.write(text)
