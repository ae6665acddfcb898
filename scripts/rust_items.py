"""Reads the items of a file of code from its tokens: types, constants, traits, functions, implementations and imports.

The signature and clauses of a function are kept apart from its body. Comments, docstrings and layout are dropped.
"""

import re

from planting import without_attributes

# `tactic` and `cycle` say how a body is proved, the others how it is built
OF_BODIES = {"tactic", "cycle", "inline", "cold"}
KEYWORDS = {"fn", "struct", "enum", "union", "trait", "impl", "mod", "const", "static", "type", "macro_rules"}
# these end at a semicolon, whatever braces they have
TO_SEMICOLON = {"const", "static", "type"}
PAIRS = {"(": ")", "[": "]", "{": "}"}


class RustItem:
    """An item: its keyword, its name if it has one, the header of the implementation or trait around it, and its tokens.

    `head` has the tokens up to its body, or all if it has none. `end` is the byte after it."""

    def __init__(self, keyword, name, around, tokens, head):
        self.keyword, self.name, self.around, self.tokens, self.head = keyword, name, around, tokens, head
        self.end = tokens[-1].end


def read_rust(tokens):
    """The items of a file with these tokens. An implementation is an item without its functions, which are items too."""
    tokens = without_layout(tokens)
    closing, opened = {}, []
    for at, it in enumerate(tokens):
        if it.kind == "Code" and it.text in PAIRS:
            opened.append(at)
        elif it.kind == "Code" and it.text in PAIRS.values():
            closing[opened.pop()] = at
    found = []
    split(tokens, 0, len(tokens), closing, None, found)
    return found


def split(tokens, at, last, closing, around, found):
    """Adds the items from `at` up to `last` to `found`, and returns those of their tokens that are of no function."""
    others = []
    while at < last:
        keyword, name, body, end = next_item(tokens, at, last, closing)
        if keyword in ("impl", "mod", "trait") and body:
            header = tokens[at:body]
            inner = header if keyword != "mod" else around
            kept = split(tokens, body + 1, closing[body], closing, inner, found)
            if keyword != "mod":
                # a trait is kept with its functions: what it says about them is all that a call can know
                whole = tokens[at:end] if keyword == "trait" else [*header, *kept]
                found.append(RustItem(keyword, name, around, whole, header))
        else:
            item = RustItem(keyword, name, around, tokens[at:end], tokens[at : body or end])
            found.append(item)
            others += [] if keyword == "fn" else item.tokens
        at = end
    return others


def next_item(tokens, at, last, closing):
    """The item that begins at a place: its keyword, its name, the place of the brace of its body, and the place after it."""
    keyword = name = body = None
    while at < last:
        token = tokens[at]
        text = token.text if token.kind == "Code" else None
        if text == "#" and keyword is None:
            is_inner = tokens[at + 1].text == "!"
            at = closing[at + 1 + is_inner]
            if is_inner:
                return "inner", None, None, at + 1
        elif text in KEYWORDS and keyword is None and not (text == "const" and tokens[at + 1].text in ("fn", "unsafe")):
            keyword = text
            name = next((it.text for it in tokens[at + 1 : at + 3] if re.fullmatch(r"\w+", it.text) and it.text != "mut"), None)
        elif text == "{" and keyword not in TO_SEMICOLON:
            return keyword, name, at, closing[at] + 1
        elif text == ";":
            break
        elif text in PAIRS:
            at = closing[at]
        at += 1
    return keyword, name, body, min(at + 1, last)


def without_layout(tokens):
    """The tokens without docstrings, which some derives read, and without commas that only end the last line of a list."""
    kept = [it for it in tokens if it.kind != "Literal" or not it.text.startswith("//")]
    return [it for it, after in zip(kept, [*kept[1:], None]) if not (after and it.text == "," and after.text in ")]}" and it.line < after.line)]


def without_bodies_attributes(tokens):
    """The tokens without the attributes that concern bodies."""
    kept, at = [], 0
    while at < len(tokens):
        end = end_of_attribute(tokens, at)
        kept += [] if end else [tokens[at]]
        at = end or at + 1
    return kept


def end_of_attribute(tokens, at):
    """The place after an attribute that concerns bodies, or None if none begins here."""
    first, *words = [it.text for it in tokens[at : at + 4] if it.text != "!"]
    if tokens[at].kind != "Code" or first != "#" or words[:1] != ["["] or not OF_BODIES & {*words[1:2]}:
        return None
    depth = 0
    for end in range(at, len(tokens)):
        depth += {"[": 1, "]": -1}.get(tokens[end].text, 0)
        if tokens[end].text == "]" and not depth:
            return end + 1
    return None


def names_in_header(header):
    """The names of the type and the trait in an implementation's header. Each is None if there is none, or if it isn't a plain name."""
    words, depth, parts, last = without_attributes([it.text for it in header if it.kind == "Code"])[1:], 0, [], None
    for before, text in zip(["", *words], words):
        depth += {"<": 1, ">": -1}.get(text, 0) if before != "-" else 0
        if depth == 0 and text in ("for", "where"):
            parts.append(last)
            last = None
            if text == "where":
                break
        elif depth == 0 and re.fullmatch(r"\w+", text) and text not in ("mut", "dyn"):
            last = text
        elif depth == 0 and text in ("(", "["):
            last = None
    else:
        parts.append(last)
    return (parts[1], parts[0]) if len(parts) > 1 else (parts[0], None)


def without_imports(tokens):
    """The imports among these tokens, wherever they are, each from its `use` to its semicolon, and the other tokens."""
    imports, others, at = [], [], 0
    while at < len(tokens):
        if tokens[at].text == "use" and tokens[at].kind in ("Code", "Head"):
            end = next(end + 1 for end in range(at, len(tokens)) if tokens[end].text == ";")
            imports.append(tokens[at:end])
            while others and (others[-1].text in ("ghost", "pub") or re.search(r" pub \( \w+ \)$", " " + " ".join(it.text for it in others[-4:]))):
                others[-4 if others[-1].text == ")" else -1 :] = []
            at = end
        else:
            others.append(tokens[at])
            at += 1
    return imports, others


def imports_of(tokens):
    """The imports of a `use`: each path with the name that it defines, which is `*` for all of a module."""
    words = [it.text for it in tokens if it.kind == "Code"]
    at = words.index("use") + 1
    return list(tree(words[at:-1], []))


def tree(words, before):
    """Yields the imports in these words of a `use`, which come after the names `before`."""
    words, path = [it for it in words if it != ":"], [*before]
    for at, word in enumerate(words):
        if word == "{":
            part, depth = [], 0
            for it in words[at + 1 : -1]:
                depth += {"{": 1, "}": -1}.get(it, 0)
                if it == "," and not depth:
                    yield from tree(part, path)
                    part = []
                else:
                    part.append(it)
            yield from tree(part, path)
            return
        if word == "as":
            yield path, words[at + 1]
            return
        if word == "self" and before and path:
            yield path, path[-1]
            return
        path.append(word)
    if len(path) > len(before):
        yield path, path[-1]
