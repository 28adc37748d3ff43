"""The items of source files, read with the toolchain's own tokens, so without comments: functions, types, constants, traits, impl blocks,
imports.
"""
import collections
import hashlib
import json
import re
import subprocess

ROW = re.compile(r'^\d+ (\d+) (\d+) (\w+) (".*")$', re.M)
WORD = re.compile(r"[^\W\d]\w*")
KEYWORDS = {"fn", "struct", "enum", "union", "impl", "trait", "mod", "use", "const", "static", "type", "ghost", "extern"}
# An item of these kinds ends with a semicolon, whatever braces it has.
PLAIN = {"use", "const", "static", "type", "ghost"}
OPENING, CLOSING = set("([{"), set(")]}")

Token = collections.namedtuple("Token", "start end kind text")


class Piece:
    """A part of a source file: a digest of its tokens, the words in them, and those words that may name a function or a method."""

    def __init__(self, tokens):
        texts = [it.text for it in tokens]
        self.digest = hashlib.sha256(" ".join(texts).encode()).digest()
        self.words = frozenset(word for it in tokens if it.kind != "Literal" for word in WORD.findall(it.text))
        # the token before each token, except for the dots of a range, and the token after it
        befores = ["", *("" if pair == (".", ".") else pair[1] for pair in zip(["", *texts], texts))]
        code = [(before, text, rest) for it, before, text, rest in zip(tokens, befores, texts, [*texts[1:], ""]) if it.kind == "Code"]
        self.functions = frozenset(text for before, text, _ in code if before != ".")
        # no parenthesis and no colon follow the name of a field, as they follow the name of `parse::<u8>`
        self.methods = frozenset(text for before, text, rest in code if before == ":" or before == "." and rest in ("(", ":"))


class Item:
    """An item with its byte offsets in the file. `whole` is all of it; `shown` is the part that callers see: for a function its signature
    and clauses."""

    def __init__(self, file, kind, name, block, tokens, shown):
        self.file, self.kind, self.name, self.block = file, kind, name, block
        self.start, self.end = tokens[0].start, tokens[-1].end
        self.whole = Piece(tokens)
        # the result of a const function is computed, so its body counts as well
        self.shown = self.whole if kind != "fn" or any(it.text == "const" for it in shown) else Piece(shown)

    @property
    def owner(self):
        """The type of which a function is a method."""
        return self.block.owner if self.block else None


class Block:
    """The inside of an impl block or of a module, its header among its items; `owner` is the type of an impl block."""

    def __init__(self, owner, is_of_trait, outer):
        self.owner, self.is_of_trait, self.outer, self.items = owner, is_of_trait, outer, []


def is_mark(token, marks):
    return token.kind in ("Code", "Head", "End") and token.text in marks


def keyword_at(tokens, at):
    """The index of an item's keyword, after its attributes and its visibility."""
    depth = 0
    for place in range(at, len(tokens)):
        token = tokens[place]
        if is_mark(token, OPENING | CLOSING):
            depth += 1 if token.text in OPENING else -1
        elif depth == 0 and token.kind in ("Code", "Head") and token.text in KEYWORDS:
            return place + (token.text == "const" and tokens[place + 1].text == "fn")
    return None


def past_item(tokens, at, kind):
    """The end of the item whose keyword is at an index, and the start of the braces of its body, if it has one."""
    depth, body = 0, None
    for place in range(at, len(tokens)):
        token = tokens[place]
        if is_mark(token, OPENING | CLOSING):
            depth += 1 if token.text in OPENING else -1
            if token.kind == "Code" and token.text == "{" and depth == 1 and body is None and kind not in PLAIN:
                body = place
            elif token.kind == "Code" and token.text == "}" and depth == 0 and body is not None:
                return place + 1, body
        elif token.text == ";" and depth == 0:
            return place + 1, None
    return len(tokens), body


def implemented(front):
    """The type of an impl block, and whether the block implements a trait."""
    words, depth, before = [], 0, ""
    for token in front[1:]:
        if token.text == "<":
            depth += 1
        elif token.text == ">" and before != "-":
            depth -= 1
        elif depth == 0:
            words.append(token.text)
        before = token.text
    words = words[: words.index("where")] if "where" in words else words
    is_of_trait = "for" in words
    words = words[words.index("for") + 1 :] if is_of_trait else words
    names = [it for it in words if WORD.fullmatch(it) and it not in ("mut", "dyn")]
    return names[-1] if names else "", is_of_trait


def without_derives(front):
    """The tokens before a type's keyword, without the attributes that derive traits for it: a derived function counts as a function of its
    own."""
    kept, at = [], 0
    while at < len(front):
        if [it.text for it in front[at : at + 3]] == ["#", "[", "derive"]:
            at += 1 + next(place for place, token in enumerate(front[at:]) if token.text == "]")
        else:
            kept.append(front[at])
            at += 1
    return kept


def split(file, tokens, outer=None):
    """The items of a file, or of the inside of an impl block or a module, including nested items."""
    at, items = 0, []
    while [it.text for it in tokens[at : at + 3]] == ["#", "!", "["]:
        past = at + 1 + next(place for place, token in enumerate(tokens[at:]) if token.text == "]")
        items.append(Item(file, "attribute", "", outer, tokens[at:past], tokens[at:past]))
        at = past
    while (key := keyword_at(tokens, at)) is not None:
        kind = tokens[key].text
        past, body = past_item(tokens, key, kind)
        own, inside = tokens[at:past], outer
        shown = own if body is None else tokens[at:body]
        if kind in ("impl", "mod") and body is not None:
            owner, is_of_trait = implemented(tokens[key:body]) if kind == "impl" else (None, False)
            inside = Block(owner, is_of_trait, outer)
            items.append(Item(file, kind, owner, inside, shown, shown))
            inside.items = [items[-1], *split(file, tokens[body + 1 : past - 1], inside)]
            items += inside.items[1:]
        else:
            kind = "ghost use" if kind == "ghost" and tokens[key + 1].text == "use" else kind
            name = next((it.text for it in tokens[key + 1 : past] if WORD.fullmatch(it.text)), "")
            if kind in ("struct", "enum"):
                own = shown = [*without_derives(tokens[at:key]), *tokens[key:past]]
            items.append(Item(file, kind, name, outer, own, shown))
        at = past
    return items


def read(files):
    """A dict from each of these source files to its items."""
    if not files:
        return {}
    ran = subprocess.run(["rattle", "fmt", "--tokens", *map(str, files)], capture_output=True, text=True, check=True)
    found = {}
    for file, rows in zip(files, re.split(r"^file \d+\n", ran.stdout, flags=re.M)[1:], strict=True):
        found[file] = split(file, [Token(int(a), int(b), kind, json.loads(text)) for a, b, kind, text in ROW.findall(rows)])
    return found
