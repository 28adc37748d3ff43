"""The definitions and lemmas of a file, and those of them that a text reaches by names."""
import collections
import dataclasses
import functools
import hashlib
import re

WORD = re.compile(r"[^\W\d]\w*")
COMMENT = re.compile(r"^\s*--")
USE = re.compile(r"^\s*(?:pub\s+)?use\s")
RENAMING = re.compile(r"([^\s{},]+)\s+as\s+([^\s{},]+)")
# The line on which a definition begins: the words before its name, and the name.
BEGINS = re.compile(r"^(\s*)((?:(?:abbrev|unfoldable|opaque|pub|data|record)\s+)*)([^\s:(){}=]+)(?:\s+[^:=]*)?\s:(?:\s|$)")
MODULE = re.compile(r"^\s*(?:pub\s+)?module\s.*\bwhere\s*$")


@dataclasses.dataclass(frozen=True)
class Definition:
    """A definition or lemma: the sets of words of its names, all its words, and a digest of its text."""

    names: tuple
    words: frozenset
    digest: bytes

    def is_named_by(self, words):
        """Whether these words include all words of one of its names. A name without words, such as that of an operator, always counts as
        included."""
        return any(name <= words for name in self.names)


def words_of(text):
    return frozenset(WORD.findall(text))


def definition(lines, names):
    text = "".join(lines)
    return Definition(tuple(words_of(it) for it in names), words_of(text), hashlib.sha256(text.encode()).digest())


def read(text):
    """The definitions of a file, in order, with its imports under other names: a word, and the words that it replaces."""
    found, lines, names, data_indent = [], [], [""], None
    aliases = []

    def end():
        if lines:
            found.append(definition(lines, names))

    for line in text.splitlines(keepends=True):
        if COMMENT.match(line) or not line.strip():
            continue
        if USE.match(line):
            aliases += [(words_of(other), words_of(name)) for name, other in RENAMING.findall(line)]
            continue
        begins, indent = BEGINS.match(line), len(line) - len(line.lstrip())
        if MODULE.match(line):
            # its parameters are parameters of all definitions in it
            end()
            lines, names, data_indent = [line], [""], None
        elif data_indent is not None and indent > data_indent:
            lines.append(line)
            if begins:
                names.append(begins[3])
        elif begins and begins[3] not in ("let", "in", "where"):
            end()
            lines, names = [line], [begins[3]]
            data_indent = indent if re.search(r"\b(data|record)\b", begins[2]) else None
        else:
            data_indent = None
            lines.append(line)
    end()
    return tuple(found), tuple(aliases)


def reached(files, words):
    """The digests of the definitions in these files, as `read` returns them, that are reached from these words; and the words known then."""
    by_word, waiting, always = collections.defaultdict(list), [], []
    for definitions, aliases in files:
        for it in definitions:
            for name in it.names:
                if name:
                    by_word[min(name)].append((name, it))
                else:
                    always.append(it)
        for other, name in aliases:
            if other:
                by_word[min(other)].append((other, Definition((), name, b"")))
    digests, seen, left = set(), set(), list(words)
    known = set(words)

    def take(it):
        if id(it) not in seen:
            seen.add(id(it))
            if it.digest:
                digests.add(it.digest)
            new = it.words - known
            known.update(new)
            left.extend(new)

    for it in always:
        take(it)
    blocked = collections.defaultdict(list)
    while left:
        word = left.pop()
        for name, it in by_word.get(word, ()):
            missing = next((other for other in name if other not in known), None)
            if missing is None:
                take(it)
            else:
                blocked[missing].append((name, it))
        for name, it in blocked.pop(word, ()):
            missing = next((other for other in name if other not in known), None)
            if missing is None:
                take(it)
            else:
                blocked[missing].append((name, it))
    return digests, known
