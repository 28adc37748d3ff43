"""Random texts whose blocks are certain, and the stretches of their leaves: the definitions of Columns, Rows and Tokens.

Pieces that may begin another block are left out: no line begins with an HTML block, a fence, a thematic break or a list of its own.
"""
import re
from typing import NamedTuple

from inlines import letters
from inlines.tokens import Stretch

FRAGMENTS = [fragment.encode() for fragment in [
    *["*", "_", "[", "]", " ", "a"] * 6, *["**", "b", "\\", "\n", "`", "\"", "'"] * 4,
    *["__", "![", "](", "~", "^", "==", "<", "-", ".", "$"] * 3,
    *["***", "~~", "``", "][", "[]", "(", ")", ">", "&amp;", "&", "...", "--", "  ", "\r\n", "[a]", "[b c]", "  \n", "{", "}", "$$", "$a$"] * 2,
    "~~~", "~~~~", "^^", "```", "!", "<a>", "<a:b>", "</a>", "<a b=\"", "<b c='", "=", "/>", "<b", "<!--", "-->", "->", "<?",
    "?>", "<!A ", "<![CDATA[", "]]>", "&#", "&#35;", "&#x22;", "&copy;", "&auml;", "&quot;", "&#0;", "&#10;", ";", "---", "-----",
    ",", "|", "\\$", "\\{", "{$}", "#", ":", "/", "\t", "\r", "\\\n", "\\\r\n", " \t\n", "\n ", "\n   ", "\n\t", "c", "x", "A", "k", "1",
    "\f", "\v", "\x7f", "\0", "\u00a0", "\u2003", "é", "É", "ß", "SS", "ẞ", "«", "»", "“", "€", "+", "😀", "\u212a", "\u0301",
    "[a](", "(/u \"t\")", "[a][b c]", "[a][]", "(<v>)", " \"t\"", " 't'", " (t)", "(\n", "[ a ]", "[x]", "[é]", "[*x*]", "[a\\]]",
    "[k]", "[ss]", "[none]", "[a](b)", "![a](b)", "(b\\)", "<b c", "*a", "a*", "_a", "a_", "**a", "a**",
    *["[^", "[^a]", "^"] * 3, "![^", "![^a]", "[^b c]", "[^x][]", "[a][^b]", "[^a][b c]", "[^a](b)", "[^ ]", "[^\n", "[^a\nb]", "[^[", "[[^a]", "[^\\]", "[^É]",
    *["[[", "]]", "|"] * 3, "![[", "[[a]]", "[[a|", "|b]]", "[[[", "]]]", "[[|", "|]]", "[[]]", "]](b)", "[[a", "[[`a|b`", "[[<a b='|'>",
    *["<a@b.c>", "@"] * 3, "<a@b", "<!a@b>", "<?a@b>", "<a@b-c.d>", "<a@-b>", "<a@b..c>", "<a+*@b>", "<@b>", "<a@b.",
]]

# the last two are long: they use up the reference expansion limit
DEFINITIONS = [text.encode() for text in [
    "[a]: /u", "[A]: /second", "[b c]: <v w> \"t&amp;\\*\\\"\"", "[SS]: /s 'x\n  y'", "[ß]: /second", "[é]: /é\\_ (t)",
    "[a\\]]: /e&copy;\\]", "[*x*]: /e \"*q*\"", "[&amp;]: u(v(w))", "[!]:\n/i\n'j'", "[`]: /c", "[B\nC]: /second", "[x]: <>",
    "[p|q]: /pipe \"|\"", "[\"]: /q '\"'", "[_]: /_", "[k]: &auml;&nope;\\a", "[a a]: /aa \"\"", "[  a  b ]: /ab", "[1]: #1",
    "[a]: " + "/" * 60000, "[x]: " + "x" * 33000 + " \"" + "y" * 30000 + "\"",
]]

# the labels of footnotes
FOOTNOTES = [text.encode() for text in ["a", "b c", "b", "x", "É", "SS", "&amp;", "*x*", "`", "1", "p|q"]]

# what cells have besides
IN_CELLS = [fragment.encode() for fragment in [
    *["\\|", "\\\\|"] * 12, *["\\\\\\|", "`a\\|b`", "$a\\|b$", "[p\\|q]", "[p\\\\|q]", "[a][p\\|q]", "(/u\\|v)", "(/u\\\\|v \"t\\\\|\")"] * 4,
    *["[^p\\|q]", "[[a\\|b]]", "<a:\\|>", "<a\\|b@c>", "<a@b>", "<a b=\"\\|\">", "\\`\\|`"] * 2,
]]

# between its pipes a cell has a pipe only after a backslash, and does not end with a backslash
CELL = re.compile(rb"\|((?:[^\n\r|]|(?<=\\)\|)*[^\n\r|\\])\|\n\|-\|")

PREFIXES = {"quote": [b"> ", b">", b" > ", b">\t", b"   >  ", b">"], "item": [b"- ", b"1. ", b"*   ", b" + ", b"-\t", b"12) "]}


# ## Columns and Rows

class Column(NamedTuple):
    byte: int
    at: int
    part: int


class Row(NamedTuple):
    columns: list
    content_end: int
    line_end: int
    lazy: bool


def expand(at, bs):
    columns = []
    for b in bs:
        width = 4 - len(columns) % 4 if b == 9 else 1
        columns += [Column(b, at, part) for part in range(width)]
        at += 1
    return columns


def rows(text, at):
    found = []
    for line in letters.lines(text):
        content = letters.content(line)
        found.append(Row(expand(at, content), at + len(content), at + len(line), False))
        at += len(line)
    return found


def is_blank(c):
    return letters.is_blank_byte(c.byte)


def indent(columns):
    return letters.prefix_len(is_blank, columns)


def without_indent(columns):
    return columns[indent(columns):]


def drop_end(passes, columns):
    return columns[:len(columns) - letters.prefix_len(passes, columns[::-1])]


def words_of(columns):
    return bytes(c.byte for c in without_indent(columns) if c.part == 0)


def first_place(none, columns):
    return (columns[0].at + (columns[0].part > 0)) if columns else none


def end_place(none, columns):
    return columns[-1].at + 1 if columns else none


# ## Containers (CommonMark 5.1 and 5.2): quotes, and items with a number of columns

QUOTE = -1
MARKER = re.compile(rb"([-+*]|\d{1,9}[.)])(?=[ \t])")
BREAK = re.compile(rb"([-*_])[ \t]*(\1[ \t]*){2,}$", re.DOTALL)


def width_of(columns):
    """The columns of an item's prefix, with one to four blanks after the marker; None if no item begins, or the item is empty."""
    words = words_of(columns)
    marker = MARKER.match(words)
    if indent(columns) > 3 or not marker or BREAK.match(words):
        return None
    before = indent(columns) + len(marker[0])
    blanks = indent(columns[before:])
    return None if before + blanks == len(columns) else before + (1 if blanks > 4 else blanks)


def without_prefix(container, columns):
    """The columns after the prefix of a container; None if the line lacks it."""
    if container == QUOTE:
        if indent(columns) > 3 or words_of(columns)[:1] != b">":
            return None
        rest = without_indent(columns)[1:]
        return rest[1:] if rest and is_blank(rest[0]) else rest
    return columns[container:] if indent(columns) >= container else None


def first_line(kinds, row):
    """The containers that a first line begins, and the rest of the line; None if it does not begin them."""
    containers = []
    for kind in kinds:
        width = QUOTE if kind == "quote" else width_of(row.columns)
        rest = None if width is None else without_prefix(QUOTE, row.columns) if width == QUOTE else row.columns[width:]
        if rest is None:
            return None
        containers.append(width)
        row = row._replace(columns=rest)
    return containers, row


def later_line(containers, row):
    """The rest of a later line; a line that lacks a prefix is lazy."""
    for container in containers:
        rest = without_prefix(container, row.columns)
        if rest is None:
            return row._replace(lazy=True)
        row = row._replace(columns=rest)
    return row


# ## Tokens: the stretches of paragraphs and headings

def stretches(found):
    """Lines after their prefixes: a line that begins where the one before it ended is in the same stretch."""
    begin, answer = first_place(found[0].content_end, without_indent(found[0].columns)), []
    for row, later in zip(found, found[1:]):
        start = first_place(later.content_end, later.columns)
        if start != row.line_end:
            answer.append(Stretch(begin, row.line_end))
            begin = start
    last = found[-1]
    words = drop_end(is_blank, without_indent(last.columns))
    answer.append(Stretch(begin, end_place(first_place(last.content_end, without_indent(last.columns)), words)))
    return [s for s in answer if s.start < s.end]


def without_closing(columns):
    bare = drop_end(lambda c: c.byte == 35, columns)
    words = drop_end(is_blank, bare)
    return words if not bare or len(words) < len(bare) else columns


def heading_stretches(level, row):
    following = without_indent(without_indent(row.columns)[level:])
    start = first_place(row.content_end, following)
    end = end_place(start, without_closing(drop_end(is_blank, following)))
    return [Stretch(start, end)] if start < end else []


# ## Texts

OPENS = re.compile(rb"#{1,6}([ \t]|$)|>|[-+*]([ \t]|$)|\d{1,9}[.)]([ \t]|$)|([-*_])[ \t]*(\4[ \t]*){2,}$|=+[ \t]*$|-+[ \t]*$"
                   rb"|`{3,}[^`]*$|~{3}|<\?|<!--|<![A-Za-z]|<!\[CDATA\[", re.DOTALL)
UNDERLINE = re.compile(rb"=+[ \t]*$", re.DOTALL)


def may_open(row, is_first):
    """Whether a line may be something other than a line of a paragraph: then its text is not tried."""
    words = words_of(row.columns)
    if not words or (is_first and indent(row.columns) > 3):
        return True
    if indent(row.columns) > 3:
        return False
    if OPENS.match(words) or (words.startswith(b"[^") and b"]:" in words):
        return True
    rest = letters.after_tag(words) if is_first else None
    return rest is not None and not letters.after_leading_blanks(rest)


class Sample(NamedTuple):
    """A text that is one paragraph or heading in quotes and items; `level` is 0 for a paragraph, and a heading may be underlined."""
    text: bytes
    kinds: tuple
    level: int
    underlined: bool
    is_cell = False

    def rows(self, at):
        """The rest of its lines inside the containers; None if the first line does not begin these."""
        found = rows(self.text, at)
        begun = first_line(self.kinds, found[0]) if found and not self.text.endswith((b"\n", b"\r")) else None
        return begun and [begun[1], *(later_line(begun[0], row) for row in found[1:])]

    def leaf(self, at):
        """The stretches of its leaf, if the text is at an offset of the source; None if it may be something else."""
        found = self.rows(at)
        if found is None:
            return None
        if self.underlined:
            found, last = found[:-1], found[-1]
            if last.lazy or indent(last.columns) > 3 or not UNDERLINE.match(words_of(last.columns)):
                return None
        elif self.level:
            words = words_of(found[0].columns)
            is_heading = len(found) == 1 and indent(found[0].columns) < 4 and re.match(rb"#{%d}([ \t]|$)" % self.level, words)
            return heading_stretches(self.level, found[0]) if is_heading else None
        if not found or any(may_open(row, n == 0) for n, row in enumerate(found)):
            return None
        if words_of(found[0].columns).startswith(b"[") and b"]:" in self.text:
            return None
        return stretches(found)

    def blocks(self):
        """The names of the elements around the leaf."""
        names = []
        for kind in self.kinds:
            names += ["BlockQuote"] if kind == "quote" else ["List", "Item"]
        if self.level:
            return names + ["Heading"]
        return names if self.kinds and self.kinds[-1] == "item" else names + ["Paragraph"]


class Cell(NamedTuple):
    """A text that is the head of a table with one cell, between two pipes, and its delimiter row."""
    text: bytes
    is_cell = True

    def leaf(self, at):
        """The stretch of its cell, if the text is at an offset of the source; None if it may be something else."""
        found = CELL.fullmatch(self.text)
        words = found and found[1].strip(b" \t")
        if not words:
            return None
        start = at + self.text.index(words, 1)
        return [Stretch(start, start + len(words))]

    def blocks(self):
        """The names of the elements around the leaf."""
        return ["Table", "TableHead", "TableCell"]


def some_text(random, fragments=FRAGMENTS):
    """A text of 1 to 60 characters."""
    size, text = random.randint(1, 60) if random.random() < 0.5 else random.randint(1, 20), ""
    few = random.sample(fragments, random.randint(3, 8)) if random.random() < 0.5 else fragments
    while len(text) < size:
        text += random.choice(few).decode()
    return text[:60].encode()


def later_prefix(random, kinds):
    """Prefixes of a later line, of which some or all may be missing."""
    prefix = b""
    for kind in kinds:
        if random.random() < 0.15:
            break
        prefix += random.choice(PREFIXES["quote"] if kind == "quote" else [b"  ", b"   ", b"    ", b"\t"])
    return prefix


def heading(random, prefix, kinds, line):
    """A heading with an opening sequence, and perhaps a closing one."""
    level = random.randint(1, 6)
    closing = random.choice([b"", b"", b" #", b" ##  ", b"#", b"\\#"])
    return Sample(prefix + b"#" * level + random.choice([b" ", b"  ", b"\t"]) + line + closing, kinds, level, False)


def some_sample(random):
    """A sample whose leaf is sure."""
    while True:
        kinds = random.choice([(), (), ("quote",), ("quote",), ("item",), ("quote", "quote"), ("quote", "item"), ("item", "quote")])
        prefix = b"".join(random.choice(PREFIXES[kind]) for kind in kinds)
        cut = letters.lines(some_text(random).strip(b"\r\n")) or [b""]
        shape = random.random()
        if shape < 0.15:
            sample = heading(random, prefix, kinds, letters.content(cut[0]))
        else:
            later = b"".join(later_prefix(random, kinds) + line for line in cut[1:])
            text = prefix + random.choice([b"", b"", b" "]) + cut[0] + later
            underlined = shape < 0.25 and "item" not in kinds
            if underlined:
                text += random.choice([b"\n", b"\r\n", b"\r"]) + b"> " * len(kinds) + random.choice([b"===", b"=", b"  =  "])
            sample = Sample(text, kinds, 1 if underlined else 0, underlined)
        if sample.leaf(0) is not None:
            return sample


def some_cell(random):
    """A sample that is a cell."""
    while True:
        words = re.sub(rb"[\n\r]", b" ", some_text(random, FRAGMENTS + IN_CELLS))
        sample = Cell(b"|" + re.sub(rb"(?<!\\)\|", rb"\\|", words) + b"|\n|-|")
        if sample.leaf(0) is not None:
            return sample
