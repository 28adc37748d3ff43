"""The tokens of a leaf's text: the definitions of LeafText, Flanking, Quotes, Items and InlineTokens."""
import unicodedata
from typing import Callable, NamedTuple

from inlines import formulas, letters
from inlines.letters import first_is


# ## Readers and LeafText

class Options(NamedTuple):
    strikethrough: bool
    superscript: bool
    subscript: bool
    smart_punctuation: bool
    math: bool
    wikilinks: bool
    footnotes: bool
    old_footnotes: bool
    tables: bool = False
    highlight: bool = False
    email_autolinks: bool = False


class Reader(NamedTuple):
    source: bytes
    options: Options
    lookup: Callable
    definition: Callable
    has_footnote: Callable


class Stretch(NamedTuple):
    start: int
    end: int


def bytes_from(source, stretches, at):
    return b"".join(source[max(at, s.start):s.end] for s in stretches)


def bytes_before(source, stretches, at):
    return b"".join(source[s.start:min(at, s.end)] for s in stretches)


def size_of(stretches):
    return sum(s.end - s.start for s in stretches)


def place_with(left, stretches):
    """The offset from which on this number of bytes is left."""
    if not stretches:
        return 0
    s, more = stretches[0], stretches[1:]
    return place_with(left, more) if more and left <= size_of(more) else s.end - (left - size_of(more))


def begin_of(stretches):
    return stretches[0].start if stretches else 0


def end_of(stretches):
    return place_with(0, stretches)


# ## Flanking: beside a run there is a character, or None

def is_unicode_white_space(c):
    return c in "\t\n\f\r" or unicodedata.category(c) == "Zs"


def is_unicode_punctuation(c):
    return unicodedata.category(c)[0] in "PS"


def is_white_space_there(c):
    return c is None or is_unicode_white_space(c)


def is_punctuation_there(c):
    return c is not None and is_unicode_punctuation(c)


def is_left_flanking(before, after):
    return not is_white_space_there(after) and (
        not is_punctuation_there(after) or is_white_space_there(before) or is_punctuation_there(before))


def is_right_flanking(before, after):
    return not is_white_space_there(before) and (
        not is_punctuation_there(before) or is_white_space_there(after) or is_punctuation_there(after))


def is_delimiter_run(options, delimiter, run_length):
    if delimiter in b"*_":
        return run_length > 0
    if delimiter == ord("~"):
        return (options.strikethrough or options.subscript) and run_length in (1, 2)
    if delimiter == ord("^"):
        return options.superscript and run_length == 1
    return delimiter == ord("=") and options.highlight and run_length == 2


def is_intraword(options, delimiter, run_length):
    return delimiter != ord("_") and (delimiter != ord("~") or run_length == 2 or options.subscript)


def opens_beside(intraword, before, after):
    return is_left_flanking(before, after) and (intraword or not is_right_flanking(before, after) or is_punctuation_there(before))


def closes_beside(intraword, before, after):
    return is_right_flanking(before, after) and (intraword or not is_left_flanking(before, after) or is_punctuation_there(after))


def flanking(options, delimiter, run_length, before, after):
    """Whether a run can open, and whether it can close."""
    if not is_delimiter_run(options, delimiter, run_length):
        return False, False
    intraword = is_intraword(options, delimiter, run_length)
    return opens_beside(intraword, before, after), closes_beside(intraword, before, after)


# ## Quotes

class Quote(NamedTuple):
    double: bool
    opens: bool
    closes: bool


def is_closing_bracket_there(c):
    return c is not None and c in "])"


def quote_opens(double, before, after):
    return not is_white_space_there(after) and (
        is_white_space_there(before) or (is_punctuation_there(before) and (double or not is_closing_bracket_there(before))))


def quote_closes(before, after):
    return not is_white_space_there(before) and (is_white_space_there(after) or is_punctuation_there(after))


def quote_beside(double, before, after):
    return Quote(double, quote_opens(double, before, after), quote_closes(before, after))


def is_open(double, before):
    """`is_double_open` and `is_single_open`: this kind of quote is open after these, the nearest first."""
    if not before:
        return False
    quote, others = before[0], before[1:]
    if quote.double != double:
        return is_open(double, others)
    is_open_there = is_open(double, others)
    if quote.closes and is_open_there:
        return False
    return quote.opens or is_open_there


def is_closed_by(after):
    for quote in after:
        if not quote.double and (quote.closes or quote.opens):
            return quote.closes
    return False


def double_character(before, quote):
    return "\u201d" if quote.closes and is_open(True, before) else "\u201c"


def turns_open(before, quote):
    return not (quote.closes and is_open(False, before)) and quote.opens


def single_character(before, quote, after):
    return "\u2018" if turns_open(before, quote) and is_closed_by(after) else "\u2019"


def quote_character(before, quote, after):
    return double_character(before, quote) if quote.double else single_character(before, quote, after)


def quote_characters(quotes):
    return [quote_character(quotes[:at][::-1], quote, quotes[at + 1:]) for at, quote in enumerate(quotes)]


# ## Items

class Run(NamedTuple):
    delimiter: int
    run_length: int
    at: int
    left: int
    opens: bool
    closes: bool


class Item(NamedTuple):
    """A kind by its name, with its data: a text, a quote or a run."""
    kind: str
    start: int
    end: int
    data: object = None


class Bracket(NamedTuple):
    is_image: bool
    start: int
    end: int


class Stands(NamedTuple):
    item: Item
    resume: int


class Opens(NamedTuple):
    bracket: Bracket


class Closes(NamedTuple):
    bracket: Bracket


# ## InlineTokens

def item_at(kind, start, end, data=None):
    return Stands(Item(kind, start, end, data), end)


class Leaf:
    """A reader and the stretches of a leaf, which may be the cell of a table."""

    def __init__(self, reader, stretches, is_cell=False):
        self.reader, self.stretches, self.is_cell = reader, stretches, is_cell

    def as_in(self, bs):
        return letters.without_pipe_escapes(bs) if self.is_cell else bs

    def from_(self, at):
        return bytes_from(self.reader.source, self.stretches, at)

    def before(self, at):
        return bytes_before(self.reader.source, self.stretches, at)

    def place_of(self, rest):
        return place_with(len(rest), self.stretches)

    def size_to(self, at, rest):
        return len(self.from_(at)) - len(rest)

    def character_before(self, at):
        return self.before(at).decode()[-1:] or None

    def character_at(self, at):
        return self.from_(at).decode()[:1] or None

    def line_begins(self, at):
        return first_is(lambda b: not letters.is_content(b), self.before(at)[::-1])

    def read_on(self, at):
        return self.place_of(letters.after_leading_blanks(self.from_(at)) if self.line_begins(at) else self.from_(at))

    def break_or(self, at, found, other):
        if found is None:
            return other
        end = at + self.size_to(at, found.following)
        return Stands(Item("HardBreak" if found.is_hard else "SoftBreak", at + found.before, end), self.read_on(end))

    def code_or(self, at, run_length, found):
        if found is None:
            return item_at("Own", at, at + run_length)
        return item_at("Code", at, self.place_of(found.following), letters.code_text(self.as_in(found.bytes)))

    def escaped_backtick(self, at, run_length, found):
        return item_at("Own", at, at + run_length) if found is None else item_at("Plain", at, at + 1)

    def escape_at(self, at, bs):
        if first_is(letters.is_backtick, bs):
            return self.escaped_backtick(at + 1, letters.backticks(bs), letters.code_in(bs[1:]))
        if self.is_cell and bs.startswith(letters.PIPED):
            return item_at("Plain", at + 2, at + 3)
        if first_is(letters.is_punctuation, bs):
            return item_at("Plain", at + 1, at + 2)
        return item_at("Plain", at, at + 1)

    def entity_or(self, at, entity):
        return item_at("Plain", at, at + 1) if entity is None else item_at("Written", at, at + entity.size, entity.bytes)

    def tag_or_text(self, at, rest):
        if rest is None:
            return item_at("Own", at, at + 1)
        written = self.from_(at)[:self.size_to(at, rest)]
        kind = ("OwnedHtml", written) if letters.takes_lines(written) else ("Html", None)
        return item_at(kind[0], at, self.place_of(rest), kind[1])

    def source_from(self, at):
        return self.reader.source[at:end_of(self.stretches)]

    def markup_to(self, at, end):
        return Stands(Item("Html", at, end), self.read_on(end))

    def less_than(self, at, bs):
        if bs.startswith(b"\\"):
            return item_at("Plain", at, at + 1)
        autolink = letters.autolink_in(self.reader.options.email_autolinks, bs)
        if autolink is not None:
            return item_at("Autolink", at, self.place_of(autolink.following), autolink.bytes)
        rest = letters.after_markup(self.source_from(at))
        if rest is not None:
            return self.markup_to(at, at + len(self.source_from(at)) - len(rest))
        return self.tag_or_text(at, letters.after_tag(self.from_(at)))

    def run_at(self, at, delimiter, run_length):
        opens, closes = flanking(self.reader.options, delimiter, run_length, self.character_before(at), self.character_at(at + run_length))
        if opens or closes:
            return item_at("Delimiters", at, at + run_length, Run(delimiter, run_length, 0, run_length, opens, closes))
        return item_at("Plain", at, at + run_length)

    def formula_or(self, kind, at, found):
        return item_at("Own", at, at + 1) if found is None else item_at(kind, at, self.place_of(found.following), self.as_in(found.bytes))

    def dollar(self, at, bs, braces):
        if first_is(formulas.is_dollar, bs):
            return self.formula_or("DisplayMath", at, formulas.display_in(braces, bs[1:]))
        return self.formula_or("InlineMath", at, formulas.inline_in(braces, bs))

    def dots(self, at):
        if self.from_(at).startswith(b"..."):
            return item_at("Written", at, at + 3, "\u2026".encode())
        return item_at("Plain", at, at + 1)

    def hyphens(self, at, run_length):
        if run_length < 2:
            return item_at("Plain", at, at + run_length)
        return item_at("Written", at, at + run_length, letters.dash_text(letters.dashes_of(run_length)))

    def quote_at(self, at, b):
        return item_at("Quoted", at, at + 1, quote_beside(b == 34, self.character_before(at), self.character_at(at + 1)))

    def smart_or(self, at, b):
        if b == ord("."):
            return self.dots(at)
        if b == ord("-"):
            return self.hyphens(at, letters.prefix_len(lambda c: c == 45, self.from_(at)))
        return self.quote_at(at, b) if b in b"\"'" else item_at("Plain", at, at + 1)

    def begins(self, at, all_bytes):
        """The token at the start of these bytes; each plain byte is an item."""
        if not all_bytes:
            return None
        b, bs = all_bytes[0], all_bytes[1:]
        if letters.is_blank_byte(b) or not letters.is_content(b):
            return self.break_or(at, letters.blank_break_in(all_bytes), item_at("Plain", at, at + 1))
        if b == ord("\\"):
            return self.break_or(at, letters.backslash_break_in(all_bytes), self.escape_at(at, bs))
        if b == ord("&"):
            return self.entity_or(at, letters.entity_in(self.reader.lookup, bs))
        if b == ord("`"):
            return self.code_or(at, letters.backticks(all_bytes), letters.code_in(all_bytes))
        if b == ord("<"):
            return self.less_than(at, bs)
        if b == ord("!"):
            return Opens(Bracket(True, at, at + 2)) if bs.startswith(b"[") else item_at("Plain", at, at + 1)
        if b == ord("["):
            return Opens(Bracket(False, at, at + 1))
        if b == ord("]"):
            return Closes(Bracket(False, at, at + 1))
        if b in b"*_~^=":
            return self.run_at(at, b, letters.prefix_len(lambda c: c == b, all_bytes))
        if self.reader.options.math and formulas.is_dollar(b):
            return self.dollar(at, bs, formulas.braces_after(self.before(at), formulas.NO_BRACES))
        return self.smart_or(at, b) if self.reader.options.smart_punctuation else item_at("Plain", at, at + 1)

    def begins_at(self, at):
        return self.begins(at, self.from_(at))

    def plain_end(self, end):
        """The end of a text that continues with all adjacent plain bytes."""
        found = self.begins_at(end)
        while isinstance(found, Stands) and found.item.kind == "Plain" and found.item.start == end:
            end = found.resume
            found = self.begins_at(end)
        return end

    def token(self, at):
        """The token at an offset; None at the leaf's end."""
        found = self.begins_at(at)
        if isinstance(found, Stands) and found.item.kind == "Plain":
            return item_at("Plain", found.item.start, self.plain_end(found.resume))
        return found
