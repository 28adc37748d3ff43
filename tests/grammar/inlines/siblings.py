"""From the parts of a leaf to its events: the definitions of Spans, Emphasis, Siblings, InlineReading and LeafReading.

Spans are lists of places and of ("Around", kind, start, end, inside); siblings are lists of items and of Around.
"""
from typing import NamedTuple

from inlines import letters
from inlines.brackets import Closing, Footnote, Form, Linked, Linking, Opening, Wiki, reads_whole
from inlines.tokens import Item, Leaf, Run, quote_characters

TILDE, CARET, EQUALS = ord("~"), ord("^"), ord("=")


# ## Spans and Emphasis

class Pair(NamedTuple):
    delimiter: int
    begin: int
    to: int
    count: int


def span_width(kind):
    return 2 if kind in ("Strong", "DoubleTilde", "DoubleEquals") else 1


def can_both(run):
    return run.opens and run.closes


def keeps_rule_of_three(opener, closer):
    if not (can_both(opener) or can_both(closer)):
        return True
    return (opener.run_length + closer.run_length) % 3 != 0 or (opener.run_length % 3 == 0 and closer.run_length % 3 == 0)


def has_same_delimiter(opener, closer):
    return opener.delimiter == closer.delimiter and (closer.delimiter not in (TILDE, EQUALS) or opener.run_length == closer.run_length)


def agrees(opener, closer):
    return closer.closes and closer.left > 0 and has_same_delimiter(opener, closer) and keeps_rule_of_three(opener, closer)


def pair_of(opener, closer):
    return Pair(closer.delimiter, opener.at + opener.left, closer.at, min(opener.left, closer.left))


def rest_of_opener(opener, closer):
    return opener._replace(left=opener.left - min(opener.left, closer.left))


def rest_of_closer(opener, closer):
    count = min(opener.left, closer.left)
    return closer._replace(at=closer.at + count, left=closer.left - count)


def kinds_of(delimiter, count):
    """The spans of a pair, the innermost first: spans of width 2, and an odd one outermost."""
    if delimiter == CARET:
        return ["Caret"] * count
    two, one = {TILDE: ("DoubleTilde", "SingleTilde"), EQUALS: ("DoubleEquals", "Emphasis")}.get(delimiter, ("Strong", "Emphasis"))
    return [two] * (count // 2) + [one] * (count % 2)


def nest(kinds, begin, to, inside):
    for kind in kinds:
        begin, to = begin - span_width(kind), to + span_width(kind)
        inside = [("Around", kind, begin, to, inside)]
    return inside


def wrapped(pair, inside):
    return nest(kinds_of(pair.delimiter, pair.count), pair.begin, pair.to, inside)


def singles(run):
    return list(range(run.at, run.at + run.left))


def row(pieces):
    """Pieces, the nearest first, as spans; an open run among them is text."""
    return [span for piece in reversed(pieces) for span in (singles(piece) if isinstance(piece, Run) else piece)]


def keep(run, pieces):
    return [run] + pieces if run.left > 0 else pieces


def deactivates(closer):
    return closer.closes and closer.left > 0 and closer.delimiter in (TILDE, CARET)


def deactivated(piece):
    return singles(piece) if isinstance(piece, Run) and piece.delimiter in (TILDE, CARET) else piece


def left_open(closer, pieces):
    return list(map(deactivated, pieces)) if deactivates(closer) else pieces


def closes(closer, pieces):
    """A run closes, pair after pair, until no open run agrees: the rest of the run, and the pieces then."""
    while True:
        at = next((n for n, piece in enumerate(pieces) if isinstance(piece, Run) and agrees(piece, closer)), None)
        if at is None:
            return closer, left_open(closer, pieces)
        opener, inside = pieces[at], row(pieces[:at])
        pieces = [wrapped(pair_of(opener, closer), inside)] + keep(rest_of_opener(opener, closer), pieces[at + 1:])
        closer = rest_of_closer(opener, closer)


def stand(run, pieces):
    return keep(run, pieces) if run.opens else [singles(run)] + pieces


def spans_of(runs):
    """The spans of runs that are read from left to right (`IsEmphasis`)."""
    pieces = []
    for run in runs:
        pieces = stand(*closes(run, pieces))
    return row(pieces)


# ## Siblings

class Around(NamedTuple):
    """An element: its name, and its destination if it is a link or an image."""
    tag: str
    linked: object
    start: int
    end: int
    inside: list


def is_item(sibling, kind):
    return isinstance(sibling, Item) and sibling.kind == kind


def with_quotes(siblings):
    quotes = [s.data for s in siblings if is_item(s, "Quoted")]
    characters = iter(quote_characters(quotes))
    return [Item("Written", s.start, s.end, next(characters).encode()) if is_item(s, "Quoted") else s for s in siblings]


def runs_from(siblings):
    runs, n = [], 0
    for s in siblings:
        if is_item(s, "Delimiters"):
            runs.append(s.data._replace(at=n, left=s.data.run_length))
            n += s.data.run_length
    return runs


def run_bytes(siblings):
    return [Item("Own", at, at + 1) for s in siblings if is_item(s, "Delimiters") for at in range(s.start, s.start + s.data.run_length)]


def gaps_of(siblings):
    """The siblings before each byte of a run and after the byte before it; and last the siblings after all of them."""
    gaps = [[]]
    for s in siblings:
        if is_item(s, "Delimiters"):
            gaps += [[] for _ in range(s.data.run_length)]
        else:
            gaps[-1].append(s)
    return gaps


def span_tag(options, kind):
    """The element of a span; None for two tildes without strikethrough."""
    if kind == "SingleTilde":
        return "Subscript" if options.subscript else "Strikethrough"
    if kind == "DoubleTilde":
        return "Strikethrough" if options.strikethrough else None
    return {"Caret": "Superscript", "DoubleEquals": "Highlight"}.get(kind, kind)


def element(tag, start, end, inside):
    return Item("Own", start, end) if tag is None else Around(tag, None, start, end, inside)


def dressed(options, gaps, run_items, spans):
    answer = []
    for span in spans:
        if isinstance(span, int):
            answer += [run_items[span]] + gaps[span + 1]
        else:
            _, kind, start, end, inside = span
            within = gaps[start + span_width(kind)] + dressed(options, gaps, run_items, inside)
            answer += [element(span_tag(options, kind), run_items[start].start, run_items[end - 1].end, within)] + gaps[end]
    return answer


def dress(options, siblings):
    """One list of siblings with its quotes and its emphasis (`IsDressed`)."""
    quoted = with_quotes(siblings)
    gaps = gaps_of(quoted)
    return gaps[0] + dressed(options, gaps, run_bytes(quoted), spans_of(runs_from(quoted)))


def address_type(address):
    """An address is a URI if it begins with a scheme, and otherwise an email address."""
    return "Autolink" if letters.has_scheme(address) else "Email"


def item_then(x):
    """An autolink is a link around its bytes."""
    if x.kind != "Autolink":
        return x
    return Around("Link", Linked(address_type(x.data), x.data, b"", b""), x.start, x.end, [Item("Own", x.start + 1, x.end - 1)])


def from_place(place, siblings):
    """Siblings from an offset on; the sibling that contains the byte there begins there."""
    at = next((n for n, s in enumerate(siblings) if s.end > place), len(siblings))
    return [s._replace(start=max(s.start, place)) for s in siblings[at:at + 1]] + siblings[at + 1:]


def display_from(place, end, siblings):
    return [Item("Own", place, place)] if place == end else from_place(place, siblings)


def shown(options, part, formed):
    """The content of an element that two brackets form."""
    if isinstance(formed, Wiki) and formed.display is None:
        return [Item("Own", part.opener.end + 1, part.closer.start)]
    inside = siblings_of(options, part.inside)
    return dress(options, display_from(formed.display, part.closer.start, inside) if isinstance(formed, Wiki) else inside)


def linked_of(formed):
    if isinstance(formed, Linking):
        return formed.linked
    return Linked(["WikiLink", formed.display is not None], formed.name, b"", b"")


def footnote_then(is_image, start, label, end):
    """A footnote reference begins with its `[`; a `!` before it is a text."""
    mark = [Item("Own", start, start + 1)] if is_image else []
    return mark + [Item("FootnoteReference", start + len(mark), end, label)]


def some_siblings(options, part):
    if isinstance(part, Form) and isinstance(part.formed, Footnote):
        return footnote_then(part.opener.is_image, part.opener.start, *part.formed)
    return [sibling_of(options, part)]


def sibling_of(options, part):
    if isinstance(part, Form):
        tag = "Image" if part.opener.is_image else "Link"
        return Around(tag, linked_of(part.formed), part.opener.start, part.formed.end, shown(options, part, part.formed))
    if isinstance(part, (Opening, Closing)):
        return Item("Own", part.bracket.start, part.bracket.end)
    return item_then(part.item)


def siblings_of(options, parts):
    return [sibling for part in parts for sibling in some_siblings(options, part)]


# ## InlineReading and LeafReading: events as mdevents writes them

def event_of(source, x):
    if x.kind in ("SoftBreak", "HardBreak"):
        return [x.kind]
    named = ("Code", "InlineMath", "DisplayMath", "FootnoteReference")
    owned = x.kind in (*named, "OwnedHtml", "Written")
    name = "InlineHtml" if x.kind in ("Html", "OwnedHtml") else x.kind if x.kind in named else "Text"
    return [name, (x.data if owned else source[x.start:x.end]).decode()]


def tag_data(sibling):
    linked = sibling.linked
    return [sibling.tag] + ([linked[0], *(text.decode() for text in linked[1:])] if linked else [])


def inline_events(source, siblings):
    events = []
    for s in siblings:
        if isinstance(s, Item):
            events.append([[s.start, s.end], event_of(source, s)])
        else:
            events.append([[s.start, s.end], ["Start", tag_data(s)]])
            events += inline_events(source, s.inside)
            events.append([[s.start, s.end], ["End", [s.tag]]])
    return events


def reads_leaf(reader, stretches, is_cell, expansion_left):
    """The events of a leaf, and the rest of the reference expansion limit."""
    parts, left = reads_whole(Leaf(reader, stretches, is_cell), expansion_left)
    return inline_events(reader.source, dress(reader.options, siblings_of(reader.options, parts))), left
