"""Tests of the events of the Python package: their classes, the sequence, changed events, callbacks, definitions and lines.

tests/bindings/run has installed the package. The records that `render` writes are compared with those of a writer that knows only the layout
of crates/cmark_flat/README.md (`written`), so a mistake in both directions of the package does not go unseen.
"""
import concurrent.futures
import copy
import itertools
import pathlib
import pickle
import random
import sys

import bindings_flat
import pulldown_cmark
from bindings_python import plain, raised
sys.path.append(str(pathlib.Path(__file__).resolve().parent.parent / "common"))
from programs import ALL, NONE
from pulldown_cmark import (
    BlockQuote, BlockQuoteEnd, BrokenLink, Code, CodeBlock, End, Event, Events, Fenced, FootnoteDefinition, HardBreak, Heading, HeadingEnd, Image, Indented,
    InlineHtml, Item, Lines, Link, LinkDef, List, ListEnd, MetadataBlock, Options, Paragraph, Place, SoftBreak, Start, Table, Tag, TagEnd, TaskListMarker, Text, WikiLink,
    _records, events, html, merged, references, render,
)  # fmt: skip
from pulldown_cmark._library import answer, library
from pulldown_cmark._writing import records_of

# What values a field may have, by its name. `attrs`, `classes` and `alignments` are lists of these.
WORDS = ("", "a", "é & <b>", "ö\n\"'", "x\0y")
FIELDS = {
    "level": range(1, 7),
    "id": (None, *WORDS),
    "classes": (), "attrs": (), "alignments": (),
    "first_number": (None, 0, 1, 7, 2**64 - 1),
    "is_ordered": (False, True),
    "label": WORDS, "dest_url": (*WORDS, "/u?a&b", "javascript:x"), "title": WORDS,
    "link_type": (*(it for it in bindings_flat.LINKS if isinstance(it, str)), WikiLink(False), WikiLink(True)),
}  # fmt: skip
KINDS = {
    "BlockQuote": bindings_flat.QUOTES,
    "MetadataBlock": bindings_flat.METADATA,
    "CodeBlock": (Indented(), *(Fenced(it) for it in WORDS)),
}
NAMES = bindings_flat.KINDS[1:]
TAGS = {name: getattr(pulldown_cmark, name) for name in bindings_flat.TAGS[1:]}
ENDS = {name: getattr(pulldown_cmark, f"{name}End") for name in bindings_flat.TAGS[1:]}
ROUNDS = 400


def value_of(field, name, draw):
    """A value for a field of the element with this name."""
    if field == "kind":
        return draw.choice(KINDS[name])
    if field == "id" and name in ("Link", "Image"):
        return draw.choice(WORDS)
    if field == "classes":
        return tuple(draw.choices(WORDS, k=draw.randrange(3)))
    if field == "attrs":
        return tuple((draw.choice(WORDS), draw.choice((None, *WORDS))) for _ in range(draw.randrange(3)))
    if field == "alignments":
        return tuple(draw.choices(bindings_flat.COLUMNS, k=draw.randrange(4)))
    return draw.choice(FIELDS[field])


def made(name, draw):
    """An event of this kind with a random value and range."""
    kind, where = getattr(pulldown_cmark, name), (draw.randrange(9), draw.randrange(9))
    if name in ("Start", "End"):
        element, which = draw.choice([*(TAGS if name == "Start" else ENDS).items()])
        return kind(which(*(value_of(it, element, draw) for it in which._fields)), *where)
    if name in ("SoftBreak", "HardBreak", "Rule"):
        return kind(*where)
    return kind(draw.choice((False, True)) if name == "TaskListMarker" else draw.choice(WORDS), *where)


def further(parts):
    """Further records, each of its part, its text and its start."""
    return [(0, part, 0, start, 0, text.encode()) for part, text, start in parts]


def start_records(tag):
    """The records of a start, from its tag as mdevents writes it."""
    name, *data = plain(tag)
    number, parts = bindings_flat.TAGS.index(name), []
    value, text = 0, b""
    if name == "Heading":
        value, named, classes, attributes = data
        parts += [] if named is None else [(bindings_flat.HEADING_ID, named, 0)]
        parts += [(bindings_flat.CLASS, it, 0) for it in classes]
        for word, said in attributes:
            parts += [(bindings_flat.ATTRIBUTE, word, 0), (bindings_flat.NO_VALUE, "", 0) if said is None else (bindings_flat.VALUE, said, 0)]
    elif name == "BlockQuote":
        value = bindings_flat.QUOTES.index(data[0])
    elif name == "MetadataBlock":
        value = bindings_flat.METADATA.index(data[0])
    elif name == "CodeBlock":
        value, text = int(data[0][0] == "Fenced"), "".join(data[0][1:]).encode()
    elif name == "List" and data[0] is not None:
        value, parts = 1, [(bindings_flat.FIRST, "", data[0])]
    elif name == "FootnoteDefinition":
        text = data[0].encode()
    elif name == "Table":
        text = bytes(map(bindings_flat.COLUMNS.index, data[0]))
    elif name in ("Link", "Image"):
        value, text = bindings_flat.LINKS.index(data[0]), data[1].encode()
        parts = [(bindings_flat.TITLE, data[2], 0), (bindings_flat.LABEL, data[3], 0)]
    return [(1, number, value, 0, 0, text), *further(parts)]


def end_record(end):
    """The record of an end."""
    name, *data = plain(end)
    lists = {"Heading": range(7), "BlockQuote": bindings_flat.QUOTES, "List": (False, True), "MetadataBlock": bindings_flat.METADATA}
    return (2, bindings_flat.TAGS.index(name), lists[name].index(data[0]) if data else 0, 0, 0, b"")


def written(given):
    """The records of events, without their ranges."""
    found = []
    for event in given:
        kind = bindings_flat.KINDS.index(event.name)
        if event.name == "Start":
            found += start_records(event.value)
        elif event.name == "End":
            found.append(end_record(event.value))
        else:
            text = event.value.encode() if isinstance(event.value, str) else b""
            found.append((kind, 0, int(event.value is True), 0, 0, text))
    return bindings_flat.joined(found)


class Judge:
    """Collects the failures."""

    def __init__(self):
        self.found, self.tried = [], 0

    def __call__(self, what, given, expected):
        self.tried += 1
        if given != expected:
            self.found.append(f"{what}: wanted {expected!r}, found {given!r}")


def try_classes(judge, draw):
    """Each kind of event, tag and end: equality, hash, repr, copies, names, and from records and back."""
    judge("the kinds of events", {*NAMES}, {it.__name__ for it in vars(pulldown_cmark).values() if isinstance(it, type) and issubclass(it, Event)} - {"Event"})
    judge("the tags", {*TAGS}, {it.__name__ for it in vars(pulldown_cmark).values() if isinstance(it, type) and issubclass(it, Tag)} - {"Tag"})
    judge("the ends", {*ENDS}, {it.name for it in vars(pulldown_cmark).values() if isinstance(it, type) and issubclass(it, TagEnd) and it is not TagEnd})
    seen = set()
    for name in itertools.chain(NAMES, ("Start", "End") * 1000):
        event = made(name, draw)
        seen.add((name, type(event.value), getattr(event.value, "kind", getattr(event.value, "link_type", None))))
        same = Event(*event)
        judge(f"the class of {event!r}", (type(same), same, hash(same)), (type(event), event, hash(event)))
        judge(f"{event!r} as it prints", eval(repr(event), vars(pulldown_cmark)), event)
        judge(f"copies of {event!r}", [(it, type(it)) for it in (copy.copy(event), copy.deepcopy(event), pickle.loads(pickle.dumps(event)))], [(event, type(event))] * 3)
        judge(f"{event!r} elsewhere", [event._replace(start=3, end=9)[2:], event == event._replace(start=99)], [(3, 9), False])
        judge(f"{event!r} from its records", [*Events(written([event]), "")], [event._replace(start=0, end=0)])
        judge(f"{event!r} has no further attributes", raised(setattr, event, "other", 1), AttributeError)
    for tag in TAGS.values():
        judge(f"{tag.__name__} was made, and its end", {("Start", tag), ("End", ENDS[tag.__name__])} - {it[:2] for it in seen}, set())
    judge("all link types, quotes, code blocks and metadata", len({it[2] for it in seen if isinstance(it[2], (str, WikiLink, Fenced, Indented))}), 11 + 5 + 1 + len(WORDS) + 2)
    equal = [Paragraph() == BlockQuote(), Link("Inline", "") == Image("Inline", ""), Indented() == (), not Paragraph() != Item()]
    judge("tags of other classes differ", equal, [False] * 4)
    judge("tags are keys", len({Paragraph(), Paragraph(), Item(), Heading(1), Heading(1), Heading(2)}), 4)
    ended = [Heading(3).to_end(), List(0).to_end(), List().to_end(), BlockQuote("Tip").to_end()]
    judge("the ends of a heading, of lists and of a quote", ended, [HeadingEnd(3), ListEnd(True), ListEnd(False), BlockQuoteEnd("Tip")])
    judge("an event that there is not", raised(Event, "Txt", "a"), ValueError)
    changed = [Event._make(("Text", "a", 0, 1)), Text("a", 0, 1)._replace(name="Code"), Text("a")._replace(value="b")]
    judge("classes of changed events", [(type(it), it.value) for it in changed], [(Text, "a"), (Code, "a"), (Text, "b")])


# Programs with patterns, which Python has from 3.10 on.
PATTERNS = """
def said(event):
    match event:
        case Start(Heading(level, id=None), start):
            return level, start
        case Start(Link(dest_url=url) | Image(dest_url=url)):
            return url
        case End(HeadingEnd(level)):
            return -level
        case Text(text) | Code(text):
            return text
        case SoftBreak(start, end):
            return start, end
        case Event("HardBreak"):
            return "hard"
    return None
"""


def try_patterns(judge):
    """Events in patterns."""
    if sys.version_info < (3, 10):
        print("bindings: not tried: patterns, which this Python does not have")
        return
    room = dict(vars(pulldown_cmark))
    exec(PATTERNS, room)
    text = "# a\n\n[b](/c) `d`\ne  \nf ![](g)"
    judge("patterns", [it for it in map(room["said"], events(text)) if it is not None], [(1, 0), "a", -1, "/c", "b", " ", "d", (16, 17), "e", "hard", "f ", "g"])


def try_sequence(judge, texts, wanted):
    """The events of each text as a sequence, their HTML, and their texts merged. Few events are made at once, and many when they are asked
    for; here each text has few, and then each has many."""
    few = _records.FEW
    for _records.FEW in (few, 0):
        try_each(judge, texts, wanted)
    _records.FEW = few
    many = events("*a* " * (few // 100))
    judge("a text with many events", (len(many), type(many[1:]._events).__name__, many[4].value), (few // 100 * 4 + 1, "_Part", " "))


def try_each(judge, texts, wanted):
    """The events of each text as a sequence."""
    for text, bits in itertools.product(texts, (NONE, ALL)):
        string = text.decode()
        found = events(string, options=bits)
        given = [*found]
        judge(f"the HTML of the events of {text!r} with {bits}", [render(found).encode(), render(given).encode()], [wanted["mdhtml", bits, text]] * 2)
        judge(f"the number of events of {text!r}", (len(found), [*found[:]], [*found[1:-1]], [*found[::-2]]), (len(given), given, given[1:-1], given[::-2]))
        judge(f"events of {text!r} from the last to the first", ([*reversed(found)], [*found[1:][:3]]), (given[::-1], given[1:][:3]))
        judge(f"each event of {text!r}", [found[it] for it in range(-len(given), len(given))], given * 2)
        judge(f"the records of {text!r}", raised(found.__getitem__, len(given)), IndexError)
        judge(f"ends of {text!r}", [it.value for it in given if it.name == "End"], closed(given))
        joined = [*merged(given)]
        judge(f"merged texts of {text!r}", joined, merged_by_groups(given))
        judge(f"the HTML of merged texts of {text!r}", render(joined), render(given))
    judge("events are equal", [events("*a*") == events("*a*"), events("*a*") == events("_a_"), events("a")[:0] == events(""), events("a")[:2] == events("a"), events("a") == 1], [True, True, True, False, False])
    judge("a slice of a slice", [it.value for it in events("a\nb\nc")[1:-1][::2]], ["a", "b", "c"])
    judge("the HTML of a slice", render(events("*a* b")[1:4]), "<em>a</em>")
    kept = pickle.loads(pickle.dumps(events("é *a*")))
    judge("events kept and read again", ([*kept], kept.lines.place(2), render(kept)), ([*events("é *a*")], Place(1, 3), "<p>é <em>a</em></p>\n"))
    judge("an event of a text of characters", events("é😀 *a*")[2], Start(pulldown_cmark.Emphasis(), 3, 6))
    judge("an event of a text of bytes", events("é😀 *a*".encode())[2], Start(pulldown_cmark.Emphasis(), 7, 10))
    changed = bytearray(b"*a*")
    found = events(changed)
    changed[:] = b"\nxy"
    judge("a text that is changed after the call", (found[1].range, found.lines.place(1)), (slice(0, 3), Place(1, 2)))


def closed(given):
    """The ends of the elements that events start, in the order in which they end."""
    opened, found = [], []
    for event in given:
        if event.name == "Start":
            opened.append(event.value)
        elif event.name == "End":
            found.append(opened.pop().to_end())
    return found


def merged_by_groups(given):
    """The events with adjacent texts merged, group by group."""
    found = []
    for is_text, group in itertools.groupby(given, lambda it: it.name == "Text"):
        group = [*group]
        if not is_text or len(group) == 1:
            found += group
        elif any(it.value for it in group):
            found.append(Text("".join(it.value for it in group), group[0].start, group[-1].end))
    return found


def try_merged(judge):
    """Texts that `merged` joins, leaves out or keeps."""
    given = [Text("", 0, 1), Text("", 1, 2), Code("c", 2, 3), Text("", 3, 4), SoftBreak(4, 5), Text("a", 5, 6), Text("b", 8, 9)]
    judge("merged texts", [*merged(given)], [Code("c", 2, 3), Text("", 3, 4), SoftBreak(4, 5), Text("ab", 5, 9)])
    judge("merged nothing", [*merged([])], [])
    endless = merged(itertools.chain.from_iterable((Text("a"), Text("b"), HardBreak()) for _ in itertools.count()))
    judge("merged without an end", [next(endless), next(endless)], [Text("ab"), HardBreak()])
    judge("merged events of a text", [it.value for it in merged(events("a \\* b [c] &amp; d")) if it.name == "Text"], ["a * b [c] & d"])


def try_changed(judge, flat, draw):
    """Random events, balanced or not: `render` writes the records that the layout says, and the library's HTML for them."""
    for _ in range(ROUNDS):
        given = [made(draw.choice(NAMES), draw) for _ in range(draw.randrange(12))]
        records = written(given)
        judge(f"{given!r} read again", [it[:2] for it in Events(records, "")], [it[:2] for it in given])
        judge(f"the records of {given!r}", records_of(given), records)
        judge(f"the HTML of {given!r}", (bindings_flat.DONE, render(given).encode()), flat.render(records))
        judge(f"the HTML of {given!r} by an iterator", render(iter(given)), render(given))
    lifted = [it._replace(value=it.value._replace(level=it.value.level + 1)) if isinstance(it.value, (Heading, HeadingEnd)) else it for it in events("# a\n\nb\n===\n\n## c")]
    judge("a stranger's events", render([Start(Link("Inline", "javascript:a", "", "")), InlineHtml("<b>")], safe=True), '<a href="">&lt;b&gt;')
    for error, wrong in ((ValueError, {"schemes": ["tel"]}), (ValueError, {"safe": True, "schemes": ["tel:"]}), (ValueError, {"safe": True, "schemes": ["tel sms"]}), (TypeError, {"safe": True, "schemes": "tel"})):
        judge(f"wrong schemes {wrong}", [raised(render, [], **wrong), raised(html, "a", **wrong)], [error] * 2)
    judge("a scheme that is named", [render([Start(Link("Inline", "tel:1", "", ""))], safe=True, schemes=it) for it in ((), ["sms", "tel"])], ['<a href="">', '<a href="tel:1">'])
    judge("lifted headings", render(lifted), "<h2>a</h2>\n<h2>b</h2>\n<h3>c</h3>\n")


# Values that are no events, and events with values that their fields do not take, by the error of each.
WRONG = {
    TypeError: [
        3, "a", ("Text", "a", 0, 1), Text(3), Text(None), Code(b"a"), TaskListMarker("x"), TaskListMarker(None),
        Start("Paragraph"), Start(pulldown_cmark.ParagraphEnd()), Start(Tag()), End(TagEnd()), End(Paragraph()), End(None), End(ListEnd(2)),
        Start(Heading("1")), Start(Heading(1.0)), Start(Heading(1, 3)), Start(Heading(1, None, "a")), Start(Heading(1, None, (3,))),
        Start(Heading(1, None, (), "ab")), Start(Heading(1, None, (), ((1, "a"),))), Start(Heading(1, None, (), (("a", 1),))),
        Start(Link(0, "/")), Start(Link("Inline", None)), Start(Link("Inline", "/", None)), Start(Image("Inline", "/", "", 3)),
        Start(List("1")), Start(BlockQuote(1)), Start(CodeBlock("Indented")), Start(CodeBlock(Fenced(None))),
        Start(Table((1,))), Start(Table("Left")), Start(FootnoteDefinition(1)), Start(MetadataBlock(None)),
    ],
    ValueError: [
        Start(Heading(0)), Start(Heading(7)), End(HeadingEnd(7)), Start(Heading(1, None, (), (("a",),))), Start(List(-1)), Start(List(2**64)),
        Start(Link("Inlin", "/")), Start(BlockQuote("note")), Start(Table(("left",))), Start(MetadataBlock("Yaml")),
    ],
    UnicodeEncodeError: [Text("\ud800"), Start(CodeBlock(Fenced("\ud800"))), Start(Link("Inline", "\ud800"))],
}  # fmt: skip


def ends_inside(records):
    """Whether the last record is cut short."""
    at = 0
    while at + bindings_flat.HEAD.size <= len(records):
        at += bindings_flat.HEAD.size + bindings_flat.HEAD.unpack_from(records, at)[-1]
    return at != len(records)


def try_wrong(judge, texts, draw):
    """Events that are none, and records that are cut short or damaged: always an error of Python, and never another one."""
    for wrong, error in ((it, error) for error, values in WRONG.items() for it in values):
        judge(f"render of {wrong!r}", raised(render, [Text("a"), wrong]), error)
    for wrong in (3, None, Paragraph()):
        judge(f"render of {wrong!r}", raised(render, wrong), None if wrong == Paragraph() else TypeError)
    judge("the events are unchanged by an error", render([Text("a")]), "a")
    damaged = 0
    for text in texts[::7]:
        pieces = [written([it]) for it in events(text, options=ALL)]
        records = b"".join(pieces)
        for size in draw.sample(range(len(records) + 1), min(8, len(records))):
            if ends_inside(records[:size]):
                judge(f"records of {text!r} cut to {size}", raised(list, Events(records[:size], "")), ValueError)
        for number in draw.sample(range(len(pieces)), min(2, len(pieces))):
            judge(f"the first {number} events of {text!r}", len([*Events(b"".join(pieces[:number]), "")]), number)
        for bad in bindings_flat.damaged(records, draw) if records else ():
            kind = raised(list, Events(bad, text.decode()))
            damaged += kind is not None
            judge(f"damaged records {bad!r}", kind is None or issubclass(kind, ValueError), True)
    judge("damaged records were refused", damaged > 100, True)
    for what, bad in bindings_flat.REFUSED:
        if what in ("a link type that is none", "a column that is none", "a tag that is none", "a link without a title"):
            judge(what, raised(list, Events(bindings_flat.joined(bad), "")), ValueError)
    value = [(1, 2, 1, 0, 1, b""), (0, bindings_flat.VALUE, 0, 0, 0, b"a")]
    judge("a value without its attribute", raised(list, Events(bindings_flat.joined(value), "")), ValueError)
    try:
        answer(library.pcm_render, 256, b"\1" * 40)
        judge("records that the library refuses", "an answer", "an error")
    except ValueError as error:
        judge("records that the library refuses", str(error), "the records are malformed")
    judge("a further record without a start", raised(list, Events(bindings_flat.joined([(0, 1, 0, 0, 0, b"")]), "")), ValueError)
    judge("a kind that is not known", raised(list, Events(bindings_flat.joined([(17, 0, 0, 0, 0, b"")]), "")), ValueError)


def asking(text, replies, **how):
    """The HTML of a text, the questions for it, and its events, with these replies to the labels of its links."""
    asked = []

    def reply(link):
        asked.append(link)
        return replies.get(link.reference)

    return html(text, broken_link=reply, **how), asked, events(text, broken_link=lambda it: replies.get(it.reference), **how)


def try_callback(judge, texts, wanted):
    """Links whose label has no definition."""
    said, asked, found = asking("é [a] [b][c] [d][] [e]\n\n[e]: /e", {"a": ("/1", ""), "c": ("/2?é", 'x "y"')})
    judge("the answers", said, '<p>é <a href="/1">a</a> <a href="/2?%C3%A9" title="x &quot;y&quot;">b</a> [d][] <a href="/e">e</a></p>\n')
    judge("the questions", asked, [BrokenLink("ShortcutUnknown", "a", 2, 5), BrokenLink("ReferenceUnknown", "c", 6, 12), BrokenLink("CollapsedUnknown", "d", 13, 16)])
    judge("the ranges of questions", ["é [a] [b][c] [d][]"[it.range] for it in asked], ["[a]", "[b][c]", "[d]"])
    links = [it.value for it in found if isinstance(it, Start) and isinstance(it.value, Link)]
    judge("the links", links, [Link("ShortcutUnknown", "/1", "", "a"), Link("ReferenceUnknown", "/2?é", 'x "y"', "c"), Link("Shortcut", "/e", "", "e")])
    judge("bytes have ranges in bytes", asking("é [a]".encode(), {})[1], [BrokenLink("ShortcutUnknown", "a", 3, 6)])
    said, asked, _ = asking("[a][b][c]", {"b": ("/b", ""), "c": ("/c", "")})
    judge("a question that comes after an answer", (said, [it[1:] for it in asked]), ('<p><a href="/b">a</a><a href="/c">c</a></p>\n', [("b", 0, 6), ("c", 3, 9), ("c", 6, 9)]))
    judge("an image", asking("![a]", {"a": ("/1", "t")})[0], '<p><img src="/1" alt="a" title="t" /></p>\n')
    judge("nested brackets", asking("[a [b] c]", {"b": ("/b", ""), "a [b] c": ("/o", "")})[0], '<p>[a <a href="/b">b</a> c]</p>\n')
    judge("with options", asking("~~[a]~~ &ouml;", {"a": ("/1", "")}, options=Options.STRIKETHROUGH)[0], '<p><del><a href="/1">a</a></del> &amp;ouml;</p>\n')

    class Stop(Exception):
        pass

    def stop(link):
        raise Stop

    for call in (html, events):
        judge(f"{call.__name__} raises what the callback raises", raised(call, "[a]", broken_link=stop), Stop)
        judge(f"{call.__name__} without questions", raised(call, "[a](b)", broken_link=stop), None)
        for wrong in (3, 0, False, "", (), "/a", ("/a",), ["/a", ""], ("/a", "b", "c"), ("/a", None), (None, ""), (b"/a", "")):
            judge(f"{call.__name__} with the answer {wrong!r}", raised(call, "[a]", broken_link=lambda _, it=wrong: it), TypeError)
        judge(f"{call.__name__} with half a pair", raised(call, "[a]", broken_link=lambda _: ("\ud800", "")), UnicodeEncodeError)
        judge(f"{call.__name__} with a callback that is none", raised(call, "[a]", broken_link=3), TypeError)
        judge(f"{call.__name__} of bytes that are not UTF-8 with a callback", raised(call, b"[a] \xff", broken_link=stop), UnicodeDecodeError)
    chain = []
    shown = html("[b][]" * 3000, broken_link=lambda link: (chain.append(link), ("/x", ""))[1])
    judge("a text in which each answer leads to one question", (2900 < shown.count("<a href"), 3000 < len(chain) < 3050), (True, True))
    for how in ({"safe": True}, {"expansion_limit": 1}):
        judge(f"a callback with {how}", raised(html, "[a]", broken_link=stop, **how), ValueError)
    judge("safe HTML with a limit", raised(html, "a", safe=True, expansion_limit=1), ValueError)
    asked_in_all = 0
    for text, bits in itertools.product(texts[::2], (NONE, ALL)):
        said, asked, _ = asking(text, {}, options=bits)
        judge(f"without answers {text!r}", said.encode(), wanted["mdhtml", bits, text])
        judge(f"each range of {text!r} is asked about once", len({(it.start, it.end) for it in asked}), len(asked))
        every = {it.reference: ("/u", "t") for it in asked}
        said, again, found = asking(text, every, options=bits)
        judge(f"the HTML of {text!r} with answers", said, render([*found]))
        judge(f"questions about {text!r}", again[: len(asked)] == asked, True)
        answered = [it for it in found if isinstance(it, Start) and isinstance(it.value, (Link, Image)) and str(it.value.link_type).endswith("Unknown")]
        judge(f"the answers for {text!r}", {(it.value.dest_url, it.value.title) for it in answered} <= {("/u", "t")}, True)
        judge(f"answered links of {text!r} were questions", {it.range.start for it in answered} <= {it.range.start for it in again}, True)
        asked_in_all += len(asked)
    judge("there were questions", asked_in_all > 100, True)


def try_references(judge, texts):
    """Link reference definitions."""
    text = "é [b]\n\n[a]: /a 'é'\n> [B c]: <d e>\n\n[a]: /second\n"
    found = references(text)
    judge("definitions", found, [LinkDef("a", "/a", "é", 7, 18), LinkDef("B c", "d e", None, 21, 33)])
    judge("the ranges of definitions", [text[it.range] for it in found], ["[a]: /a 'é'", "[B c]: <d e>"])
    judge("definitions of bytes", [it.start for it in references(text.encode())], [8, 23])
    judge("definitions in the order of the text", [it.label for it in references("[b]: /1\n[a]: /2\n[C]: /3")], ["b", "a", "C"])
    judge("an empty title", references("[a]: /a ''"), [LinkDef("a", "/a", "", 0, 10)])
    judge("no definition", [references(""), references("`[a]: /a`")], [[], []])
    judge("a definition with an option", [references("[^a]: /a"), references("[^a]: /a", options=Options.FOOTNOTES)], [[LinkDef("^a", "/a", None, 0, 8)], []])
    judge("definitions of bytes that are not UTF-8", raised(references, b"\xff"), UnicodeDecodeError)
    judge("definitions of a number", raised(references, 3), TypeError)
    used = 0
    for text, bits in itertools.product(texts, (NONE, ALL)):
        string = text.decode()
        known = {" ".join(it.label.split()).casefold(): it for it in references(string, options=bits)}
        starts = [it.value for it in events(string, options=bits) if isinstance(it.value, (Link, Image))]
        for link in starts:
            if link.link_type in ("Reference", "Collapsed", "Shortcut"):
                definition = known.get(" ".join(link.id.split()).casefold())
                used += 1
                judge(f"the definition of {link!r} in {string!r}", definition and (definition.dest, definition.title or ""), (link.dest_url, link.title))
        for it in known.values():
            judge(f"the range of {it!r} in {string!r}", string[it.range].lstrip().startswith("["), True)
    judge("definitions were used", used > 100, True)


def try_lines(judge, texts):
    """Lines and columns, in characters and in bytes."""
    text = "é\n\nb\r\nc\rd"
    judge("places", [tuple(Lines(text).place(it)) for it in range(len(text) + 1)], [(1, 1), (1, 2), (2, 1), (3, 1), (3, 2), (3, 3), (4, 1), (4, 2), (5, 1), (5, 2)])
    judge("places of bytes", [tuple(Lines(text.encode()).place(it)) for it in (2, 3, 4)], [(1, 3), (2, 1), (3, 1)])
    judge("the number of lines", [len(Lines(it)) for it in ("", "a", "a\n", text)], [1, 1, 2, 5])
    judge("the place of no text", Lines("").place(0), Place(1, 1))
    for outside in (-1, 10):
        judge(f"the place of {outside}", raised(Lines(text).place, outside), IndexError)
    for text in texts[::3]:
        string = text.decode()
        found, lines = events(string), string.replace("\r\n", "\n").replace("\r", "\n").split("\n")
        for event in found:
            line, column = found.lines.place(event.start)
            judge(f"the line of {event!r} in {string!r}", lines[line - 1][column - 1 :][:1], string[event.start : event.start + 1].strip("\r\n"))


def try_threads(judge, texts, wanted):
    """Threads that share sequences, and threads of their own."""
    shared = [events(text.decode(), options=ALL) for text in texts[::5]]
    with concurrent.futures.ThreadPoolExecutor(16) as pool:
        lists = [*pool.map(lambda it: [list(found) for found in shared], range(16))]
        judge("threads that share events", [it == lists[0] for it in lists], [True] * 16)
        given = pool.map(lambda text: render([*events(text, options=ALL)]).encode(), texts)
        judge("threads that render", [*given], [wanted["mdhtml", ALL, text] for text in texts])


def faults(texts, wanted, path):
    """The failures of the package's events, over these texts and the library of this path."""
    judge, draw = Judge(), random.Random(1)
    try_classes(judge, draw)
    try_patterns(judge)
    try_sequence(judge, texts, wanted)
    try_merged(judge)
    try_changed(judge, bindings_flat.Library(path), draw)
    try_wrong(judge, texts, draw)
    try_callback(judge, texts, wanted)
    try_references(judge, texts)
    try_lines(judge, texts)
    try_threads(judge, texts, wanted)
    print(f"bindings: Python: events: {judge.tried} comparisons")
    return judge.found
