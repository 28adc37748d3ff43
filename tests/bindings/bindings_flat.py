"""The tests of flat records in C: the calls of the shared library that write or read them, called by ctypes.

A reader that knows the layout of crates/cmark_flat/README.md alone turns the records into the lines that mdevents writes, and pcm_render turns
them into the HTML that mdhtml writes. The records and the text then end at the end of a page, and the next page may not be touched. Records that
are cut short, changed or out of order give the status 4, or HTML if they are records again; the room and the size are as the header says.
"""
import ctypes
import json
import mmap
import pathlib
import random
import struct
import sys

sys.path.append(str(pathlib.Path(__file__).resolve().parent.parent / "common"))
from programs import ALL, NONE

DONE, TOO_LONG, NOT_UTF8, NO_MEMORY, MALFORMED = range(5)
HEAD = struct.Struct("<BBB5sQQQ")
KINDS = "- Start End Text Code InlineMath DisplayMath Html InlineHtml FootnoteReference SoftBreak HardBreak Rule TaskListMarker".split()
TAGS = (
    "- Paragraph Heading BlockQuote CodeBlock HtmlBlock List Item FootnoteDefinition DefinitionList DefinitionListTitle DefinitionListDefinition "
    "Table TableHead TableRow TableCell Emphasis Strong Strikethrough Superscript Subscript Highlight Link Image MetadataBlock"
).split()
LINKS = "Inline Reference ReferenceUnknown Collapsed CollapsedUnknown Shortcut ShortcutUnknown Autolink Email".split()
LINKS += [["WikiLink", False], ["WikiLink", True]]
QUOTES = [None, "Note", "Tip", "Important", "Warning", "Caution"]
METADATA = ["YamlStyle", "PlusesStyle"]
COLUMNS = ["None", "Left", "Center", "Right"]
TITLE, LABEL, HEADING_ID, CLASS, ATTRIBUTE, VALUE, NO_VALUE, FIRST = range(1, 9)
DEFINITION, QUESTION, ANSWER = 14, 15, 16
UNTOUCHED = 0xA5


def split(records):
    """The records, each as (kind, tag, data, start, end, text)."""
    at, found = 0, []
    while at < len(records):
        kind, tag, data, unused, start, end, size = HEAD.unpack_from(records, at)
        at += HEAD.size + size
        if any(unused) or at > len(records):
            raise ValueError(f"a record ends at {at} of {len(records)}")
        found.append((kind, tag, data, start, end, records[at - size : at]))
    return found


def joined(found):
    """The bytes of records."""
    return b"".join(HEAD.pack(kind, tag, data, bytes(5), start, end, len(text)) + text for kind, tag, data, start, end, text in found)


def attributes(parts):
    """The id, the classes and the attributes of a heading's further records."""
    named, classes, others = None, [], []
    for _, tag, _, _, _, text in parts:
        text = text.decode()
        if tag == HEADING_ID:
            named = text
        elif tag == CLASS:
            classes.append(text)
        elif tag == ATTRIBUTE:
            others.append([text, None])
        elif tag == VALUE:
            others[-1][1] = text
    return named, classes, others


def element(tag, data, text, parts):
    """A start's element as mdevents writes it."""
    name = TAGS[tag]
    if name == "Heading":
        return [name, data, *attributes(parts)]
    if name == "CodeBlock":
        return [name, ["Fenced", text.decode()] if data else ["Indented"]]
    if name == "List":
        return [name, parts[0][3] if data else None]
    if name == "FootnoteDefinition":
        return [name, text.decode()]
    if name == "Table":
        return [name, [COLUMNS[it] for it in text]]
    if name in ("Link", "Image"):
        return [name, LINKS[data], text.decode(), parts[0][5].decode(), parts[1][5].decode()]
    return [name, *({"BlockQuote": [QUOTES[data]], "MetadataBlock": METADATA[data : data + 1]}.get(name, []))]


def ended(tag, data):
    """An end as mdevents writes it."""
    name = TAGS[tag]
    with_data = {"Heading": [data], "BlockQuote": [QUOTES[data] if data < len(QUOTES) else data], "List": [data == 1], "MetadataBlock": METADATA[data : data + 1]}
    return [name, *with_data.get(name, [])]


def lines(records):
    """The events of records as the lines of mdevents say them."""
    found = split(records)
    at = 0
    while at < len(found):
        kind, tag, data, start, end, text = found[at]
        after = at + 1
        while after < len(found) and not found[after][0]:
            after += 1
        parts, at = found[at + 1 : after], after
        name = KINDS[kind]
        if name == "Start":
            value = [element(tag, data, text, parts)]
        elif name == "End":
            value = [ended(tag, data)]
        elif name == "TaskListMarker":
            value = [data == 1]
        else:
            value = [] if name in ("SoftBreak", "HardBreak", "Rule") else [text.decode()]
        yield {"range": [start, end], "event": [name, *value]}


class Pages:
    """Some pages before one that may not be touched."""

    def __init__(self, size):
        libc = ctypes.CDLL(None, use_errno=True)
        self.size = -(-size // mmap.PAGESIZE) * mmap.PAGESIZE
        self.pages = mmap.mmap(-1, self.size + mmap.PAGESIZE)
        self.start = ctypes.addressof(ctypes.c_char.from_buffer(self.pages))
        if libc.mprotect(ctypes.c_void_p(self.start + self.size), mmap.PAGESIZE, 0):
            raise OSError(ctypes.get_errno(), "mprotect")

    def end_with(self, data):
        """Puts bytes directly before the page that may not be touched, and gives their address."""
        ctypes.memmove(self.start + self.size - len(data), data, len(data))
        return self.start + self.size - len(data)


class Library:
    """The calls of flat records."""

    def __init__(self, path):
        self.library = ctypes.CDLL(str(path))
        address, size = ctypes.c_void_p, ctypes.c_size_t
        self.library.pcm_events.argtypes = self.library.pcm_references.argtypes = [address, size, ctypes.c_uint32, address, size, ctypes.POINTER(size)]
        self.library.pcm_events_answered.argtypes = [address, size, ctypes.c_uint32, address, size, address, size, ctypes.POINTER(size)]
        self.library.pcm_render.argtypes = [address, size, address, size, ctypes.POINTER(size)]
        self.pages, self.rooms, self.answers = Pages(1 << 22), Pages(1 << 22), Pages(1 << 22)

    def call(self, function, given, options, room_len):
        """The status, the size and the room after a call whose bytes and whose room end where a page may not be touched."""
        room = self.rooms.end_with(bytes([UNTOUCHED]) * room_len)
        size = ctypes.c_size_t(UNTOUCHED)
        status = function(self.pages.end_with(given), len(given), *options, room, room_len, ctypes.byref(size))
        return status, size.value, ctypes.string_at(room, room_len)

    def whole(self, function, given, options):
        """The status and the answer of a call with the room that it needs; its first room is too short by one byte."""
        status, size, room = self.call(function, given, options, 0)
        if status != TOO_LONG:
            return status, room
        short = self.call(function, given, options, size - 1)
        if short != (TOO_LONG, size, bytes([UNTOUCHED]) * (size - 1)):
            return "a room that is too short", short
        status, found, room = self.call(function, given, options, size + 3)
        if found != size or room[size:] != bytes([UNTOUCHED]) * 3:
            return "a room that is too large", room
        return status, room[:size]

    def events(self, text, bits):
        return self.whole(self.library.pcm_events, text, (bits,))

    def render(self, records):
        return self.whole(self.library.pcm_render, records, ())

    def references(self, text, bits):
        return self.whole(self.library.pcm_references, text, (bits,))

    def answered(self, text, bits, answers):
        """The status and the records of the events and the questions. The answers end where a page may not be touched, too."""
        at = self.answers.end_with(answers)
        return self.whole(self.library.pcm_events_answered, text, (bits, at, len(answers)))


def damaged(records, draw):
    """Records that are cut short, have a changed byte, or are out of order."""
    found = split(records)
    yield records[: draw.randrange(len(records))]
    at = draw.randrange(len(records))
    yield records[:at] + bytes([draw.randrange(256)]) + records[at + 1 :]
    yield joined(draw.sample(found, len(found)))
    yield records + records[: HEAD.size - 1]
    # a length past the end, and one that no memory has
    for size in (len(records) + 1, 2**64 - 1, 2**63):
        yield joined(found[:-1]) + HEAD.pack(*found[-1][:3], bytes(5), *found[-1][3:5], size)


# Records that are not those of events, each after the reason.
REFUSED = [
    ("a further record comes first", [(0, TITLE, 0, 0, 0, b"")]),
    ("a definition", [(DEFINITION, 0, 0, 0, 1, b""), (0, LABEL, 0, 0, 0, b"a")]),
    ("a question", [(QUESTION, 0, 6, 0, 1, b"a")]),
    ("an answer", [(ANSWER, 0, 0, 0, 1, b"")]),
    ("a kind that is none", [(17, 0, 0, 0, 1, b"")]),
    ("a tag that is none", [(1, 25, 0, 0, 1, b"")]),
    ("a level of 0", [(1, 2, 0, 0, 1, b"")]),
    ("a level of 7", [(2, 2, 7, 0, 1, b"")]),
    ("a text that is not UTF-8", [(3, 0, 0, 0, 1, b"\xff")]),
    ("a text with a tag", [(3, 1, 0, 0, 1, b"a")]),
    ("a rule with a text", [(12, 0, 0, 0, 1, b"a")]),
    ("a link without a title", [(1, 22, 0, 0, 1, b""), (0, LABEL, 0, 0, 0, b"")]),
    ("a link whose label comes first", [(1, 22, 0, 0, 1, b""), (0, LABEL, 0, 0, 0, b""), (0, TITLE, 0, 0, 0, b"")]),
    ("a link type that is none", [(1, 22, 11, 0, 1, b""), (0, TITLE, 0, 0, 0, b""), (0, LABEL, 0, 0, 0, b"")]),
    ("an attribute without a record for its value", [(1, 2, 1, 0, 1, b""), (0, ATTRIBUTE, 0, 0, 0, b"a")]),
    ("an ordered list without a number", [(1, 6, 1, 0, 1, b"")]),
    ("a bulleted list with a number", [(1, 6, 0, 0, 1, b""), (0, FIRST, 0, 1, 0, b"")]),
    ("a column that is none", [(1, 12, 0, 0, 1, b"\x04")]),
    ("a paragraph with a further record", [(1, 1, 0, 0, 1, b""), (0, TITLE, 0, 0, 0, b"")]),
]


# Records that are not answers, each after the reason.
NO_ANSWERS = [
    ("an answer without its title", [(ANSWER, 0, 1, 0, 3, b"/a")]),
    ("no answer with a text", [(ANSWER, 0, 0, 0, 3, b"/a")]),
    ("no answer with a title", [(ANSWER, 0, 0, 0, 3, b""), (0, TITLE, 0, 0, 0, b"")]),
    ("an answer with a label", [(ANSWER, 0, 1, 0, 3, b"/a"), (0, LABEL, 0, 0, 0, b"")]),
    ("an answer with two titles", [(ANSWER, 0, 1, 0, 3, b"/a"), (0, TITLE, 0, 0, 0, b""), (0, TITLE, 0, 0, 0, b"")]),
    ("an answer with the data 2", [(ANSWER, 0, 2, 0, 3, b"/a"), (0, TITLE, 0, 0, 0, b"")]),
    ("an answer with a tag", [(ANSWER, 1, 0, 0, 3, b"")]),
    ("a title alone", [(0, TITLE, 0, 0, 0, b"")]),
    ("a question", [(QUESTION, 0, 6, 0, 3, b"a")]),
    ("an event", [(3, 0, 0, 0, 3, b"a")]),
    ("a destination that is not UTF-8", [(ANSWER, 0, 1, 0, 3, b"\xff"), (0, TITLE, 0, 0, 0, b"")]),
]


def definitions(records):
    """The definitions of records, each as (label, destination, title, start, end)."""
    found, rest = [], split(records)
    while rest:
        (kind, tag, data, start, end, destination), rest = rest[0], rest[1:]
        title, rest = (rest[0][5], rest[1:]) if rest[0][:2] == (0, TITLE) else (None, rest)
        if (kind, tag, data) != (DEFINITION, 0, 0) or rest[0][:5] != (0, LABEL, 0, 0, 0):
            raise ValueError("not the records of definitions")
        found.append((rest[0][5], destination, title, start, end))
        rest = rest[1:]
    return found


def defined(library, text, bits):
    """The number of a text's definitions, and their faults: the range of each that has one line must be a definition alone."""
    status, records = library.references(text, bits)
    if status != DONE:
        return 0, [f"pcm_references of {text!r} with {bits}: {status}"]
    found, said = definitions(records), []
    for label, destination, title, start, end in found:
        if b"\n" in text[start:end].rstrip(b"\n") or b"\r" in text[start:end].rstrip(b"\r\n"):
            continue
        _, events = library.events(text[start:end], bits)
        again = definitions(library.references(text[start:end], bits)[1])
        if events or [it[1:3] for it in again] != [(destination, title)]:
            said.append(f"pcm_references of {text!r} with {bits}: {text[start:end]!r} is not the definition of {label!r}")
    return len(found), said


def answer_of(question):
    """The records of an answer: the label is the destination and the title; every other label that has an even number of bytes is no link."""
    _, _, _, start, end, label = question
    if len(label) % 2:
        return [(ANSWER, 0, 1, start, end, label), (0, TITLE, 0, 0, 0, label)]
    return [(ANSWER, 0, 0, start, end, b"")]


def asked(library, text, bits, plain):
    """The number of questions of a text, and the faults of its events with answers, which are given until no question is new."""
    answers, ranges = [], set()
    while True:
        status, records = library.answered(text, bits, joined(answers))
        if status != DONE:
            return 0, [f"pcm_events_answered of {text!r} with {bits}: {status}"]
        found = split(records)
        questions = [it for it in found if it[0] == QUESTION]
        events = found[: len(found) - len(questions)]
        if any(it[0] == QUESTION for it in events) or not answers and joined(events) != plain:
            return 0, [f"pcm_events_answered of {text!r} with {bits}: other events"]
        fresh = [it for it in questions if it[3:5] not in ranges]
        if not fresh:
            break
        ranges |= {it[3:5] for it in fresh}
        answers += [record for it in fresh for record in answer_of(it)]
    # the starts of links and images whose label has no definition
    led = [(data, text, *(it[5] for it in found[at + 1 : at + 3])) for at, (kind, tag, data, _, _, text) in enumerate(found) if kind == 1 and tag in (22, 23) and data in (2, 4, 6)]
    wanted = [(data, label, label, label) for _, _, data, _, _, label in questions if len(label) % 2]
    if sorted(led) != sorted(wanted):
        return 0, [f"pcm_events_answered of {text!r} with {bits}: {led!r}, and not {wanted!r}"]
    return len(questions), []


def links(library, texts):
    """The faults of definitions and answers, over these texts."""
    found, defining, asking = [], 0, 0
    for text in texts:
        for bits in (NONE, ALL):
            status, plain = library.events(text, bits)
            if status != DONE:
                continue
            number, said = defined(library, text, bits)
            defining, found = defining + number, found + said
            number, said = asked(library, text, bits, plain)
            asking, found = asking + number, found + said
    for what, bad in NO_ANSWERS:
        if library.call(library.library.pcm_events_answered, b"[a]", (NONE, library.answers.end_with(joined(bad)), len(joined(bad))), 9) != (MALFORMED, 0, bytes([UNTOUCHED]) * 9):
            found.append(f"pcm_events_answered takes {what}")
    first = joined([(ANSWER, 0, 1, 0, 3, b"/x"), (0, TITLE, 0, 0, 0, b""), (ANSWER, 0, 1, 0, 3, b"/y"), (0, TITLE, 0, 0, 0, b""), (ANSWER, 0, 1, 0, 4, b"/z"), (0, TITLE, 0, 0, 0, b"")])
    if (1, 22, 6, 0, 3, b"/x") not in split(library.answered(b"[a]", NONE, first)[1]):
        found.append("pcm_events_answered does not take the first answer")
    if library.answered(b"a\xff", NONE, b"a")[0] != NOT_UTF8 or library.references(b"\xff", NONE)[0] != NOT_UTF8:
        found.append("pcm_events_answered or pcm_references takes bytes that are not UTF-8")
    if not defining or not asking:
        found.append(f"{defining} definitions, {asking} questions")
    print(f"bindings: flat records: {defining} definitions compared, and {asking} questions answered")
    return found


def faults(path, texts, wanted):
    """The faults of the calls for flat records, over these texts."""
    library, draw, found, compared, refused, read = Library(path), random.Random(1), [], 0, 0, 0
    for text in texts:
        for bits in (NONE, ALL):
            status, records = library.events(text, bits)
            if status == DONE and [*lines(records)] == [json.loads(it) for it in wanted["mdevents", bits, text].splitlines()]:
                compared += 1
            else:
                found.append(f"pcm_events of {text!r} with {bits}: {status}")
                continue
            if library.render(records) != (DONE, wanted["mdhtml", bits, text]):
                found.append(f"pcm_render of the records of {text!r} with {bits}")
            for bad in damaged(records, draw) if records else ():
                status, html = library.render(bad)
                if status == MALFORMED and library.call(library.library.pcm_render, bad, (), 9) == (MALFORMED, 0, bytes([UNTOUCHED]) * 9):
                    refused += 1
                elif status == DONE:
                    read += 1
                else:
                    found.append(f"pcm_render of {bad!r}: {status}")
    for what, bad in REFUSED:
        if library.render(joined(bad))[0] != MALFORMED:
            found.append(f"pcm_render takes {what}")
    if library.events(b"a\xff", NONE)[0] != NOT_UTF8:
        found.append("pcm_events takes bytes that are not UTF-8")
    if not compared or not refused or not read:
        found.append(f"{compared} compared, {refused} refused, {read} read")
    found.extend(links(library, texts))
    print(f"bindings: flat records: the events of {compared} texts and options compared; of damaged records {refused} refused, and {read} are records again")
    return found
