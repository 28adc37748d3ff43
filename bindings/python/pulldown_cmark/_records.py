"""Flat records: bytes of the library that stand for events. crates/cmark_flat/README.md describes their layout."""
import struct
from array import array
from bisect import bisect_left
from functools import cached_property
from typing import Callable, Dict, Iterable, Iterator, List, NamedTuple, Optional, Sequence, Tuple, Type, Union, overload

from . import _ends as ends
from . import _tags as tags
from ._ends import TagEnd
from ._events import KINDS, WITH_TEXT, Event, Start, TaskListMarker, Value
from ._kinds import Alignment, BlockQuoteKind, Fenced, Indented, LinkType, MetadataBlockKind, NoFields, WikiLink
from ._lines import Lines, Text, continuations
from ._tags import Tag

# The head of a record: its kind, tag, data and five zeros; start, end, and the length of its text. Read as one number, kind, tag and data
# are a code.
HEAD = struct.Struct("<BBB5xQQQ")
_CODED = struct.Struct("<I4xQQQ")
_CHAIN = struct.Struct("<B23xQ")
_LENGTH = struct.Struct("<24xQ")
# Kinds of records beside those of the other events, and the parts that further records have.
FURTHER, START, END, QUESTION, ANSWER = 0, 1, 2, 15, 16
TITLE, LABEL, HEADING_ID, CLASS, ATTRIBUTE, VALUE, NO_VALUE, FIRST_NUMBER = range(1, 9)

# The kinds and elements, in the order of their numbers.
LINK_TYPES: Tuple[LinkType, ...] = (
    "Inline", "Reference", "ReferenceUnknown", "Collapsed", "CollapsedUnknown", "Shortcut", "ShortcutUnknown", "Autolink", "Email", WikiLink(False), WikiLink(True)
)  # fmt: skip
QUOTES: Tuple[Optional[BlockQuoteKind], ...] = (None, "Note", "Tip", "Important", "Warning", "Caution")
METADATA: Tuple[MetadataBlockKind, ...] = ("YamlStyle", "PlusesStyle")
ALIGNMENTS: Tuple[Alignment, ...] = ("None", "Left", "Center", "Right")
LEVELS = range(1, 7)
TAGS: Tuple[Type[Tag], ...] = (
    tags.Paragraph, tags.Heading, tags.BlockQuote, tags.CodeBlock, tags.HtmlBlock, tags.List, tags.Item, tags.FootnoteDefinition,
    tags.DefinitionList, tags.DefinitionListTitle, tags.DefinitionListDefinition, tags.Table, tags.TableHead, tags.TableRow, tags.TableCell,
    tags.Emphasis, tags.Strong, tags.Strikethrough, tags.Superscript, tags.Subscript, tags.Highlight, tags.Link, tags.Image, tags.MetadataBlock
)  # fmt: skip
# The number of each element, by its name.
NUMBERS: Dict[str, int] = {it.__name__: number for number, it in enumerate(TAGS, 1)}


def code_of(kind: int, name: str = "", data: int = 0) -> int:
    """The code of a record: its kind, the number of the element with this name, and its data."""
    return kind | NUMBERS.get(name, 0) << 8 | data << 16


def _ends_with_data() -> Iterator[Tuple[int, TagEnd]]:
    """The ends that have data, each with its data as a number."""
    yield from ((level, ends.HeadingEnd(level)) for level in LEVELS)
    yield from enumerate(map(ends.BlockQuoteEnd, QUOTES))
    yield from enumerate(map(ends.ListEnd, (False, True)))
    yield from enumerate(map(ends.MetadataBlockEnd, METADATA))


def _known() -> Iterator[Tuple[int, Value]]:
    """The codes that say everything about the value of their event, and these values."""
    for tag in TAGS:
        if issubclass(tag, NoFields):
            yield code_of(START, tag.__name__), tag()
    for number, kind in enumerate(QUOTES):
        yield code_of(START, "BlockQuote", number), tags.BlockQuote(kind)
    for number, style in enumerate(METADATA):
        yield code_of(START, "MetadataBlock", number), tags.MetadataBlock(style)
    yield code_of(START, "CodeBlock"), tags.CodeBlock(Indented())
    yield code_of(START, "List"), tags.List()
    for number, end in _ends_with_data():
        yield code_of(END, end.name, number), end
    for name in {it.name for it in TAGS} - {it.name for _, it in _ends_with_data()}:
        yield code_of(END, name), ends.ENDS[name]()
    for number, event in enumerate(KINDS, 1):
        if event.__name__ in ("SoftBreak", "HardBreak", "Rule"):
            yield code_of(number), None
    for done in (False, True):
        yield code_of(KINDS.index(TaskListMarker) + 1, data=done), done


# For each code, except those of starts with more data: the class of the event, its name, and its value. The value of an event with a text
# is in its record.
_IN_RECORD = object()
_KNOWN: Dict[int, Tuple[Type[Event], str, object]] = {
    **{code_of(number): (it, it.__name__, _IN_RECORD) for number, it in enumerate(KINDS, 1) if it.__name__ in WITH_TEXT},
    **{code: (KINDS[(code & 255) - 1], KINDS[(code & 255) - 1].__name__, value) for code, value in _known()},
}


class Record(NamedTuple):
    """A record: the code of its kind, tag and data, its range, and its text."""

    code: int
    start: int
    end: int
    text: str


def records_from(records: bytes, at: int) -> Iterator[Record]:
    """The record at this offset and the further records that belong to it."""
    while True:
        code, start, end, size = _CODED.unpack_from(records, at)
        at += HEAD.size
        yield Record(code, start, end, records[at : at + size].decode("utf-8"))
        at += size
        if at >= len(records) or records[at]:
            return


def offsets_of(records: bytes) -> "array[int]":
    """The offset of each record that is no further record. Raises ``ValueError`` if a record is cut short."""
    at, size, found = 0, len(records), array("Q")
    add, read = found.append, _CHAIN.unpack_from
    try:
        while at < size:
            kind, length = read(records, at)
            if kind:
                add(at)
            at += 32 + length
    except struct.error:
        at = size + 1
    if at != size or size and not records[0]:
        raise ValueError("the records are malformed")
    return found


# The tags of starts whose code does not say everything. Each is made of the bytes of all records, the offset of the start's text, its
# length, and the start's data. The offset of the next event comes with it.
_Maker = Callable[[bytes, int, int, int], Tuple[Tag, int]]


def _heading(records: bytes, at: int, size: int, data: int) -> Tuple[Tag, int]:
    named: Optional[str] = None
    classes: List[str] = []
    attributes: List[Tuple[str, Optional[str]]] = []
    at += size
    while at < len(records) and not records[at]:
        code, _, _, size = _CODED.unpack_from(records, at)
        at += 32 + size
        part, text = code >> 8, records[at - size : at].decode()
        if part == HEADING_ID:
            named = text
        elif part == CLASS:
            classes.append(text)
        elif part == ATTRIBUTE:
            attributes.append((text, None))
        elif part == VALUE:
            attributes[-1] = (attributes[-1][0], text)
    return tags.Heading(data, named, tuple(classes), tuple(attributes)), at


def _linked(kind: Union[Type[tags.Link], Type[tags.Image]]) -> _Maker:
    """Makes links or images."""
    new: Callable[..., Tag] = tuple.__new__

    def made(records: bytes, at: int, size: int, data: int) -> Tuple[Tag, int]:
        end = at + size
        title = end + 32
        title_end = title + _LENGTH.unpack_from(records, end)[0]
        label = title_end + 32
        label_end = label + _LENGTH.unpack_from(records, title_end)[0]
        texts = records[at:end].decode(), records[title:title_end].decode(), records[label:label_end].decode()
        return new(kind, (LINK_TYPES[data], *texts)), label_end

    return made


def _list(records: bytes, at: int, size: int, data: int) -> Tuple[Tag, int]:
    return tags.List(_CODED.unpack_from(records, at + size)[1]), at + size + 32


def _fenced(records: bytes, at: int, size: int, data: int) -> Tuple[Tag, int]:
    return tags.CodeBlock(Fenced(records[at : at + size].decode())), at + size


def _footnote(records: bytes, at: int, size: int, data: int) -> Tuple[Tag, int]:
    return tags.FootnoteDefinition(records[at : at + size].decode()), at + size


def _table(records: bytes, at: int, size: int, data: int) -> Tuple[Tag, int]:
    return tags.Table(tuple(ALIGNMENTS[it] for it in records[at : at + size])), at + size


# They are found by the code of the start without its data.
_MAKERS: Dict[int, _Maker] = {
    code_of(START, "Heading"): _heading,
    code_of(START, "CodeBlock"): _fenced,
    code_of(START, "List"): _list,
    code_of(START, "FootnoteDefinition"): _footnote,
    code_of(START, "Table"): _table,
    code_of(START, "Link"): _linked(tags.Link),
    code_of(START, "Image"): _linked(tags.Image),
}


def _made(records: bytes, at: int, moved: List[int]) -> Iterator[Event]:
    """The events of the records from this offset on. ``moved`` has the bytes of the text that continue a character.

    This loop is what events cost, so it calls as little as it can. Raises ``ValueError`` if a record is cut short or has no meaning.
    """
    kind: Type[Event]
    name: str
    value: object
    new: Callable[..., Event] = tuple.__new__
    read, known, makers, whole = _CODED.unpack_from, _KNOWN.get, _MAKERS, len(records)
    try:
        while at < whole:
            code, start, end, size = read(records, at)
            at += 32
            found = known(code)
            if found is None:
                kind, name = Start, "Start"
                value, at = makers[code & 0xFFFF](records, at, size, code >> 16)
            else:
                kind, name, value = found
                if value is _IN_RECORD:
                    value = records[at : at + size].decode()
                at += size
            if at > whole:
                raise ValueError("a record is cut short")
            if moved:
                start -= bisect_left(moved, start)
                end -= bisect_left(moved, end)
            yield new(kind, (name, value, start, end))
    except (KeyError, IndexError, UnicodeDecodeError, struct.error) as error:
        raise ValueError("the records are malformed") from error


class _Lazy(Sequence[Event]):
    """The events of many records. Each is made when it is asked for; their offsets are found once."""

    def __init__(self, records: bytes, moved: List[int]) -> None:
        self._records = records
        self._moved = moved

    @cached_property
    def _offsets(self) -> "array[int]":
        return offsets_of(self._records)

    def __len__(self) -> int:
        return len(self._offsets)

    def __iter__(self) -> Iterator[Event]:
        return _made(self._records, 0, self._moved)

    @overload
    def __getitem__(self, index: int) -> Event:
        ...

    @overload
    def __getitem__(self, index: slice) -> Sequence[Event]:
        ...

    def __getitem__(self, index: Union[int, slice]) -> Union[Event, Sequence[Event]]:
        if isinstance(index, slice):
            return _Part(self, range(len(self))[index])
        return next(_made(self._records, self._offsets[index], self._moved))


class _Part(Sequence[Event]):
    """A slice of many events."""

    def __init__(self, whole: _Lazy, numbers: range) -> None:
        self._whole = whole
        self._numbers = numbers

    def __len__(self) -> int:
        return len(self._numbers)

    @overload
    def __getitem__(self, index: int) -> Event:
        ...

    @overload
    def __getitem__(self, index: slice) -> Sequence[Event]:
        ...

    def __getitem__(self, index: Union[int, slice]) -> Union[Event, Sequence[Event]]:
        if isinstance(index, slice):
            return _Part(self._whole, self._numbers[index])
        return self._whole[self._numbers[index]]


# Events of fewer bytes of records are all made at the first use: this is faster, and takes little memory.
FEW = 1 << 18


class Events(Sequence[Event]):
    """The events of a text, in order: a sequence that makes its events when they are asked for. A slice is such a sequence too.

    It keeps the flat records of the library, so that many events take less memory than in a list.
    """

    __slots__ = ("_records", "_text", "_events", "_lines")

    def __init__(self, records: bytes, text: Text) -> None:
        self._records: Optional[bytes] = records
        self._text = text
        self._events: Optional[Sequence[Event]] = None
        self._lines: Optional[Lines] = None

    def _found(self) -> Sequence[Event]:
        """The events as a sequence, made once."""
        if self._events is None:
            records, moved = self._records or b"", continuations(self._text)
            self._events = [*_made(records, 0, moved)] if len(records) < FEW else _Lazy(records, moved)
        return self._events

    def __len__(self) -> int:
        return len(self._found())

    def __iter__(self) -> Iterator[Event]:
        return iter(self._found())

    @overload
    def __getitem__(self, index: int) -> Event:
        ...

    @overload
    def __getitem__(self, index: slice) -> "Events":
        ...

    def __getitem__(self, index: Union[int, slice]) -> Union[Event, "Events"]:
        if not isinstance(index, slice):
            return self._found()[index]
        part = Events(b"", self._text)
        part._records, part._events, part._lines = None, self._found()[index], self._lines
        return part

    def __eq__(self, other: object) -> bool:
        if not isinstance(other, Events):
            return NotImplemented
        return len(self) == len(other) and all(mine == its for mine, its in zip(self, other))

    __hash__ = None  # type: ignore[assignment]

    def __repr__(self) -> str:
        return f"<{len(self)} events of a text>"

    @property
    def lines(self) -> Lines:
        """The lines of the text, found once: use ``events.lines.place(event.start)``."""
        if self._lines is None:
            self._lines = Lines(self._text)
        return self._lines


def whole_records(events: Events) -> Optional[bytes]:
    """The records of all events of a text, or ``None`` for a slice of them."""
    return events._records
