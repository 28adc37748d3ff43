"""Events as flat records, for ``pcm_render``, and answers for ``pcm_events_answered``."""
from typing import Any, Callable, Dict, Iterable, Sequence, Union

from . import _ends as ends
from . import _tags as tags
from ._ends import TagEnd
from ._events import KINDS, WITH_TEXT, Event
from ._kinds import Fenced, Indented
from ._records import (
    ALIGNMENTS, ANSWER, ATTRIBUTE, CLASS, END, FIRST_NUMBER, FURTHER, HEAD, HEADING_ID, LABEL, LEVELS, LINK_TYPES, METADATA, NO_VALUE, NUMBERS, QUOTES, START, TITLE, VALUE
)  # fmt: skip
from ._tags import Tag

_KINDS: Dict[str, int] = {it.__name__: number for number, it in enumerate(KINDS, 1)}


def record(kind: int, tag: int = 0, data: int = 0, text: bytes = b"", start: int = 0, end: int = 0) -> bytes:
    """A record. HTML does not depend on ranges, so those of events are left out."""
    return HEAD.pack(kind, tag, data, start, end, len(text)) + text


def bytes_of(what: str, value: object) -> bytes:
    """The bytes of a text."""
    if not isinstance(value, str):
        raise TypeError(f"{what} is str, not {type(value).__name__}")
    return value.encode("utf-8")


def _number_of(what: str, value: object, values: Sequence[object]) -> int:
    """The number of a value among those that are possible."""
    is_possible = isinstance(value, tuple(map(type, values)))
    if is_possible and value in values:
        return values.index(value)
    said = f"{what} is one of {', '.join(map(repr, values))}, not {value!r}"
    raise ValueError(said) if is_possible else TypeError(said)


def _items(what: str, values: object) -> Iterable[Any]:
    """The items of a tuple or a list. A ``str`` has items too, so it is refused."""
    if not isinstance(values, (tuple, list)):
        raise TypeError(f"{what} are a tuple, not {type(values).__name__}")
    return values


def _level_of(tag: Union[tags.Heading, ends.HeadingEnd]) -> int:
    """The level of a heading."""
    return _number_of("the level of a heading", tag.level, LEVELS) + 1


def _heading(tag: tags.Heading) -> bytes:
    parts = [] if tag.id is None else [record(FURTHER, HEADING_ID, text=bytes_of("the id of a heading", tag.id))]
    parts += [record(FURTHER, CLASS, text=bytes_of("a class of a heading", it)) for it in _items("the classes of a heading", tag.classes)]
    for name, value in _items("the attributes of a heading", tag.attrs):
        parts.append(record(FURTHER, ATTRIBUTE, text=bytes_of("the name of an attribute", name)))
        parts.append(record(FURTHER, NO_VALUE) if value is None else record(FURTHER, VALUE, text=bytes_of("the value of an attribute", value)))
    return record(START, NUMBERS["Heading"], _level_of(tag)) + b"".join(parts)


def _block_quote(tag: tags.BlockQuote) -> bytes:
    return record(START, NUMBERS["BlockQuote"], _number_of("the kind of a block quote", tag.kind, QUOTES))


def _code_block(tag: tags.CodeBlock) -> bytes:
    if isinstance(tag.kind, Fenced):
        return record(START, NUMBERS["CodeBlock"], 1, bytes_of("the info string of a code block", tag.kind.info))
    if isinstance(tag.kind, Indented):
        return record(START, NUMBERS["CodeBlock"])
    raise TypeError(f"the kind of a code block is Indented or Fenced, not {type(tag.kind).__name__}")


def _list(tag: tags.List) -> bytes:
    first = tag.first_number
    if first is None:
        return record(START, NUMBERS["List"])
    if not isinstance(first, int):
        raise TypeError(f"the first number of a list is int, not {type(first).__name__}")
    if not 0 <= first < 1 << 64:
        raise ValueError(f"the first number of a list is at least 0 and below 2 ** 64: {first}")
    return record(START, NUMBERS["List"], 1) + record(FURTHER, FIRST_NUMBER, start=first)


def _footnote(tag: tags.FootnoteDefinition) -> bytes:
    return record(START, NUMBERS["FootnoteDefinition"], text=bytes_of("the label of a footnote", tag.label))


def _table(tag: tags.Table) -> bytes:
    columns = bytes(_number_of("the alignment of a column", it, ALIGNMENTS) for it in _items("the alignments of a table", tag.alignments))
    return record(START, NUMBERS["Table"], text=columns)


def _link(tag: Union[tags.Link, tags.Image]) -> bytes:
    title, label = bytes_of("the title of a link", tag.title), bytes_of("the id of a link", tag.id)
    begin = record(START, NUMBERS[tag.name], _number_of("the type of a link", tag.link_type, LINK_TYPES), bytes_of("the destination of a link", tag.dest_url))
    return begin + record(FURTHER, TITLE, text=title) + record(FURTHER, LABEL, text=label)


def _metadata(tag: tags.MetadataBlock) -> bytes:
    return record(START, NUMBERS["MetadataBlock"], _number_of("the kind of a metadata block", tag.kind, METADATA))


# The tags that have fields.
_TAGS: Dict[str, Callable[..., bytes]] = {
    "Heading": _heading, "BlockQuote": _block_quote, "CodeBlock": _code_block, "List": _list, "FootnoteDefinition": _footnote, "Table": _table,
    "Link": _link, "Image": _link, "MetadataBlock": _metadata,
}  # fmt: skip


def _start(tag: object) -> bytes:
    """The records of a start."""
    if not isinstance(tag, Tag) or tag.name not in NUMBERS:
        raise TypeError(f"the value of Start is a tag, not {type(tag).__name__}")
    write = _TAGS.get(tag.name)
    return write(tag) if write else record(START, NUMBERS[tag.name])


def _end(end: object) -> bytes:
    """The record of an end."""
    if not isinstance(end, TagEnd) or end.name not in NUMBERS:
        raise TypeError(f"the value of End is the end of a tag, not {type(end).__name__}")
    data = 0
    if isinstance(end, ends.HeadingEnd):
        data = _level_of(end)
    elif isinstance(end, ends.BlockQuoteEnd):
        data = _number_of("the kind of a block quote", end.kind, QUOTES)
    elif isinstance(end, ends.ListEnd):
        data = _number_of("the order of a list", end.is_ordered, (False, True))
    elif isinstance(end, ends.MetadataBlockEnd):
        data = _number_of("the kind of a metadata block", end.kind, METADATA)
    return record(END, NUMBERS[end.name], data)


def _records_of(event: Event) -> bytes:
    """The records of an event."""
    if not isinstance(event, Event):
        raise TypeError(f"events are Event, not {type(event).__name__}")
    name, value = event.name, event.value
    if name in WITH_TEXT:
        return record(_KINDS[name], text=bytes_of(f"the value of {name}", value))
    if name == "Start":
        return _start(value)
    if name == "End":
        return _end(value)
    if name == "TaskListMarker":
        return record(_KINDS[name], data=_number_of("the value of TaskListMarker", value, (False, True)))
    if name not in _KINDS:
        raise ValueError(f"there is no event {name!r}")
    return record(_KINDS[name])


def records_of(events: Iterable[Event]) -> bytes:
    """The flat records of events."""
    return b"".join(map(_records_of, events))


def answer_of(start: int, end: int, found: object) -> bytes:
    """The records of the answer to the question with this range: a destination and a title, or ``None``."""
    if found is None:
        return record(ANSWER, start=start, end=end)
    if not isinstance(found, tuple) or len(found) != 2:
        raise TypeError(f"the answer for a link is None, or a tuple of its destination and its title, not {found!r}")
    destination, title = bytes_of("the destination of a link", found[0]), bytes_of("the title of a link", found[1])
    return record(ANSWER, data=1, text=destination, start=start, end=end) + record(FURTHER, TITLE, text=title)
