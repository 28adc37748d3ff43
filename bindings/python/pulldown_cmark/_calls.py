"""The calls of the package: from a text to HTML, events and definitions, and from events to HTML."""
from typing import Callable, Iterable, List, NamedTuple, Optional, Set, Tuple

from ._events import Event
from ._kinds import LinkType
from ._library import Options, answer, bits_of, bytes_of, library, limit_of, schemes_of
from ._lines import Text, continuations, in_characters
from ._records import LABEL, LINK_TYPES, QUESTION, TITLE, Events, offsets_of, records_from, whole_records
from ._writing import answer_of, records_of


class BrokenLink(NamedTuple):
    """A link whose label has no definition, as a callback is asked about it.

    ``link_type`` is the type that it has if it is answered, ``'ReferenceUnknown'``, ``'CollapsedUnknown'`` or ``'ShortcutUnknown'``.
    ``reference`` is its label. ``start`` and ``end`` are its range in the text, as those of an event.
    """

    link_type: LinkType
    reference: str
    start: int
    end: int

    @property
    def range(self) -> slice:
        """The range of the link in the text, as a slice."""
        return slice(self.start, self.end)


# How often a text is read for the answers of a callback. In a text such as "[a][]" many times in a row each answer leads to one new question
# alone. Reading it until no question is left would take quadratic time.
_MOST_READINGS = 16

# A callback for links whose label has no definition: it returns a destination and a title, or None for no link.
BrokenLinkCallback = Callable[[BrokenLink], Optional[Tuple[str, str]]]


class LinkDef(NamedTuple):
    """A link reference definition: its label, its destination, its title or ``None``, and its range in the text, as that of an event."""

    label: str
    dest: str
    title: Optional[str]
    start: int
    end: int

    @property
    def range(self) -> slice:
        """The range of the definition in the text, as a slice."""
        return slice(self.start, self.end)


def html(
    text: Text,
    *,
    options: int = Options.NONE,
    safe: bool = False,
    schemes: Iterable[str] = (),
    expansion_limit: Optional[int] = None,
    broken_link: Optional[BrokenLinkCallback] = None,
) -> str:
    """The HTML of a text of Markdown, read with these options.

    It is not safe to show if the text comes from a stranger: raw HTML is kept as it is, links may lead to ``javascript:``, and headings may
    have attributes such as ``onclick``. With ``safe=True`` it is safe: HTML is shown as text, a heading has no attribute but its anchor, and
    anchors and names of footnotes begin with ``user-content-``; a link ``#a`` of the text keeps its address. The text chooses no class but
    ``language-`` with the first word of an info string. Addresses are relative or begin with ``http:``, ``https:``, ``mailto:`` or one of
    ``schemes``; ``javascript``, ``vbscript``, ``data`` and ``file`` are never taken from ``schemes``. A scheme has no colon.

    Once the destinations and titles of references have ``expansion_limit`` bytes in all, further references stay text. The default limit is
    100,000 bytes, or the length of the text if that is more.

    ``broken_link`` is asked about each link whose label has no definition, as by ``events``. A call takes at most one of ``safe``,
    ``expansion_limit`` and ``broken_link``.

    Raises ``ValueError`` if it is given more of these, ``schemes`` without ``safe``, a name that is no scheme, or bits that are no options;
    ``TypeError`` if an argument has a wrong type; ``UnicodeError`` if the text is not UTF-8 or cannot be encoded as UTF-8, and
    ``MemoryError`` if memory is refused.
    """
    listed = schemes_of(schemes, safe)
    if (bool(safe), expansion_limit is not None, broken_link is not None).count(True) > 1:
        raise ValueError("a call takes at most one of safe, expansion_limit and broken_link")
    if broken_link is not None:
        return render(events(text, options=options, broken_link=broken_link))
    data, bits = bytes_of(text), bits_of(options)
    room_len = 2 * len(data) + 256
    if listed is not None:
        return answer(library.pcm_safe_html_with, room_len, data, bits, *listed).decode("utf-8")
    if expansion_limit is not None:
        return answer(library.pcm_html_within, room_len, data, bits, limit_of(expansion_limit)).decode("utf-8")
    return answer(library.pcm_html, room_len, data, bits).decode("utf-8")


def events(text: Text, *, options: int = Options.NONE, broken_link: Optional[BrokenLinkCallback] = None) -> Events:
    """The events of a text of Markdown, in order, read with these options.

    The whole text is read at once, and each event is made when it is asked for. Errors are raised by this call, as by ``html``.

    ``broken_link`` is asked about each link whose label has no definition, at most once for each range of the text. It returns the
    destination and the title of the link, or ``None`` if it is no link. What it raises, this call raises. It may also be asked about a link
    that overlaps another one; if both are answered, the one that ends first is a link.

    An answer may lead to new questions, for which the text is read again, at most 16 times. Questions after that have no answer. Only a text
    with many adjacent brackets, such as ``[a][][b][]`` and so on, needs more.
    """
    data, bits = bytes_of(text), bits_of(options)
    # Of the 797 Markdown files of one machine, at most 1 in 100 need a second call.
    room_len = 5 * len(data) + 1024
    kept: Text = text if isinstance(text, str) else data
    if broken_link is None:
        return Events(answer(library.pcm_events, room_len, data, bits), kept)
    return Events(_answered(data, bits, room_len, broken_link, kept), kept)


def _answered(data: bytes, bits: int, room_len: int, broken_link: BrokenLinkCallback, text: Text) -> bytes:
    """The records of the reading in which each question has the callback's answer. It reads again until there is no new answer, or until it has
    read the text often enough."""
    answers = b""
    asked: Set[Tuple[int, int]] = set()
    moved: Optional[List[int]] = None
    for reading in range(1, _MOST_READINGS + 1):
        records = answer(library.pcm_events_answered, room_len, data, bits, answers, len(answers))
        questions = [at for at in offsets_of(records) if records[at] == QUESTION]
        added: List[bytes] = []
        if reading == _MOST_READINGS:
            break
        for code, start, end, label in (next(records_from(records, at)) for at in questions):
            if (start, end) in asked:
                continue
            asked.add((start, end))
            moved = continuations(text) if moved is None else moved
            found = broken_link(BrokenLink(LINK_TYPES[code >> 16], label, in_characters(start, moved), in_characters(end, moved)))
            if found is not None:
                added.append(answer_of(start, end, found))
        if not added:
            break
        answers += b"".join(added)
    return records[: questions[0]] if questions else records


def references(text: Text, *, options: int = Options.NONE) -> List[LinkDef]:
    """The link reference definitions of a text, in its order. If several define a label, only the first one is listed, and it counts.

    Raises what ``html`` raises.
    """
    data, bits = bytes_of(text), bits_of(options)
    records = answer(library.pcm_references, len(data) + 1024, data, bits)
    moved = continuations(text)
    found = []
    for at in offsets_of(records):
        first, *further = records_from(records, at)
        parts = {it.code >> 8: it.text for it in further}
        start, end = in_characters(first.start, moved), in_characters(first.end, moved)
        found.append(LinkDef(parts[LABEL], first.text, parts.get(TITLE), start, end))
    return sorted(found, key=lambda it: it.start)


def render(events: Iterable[Event], *, safe: bool = False, schemes: Iterable[str] = ()) -> str:
    """The HTML of events, also of changed ones and of ones that are not balanced.

    ``render(events(text))`` is ``html(text)``. HTML does not depend on the ranges of events. It is not safe to show if a stranger has a part
    in the events; with ``safe=True`` it is safe, as that of ``html``, whoever made the events. ``schemes`` is as for ``html``.

    Raises ``TypeError`` if a value does not have the type that its field has, ``ValueError`` if it is outside of the values that the field
    takes, ``UnicodeError`` if a text cannot be encoded as UTF-8, and ``MemoryError`` if memory is refused. For ``schemes`` it raises what
    ``html`` raises.
    """
    listed = schemes_of(schemes, safe)
    records = whole_records(events) if isinstance(events, Events) else None
    if records is None:
        records = records_of(events)
    if listed is not None:
        return answer(library.pcm_safe_render, len(records) + 256, records, *listed).decode("utf-8")
    return answer(library.pcm_render, len(records) + 256, records).decode("utf-8")
