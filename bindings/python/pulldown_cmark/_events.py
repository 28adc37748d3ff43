"""Events as values of Python."""
from typing import TYPE_CHECKING, Any, Callable, ClassVar, Dict, Iterable, Iterator, List, NamedTuple, Tuple, Type, TypeVar, Union, overload

from ._ends import TagEnd
from ._tags import Tag

Value = Union[Tag, TagEnd, str, bool, None]
_Same = TypeVar("_Same", bound="_Fields")

if TYPE_CHECKING:

    class _Fields:
        """Events are named tuples. They are shown to type checkers as other objects, because mypy 1.0 does not match subclasses of a named
        tuple with patterns."""

        __match_args__ = ("name", "value", "start", "end")
        _fields: ClassVar[Tuple[str, ...]]

        @property
        def name(self) -> str:
            ...

        @property
        def value(self) -> Value:
            ...

        @property
        def start(self) -> int:
            ...

        @property
        def end(self) -> int:
            ...

        def _replace(self: _Same, *, value: Any = ..., start: int = ..., end: int = ...) -> _Same:
            ...

        def __iter__(self) -> Iterator[Any]:
            ...

        def __len__(self) -> int:
            ...

        @overload
        def __getitem__(self, index: int) -> Any:
            ...

        @overload
        def __getitem__(self, index: slice) -> Tuple[Any, ...]:
            ...

        def __getitem__(self, index: Any) -> Any:
            ...

        def _asdict(self) -> Dict[str, Any]:
            ...

else:

    class _Fields(NamedTuple):
        name: str
        value: Value = None
        start: int = 0
        end: int = 0


# Makes an event of a class from its name, its value and its range.
_new: Callable[..., Any] = tuple.__new__


class Event(_Fields):
    """One event of a text. Each kind of event has a class of its own, such as ``Text``; ``Event(name, value, start, end)`` takes it by its name.

    An event is a named tuple. ``name`` is the name of the class. ``value`` is the tag of a ``Start``, the end of a tag for ``End``, a
    ``bool`` for a ``TaskListMarker``, a ``str`` for events with a text, and otherwise ``None``. ``start`` and ``end`` are the range of the
    event in the given text, ``text[start:end]``: in characters if it is a ``str``, in bytes if it is ``bytes``. Without them they are 0.
    """

    __slots__ = ()

    def __new__(cls, name: str, value: Value = None, start: int = 0, end: int = 0) -> Any:
        if name not in CLASSES:
            raise ValueError(f"there is no event {name!r}")
        return _new(CLASSES[name], (name, value, start, end))

    @classmethod
    def _make(cls, fields: Iterable[Any]) -> Any:
        return Event(*fields)

    def __repr__(self) -> str:
        return f"{self.__class__.__name__}({self.value!r}, start={self.start}, end={self.end})"

    def __getnewargs__(self) -> Tuple[Any, ...]:
        return self[1:]

    @property
    def range(self) -> slice:
        """The range of the event in the text, as a slice: use ``text[event.range]``."""
        return slice(self.start, self.end)


class Start(Event):
    """The start of an element; its content follows, and then its ``End``."""

    __slots__ = ()
    __match_args__ = ("value", "start", "end")
    value: Tag

    def __new__(cls, value: Tag, start: int = 0, end: int = 0) -> Any:
        return _new(cls, ("Start", value, start, end))


class End(Event):
    """The end of the innermost open element. Its range is that of the element."""

    __slots__ = ()
    __match_args__ = ("value", "start", "end")
    value: TagEnd

    def __new__(cls, value: TagEnd, start: int = 0, end: int = 0) -> Any:
        return _new(cls, ("End", value, start, end))


class _WithText(Event):
    """An event with a text."""

    __slots__ = ()
    __match_args__ = ("value", "start", "end")
    value: str

    def __new__(cls, value: str, start: int = 0, end: int = 0) -> Any:
        return _new(cls, (cls.__name__, value, start, end))


class Text(_WithText):
    """Text. The text of a paragraph may be split over several events, which ``merged`` joins."""

    __slots__ = ()


class Code(_WithText):
    """A code span."""

    __slots__ = ()


class InlineMath(_WithText):
    """A formula inside a line."""

    __slots__ = ()


class DisplayMath(_WithText):
    """A formula that is shown by itself."""

    __slots__ = ()


class Html(_WithText):
    """A part of an HTML block."""

    __slots__ = ()


class InlineHtml(_WithText):
    """Raw HTML inside a line."""

    __slots__ = ()


class FootnoteReference(_WithText):
    """A reference to the footnote with this label."""

    __slots__ = ()


class _WithoutValue(Event):
    """An event that has only a range."""

    __slots__ = ()
    __match_args__ = ("start", "end")
    value: None

    def __new__(cls, start: int = 0, end: int = 0) -> Any:
        return _new(cls, (cls.__name__, None, start, end))

    def __repr__(self) -> str:
        return f"{self.__class__.__name__}(start={self.start}, end={self.end})"

    def __getnewargs__(self) -> Tuple[Any, ...]:
        return self[2:]


class SoftBreak(_WithoutValue):
    """A line ending inside a paragraph."""

    __slots__ = ()


class HardBreak(_WithoutValue):
    """A hard line break."""

    __slots__ = ()


class Rule(_WithoutValue):
    """A thematic break."""

    __slots__ = ()


class TaskListMarker(Event):
    """The marker of a task: ``value`` is whether the task is done."""

    __slots__ = ()
    __match_args__ = ("value", "start", "end")
    value: bool

    def __new__(cls, value: bool, start: int = 0, end: int = 0) -> Any:
        return _new(cls, ("TaskListMarker", value, start, end))


# The class of each kind of event, by its name. The order is that of the numbers of flat records, from 1.
KINDS: Tuple[Type[Event], ...] = (
    Start, End, Text, Code, InlineMath, DisplayMath, Html, InlineHtml, FootnoteReference, SoftBreak, HardBreak, Rule, TaskListMarker
)  # fmt: skip
CLASSES: Dict[str, Type[Event]] = {it.__name__: it for it in KINDS}
# The names of the events with a text.
WITH_TEXT: Tuple[str, ...] = tuple(it.__name__ for it in KINDS if issubclass(it, _WithText))


def merged(events: Iterable[Event]) -> Iterator[Event]:
    """The events with adjacent texts merged into one, whose range begins with that of the first and ends with that of the last.

    Several texts that are empty together are left out. So it is in ``TextMergeStream`` of the Rust crate.
    """
    texts: List[Event] = []
    for event in events:
        if event.name == "Text":
            texts.append(event)
            continue
        if texts:
            yield from _joined(texts)
            texts = []
        yield event
    yield from _joined(texts)


def _joined(texts: List[Event]) -> List[Event]:
    """One text for adjacent ones, or none."""
    if len(texts) < 2:
        return texts
    text = "".join(str(it.value) for it in texts)
    return [Text(text, texts[0].start, texts[-1].end)] if text else []
