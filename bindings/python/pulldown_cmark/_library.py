"""The calls of the shared library."""
import ctypes
import enum
import functools
import operator
import os
import pathlib
import re
from typing import Any, Callable, Dict, Iterable, List, NamedTuple, Optional, Tuple, Union

from ._lines import Text

# The statuses of a call, as pulldown_cmark.h defines them.
_DONE, _TOO_LONG, _NOT_UTF8, _NO_MEMORY, _MALFORMED, _UNKNOWN_OPTIONS, _BAD_CUT = range(7)


class Options(enum.IntFlag):
    """The rules beyond CommonMark. Join them by ``|``.

    ``GITHUB`` has the rules that GitHub reads.
    With ``ALL_ENTITIES`` all 2,125 entity names of the HTML standard are known, and otherwise eleven: ``amp``, ``lt``, ``gt``, ``quot``,
    ``apos``, ``nbsp``, ``copy``, ``reg``, ``hellip``, ``mdash`` and ``ndash``.
    """

    NONE = 0
    TABLES = 2
    FOOTNOTES = 4
    STRIKETHROUGH = 8
    TASKLISTS = 16
    SMART_PUNCTUATION = 32
    HEADING_ATTRIBUTES = 64
    YAML_STYLE_METADATA_BLOCKS = 128
    PLUSES_DELIMITED_METADATA_BLOCKS = 256
    OLD_FOOTNOTES = 516
    MATH = 1024
    GFM = 2048
    DEFINITION_LIST = 4096
    SUPERSCRIPT = 8192
    SUBSCRIPT = 16384
    WIKILINKS = 32768
    HIGHLIGHT = 65536
    EMAIL_AUTOLINKS = 131072
    ALL_ENTITIES = 1073741824
    GITHUB = TABLES | FOOTNOTES | STRIKETHROUGH | TASKLISTS | GFM | EMAIL_AUTOLINKS


# The bits of all options.
_ALL = functools.reduce(operator.or_, map(int, Options.__members__.values()))


def _loaded() -> ctypes.CDLL:
    """The shared library: the one that PULLDOWN_CMARK_LIBRARY names, or the one beside this file, or the system's."""
    beside = pathlib.Path(__file__).resolve().parent / "libpulldown_cmark.so"
    named = os.environ.get("PULLDOWN_CMARK_LIBRARY")
    return ctypes.CDLL(named or (str(beside) if beside.exists() else "libpulldown_cmark.so.0"))


library = _loaded()
_TEXT = [ctypes.c_char_p, ctypes.c_size_t, ctypes.c_uint32]
_MORE = [ctypes.c_char_p, ctypes.c_size_t]
_ROOM = [ctypes.c_void_p, ctypes.c_size_t, ctypes.POINTER(ctypes.c_size_t)]
_GROWING = [ctypes.c_void_p, ctypes.c_size_t, ctypes.c_uint32]
_CUT = [ctypes.c_size_t, ctypes.POINTER(ctypes.c_size_t), ctypes.POINTER(ctypes.c_size_t)]
# The calls of the library, and what they are given.
_CALLS: Dict[str, List[Any]] = {
    "pcm_version": [],
    "pcm_html": _TEXT + _ROOM,
    "pcm_html_within": [*_TEXT, ctypes.c_size_t, *_ROOM],
    "pcm_safe_html_with": _TEXT + _MORE + _ROOM,
    "pcm_events": _TEXT + _ROOM,
    "pcm_events_answered": _TEXT + _MORE + _ROOM,
    "pcm_references": _TEXT + _ROOM,
    "pcm_render": _MORE + _ROOM,
    "pcm_safe_render": _MORE + _MORE + _ROOM,
    "pcm_stream": _GROWING + _CUT + _ROOM,
    "pcm_safe_stream": _GROWING + _MORE + _CUT + _ROOM,
}
for _name, _given in _CALLS.items():
    if not hasattr(library, _name):
        raise ImportError(f"the shared library is older than this package: it has no {_name}")
    getattr(library, _name).restype = ctypes.c_uint32
    getattr(library, _name).argtypes = _given


def library_version() -> str:
    """The version of the shared library. It ends with ``+not.proved`` if the library was built without proofs."""
    version = library.pcm_version()
    label = "+not.proved" if version >> 31 else ""
    return f"{version >> 16 & 0x7FFF}.{version >> 8 & 255}.{version & 255}{label}"


def bytes_of(text: Text) -> bytes:
    """The bytes that the library reads."""
    if isinstance(text, str):
        return text.encode("utf-8")
    if isinstance(text, (bytes, bytearray, memoryview)):
        return bytes(text)
    raise TypeError(f"Markdown is str or bytes, not {type(text).__name__}")


def bits_of(options: int) -> int:
    """The bits of a set of options."""
    bits = operator.index(options)
    if bits < 0:
        raise ValueError(f"options are joined by |, and {bits} is below 0")
    if bits & ~_ALL:
        raise ValueError(f"there is no option of the bits {bits & ~_ALL}")
    return bits


def limit_of(limit: int) -> int:
    """A reference expansion limit as the library takes it. A limit that does not fit is replaced by the greatest one, which no text
    reaches."""
    bytes_left = operator.index(limit)
    if bytes_left < 0:
        raise ValueError("a limit is at least 0")
    return min(bytes_left, ctypes.c_size_t(-1).value)


# A scheme (RFC 3986, section 3.1).
_SCHEME = re.compile(r"[a-z][a-z0-9+.-]*", re.ASCII | re.IGNORECASE)


def schemes_of(schemes: Iterable[str], safe: bool) -> Optional[Tuple[bytes, int]]:
    """The schemes for safe HTML as the library takes them, and their length in bytes; ``None`` if the HTML is not to be safe.

    A caller who lists schemes wants safe HTML. So a list without ``safe`` is an error.
    """
    if isinstance(schemes, (str, bytes)):
        raise TypeError(f"schemes are a list of names, not {type(schemes).__name__}")
    listed = list(schemes)
    names = " ".join(listed).encode("utf-8")
    for name in listed:
        if not _SCHEME.fullmatch(name):
            raise ValueError(f"{name!r} is no scheme")
    if safe:
        return names, len(names)
    if listed:
        raise ValueError("schemes are for safe HTML: set safe=True too")
    return None


def _failure(status: int) -> Exception:
    """The exception for a status without output."""
    if status == _NOT_UTF8:
        return UnicodeError("the text is not UTF-8")
    if status == _NO_MEMORY:
        return MemoryError("the library was refused memory")
    if status == _MALFORMED:
        return ValueError("the records are malformed")
    if status == _UNKNOWN_OPTIONS:
        return ValueError("the library does not know an option")
    if status == _BAD_CUT:
        return ValueError("the cut is after the end of the text or inside a character")
    return RuntimeError(f"the library returned the unknown status {status}")


def answer(call: Callable[..., int], room_len: int, data: bytes, *more: Union[bytes, int]) -> bytes:
    """The output of a call of the library for these bytes and further arguments. Python's lock is released while it runs.

    The first buffer has ``room_len`` bytes; if that is too little, there is a second call.
    """
    size = ctypes.c_size_t()
    while True:
        room = bytearray(room_len)
        place = ctypes.addressof(ctypes.c_char.from_buffer(room))
        status = call(data, len(data), *more, place, room_len, ctypes.byref(size))
        if status == _DONE:
            return bytes(memoryview(room)[: size.value])
        if status == _NOT_UTF8:
            data.decode("utf-8")
        if status != _TOO_LONG:
            raise _failure(status)
        room_len = size.value


class Part(NamedTuple):
    """The HTML of the lines of a text from a cut on.

    The first ``settled`` bytes of ``html`` are the HTML of the blocks before the next cut, ``cut``, which is a byte offset in the text.
    """

    html: bytes
    settled: int
    cut: int


def part_from(call: Callable[..., int], text: bytearray, cut: int, *more: Union[bytes, int]) -> Part:
    """The HTML of the lines of a text from a cut on, by a call of the library. The text is not copied.

    The text cannot be resized during the call: another thread that appends to it gets a ``BufferError``.
    """
    next_cut, settled, size = ctypes.c_size_t(cut), ctypes.c_size_t(), ctypes.c_size_t()
    held = ctypes.c_char.from_buffer(text) if text else ctypes.c_char()
    room_len = 2 * (len(text) - cut) + 256
    try:
        while True:
            room = bytearray(room_len)
            places = ctypes.byref(next_cut), ctypes.byref(settled), ctypes.addressof(ctypes.c_char.from_buffer(room))
            status = call(ctypes.addressof(held), len(text), *more, *places, room_len, ctypes.byref(size))
            if status == _DONE:
                return Part(bytes(memoryview(room)[: size.value]), settled.value, next_cut.value)
            if status != _TOO_LONG:
                raise _failure(status)
            room_len = size.value
    finally:
        # An exception keeps the variables of this call alive; the text could not grow.
        del held
