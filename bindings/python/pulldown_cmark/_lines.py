"""Places in a text: lines and columns, and characters for the bytes of the library."""
import re
from bisect import bisect_left, bisect_right
from itertools import compress
from typing import List, NamedTuple, Union

Text = Union[str, bytes, bytearray, memoryview]

# For each byte, whether it continues a character of UTF-8.
_CONTINUES = bytes(0x80 <= byte < 0xC0 for byte in range(256))


class Place(NamedTuple):
    """A line and a column. Both are counted from 1, as editors and compilers do it."""

    line: int
    column: int


class Lines:
    """The lines of a text, found once, so that each look-up takes only a short search.

    Offsets and columns are in characters if the text is a ``str``, in bytes if it is ``bytes``, as the ranges of events are. A tab is one
    column. A line ends with a line feed, a carriage return, or both.

    >>> Lines("# a\\n\\nb *c*").place(7)
    Place(line=3, column=3)
    """

    __slots__ = ("_starts", "_size")

    def __init__(self, text: Text) -> None:
        if isinstance(text, str):
            self._starts = [0, *(it.end() for it in re.finditer("\r\n?|\n", text))]
        else:
            self._starts = [0, *(it.end() for it in re.finditer(b"\r\n?|\n", text))]
        self._size = len(text)

    def __len__(self) -> int:
        """The number of lines: one more than there are line endings."""
        return len(self._starts)

    def place(self, offset: int) -> Place:
        """The line and the column of an offset of the text, for example that of ``event.start``. Raises ``IndexError`` if it is outside of the text."""
        if not 0 <= offset <= self._size:
            raise IndexError(f"there is no offset {offset} in a text of {self._size}")
        line = bisect_right(self._starts, offset)
        return Place(line, offset - self._starts[line - 1] + 1)


def continuations(text: Text) -> List[int]:
    """The offsets of all bytes of a ``str``, in UTF-8, that continue a character. For ``bytes`` there are none: their offsets are in bytes."""
    if not isinstance(text, str) or text.isascii():
        return []
    data = text.encode("utf-8")
    return list(compress(range(len(data)), data.translate(_CONTINUES)))


def in_characters(offset: int, moved: List[int]) -> int:
    """An offset in bytes as one in characters: less the number of bytes before it that continue a character."""
    return offset - bisect_left(moved, offset)
