"""A text that grows at its end, with its HTML."""
import codecs
import copy
import enum
from typing import Iterable, List

from ._library import Options, bits_of, bytes_of, library, limit_of, part_from, schemes_of
from ._lines import Text


# Python's decoder keeps two bytes that only a surrogate begins with, and refuses them at the third one. These are their first byte, and the
# least second one.
_BEFORE_SURROGATES, _FIRST_SURROGATE = b"\xed", b"\xa0"


class Change(enum.Enum):
    """The effect of a refresh on the settled HTML.

    After ``GROWN`` it begins with the settled HTML of before. After ``ANEW`` the settled HTML of before is dropped, and nothing is settled:
    the text defines a link or a footnote, so that earlier blocks may have changed.
    """

    GROWN = "grown"
    ANEW = "anew"


class Stream:
    """A text that grows at its end, such as the output of a language model, with the HTML of all of it.

    The HTML is in two parts. ``settled`` is the HTML of blocks that no further text changes, as long as the text defines neither a link nor
    a footnote. ``tail`` is the HTML of the other blocks. A refresh reads the lines after the settled blocks; of the others it only checks
    that they are UTF-8. It reads the whole text in three cases: the text defines a link or a footnote, a line may begin metadata whose end
    may still come, or the text is one block. ``is_due`` says when a refresh is worth it.

    The HTML is not safe to show if the text comes from a stranger; with ``safe=True`` it is safe. ``options``, ``safe`` and ``schemes`` are
    as for ``html``. Once the destinations and titles of references have ``expansion_limit`` bytes in all, further references stay text.

    >>> stream = Stream()
    >>> stream.push("# Soup\\n\\nOnions,\\nand *carr")
    >>> stream.refresh()
    <Change.GROWN: 'grown'>
    >>> stream.settled, stream.tail
    ('<h1>Soup</h1>\\n', '<p>Onions,\\nand *carr</p>\\n')

    A stream is for one thread at a time. A copy is a stream of its own. Raises ``ValueError`` for bits that are no options, a limit below 0,
    ``schemes`` without ``safe``, and a name that is no scheme; ``TypeError`` for an argument of a wrong type.
    """

    __slots__ = ("_bits", "_schemes", "_limit", "_text", "_decoder", "_cut", "_read", "_pieces", "_added", "_tail")

    def __init__(self, *, options: int = Options.NONE, safe: bool = False, schemes: Iterable[str] = (), expansion_limit: int = 100_000) -> None:
        self._bits = bits_of(options)
        self._limit = limit_of(expansion_limit)
        self._schemes = schemes_of(schemes, safe)
        # The text in UTF-8, to which a push appends.
        self._text = bytearray()
        self._decoder = codecs.getincrementaldecoder("utf-8")()
        # The byte offset after the settled blocks.
        self._cut = 0
        # The bytes of the text at the last refresh that returned.
        self._read = 0
        # The settled HTML: the parts that refreshes have added.
        self._pieces: List[str] = []
        self._added = ""
        self._tail = ""

    def __copy__(self) -> "Stream":
        """A stream with the same text. A push to one of the two does not change the other."""
        return copy.deepcopy(self)

    @property
    def text(self) -> str:
        """The text so far: all chunks, joined. The first bytes of a character are not in it until the rest of them is pushed."""
        return self._text.decode("utf-8")

    @property
    def settled(self) -> str:
        """The HTML of the settled blocks, at the last refresh that returned."""
        if len(self._pieces) > 1:
            self._pieces = ["".join(self._pieces)]
        return self._pieces[0] if self._pieces else ""

    @property
    def added(self) -> str:
        """The end of ``settled`` that the last refresh has added. A page appends it; reading it does not take time for all of ``settled``."""
        return self._added

    @property
    def tail(self) -> str:
        """The HTML of the other blocks, at the last refresh that returned. The next refresh replaces it."""
        return self._tail

    @property
    def html(self) -> str:
        """The HTML of the whole text, as it was at the last refresh that returned: ``settled`` and then ``tail``."""
        return self.settled + self._tail

    @property
    def ends_inside_character(self) -> bool:
        """Whether the bytes that were pushed end inside a character. If no more arrive, the text was cut off."""
        return bool(self._decoder.getstate()[0])

    @property
    def is_due(self) -> bool:
        """Whether the text has grown enough for the next refresh: the lines that a refresh reads by more than a sixteenth, and the whole text,
        which a refresh checks, by more than a thousandth.

        A program that refreshes only then, and once at the end, reads at most 36 bytes for each byte of the text, whatever the text is.
        """
        return (self._read - self._cut) // 16 + self._read // 1024 < len(self._text) - self._read

    def push(self, chunk: Text) -> None:
        """Appends a chunk to the text. Nothing is read: the HTML stays as it is until the next refresh.

        Bytes may end inside a character; the next chunk continues it. Raises ``UnicodeError`` if the chunk is not UTF-8 after the bytes
        before it, or cannot be encoded as UTF-8, ``TypeError`` if it is neither ``str`` nor bytes, and ``MemoryError`` if memory is refused.
        The text is then as before.
        """
        data, state = bytes_of(chunk), self._decoder.getstate()
        try:
            added = self._decoder.decode(data).encode("utf-8")
            begun = self._decoder.getstate()[0]
            if begun[:1] == _BEFORE_SURROGATES and begun[1:] >= _FIRST_SURROGATE:
                raise UnicodeDecodeError("utf-8", begun, 0, len(begun), "surrogates are no characters")
            self._text += added
        except Exception:
            self._decoder.setstate(state)
            raise

    def refresh(self) -> Change:
        """Reads the lines after the settled blocks. Afterwards ``settled`` and ``tail`` are the HTML of the whole text.

        Raises ``MemoryError`` if memory is refused. The text and its HTML are then as before.
        """
        if self._schemes is None:
            part = part_from(library.pcm_stream, self._text, self._cut, self._bits, self._limit)
        else:
            part = part_from(library.pcm_safe_stream, self._text, self._cut, self._bits, *self._schemes, self._limit)
        added, tail = part.html[: part.settled].decode("utf-8"), part.html[part.settled :].decode("utf-8")
        change = Change.GROWN
        if part.cut == 0:
            change = Change.ANEW if self._pieces else Change.GROWN
            self._pieces = []
        elif added:
            self._pieces.append(added)
        self._cut, self._read, self._added, self._tail = part.cut, len(self._text), added, tail
        return change
