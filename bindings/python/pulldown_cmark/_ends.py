"""The ends of elements."""
from typing import ClassVar, Dict, NamedTuple, Optional, Type

from ._kinds import BlockQuoteKind, MetadataBlockKind, Named, NoFields


class TagEnd(Named):
    """The element that an event ends. Each kind of element has a class of its own, such as ``HeadingEnd``.

    ``name`` is the name of the element, such as ``'Heading'``.
    """

    __slots__ = ()
    name: ClassVar[str] = ""

    def __init_subclass__(cls) -> None:
        cls.name = cls.__name__[: -len("End")]


class ParagraphEnd(TagEnd, NoFields):
    """The end of a paragraph."""

    __slots__ = ()


class _HeadingEndFields(NamedTuple):
    level: int


class HeadingEnd(TagEnd, _HeadingEndFields):
    """The end of a heading of this level."""

    __slots__ = ()


class _BlockQuoteEndFields(NamedTuple):
    kind: Optional[BlockQuoteKind] = None


class BlockQuoteEnd(TagEnd, _BlockQuoteEndFields):
    """The end of a block quote, or of an alert of this kind."""

    __slots__ = ()


class CodeBlockEnd(TagEnd, NoFields):
    """The end of a code block."""

    __slots__ = ()


class HtmlBlockEnd(TagEnd, NoFields):
    """The end of an HTML block."""

    __slots__ = ()


class _ListEndFields(NamedTuple):
    is_ordered: bool = False


class ListEnd(TagEnd, _ListEndFields):
    """The end of a list, which is ordered or not."""

    __slots__ = ()


class ItemEnd(TagEnd, NoFields):
    """The end of an item of a list."""

    __slots__ = ()


class FootnoteDefinitionEnd(TagEnd, NoFields):
    """The end of the definition of a footnote."""

    __slots__ = ()


class DefinitionListEnd(TagEnd, NoFields):
    """The end of a definition list."""

    __slots__ = ()


class DefinitionListTitleEnd(TagEnd, NoFields):
    """The end of a term."""

    __slots__ = ()


class DefinitionListDefinitionEnd(TagEnd, NoFields):
    """The end of a definition of terms."""

    __slots__ = ()


class TableEnd(TagEnd, NoFields):
    """The end of a table."""

    __slots__ = ()


class TableHeadEnd(TagEnd, NoFields):
    """The end of the head of a table."""

    __slots__ = ()


class TableRowEnd(TagEnd, NoFields):
    """The end of a row."""

    __slots__ = ()


class TableCellEnd(TagEnd, NoFields):
    """The end of a cell."""

    __slots__ = ()


class EmphasisEnd(TagEnd, NoFields):
    """The end of emphasis."""

    __slots__ = ()


class StrongEnd(TagEnd, NoFields):
    """The end of strong emphasis."""

    __slots__ = ()


class StrikethroughEnd(TagEnd, NoFields):
    """The end of text that is struck through."""

    __slots__ = ()


class SuperscriptEnd(TagEnd, NoFields):
    """The end of superscript."""

    __slots__ = ()


class SubscriptEnd(TagEnd, NoFields):
    """The end of subscript."""

    __slots__ = ()


class HighlightEnd(TagEnd, NoFields):
    """The end of highlighted text."""

    __slots__ = ()


class LinkEnd(TagEnd, NoFields):
    """The end of a link."""

    __slots__ = ()


class ImageEnd(TagEnd, NoFields):
    """The end of an image."""

    __slots__ = ()


class _MetadataBlockEndFields(NamedTuple):
    kind: MetadataBlockKind


class MetadataBlockEnd(TagEnd, _MetadataBlockEndFields):
    """The end of a metadata block."""

    __slots__ = ()


# The class of the end of each element, by the name of the element.
ENDS: Dict[str, Type[TagEnd]] = {it.name: it for it in TagEnd.__subclasses__()}
