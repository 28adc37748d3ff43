"""The elements of a text, as their starts describe them. The names of fields are those of the Rust crate pulldown-cmark."""
from typing import ClassVar, NamedTuple, Optional, Tuple

from ._ends import ENDS, BlockQuoteEnd, HeadingEnd, ListEnd, MetadataBlockEnd, TagEnd
from ._kinds import Alignment, BlockQuoteKind, CodeBlockKind, LinkType, MetadataBlockKind, Named, NoFields


class Tag(Named):
    """The element that an event starts. Each kind of element has a class of its own, such as ``Heading``.

    ``name`` is the name of the class.
    """

    __slots__ = ()
    name: ClassVar[str] = ""

    def __init_subclass__(cls) -> None:
        cls.name = cls.__name__

    def to_end(self) -> TagEnd:
        """The end of this element: for ``Heading(2)`` it is ``HeadingEnd(2)``."""
        return ENDS[self.name]()


class Paragraph(Tag, NoFields):
    """A paragraph."""

    __slots__ = ()


class _HeadingFields(NamedTuple):
    level: int
    id: Optional[str] = None
    classes: Tuple[str, ...] = ()
    attrs: Tuple[Tuple[str, Optional[str]], ...] = ()


class Heading(Tag, _HeadingFields):
    """A heading: its level (1 to 6), its id or ``None``, its classes, and its other attributes, each a name and a value or ``None``."""

    __slots__ = ()

    def to_end(self) -> HeadingEnd:
        return HeadingEnd(self.level)


class _BlockQuoteFields(NamedTuple):
    kind: Optional[BlockQuoteKind] = None


class BlockQuote(Tag, _BlockQuoteFields):
    """A block quote, or an alert of this kind."""

    __slots__ = ()

    def to_end(self) -> BlockQuoteEnd:
        return BlockQuoteEnd(self.kind)


class _CodeBlockFields(NamedTuple):
    kind: CodeBlockKind


class CodeBlock(Tag, _CodeBlockFields):
    """A code block: ``Indented()``, or ``Fenced(info)``."""

    __slots__ = ()


class HtmlBlock(Tag, NoFields):
    """An HTML block."""

    __slots__ = ()


class _ListFields(NamedTuple):
    first_number: Optional[int] = None


class List(Tag, _ListFields):
    """A list; if it is ordered, with its first number."""

    __slots__ = ()

    def to_end(self) -> ListEnd:
        return ListEnd(self.first_number is not None)


class Item(Tag, NoFields):
    """An item of a list."""

    __slots__ = ()


class _FootnoteDefinitionFields(NamedTuple):
    label: str


class FootnoteDefinition(Tag, _FootnoteDefinitionFields):
    """The definition of the footnote with this label."""

    __slots__ = ()


class DefinitionList(Tag, NoFields):
    """A definition list: terms and their definitions."""

    __slots__ = ()


class DefinitionListTitle(Tag, NoFields):
    """A term of a definition list."""

    __slots__ = ()


class DefinitionListDefinition(Tag, NoFields):
    """A definition of the terms before it."""

    __slots__ = ()


class _TableFields(NamedTuple):
    alignments: Tuple[Alignment, ...] = ()


class Table(Tag, _TableFields):
    """A table, with the alignment of each column."""

    __slots__ = ()


class TableHead(Tag, NoFields):
    """The head of a table, which has its cells."""

    __slots__ = ()


class TableRow(Tag, NoFields):
    """A row of a table after its head."""

    __slots__ = ()


class TableCell(Tag, NoFields):
    """A cell of a table."""

    __slots__ = ()


class Emphasis(Tag, NoFields):
    """Emphasis."""

    __slots__ = ()


class Strong(Tag, NoFields):
    """Strong emphasis."""

    __slots__ = ()


class Strikethrough(Tag, NoFields):
    """Text that is struck through."""

    __slots__ = ()


class Superscript(Tag, NoFields):
    """Superscript."""

    __slots__ = ()


class Subscript(Tag, NoFields):
    """Subscript."""

    __slots__ = ()


class Highlight(Tag, NoFields):
    """Highlighted text."""

    __slots__ = ()


class _LinkFields(NamedTuple):
    link_type: LinkType
    dest_url: str
    title: str = ""
    id: str = ""


class Link(Tag, _LinkFields):
    """A link: how it is written, its destination, its title, which may be empty, and the label of a reference, otherwise empty."""

    __slots__ = ()


class Image(Tag, _LinkFields):
    """An image, with the fields of a link; its content is the description."""

    __slots__ = ()


class _MetadataBlockFields(NamedTuple):
    kind: MetadataBlockKind


class MetadataBlock(Tag, _MetadataBlockFields):
    """A metadata block, between lines of ``---`` (``'YamlStyle'``) or of ``+++`` (``'PlusesStyle'``)."""

    __slots__ = ()

    def to_end(self) -> MetadataBlockEnd:
        return MetadataBlockEnd(self.kind)
