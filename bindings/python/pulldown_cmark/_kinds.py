"""Kinds of blocks and of links, and what all tags have in common. Names are those of the Rust crate pulldown-cmark."""
from typing import Literal, NamedTuple, Union


class Named:
    """Named tuples that are equal only if they also have the same class."""

    __slots__ = ()

    def __eq__(self, other: object) -> bool:
        return self.__class__ is other.__class__ and super().__eq__(other)

    def __ne__(self, other: object) -> bool:
        return not self == other

    def __hash__(self) -> int:
        return hash((self.__class__.__name__, super().__hash__()))


class NoFields(NamedTuple):
    """The fields of a tag that has none."""


BlockQuoteKind = Literal["Note", "Tip", "Important", "Warning", "Caution"]
MetadataBlockKind = Literal["YamlStyle", "PlusesStyle"]
Alignment = Literal["None", "Left", "Center", "Right"]


class Indented(Named, NoFields):
    """The kind of an indented code block."""

    __slots__ = ()


class _FencedFields(NamedTuple):
    info: str = ""


class Fenced(Named, _FencedFields):
    """The kind of a code block between fences. ``info`` is its info string, which may be empty."""

    __slots__ = ()


CodeBlockKind = Union[Indented, Fenced]


class _WikiLinkFields(NamedTuple):
    has_pothole: bool = False


class WikiLink(Named, _WikiLinkFields):
    """The type of a link ``[[page]]``, or with a pothole ``[[page|text]]``."""

    __slots__ = ()


LinkType = Union[
    Literal["Inline", "Reference", "ReferenceUnknown", "Collapsed", "CollapsedUnknown", "Shortcut", "ShortcutUnknown", "Autolink", "Email"],
    WikiLink,
]
