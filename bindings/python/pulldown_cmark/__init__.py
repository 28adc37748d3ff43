"""Markdown to HTML and to events, by a library whose results are proved.

>>> html("*Hi*")
'<p><em>Hi</em></p>\\n'
>>> events("*Hi*")[2]
Text('Hi', start=1, end=3)
"""
from ._calls import BrokenLink, BrokenLinkCallback, LinkDef, events, html, references, render
from ._ends import (
    BlockQuoteEnd, CodeBlockEnd, DefinitionListDefinitionEnd, DefinitionListEnd, DefinitionListTitleEnd, EmphasisEnd, FootnoteDefinitionEnd,
    HeadingEnd, HighlightEnd, HtmlBlockEnd, ImageEnd, ItemEnd, LinkEnd, ListEnd, MetadataBlockEnd, ParagraphEnd, StrikethroughEnd, StrongEnd,
    SubscriptEnd, SuperscriptEnd, TableCellEnd, TableEnd, TableHeadEnd, TableRowEnd, TagEnd,
)  # fmt: skip
from ._events import (
    Code, DisplayMath, End, Event, FootnoteReference, HardBreak, Html, InlineHtml, InlineMath, Rule, SoftBreak, Start, TaskListMarker, Text, merged,
)  # fmt: skip
from ._kinds import Alignment, BlockQuoteKind, CodeBlockKind, Fenced, Indented, LinkType, MetadataBlockKind, WikiLink
from ._library import Options, library_version
from ._lines import Lines, Place
from ._records import Events
from ._stream import Change, Stream
from ._tags import (
    BlockQuote, CodeBlock, DefinitionList, DefinitionListDefinition, DefinitionListTitle, Emphasis, FootnoteDefinition, Heading, Highlight, HtmlBlock,
    Image, Item, Link, List, MetadataBlock, Paragraph, Strikethrough, Strong, Subscript, Superscript, Table, TableCell, TableHead, TableRow, Tag,
)  # fmt: skip

__version__: str = library_version()
__all__ = [
    "Alignment", "BlockQuote", "BlockQuoteEnd", "BlockQuoteKind", "BrokenLink", "BrokenLinkCallback", "Change", "Code", "CodeBlock",
    "CodeBlockEnd", "CodeBlockKind", "DefinitionList", "DefinitionListDefinition", "DefinitionListDefinitionEnd", "DefinitionListEnd",
    "DefinitionListTitle", "DefinitionListTitleEnd", "DisplayMath", "Emphasis", "EmphasisEnd", "End", "Event", "Events", "Fenced",
    "FootnoteDefinition", "FootnoteDefinitionEnd", "FootnoteReference", "HardBreak", "Heading", "HeadingEnd", "Highlight", "HighlightEnd",
    "Html", "HtmlBlock", "HtmlBlockEnd", "Image", "ImageEnd", "Indented", "InlineHtml", "InlineMath", "Item", "ItemEnd", "Lines", "Link",
    "LinkDef", "LinkEnd", "LinkType", "List", "ListEnd", "MetadataBlock", "MetadataBlockEnd", "MetadataBlockKind", "Options", "Paragraph",
    "ParagraphEnd", "Place", "Rule", "SoftBreak", "Start", "Stream", "Strikethrough", "StrikethroughEnd", "Strong", "StrongEnd",
    "Subscript", "SubscriptEnd", "Superscript", "SuperscriptEnd", "Table", "TableCell", "TableCellEnd", "TableEnd", "TableHead", "TableHeadEnd",
    "TableRow", "TableRowEnd", "Tag", "TagEnd", "TaskListMarker", "Text", "WikiLink", "events", "html", "merged", "references", "render",
    "__version__",
]  # fmt: skip
