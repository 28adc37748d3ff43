"""The events of blocks, as mdevents writes them, with one event `["Leaf", stretches]` instead of the content of a leaf."""
import re

from blocks.reading import BLANK_LINE, Reader, start_of
from inlines import letters
from inlines.texts import drop_end, end_place, first_place, indent, is_blank, stretches, without_indent
from inlines.tokens import Stretch


# ## Lists

def ends_blank(block):
    """Whether a blank line ends a container; the blank rest of its marker's line does not count."""
    if block.kind not in ("Item", "DefinitionListDefinition", "FootnoteDefinition") or not block.entries:
        return False
    last = block.entries[-1]
    return len(block.entries) > 1 if last is BLANK_LINE else ends_blank(last)


def parted(entries):
    """Each block, and whether a blank line is between it and the one before it."""
    found, blank = [], False
    for entry in entries:
        if entry is BLANK_LINE:
            blank = True
        else:
            found.append((entry, bool(found) and (blank or ends_blank(found[-1][0]))))
            blank = False
    return found


def is_title(blocks, at):
    return blocks[at][0].kind == "Paragraph" and at + 1 < len(blocks) and blocks[at + 1][0].kind == "DefinitionListDefinition"


def groups(entries):
    """Successive blocks that are one child of their container: items of a list, titles with their definitions, or a single block."""
    blocks, found = parted(entries), []
    for at, (block, is_parted) in enumerate(blocks):
        last = found[-1][1][-1][0] if found else None
        goes_on = last and (
            (block.kind == "Item" and last.kind == "Item" and last.delimiter == block.delimiter) or block.kind == "DefinitionListDefinition"
            or (last.kind == "DefinitionListDefinition" and is_title(blocks, at)))
        if goes_on:
            found[-1][1].append((block, is_parted))
        else:
            kind = "List" if block.kind == "Item" else "DefinitionList" if is_title(blocks, at) else block.kind
            found.append((kind, [(block, is_parted)]))
    return found


def is_loose_inside(block):
    return any(blocks[0][1] for _, blocks in groups(block.entries)[1:])


def is_tight(blocks):
    """There is no blank line between two items or two definitions, between a title and a definition, or between two blocks that one of them
    contains directly."""
    later = [is_parted for block, is_parted in blocks[1:] if block.kind != "Paragraph"]
    return not (any(later) or any(is_loose_inside(block) for block, _ in blocks if block.kind != "Paragraph"))


# ## Headings

def braced(text, found):
    """The identifier, the classes and the other attributes between braces at the end of a heading, and the stretches before them."""
    whole = b"".join(text[s.start:s.end] for s in found)
    braces = re.search(rb"\{[^{}]*\}$", whole)
    if not braces:
        return [None, [], []], found
    name, classes, others = None, [], []
    for word in re.split(rb"[\t\n\f\r ]", braces[0][1:-1]):
        if len(word) > 1 and word.startswith(b"#"):
            name = word[1:].decode()
        elif len(word) > 1 and word.startswith(b"."):
            classes.append(word[1:].decode())
        elif len(word) > 1:
            key, equals, value = word.partition(b"=")
            others.append([key.decode(), value.decode() if equals else None])
    return [name, classes, others], cut(found, len(whole[:braces.start()].rstrip(b" \t\n\r")))


def cut(found, size):
    """The first `size` bytes of some stretches."""
    answer = []
    for s in found:
        answer += [Stretch(s.start, s.start + min(size, s.end - s.start))] if size > 0 else []
        size -= s.end - s.start
    return answer


def atx_stretches(block):
    following = without_indent(without_indent(block.line.columns)[block.level:])
    start = first_place(block.line.content_end, following)
    end = end_place(start, drop_end(is_blank, following))
    return [Stretch(start, end)] if start < end else []


def without_closing_run(text, found):
    whole = b"".join(text[s.start:s.end] for s in found)
    bare = whole.rstrip(b"#")
    words = bare.rstrip(b" \t")
    return cut(found, len(words)) if len(bare) < len(whole) and len(words) < max(1, len(bare)) else found


class Writer:
    """Writes the events of blocks one after the other."""

    def __init__(self, reader):
        self.text, self.flags, self.lookup, self.events = reader.text, reader.flags, reader.lookup, []

    def event(self, start, end, *event):
        self.events.append([[start, end], list(event)])

    def around(self, block, tag, end_data, inside):
        """The start and the end of an element over a range, and between them the events that a function writes."""
        start, end = block
        self.event(start, end, "Start", tag)
        inside()
        self.event(start, end, "End", [tag[0]] + end_data)

    def write(self, entries, in_tight):
        for kind, blocks in groups(entries):
            first, span = blocks[0][0], (blocks[0][0].start, blocks[-1][0].end)
            if kind == "List":
                self.around(span, ["List", first.number], [first.number is not None], lambda b=blocks: self.write_members(b, is_tight(b)))
            elif kind == "DefinitionList":
                self.around(span, ["DefinitionList"], [], lambda b=blocks: self.write_members(b, is_tight(b)))
            else:
                getattr(self, "write_" + kind)(first, span, in_tight)

    def write_members(self, blocks, tight):
        for block, _ in blocks:
            tag = "DefinitionListTitle" if block.kind == "Paragraph" else block.kind
            inside = self.write_text if block.kind == "Paragraph" else lambda b: self.write(b.entries, tight)
            self.around((block.start, block.end), [tag], [], lambda b=block, inside=inside: inside(b))

    # ## Leaves

    def write_leaf(self, found):
        if found:
            self.event(found[0].start, found[-1].end, "Leaf", [[s.start, s.end] for s in found])

    def write_text(self, block):
        self.write_task(block)
        self.write_leaf(stretches(block.rows))

    def write_task(self, block):
        if block.task:
            self.event(block.task[0], block.task[0] + 3, "TaskListMarker", block.task[1])

    def write_Paragraph(self, block, span, in_tight):
        if in_tight:
            self.write_text(block)
        else:
            self.around(span, ["Paragraph"], [], lambda: self.write_text(block))

    def heading(self, block, span, found, task):
        words, found = braced(self.text, found) if "heading-attributes" in self.flags else ([None, [], []], found)
        found = found if block.kind == "SetextHeading" else without_closing_run(self.text, found)
        self.around(span, ["Heading", block.level, *words], [block.level], lambda: [task(), self.write_leaf(found)])

    def write_AtxHeading(self, block, span, _):
        self.heading(block, span, atx_stretches(block), lambda: None)

    def write_SetextHeading(self, block, span, _):
        self.heading(block, span, stretches(block.rows), lambda: self.write_task(block))

    def write_Rule(self, _, span, __):
        self.event(*span, "Rule")

    def write_LinkDefinition(self, *_):
        """Not read."""

    def write_BlockQuote(self, block, span, _):
        self.around(span, ["BlockQuote", block.alert], [block.alert], lambda: self.write(block.entries, False))

    def write_FootnoteDefinition(self, block, span, _):
        self.around(span, ["FootnoteDefinition", block.label.decode()], [], lambda: self.write(block.entries, False))

    # ## Tables

    def write_Table(self, block, span, _):
        self.around(span, ["Table", block.alignments], [], lambda: self.write_rows(block))

    def write_rows(self, block):
        for tag, (row, cells) in [("TableHead", block.head)] + [("TableRow", row) for row in block.rows]:
            self.around((start_of(row), row.line_end), [tag], [], lambda cells=cells: [self.write_cell(*cell) for cell in cells])

    def write_cell(self, start, end):
        bs = self.text[start:end]
        first, last = start + letters.prefix_len(letters.is_blank_byte, bs), start + len(bs.rstrip(b" \t"))
        self.around((start, end), ["TableCell"], [], lambda: self.write_leaf([Stretch(first, last)] if first < last else []))

    # ## Code, metadata and HTML

    def pieces(self, row, count):
        """The parts of a line after up to this number of columns of indent: the remaining spaces of a tab, and the source with its line
        ending."""
        columns = row.columns[min(count, indent(row.columns)):]
        place = first_place(row.content_end, columns)
        spaces = letters.prefix_len(lambda c: c.part > 0, columns)
        ends = [(place, row.content_end), (row.line_end - 1, row.line_end)] if row.line_end - row.content_end == 2 else [(place, row.line_end)]
        return ([(place, place, " " * spaces)] if spaces else []) + [(start, end, None) for start, end in ends if start < end]

    def write_lines(self, found, count):
        joined = []
        for row in found:
            for start, end, spaces in self.pieces(row, count):
                if spaces is None and joined and joined[-1][2] is None and joined[-1][1] == start:
                    joined[-1] = (joined[-1][0], end, None)
                else:
                    joined.append((start, end, spaces))
        for start, end, spaces in joined:
            self.event(start, end, "Text", self.text[start:end].decode() if spaces is None else spaces)

    def write_IndentedCode(self, block, span, _):
        self.around(span, ["CodeBlock", ["Indented"]], [], lambda: self.write_lines(block.rows, 4))

    def write_FencedCode(self, block, span, _):
        info = letters.resolved(self.lookup, block.info).decode()
        self.around(span, ["CodeBlock", ["Fenced", info]], [], lambda: self.write_lines(block.rows, block.indented))

    def write_MetadataBlock(self, block, span, _):
        kind = "YamlStyle" if block.delimiter == b"-" else "PlusesStyle"
        self.around(span, ["MetadataBlock", kind], [kind], lambda: self.write_lines(block.rows, 0))

    def write_HtmlBlock(self, block, span, _):
        self.around(span, ["HtmlBlock"], [], lambda: self.write_html_lines(block))

    def write_html_lines(self, block):
        for row in block.rows:
            for start, end, spaces in self.pieces(row, 0):
                self.event(start, end, *(["Html", self.text[start:end].decode()] if spaces is None else ["Text", spaces]))


def block_events(text, flags, lookup=letters.basic_entity):
    """The events of a text's blocks with their ranges."""
    reader = Reader(text, frozenset(flags), lookup)
    writer = Writer(reader)
    writer.write(reader.read().entries, False)
    return writer.events
