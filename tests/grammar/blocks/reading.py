"""From line to line: the containers that continue, the open leaf that continues, and the blocks that a line begins."""
from blocks import openings
from blocks.openings import bytes_of, is_blank_row, without
from inlines import labels, letters
from inlines.texts import first_place, indent, rows, without_indent, words_of

FILLED_CELLS = 262144
BLANK_LINE = "a blank line"


class Block:
    """A block: its kind, its range, the content of a container, and data by name."""

    def __init__(self, kind, start, end, **data):
        self.kind, self.start, self.end, self.entries = kind, start, end, []
        self.__dict__.update(data)


def begin_of(row):
    return first_place(row.content_end, row.columns)


def start_of(row):
    return first_place(row.content_end, without_indent(row.columns))


class Reader:
    """The open containers, the outermost first, and the open leaf of the innermost one."""

    def __init__(self, text, flags, lookup):
        self.text, self.lookup = text, lookup
        self.flags = flags | {"footnotes"} if "old-footnotes" in flags else flags
        self.rows = rows(text, 0)
        self.document = Block("Document", 0, len(text))
        self.open, self.leaf = [self.document], None
        # a lazy line may begin a paragraph: directly after a link reference definition or the tag of an alert
        self.may_begin_lazily = False

    def read(self):
        """The document."""
        at = 0
        while at < len(self.rows):
            at = self.line(at)
        return self.document

    # ## Prefixes

    def kept(self, container, row, is_second):
        """A later line after a container's prefix; None if it lacks the prefix. The second line of a container may not be blank if the
        first one was."""
        if container.kind == "BlockQuote":
            width = openings.block_quote_width(row)
            return without(row, width) if width else None
        if container.kind == "FootnoteDefinition" and "old-footnotes" in self.flags:
            return None if is_blank_row(row) else row
        if container.is_bare and is_second and is_blank_row(row):
            return None
        return without(row, container.width) if is_blank_row(row) or indent(row.columns) >= container.width else None

    def ahead(self, at, containers):
        """The lines after this one, as they are inside these containers, up to the first that lacks a prefix."""
        for later, row in enumerate(self.rows[at + 1:]):
            for container in containers:
                row = self.kept(container, row, later == 0 and container.lines == 1)
                if row is None:
                    return
            yield row

    def extend(self, line_end, lines=1):
        for container in self.open[1:]:
            container.end = line_end
            container.lines += lines

    # ## Tables

    def words(self, row):
        return self.text[start_of(row):row.content_end]

    def table_alignments(self, row, ahead):
        """The alignments of the table that a line begins together with the next one; none if it begins no table."""
        if "tables" not in self.flags or not openings.pipes_in(self.words(row)):
            return []
        later = next(ahead, None)
        if later is None or indent(later.columns) > 3:
            return []
        found = openings.alignments_in(self.words(later)) or []
        return found if len(found) == len(openings.cells_in(self.words(row))) else []

    def cells(self, row):
        start = start_of(row)
        return [(start + begin, start + end) for begin, end in openings.cells_in(self.words(row))]

    # ## What interrupts a paragraph or a table

    def item_interrupts(self, marker, row, is_same, in_table):
        _, number, width = marker
        return not is_same or in_table or (number in (None, 1) and not is_blank_row(without(row, width)))

    def interrupts(self, row, ahead, is_same=True, in_table=False, may_define=True):
        """Whether a line interrupts. is_same: the paragraph is in the same container as the line; may_define: a definition may begin."""
        if is_blank_row(row) or indent(row.columns) > 3:
            return is_blank_row(row)
        words, marker = words_of(row.columns), openings.list_marker(row)
        footnotes = "footnotes" in self.flags and "old-footnotes" not in self.flags
        return bool(
            (marker and self.item_interrupts(marker, row, is_same, in_table))
            or (footnotes and openings.footnote_label(row))
            or (may_define and "definition-list" in self.flags and openings.definition_width(row))
            or openings.block_quote_width(row) or openings.is_thematic_break(words) or openings.heading_level(words) or openings.fence_of(words)
            or 1 <= openings.html_kind(words) <= 6
            or (not in_table and words.startswith(b"|") and self.table_alignments(row, ahead)))

    # ## One line

    def line(self, at):
        """Reads a line, and the lines of a leaf that it begins. Returns the index of the next line to be read."""
        row, depth = self.rows[at], 1
        for container in self.open[1:]:
            rest = self.kept(container, row, container.lines == 1)
            if rest is None:
                break
            row, depth = rest, depth + 1
        may_begin, self.may_begin_lazily = self.may_begin_lazily, False
        if depth < len(self.open):
            if self.goes_on_lazily(row, at, depth, may_begin):
                return at + 1
            self.leaf = None
            del self.open[depth:]
        self.extend(row.line_end)
        if self.leaf is not None:
            feed = getattr(self, "feed_" + self.leaf.kind)
            if feed(row, at):
                return at + 1
            self.leaf = None
        return self.begin(row, at)

    def goes_on_lazily(self, row, at, depth, may_begin):
        """A line that lacks a prefix continues an open paragraph or, if a paragraph may begin here, begins one."""
        is_paragraph = self.leaf is not None and self.leaf.kind == "Paragraph"
        may_define = self.open[depth].kind == "DefinitionListDefinition"
        if not (is_paragraph or may_begin) or self.interrupts(row, self.ahead(at, self.open[1:depth]), False, False, may_define):
            return False
        self.extend(row.line_end)
        if is_paragraph:
            self.leaf.rows.append(row)
            self.leaf.end = row.line_end
        else:
            self.begin_paragraph(row)
        return True

    # ## Open leaves: whether a line belongs to them

    def feed_Paragraph(self, row, at):
        level = openings.underline_level(row)
        if level:
            self.leaf.kind, self.leaf.level, self.leaf.end = "SetextHeading", level, row.line_end
            self.leaf = None
        elif self.interrupts(row, self.ahead(at, self.open[1:])):
            return False
        else:
            self.leaf.rows.append(row)
            self.leaf.end = row.line_end
        return True

    def feed_FencedCode(self, row, _):
        words, fence = words_of(row.columns), self.leaf
        run_length = letters.prefix_len(lambda b: b == fence.delimiter, words)
        fence.end = row.line_end
        if indent(row.columns) <= 3 and run_length >= fence.run_length and not openings.trimmed(words[run_length:]):
            self.leaf = None
        else:
            fence.rows.append(row)
        return True

    def feed_IndentedCode(self, row, _):
        if is_blank_row(row):
            self.leaf.waiting.append(row)
            self.open[-1].entries.append(BLANK_LINE)
            return True
        if indent(row.columns) < 4:
            return False
        del self.open[-1].entries[len(self.open[-1].entries) - len(self.leaf.waiting):]
        self.leaf.rows += self.leaf.waiting + [row]
        self.leaf.waiting, self.leaf.end = [], row.line_end
        return True

    def feed_HtmlBlock(self, row, _):
        if self.leaf.html_kind >= 6 and is_blank_row(row):
            return False
        self.leaf.rows.append(row)
        self.leaf.end = row.line_end
        if self.leaf.html_kind <= 5 and openings.holds_html_end(self.leaf.html_kind, bytes_of(row.columns)):
            self.leaf = None
        return True

    def feed_MetadataBlock(self, row, _):
        self.leaf.end = row.line_end
        if openings.ends_metadata(self.leaf.delimiter, row):
            self.leaf = None
        else:
            self.leaf.rows.append(row)
        return True

    def feed_Table(self, row, _):
        table, cells = self.leaf, self.cells(row)
        missing = max(0, len(table.alignments) - len(cells))
        if self.interrupts(row, iter(()), in_table=True, may_define=False) or table.filled + missing > FILLED_CELLS:
            return False
        table.filled += missing
        table.rows.append((row, cells[:len(table.alignments)] + [(row.line_end, row.line_end)] * missing))
        table.end = row.line_end
        return True

    # ## The blocks that a line begins

    def put(self, kind, start, row, **data):
        block = Block(kind, start, row.line_end, **data)
        self.open[-1].entries.append(block)
        return block

    def enter(self, kind, start, row, width, **data):
        """A container begins; the rest of its first line."""
        rest = without(row, width)
        self.open.append(self.put(kind, start, row, width=width, lines=1, is_bare=is_blank_row(rest), **data))
        return rest

    def begin_paragraph(self, row, task=None):
        self.leaf = self.put("Paragraph", start_of(row), row, rows=[row], task=task)

    def begin(self, row, at):
        """Begins the blocks of a line that lacks no prefix. Returns the index of the next line to be read."""
        delimiter = openings.metadata_delimiter(row, self.flags) if len(self.open) == 1 and row is self.rows[at] else None
        if delimiter and self.holds_metadata(delimiter, self.rows[at + 1:]):
            self.leaf = self.put("MetadataBlock", start_of(row), row, rows=[], delimiter=delimiter)
            return at + 1
        while not is_blank_row(row) and indent(row.columns) < 4:
            rest = self.begin_container(row)
            if rest is None:
                return at + 1 if self.begin_leaf(row) else self.begin_text(row, at)
            row = rest
            if self.may_begin_lazily or self.leaf is not None:
                return at + 1
        if is_blank_row(row):
            self.open[-1].entries.append(BLANK_LINE)
        else:
            self.leaf = self.put("IndentedCode", first_place(row.content_end, row.columns[4:]), row, rows=[row], waiting=[])
        return at + 1

    def holds_metadata(self, delimiter, later):
        begins = later and not is_blank_row(later[0]) and not openings.ends_metadata(delimiter, later[0])
        return begins and any(openings.ends_metadata(delimiter, row) for row in later)

    def begin_container(self, row):
        """The rest of the line after the marker of a container that it begins, including an alert's tag or a task marker; None if it begins
        none."""
        footnote = openings.footnote_label(row) if "footnotes" in self.flags else None
        if footnote:
            rest = self.enter("FootnoteDefinition", start_of(row), row, footnote[1], label=footnote[0])
            self.open[-1].width, self.open[-1].is_bare = 4, False
            return rest
        marker = openings.list_marker(row)
        if marker:
            return self.begin_item(row, marker)
        if "definition-list" in self.flags and openings.definition_width(row) and self.last_sibling() in ("Paragraph", "DefinitionListDefinition"):
            return self.enter("DefinitionListDefinition", begin_of(row), row, openings.definition_width(row))
        width = openings.block_quote_width(row)
        if not width:
            return None
        alert = openings.alert_kind(without(row, width)) if "gfm" in self.flags else None
        self.may_begin_lazily = alert is not None
        return self.enter("BlockQuote", start_of(row), row, width, alert=alert)

    def begin_item(self, row, marker):
        delimiter, number, width = marker
        rest = self.enter("Item", begin_of(row), row, width, delimiter=delimiter, number=number)
        is_checked = openings.task_marker(rest) if "tasklists" in self.flags else None
        if is_checked is not None:
            self.begin_paragraph(without(rest, 3), (begin_of(rest), is_checked))
        return rest

    def last_sibling(self):
        return next((entry.kind for entry in reversed(self.open[-1].entries) if entry is not BLANK_LINE), None)

    def begin_leaf(self, row):
        """Whether the line begins a leaf that is recognized by this line alone."""
        words, start = words_of(row.columns), start_of(row)
        kind = openings.html_kind(words)
        if kind:
            block = self.put("HtmlBlock", begin_of(row), row, rows=[row], html_kind=kind)
            self.leaf = None if kind <= 5 and openings.holds_html_end(kind, words) else block
        elif openings.is_thematic_break(words):
            self.put("Rule", start, row)
        elif openings.heading_level(words):
            self.put("AtxHeading", start, row, line=row, level=openings.heading_level(words))
        elif openings.fence_of(words):
            delimiter, run_length, info = openings.fence_of(words)
            self.leaf = self.put("FencedCode", start, row, rows=[], delimiter=delimiter, run_length=run_length, info=info, indented=indent(row.columns))
        else:
            return False
        return True

    def begin_text(self, row, at):
        """A link reference definition, a table or a paragraph."""
        more = self.definition_lines(row, at)
        if more is not None:
            self.put("LinkDefinition", start_of(row), self.rows[at + more])
            self.extend(self.rows[at + more].line_end, more)
            self.may_begin_lazily = True
            return at + 1 + more
        alignments = self.table_alignments(row, self.ahead(at, self.open[1:]))
        if alignments:
            self.leaf = self.put("Table", start_of(row), self.rows[at + 1], alignments=alignments, head=(row, self.cells(row)), rows=[], filled=0)
            self.extend(self.leaf.end)
            return at + 2
        self.begin_paragraph(row)
        return at + 1

    def definition_lines(self, row, at):
        """The number of further lines of a link reference definition; None if none begins."""
        whole = words_of(row.columns)
        if not whole.startswith(b"["):
            return None
        later = list(self.ahead(at, self.open[1:]))
        lines = 0
        while lines < len(later) and not self.interrupts(later[lines], iter(later[lines + 1:])) and not openings.underline_level(later[lines]):
            before = later[lines - 1] if lines else row
            whole += (b"\r\n" if before.line_end - before.content_end == 2 else b"\n") + bytes_of(later[lines].columns)
            lines += 1
        found = labels.definition_in(whole)
        is_footnote = found and "footnotes" in self.flags and found.label.startswith(b"^") and len(found.label) > 1
        return None if found is None or is_footnote else lines - found.following.count(b"\n")
