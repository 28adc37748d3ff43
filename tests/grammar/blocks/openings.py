"""The block that a line begins, by its columns after the prefixes of the containers around it."""
import re

from inlines import labels, letters
from inlines.texts import indent, is_blank, without_indent, words_of

RAW_NAMES = (b"pre", b"script", b"style", b"textarea")
BLOCK_NAMES = set(b"""address article aside base basefont blockquote body caption center col colgroup dd details dialog dir div dl dt
fieldset figcaption figure footer form frame frameset h1 h2 h3 h4 h5 h6 head header hr html iframe legend li link main menu menuitem
nav noframes ol optgroup option p param search section summary table tbody td tfoot th thead title tr track ul""".split())
HTML_ENDS = {1: [b"</" + name + b">" for name in RAW_NAMES], 2: [b"-->"], 3: [b"?>"], 4: [b">"], 5: [b"]]>"]}
ALERTS = {b"[!note]": "Note", b"[!tip]": "Tip", b"[!important]": "Important", b"[!warning]": "Warning", b"[!caution]": "Caution"}
LIST_MARKER = re.compile(rb"([-+*])|(\d{1,9})([.)])")
BLANKS = b" \t"


def bytes_of(columns):
    return bytes(c.byte for c in columns if c.part == 0)


def is_blank_row(row):
    return not without_indent(row.columns)


def without(row, count):
    return row._replace(columns=row.columns[count:])


def trimmed(bs):
    return bs.strip(BLANKS)


def is_parted(bs):
    return bs[:1] in (b"", b" ", b"\t")


# ## Leaves

def is_thematic_break(words):
    bare = words.replace(b" ", b"").replace(b"\t", b"")
    return len(bare) >= 3 and bare[:1] in (b"*", b"-", b"_") and bare == bare[:1] * len(bare)


def heading_level(words):
    """The level of an ATX heading; 0 if the line is not an ATX heading."""
    level = letters.prefix_len(lambda b: b == 35, words)
    return level if 1 <= level <= 6 and is_parted(words[level:]) else 0


def underline_level(row):
    """The level that a setext heading underline gives; 0 if the line is not an underline."""
    bare = words_of(row.columns).rstrip(BLANKS)
    is_one_run = bare[:1] in (b"=", b"-") and bare == bare[:1] * len(bare)
    return 0 if indent(row.columns) > 3 or not is_one_run else 1 if bare[:1] == b"=" else 2


def fence_of(words):
    """The character of a code fence, its length, and the info string."""
    for delimiter in b"`~":
        run_length = letters.prefix_len(lambda b, delimiter=delimiter: b == delimiter, words)
        if run_length >= 3 and not (delimiter == 96 and b"`" in words[run_length:]):
            return delimiter, run_length, trimmed(words[run_length:])
    return None


def cut_name(bs):
    size = letters.prefix_len(letters.is_alphanumeric, bs)
    return bs[:size], bs[size:]


def is_lone_tag(words):
    rest = letters.after_tag(words)
    name = words[1:].lower().removeprefix(b"/")
    name = name[:letters.prefix_len(letters.is_name_byte, name)]
    return rest is not None and not trimmed(rest) and name not in RAW_NAMES


def html_kind(words):
    """The kind of an HTML block, 1 to 7; 0 if the line begins no HTML block."""
    if not words.startswith(b"<"):
        return 0
    bs = words[1:].lower()
    name, following = cut_name(bs)
    if name in RAW_NAMES and (is_parted(following) or following.startswith(b">")):
        return 1
    for kind, start in ((2, b"!--"), (3, b"?"), (5, b"![cdata[")):
        if bs.startswith(start) and (kind != 5 or words.startswith(b"<![CDATA[")):
            return kind
    if bs.startswith(b"!") and letters.first_is(letters.is_letter, bs[1:]):
        return 4
    name, following = cut_name(bs.removeprefix(b"/"))
    if name in BLOCK_NAMES and (is_parted(following) or following.startswith((b">", b"/>"))):
        return 6
    return 7 if is_lone_tag(words) else 0


def holds_html_end(kind, bs):
    return any(end in (bs.lower() if kind == 1 else bs) for end in HTML_ENDS[kind])


# ## Containers

def width_after(row, size):
    """The columns of a prefix: the indent, a marker of this size, and the blanks after it, of which only one counts if there are five or
    more."""
    before = indent(row.columns) + size
    blanks = indent(row.columns[before:])
    return before + (1 if before + blanks == len(row.columns) or blanks >= 5 else blanks)


def list_marker(row):
    """The delimiter of a list item, its number and the width of its prefix."""
    words = words_of(row.columns)
    found = LIST_MARKER.match(words)
    if not found or indent(row.columns) > 3 or is_thematic_break(words) or not is_parted(words[found.end():]):
        return None
    return found[1] or found[3], None if found[2] is None else int(found[2]), width_after(row, len(found[0]))


def definition_width(row):
    """The width of the prefix of a definition; 0 if there is no marker."""
    return width_after(row, 1) if indent(row.columns) <= 3 and words_of(row.columns).startswith(b":") else 0


def block_quote_width(row):
    """The width of a block quote's prefix; 0 if there is no marker."""
    if indent(row.columns) > 3 or not words_of(row.columns).startswith(b">"):
        return 0
    following = indent(row.columns) + 1
    return following + (following < len(row.columns) and is_blank(row.columns[following]))


def footnote_label(row):
    """The label of a footnote definition, and the columns of its marker with the blanks after it."""
    words = words_of(row.columns)
    label = labels.label_in(words[2:]) if indent(row.columns) <= 3 and words.startswith(b"[^") else None
    if label is None or not label.following.startswith(b":"):
        return None
    following = indent(row.columns) + len(without_indent(row.columns)) - len(columns_after(row, len(words) - len(label.following) + 1))
    return labels.normal_form(label.bytes), following + indent(row.columns[following:])


def columns_after(row, size):
    """The columns after the first `size` bytes of a line's words."""
    firsts = [n for n, c in enumerate(without_indent(row.columns)) if c.part == 0] + [len(without_indent(row.columns))]
    return without_indent(row.columns)[firsts[size]:]


def task_marker(row):
    """Whether the box at the start is checked; None if there is no task marker."""
    bs = bytes_of(row.columns) if row.columns and row.columns[0].part == 0 else b""
    if bs[:3] in (b"[ ]", b"[x]", b"[X]") and bs[3:4] in (b" ", b"\t") and trimmed(bs[3:]):
        return bs[:3] != b"[ ]"
    return None


def alert_kind(row):
    is_tag = row.columns and not is_blank(row.columns[0])
    return ALERTS.get(bytes_of(row.columns).rstrip(BLANKS).lower()) if is_tag else None


# ## Metadata

def metadata_delimiter(row, flags):
    """The byte of the lines around metadata that begins here, if its option is on."""
    bs = bytes_of(row.columns).rstrip(BLANKS)
    return {b"---": b"-" if "yaml-metadata" in flags else None, b"+++": b"+" if "plus-metadata" in flags else None}.get(bs)


def ends_metadata(delimiter, row):
    bs = bytes_of(row.columns).rstrip(BLANKS)
    return bs == delimiter * 3 or (delimiter == b"-" and bs == b"...")


# ## Tables

def pipes_in(bs):
    """The offsets of the pipes that do not come after a backslash."""
    return [at for at, b in enumerate(bs) if b == 124 and bs[at - 1:at] != b"\\"]


def cells_in(bs):
    """The cells of a row without its indent, from pipe to pipe: the start and the end (exclusive) of each."""
    end = len(bs.rstrip(BLANKS))
    begin = 1 if bs.startswith(b"|") else 0
    pipes = [at for at in pipes_in(bs) if begin <= at < end]
    if begin >= end:
        return []
    ends = pipes if pipes and pipes[-1] == end - 1 else pipes + [len(bs)]
    return list(zip([begin] + [at + 1 for at in pipes], ends))


def alignments_in(bs):
    """The alignments of a delimiter row; None if the line is not a delimiter row."""
    cells = [trimmed(bs[start:end]) for start, end in cells_in(bs)]
    if not pipes_in(bs) or not all(re.fullmatch(rb":?-+:?", cell) for cell in cells):
        return None
    names = {(True, True): "Center", (True, False): "Left", (False, True): "Right", (False, False): "None"}
    return [names[cell.startswith(b":"), cell.endswith(b":")] for cell in cells]
