"""The definitions that depend on bytes alone: those of Lines, Columns, Letters, CodeSpans, LineBreaks, Dashes, Tags, InlineHtml, Autolinks
and Entities, and those of Tokens that resolve escapes and entities. If a definition has no value, the result is None.
"""
import html.entities
from typing import NamedTuple


def prefix_len(passes, bs):
    """The number of bytes at the start that pass."""
    return next((n for n, b in enumerate(bs) if not passes(b)), len(bs))


# ## Columns, Lines and Letters

def is_blank_byte(b):
    return b in b" \t"


def is_content(b):
    return b not in b"\n\r"


def ends_line(b, bs):
    return b == 10 or (b == 13 and not bs.startswith(b"\n"))


def lines(text):
    """The text cut after each line ending; each line keeps its own."""
    cut, start = [], 0
    for at, b in enumerate(text):
        if ends_line(b, text[at + 1:at + 2]):
            cut.append(text[start:at + 1])
            start = at + 1
    return cut + ([text[start:]] if start < len(text) else [])


def content(line):
    return line[:prefix_len(is_content, line)]


def lower(b):
    return b + 32 if 65 <= b <= 90 else b


def is_letter(b):
    return 97 <= lower(b) <= 122


def is_number(b):
    return 48 <= b <= 57


def is_alphanumeric(b):
    return is_letter(b) or is_number(b)


def first_is(passes, bs):
    return bool(bs) and passes(bs[0])


def after_while(passes, bs):
    return bs[prefix_len(passes, bs):]


def after_start_of(prefix, bs):
    return bs[len(prefix):] if bs.startswith(prefix) else None


def after_first_of(closer, bs):
    at = bs.find(closer)
    return None if at < 0 else bs[at + len(closer):]


def after_if(passes, bs):
    return bs[1:] if first_is(passes, bs) else None


def and_then(part, use):
    return None if part is None else use(part)


def after_leading_blanks(bs):
    return after_while(is_blank_byte, bs)


class Parsed(NamedTuple):
    bytes: bytes
    following: bytes


# ## Entities, and texts without escapes and entities

def is_punctuation(b):
    return 33 <= b <= 47 or 58 <= b <= 64 or 91 <= b <= 96 or 123 <= b <= 126


class Entity(NamedTuple):
    bytes: bytes
    size: int


def character(n):
    return chr(n).encode() if 0 < n <= 1114111 and not 55296 <= n <= 57343 else "\ufffd".encode()


def is_hexadecimal(b):
    return is_number(b) or 97 <= lower(b) <= 102


def numeric(base, most, size, digits, following):
    if 0 < len(digits) <= most and following.startswith(b";"):
        return Entity(character(int(digits, base)), len(digits) + size)
    return None


def hexadecimal_in(bs):
    n = prefix_len(is_hexadecimal, bs)
    return numeric(16, 6, 4, bs[:n], bs[n:])


def decimal_in(bs):
    n = prefix_len(is_number, bs)
    return numeric(10, 7, 3, bs[:n], bs[n:])


def numeric_in(bs):
    return hexadecimal_in(bs[1:]) if bs[:1] in (b"x", b"X") else decimal_in(bs)


def named(lookup, name, following):
    found = lookup(name) if name and following.startswith(b";") else None
    return None if found is None else Entity(found, len(name) + 2)


def named_in(lookup, bs):
    n = prefix_len(is_alphanumeric, bs)
    return named(lookup, bs[:n], bs[n:])


def entity_in(lookup, bs):
    return numeric_in(bs[1:]) if bs.startswith(b"#") else named_in(lookup, bs)


BASIC = {"amp": "&", "lt": "<", "gt": ">", "quot": '"', "apos": "'", "nbsp": "\u00a0", "copy": "\u00a9", "reg": "\u00ae",
         "hellip": "\u2026", "mdash": "\u2014", "ndash": "\u2013"}


def basic_entity(name):
    found = BASIC.get(name.decode())
    return None if found is None else found.encode()


def html_entity(name):
    """All names of HTML: those that share/entities.json has."""
    found = html.entities.html5.get(name.decode() + ";")
    return None if found is None else found.encode()


def resolved(lookup, bs):
    """A backslash before punctuation is dropped, and an entity is replaced by its text."""
    answer, at, escaped = b"", 0, False
    while at < len(bs):
        b, following = bs[at], bs[at + 1:]
        entity = entity_in(lookup, following) if not escaped and b == 38 else None
        if entity is not None:
            answer += entity.bytes
            at += entity.size
        elif not escaped and b == 92 and first_is(is_punctuation, following):
            escaped = True
            at += 1
            continue
        else:
            answer += bytes([b])
            at += 1
        escaped = False
    return answer


def with_escaped_pipes(bs):
    """Without the backslash directly before an escaped pipe."""
    return b"".join(bs[at:at + 1] for at in range(len(bs)) if not bs[at:].startswith(b"\\\\|"))


def unescaped(lookup, is_in_table, bs):
    return resolved(lookup, with_escaped_pipes(bs) if is_in_table else bs)


def title_lines(bs):
    """Each line ending and the blanks after it become one line feed."""
    answer, preceding = [], False
    for at, b in enumerate(bs):
        if ends_line(b, bs[at + 1:at + 2]):
            answer.append(10)
            preceding = True
        elif not (preceding and is_blank_byte(b)):
            preceding = False
            if b != 13:
                answer.append(b)
    return bytes(answer)


# ## Pipes in cells: of InlineTokens and LabelsOverLines

PIPED = b"\\|"


def without_pipe_escapes(bs):
    """Without each backslash directly before a pipe."""
    return b"".join(bs[at:at + 1] for at in range(len(bs)) if not bs[at:].startswith(PIPED))


def with_literal_pipes(bs):
    """Without the backslash of each `\\|`, and without both of each `\\\\|`, if backslashes are read from the left in pairs."""
    kept, is_second = bytearray(), False
    for at, b in enumerate(bs):
        if is_second or not bs[at:].startswith((PIPED, b"\\" + PIPED)):
            kept.append(b)
            is_second = not is_second and bs[at:].startswith(b"\\\\")
    return bytes(kept)


# ## CodeSpans, LineBreaks and Dashes

def is_backtick(b):
    return b == 96


def backticks(bs):
    return prefix_len(is_backtick, bs)


def up_to_run(size, bs):
    """Up to the first run of exactly this number of backticks."""
    goes_on = False
    for at, b in enumerate(bs):
        if is_backtick(b) and not goes_on and backticks(bs[at:]) == size:
            return Parsed(bs[:at], bs[at:])
        goes_on = is_backtick(b)
    return None


def code_in(bs):
    size = backticks(bs)
    if size == 0:
        return None
    return and_then(up_to_run(size, after_while(is_backtick, bs)), lambda found: Parsed(found.bytes, found.following[size:]))


def with_line_ends(mark, bs):
    answer = b""
    for at, b in enumerate(bs):
        if ends_line(b, bs[at + 1:at + 2]):
            answer += mark
        elif b != 13:
            answer += bytes([b])
    return answer


def without_padding(bs):
    is_padded = bs.startswith(b" ") and bs.endswith(b" ") and any(b != 32 for b in bs)
    return bs[1:-1] if is_padded else bs


def code_text(bs):
    return without_padding(with_line_ends(b" ", bs))


class LineBreak(NamedTuple):
    is_hard: bool
    before: int
    following: bytes


def backslash_break_in(bs):
    return and_then(and_then(after_if(lambda b: b == 92, bs), after_ending), lambda following: LineBreak(True, 0, following))


def blank_break(blanks, following):
    return LineBreak(True, 0, following) if blanks.endswith(b"  ") else LineBreak(False, len(blanks), following)


def blank_break_in(bs):
    return and_then(after_ending(after_leading_blanks(bs)), lambda following: blank_break(bs[:prefix_len(is_blank_byte, bs)], following))


def dashes_of(n):
    """Some em dashes, and then some en dashes."""
    if n % 3 == 0:
        return n // 3, 0
    if n % 2 == 0:
        return 0, n // 2
    return ((n - 2) // 3, 1) if n % 3 == 2 else ((n - 4) // 3, 2)


def dash_text(dashes):
    return ("\u2014" * dashes[0] + "\u2013" * dashes[1]).encode()


# ## Tags, on lines without prefixes

def is_name_byte(b):
    return is_alphanumeric(b) or b == 45


def is_attribute_start(b):
    return is_letter(b) or b in b"_:"


def is_attribute_byte(b):
    return is_alphanumeric(b) or b in b"_:.-"


def is_space_byte(b):
    return is_blank_byte(b) or not is_content(b)


def is_value_byte(b):
    return not is_space_byte(b) and b not in b"\"'<=>`"


def after_ending(bs):
    if bs.startswith(b"\r\n"):
        return bs[2:]
    return bs[1:] if bs[:1] in (b"\n", b"\r") else None


def after_tag_name(bs):
    return and_then(after_if(is_letter, bs), lambda rest: after_while(is_name_byte, rest))


def after_attribute_name(bs):
    return and_then(after_if(is_attribute_start, bs), lambda rest: after_while(is_attribute_byte, rest))


def after_bare_value(bs):
    return and_then(after_if(is_value_byte, bs), lambda rest: after_while(is_value_byte, rest))


def after_greater(bs):
    return after_start_of(b">", bs)


def after_open_end(bs):
    return after_greater(bs[1:] if bs.startswith(b"/") else bs)


def after_closing_tag(bs):
    return and_then(after_tag_name(bs), lambda rest: after_greater(after_leading_blanks(rest)))


def after_space(bs):
    """After blanks with at most one line ending."""
    here = after_leading_blanks(bs)
    line = after_ending(here)
    return here if line is None else after_leading_blanks(line)


def after_value(bs):
    return after_first_of(bs[:1], bs[1:]) if bs[:1] in (b'"', b"'") else after_bare_value(bs)


def after_assigned(name, bs):
    return after_value(after_space(bs[1:])) if bs.startswith(b"=") else name


def after_attribute(bs):
    if not first_is(is_space_byte, bs):
        return None
    return and_then(after_attribute_name(after_space(bs)), lambda name: after_assigned(name, after_space(name)))


def after_attributes(bs):
    rest = after_attribute(bs)
    return bs if rest is None else after_attributes(rest)


def after_open_tag(bs):
    return and_then(after_tag_name(bs), lambda rest: after_open_end(after_space(after_attributes(rest))))


def after_tag_start(bs):
    return after_closing_tag(bs[1:]) if bs.startswith(b"/") else after_open_tag(bs)


def after_tag(bs):
    return and_then(after_start_of(b"<", bs), after_tag_start)


# ## InlineHtml and Autolinks

def takes_lines(bs):
    return b"\n" in bs or b"\r" in bs


def after_comment(bs):
    for closer in (b">", b"->"):
        if bs.startswith(closer):
            return bs[len(closer):]
    return after_first_of(b"-->", bs)


def after_opened(bs):
    """After the construct that `<!` opens, if it opens one that is closed."""
    if bs.startswith(b"--"):
        return after_comment(bs[2:])
    if first_is(is_letter, bs):
        return after_first_of(b">", bs[1:])
    return after_first_of(b"]]>", bs[7:]) if bs.startswith(b"[CDATA[") else None


def after_markup(bs):
    if bs.startswith(b"<!"):
        return after_opened(bs[2:])
    return after_first_of(b"?>", bs[2:]) if bs.startswith(b"<?") else None


def is_scheme_byte(b):
    return is_alphanumeric(b) or b in b"+-."


def has_scheme(bs):
    n = prefix_len(is_scheme_byte, bs)
    return first_is(is_letter, bs) and 2 <= n <= 32 and bs[n:n + 1] == b":"


def is_uri_byte(b):
    return not (b <= 32 or b in b"\x7f<>")


def is_local_byte(b):
    return is_alphanumeric(b) or b in b".!#$%&'*+/=?^_`{|}~-"


def is_domain_label(bs):
    return 1 <= len(bs) <= 63 and all(is_alphanumeric(b) or b == ord("-") for b in bs) and bs[:1] != b"-" and bs[-1:] != b"-"


def is_domain(bs):
    return all(is_domain_label(label) for label in bs.split(b"."))


def is_email(bs):
    n = prefix_len(is_local_byte, bs)
    return n >= 1 and bs[n:n + 1] == b"@" and is_domain(bs[n + 1:])


def has_address(emails, bs):
    return has_scheme(bs) or (emails and is_email(bs[:prefix_len(is_uri_byte, bs)]))


def autolink_in(emails, bs):
    if not has_address(emails, bs):
        return None
    n = prefix_len(is_uri_byte, bs)
    return Parsed(bs[:n], bs[n + 1:]) if bs[n:n + 1] == b">" else None
