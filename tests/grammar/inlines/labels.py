"""Labels, destinations and titles: the definitions of LinkDefinitions, Labels, Destinations and LinkTails."""
from typing import NamedTuple

from inlines.letters import (Parsed, and_then, after_leading_blanks, after_ending, after_start_of, is_content, resolved,
                             title_lines)


# ## LinkDefinitions

def escapes_next(escaped, b):
    return not escaped and b == 92


def up_to(closer, refused, over_lines, bs):
    """Up to the closer that no backslash escapes."""
    escaped = False
    for at, b in enumerate(bs):
        if not escaped and b == closer:
            return Parsed(bs[:at], bs[at + 1:])
        if (not escaped and b == refused) or (not over_lines and b in b"\n\r"):
            return None
        escaped = escapes_next(escaped, b)
    return None


def is_ascii_whitespace(b):
    return b in b"\t\n\f\r "


def characters(bs):
    return sum(b < 128 or b >= 192 for b in bs)


def is_label(bs):
    return characters(bs) <= 999 and any(not is_ascii_whitespace(b) for b in bs)


def label_in(bs):
    found = up_to(93, 91, True, bs)
    return found if found is not None and is_label(found.bytes) else None


def ends_bare(b):
    return b <= 32 or b == 127


def depth_after(escaped, depth, b):
    if escaped:
        return depth
    return depth + 1 if b == 40 else max(0, depth - 1) if b == 41 else depth


def bare_in(bs):
    """A bare destination: its parentheses are balanced or escaped, at most 32 deep."""
    escaped, depth = False, 0
    for at, b in enumerate(bs):
        if ends_bare(b) or (not escaped and b == 41 and depth == 0):
            return Parsed(bs[:at], bs[at:]) if depth == 0 else None
        if not escaped and b == 40 and depth >= 32:
            return None
        escaped, depth = escapes_next(escaped, b), depth_after(escaped, depth, b)
    return Parsed(bs, b"") if depth == 0 else None


def nonempty(found):
    return found if found is not None and found.bytes else None


def destination_in(bs):
    if not bs:
        return None
    return up_to(62, 60, False, bs[1:]) if bs[0] == 60 else nonempty(bare_in(bs))


def title_in(bs):
    if bs[:1] in (b'"', b"'"):
        return up_to(bs[0], bs[0], True, bs[1:])
    return up_to(41, 40, True, bs[1:]) if bs.startswith(b"(") else None


def after_separator(bs):
    """After blanks with at most one line ending."""
    here = after_leading_blanks(bs)
    line = after_ending(here)
    return here if line is None else after_leading_blanks(line)


def is_line_done(bs):
    rest = after_leading_blanks(bs)
    return not rest or not is_content(rest[0])


class Defined(NamedTuple):
    label: bytes
    destination: bytes
    title: bytes
    following: bytes


def untitled(label, destination):
    return Defined(label, destination.bytes, None, destination.following) if is_line_done(destination.following) else None


def titled(label, destination, title):
    if title is None:
        return untitled(label, destination)
    if len(after_separator(destination.following)) < len(destination.following) and is_line_done(title.following):
        return Defined(label, destination.bytes, title.bytes, title.following)
    return untitled(label, destination)


def with_destination(label, destination):
    return and_then(destination, lambda d: titled(label, d, title_in(after_separator(d.following))))


def after_colon(label):
    return with_destination(label.bytes, destination_in(after_separator(label.following[1:]))) if label.following.startswith(b":") else None


def definition_in(bs):
    return and_then(label_in(bs[1:]), after_colon) if bs.startswith(b"[") else None


# ## Labels

def normal_form(label):
    return b" ".join(word for word in label.translate(bytes.maketrans(b"\t\n\f\r", b"    ")).split(b" ") if word)


def fold(label):
    return normal_form(label).decode().casefold().encode()


class Reference(NamedTuple):
    label: bytes
    destination: bytes
    title: bytes


def reference_of(lookup, defined):
    title = None if defined.title is None else resolved(lookup, title_lines(defined.title))
    return Reference(normal_form(defined.label), resolved(lookup, defined.destination), title)


def first_with(folded, references):
    return next((r for r in references if fold(r.label) == folded), None)


# ## Destinations and LinkTails

def link_destination_in(bs):
    return up_to(62, 60, False, bs[1:]) if bs.startswith(b"<") else bare_in(bs)


class LinkTail(NamedTuple):
    destination: bytes
    title: bytes
    following: bytes


def closed_tail(destination, title, bs):
    return and_then(after_start_of(b")", after_separator(bs)), lambda following: LinkTail(destination, title, following))


def tail_inside(bs):
    destination = link_destination_in(after_separator(bs))
    if destination is None:
        return None
    title = title_in(after_separator(destination.following))
    if title is None:
        return closed_tail(destination.bytes, None, destination.following)
    return closed_tail(destination.bytes, title.bytes, title.following)


def link_tail_in(bs):
    return and_then(after_start_of(b"(", bs), tail_inside)


def reference_label_in(bs):
    return and_then(after_start_of(b"[", bs), label_in)


def after_collapsed(bs):
    return after_start_of(b"[]", bs)


def has_bracket(bs):
    escaped = False
    for b in bs:
        if not escaped and b in b"[]":
            return True
        escaped = escapes_next(escaped, b)
    return False


def is_bracketed_label(bs):
    return not has_bracket(bs) and is_label(bs)
