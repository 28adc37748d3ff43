"""Formulas between dollar signs: the definitions of Formulas. If a definition has no value, the result is None."""
from typing import NamedTuple

from inlines.letters import Parsed, first_is


class Braces(NamedTuple):
    """The contexts that are entered, the inner ones first; the number of the outermost, and the next number."""
    entered: tuple
    outermost: int
    next: int


NO_BRACES = Braces((), 255, 0)


def is_dollar(b):
    return b == ord("$")


def is_ink(b):
    return b not in b"\t\n\f\r "


def context_of(braces):
    return braces.entered[0] if braces.entered else braces.outermost


def entered(braces):
    return Braces((braces.next % 256, *braces.entered), braces.outermost, braces.next + 1)


def left_to(braces):
    if braces.entered:
        return braces._replace(entered=braces.entered[1:])
    return Braces((), braces.next % 256, braces.next + 1)


def after_byte(escaped, b, braces):
    if escaped:
        return braces
    return entered(braces) if b == ord("{") else left_to(braces) if b == ord("}") else braces


def escapes_next(escaped, b):
    return not escaped and b == ord("\\")


def braces_after(bs, braces):
    escaped = False
    for b in bs:
        braces, escaped = after_byte(escaped, b, braces), escapes_next(escaped, b)
    return braces


def formula_to(is_display, context, braces, bs):
    """The text up to the first dollar sign of this context that no backslash escapes, if that dollar sign closes the formula."""
    escaped, last = False, ord("$")
    for at, b in enumerate(bs):
        if not escaped and is_dollar(b) and context_of(braces) == context:
            closes = first_is(is_dollar, bs[at + 1:]) if is_display else is_ink(last)
            return Parsed(bs[:at], bs[at + (2 if is_display else 1):]) if closes else None
        braces, escaped, last = after_byte(escaped, b, braces), escapes_next(escaped, b), b
    return None


def inline_in(braces, bs):
    return formula_to(False, context_of(braces), braces, bs) if first_is(is_ink, bs) else None


def display_in(braces, bs):
    return formula_to(True, context_of(braces), braces, bs)
