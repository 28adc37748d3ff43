"""The division of a leaf's text by brackets: the definitions of Parts, BracketStates, OpenBrackets, BracketDecisions and BracketReading."""
from dataclasses import dataclass, replace
from typing import NamedTuple

from inlines import labels, letters
from inlines.letters import first_is
from inlines.tokens import Bracket, Closes, Item, Opens, begin_of


# ## Parts: an item, a construct that two brackets form, or a bracket that is a text

class Linked(NamedTuple):
    link_type: str
    destination: bytes
    title: bytes
    id: bytes


class Linking(NamedTuple):
    """A link or an image: its destination, and its end."""
    linked: Linked
    end: int


class Footnote(NamedTuple):
    """A footnote reference: its label in normal form, and its end."""
    label: bytes
    end: int


class Wiki(NamedTuple):
    """A wikilink, which shows its name or the text from an offset on."""
    name: bytes
    display: object
    end: int


class Form(NamedTuple):
    """A construct that two brackets form, with the parts between them."""
    opener: Bracket
    inside: list
    closer: Bracket
    formed: object


class Opening(NamedTuple):
    bracket: Bracket


class Closing(NamedTuple):
    bracket: Bracket


class Single(NamedTuple):
    item: Item


# ## BracketStates and OpenBrackets

@dataclass(frozen=True)
class Opener:
    bracket: Bracket
    stands: bool = True
    doubles: bool = True
    is_inactive: bool = False


@dataclass(frozen=True)
class State:
    """The openers are the opening brackets that are texts in the current list, the nearest first."""
    at: int
    expansion_left: int
    label_close: object = None
    openers: tuple = ()


class Taken(NamedTuple):
    nearer: int
    opener: Opener


class Outcome(NamedTuple):
    """The number of nearer openers and the construct that is formed, or None; and the state after the closing bracket."""
    forms: object
    after: State


def nearest(openers):
    return next((Taken(n, o) for n, o in enumerate(openers) if o.stands), None)


def used_up(openers):
    taken = nearest(openers)
    if taken is None:
        return openers
    return openers[:taken.nearer] + (replace(taken.opener, stands=False),) + openers[taken.nearer + 1:]


def touches(second, first):
    return not second.bracket.is_image and second.bracket.start == first.bracket.end


def doubled(openers):
    pairs = zip(openers, openers[1:])
    return next((Taken(n + 1, first) for n, (second, first) in enumerate(pairs) if first.doubles and touches(second, first)), None)


def undoubled(o):
    return replace(o, doubles=False)


def tried(nearer, openers):
    return openers[:nearer] + (undoubled(openers[nearer]),) + openers[nearer + 1:]


def inactive(o):
    return replace(o, is_inactive=o.is_inactive or not o.bracket.is_image)


def dropped(o):
    return replace(o, stands=False)


def after_link(is_image, openers):
    return openers if is_image else tuple(map(inactive, openers))


# ## BracketDecisions

class Named(NamedTuple):
    label: bytes
    link_type: str
    end: int
    resume: int


def stays(closer, s):
    return Outcome(None, replace(s, at=closer.end))


def forms(taken, formed, resume, change, s):
    return Outcome((taken.nearer, formed), replace(s, at=resume, openers=change(s.openers[taken.nearer + 1:])))


def links(taken, linked, end, resume, s):
    return forms(taken, Linking(linked, end), resume, lambda openers: after_link(taken.opener.bracket.is_image, openers), s)


def between(leaf, start, end):
    following = leaf.from_(start)
    return following[:len(following) - len(leaf.from_(end))]


def inline_link(leaf, tail, taken, s):
    lookup, resume = leaf.reader.lookup, leaf.place_of(tail.following)
    title = letters.unescaped(lookup, leaf.is_cell, letters.title_lines(tail.title or b""))
    return links(taken, Linked("Inline", letters.unescaped(lookup, leaf.is_cell, tail.destination), title, b""), resume, resume, s)


def leads(named, found, taken, s):
    title = found.title or b""
    left = max(0, s.expansion_left - len(found.destination) - len(title))
    linked = Linked(named.link_type, found.destination, title, labels.normal_form(named.label))
    return links(taken, linked, named.end, named.resume, replace(s, expansion_left=left))


def refers(leaf, named, taken, closer, s):
    """There is no callback."""
    if s.expansion_left == 0:
        return stays(closer, s)
    found = leaf.reader.definition(labels.fold(named.label))
    return stays(closer, s) if found is None else leads(named, found, taken, s)


def one_line_footnotes(options):
    return options.footnotes and not options.old_footnotes


def is_footnote_label(options, bs):
    """A `^` and a label, which is on one line except for old footnotes."""
    return (options.footnotes and bs.startswith(b"^") and labels.is_bracketed_label(bs[1:])
            and (options.old_footnotes or all(map(letters.is_content, bs[1:]))))


def footnote_reference(leaf, label, taken, closer, s):
    """Its label needs a footnote except for old footnotes; all brackets before it are dropped."""
    if one_line_footnotes(leaf.reader.options) and not leaf.reader.has_footnote(labels.fold(label)):
        return stays(closer, s)
    formed = Footnote(labels.normal_form(label), closer.end)
    return forms(taken, formed, closer.end, lambda openers: tuple(map(dropped, openers)), s)


def as_label(leaf, bs):
    return letters.with_literal_pipes(bs) if leaf.is_cell else bs


def collapsed_or_shortcut(leaf, label, end, rest):
    return Named(label, "Shortcut", end, end) if rest is None else Named(label, "Collapsed", end, leaf.place_of(rest))


def by_own_label(leaf, label, taken, closer, s):
    if is_footnote_label(leaf.reader.options, label):
        return footnote_reference(leaf, as_label(leaf, label[1:]), taken, closer, s)
    if not labels.is_bracketed_label(label):
        return stays(closer, s)
    named = collapsed_or_shortcut(leaf, as_label(leaf, label), closer.end, labels.after_collapsed(leaf.from_(closer.end)))
    return refers(leaf, named, taken, closer, s)


def full_reference(leaf, found, taken, closer, s):
    end = leaf.place_of(found.following)
    return refers(leaf, Named(as_label(leaf, found.bytes), "Reference", end, end), taken, closer, replace(s, label_close=end - 1))


def reference_or(leaf, found, taken, closer, s):
    if found is not None:
        return full_reference(leaf, found, taken, closer, s)
    if s.label_close == closer.start:
        return stays(closer, s)
    return by_own_label(leaf, between(leaf, taken.opener.bracket.end, closer.start), taken, closer, s)


def unless_footnote(options, found):
    return None if found is None or is_footnote_label(options, found.bytes) else found


def link_or(leaf, tail, taken, closer, s):
    if tail is not None:
        return inline_link(leaf, tail, taken, s)
    found = unless_footnote(leaf.reader.options, labels.reference_label_in(leaf.from_(closer.end)))
    return reference_or(leaf, found, taken, closer, s)


def with_taken(leaf, taken, closer, s):
    if taken is None or taken.opener.is_inactive:
        return stays(closer, s)
    return link_or(leaf, labels.link_tail_in(leaf.from_(closer.end)), taken, closer, s)


def name_in(bs):
    return bs.split(b"|")[0]


def after_pipe(at, bs):
    return at + bs.index(b"|") + 1 if b"|" in bs else None


def wiki_text(leaf, first, closer):
    return leaf.reader.source[first.opener.bracket.end + 1:closer.start]


def wikilink(leaf, first, closer, s):
    text = wiki_text(leaf, first, closer)
    formed = Wiki(name_in(text), after_pipe(first.opener.bracket.end + 1, text), closer.end + 1)
    return forms(first, formed, closer.end + 1, lambda openers: tuple(undoubled(inactive(o)) for o in openers), s)


def wikilink_or(leaf, first, taken, closer, s):
    if first is None:
        return with_taken(leaf, taken, closer, s)
    if first.opener.is_inactive or not name_in(wiki_text(leaf, first, closer)):
        return with_taken(leaf, taken, closer, replace(s, openers=tried(first.nearer, s.openers)))
    return wikilink(leaf, first, closer, s)


def taking(leaf, taken, closer, s):
    """Directly before another closing bracket, a closing bracket tries the nearest doubled opening one first."""
    if leaf.reader.options.wikilinks and first_is(lambda b: b == 93, leaf.from_(closer.end)):
        return wikilink_or(leaf, doubled(s.openers), taken, closer, s)
    return with_taken(leaf, taken, closer, s)


def decide(leaf, s, closer):
    return taking(leaf, nearest(s.openers), closer, replace(s, openers=used_up(s.openers)))


# ## BracketReading

def with_form(parts, closer, nearer, formed):
    """The parts after the opening bracket with this number of nearer ones formed a construct with the parts read after it."""
    openings = [at for at, part in enumerate(parts) if isinstance(part, Opening)]
    at = openings[len(openings) - 1 - nearer]
    return parts[:at] + [Form(parts[at].bracket, parts[at + 1:], closer, formed)]


def reads_whole(leaf, expansion_left):
    """The parts of a leaf, and the rest of the reference expansion limit."""
    s, parts = State(begin_of(leaf.stretches), expansion_left), []
    while (found := leaf.token(s.at)) is not None:
        if isinstance(found, Opens):
            parts.append(Opening(found.bracket))
            s = replace(s, at=found.bracket.end, openers=(Opener(found.bracket),) + s.openers)
        elif isinstance(found, Closes):
            outcome = decide(leaf, s, found.bracket)
            parts = parts + [Closing(found.bracket)] if outcome.forms is None else with_form(parts, found.bracket, *outcome.forms)
            s = outcome.after
        else:
            parts.append(Single(found.item))
            s = replace(s, at=found.resume)
    return parts, s.expansion_left
