"""Checks the links inside a Markdown file, its references and their definitions."""
import re
import sys
from collections import Counter
from collections.abc import Iterable, Iterator

from outline import outline
from pulldown_cmark import BrokenLink, Image, Lines, Link, LinkDef, Options, Start, events, references

OPTIONS = Options.TABLES | Options.FOOTNOTES


def anchors(titles: Iterable[str]) -> Iterator[str]:
    """The anchors that GitHub gives headings: for the second of two with the same words it ends with -1."""
    times: Counter[str] = Counter()
    for title in titles:
        name = re.sub(r"[^\w\- ]", "", title.lower()).replace(" ", "-")
        yield f"{name}-{times[name]}" if times[name] else name
        times[name] += 1


def folded(label: str) -> str:
    """A label as definitions are compared: without regard to case and to the kind of white space."""
    return " ".join(label.split()).casefold()


def without(text: str, definitions: list[LinkDef]) -> str:
    """The text with blanks in place of these definitions, so that only later definitions of their labels are left."""
    pieces, at = [], 0
    for it in definitions:
        pieces += [text[at : it.start], re.sub(r"[^\r\n]", " ", text[it.range])]
        at = it.end
    return "".join(pieces) + text[at:]


def faults(text: str) -> Iterator[tuple[int, str]]:
    """The faults, each with its offset in the text."""
    missing: list[BrokenLink] = []
    targets = {f"#{name}" for name in anchors(title for _, _, title in outline(text))}
    used = set()
    for event in events(text, options=OPTIONS, broken_link=missing.append):
        if isinstance(event, Start) and isinstance(event.value, (Link, Image)):
            used.add(folded(event.value.id))
            if event.value.dest_url.startswith("#") and event.value.dest_url not in targets:
                yield event.start, f"no heading has the anchor {event.value.dest_url}"
    for link in missing:
        # brackets alone are often plain text
        if link.link_type != "ShortcutUnknown":
            yield link.start, f"nothing defines [{link.reference}]"
    definitions = references(text, options=OPTIONS)
    for it in definitions:
        if folded(it.label) not in used:
            yield it.start, f"nothing refers to [{it.label}]"
    for it in references(without(text, definitions), options=OPTIONS):
        yield it.start, f"[{it.label}] is defined already"


if __name__ == "__main__":
    with open(sys.argv[1], encoding="utf-8") as file:
        text = file.read()
    for offset, fault in sorted(faults(text)):
        line, column = Lines(text).place(offset)
        print(f"{sys.argv[1]}:{line}:{column}: {fault}")
