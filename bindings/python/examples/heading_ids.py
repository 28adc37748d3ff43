"""Writes the HTML of a Markdown file in which each heading has an id, made of its text, for links to it."""
import sys
from collections.abc import Iterator

from links import anchors
from outline import outline
from pulldown_cmark import Event, Heading, Start, events, render


def with_ids(text: str) -> Iterator[Event]:
    """The events of a text, with an id for each heading that has none."""
    names = anchors(title for _, _, title in outline(text))
    for event in events(text):
        if isinstance(event.value, Heading):
            name = next(names)
            yield Start(event.value._replace(id=event.value.id or name))
        else:
            yield event


if __name__ == "__main__":
    with open(sys.argv[1], encoding="utf-8") as file:
        print(render(with_ids(file.read())), end="")
