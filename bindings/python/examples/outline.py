"""Prints the headings of a Markdown file: the line, the level and the text of each."""
import sys
from collections.abc import Iterator

from pulldown_cmark import Code, End, HardBreak, Heading, HeadingEnd, SoftBreak, Start, Text, events


def outline(text: str) -> Iterator[tuple[int, int, str]]:
    """The line, the level and the text of each heading."""
    found = events(text)
    words: list[str] = []
    for event in found:
        match event:
            case Start(Heading()):
                words = []
            case Text(word) | Code(word):
                words.append(word)
            case SoftBreak() | HardBreak():
                words.append(" ")
            case End(HeadingEnd(level=level), start):
                yield found.lines.place(start).line, level, "".join(words)


if __name__ == "__main__":
    with open(sys.argv[1], encoding="utf-8") as file:
        for line, level, title in outline(file.read()):
            print(f"{line:4} {'  ' * (level - 1)}{title}")
