"""Names the places of a Markdown file that break one of three rules."""
import sys
from collections.abc import Iterator

from pulldown_cmark import CodeBlock, Fenced, Heading, InlineHtml, Options, Start, events


def lint(text: str) -> Iterator[tuple[int, int, str]]:
    """The line, the column and the fault of each place."""
    found, last = events(text, options=Options.TABLES), 0
    for event in found:
        fault = None
        match event:
            case Start(Heading(level=level)):
                if level > last + 1:
                    fault = f"a heading of level {level} comes after level {last}"
                last = level
            case Start(CodeBlock(kind=Fenced(info=""))):
                fault = "a code block has no language"
            case InlineHtml(html) if html.startswith("<br"):
                fault = "a line break is raw HTML"
        if fault:
            yield *found.lines.place(event.start), fault


if __name__ == "__main__":
    with open(sys.argv[1], encoding="utf-8") as file:
        for line, column, fault in lint(file.read()):
            print(f"{sys.argv[1]}:{line}:{column}: {fault}")
