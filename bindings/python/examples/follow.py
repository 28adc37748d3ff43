"""Reads Markdown from standard input as it arrives, and writes the changes of its HTML as lines of JSON, for example for a page."""
import json
import os
import sys
from collections.abc import Iterable, Iterator

from pulldown_cmark import Options, Stream


def changes(chunks: Iterable[bytes]) -> Iterator[dict[str, str]]:
    """For each chunk: whether the page first drops its HTML (``anew``), what it appends, and what it replaces the end by."""
    stream = Stream(options=Options.TABLES | Options.STRIKETHROUGH, safe=True)
    for chunk in chunks:
        stream.push(chunk)
        change = stream.refresh()
        yield {"change": change.value, "added": stream.added, "tail": stream.tail}
    if stream.ends_inside_character:
        sys.exit("the text ends inside a character")


if __name__ == "__main__":
    for change in changes(iter(lambda: os.read(sys.stdin.fileno(), 120), b"")):
        print(json.dumps(change), flush=True)
