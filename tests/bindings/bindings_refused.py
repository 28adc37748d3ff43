"""Refuses each allocation of the library in turn below the Python package, for the texts that standard input has as JSON.

tests/bindings/run runs it, with PULLDOWN_CMARK_LIBRARY as the name of a library that includes tests/bindings/refuse_library.c. A call with a refused
allocation either raises MemoryError, or works without that memory and returns its usual result. For each text and call the number of
refused allocations is written.
"""
import ctypes
import json
import os
import sys

from pulldown_cmark import Stream, events, html, references, render

library = ctypes.CDLL(os.environ["PULLDOWN_CMARK_LIBRARY"])
library.refuse.argtypes, library.refuse.restype = [ctypes.c_long], None


def refused(call, given):
    """The number of allocations of a call, each refused in turn. `given` makes its argument, and is refused nothing."""
    library.refuse(0)
    wanted = call(given())
    for number in range(1, 100_000):
        library.refuse(0)
        argument = given()
        library.refuse(number)
        try:
            found = call(argument)
        except MemoryError:
            found = None
        if not library.was_refused():
            assert found == wanted, found
            return number - 1
        assert found in (None, wanted), found
    raise AssertionError("allocations without end")


def grown(text, options, safe):
    """A stream with settled HTML, whose last chunk is a text."""
    stream = Stream(options=options, safe=safe)
    stream.push("# a\n\nb\n\nc")
    stream.refresh()
    assert stream.settled
    stream.push("\n\n" + text)
    return stream


def refreshed(stream):
    """The HTML of a stream after a refresh. If memory is refused, it has to be as before."""
    before = stream.settled, stream.added, stream.tail
    try:
        stream.refresh()
    except MemoryError:
        assert (stream.settled, stream.added, stream.tail) == before
        raise
    return stream.settled, stream.added, stream.tail


def main():
    for options, text in json.load(sys.stdin):
        library.refuse(0)
        calls = [
            (lambda _: html(text, options=options), lambda: None),
            (lambda _: list(events(text, options=options)), lambda: None),
            (lambda _: references(text, options=options), lambda: None),
            (lambda _: html(f"[a] {text}", options=options, broken_link=lambda link: ("/u", link.reference)), lambda: None),
            (render, lambda: [*events(text, options=options)]),
            (refreshed, lambda: grown(text, options, safe=False)),
            (refreshed, lambda: grown(text, options, safe=True)),
        ]
        counts = [refused(*it) for it in calls]
        assert all(counts), counts
        print(*counts)


if __name__ == "__main__":
    main()
