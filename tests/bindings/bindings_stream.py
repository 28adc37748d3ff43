#!/usr/bin/env python3
"""Tests Stream of the Python package: texts that grow, in chunks that may end inside a character.

    tests/bindings/bindings_stream.py [--quick] [PUSHES]

After each refresh of a random text, the HTML is that of html for the whole text so far, and the settled HTML only grows unless it is
dropped. Then wrong chunks, which change nothing, and a push during a refresh in another thread. tests/bindings/run calls this with the
installed package, for some thousand pushes. With --quick the library is that of make quick.
"""
import copy
import functools
import operator
import os
import pathlib
import random
import sys
import threading

sys.path.append(str(pathlib.Path(__file__).resolve().parent.parent / "common"))
from programs import ALL, BITS, NONE, ROOT

# Pieces of texts. Texts of the first ones define nothing.
PIECES = [
    "a", "b c", "\n", "\n\n", "\n\n", "\r", "\r\n", "- ", "1. ", "> ", "# ", "    ", "```\n", "`", "*", "**", "_", "~~", "$", "<div>\n",
    "<!--", "-->", "|", "|-|\n", "a|b\n", "-|-\n", "---\n", "===\n", "\t", "é", "![", "](u)", "[", "]", "<b>", "&amp;", "\\", "[^x]", ":",
    ": d\n", "+++\n", "{#i}", "\0", "- [x] t\n", "> [!NOTE]\n", "[[w]]", "\U0001f600", "\ufeff", "<http://a.b>", "](javascript:c)", "<pre>\n",
    "</pre>", "~~~ x\n", "a\n\nb\n\n", "]: /u\n", "[a]: /u\n\n", "[^x]: n\n\n", "[a]",
]  # fmt: skip
UNDEFINED = 54
# What is between the parts of a text.
DEFINITIONS = ["", "", "\n\n[a]: /b\n\n", "\n\n[^x]: c\n\n"]
LIMIT = 100_000
# GitHub's options, and the options with which later lines may change earlier blocks: with them nothing is settled.
GITHUB, UNSETTLED = 2 | 4 | 8 | 16 | 2048, 128 | 256 | 4096
PUSHES = 6000


class Trial:
    """Random texts, and the faults that were found."""

    def __init__(self, package, seed):
        self.package, self.draw = package, random.Random(seed)
        self.faults, self.pushes, self.settled, self.anew = [], 0, 0, 0

    def options(self):
        """A random set of options."""
        some = functools.reduce(operator.or_, self.draw.sample(BITS, 4))
        return self.draw.choice([NONE, GITHUB, ALL, some, some & ~UNSETTLED, ALL & ~UNSETTLED])

    def chunks(self):
        """A random text, as chunks of bytes. Some texts define nothing, and some have a definition late."""
        pieces = PIECES[: self.draw.choice([UNDEFINED, len(PIECES)])]
        first, second = ("".join(self.draw.choice(pieces) for _ in range(self.draw.randrange(most))) for most in (40, 10))
        text = (first + self.draw.choice(DEFINITIONS) + second).encode()
        at, longest = 0, self.draw.choice([1, 5, 30])
        while at < len(text):
            size = self.draw.randint(1, longest)
            yield text[at : at + size]
            at += size

    def stream(self):
        """An empty stream with random settings, and the function that gives the HTML of a whole text with these settings."""
        bits, safe = self.options(), self.draw.random() < 0.3
        if safe:
            schemes = self.draw.choice([(), ("tel", "sms")])
            return self.package.Stream(options=bits, safe=True, schemes=schemes), lambda text: self.package.html(text, options=bits, safe=True, schemes=schemes)
        limit = self.draw.choice([0, 1, 3, LIMIT, LIMIT, 1 << 80])
        return self.package.Stream(options=bits, expansion_limit=limit), lambda text: self.package.html(text, options=bits, expansion_limit=limit)

    def judge(self, what, found, wanted):
        if found != wanted:
            self.faults.append(f"{what}: wanted {wanted!r}, found {found!r}")

    def one_text(self):
        """One text, which is compared after each refresh."""
        (stream, whole), given, page = self.stream(), b"", ""
        for chunk in self.chunks():
            given += chunk
            # A chunk of whole characters may be a string too.
            is_text = not stream.ends_inside_character and self.draw.random() < 0.5 and is_whole(chunk)
            stream.push(chunk.decode() if is_text else chunk)
            self.pushes += 1
            if self.draw.random() < 0.2:
                continue
            page = self.refreshed(stream, page)
            text = given.decode(errors="ignore")
            self.judge(f"the text of {given!r}", (stream.text, stream.ends_inside_character), (text, not is_whole(given)))
            self.judge(f"the HTML of {given!r}", stream.html, whole(text))
            self.judge(f"whether a refresh is due after {given!r}", stream.is_due, False)
            self.settled += bool(page)

    def refreshed(self, stream, page):
        """The settled HTML that a page has after a refresh. It is that of the stream."""
        change = stream.refresh()
        if change is self.package.Change.ANEW:
            self.anew += 1
            self.judge("the settled HTML that is dropped", (bool(page), stream.settled), (True, ""))
            page = ""
        page += stream.added
        self.judge(f"the settled HTML of {stream.text!r}", (stream.settled, stream.settled + stream.tail), (page, stream.html))
        return page


def is_whole(data):
    """Whether bytes are UTF-8, and do not end inside a character."""
    try:
        data.decode()
    except UnicodeDecodeError:
        return False
    return True


def raised(call, *words, **options):
    """The exception that a call raises."""
    try:
        call(*words, **options)
    except Exception as error:
        return type(error)
    return None


def wrong_calls(package):
    """Wrong chunks and settings, as an object to compare: the exception of each, and whether the stream is as before."""
    found = []
    for before, chunk in ((b"# a\n\n\xc3", b"!"), (b"# a\n\n\xc3", "b"), (b"# a\n\n\xc3", b"\xa9\xff"), ("# a\n\nb", b"\xa9"), ("# a\n\nb", b"\xed\xa0"), (b"# a\n\n\xed", b"\xbf"), ("# a\n\nb", "\ud800"), ("# a\n\nb", 3), ("# a\n\nb", None)):
        stream = package.Stream()
        stream.push(before)
        stream.refresh()
        state = stream.text, stream.html, stream.ends_inside_character
        found.append((raised(stream.push, chunk), (stream.text, stream.html, stream.ends_inside_character) == state))
    made = [raised(package.Stream, **it) for it in ({"options": 1}, {"options": -1}, {"options": "2"}, {"expansion_limit": -1}, {"expansion_limit": "2"}, {"schemes": [1], "safe": True}, {"schemes": ["tel"]}, {"schemes": ["tel:"], "safe": True}, {"schemes": "tel", "safe": True})]
    return found, [*made, raised(package.Stream, 2)]


WRONG = (
    [(UnicodeDecodeError, True)] * 6 + [(UnicodeEncodeError, True)] + [(TypeError, True)] * 2,
    [ValueError, ValueError, TypeError, ValueError, TypeError, TypeError, ValueError, ValueError, TypeError, TypeError],
)


def copies(package):
    """Whether a push to a copy of a stream changes the copy alone, and a push to the stream the stream alone."""
    stream = package.Stream()
    stream.push(b"# a\n\nb\n\nc \xc3")
    stream.refresh()
    copied = copy.copy(stream)
    copied.push(b"\xa9\n\nd\n\ne")
    stream.push(b"\xbc\n\nf\n\ng")
    changes = [it.refresh() for it in (copied, stream)]
    texts = ["# a\n\nb\n\nc é\n\nd\n\ne", "# a\n\nb\n\nc ü\n\nf\n\ng"]
    return changes == [package.Change.GROWN] * 2 and [(it.text, it.html) for it in (copied, stream)] == [(it, package.html(it)) for it in texts]


def push_in_thread(package):
    """One thread pushes to a stream while another one refreshes it. A push has its effect or raises BufferError. Returns the number of these
    errors, and whether the text and its HTML are those of the other pushes."""
    stream, wanted, refused = package.Stream(), "*a* " * 100_000, 0
    stream.push(wanted)
    thread = threading.Thread(target=stream.refresh)
    thread.start()
    while thread.is_alive():
        try:
            stream.push("b")
            wanted += "b"
        except BufferError:
            refused += 1
    thread.join()
    stream.refresh()
    return refused, stream.text == wanted and stream.html == package.html(wanted, expansion_limit=LIMIT)


def pushes_in_thread(package):
    """Whether a push during a refresh changes nothing. It is tried until one comes at this time, at most fifty times."""
    for _ in range(50):
        refused, is_right = push_in_thread(package)
        if refused or not is_right:
            return is_right
    return False


def due_refreshes(package):
    """One block of 20,000 bytes in chunks of 10, read by refreshes that are due. Returns whether the number of bytes that they read is as said,
    whether some refreshes were not due, and whether the HTML is that of the whole text."""
    stream, chunk, calls, read = package.Stream(), "words and ", 0, 0
    for count in range(1, 2001):
        stream.push(chunk)
        if stream.is_due or count == 2000:
            stream.refresh()
            calls += 1
            read += len(chunk) * count
    return read <= 18 * len(stream.text), 50 < calls < 200, stream.html == package.html(stream.text)


def faults(package, pushes=PUSHES, seed=1):
    """The faults of the package's Stream, for random texts of this number of pushes and for wrong calls."""
    trial = Trial(package, seed)
    while trial.pushes < pushes and len(trial.faults) < 20:
        trial.one_text()
    trial.judge("settled HTML was seen, and was dropped", (trial.settled > pushes // 20, trial.anew > pushes // 1000), (True, True))
    trial.judge("wrong calls", wrong_calls(package), WRONG)
    trial.judge("a copy", copies(package), True)
    trial.judge("pushes during a refresh", pushes_in_thread(package), True)
    stream = package.Stream()
    trial.judge("refreshes that are due", due_refreshes(package), (True, True, True))
    trial.judge("an empty text", (stream.refresh(), stream.text, stream.html), (package.Change.GROWN, "", ""))
    print(f"bindings: Python: {trial.pushes} pushes to texts that grow, {trial.settled} times with settled HTML, which was dropped {trial.anew} times")
    return trial.faults


def main(words):
    is_quick, numbers = "--quick" in words, [it for it in words if it.isdecimal()]
    if len(numbers) + is_quick != len(words) or len(numbers) > 1:
        sys.exit(__doc__)
    built = ROOT / "bin" / "quick" if is_quick else ROOT / "bin"
    os.environ["PULLDOWN_CMARK_LIBRARY"] = str(built / "lib" / "libpulldown_cmark.so")
    sys.path.insert(0, str(ROOT / "bindings" / "python"))
    import pulldown_cmark

    found = faults(pulldown_cmark, int(numbers[0]) if numbers else PUSHES, random.randrange(1 << 30) if numbers else 1)
    print(*found[:20], sep="\n", end="\n" if found else "")
    return 1 if found else 0


if __name__ == "__main__":
    sys.exit(main(sys.argv[1:]))
