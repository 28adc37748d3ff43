"""Tests of the Python package, besides the examples of its README. tests/bindings/run has installed it."""
import concurrent.futures
import json
import os

import pulldown_cmark
from programs import ALL_ENTITIES, BITS, FLAGS, GITHUB, NONE, ROOT
from pulldown_cmark import Event, Fenced, Indented, Options, Paragraph, Start, Tag, TagEnd, WikiLink, events, html, references, render


# References within a limit of bytes; footnotes, inline links and wikilinks do not count.
FOOTNOTE = (
    '<p>a<sup class="footnote-reference"><a href="#1">1</a></sup></p>\n<div class="footnote-definition" id="1">'
    '<sup class="footnote-definition-label">1</sup>\n<p>b</p>\n</div>\n'
)
LIMITS = (
    ("[A]\n\n[a]: /1\n", Options.NONE, 0, "<p>[A]</p>\n"),
    ("[x] [x]\n\n[x]: /u", Options.NONE, 1, '<p><a href="/u">x</a> [x]</p>\n'),
    ("[x] [x]\n\n[x]: /u", Options.NONE, 2, '<p><a href="/u">x</a> [x]</p>\n'),
    ("[x] [x]\n\n[x]: /u", Options.NONE, 3, '<p><a href="/u">x</a> <a href="/u">x</a></p>\n'),
    ("[x](/u) [[y]]", Options.WIKILINKS, 0, '<p><a href="/u">x</a> <a href="y">y</a></p>\n'),
    ("a[^1]\n\n[^1]: b\n", Options.FOOTNOTES, 0, FOOTNOTE),
)


def plain(value):
    """A value as mdevents writes it."""
    if isinstance(value, (Tag, TagEnd)):
        return [value.name, *map(plain, value)]
    if isinstance(value, (Fenced, Indented, WikiLink)):
        return [type(value).__name__, *value]
    return [*map(plain, value)] if isinstance(value, tuple) else value


def line_of(event):
    """An event as mdevents writes it."""
    data = [] if event.value is None else [plain(event.value)]
    return json.dumps({"range": [event.start, event.end], "event": [event.name, *data]}, ensure_ascii=False, separators=(",", ":")) + "\n"


def answer_of(bits, text, number):
    """The HTML of a text, its events as mdevents writes them, or its safe HTML."""
    if number != 1:
        return html(text, options=bits, safe=number == 2).encode()
    # JSON lines that are not ASCII may be escaped in more than one way, so their values are compared
    return Lines("".join(map(line_of, events(text, options=bits))))


class Lines:
    """Lines of JSON, compared by their values."""

    def __init__(self, text):
        self.said = [json.loads(it) for it in text.split("\n")[:-1]]

    def __eq__(self, other):
        return self.said == [json.loads(it) for it in other.decode().split("\n")[:-1]]

    def __repr__(self):
        return repr(self.said)


def raised(call, *words, **options):
    """The exception that a call raises."""
    try:
        call(*words, **options)
    except Exception as error:
        return type(error)
    return None


def forked(texts, wanted):
    """The number of texts for which a forked process gives other HTML, also from events, or 1 if it ends by a signal."""
    child = os.fork()
    if child == 0:
        try:
            os._exit(sum((html(text).encode(), render([*events(text)]).encode()) != (wanted["mdhtml", 0, text],) * 2 for text in texts))
        finally:
            os._exit(255)
    _, status = os.waitpid(child, 0)
    return os.waitstatus_to_exitcode(status)


def faults_of_names():
    """The failures with entity names: with the option each of the standard's list has its text in all calls, and without it eleven have."""
    found, given = [], json.loads((ROOT / "share" / "entities.json").read_text())
    if len(given) != 2125:
        found.append(f"the list has {len(given)} names")
    eleven = {"amp", "lt", "gt", "quot", "apos", "nbsp", "copy", "reg", "hellip", "mdash", "ndash"}
    for bits, known in ((NONE, eleven), (ALL_ENTITIES, given.keys())):
        for name in given:
            text, tried = f"&{name};", [f"&{name};", f"&{name}x;", f"&{name[:-1]};", f"&x{name};"]
            shown = [f"<p>{escape(given[it[1:-1]] if it[1:-1] in known else it)}</p>\n" for it in tried]
            if (said := [html(it, options=bits) for it in tried]) != shown:
                found.append(f"{text} with {bits}: {said} in place of {shown}")
            ways = [render(events(text, options=bits)), html(text, options=bits, safe=True), html(text, options=bits, expansion_limit=0)]
            ways += [html(text, options=bits, broken_link=lambda link: None)]
            if ways != [shown[0]] * len(ways):
                found.append(f"{text} with {bits}: {ways} in place of {shown[0]}")
    if (said := [references("[a]: &ouml;", options=bits)[0].dest for bits in (NONE, ALL_ENTITIES)]) != ["&ouml;", "ö"]:
        found.append(f"the destinations of a definition: {said}")
    return found


def escape(text):
    """A text as the HTML of a paragraph has it."""
    return text.replace("&", "&amp;").replace("<", "&lt;").replace(">", "&gt;")


def faults(texts, wanted):
    """The failures with types, ranges of texts, errors and threads."""
    found = []

    def judge(what, given, expected):
        if given != expected:
            found.append(f"{what}: wanted {expected!r}, found {given!r}")

    judge("the version", pulldown_cmark.__version__, "0.13.6")
    for kind in (bytes, bytearray, memoryview):
        judge(f"HTML of {kind.__name__}", html(kind(b"*a*")), "<p><em>a</em></p>\n")
    judge("an empty text", (html(""), list(events(""))), ("", []))
    judge("a text with a NUL is read to its end", [it.end for it in events("a\0b")][-1], 3)
    judge("an event", (events("a")[0], type(events("a")[0])), (Event("Start", Paragraph(), 0, 1), Start))
    for text, bits, limit, expected in LIMITS:
        judge(f"{text!r} within {limit} bytes", html(text, options=bits, expansion_limit=limit), expected)
    judge("a limit of more bytes than there are", html("[x]\n\n[x]: /u", expansion_limit=1 << 80), '<p><a href="/u">x</a></p>\n')
    judge("a limit below 0", raised(html, "a", expansion_limit=-1), ValueError)
    judge("a text for a limit", raised(html, "a", expansion_limit="2"), TypeError)
    for call in (html, events):
        judge(f"{call.__name__} of bytes that are not UTF-8", raised(call, b"\xff"), UnicodeDecodeError)
        judge(f"{call.__name__} of half a pair", raised(call, "\ud800"), UnicodeEncodeError)
        for wrong in (1, 1.5, None, ["a"], {}, object()):
            judge(f"{call.__name__} of {wrong!r}", raised(call, wrong), TypeError)
            judge(f"{call.__name__} with {wrong!r} for options", raised(call, "a", options=wrong), ValueError if wrong == 1 else TypeError)
        for bits in (-1, 1 << 18, 1 << 32, 1 << 64):
            judge(f"{call.__name__} with the bits {bits}", raised(call, "a", options=bits), ValueError)
        judge(f"{call.__name__} with options by place", raised(call, "a", 2), TypeError)
        judge(f"{call.__name__} with a text for options", raised(call, "a", options="2"), TypeError)
    judge("the bits of the options", [int(it) for it in Options.__members__.values()], [NONE, *BITS, ALL_ENTITIES, sum(bits for flag, bits in zip(FLAGS, BITS) if flag in GITHUB)])
    found += faults_of_names()
    for text in texts:
        string = text.decode()
        for a, b in zip(events(text), events(string)):
            if text[a.range] != string[b.range].encode() or a[:2] != b[:2]:
                found.append(f"the range of {b} in {string!r}")
    with concurrent.futures.ThreadPoolExecutor(16) as pool:
        for text, given in zip(texts * 4, pool.map(html, texts * 4)):
            judge(f"a thread's HTML of {text!r}", given.encode(), wanted["mdhtml", 0, text])
    judge("the HTML of a forked process", forked(texts[:200], wanted), 0)
    return found
