"""Checks the types of the Python package by mypy, if it is installed: of the package, of its examples, and of a program that uses both.

mypy has to find each type that a line of the program claims, and each fault that a comment of the program names.
"""
import os
import re
import shutil
import subprocess
import sys
import tempfile
import pathlib

# A line with `reveal_type` says the wanted type after `#:`, and a wrong line a part of the message.
PROGRAM = '''
from typing import Optional, Tuple
from pulldown_cmark import (
    BrokenLink, Change, Code, CodeBlock, End, Event, Fenced, HardBreak, Heading, HeadingEnd, Lines, Link, List, SoftBreak, Start, Stream, Table,
    TaskListMarker, Text, events, html, merged, references, render,
)

def by_class(event: Event) -> None:
    event.value.level  #: Item "str" of "Union[Tag, TagEnd, str, bool, None]" has no attribute "level"
    if isinstance(event, (Text, Code)):
        reveal_type(event.value)  #: "builtins.str"
    elif isinstance(event, Start):
        reveal_type(event.value)  #: "pulldown_cmark._tags.Tag"
        reveal_type(event.value.to_end())  #: "pulldown_cmark._ends.TagEnd"
        if isinstance(event.value, Heading):
            reveal_type(event.value.id)  #: "Union[builtins.str, None]"
            reveal_type(event.value.attrs)  #: "builtins.tuple[Tuple[builtins.str, Union[builtins.str, None]], ...]"
        elif isinstance(event.value, List):
            reveal_type(event.value.first_number)  #: "Union[builtins.int, None]"
            event.value.level  #: "pulldown_cmark._tags.List" has no attribute "level"
        elif isinstance(event.value, CodeBlock) and isinstance(event.value.kind, Fenced):
            reveal_type(event.value.kind.info)  #: "builtins.str"
    elif isinstance(event, TaskListMarker):
        reveal_type(event.value)  #: "builtins.bool"
    elif isinstance(event, SoftBreak):
        reveal_type(event.value)  #: "None"
    reveal_type(event.range)  #: "builtins.slice"

def answer(link: BrokenLink) -> Optional[Tuple[str, str]]:
    reveal_type(link.start)  #: "builtins.int"
    return "/", link.reference

def calls(text: str) -> None:
    found = events(text, broken_link=answer)
    reveal_type(found[0])  #: "pulldown_cmark._events.Event"
    reveal_type(found[1:])  #: "pulldown_cmark._records.Events"
    reveal_type(found.lines.place(3).column)  #: "builtins.int"
    reveal_type(render(merged(found)))  #: "builtins.str"
    reveal_type(html(text.encode(), broken_link=answer))  #: "builtins.str"
    reveal_type(references(text)[0].title)  #: "Union[builtins.str, None]"
    reveal_type(Text("a")._replace(value="b"))  #: "pulldown_cmark._events.Text"
    reveal_type(Event("Text", "a"))  #: "pulldown_cmark._events.Event"
    reveal_type(found[0][0])  #: "Any"
    reveal_type(found[0][2:])  #: "builtins.tuple[Any, ...]"
    reveal_type(len(found[0]))  #: "builtins.int"
    reveal_type(found[0]._asdict())  #: "builtins.dict[builtins.str, Any]"
    reveal_type(Text._fields)  #: "builtins.tuple[builtins.str, ...]"
    Link("Inlin", "/")  #: Argument 1 to "Link" has incompatible type
    Table(("left",))  #: Argument 1 to "Table" has incompatible type
    Text(3)  #: Argument 1 to "Text" has incompatible type "int"
    Start(HeadingEnd(1))  #: Argument 1 to "Start" has incompatible type "HeadingEnd"
    events(text, broken_link=lambda link: "/")  #: Argument "broken_link" to "events" has incompatible type
    render([text])  #: List item 0 has incompatible type "str"; expected "Event"
    Lines(3)  #: Argument 1 to "Lines" has incompatible type "int"

def grow(stream: Stream) -> bool:
    stream.push("a")
    stream.push(b"a")
    reveal_type(stream.refresh())  #: "pulldown_cmark._stream.Change"
    reveal_type(stream.settled + stream.added + stream.tail + stream.html + stream.text)  #: "builtins.str"
    stream.push(3)  #: Argument 1 to "push" of "Stream" has incompatible type "int"
    stream.tail = "a"  #: Property "tail" defined in "Stream" is read-only
    Stream("a")  #: Too many positional arguments for "Stream"
    return stream.refresh() is Change.ANEW or stream.ends_inside_character
'''
# What follows for a Python with patterns.
PATTERNS = '''
def by_pattern(event: Event) -> None:
    match event:
        case Start(Heading(level=level), start):
            reveal_type(level)  #: "builtins.int"
            reveal_type(start)  #: "builtins.int"
        case Start(Link(dest_url=url)):
            reveal_type(url)  #: "builtins.str"
        case End(HeadingEnd(level=lower)):
            reveal_type(lower)  #: "builtins.int"
        case Text(word) | Code(word):
            reveal_type(word)  #: "builtins.str"
        case HardBreak():
            reveal_type(event)  #: "pulldown_cmark._events.HardBreak"
'''


def checked(mypy, folder, words):
    """The status and the output of mypy, with the package of a folder."""
    ended = subprocess.run([mypy, "--strict", "--no-error-summary", *map(str, words)], env={**os.environ, "MYPYPATH": str(folder)}, capture_output=True, check=False, cwd=folder)
    return ended.returncode, (ended.stdout + ended.stderr).decode()


def faults(package):
    """The failures of the package in this folder, or None if there is no mypy."""
    mypy, found = shutil.which("mypy"), []
    if not mypy:
        return None
    examples = sorted((package / "examples").glob("*.py"))
    with tempfile.TemporaryDirectory() as made:
        folder, cache = pathlib.Path(made), f"--cache-dir={made}/cache"
        shutil.copytree(package / "pulldown_cmark", folder / "pulldown_cmark")
        for words in ([cache, "--python-version", "3.8", "pulldown_cmark"], [cache, "--python-version", "3.10", "pulldown_cmark", *examples]):
            status, said = checked(mypy, folder, words)
            if status or said:
                found.append(f"mypy {' '.join(map(str, words[1:]))}: status {status}\n{said}")
        program = PROGRAM + PATTERNS
        (folder / "program.py").write_text(program)
        said = checked(mypy, folder, [cache, "--python-version", "3.10", "program.py"])[1]
        messages = {}
        for number, message in re.findall(r"^program\.py:(\d+): (?:error|note): (.*)$", said, re.M):
            messages.setdefault(int(number), []).append(message)
        claims = {number: line.partition("#: ")[2] for number, line in enumerate(program.split("\n"), 1) if "#: " in line}
        for number in sorted({*messages, *claims}):
            if not any(claims.get(number, "\0") in it for it in messages.get(number, [])):
                found.append(f"mypy, line {number}: wanted {claims.get(number)!r}, found {messages.get(number)}")
    print(f"bindings: Python: mypy: the package, {len(examples)} examples, and {len(claims)} types and faults of a program")
    return found


if __name__ == "__main__":
    print(*(faults(pathlib.Path(sys.argv[1]).resolve()) or ()), sep="\n")
