"""The parts that the ways through many documents share: the files that are left, one conversion, and the progress report."""
import os
import pathlib
import sys
import time

import pulldown_cmark

OPTIONS = pulldown_cmark.Options.TABLES | pulldown_cmark.Options.STRIKETHROUGH | pulldown_cmark.Options.TASKLISTS


def left(source, target):
    """The files of a folder whose HTML is missing or older than the text, each with the path of its HTML."""
    if not source.is_dir():
        sys.exit(f"there is no folder {source}")
    for text in sorted(source.rglob("*.md")):
        html = target / text.relative_to(source).with_suffix(".html")
        if not html.exists() or html.stat().st_mtime < text.stat().st_mtime:
            yield str(text), str(html)


def convert(pair):
    """Writes the HTML of one file. Returns the file and the reason for a failure, or None. An HTML file is always complete, even if the run
    was stopped."""
    text, html = pair
    try:
        made = pulldown_cmark.html(pathlib.Path(text).read_bytes(), options=OPTIONS)
        place = pathlib.Path(html)
        place.parent.mkdir(parents=True, exist_ok=True)
        begun = place.with_name(f".{place.name}.{os.getpid()}")
        begun.write_bytes(made.encode("utf-8"))
        begun.replace(place)
    except (OSError, UnicodeError, MemoryError) as error:
        return text, f"{type(error).__name__}: {error}"
    return text, None


def convert_all(pairs):
    """Converts several files, as one task of a worker."""
    return [convert(it) for it in pairs]


def report(results, total):
    """Draws a bar as results arrive, and lists the files that failed. Returns the status of the command."""
    failed, began, drawn = [], time.monotonic(), 0.0
    for done, (text, fault) in enumerate(results, 1):
        if fault:
            failed.append((text, fault))
        if time.monotonic() - drawn > 0.1 or done == total:
            drawn = time.monotonic()
            width = 40 * done // total
            print(f"\r[{'#' * width}{'.' * (40 - width)}] {done} of {total}, {len(failed)} failed", end="", file=sys.stderr, flush=True)
    print(f"\n{total - len(failed)} written in {time.monotonic() - began:.1f} s, {len(failed)} failed", file=sys.stderr)
    for text, fault in failed:
        print(f"{text}: {fault}")
    return 1 if failed else 0
