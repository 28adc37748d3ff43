#!/usr/bin/env python3
"""Shows a Markdown file that grows as an HTML page.

    follow.py FILE PAGE [--end SECONDS]

Reads FILE as it grows, and keeps PAGE up to date: the safe HTML of all that FILE has so far. A browser loads the page again every second. If
FILE becomes shorter, it is read from its beginning. The program ends if FILE has not grown for the given number of seconds, or if it is
stopped. The status is 1 if FILE ends inside a character or is not UTF-8.
"""
import argparse
import html
import os
import pathlib
import sys
import time

from pulldown_cmark import Options, Stream

# How long the program waits for more of the file, in seconds.
PAUSE = 0.1
OPTIONS = Options.TABLES | Options.FOOTNOTES | Options.STRIKETHROUGH | Options.TASKLISTS
PAGE = """<!doctype html>
<meta charset="utf-8">
<meta http-equiv="refresh" content="1">
<title>%s</title>
%s"""


def new_stream():
    """The empty text. Its HTML is safe, since the file may have the text of a stranger."""
    return Stream(options=OPTIONS, safe=True)


def write_whole(path, content):
    """Replaces a file in one step, so that a browser never reads a part of the page."""
    part = path.with_name(path.name + ".part")
    part.write_text(content, encoding="utf-8")
    part.replace(path)


class Follower:
    """A file that grows, and the page that shows it."""

    def __init__(self, file, page):
        self.file, self.page, self.stream, self.is_shown = file, page, new_stream(), True

    def show(self):
        """Reads what the stream has not read yet, and writes the page."""
        self.stream.refresh()
        write_whole(self.page, PAGE % (html.escape(self.page.stem), self.stream.html))
        self.is_shown = True

    def step(self):
        """Takes what came since the last step. Returns whether there was anything."""
        if os.fstat(self.file.fileno()).st_size < self.file.tell():
            self.file.seek(0)
            self.stream, self.is_shown = new_stream(), False
        chunk = self.file.read(1 << 16)
        if chunk:
            self.stream.push(chunk)
            self.is_shown = False
        # While the file grows fast, only some of its states are shown. The last one always is.
        if not self.is_shown and (self.stream.is_due or not chunk):
            self.show()
        return bool(chunk)

    def run(self, seconds):
        """Follows the file until it has not grown for this number of seconds."""
        self.show()
        last = time.monotonic()
        while seconds is None or time.monotonic() - last < seconds:
            if self.step():
                last = time.monotonic()
            else:
                time.sleep(PAUSE)


def main():
    words = argparse.ArgumentParser(usage=__doc__)
    words.add_argument("file")
    words.add_argument("page", type=pathlib.Path)
    words.add_argument("--end", type=float, metavar="SECONDS")
    given = words.parse_args()
    with open(given.file, "rb") as file:
        follower = Follower(file, given.page)
        try:
            follower.run(given.end)
        except KeyboardInterrupt:
            pass
        except UnicodeError as error:
            sys.exit(f"follow: {given.file}: {error}")
    if follower.stream.ends_inside_character:
        sys.exit(f"follow: {given.file} ends inside a character")


if __name__ == "__main__":
    main()
