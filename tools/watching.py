"""The cost of a check, in processor seconds, by the files that it writes: one for each module that it makes."""
import collections
import ctypes
import os
import pathlib
import re
import struct
import subprocess
import time

CLOSED_AFTER_WRITING, MOVED_HERE, CREATED = 0x8, 0x80, 0x100
EVENT = struct.Struct("iIII")
TICKS = os.sysconf("SC_CLK_TCK")


class Watch:
    """Reports the files that are written below a folder, in which new folders may appear."""

    def __init__(self, top):
        self.libc = ctypes.CDLL("libc.so.6", use_errno=True)
        self.events = self.libc.inotify_init1(os.O_NONBLOCK)
        self.folders = {}
        self.add(top)

    def add(self, folder):
        number = self.libc.inotify_add_watch(self.events, os.fsencode(folder), CLOSED_AFTER_WRITING | MOVED_HERE | CREATED)
        self.folders[number] = folder
        for entry in os.scandir(folder):
            if entry.is_dir():
                self.add(entry.path)

    def written(self):
        """The names of the files that were written since the last call."""
        try:
            data = os.read(self.events, 1 << 16)
        except BlockingIOError:
            return
        at = 0
        while at < len(data):
            number, what, _, size = EVENT.unpack_from(data, at)
            name = data[at + EVENT.size : at + EVENT.size + size].rstrip(b"\0").decode()
            at += EVENT.size + size
            path = os.path.join(self.folders[number], name)
            if what & CREATED and os.path.isdir(path):
                self.add(path)
            elif what & (CLOSED_AFTER_WRITING | MOVED_HERE):
                yield name

    def close(self):
        os.close(self.events)


def seconds(process):
    """The processor seconds of a process and of all its descendants, including those that have ended."""
    try:
        fields = pathlib.Path(f"/proc/{process}/stat").read_text().rpartition(")")[2].split()
        below = pathlib.Path(f"/proc/{process}/task/{process}/children").read_text().split()
    except OSError:
        return 0.0
    return sum(int(it) for it in fields[11:15]) / TICKS + sum(seconds(it) for it in below)


def parts(name):
    """The function, and the kind, of the module in a file."""
    path = re.sub(r"(\.decls)?\.oantt$", "", name)
    library, _, inside = path.partition(".")
    words = inside.split(".")
    if not library.endswith("-proofs"):
        return "definitions and contracts", "definitions and contracts"
    return (".".join(words[:-1]), words[-1]) if len(words) > 1 else ("files of lemmas", "lemmas")


def check(command, folder, output=subprocess.DEVNULL):
    """Runs a check that keeps its work in a folder. Returns the seconds by function and kind of module, and the status. The processor time
    between two files is counted for the second one."""
    costs, counted, watch = collections.Counter(), 0.0, Watch(folder)
    running = subprocess.Popen(command, stdout=output, stderr=subprocess.STDOUT)
    while running.poll() is None:
        time.sleep(0.02)
        for name in watch.written():
            now = max(seconds(running.pid), counted)
            if name.endswith(".oantt"):
                costs[parts(name)] += now - counted
                counted = now
    watch.close()
    return costs, running.returncode
