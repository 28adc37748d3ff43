"""Compiles the proved code a second time, with a profile of its own runs, for `make dist`.

The toolchain's clang compiles the same LLVM module as for `make`, with the same arguments and those for profiles. It first adds counters; the
counted programs and the counted library read the Markdown files of this repository and the texts of tests/texts/rows.json. Then it inlines
code by the counts, adds counters once more, and the runs are repeated: a function that is inlined at several places is now counted at each.
At last it compiles with both profiles and a longer search for stores that nothing reads. So the compiler makes other choices, and nothing
else changes. The counts depend only on the code and on these texts, so the object code is the same each time. docs/PERFORMANCE.md has the
gain.

This needs llvm-profdata and the runtime of the counters in the version of the toolchain's clang (Debian: llvm-22 and libclang-rt-22-dev), and
a C compiler.
"""
import json
import os
import pathlib
import re
import shutil
import subprocess
import tempfile

import llvm

ROOT = pathlib.Path(__file__).resolve().parent.parent
MADE = ROOT / "bin" / "profiled"
RUNTIME = "lib/clang/{major}/lib/linux/libclang_rt.profile-x86_64.a"
# The profile covers only what the runs reach.
WITH_PROFILE = ("-Wno-profile-instr-unprofiled", "-Wno-profile-instr-missing", "-Wno-backend-plugin")
# With a profile the compiler puts so much code into one function that it gives up its search for stores that nothing reads. So it may take
# more steps than it does by default.
STEPS = {
    "dse-memoryssa-scanlimit": 5000, "dse-memoryssa-walklimit": 5000, "dse-memoryssa-path-check-limit": 5000,
    "dse-memoryssa-partial-store-limit": 100, "dse-memoryssa-defs-per-block-limit": 50000, "memssa-check-limit": 2000,
}
SEARCH = [it for name, steps in STEPS.items() for it in ("-mllvm", f"-{name}={steps}")] + ["-mllvm", "-enable-dse-initializes-attr-improvement"]
# How often a text of the table of tests is in its file, and how often the library reads it alone. Each is short, and a profile counts how
# often code runs. A call on a short text shows what each call does once.
REPEATED = 20
# The runs of each program on each text, by their arguments.
RUNS = {"mdhtml": ([], ["--github"], ["--safe"]), "mdevents": ([], ["--github"])}


class Tools:
    """LLVM's tools for profiles, of the version of the toolchain's clang."""

    def __init__(self, rt):
        clang = pathlib.Path(rt.KIT) / "toolchain" / "bin" / "clang"
        said = subprocess.run([clang, "--version"], capture_output=True, text=True, check=True).stdout
        self.major = re.search(r"clang version (\d+)", said)[1]
        merger = shutil.which(f"llvm-profdata-{self.major}") or shutil.which("llvm-profdata")
        self.merger = pathlib.Path(merger).resolve() if merger else None
        self.runtime = self.merger and self.merger.parent.parent / RUNTIME.format(major=self.major)
        self.compiler = shutil.which(os.environ.get("CC", "cc"))

    def lack(self):
        """What is missing, or nothing."""
        # Versions before 16 know no --version and fail.
        if not self.merger or f"LLVM version {self.major}." not in subprocess.run([self.merger, "--version"], capture_output=True, text=True).stdout:
            return f"llvm-profdata of LLVM {self.major} (Debian: llvm-{self.major})"
        if not self.runtime.exists():
            return f"the runtime of profiles of LLVM {self.major} (Debian: libclang-rt-{self.major}-dev)"
        return None if self.compiler else "a C compiler"


def texts(room):
    """The files that are read: the Markdown files of the repository, and a new file for each text of the table of tests."""
    listed = subprocess.run(["git", "ls-files", "-z", "*.md"], cwd=ROOT, capture_output=True, check=True).stdout.decode().split("\0")
    found = sorted(ROOT / it for it in listed if it)
    for number, text in enumerate(rows()):
        file = room / f"{number}.md"
        file.write_text(f"{text}\n\n" * REPEATED, newline="")
        found.append(file)
    return found


def rows():
    """The texts of the table of tests."""
    return list(dict.fromkeys(row["text"] for row in json.loads((ROOT / "tests" / "texts" / "rows.json").read_text()) if "text" in row))


def alone(room):
    """A file for each text of the table of tests, which has the text once."""
    found = [room / f"{number}.alone.md" for number, _ in enumerate(rows())]
    for file, text in zip(found, rows()):
        file.write_text(text, newline="")
    return found


def runs_of_program(name, program, files):
    """The calls of a counted program: for each its arguments and the file on its standard input."""
    return [([program, *words], file) for file in files for words in RUNS[name]]


def runs_of_library(program, files):
    """The one call of the program that calls the counted library on all files, and on each text of the table of tests alone."""
    return [([program, *files, *(it for it in alone(program.parent) for _ in range(REPEATED))], pathlib.Path(os.devnull))]


def counts(tools, code, parts, calls, room, *how):
    """Compiles the code of a crate with counters, runs it in the folder `room`, and returns the files with the counts. `parts` are the other
    objects of the counted program, in the order of the linker, and `calls` gives the runs of the program. `how` are further arguments."""
    room.mkdir()
    counted, program = code.compiled(room / "counted.o", *how), room / "counted"
    linked = [tools.compiler, "-static-pie", "-Wl,--gc-sections,-u,__llvm_profile_runtime", "-o", program]
    subprocess.run([*linked, *(counted if it is None else it for it in parts), tools.runtime], check=True)
    for number, (words, file) in enumerate(calls(program, texts(room))):
        with open(file, "rb") as given:
            profile = room / f"{number}.profraw"
            subprocess.run(words, stdin=given, stdout=subprocess.DEVNULL, check=True, env={**os.environ, "LLVM_PROFILE_FILE": str(profile)})
    return sorted(room.glob("*.profraw"))


def merged(tools, found, profile):
    """Adds up these files with counts, in the file `profile`."""
    subprocess.run([tools.merger, "merge", "-o", profile, *found], check=True)
    return f"-fprofile-use={profile}"


def compiled(tools, code, parts, calls, room):
    """The object code of a crate, compiled with a profile of its runs, which `calls` gives. `parts` are as for `counts`."""
    first = counts(tools, code, parts, calls, room / "first", "-fprofile-generate")
    with_first = merged(tools, first, room / "first.profile")
    second = counts(tools, code, parts, calls, room / "second", with_first, "-fcs-profile-generate", *WITH_PROFILE)
    with_both = merged(tools, [*first, *second], room / "both.profile")
    return code.compiled(room / "profiled.o", with_both, *WITH_PROFILE, *SEARCH)


def caller(tools, room):
    """The object of the program in C that calls the library on each file of its arguments."""
    made = room / "caller.o"
    subprocess.run([tools.compiler, "-O2", "-I", ROOT / "include", "-c", ROOT / "tools" / "profiled.c", "-o", made], check=True)
    return made


def made(rt, crates, link, lib):
    """Makes the programs and the library in bin/profiled/, laid out as in bin/. `crates` are by their names; `link` and `lib` are the tools of
    these names. Returns the folder, or as a text what is missing."""
    tools = Tools(rt)
    if tools.lack():
        return tools.lack()
    shutil.rmtree(MADE, ignore_errors=True)
    (MADE / "lib").mkdir(parents=True)
    kit = pathlib.Path(rt.KIT)
    system = [kit / "c" / "libos_c.a", kit / "c" / "liblibc_c.a"]
    for name in RUNS:
        with tempfile.TemporaryDirectory(prefix="profiled-") as scratch:
            room = pathlib.Path(scratch)
            part = compiled(tools, llvm.Code(rt, crates[name], room), [None, *system], lambda program, files: runs_of_program(name, program, files), room)
            hindrance = link.linked([part], kit, MADE / name)
            if hindrance:
                return hindrance
            if not link.is_well(name, MADE / name):
                raise RuntimeError(f"{name}, compiled with a profile, does not write what crates/{name}/stdout has")
    with tempfile.TemporaryDirectory(prefix="profiled-") as scratch:
        room = pathlib.Path(scratch)
        code = llvm.Code(rt, crates["pulldown_cmark_c"], room)
        part = compiled(tools, code, [caller(tools, room), None, *system], runs_of_library, room)
        whole = room / "whole.a"
        subprocess.run([kit / "toolchain" / "bin" / "llvm-ar", "rcsD", whole, part], check=True)
        archive, shared = MADE / "lib" / f"{lib.NAME}.a", MADE / "lib" / f"{lib.NAME}.so.{lib.VERSION}"
        lib.archive(whole, system[1:], archive, room)
        lib.shared(archive, shared, room)
        shutil.copy2(shared, MADE / "lib" / f"{lib.NAME}.so")
    return MADE
