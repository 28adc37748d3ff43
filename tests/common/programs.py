"""The built programs: the flags of their options, and a run of one."""
import functools
import operator
import os
import pathlib
import subprocess

ROOT = pathlib.Path(__file__).resolve().parent.parent.parent
FLAGS = """tables footnotes strikethrough tasklists smart-punctuation heading-attributes yaml-metadata plus-metadata
old-footnotes math gfm definition-list superscript subscript wikilinks highlight email-autolinks""".split()
# The bits of each flag's option, in the same order.
BITS = [2, 4, 8, 16, 32, 64, 128, 256, 516, 1024, 2048, 4096, 8192, 16384, 32768, 65536, 131072]
# The library's bit for all entity names. It is no option of the programs, which read a file of names.
ALL_ENTITIES = 1 << 30
# The flags that `--github` stands for.
GITHUB = "tables footnotes strikethrough tasklists gfm email-autolinks".split()
NONE, ALL = 0, functools.reduce(operator.or_, BITS)
# The flags of each set of options that is tried: none, each alone, and all.
WORDS_OF = {NONE: [], **{bits: [f"--{flag}"] for flag, bits in zip(FLAGS, BITS)}, ALL: [f"--{flag}" for flag in FLAGS]}


def lacking(where, what):
    """Reports a part that is not tried because the machine lacks a tool. Returns the status: with CI set this is a failure."""
    print(f"{where}: not tried: {what}")
    return 1 if os.environ.get("CI") else 0


def run(program, words, text):
    """The outcome of a program of bin/ with these arguments, and these bytes on its standard input."""
    return subprocess.run([ROOT / "bin" / program, *words], input=text, capture_output=True, check=False)
