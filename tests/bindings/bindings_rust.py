#!/usr/bin/env python3
"""Tests the Rust crate of bindings/rust with cargo, without a network.

    tests/bindings/bindings_rust.py [--quick]

The crate's own tests, without features and with all of them, and those of its crate for version 0.9. The texts of tests/texts/rows.json: the HTML
that the crate makes of events, and the kinds and ranges of its events, have to be those that the programs write. The examples have to be
those of the README, and have to write the output below them. Two programs that name pulldown-cmark 0.13 and 0.9 have to build with one
`[patch.crates-io]` line.

tests/bindings/run calls this with the library of make lib, and tests/programs/dist with the packed crate. With --quick the library and the programs are
those of make quick. The crates that the tests need are taken from the folder of Debian's packages, if it is there; else cargo has to have
them already.
"""
import json
import os
import pathlib
import re
import shutil
import struct
import subprocess
import sys
import tempfile

sys.path.append(str(pathlib.Path(__file__).resolve().parent.parent / "common"))
from programs import BITS, FLAGS, ROOT, lacking

CRATE = ROOT / "bindings" / "rust"
DEBIAN = pathlib.Path("/usr/share/cargo/registry")
NEEDED = ["bitflags", "serde", "serde_derive", "unicase"]
EXAMPLES = ["outline", "links", "lint", "filter", "follow"]
# The options of pulldown-cmark, and the flag of the programs for a rule that it always applies.
OPTIONS = {flag: bits for flag, bits in zip(FLAGS, BITS) if flag not in ("highlight", "email-autolinks")}
ALWAYS = ["--email-autolinks", "--entities", str(ROOT / "share" / "entities.json")]
README_SAYS = "<p><del>HI</del>, <em>YOU</em></p>\n"
USER = """[package]
name = "user"
version = "0.1.0"
edition = "2021"

[dependencies]
pulldown-cmark = "{version}"

[patch.crates-io]
pulldown-cmark = {{ path = "{path}" }}
"""
USER_PROGRAM = """use pulldown_cmark::{html, Options, Parser};

fn main() {
    let mut out = String::new();
    html::push_html(&mut out, Parser::new_ext("~~a~~ &copy;", Options::ENABLE_STRIKETHROUGH));
    print!("{out}");
}
"""
USER_SAYS = "<p><del>a</del> ©</p>\n"


def sources():
    """The words that make cargo take crates from Debian's packages, if they are there."""
    if not all(any(DEBIAN.glob(f"{name}-[0-9]*")) for name in NEEDED):
        return []
    return ["--config", 'source.crates-io.replace-with="debian"', "--config", f'source.debian.directory="{DEBIAN}"']


def lack():
    """What this machine lacks to build the crate, or None."""
    if not shutil.which("cargo"):
        return "the Rust crate, for lack of cargo"
    with tempfile.TemporaryDirectory() as made:
        room = pathlib.Path(made)
        shutil.copyfile(CRATE / "Cargo.toml", room / "Cargo.toml")
        for name in ("build.rs", "src/lib.rs", "tests/rows.rs"):
            (room / name).parent.mkdir(exist_ok=True)
            (room / name).touch()
        if cargo(["generate-lockfile"], room).returncode:
            return f"the Rust crate, for lack of the crates {', '.join(NEEDED)}: Debian's librust-{{{','.join(NEEDED).replace('_', '-')}}}-dev"
    return None


def cargo(words, folder, **how):
    """The outcome of a command of cargo."""
    env = {**os.environ, "CARGO_NET_OFFLINE": "true", **how.pop("env", {})}
    return subprocess.run(["cargo", *sources(), *words], cwd=folder, env=env, capture_output=True, check=False, **how)


def packed(text):
    """A text of a case, after its length."""
    return struct.pack("<I", len(text)) + text


def write_cases(file, programs):
    """Writes the texts of tests/texts/rows.json with their HTML and their events, for tests/rows.rs of the crate. Returns their number."""
    cases = []
    for row in json.loads((ROOT / "tests" / "texts" / "rows.json").read_text()):
        flags = [it.removeprefix("--") for it in row.get("flags", ())]
        if "text" not in row or not all(it in OPTIONS for it in flags):
            continue
        text, bits = row["text"].encode(), 0
        for flag in flags:
            bits |= OPTIONS[flag]
        words = [*(f"--{it}" for it in flags), *ALWAYS]
        outputs = [subprocess.run([programs / it, *words], input=text, capture_output=True, check=True).stdout for it in ("mdhtml", "mdevents")]
        cases.append(struct.pack("<I", bits) + b"".join(map(packed, (text, *outputs))))
    file.write_bytes(b"".join(cases))
    return len(cases)


def blocks(text, word):
    """The code blocks of a Markdown text whose fence has this word."""
    return re.findall(rf"^```{word}\n(.*?)^```$", text, re.S | re.M)


class Trial:
    """The tests of one folder of the crate, over one archive."""

    def __init__(self, crate, archive, room):
        """`archive` is the folder of the archive, or None if it is in the crate."""
        self.crate, self.room, self.faults, self.tried = crate, room, [], []
        self.env = {"CARGO_TARGET_DIR": str(room / "target"), "PULLDOWN_CMARK_LIB_DIR": str(archive or crate / "native")}

    def judge(self, what, found, wanted):
        """Records a comparison."""
        self.tried.append(what)
        if found != wanted:
            self.faults.append(f"{what}\n  wanted {wanted!r}\n  found  {found!r}")

    def said(self, words, folder, **how):
        """The output of a command of cargo, or its failure."""
        ended = cargo(words, folder, env=self.env, **how)
        return ended.stdout.decode() if not ended.returncode else f"status {ended.returncode}: {(ended.stdout + ended.stderr).decode()[-3000:]}"

    def own_tests(self, programs):
        """The crate's own tests."""
        cases = write_cases(self.room / "cases", programs)
        self.env["PULLDOWN_CMARK_CASES"] = str(self.room / "cases")
        for words in ([], ["--features", "highlight,serde"]):
            said = self.said(["test", "--offline", "--no-fail-fast", *words], self.crate)
            self.judge(f"crate: its tests {' '.join(words)}", said if "status " in said else "", "")
            self.judge(f"crate: suites that pass {' '.join(words)}", said.count("test result: ok."), len([*(self.crate / "tests").iterdir()]) + 1)
            self.judge(f"crate: texts of tests/texts/rows.json {' '.join(words)}", re.findall(r"^rows: (\d+) compared$", said, re.M), [str(cases)])
        self.judge("crate: texts of tests/texts/rows.json", cases > 400, True)
        said = self.said(["test", "--offline"], self.crate / "patch-0.9")
        self.judge("crate: the tests for version 0.9", said.count("test result: ok.") if "status " not in said else said, 3)

    def examples(self):
        """The examples of the README, which are files of the crate."""
        readme = (self.crate / "README.md").read_text()
        sample = re.findall(r"^````markdown\n(.*?)^````$", readme, re.S | re.M)[0]
        part = readme.partition("\n````\n")[2].partition("\n## ")[0]
        programs, outputs = blocks(part, "rust"), re.findall(r"^```\n\n```\n(.*?)^```$", part, re.S | re.M)
        self.judge("crate: examples of the README", (len(programs), len(outputs)), (len(EXAMPLES), len(EXAMPLES)))
        (self.room / "place").mkdir()
        (self.room / "place" / "README.md").touch()
        for name, program, output in zip(EXAMPLES, programs, outputs):
            self.judge(f"crate: examples/{name}.rs in the README", program, (self.crate / "examples" / f"{name}.rs").read_text())
            words = ["run", "--quiet", "--offline", "--manifest-path", str(self.crate / "Cargo.toml"), "--example", name]
            self.judge(f"crate: the example {name}", self.said(words, self.room / "place", input=sample.encode()), output)

    def user(self, name, manifest, program, wanted):
        """A program over the crate."""
        folder = self.room / name
        (folder / "src").mkdir(parents=True)
        (folder / "Cargo.toml").write_text(manifest)
        (folder / "src" / "main.rs").write_text(program)
        self.judge(f"crate: {name}", self.said(["run", "--quiet", "--offline"], folder), wanted)

    def users(self):
        """Programs that switch by one line."""
        line = f'pulldown-cmark = {{ package = "pulldown_cmark_proved", path = "{self.crate}" }}'
        manifest = f'[package]\nname = "user"\nversion = "0.1.0"\nedition = "2021"\n\n[dependencies]\n{line}\n'
        self.user("a dependency", manifest, blocks((self.crate / "README.md").read_text(), "rust")[0], README_SAYS)
        for version in ("0.13", "0.9"):
            manifest = USER.format(version=version, path=self.crate / f"patch-{version}")
            self.user(f"a patch of {version}", manifest, USER_PROGRAM, USER_SAYS)

    def all(self, programs):
        """Everything. `programs` is the folder of mdhtml and mdevents."""
        self.own_tests(programs)
        self.examples()
        self.users()


def faults(archive, programs):
    """The faults of the crate in the repository over the archive in a folder, and what was compared."""
    with tempfile.TemporaryDirectory() as made:
        trial = Trial(CRATE, archive, pathlib.Path(made))
        trial.all(programs)
        return trial.faults, trial.tried


def main(words):
    if words not in ([], ["--quick"]):
        sys.exit(__doc__)
    built = ROOT / "bin" / "quick" if words else ROOT / "bin"
    needed = lack()
    if needed:
        return lacking("bindings_rust", needed)
    found, tried = faults(built / "lib", built)
    print(*found, sep="\n", end="\n" if found else "")
    print(f"bindings_rust: {len(tried)} tried, {len(found)} differ")
    return 1 if found else 0


if __name__ == "__main__":
    sys.exit(main(sys.argv[1:]))
