"""The files of web/ that have the library as modules of WebAssembly: their form, and from which sources they were made."""
import base64
import hashlib
import pathlib
import re

import toolchain

ROOT = pathlib.Path(__file__).resolve().parent.parent
WITH_VECTORS = "module_simd.js"
FILES = ("module.js", WITH_VECTORS)
LIBRARY = "pulldown_cmark_c"
# The files, besides the code of the crates, from which the modules are made.
TOOLS = ("llvm.py", "web", "web_memory.c")


def digest_of_sources(rt):
    """The digest of the code of the library's crates."""
    return toolchain.sources(rt, next(it for it in rt.rtlib.crates_below(str(ROOT)) if it.name == LIBRARY))


def digest_of_tools():
    """The digest of the tools that make the modules."""
    return hashlib.sha256(b"".join((ROOT / "tools" / it).read_bytes() for it in TOOLS)).hexdigest()[:16]


def write(rt, file, module):
    """Writes the file that contains a module, with the digests of what it was made from."""
    text = base64.b64encode(module).decode()
    lines = "\n".join(text[at : at + 128] for at in range(0, len(text), 128))
    file.write_text(
        "// Made by tools/web from the sources and tools with these digests; see the page for what is proved of it.\n"
        f'"use strict";\nvar pulldownCmarkModule = {{\n  sources: "{digest_of_sources(rt)}",\n  tools: "{digest_of_tools()}",\n  bytes: `\n{lines}`,\n}};\n'
        'if (typeof module !== "undefined") module.exports = pulldownCmarkModule;\n'
    )


def module_of(file):
    """The bytes of the module in a file."""
    return base64.b64decode(re.sub(r"\s", "", file.read_text().partition("bytes: `")[2].partition("`")[0]))


def age(rt, folder=ROOT / "web"):
    """Why the modules in a folder are not those of the code, as a sentence; None if they are."""
    for name in FILES:
        file = folder / name
        if not file.exists():
            return f"there is no web/{name}: run make modules"
        text = file.read_text()
        if f'sources: "{digest_of_sources(rt)}"' not in text:
            return f"web/{name} is older than the code of the library: run make modules"
        if f'tools: "{digest_of_tools()}"' not in text:
            return f"web/{name} is older than the tools that make it: run make modules"
    return None


def package():
    """The files of the package for Node that are made of this repository, by their names in the package."""
    places = [it for it in (ROOT / "bindings" / "javascript").iterdir() if it.is_file()]
    places += [ROOT / "web" / it for it in ("pulldown_cmark.js", "records.js")]
    found = {it.name: it.read_bytes() for it in places}
    return {**found, **{name.replace(".js", ".wasm"): module_of(ROOT / "web" / name) for name in FILES}}
