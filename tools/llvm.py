"""The code that the toolchain's build passes to its clang, so that other tools can compile it in another way."""
import os
import pathlib
import subprocess

# A replacement for clang: it keeps its input and its arguments, and passes them on.
KEEPING = """#!/bin/sh
for it in "$@"; do case $it in *.bc) cp "$it" "{room}/module.bc"; printf '%s\\n' "$@" > "{room}/words";; esac; done
exec "{clang}" "$@"
"""


class Code:
    """A crate's code as an LLVM module, and the toolchain's own call of clang for it."""

    def __init__(self, rt, crate, room):
        """Builds a crate whose proofs are kept (`make`), and keeps the input of clang in the folder `room`. Fails if the build does."""
        tools, self.clang = room / "tools", pathlib.Path(rt.KIT) / "toolchain" / "bin" / "clang"
        (tools / "bin").mkdir(parents=True)
        (tools / "lib").symlink_to(self.clang.parent.parent / "lib")
        for tool in self.clang.parent.iterdir():
            if tool.name != "clang":
                (tools / "bin" / tool.name).symlink_to(tool)
        script = tools / "bin" / "clang"
        script.write_text(KEEPING.format(room=room, clang=self.clang))
        script.chmod(0o755)
        os.makedirs(f"{crate.folder}/out", exist_ok=True)
        made = room / ("program.o" if crate.is_program else "library.a")
        with open(room / "log", "w") as crate.out:
            words = [*crate.words([]), "--toolchain", str(tools), "--backend", "llvm", *rt.rtlib.KEPT, "-o", str(made)]
            status = crate.call(rt.rtlib.RATTLE, "build", *words)
        self.bitcode = room / "module.bc"
        if status or not self.bitcode.exists():
            raise RuntimeError(f"{crate.name} is not built:\n{(room / 'log').read_text()[-2000:]}")
        self.words = (room / "words").read_text().splitlines()

    def compiled(self, made, *more):
        """Compiles the code to the file `made`, with the arguments of the toolchain's own call and these."""
        at = self.words.index("-o") + 1
        words = [str(self.bitcode) if it.endswith(".bc") else it for it in [*self.words[:at], str(made), *self.words[at + 1 :]]]
        subprocess.run([self.clang, *words, *more], check=True)
        return made
