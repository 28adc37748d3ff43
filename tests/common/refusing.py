"""Programs that refuse memory to themselves: how they are linked with tests/common/refuse.c, and how they are run."""
import os
import pathlib
import subprocess

ROOT = pathlib.Path(__file__).resolve().parent.parent.parent


def linked(kit, code, made, room):
    """Links object code to a program that refuses memory to itself, by the toolchain's own compiler and linker."""
    tools, shim = kit / "toolchain", room / "refuse.o"
    if not shim.exists():
        subprocess.run([tools / "bin" / "clang", "-O1", "-fPIC", "-fno-builtin", "-c", "-o", shim, ROOT / "tests" / "common" / "refuse.c"], check=True)
    lib = tools / "lib"
    first, last = [lib / it for it in ("Scrt1.o", "crti.o", "crtbeginS.o")], [lib / it for it in ("libc.so.6", "libc_nonshared.a", "libgcc.a", "crtendS.o", "crtn.o")]
    parts = [code, shim, kit / "c" / "libos_c.a", kit / "c" / "liblibc_c.a"]
    words = ["-pie", "--wrap=malloc", "--wrap=realloc", "--dynamic-linker", "/lib64/ld-linux-x86-64.so.2", "-o", made]
    subprocess.run([tools / "bin" / "ld.lld", *words, *first, *parts, *last], check=True)
    return made


def run(program, words, given, refused):
    """Runs a program that is refused its allocation of this number: what it writes, says and ends with, and whether it has that allocation."""
    told, telling = os.pipe()
    env = {"REFUSED": str(refused), "TOLD": str(telling)}
    ended = subprocess.run([program, *words], input=given, env=env, capture_output=True, check=False, timeout=60, pass_fds=(telling,))
    os.close(telling)
    with os.fdopen(told, "rb") as file:
        return (ended.stdout.decode(), ended.stderr.decode(), ended.returncode), file.read() == b"!"
