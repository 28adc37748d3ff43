"""The toolchain's command rt as a module: it knows the crates, how each is checked, and how many checks the machine can run."""
import contextlib
import functools
import hashlib
import importlib.machinery
import importlib.util
import os
import shutil
import sys


def load_rt():
    """The command as a module."""
    path = os.path.realpath(shutil.which("rt") or sys.exit("the toolchain's command rt is not on the PATH"))
    loader = importlib.machinery.SourceFileLoader("rt_command", path)
    module = importlib.util.module_from_spec(importlib.util.spec_from_loader("rt_command", loader))
    loader.exec_module(module)
    return module


def is_current(rt, crate, keeps=False):
    """Whether the built library is that of the sources: rt's stamp says so, or it was built without a stamp, after the sources were written
    and after the libraries below it. With `keeps`, only a library with a stamp counts, because it contains its proofs."""
    if os.path.exists(os.path.join(os.path.dirname(crate.rlib), "stamp")):
        return crate.is_built()
    if keeps or not os.path.isdir(crate.rlib):
        return False
    made = os.path.getmtime(crate.rlib)
    below = crate.below()
    sources = (it for lib in [crate, *below] for it in rt.rtlib.files_of(lib.folder))
    return all(os.path.getmtime(it) < made for it in sources) and all(os.path.isdir(it.rlib) and os.path.getmtime(it.rlib) < made for it in below)


def lacking(rt, crates):
    """The libraries among these that are not current. The toolchain computes a stamp from the stamps of the libraries below: here each one
    once."""
    reckoned = rt.rtlib.Crate.stamp
    rt.rtlib.Crate.stamp = functools.lru_cache(None)(reckoned)
    try:
        return [it for it in crates if not is_current(rt, it)]
    finally:
        rt.rtlib.Crate.stamp = reckoned


def with_libraries(rt, root, name):
    """A crate whose libraries below are built, to be checked over their statements alone, as the gate does; otherwise the command ends."""
    crate = next((it for it in rt.rtlib.crates_below(str(root)) if it.name == name), None) or sys.exit(f"no crate {name}")
    lacking = [it.name for it in crate.below() if not is_current(rt, it)]
    if lacking:
        sys.exit(f"the library {lacking[0]} is not built: run make")
    rt.rtlib.Crate.cuts_libraries = True
    return crate


@contextlib.contextmanager
def alone_in(rt, crate):
    """Holds the lock of a crate's folder, for which every other command that works there waits."""
    held = rt.rtlib.lock([crate])
    try:
        yield
    finally:
        for it in held:
            os.close(it)


def build_library(rt, crate, flags, keeps):
    """Proves a library and writes it. Returns the status. With `keeps` the check begins with the work of an earlier one and keeps its own
    for the next one, and the library contains its proofs; otherwise it contains only its statements."""
    if keeps:
        return crate.build_rlib(flags, anew=False)
    with alone_in(rt, crate):
        folder = os.path.dirname(crate.rlib)
        shutil.rmtree(folder, ignore_errors=True)
        os.makedirs(folder)
        return crate.call(rt.rtlib.RATTLE, "build", *crate.words(flags, keeps=False), "--statements", "-o", crate.rlib)


def sources(rt, crate):
    """A digest of the code of a crate and of the crates below it, without definitions and proofs."""
    digest = hashlib.sha256()
    for lib in sorted([crate, *crate.below()], key=lambda it: it.name):
        for file in sorted(it for it in rt.rtlib.files_of(lib.folder) if it.endswith(".rt")):
            with open(file, "rb") as code:
                digest.update(f"{os.path.relpath(file, os.path.dirname(lib.folder))}\n".encode() + code.read())
    return digest.hexdigest()[:16]
