"""Tells whether the number of an edit covers everything that the check of its function read, as the modules kept by the check show."""
import collections
import re

IMPORT = re.compile(rb"^--@ import Rattle-(\w+)[-.](specs|proofs)\.(\S+)", re.M)
# The head of a module lists its imports; it is never longer than this.
HEAD = 1 << 18


def modules(kept, crate):
    """A dict from the name of each module that was kept for a crate's proofs, such as `tree.Tree.pop.Met`, to its imports."""
    found = collections.defaultdict(set)
    for path in kept.rglob(f"Rattle-{crate}[-.]proofs.*.oantt"):
        name = re.sub(rf"^Rattle-{crate}[-.]proofs\.", "", path.name)
        with path.open("rb") as module:
            found[name] |= {tuple(it.decode() for it in words) for words in IMPORT.findall(module.read(HEAD))}
    return found


def imports_of(found, function):
    """The imports of the modules of a function, which is given by its path, or by its name alone."""
    path = function.split("::")
    is_its = re.compile((re.escape(".".join(path[1:])) if len(path) > 1 else rf"(?:.*\.)?{path[0]}") + r"\.")
    return {it for name, imports in found.items() if is_its.match(name) for it in imports}


def is_covered(stands, crate, kind, parts):
    """Whether an import of a crate of this repository is among the inputs that an edit's number covers."""
    folder = stands.sources.crates / crate
    for count in range(len(parts), 0, -1):
        file = (folder / kind).joinpath(*parts[:count]).with_suffix(".antt")
        if file.is_file():
            return file in stands.files
    at = folder / "src"
    while len(parts) > 1 and ((at / parts[0]).with_suffix(".rt").is_file() or (at / parts[0]).is_dir()):
        at, parts = at / parts[0], parts[1:]
    # modules that the toolchain makes for a crate's root, a file or a type, such as its drop code, are not items
    if not parts or "+" in parts[0] or parts[0].startswith("The"):
        return True
    names = {(item.name, item.owner) for item, _ in stands.pieces if item.file.is_relative_to(folder)}
    if not parts[0][0].isupper():
        return any(name == parts[0] for name, _ in names)
    types = {owner or name for name, owner in names if parts[0].startswith(owner or name)}
    if len(parts) == 1 or parts[1][0].isupper() or (parts[0], None) in names:
        return bool(types)
    # a method that no item declares is derived for its type
    declared = {it.owner for it in stands.scope.methods[parts[1]]}
    return any((parts[1], it) in names or it not in declared for it in types)


def left_out(stands, found, function):
    """The imports that the check of a function read and that the edit's number does not cover, as a sorted list."""
    own, left = function.split("::")[1:], set()
    for crate, kind, name in imports_of(found, function):
        # a closure's modules are below `fn` and the name of its function
        parts = [it for it in name.split(".") if it != "fn"]
        parts = parts[1:] if parts[0] in ("contracts", "declared") else parts
        if (stands.sources.crates / crate).is_dir() and parts[: len(own)] != own and not is_covered(stands, crate, kind, parts):
            left.add(f"{crate}.{kind}.{name}")
    return sorted(left)
