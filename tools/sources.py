"""The inputs of the verdict on a wrong edit, as one number for each edit.

A function is proved by itself. Its goals come from its own text and contract, the contracts of the functions that it calls, the
declarations that all these name, and the definitions and lemmas that they and its proof import and name. The number of an edit covers these
inputs, found by names, and rather too many than too few. It covers no comments, no bodies of other functions, no derived traits, not the
module that something is in, and of the toolchain only the logic.
"""
import collections
import functools
import hashlib
import pathlib
import re
import subprocess

import definitions
import items

IMPORT = re.compile(r"\bRattle\.(\w+)\.(specs|proofs)\.([\w.]+)|\b(\w+)::(specs|proofs)::([\w:]+)")
COMMENT_LINE = re.compile(r"^\s*--.*\n", re.M)
# The module in an import of names, or of a module under another name: the text before it, its crate, and the text after it.
FROM_MODULE = re.compile(r"^(\s*(?:pub\s+)?use\s+)Rattle\.(\w+)\.[^\s{]+?(\.\{|\s+as\s)", re.M)
RENAMING = re.compile(r"([^\W\d]\w*)\s+as\s+([^\W\d]\w*)")


class Scope:
    """The items that functions of a crate can name, by their names; methods also by their types; and impl blocks."""

    def __init__(self, all_items):
        self.named, self.functions, self.methods, self.methods_of, self.blocks = (collections.defaultdict(list) for _ in range(5))
        for item in all_items:
            if item.kind == "impl":
                self.blocks[item.owner].append(item.block)
            elif item.kind == "fn" and item.owner is None:
                self.functions[item.name].append(item)
            elif item.kind == "fn":
                self.methods[item.name].append(item)
                self.methods_of[item.owner].append(item)
            elif item.kind not in ("use", "ghost use", "mod", "attribute"):
                self.named[item.name].append(item)


class Sources:
    def __init__(self, root):
        root = pathlib.Path(root)
        self.crates = root / "crates"
        self.below = {}
        for line in (root / "crates.txt").read_text(encoding="utf-8").splitlines():
            name, parted, below = line.partition(":")
            if parted and not name.startswith("#"):
                self.below[name.split()[0]] = [it for it in below.split() if (self.crates / it).is_dir()]
        # of the toolchain only its logic counts, whose digest is in its version: a wrong edit leaves a goal that is false in that logic
        version = subprocess.run(["rt", "version"], capture_output=True, text=True, check=True).stdout
        self.logic = re.search(r"\blogic (\w+)", version)[1]

    @functools.cache
    def text(self, path):
        return path.read_text(encoding="utf-8")

    @functools.cache
    def items_of(self, crate):
        """A dict from each source file of a crate to its items."""
        return items.read(sorted((self.crates / crate / "src").rglob("*.rt")))

    def items_in(self, file):
        return self.items_of(file.relative_to(self.crates).parts[0])[file]

    @functools.cache
    def scope(self, crate):
        found, left = set(), [crate]
        while left:
            name = left.pop()
            if name not in found:
                found.add(name)
                left += self.below.get(name, [])
        return Scope(item for name in sorted(found) for listed in self.items_of(name).values() for item in listed)

    def resolved(self, own, text):
        """The files that a text of this crate imports (definitions, lemmas or source files), each with the name that it declares."""
        for found in IMPORT.findall(text):
            crate, folder, module = found[:3] if found[0] else found[3:]
            crate = own if crate == "crate" else crate
            parts = re.split(r"\.|::", module.strip(".:"))
            at, ending = self.crates / crate / folder, ".antt"
            if parts[0] == "declared":
                at, ending, parts = self.crates / crate / "src", ".rt", parts[1:]
            for count in range(len(parts), 0, -1):
                file = at.joinpath(*parts[:count]).with_suffix(ending)
                if file.is_file():
                    yield file, parts[count] if count < len(parts) else None
                    break

    @functools.cache
    def named_in(self, crate, text):
        """The files of definitions and lemmas that a text of a crate imports, and the items of source files."""
        files, found = set(), set()
        for file, name in self.resolved(crate, text):
            if file.suffix == ".antt":
                files.add(file)
            else:
                found.update(it for it in self.items_in(file) if it.kind not in ("fn", "use", "ghost use") and name in (None, it.name))
        return files, found

    @functools.cache
    def imports(self, file):
        """The files of definitions and lemmas that a file depends on, including itself."""
        files, left = set(), [file]
        while left:
            path = left.pop()
            if path not in files:
                files.add(path)
                left += self.imported_in(path)[0] - files
        return files

    def imported_in(self, path):
        """The files that a file of definitions or lemmas imports itself, and the items of source files."""
        return self.named_in(path.relative_to(self.crates).parts[0], self.text(path))

    @functools.cache
    def digest(self, path):
        """A digest of a file without its comments. The module of this repository from which a name is imported does not count, since its
        content counts by itself; a module of the toolchain's crates does count."""
        without_module = lambda it: it[1] + it[3] if it[2] in self.below else it[0]
        text = FROM_MODULE.sub(without_module, COMMENT_LINE.sub("", self.text(path)))
        return hashlib.sha256(text.encode()).digest()

    @functools.cache
    def definitions(self, path):
        return definitions.read(self.text(path))

    def text_of(self, item):
        return self.text(item.file).encode()[item.start : item.end].decode()

    @functools.cache
    def imported_by(self, item):
        """The things that an item names by path: files of definitions and lemmas with all that they depend on, and items."""
        named, found = self.named_in(item.file.relative_to(self.crates).parts[0], self.text_of(item))
        return set().union(*(self.imports(it) for it in named)), found

    @functools.cache
    def used_by(self, ghost_use):
        """The things that an import of definitions names; and its words, or None if it imports an operator."""
        is_operator = "◌" in self.text_of(ghost_use)
        return *self.imported_by(ghost_use), None if is_operator else ghost_use.whole.words

    @functools.cache
    def renamings(self, file):
        """The imports of a file under other names, as pairs of the name and the other name."""
        return [found for it in self.items_in(file) if it.kind == "use" for found in RENAMING.findall(self.text_of(it))]

    @functools.cache
    def named_by(self, item, piece):
        """The things that a piece of an item names: files of definitions and further items, and the original names of things that it uses
        under other names."""
        files, found = self.imported_by(item)
        held, block = [it for it in self.items_in(item.file) if it.kind == "ghost use" and it.block is None], item.block
        while block is not None:
            held += [it for it in block.items if it.kind == "ghost use"]
            found = found | {it for it in block.items if it.kind not in ("fn", "use", "ghost use")}
            block = block.outer
        for files_of, items_of, words in map(self.used_by, held):
            if words is None or words & piece.words:
                files, found = files | files_of, found | items_of
        return files, found, {name for name, other in self.renamings(item.file) if other in piece.words}

    def stands(self, crate, changes, function):
        """The inputs of the verdict on an edit with these changes, which this function of the crate, or file of computed samples, has to
        refuse."""
        stands = Stands(self, crate)
        for change in changes:
            stands.add_place(self.crates / crate / change.file, change)
            # the words that only the new text names count too
            words = set(items.WORD.findall(change.new))
            stands.add_named(words, words, words)
        if function.startswith("proofs/"):
            stands.add_file(self.crates / crate / function)
        else:
            stands.add_function(function.split("::"))
        return stands.close()


class Stands:
    """The inputs of the verdict on an edit."""

    def __init__(self, sources, crate):
        self.sources, self.crate, self.scope = sources, crate, sources.scope(crate)
        self.files, self.pieces, self.words, self.functions, self.called = set(), set(), set(), set(), set()
        # Files that count as a whole: the proofs of the function, and the files that the edit changes.
        self.whole = set()
        # Pieces whose names were not followed yet.
        self.left = []
        for file in ("lib.rt", "main.rt"):
            for item in sources.items_of(crate).get(sources.crates / crate / "src" / file, []):
                if item.kind == "attribute":
                    self.add(item, item.shown)

    def add(self, item, piece):
        """Adds a piece of an item, and, if the item is in an impl block, the header of the block."""
        if (item, piece) not in self.pieces:
            self.pieces.add((item, piece))
            self.left.append((item, piece))

    def add_file(self, path):
        self.files |= self.sources.imports(path)
        self.whole.add(path)

    def add_place(self, file, change):
        """Adds the items of a file that an edit changes."""
        if file.suffix == ".antt":
            self.add_file(file)
            return
        text = self.sources.text(file)
        start, end = (len(text[:it].encode()) for it in (change.start, change.end))
        for item in self.sources.items_in(file):
            if item.start < end and start < item.end:
                self.add(item, item.whole)

    def add_function(self, path):
        """Adds all functions of the crate with this name, and of this type if the path has one, with their proofs."""
        own = [it for listed in self.sources.items_of(self.crate).values() for it in listed if it.kind == "fn" and it.name == path[-1]]
        for item in [it for it in own if it.owner and len(path) > 1 and path[-2].startswith(it.owner)] or own:
            self.add(item, item.whole)
        proofs = self.sources.crates / self.crate / "proofs"
        for place in [*proofs.rglob(path[-1]), *proofs.rglob(f"{path[-1]}.antt")]:
            around = (it for up in place.parents if proofs in up.parents for it in up.glob("*.antt"))
            for file in [*place.rglob("*.antt"), *around] if place.is_dir() else [place, *around]:
                self.add_file(file)

    def add_named(self, words, functions, methods):
        """Adds the things that these words name: a method if its type is named too, and all that a trait's impl block says about a type."""
        words, functions, methods = words - self.words, functions - self.functions, methods - self.called
        self.words |= words
        self.functions |= functions
        self.called |= methods
        found = [item for word in words for item in self.scope.named[word]]
        found += [item for word in functions for item in self.scope.functions[word]]
        found += [item for word in methods for item in self.scope.methods[word] if item.owner in self.words]
        found += [item for word in words for item in self.scope.methods_of[word] if item.name in self.called]
        blocks = [block for word in words for block in self.scope.blocks[word] if block.is_of_trait]
        found += [item for block in blocks for item in block.items if item.kind != "ghost use"]
        for item in found:
            self.add(item, item.shown)

    def close(self):
        while True:
            while self.left:
                item, piece = self.left.pop()
                files, found, other_names = self.sources.named_by(item, piece)
                self.files |= files
                for named in found:
                    self.add(named, named.whole)
                self.add_named(piece.words | other_names, piece.functions | other_names, piece.methods | other_names)
            words = {word for _, piece in self.pieces for word in piece.words}
            words = words.union(*(definitions.words_of(self.sources.text(it)) for it in self.whole))
            self.reached, words = definitions.reached([self.sources.definitions(it) for it in self.files - self.whole], words)
            # of the types that a file imports those count that are named by a definition which is reached
            for item in {it for file in self.files for it in self.sources.imported_in(file)[1] if it.name in words}:
                self.add(item, item.whole)
            if not self.left:
                return self

    def digests(self):
        return {piece.digest for _, piece in self.pieces} | {self.sources.digest(it) for it in self.whole} | self.reached

    def number(self, edit):
        sum_of = hashlib.sha256(f"{self.sources.logic}\0{edit}".encode())
        for digest in sorted(self.digests()):
            sum_of.update(digest)
        return sum_of.hexdigest()[:16]
