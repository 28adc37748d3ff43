"""The files of edits that must be refused: lines `file:`, `old:` and `new:`, at most one line `refused:`, and at most one line `false:`.
The last names the clause that the edit breaks and says why.
"""
import collections
import re

# A change in a file of the crate: the start and the end of the old text, and its replacement.
Change = collections.namedtuple("Change", "file start end new")


class Fault(Exception):
    """The reason why an edit cannot be tried."""


def read(path, folder):
    """The changes that an edit makes in the files of its crate's folder, and the name in its line `refused:`, or None."""
    changes, refused = [], None
    file = old = None
    for line in path.read_text(encoding="utf-8").splitlines():
        word, parted, text = line.partition(":")
        text = text.removeprefix(" ")
        if not parted or word not in ("file", "old", "new", "refused", "false"):
            raise Fault(f"a line that is no `file:`, `old:`, `new:`, `refused:` or `false:`: {line[:80]}")
        if word == "file":
            file = text
        elif word == "refused":
            refused = text
        elif word == "old":
            old = text
        elif word == "new":
            changes.append(Change(file, *place(folder, file, old), text))
            old = None
    if not changes or old is not None:
        raise Fault("it has no pair of `old:` and `new:`, or one that is not complete")
    return changes, refused


# A word that adds a branch to a function.
WAYS = re.compile(r"\b(?:if|match|return|while|for|loop|break|continue)\b|\?(?=[\s;,.)])|&&|\|\|(?=\s*[\w!(*&])")
# A call of a function, a method or a macro. A constructor of an enum or a struct begins with a capital letter, and runs nothing.
CALLS = re.compile(r"(?<!\bfn )\b(?!(?:if|match|while|for|in|return|fn|pub|as|move|let|mut|else|loop)\b)[a-z_]\w*!?(?:::<[^()]*>)?\(")
# A clause of a function, by its name if it has one, and a ghost member of an impl.
CLAUSES = re.compile(r"\bensures(?: (?P<name>\w+))? \{|\bghost (?P<member>\w+) ?[=:]")


def lines(path, word):
    """The texts of an edit's lines that begin with this word."""
    return [it.removeprefix(f"{word}:").strip() for it in path.read_text(encoding="utf-8").splitlines() if it.startswith(f"{word}:")]


def tried(path):
    """The text of an edit without its line `false:`, which no verdict depends on."""
    return "".join(it for it in path.read_text(encoding="utf-8").splitlines(keepends=True) if not it.startswith("false:"))


def adds_a_goal(path):
    """Whether an edit of code adds a branch, a return or a call. Then it adds a goal without an answer, and the goal might be true all the
    same."""
    old, new = ("\n".join(lines(path, word)) for word in ("old", "new"))
    is_more = any(collections.Counter(form.findall(new)) - collections.Counter(form.findall(old)) for form in (WAYS, CALLS))
    return is_more and any(it.endswith(".rt") for it in lines(path, "file"))


def broken_clause(path, folder):
    """The clause that an edit is said to break, and the reason, or None if no line names one."""
    said = lines(path, "false")
    if not said:
        return None
    clause, parted, why = said[0].partition(": ")
    files = [folder / it for it in lines(path, "file")]
    known = {it["name"] or it["member"] or "ensures" for file in files for it in CLAUSES.finditer(file.read_text(encoding="utf-8"))}
    if len(said) > 1 or not parted or not why or clause not in known:
        raise Fault(f"`false:` names no clause of its file, or does not say why it is broken: {said[0][:80]}")
    return clause, why


def place(folder, file, old):
    """The offset of the old text, which has to occur once in the file."""
    if not file or not old or not (folder / file).is_file():
        raise Fault(f"no old text, or no file {file}")
    text = (folder / file).read_text(encoding="utf-8")
    if text.count(old) != 1:
        raise Fault(f"`{old}` stands {text.count(old)} times in {file}")
    at = text.index(old)
    return at, at + len(old)
