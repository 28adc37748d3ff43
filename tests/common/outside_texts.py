"""The texts on which the bindings and the page are tested."""
import json


def texts(root):
    """Each text of the outside vectors, if they are there, and of tests/texts/rows.json, once."""
    found = {}
    for file in sorted((root.parent / "shared" / "vectors").glob("*.json")):
        for example in json.loads(file.read_text()):
            found[example["markdown"]] = None
    for row in json.loads((root / "tests" / "texts" / "rows.json").read_text()):
        if "text" in row:
            found[row["text"]] = None
    return list(found)


def large_texts(root):
    """The flags and the bytes of each row that is composed of pieces and has twenty megabytes or more."""
    for row in json.loads((root / "tests" / "texts" / "rows.json").read_text()):
        text = "".join(piece * count for piece, count in row.get("pieces", ())).encode()
        if len(text) >= 20_000_000:
            yield row.get("flags", []), text
