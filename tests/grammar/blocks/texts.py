"""Random texts, made of pieces that begin and end blocks."""
FRAGMENTS = ["\n"] * 14 + ["\n\n"] * 3 + [" "] * 6 + [
    "  ", "   ", "    ", "\t", "a", "b", "c", "> ", ">", "- ", "-", "1. ", "2. ", "* ", "+ ", "10) ", "# ", "## a", "===", "---", "***", "```",
    "~~~", "<div>", "</div>", "<pre>", "</pre>", "<!--", "-->", "<b>", "[a]: /u", "[a]:", "\r\n", "\r", "\"t\"", "é", "x y"]

# the pieces that the rules of an option read
FRAGMENTS_OF = {
    "tables": ["|", "|", "|", "|a|b|", "-|-", "|-|", "\\|", "a|b", ":-:|-", "|\n|-|\n", "a|b\n-|-\n", "\\\\|"],
    "footnotes": ["[^a]:", "[^a]: ", "[^a]:\n\n", "[^b c]:x", "[^a]", "[^"],
    "old-footnotes": ["[^a]:", "[^a]: ", "[^b]:x"],
    "tasklists": ["[ ] ", "[x] ", "- [x] a", "[X]"],
    "heading-attributes": ["{#b}", "\f{}", "{.c d=e}", " {", "}"],
    "yaml-metadata": ["---\n", "---\na\n---\n", "..."],
    "plus-metadata": ["+++\n", "+++"],
    "gfm": ["[!NOTE]", "> [!tip]\n", "[!WARNING] "],
    "definition-list": [": ", ":", "\n: b", "a\n: b\n", ":\n"],
}


def some_text(chance, names):
    """A text of up to 24 fragments, and the options with which it is read, chosen from these names."""
    flags = [name for name in names if chance.random() < 0.5]
    pool = FRAGMENTS + [fragment for flag in flags for fragment in FRAGMENTS_OF[flag] * 2]
    if chance.random() < 0.6:
        pool = chance.sample(pool, chance.randint(4, 14)) + ["\n"] * 2
    return "".join(chance.choice(pool) for _ in range(chance.randint(1, 24))).encode(), flags
