"""Checks that each list of options in the repository agrees with the code's.

The code's lists are the constants of crates/cmark_values/src/options.rt, with their bits, and the flags of
crates/program_settings/src/flags.rt. `faults` names each place that lacks an option, has one too many, or has other bits.
"""
import ast
import functools
import json
import operator
import pathlib
import re

ROOT = pathlib.Path(__file__).resolve().parent.parent.parent
OPTIONS_RT = "crates/cmark_values/src/options.rt"
FLAGS_RT = "crates/program_settings/src/flags.rt"
RUST = "bindings/rust/src/options.rs"
# The crate with the API of pulldown-cmark 0.9, and the options of that version.
RUST_OLD = "bindings/rust/patch-0.9/src/lib.rs"
OPTIONS_OLD = "TABLES FOOTNOTES STRIKETHROUGH TASKLISTS SMART_PUNCTUATION HEADING_ATTRIBUTES".split()
# The bit for all entity names, which calls of C take besides those of options.
ALL_ENTITIES = 1 << 30
# The flags of no option: the first is one of mdhtml only, the others are documented beside the flags.
OTHER_FLAGS = {"safe", "entities", "help", "version"}
# The words of documents for the options that the constant for GitHub's rules has.
WORDS = {"TABLES": "tables", "FOOTNOTES": "footnotes", "STRIKETHROUGH": "strikethrough", "TASKLISTS": "task lists", "GFM": "alerts", "EMAIL_AUTOLINKS": "email autolinks"}


def read(path):
    """The text of a file, by its path from the top."""
    return (ROOT / path).read_text(encoding="utf-8")


def part(path, begin, end):
    """The part of a file between two texts, of which the first one occurs once."""
    text = read(path)
    if text.count(begin) != 1:
        raise ValueError(f"{path}: {begin!r} occurs {text.count(begin)} times")
    return text.partition(begin)[2].partition(end)[0]


def bits_in(sum_of_bits):
    """The number that a sum such as `(1 << 9) | 4` is."""
    return functools.reduce(operator.or_, (int(one) << int(by or 0) for one, by in re.findall(r"(\d+)(?:\s*<<\s*(\d+))?", sum_of_bits)))


def constants():
    """The options of the code, each name with its bits, and the bits of the constant for GitHub's rules."""
    found = {name: bits_in(bits) for name, bits in re.findall(r"pub const (\w+): Options = Options\(([^;]*)\);", read(OPTIONS_RT))}
    github = found.pop("GITHUB")
    return {name.removeprefix("ENABLE_"): bits for name, bits in found.items()}, github


def flags_of_code():
    """The flags of the code in their order: the name of each, the name of its option, and its line of the help."""
    return re.findall(r'name: "([\w-]+)",\s*option: Options::(?:ENABLE_)?(\w+),\s*help: "([^"]*)"', read(FLAGS_RT))


def assigned(path, name):
    """The value of a constant of a script; of a `dict(zip(FLAGS, values))` the list of values."""
    for node in ast.parse(read(path)).body:
        if isinstance(node, ast.Assign) and getattr(node.targets[0], "id", None) == name:
            value = node.value
            if isinstance(value, ast.Call) and getattr(value.func, "id", None) == "dict":
                return list(ast.literal_eval(value.args[0].args[1]))
            if isinstance(value, ast.Call):
                return value.func.value.value.split()
            return [ast.literal_eval(it) for it in value.keys] if isinstance(value, ast.Dict) else ast.literal_eval(value)
    raise ValueError(f"{path} has no constant {name}")


def differences(place, found, wanted):
    """The options that a list lacks, has too many, or has with another value. Values are compared if both are dictionaries."""
    for name in sorted(set(wanted) - set(found)):
        yield place, f"it lacks the option {name}"
    for name in sorted(set(found) - set(wanted)):
        yield place, f"it has the option {name}, which the code does not have"
    if isinstance(found, dict) and isinstance(wanted, dict):
        for name in sorted(set(wanted) & set(found)):
            if found[name] != wanted[name]:
                yield place, f"it has {found[name]} for the option {name}, and the code has {wanted[name]}"


def in_sources(bits, github, _flags):
    """The lists in the code itself, in the definitions, and in the other languages."""
    named = re.findall(r'name: "ENABLE_(\w+)",\s*value: Options::ENABLE_\1,', read(OPTIONS_RT))
    yield from differences(f"{OPTIONS_RT}, NAMED", named, bits)
    in_table = part(OPTIONS_RT, "ghost table", "[] }")
    yield from differences(f"{OPTIONS_RT}, table", {name: int(it) for name, it in re.findall(r'"ENABLE_(\w+)", (\d+)', in_table)}, bits)
    small = {name.lower(): it for name, it in bits.items()}
    fields = re.findall(r"pub (\w+) : Bool", part("crates/cmark_grammar/specs/Options.antt", "record Options", "abbrev"))
    yield from differences("crates/cmark_grammar/specs/Options.antt", fields, small)
    for path, begin in (("crates/cmark_values/specs/Shown.antt", "\nshown_options set = "), ("crates/pulldown_cmark_c/specs/Calls.antt", "\noptions_of set = ")):
        of_bits = dict(re.findall(r"(\w+) = \w+ set (\d+);", part(path, begin, "}")))
        yield from differences(path, {name: int(it) for name, it in of_bits.items()}, small)
    # The calls of C take a further bit.
    names = {**bits, "ALL_ENTITIES": ALL_ENTITIES}
    places = {
        "include/pulldown_cmark.h": ("enum pcm_options", "};", r"PCM_(\w+) = (\d+)"),
        "bindings/python/pulldown_cmark/_library.py": ("class Options", "\n\n\n", r"([A-Z_]+) = ([1-9]\d*)"),
        "web/pulldown_cmark.js": ("const OPTIONS", "};", r"([A-Z_]+): (\d+)"),
    }
    for path, (begin, end, form) in places.items():
        found = {name: int(it) for name, it in re.findall(form, part(path, begin, end))}
        yield from differences(path, found, names)
        if [name for name in found if name in names] != [name for name in names if name in found]:
            yield path, "its options are in another order than those of the code"
    typed = part("bindings/javascript/index.d.ts", "export declare const Options", ";")
    yield from differences("bindings/javascript/index.d.ts", re.findall(r'"([A-Z_]+)"', typed), [*names, "GITHUB"])
    of_github = [name for name, it in bits.items() if it & github == it]
    for path, begin in (("include/pulldown_cmark.h", "#define PCM_GITHUB ("), ("bindings/python/pulldown_cmark/_library.py", "\n    GITHUB = "), ("web/pulldown_cmark.js", "const GITHUB = ")):
        joined = part(path, begin, "\n").rstrip(");").replace("PCM_", "").split(" | ")
        yield from differences(f"{path}, GITHUB", joined, of_github)
    known = sum(map(int, re.findall(r"\d+", part("crates/pulldown_cmark_c/specs/Calls.antt", "\nknown_bits = ", "\n"))))
    if known != functools.reduce(operator.or_, names.values()):
        yield "crates/pulldown_cmark_c/specs/Calls.antt", f"the bits with a meaning are {known}"
    yield from in_rust(bits, github)


def in_rust(bits, github):
    """The lists of the Rust crate. It has no option for email autolinks and for all entity names, as pulldown-cmark has none: it always
    reads them."""
    wanted = {name: it for name, it in bits.items() if name != "EMAIL_AUTOLINKS"}
    of_rust = re.findall(r"const ENABLE_(\w+) = ([^;]+);", read(RUST))
    yield from differences(RUST, {name: bits_in(it) for name, it in of_rust}, wanted)
    names = re.findall(r"ENABLE_(\w+)", part(RUST, "pub const GITHUB: Options = ", ";"))
    yield from differences(f"{RUST}, GITHUB", names, [name for name, it in wanted.items() if it & github == it])
    of_old = re.findall(r"const ENABLE_(\w+) = ([^;]+);", read(RUST_OLD))
    yield from differences(RUST_OLD, {name: bits_in(it) for name, it in of_old}, {name: bits[name] for name in OPTIONS_OLD})
    if bits_in(part(RUST, "const ALWAYS: u32 = ", ";")) != bits["EMAIL_AUTOLINKS"] | ALL_ENTITIES:
        yield RUST, "it does not always read email autolinks and all entity names"


def in_flags(bits, github, flags):
    """The flags of the code are those of the options, and the constant for GitHub's rules is that of its flags."""
    wanted = {**bits, "GITHUB": github}
    yield from differences(FLAGS_RT, [option for _, option, _ in flags], wanted)
    said = {name: int(it) for name, it in re.findall(r'codes "([\w-]+)", (\d+)', part("crates/program_settings/specs/Line.antt", "\nflags =", "\n\n"))}
    yield from differences("crates/program_settings/specs/Line.antt", said, {name: wanted[option] for name, option, _ in flags})
    short_for = next(told for name, _, told in flags if name == "github")
    yield from differences(f"{FLAGS_RT}, help of github", re.findall(r"--([\w-]+)", short_for), github_flags(bits, github, flags))


def github_flags(bits, github, flags):
    """The flags that `--github` stands for."""
    return [name for name, option, _ in flags if name != "github" and bits[option] & github == bits[option]]


def in_documents(bits, github, flags):
    """The tables of the documents and the manual pages."""
    names = [name for name, _, _ in flags]
    rows = re.findall(r"^\| `(?:ENABLE_)?(\w+)`[^|]*\| `--([\w-]+)` \| (\d+) \|$", read("docs/API.md"), re.M)
    yield from differences("docs/API.md", {option: (flag, int(it)) for option, flag, it in rows},
                           {option: (name, {**bits, "GITHUB": github}[option]) for name, option, _ in flags})
    for path in ("README.md", "docs/PROGRAMS.md"):
        first = " ".join(re.findall(r"^\| ([^|]*) \|", read(path), re.M))
        yield from differences(path, set(re.findall(r"`--([\w-]+)", first)) - OTHER_FLAGS, names)
    for page in ("share/man/man1/mdhtml.1", "share/man/man1/mdevents.1"):
        text = read(page).replace("\\-", "-")
        yield from differences(page, set(re.findall(r"^\.(?:B|BI|BR) (?:-\w \", \" )?--([\w-]+)$", text, re.M)) - OTHER_FLAGS, names)
    for path, begin in (("docs/PROGRAMS.md", "\n| `--github` | "), ("share/man/man1/mdhtml.1", "\n.B \\-\\-github\n"), ("share/man/man1/mdevents.1", "\n.B \\-\\-github\n")):
        told = part(path, begin, "\n").replace("\\-", "-")
        yield from differences(f"{path}, --github", re.findall(r"--([\w-]+)", told), github_flags(bits, github, flags))


def in_words(bits, github, flags):
    """The sentences that name the options for GitHub's rules in words, and the examples of the grammar's page: each option has one."""
    wanted = [WORDS.get(name, name) for name, it in bits.items() if it & github == it]
    places = {
        "docs/API.md": ("| `GITHUB`: the options for ", " |", wanted),
        "bindings/rust/README.md": ("`Options::GITHUB` is new: ", ".", [it for it in wanted if it != "email autolinks"]),
        RUST: ("/// The rules that GitHub reads: ", ".", [it for it in wanted if it != "email autolinks"]),
    }
    for path, (begin, end, words) in places.items():
        yield from differences(f"{path}, GITHUB", re.split(", | and ", part(path, begin, end)), words)
    shown = {flag for line in re.findall(r"^```(?:example|events) (.*)$", read("docs/GRAMMAR.md"), re.M) for flag in re.findall(r"--([\w-]+)", line)}
    yield from differences("docs/GRAMMAR.md, examples", shown, [name for name, _, _ in flags if name != "github"])


def in_tests(bits, github, flags):
    """The lists of the tests: each option is tried by itself, by a row, and by one of the two comparisons with the grammar in Python."""
    names = [name for name, _, _ in flags if name != "github"]
    of_flag = {name: bits[option] for name, option, _ in flags if name != "github"}
    listed = assigned("tests/common/programs.py", "FLAGS")
    yield from differences("tests/common/programs.py", dict(zip(listed, assigned("tests/common/programs.py", "BITS"))), of_flag)
    yield from differences("tests/common/programs.py, GITHUB", assigned("tests/common/programs.py", "GITHUB"), github_flags(bits, github, flags))
    for name in ("SHOWN_BY", "HELP_OF"):
        lines = assigned("tests/programs/run", name)
        if len(lines) != len(names):
            yield "tests/programs/run", f"{name} has {len(lines)} values for {len(names)} options"
    helps = {name: told for name, _, told in flags if name != "github"}
    yield from differences("tests/programs/run, HELP_OF", dict(zip(listed, assigned("tests/programs/run", "HELP_OF"))), helps)
    in_rows = {flag.removeprefix("--") for row in json.loads(read("tests/texts/rows.json")) for flag in row.get("flags", [])} - OTHER_FLAGS
    yield from differences("tests/texts/rows.json", in_rows, [*names, "github"])
    inline = [it.removeprefix("--") for it in assigned("tests/grammar/check_inlines", "FLAGS")]
    block = assigned("tests/grammar/blocks/texts.py", "FRAGMENTS_OF")
    yield from differences("tests/grammar/check_inlines and tests/grammar/blocks/texts.py", [*inline, *block], names)
    without_old = part("Makefile", "tests/grammar/check_blocks 500 2 ", "\n").split()
    yield from differences("Makefile, tests/grammar/check_blocks", without_old, [it for it in block if it != "old-footnotes"])
    of_reader = re.findall(r"^    (\w+): bool", part("tests/grammar/inlines/tokens.py", "class Options(NamedTuple):\n", "\n\n\n"), re.M)
    if of_reader != [it.replace("-", "_") for it in inline]:
        yield "tests/grammar/inlines/tokens.py", "the fields of Options are not the flags of tests/grammar/check_inlines, in their order"
    fuzzed = int(part("tests/bindings/fuzz.cc", "constexpr uint32_t ALL_OPTIONS = ", ";"), 16)
    if fuzzed != functools.reduce(operator.or_, bits.values()):
        yield "tests/bindings/fuzz.cc", f"its options have the bits {fuzzed}"
    tested = read("tests/library/units/base/text.rs")
    for call, wanted in (("Options::all()", functools.reduce(operator.or_, bits.values())), ("Options::GITHUB", github)):
        if f"{call}.bits(), {wanted})" not in tested:
            yield "tests/library/units/base/text.rs", f"it does not say that {call} has the bits {wanted}"


def faults():
    """Each place that does not agree with the code's lists, with what it says or lacks."""
    (bits, github), flags = constants(), flags_of_code()
    for lists in (in_sources, in_flags, in_documents, in_words, in_tests):
        try:
            yield from lists(bits, github, flags)
        except ValueError as fault:
            yield "tests/documents/option_lists.py", str(fault)
