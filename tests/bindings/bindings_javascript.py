"""The tests of the package for JavaScript and of the modules of the page, in Node. tests/bindings/run calls them.

Both modules, with vectors and without, give for each text the HTML of mdhtml, the safe HTML of the archive, the events of mdevents, and the
records of pcm_events. tests/bindings/bindings_javascript.js has what needs no other program: each way to the same answer, errors, callbacks, texts that grow. Here the
HTML of changed and unbalanced events, and of damaged records, is compared with that of pcm_render. All kinds of events, tags and links occur.

The package is put together as tools/dist does it: the examples of its README run over it, `require` and `import` give what index.d.ts
declares, and TypeScript, if it is there, checks index.d.ts and index.d.mts. Memory is refused to both modules.
"""
import base64
import hashlib
import itertools
import json
import pathlib
import random
import re
import shutil
import subprocess
import sys

import bindings_flat
import javascript_shape
sys.path.append(str(pathlib.Path(__file__).resolve().parent.parent / "common"))
from programs import ALL, NONE, ROOT, WORDS_OF

sys.path.insert(0, str(ROOT / "tools"))
import modules

NAMES = set(bindings_flat.KINDS[1:])
TAGS = set(bindings_flat.TAGS[1:])
# The types of links without a definition come from a callback alone.
LINKS = {*(it for it in bindings_flat.LINKS[:-2] if not it.endswith("Unknown")), "WikiLink"}
# Texts that have the kinds of events which the others may lack, and the first and last characters of each length in UTF-8.
KINDS_OF_TEXTS = ["\x7f\x80\u07ff\u0800\uffff\U00010000 *a*", "---\na: b\n---\n\n# a {#b .c d=e}\n\n<a@b.c> [[d]] [[e|f]] ![g][h] [i][] [j] $k$ $$l$$ ==m==\n\n[h]: i\n[i]: j\n[j]: k\n", "+++\na\n+++\n"]
FILTERS, DAMAGED = 300, 150
# The time limit for one run of Node, in seconds.
PATIENCE = 300
# A text with a name of an entity that is not one of the eleven.
ENTITIES = b"&ouml;&copy; [a]\n\n[a]: &ouml;&copy;\n"
# How Node runs as an engine without vectors.
NO_VECTORS = "WebAssembly.validate = () => false;"
PRELUDES = {"module.js": NO_VECTORS, modules.WITH_VECTORS: ""}


class Failed(Exception):
    """Node ends with a failure."""


class Node:
    """Node, and a folder with the package."""

    def __init__(self, program, room):
        self.program, self.room = program, room
        self.package = room / "node_modules" / "pulldown-cmark-proved"
        self.package.mkdir(parents=True)
        for name, data in modules.package().items():
            (self.package / name).write_bytes(data)

    def run(self, *words, given=b""):
        """The output of Node for these words, in the folder that has the package."""
        ended = subprocess.run([self.program, *map(str, words)], input=given, capture_output=True, check=False, cwd=self.room, timeout=PATIENCE)
        if ended.returncode:
            raise Failed(f"node {' '.join(map(str, words))[:200]}: {ended.stderr.decode(errors='replace')[-1500:]}")
        return ended.stdout


def events_split(records):
    """The records of each event."""
    found = []
    for record in bindings_flat.split(records):
        if record[0]:
            found.append([])
        found[-1].append(record)
    return [bindings_flat.joined(it) for it in found]


def cases_of(library, texts):
    """The cases for Node, and the answers of the library for C to those without a program."""
    draw = random.Random(1)
    cases = list(itertools.product((NONE, ALL), texts))
    filters, filtered, damaged, wanted = [], [], [], []
    for bits, text in draw.sample(cases, min(FILTERS, len(cases))):
        pieces = events_split(library.events(text, bits)[1])
        numbers = [draw.randrange(len(pieces)) for _ in range(draw.randrange(2 * len(pieces)))] if pieces else []
        filters.append([bits, text.decode(), numbers])
        filtered.append(library.render(b"".join(pieces[it] for it in numbers))[1].decode())
    for bits, text in draw.sample(cases, min(DAMAGED, len(cases))):
        records = library.events(text, bits)[1]
        for bad in bindings_flat.damaged(records, draw) if records else ():
            status, html = library.render(bad)
            damaged.append(base64.b64encode(bad).decode())
            wanted.append({"error": "MalformedError"} if status == bindings_flat.MALFORMED else {"html": html.decode()})
    return cases, {"filters": filters, "damaged": damaged}, {"filters": filtered, "damaged": wanted}


def kinds_found(answers):
    """The names of events, of tags and of link types that occur."""
    values = [it for answer in answers for it in answer["events"]]
    tags = [it["value"] for it in values if it["name"] == "Start"]
    return {it["name"] for it in values}, {it["name"] for it in tags}, {it["linkType"] for it in tags if "linkType" in it}


def compared(node, name, library, texts, wanted):
    """The faults of one module on all cases."""
    cases, given, expected = cases_of(library, texts)
    wasm = node.package / name.replace(".js", ".wasm")
    more = [[ALL, it] for it in KINDS_OF_TEXTS]
    asked = json.dumps({"cases": [[bits, text.decode()] for bits, text in cases] + more, **given}).encode()
    said = json.loads(node.run(ROOT / "tests" / "bindings" / "bindings_javascript.js", node.package, wasm, given=asked))
    answers, found = said["answers"], [f"{name}: {it}" for it in said["faults"]]
    for (bits, text), answer in zip(cases, answers["cases"]):
        events = javascript_shape.events_of(wanted["mdevents", bits, text], text.decode())
        right = {
            "html": wanted["mdhtml", bits, text].decode(),
            "safe": wanted.get(("safe", bits, text), answer["safe"].encode()).decode(),
            "events": events,
            "merged": javascript_shape.merged(events),
            "digest": hashlib.sha256(library.events(text, bits)[1]).hexdigest(),
        }
        found += [f"{name}: {key} of {text!r} with {WORDS_OF[bits]}: {answer[key]!r}" for key in right if answer[key] != right[key]]
    for key in ("filters", "damaged"):
        found += [f"{name}: {key}: {case!r}: {a!r} in place of {b!r}" for case, a, b in zip(given[key], answers[key], expected[key]) if a != b]
    entities = library.render(library.events(ENTITIES, NONE)[1])[1].decode()
    if answers["entities"] != entities:
        found.append(f"{name}: {ENTITIES!r}: {answers['entities']} in place of {entities}")
    kinds = kinds_found(answers["cases"])
    if kinds != (NAMES, TAGS, LINKS):
        found.append(f"{name}: these kinds do not occur: {[b - a for a, b in zip(kinds, (NAMES, TAGS, LINKS))]}")
    refused = sum("error" in it for it in expected["damaged"])
    print(f"bindings: {name}: {len(cases)} texts and options, {len(given['filters'])} filters, {refused} of {len(given['damaged'])} damaged records refused")
    return found if refused and len(given["filters"]) else [*found, f"{name}: nothing was filtered or refused"]


def blocks(file, word):
    """The code blocks of a Markdown file whose fence has this word."""
    return re.findall(rf"^```{word}\n(.*?)^```$", file.read_text(), re.S | re.M)


def examples(node):
    """The faults of the examples of the package's README, each with the output below it."""
    file = ROOT / "bindings" / "javascript" / "README.md"
    programs, wanted, found = blocks(file, "js"), blocks(file, "text"), []
    if len(programs) != len(wanted) or len(programs) < 5:
        return [f"bindings/javascript/README.md: {len(programs)} programs, {len(wanted)} outputs"]
    for program, output in zip(programs, wanted):
        (node.room / "example.cjs").write_text(program)
        said = node.run("example.cjs").decode()
        if said != output:
            found.append(f"an example of bindings/javascript/README.md writes {said!r} in place of {output!r}")
    print(f"bindings: the package for JavaScript: {len(programs)} examples of its README run")
    return found


def exports(node):
    """The faults of the names that the package exports, and of its choice between the modules."""
    declared = sorted(set(re.findall(r"^export declare (?:function|const|class) (\w+)", (node.package / "index.d.ts").read_text(), re.M)))
    keys = {
        "require": node.run("-p", "JSON.stringify(Object.keys(require('pulldown-cmark-proved')))"),
        "import": node.run("--input-type=module", "-e", "import * as it from 'pulldown-cmark-proved'; console.log(JSON.stringify(Object.keys(it)))"),
    }
    found = [f"{how} gives {it}, and index.d.ts declares {declared}" for how, it in keys.items() if sorted(json.loads(it)) != declared]
    for name, prelude in PRELUDES.items():
        other = next(it for it in modules.FILES if it != name).replace(".js", ".wasm")
        (node.package / other).rename(node.package / f"{other}.away")
        said = node.run("-e", prelude + "process.stdout.write(require('pulldown-cmark-proved').html('*a*'))").decode()
        said += node.run("--input-type=module", "-e", prelude + "const it = await import('pulldown-cmark-proved'); process.stdout.write(it.html('*a*'))").decode()
        (node.package / f"{other}.away").rename(node.package / other)
        if said != "<p><em>a</em></p>\n" * 2:
            found.append(f"{name} alone: {said!r}")
    return found


# Uses of each declaration. A line below an expected error has to be refused.
TYPED = """
import { html, events, references, merged, render, Stream, Change, version, Options, MalformedError, NotUtf8Error, OutOfMemoryError } from "pulldown-cmark-proved";
import type { BrokenLink, Event, Events, LinkDef, Tag, TagEnd } from "pulldown-cmark-proved";
const safe: string = html("a", Options.TABLES | Options.MATH, { safe: true, schemes: ["tel"] as const });
const github: string = html("~a~", Options.GITHUB);
const answered: string = html(new Uint8Array(), 0, { brokenLink: (link: BrokenLink) => ({ destUrl: link.reference }) });
const found: Events = events("a", 0, { brokenLink: () => null });
const last: Event | undefined = found.at(-1);
const lines: number[] = [...found].map((it) => found.placeOf(it).line);
const defined: LinkDef[] = references("[a]: b");
const titles: (string | null)[] = defined.map((it) => it.title);
function fieldOf(tag: Tag): string | number | boolean | null {
  switch (tag.name) {
    case "Heading": return tag.level + (tag.attrs[0]?.[1] ?? "").length;
    case "Link": case "Image": return tag.linkType === "WikiLink" ? tag.hasPothole : tag.destUrl + tag.title + tag.id;
    case "CodeBlock": return tag.kind === "Fenced" ? tag.info.length : tag.info;
    case "List": return tag.firstNumber;
    case "Table": return tag.alignments[0];
    case "BlockQuote": return tag.kind;
    case "MetadataBlock": return tag.kind;
    case "FootnoteDefinition": return tag.label;
    default: return tag.name === "Paragraph";
  }
}
const ordered = (end: TagEnd) => end.name === "List" && end.isOrdered;
const changed = Array.from(merged(found), (it): Event => (it.name === "Text" ? { ...it, value: it.value.toUpperCase() } : it));
const rendered: string = render(changed) + render(found) + render(found.records) + render([{ name: "Rule", value: null }]) + version();
const wrong: Error[] = [new MalformedError(), new NotUtf8Error(), new OutOfMemoryError()];
const stream: Stream = new Stream(Options.TABLES, { safe: true, schemes: ["tel"] as const, expansionLimit: 1n });
stream.push("a");
stream.push(new Uint8Array());
const change: Change = stream.refresh(), isAnew: boolean = change === Change.ANEW;
const shown: string = stream.text + stream.settled + stream.added + stream.tail + stream.html + String(stream.endsInsideCharacter || isAnew);
// @ts-expect-error
html(1);
// @ts-expect-error
events("a", "TABLES");
// @ts-expect-error
render([{ name: "Text", value: 1 }]);
// @ts-expect-error
render([{ name: "Start", value: { name: "Heading", level: 7, id: null, classes: [], attrs: [] } }]);
// @ts-expect-error
render([{ name: "Start", value: { name: "Link", linkType: "Inline", destUrl: "a" } }]);
// @ts-expect-error
const field = (tag: Tag) => tag.level;
// @ts-expect-error
html("a", 0, { brokenLink: () => "b" });
// @ts-expect-error
stream.push(1);
// @ts-expect-error
stream.tail = "a";
// @ts-expect-error
new Stream(0, { brokenLink: () => null });
"""
# The same for `import`, for which the package has no default export.
TYPED_IMPORT = """
// @ts-expect-error
import whole from "pulldown-cmark-proved";
"""


def types(node):
    """The faults that TypeScript finds in uses of the package; None if there is no TypeScript."""
    tsc = shutil.which("tsc")
    if not tsc:
        return None
    found = []
    for kind, file, text in (("node", "typed.ts", TYPED), ("nodenext", "typed.mts", TYPED + TYPED_IMPORT)):
        (node.room / file).write_text(text)
        module = "es2022" if kind == "node" else kind
        words = [tsc, "--noEmit", "--strict", "--target", "es2022", "--module", module, "--moduleResolution", kind, file]
        ended = subprocess.run(words, cwd=node.room, capture_output=True, text=True, check=False)
        if ended.returncode:
            found.append(f"tsc, {kind}: {ended.stdout[:1500]}")
    print("bindings: the package for JavaScript: its types checked by tsc")
    return found


def page_examples(node):
    """The faults of the examples of web/README.md, beside copies of the page's files."""
    place, file, found = node.room / "page", ROOT / "web" / "README.md", []
    place.mkdir()
    for name in ("pulldown_cmark.js", "records.js", *modules.FILES):
        shutil.copyfile(ROOT / "web" / name, place / name)
    programs, wanted = blocks(file, "js"), blocks(file, "html")
    if len(programs) != len(wanted) or not any("safe: true" in it for it in programs):
        return [f"web/README.md: {len(programs)} programs and {len(wanted)} texts of HTML; a program has to make safe HTML"]
    for program, output in zip(programs, wanted):
        (place / "hello.js").write_text(program)
        said = node.run(place / "hello.js").decode()
        if said != output:
            found.append(f"an example of web/README.md writes {said!r} in place of {output!r}")
    print(f"bindings: the page's modules: {len(programs)} examples of web/README.md run")
    return found


# The code that Node runs: the number of memory pages with which a module begins, and a call within a limit of pages.
PAGES = """
const {bytes} = require(process.argv[1]);
WebAssembly.instantiate(Buffer.from(bytes.replace(/\\s/g, ''), 'base64'), {}).then(({instance}) => console.log(instance.exports.memory.buffer.byteLength / 65536));
"""
WITHIN_PAGES = """
const fs = require('fs');
require(process.argv[1]).load().then((calls) => {
  const [text, bits, wanted, how] = JSON.parse(fs.readFileSync(0, 'utf8'));
  const answer = { html: () => calls.html(text, bits), events: () => calls.render(calls.events(text, bits)) }[how];
  let found;
  try { found = answer() === wanted ? 'all' : 'other'; }
  catch (error) { found = error instanceof calls.OutOfMemoryError && error.message === 'out of memory' ? 'refused' : String(error); }
  if (calls.html('*a*') !== '<p><em>a</em></p>\\n') found = 'nothing works afterwards';
  process.stdout.write(found);
});
"""


def refusals(node, name, written, refused):
    """Each growth of a module's memory but the first, refused in turn by a limit of pages that is raised until no growth is refused. The texts
    are many times longer than the others, since a short one needs one growth. After a refusal the next call succeeds. Returns the numbers of
    refusals for each text, of HTML and of events that are rendered, and the faults."""
    first = int(node.run("-e", PAGES, ROOT / "web" / name))
    counts, found = [], []
    for bits, text in refused:
        many, line = (text + "\n\n") * 4000, []
        for how in ("html", "events"):
            case = json.dumps([many, bits, written("mdhtml", WORDS_OF[bits], many.encode()).decode(), how]).encode()
            pages, number = first + 16, 0
            words = ["-e", PRELUDES[name] + WITHIN_PAGES, ROOT / "web" / "pulldown_cmark.js"]
            while (said := node.run(f"--wasm-max-mem-pages={pages}", *words, given=case)) == b"refused":
                # a wider step for the events, whose records are many times as long as the text
                pages, number = pages + (16 if how == "html" else 192), number + 1
            if said != b"all":
                found.append(f"{name}: {how} of {text!r} in {pages} pages: {said!r}")
            line.append(number)
        counts.append(line)
    return counts, found


# Calls after the memory of the module has grown to the maximum. Another instance makes the records. The first calls leave pieces of memory that
# are enough for short texts.
FULL = """
const { load } = require(process.argv[1]), whole = WebAssembly.instantiate;
let memory = null;
WebAssembly.instantiate = async (...words) => { const made = await whole(...words); memory = made.instance.exports.memory; return made; };
(async () => {
  const other = await load(), calls = await load(), records = other.events('>'.repeat(2e4)).records;
  const stream = new calls.Stream(), state = () => [stream.text.length, stream.settled, stream.tail];
  stream.push('# a\\n\\nb\\nc');
  stream.refresh();
  calls.html('*a*');
  calls.events('*a*');
  for (let pages = 65536; pages >= 1; pages = Math.floor(pages / 2)) try { for (;;) memory.grow(pages); } catch {}
  const said = [], tried = (call) => { try { call(); said.push('read'); } catch (error) { said.push(`${error.name}: ${error.message}`); } };
  for (const text of ['>'.repeat(3e6), '>'.repeat(2e4)]) {
    for (const name of ['html', 'events', 'references']) tried(() => calls[name](text));
    tried(() => calls.events(text, 0, { brokenLink: () => null }));
  }
  tried(() => calls.render(records));
  stream.push('>'.repeat(3e6));
  tried(() => stream.refresh());
  process.stdout.write(JSON.stringify([...said, state(), calls.html('*a*'), calls.events('*a*').length]));
})();
"""


def without_memory(node, name):
    """The faults of a module when there is no memory for a long text or to read a nested one, and enough for a short one after that."""
    given = json.loads(node.run("-e", PRELUDES[name] + FULL, ROOT / "web" / "pulldown_cmark.js"))
    wanted = ["OutOfMemoryError: out of memory"] * 10 + [[3_000_008, "<h1>a</h1>\n", "<p>b\nc</p>\n"], "<p><em>a</em></p>\n", 5]
    print(f"bindings: {name}: out of memory, and works afterwards")
    return [] if given == wanted else [f"{name} without memory: {given}"]
