// The part of tests/bindings/bindings_javascript.py that runs in Node: the functions of one of the page's modules, on cases of standard input.
//
//     node bindings_javascript.js FOLDER MODULE
//
// FOLDER has pulldown_cmark.js and records.js, and MODULE is a file of WebAssembly. It writes JSON: the answers for the cases, and the faults.
"use strict";
const { createHash } = require("crypto");
const { readFileSync } = require("fs");
const [folder, module_] = process.argv.slice(2);
const core = require(`${folder}/pulldown_cmark.js`), { recordsOf } = require(`${folder}/records.js`);
const calls = core.callsOf(new WebAssembly.Instance(new WebAssembly.Module(readFileSync(module_)), {}));
const { html, events, references, merged, render, Stream, Change, OPTIONS } = calls;
const faults = [];

const judge = (what, found, wanted) => {
  const [a, b] = [found, wanted].map((it) => JSON.stringify(it));
  if (a !== b) faults.push(`${what}: wanted ${b}, found ${a}`);
};
const isSame = (a, b) => Buffer.compare(a, b) === 0;

/** The answers for a text with options. The ways to the same answer are compared here. */
const answerFor = ([bits, text]) => {
  const found = events(text, bits), all = [...found], plain = html(text, bits), bytes = new TextEncoder().encode(text), ofBytes = events(bytes, bits);
  const what = `${JSON.stringify(text)} with ${bits}`;
  judge(`the length of ${what}`, found.length, all.length);
  judge(`the events by number of ${what}`, Array.from({ length: found.length }, (_, at) => found.at(at)), all);
  judge(`the last event of ${what}`, found.at(-1), all[all.length - 1]);
  judge(`no event after the last of ${what}`, found.at(found.length), undefined);
  judge(`render of the records of ${what}`, render(found), plain);
  judge(`safe render of the records of ${what}`, render(found, { safe: true }), html(text, bits, { safe: true }));
  judge(`render of the events of ${what}`, render(all), plain);
  judge(`render of the merged events of ${what}`, render(merged(found)), plain);
  judge(`the HTML of the bytes of ${what}`, html(bytes, bits), plain);
  if (!isSame(recordsOf(ofBytes), ofBytes.records)) faults.push(`the records of the events of ${what} differ from those of the library`);
  const sources = all.map(({ start, end }) => text.slice(start, end));
  judge(`the ranges of ${what}`, Array.from(ofBytes, ({ start, end }) => Buffer.from(bytes.subarray(start, end)).toString()), sources);
  const digest = createHash("sha256").update(ofBytes.records).digest("hex");
  return { html: plain, safe: html(text, bits, { safe: true }), events: all, merged: [...merged(found)], digest };
};

/** The HTML of some of the events of a text, in another order. */
const filtered = ([bits, text, numbers]) => {
  const all = [...events(text, bits)];
  return render(numbers.map((it) => all[it]));
};

/** The HTML of records, or the name of the error. */
const renderedOrNot = (base64) => {
  try {
    return { html: render(Uint8Array.from(Buffer.from(base64, "base64"))) };
  } catch (error) {
    return { error: error.name };
  }
};

/** What a call throws. */
const thrown = (call) => {
  try {
    call();
  } catch (error) {
    return `${error.name}: ${error.message}`;
  }
  return "nothing";
};

const start = (value) => ({ name: "Start", value });
const LINK = { name: "Link", linkType: "Inline", destUrl: "a", title: "", id: "" };
// Calls and the errors that they throw.
const WRONG = [
  [() => html(1), "TypeError: Markdown is a string or a Uint8Array, not number"],
  [() => html(null), "TypeError: Markdown is a string or a Uint8Array, not null"],
  [() => events({}), "TypeError: Markdown is a string or a Uint8Array, not object"],
  [() => references(), "TypeError: Markdown is a string or a Uint8Array, not undefined"],
  [() => html(Uint8Array.of(97, 255)), "NotUtf8Error: the text is not UTF-8"],
  [() => events(Uint8Array.of(97, 255)), "NotUtf8Error: the text is not UTF-8"],
  [() => references(Uint8Array.of(97, 255)), "NotUtf8Error: the text is not UTF-8"],
  [() => events(Uint8Array.of(97, 255), 0, { brokenLink: () => null }), "NotUtf8Error: the text is not UTF-8"],
  [() => html("a\ud800b"), "NotUtf8Error: the text has half of a pair of surrogates"],
  [() => events("\udc00"), "NotUtf8Error: the text has half of a pair of surrogates"],
  [() => html("a", 1), "RangeError: there is no such set of options: 1"],
  [() => events("a", 1 << 18), "RangeError: there is no such set of options: 262144"],
  [() => events("a", -1), "RangeError: there is no such set of options: -1"],
  [() => references("a", 2 ** 40), "RangeError: there is no such set of options: 1099511627776"],
  [() => html("a", "2"), "TypeError: options are a number, joined by |"],
  [() => html("a", 0.5), "TypeError: options are a number, joined by |"],
  [() => html("a", 0, { expansionLimit: -1 }), "RangeError: a limit is at least 0"],
  [() => html("a", 0, { safe: true, expansionLimit: 1 }), "RangeError: a call takes one of safe, expansionLimit and brokenLink"],
  [() => html("a", 0, { safe: true, brokenLink: () => null }), "RangeError: a call takes one of safe, expansionLimit and brokenLink"],
  [() => events("a", 0, { brokenLink: 1 }), "TypeError: brokenLink is no function"],
  [() => html("[a]", 0, { brokenLink: () => "b" }), "MalformedError: the answer for a link is no object"],
  [() => html("[a]", 0, { brokenLink: () => ({}) }), "MalformedError: the destination of the answer is undefined, not a string"],
  [() => html("[a]", 0, { brokenLink: () => ({ destUrl: "b", title: 1 }) }), "MalformedError: the title of the answer is number, not a string"],
  [() => html("[a]", 0, { brokenLink: () => { throw new EvalError("mine"); } }), "EvalError: mine"],
  [() => render(1), "TypeError: events are an iterable object, or the bytes of records"],
  [() => render(null), "TypeError: events are an iterable object, or the bytes of records"],
  [() => render([null]), "MalformedError: event 0: null is no event"],
  [() => render([{ name: "Rule", value: null }, { name: "Other" }]), 'MalformedError: event 1: there is no event "Other"'],
  [() => render([{ name: null }]), 'MalformedError: event 0: there is no event ""'],
  [() => render([{ name: "Text" }]), "MalformedError: event 0: the value of the event Text is null, not a string"],
  [() => render([{ name: "Code", value: 1 }]), "MalformedError: event 0: the value of the event Code is number, not a string"],
  [() => render([{ name: "Text", value: "\ud800" }]), 'MalformedError: event 0: "\\ud800" has half of a pair of surrogates'],
  [() => render([{ name: "Rule", value: "a" }]), "MalformedError: event 0: the event Rule has no value"],
  [() => render([{ name: "TaskListMarker", value: 1 }]), "MalformedError: event 0: there is no value of a task list marker 1"],
  [() => render([{ name: "Rule", value: null, start: -1 }]), "MalformedError: event 0: a start is -1, not an integer from 0 to 2 ** 53 - 1"],
  [() => render([{ name: "Rule", value: null, end: 0.5 }]), "MalformedError: event 0: an end is 0.5, not an integer from 0 to 2 ** 53 - 1"],
  [() => render([{ name: "Start", value: "Paragraph" }]), "MalformedError: event 0: the value of the event Start is no tag"],
  [() => render([{ name: "End", value: null }]), "MalformedError: event 0: the value of the event End is no tag"],
  [() => render([start({ name: "Div" })]), 'MalformedError: event 0: there is no tag "Div"'],
  [() => render([start({ name: "Heading", level: 7 })]), "MalformedError: event 0: there is no heading of the level 7"],
  [() => render([{ name: "End", value: { name: "Heading", level: 0 } }]), "MalformedError: event 0: there is no heading of the level 0"],
  [() => render([start({ name: "Heading", level: 1, classes: "a" })]), "MalformedError: event 0: the list of classes is no array"],
  [() => render([start({ name: "Heading", level: 1, attrs: ["a"] })]), "MalformedError: event 0: an attribute is no array"],
  [() => render([start({ name: "BlockQuote", kind: "Other" })]), 'MalformedError: event 0: there is no kind of a block quote "Other"'],
  [() => render([start({ name: "CodeBlock" })]), "MalformedError: event 0: there is no kind of a code block undefined"],
  [() => render([start({ name: "CodeBlock", kind: "Fenced" })]), "MalformedError: event 0: an info string is undefined, not a string"],
  [() => render([start({ name: "List", firstNumber: -1 })]), "MalformedError: event 0: the first number of a list is -1, not an integer from 0 to 2 ** 53 - 1"],
  [() => render([start({ name: "Table", alignments: ["Up"] })]), 'MalformedError: event 0: there is no alignment "Up"'],
  [() => render([start({ ...LINK, linkType: "Other" })]), 'MalformedError: event 0: there is no link type "Other"'],
  [() => render([start({ ...LINK, linkType: "WikiLink" })]), "MalformedError: event 0: there is no value of `hasPothole` undefined"],
  [() => render([start({ ...LINK, title: undefined })]), "MalformedError: event 0: a title is undefined, not a string"],
  [() => render([start({ name: "MetadataBlock", kind: null })]), "MalformedError: event 0: there is no kind of a metadata block null"],
  [() => render(Uint8Array.of(1, 2)), "MalformedError: the bytes are not the records of events"],
  [() => new Stream(1), "RangeError: there is no such set of options: 1"],
  [() => new Stream(0, { expansionLimit: -1 }), "RangeError: a limit is at least 0"],
  [() => new Stream(0, { safe: true, schemes: ["\ud800"] }), "NotUtf8Error: the text has half of a pair of surrogates"],
  [() => new Stream(0, { Safe: true }), "TypeError: there is no setting Safe, only safe, schemes, expansionLimit"],
  [() => new Stream(0, { schemes: ["tel"] }), "RangeError: schemes are for safe HTML: set safe too"],
  [() => new Stream(0, { expansionLimit: "5" }), "TypeError: a limit is a whole number"],
  [() => html("a", 0, { saef: true }), "TypeError: there is no setting saef, only safe, schemes, expansionLimit, brokenLink"],
  [() => html("a", 0, Object.create({ saef: true })), "TypeError: there is no setting saef, only safe, schemes, expansionLimit, brokenLink"],
  [() => html("a", 0, "safe"), "TypeError: settings are an object, not string"],
  [() => html("a", 0, null), "TypeError: settings are an object, not null"],
  [() => html("a", 0, { schemes: ["tel"] }), "RangeError: schemes are for safe HTML: set safe too"],
  [() => html("a", 0, { safe: true, schemes: "tel" }), "TypeError: schemes are a list of names, not string"],
  [() => html("a", 0, { safe: true, schemes: ["tel", "sms:"] }), 'RangeError: "sms:" is no scheme'],
  [() => html("a", 0, { safe: true, schemes: ["tel sms"] }), 'RangeError: "tel sms" is no scheme'],
  [() => html("a", 0, { expansionLimit: "5" }), "TypeError: a limit is a whole number"],
  [() => html("a", 0, { expansionLimit: 0.5 }), "TypeError: a limit is a whole number"],
  [() => html("a", 0, { expansionLimit: NaN }), "TypeError: a limit is a whole number"],
  [() => html("a", 0, { expansionLimit: true }), "TypeError: a limit is a whole number"],
  [() => events("a", 0, { safe: true }), "TypeError: there is no setting safe, only brokenLink"],
  [() => render([], { schemes: ["tel"] }), "RangeError: schemes are for safe HTML: set safe too"],
  [() => render([], { brokenLink: null }), "TypeError: there is no setting brokenLink, only safe, schemes"],
  [() => new Stream().push(null), "TypeError: Markdown is a string or a Uint8Array, not null"],
  [() => new Stream().push(3), "TypeError: Markdown is a string or a Uint8Array, not number"],
  [() => new Stream().push(Uint8Array.of(97, 255)), "NotUtf8Error: the text is not UTF-8"],
  [() => new Stream().push("a\ud800b"), "NotUtf8Error: the text has half of a pair of surrogates"],
];

/** Errors, and that a call after them works. */
const tryErrors = () => {
  for (const [call, wanted] of WRONG) judge(String(call).slice(6), thrown(call), wanted);
  judge("a call after the errors", html("*a*"), "<p><em>a</em></p>\n");
  const link = "[a](tel:1)", set = new Set(["sms", "tel"]);
  judge("schemes of a set", html(link, 0, { safe: true, schemes: set }), html(link, 0, { safe: true, schemes: [...set] }));
  const getter = new (class { get safe() { return true; } })(), hidden = Object.defineProperty({}, "safe", { value: true });
  for (const given of [Object.create({ safe: true }), getter, hidden]) judge("safe, inherited or hidden", html("<b>", 0, given), html("<b>", 0, { safe: true }));
  judge("settings that are undefined", html("<b>", 0, { safe: undefined, schemes: undefined, expansionLimit: undefined }), html("<b>"));
  judge("limits that no text reaches", [Infinity, 2n ** 70n].map((it) => html("[b]\n\n[b]: c", 0, { expansionLimit: it })), Array(2).fill(html("[b]\n\n[b]: c")));
  for (const [error, base] of [["NotUtf8Error", TypeError], ["MalformedError", TypeError], ["OutOfMemoryError", RangeError]]) {
    judge(`the class ${error}`, [typeof calls[error], calls[error].prototype instanceof base], ["function", true]);
  }
};

// Events without a range and with few fields, changed and unbalanced ones, and their HTML.
const MADE = [
  [[], ""],
  [[start({ name: "Paragraph" })], "<p>"],
  [[{ name: "End", value: { name: "Paragraph" } }, { name: "End", value: { name: "Emphasis" } }], "</p>\n</em>"],
  [[start({ name: "Heading", level: 2 }), { name: "Text", value: "<" }, { name: "End", value: { name: "Heading", level: 3 } }], "<h2>&lt;</h3>\n"],
  [[start({ name: "Heading", level: 1, id: "i", classes: ["a", "b"], attrs: [["c", null], ["d", "e"]] })], '<h1 id="i" class="a b" c="" d="e">'],
  [[start({ name: "List", firstNumber: 7 }), start({ name: "List" })], '<ol start="7">\n<ul>\n'],
  [[start({ name: "CodeBlock", kind: "Fenced", info: "rust x" })], '<pre><code class="language-rust">'],
  [[start({ ...LINK, destUrl: "a b", title: "c" }), { name: "SoftBreak" }], '<a href="a%20b" title="c">\n'],
  [[{ name: "TaskListMarker", value: true }, { name: "Rule" }, { name: "HardBreak", value: null }], '<input disabled="" type="checkbox" checked=""/>\n<hr />\n<br />\n'],
];

/** Events that no text has. */
const tryMade = () => {
  const text = (value, begin) => ({ name: "Text", value, start: begin, end: begin + 1 }), rule = { name: "Rule", value: null, start: 0, end: 1 };
  judge("merged texts", [...merged([text("a", 0), text("", 1), text("b", 2), rule, text("", 4), rule])], [{ ...text("ab", 0), end: 3 }, rule, text("", 4), rule]);
  judge("merged texts that are empty", [...merged([text("", 0), text("", 1), rule, text("", 2), text("", 3)])], [rule]);
  for (const [made, wanted] of MADE) judge(`render of ${JSON.stringify(made)}`, render(made), wanted);
  const number = 100_000, nested = Array.from({ length: number }, () => start({ name: "BlockQuote" }));
  judge("render of nested block quotes", render(nested), "<blockquote>\n".repeat(number));
};

/** Links without a definition, with a callback, and the definitions of a text. */
const tryLinks = () => {
  const text = "é [a] [b][] [c][d] [a]\n\n[e]: /e\n\n- [f]\n", asked = [];
  const given = { a: { destUrl: "/a", title: "t" }, b: { destUrl: "/b" }, d: { destUrl: "/d" }, f: null };
  const brokenLink = (link) => (asked.push(link), given[link.reference]);
  const defined = `${text}\n[a]: /a 't'\n[b]: /b\n[d]: /d\n`;
  judge("HTML with a callback", html(text, 0, { brokenLink }), html(defined));
  judge("the ranges that are asked for", asked.map(({ start, end }) => text.slice(start, end)).sort(), ["[a]", "[a]", "[b]", "[c][d]", "[f]"]);
  judge("the first question", asked[0], { linkType: "ShortcutUnknown", reference: "a", start: 2, end: 5 });
  const linkTypes = Array.from(events(text, 0, { brokenLink }), (it) => it.value?.linkType).filter(Boolean);
  judge("link types with a callback", linkTypes, ["ShortcutUnknown", "CollapsedUnknown", "ReferenceUnknown", "ShortcutUnknown"]);
  judge("a callback that answers nothing", html(text, 0, { brokenLink: () => undefined }), html(text));
  let chain = 0;
  const shown = html("[b][]".repeat(3000), 0, { brokenLink: () => (chain++, { destUrl: "/x" }) }), count = shown.split("<a href").length - 1;
  judge("a text in which each answer leads to one question", [2900 < count, 3000 < chain, chain < 3050], [true, true, true]);
  const unasked = () => faults.push("asked about a link that has a definition");
  judge("a callback that is not asked", html("[e]\n\n[e]: /e", 0, { brokenLink: unasked }), '<p><a href="/e">e</a></p>\n');
  const definitions = "é\n\n[b]: /b 'x'\n[A B]: <>\n[b]: /c\n";
  judge("definitions", references(definitions), [
    { label: "b", dest: "/b", title: "x", start: 3, end: 14 },
    { label: "A B", dest: "", title: null, start: 15, end: 24 },
  ]);
  judge("definitions of bytes", references(new TextEncoder().encode(definitions)).map((it) => it.start), [4, 16]);
  judge("no definitions", references("[a] [b](c)"), []);
};

/** The lines of events, and entities. */
const tryTexts = () => {
  const text = "é\r\n\r\n# b\r\n\rc\n\né *d*", found = events(text), bytes = new TextEncoder().encode(text), ofBytes = events(bytes);
  const placesIn = (sequence) => [...sequence].filter((it) => it.name === "Start").map((it) => Object.values(sequence.placeOf(it)));
  judge("lines and columns", placesIn(found), [[1, 1], [3, 1], [5, 1], [7, 1], [7, 3]]);
  judge("lines and columns of bytes", placesIn(ofBytes), [[1, 1], [3, 1], [5, 1], [7, 1], [7, 4]]);
  judge("an entity that is not one of eleven", html("&ouml;&copy;"), "<p>&amp;ouml;©</p>\n");
  const named = "&ouml;&NotEqualTilde; [a](&ouml;)", all = OPTIONS.ALL_ENTITIES, shown = '<p>ö\u2242\u0338 <a href="%C3%B6">a</a></p>\n';
  const ways = [html(named, all), render(events(named, all)), html(named, all, { safe: true }), html(named, all, { expansionLimit: 0 }), html(named, all, { brokenLink: () => null })];
  judge("all entity names", ways, ways.map(() => shown));
  judge("an entity in a definition", references("[a]: &ouml;", all)[0].dest, "ö");
  const call = events("[a](tel:1) <b>");
  judge("safe HTML of events", [render(call, { safe: true }), render([...call], { safe: true, schemes: ["sms", "tel"] })], ['<p><a href="">a</a> &lt;b&gt;</p>\n', '<p><a href="tel:1">a</a> &lt;b&gt;</p>\n']);
  const ofOtherRealm = require("vm").runInNewContext("Uint8Array.of(42, 97, 42)");
  judge("bytes of another realm", [html(ofOtherRealm), render(events(ofOtherRealm))], ["<p><em>a</em></p>\n", "<p><em>a</em></p>\n"]);
  judge("no events", [events("").length, [...events("")], events("").at(0)], [0, [], undefined]);
  judge("a text with a byte order mark", [...events("\ufeffa")].map((it) => it.value), [{ name: "Paragraph" }, "\ufeffa", { name: "Paragraph" }]);
};

// Pieces of texts that grow. Texts of the first ones define nothing.
const PIECES = [
  "a", "b c", "\n", "\n\n", "\n\n", "\r", "- ", "1. ", "> ", "# ", "    ", "```\n", "`", "*", "**", "~~", "$", "<div>\n", "<!--", "-->", "|", "a|b\n-|-\n",
  "---\n", "===\n", "\t", "é", "\u{1f600}", "\ufeff", "\0", "![", "](u)", "[", "]", "<b>", "&amp;", "\\", ":", ": d\n", "+++\n", "> [!NOTE]\n", "a\n\nb\n\n",
  "]: /u\n", "[a]: /u\n\n", "[^x]: n\n\n", "[a]",
];
const UNDEFINED = 41, TEXTS = 120;

/** A function that returns random integers below a number, always the same ones. */
const drawn = () => {
  let seed = 1;
  return (below) => (seed = (Math.imul(seed, 1103515245) + 12345) >>> 0, (seed >>> 8) % below);
};

/** A random text, as chunks of bytes or of a string. A chunk may end inside a character. Some texts have a definition late. */
const randomChunks = (draw) => {
  const choice = draw(2) ? PIECES.length : UNDEFINED, longest = [1, 4, 20][draw(3)], chunks = [];
  const part = (most) => Array.from({ length: draw(most) }, () => PIECES[draw(choice)]).join("");
  const text = part(30) + ["", "\n\n[a]: /b\n\n"][draw(2)] + part(10), whole = draw(2) ? text : new TextEncoder().encode(text);
  for (let at = 0; at < whole.length; ) {
    const end = at + 1 + draw(longest);
    chunks.push(whole.slice(at, end));
    at = end;
  }
  return chunks;
};

/** The text of chunks, without a character that they do not end. */
const textOf = (chunks) => {
  if (typeof chunks[0] === "string") return chunks.join("").replace(/[\ud800-\udbff]$/, "");
  return new TextDecoder("utf-8", { ignoreBOM: true }).decode(Buffer.concat(chunks), { stream: true });
};

/** One text that grows, compared with its whole HTML after each refresh. Returns how often it had settled HTML, and how often that was dropped. */
const growOne = (draw) => {
  const bits = [0, 2 | 4 | 8 | 16 | 2048, 2 | 8 | 32 | 8192, Object.values(OPTIONS).reduce((a, b) => a | b)][draw(4)];
  const wishes = [{ expansionLimit: [0, 1, 100_000][draw(3)] }, { safe: true }, { safe: true, schemes: ["tel"] }][draw(3)];
  const stream = new Stream(bits, wishes), pushed = [], counts = [0, 0];
  let page = "";
  for (const chunk of randomChunks(draw)) {
    stream.push(chunk);
    pushed.push(chunk);
    if (draw(5) === 0) continue;
    const isAnew = stream.refresh() === Change.ANEW, text = textOf(pushed), what = `${JSON.stringify(text)}, which grows, with ${bits}`;
    if (isAnew) [page, counts[1]] = [stream.settled, counts[1] + 1];
    page += stream.added;
    counts[0] += page !== "";
    judge(`the text ${what}`, stream.text, text);
    judge(`the HTML of ${what}`, stream.html, html(text, bits, { expansionLimit: wishes.safe ? null : 100_000, ...wishes }));
    judge(`the settled HTML of ${what}`, [stream.settled, stream.settled + stream.tail, isAnew && page !== ""], [page, stream.html, false]);
    judge(`whether a refresh is due after ${what}`, stream.isDue, false);
  }
  return counts;
};

/** One block of 20,000 bytes in chunks of 10, read by refreshes that are due: at most 18 bytes are read for each byte. */
const tryDue = () => {
  const stream = new Stream(), chunk = "words and ";
  let calls = 0, read = 0;
  for (let count = 1; count <= 2000; count++) {
    stream.push(chunk);
    if (!stream.isDue && count < 2000) continue;
    stream.refresh();
    calls += 1;
    read += chunk.length * count;
  }
  judge("refreshes that are due", [read <= 18 * stream.text.length, calls > 50 && calls < 200, stream.html], [true, true, html(stream.text)]);
};

/** Texts that grow: random ones, and wrong chunks, after which the text and its HTML are as before. */
const tryStreams = () => {
  const draw = drawn(), counts = [0, 0];
  for (let at = 0; at < TEXTS; at++) growOne(draw).forEach((it, place) => (counts[place] += it));
  judge("settled HTML was seen and was dropped", [counts[0] > TEXTS, counts[1] > 2], [true, true]);
  const bytes = (...all) => Uint8Array.from(all);
  for (const [before, wrong] of [[bytes(97, 195), bytes(97)], [bytes(97, 195), "a"], ["a\ud83d", "b"], ["a\ud83d", bytes(98)], ["a", bytes(169)], ["a", {}]]) {
    const stream = new Stream();
    stream.push("# a\n\n");
    stream.push(before);
    stream.refresh();
    const state = () => [stream.text, stream.settled, stream.added, stream.tail, stream.endsInsideCharacter], wanted = state();
    judge(`a wrong chunk ${JSON.stringify(wrong)}`, [/Error/.test(thrown(() => stream.push(wrong))), state()], [true, wanted]);
    stream.push("");
    stream.push(bytes());
    judge("empty chunks", state(), wanted);
  }
  const parts = new Stream();
  for (const chunk of ["\ud83d", "\ude00", bytes(195), bytes(169), "b"]) parts.push(chunk);
  judge("characters in parts", [parts.text, parts.endsInsideCharacter, parts.refresh(), parts.html], ["\u{1f600}éb", false, Change.GROWN, "<p>\u{1f600}éb</p>\n"]);
};

/** The ways to the HTML of a text whose names of entities are not all known. */
const entities = () => {
  const text = "&ouml;&copy; [a]\n\n[a]: &ouml;&copy;\n", plain = html(text), [{ dest: destUrl }] = references(text);
  judge("the HTML of events", render(events(text)), plain);
  judge("the HTML with a callback", html(text, 0, { brokenLink: () => null }), plain);
  judge("the safe HTML", html(text, 0, { safe: true }), plain);
  judge("the definitions", render([start({ name: "Link", linkType: "Inline", destUrl, title: "", id: "" })]), plain.match(/<a.*?>/)[0]);
  return plain;
};

const { cases, filters, damaged } = JSON.parse(readFileSync(0, "utf8"));
tryErrors();
tryMade();
tryLinks();
tryTexts();
tryStreams();
tryDue();
const answers = { cases: cases.map(answerFor), filters: filters.map(filtered), damaged: damaged.map(renderedOrNot), entities: entities(), version: calls.version() };
process.stdout.write(JSON.stringify({ answers, faults }));
