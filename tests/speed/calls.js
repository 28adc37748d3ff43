// Measures calls of the page's modules in Node beside markdown-it and marked (Debian: node-markdown-it, node-marked), if they are there.
//
//     node tests/speed/calls.js [FOLDER..]
//
// Each FOLDER has pulldown_cmark.js with its modules; the default is web/. The texts are one of 21 bytes, the first 938 characters of README.md,
// and the first 22,000 of docs/GRAMMAR.md. Each way has a process of its own, and the processes take turns. After some calls for the compilers of
// Node, each process measures many rounds of a few milliseconds; the best round of all counts, so that other work on the machine matters little.
// Each line has the microseconds of a call for each text. Events are read to the last one. It is not part of make test.
"use strict";
const { execFileSync } = require("child_process");
const { readFileSync } = require("fs");
const { resolve } = require("path");
const TURNS = 3, WARM = 300, ROUNDS = 80, MILLISECONDS = 2;
const ROOT = resolve(__dirname, "../..");

const SHORT = "Hi, *you* and [me](a)";
const SMALL = readFileSync(`${ROOT}/README.md`, "utf8").slice(0, 938);
const LONG = readFileSync(`${ROOT}/docs/GRAMMAR.md`, "utf8").slice(0, 22_000);
const TEXTS = [SHORT, SMALL, LONG];

/** The number of events, each of which is read. */
const read = (events) => {
  let number = 0;
  for (const event of events) number += event.name === "Text" ? 1 : event.value === null ? 2 : 3;
  return number;
};

/** The functions of a folder's module. Without vectors it is the other module. */
const loaded = async (folder, hasVectors) => {
  const { validate } = WebAssembly;
  if (!hasVectors) WebAssembly.validate = () => false;
  const calls = await require(resolve(folder, "pulldown_cmark.js")).load();
  WebAssembly.validate = validate;
  return calls;
};

/** A package of Debian, or null. */
const found = (name) => {
  process.env.NODE_PATH = "/usr/share/nodejs";
  require("module").Module._initPaths();
  try {
    return require(name);
  } catch {
    return null;
  }
};

/** All ways to call, each a function that loads what it needs and returns the call. */
const waysOf = (folders) => {
  const ways = {};
  for (const folder of folders) {
    for (const hasVectors of [true, false]) {
      const name = `${folder}${hasVectors ? "" : " without vectors"}`;
      ways[`html: ${name}`] = async () => (await loaded(folder, hasVectors)).html;
      ways[`events: ${name}`] = async () => {
        const { events } = await loaded(folder, hasVectors);
        return (text) => read(events(text));
      };
    }
  }
  const markdownIt = found("markdown-it"), marked = found("marked");
  if (markdownIt) {
    const it = markdownIt({ html: true });
    ways["html: markdown-it"] = () => (text) => it.render(text);
    ways["tokens: markdown-it"] = () => (text) => it.parse(text, {}).length;
  }
  if (marked) {
    ways["html: marked"] = () => (text) => marked.marked(text);
    ways["tokens: marked"] = () => (text) => marked.lexer(text).length;
  }
  return ways;
};

/** Calls for some milliseconds, and returns the microseconds of a call. */
const timed = (call, text, milliseconds) => {
  const began = performance.now();
  let times = 0, now;
  do {
    call(text);
    times++;
    now = performance.now();
  } while (now - began < milliseconds);
  return ((now - began) * 1000) / times;
};

/** The microseconds of a call for a text: the best of all rounds. */
const measured = (call, text) => {
  timed(call, text, WARM);
  return Math.min(...Array.from({ length: ROUNDS }, () => timed(call, text, MILLISECONDS)));
};

const main = async () => {
  const [word, name, ...rest] = process.argv.slice(2);
  if (word === "--way") {
    const call = await waysOf(rest)[name]();
    console.log(JSON.stringify(TEXTS.map((text) => measured(call, text))));
    return;
  }
  const folders = process.argv.length > 2 ? process.argv.slice(2) : [`${ROOT}/web`], best = {};
  for (let turn = 0; turn < TURNS; turn++) {
    for (const way of Object.keys(waysOf(folders))) {
      const times = JSON.parse(execFileSync(process.execPath, [__filename, "--way", way, ...folders]));
      best[way] = times.map((it, number) => Math.min(it, best[way]?.[number] ?? Infinity));
    }
  }
  console.log(`microseconds a call, for texts of ${TEXTS.map((it) => Buffer.byteLength(it)).join(", ")} bytes`);
  for (const [way, times] of Object.entries(best)) console.log(`${times.map((it) => it.toFixed(1).padStart(9)).join("")}  ${way}`);
};

main();
