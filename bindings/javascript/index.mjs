// The package for `import`, in Node, and in a browser by a bundler that knows modules of CommonJS.
import core from "./pulldown_cmark.js";

// Bundlers find the two files by these lines.
const place = core.hasVectors() ? new URL("./module_simd.wasm", import.meta.url) : new URL("./module.wasm", import.meta.url);
const bytes = place.protocol === "file:" ? (await import("node:fs")).readFileSync(place) : await (await fetch(place)).arrayBuffer();
const { instance } = await WebAssembly.instantiate(bytes, {});

export const { html, events, references, merged, render, Stream, Change, version, NotUtf8Error, OutOfMemoryError, MalformedError } = core.callsOf(instance);
export const Options = { ...core.OPTIONS, GITHUB: core.GITHUB };
