// The package for `require`, in Node.
"use strict";
const { readFileSync } = require("fs");
const { join } = require("path");
const { callsOf, hasVectors, GITHUB } = require("./pulldown_cmark.js");

const file = hasVectors() ? "module_simd.wasm" : "module.wasm";
const compiled = new WebAssembly.Module(readFileSync(join(__dirname, file)));
const { OPTIONS, ...calls } = callsOf(new WebAssembly.Instance(compiled, {}));
module.exports = { ...calls, Options: { ...OPTIONS, GITHUB } };
