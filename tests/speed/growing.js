// The processor's milliseconds for a text that arrives in chunks: node growing.js WEB FILE OPTIONS CHUNK EVERY. tests/speed/growing runs it. WEB is the
// folder of the page's modules. If the text is rendered anew, a call follows only one in EVERY chunks, and the time is multiplied.
"use strict";
const fs = require("fs"), path = require("path");
const [web, file, options, chunk, every] = process.argv.slice(2);
const text = fs.readFileSync(file, "utf8"), bits = Number(options), step = Number(chunk), many = Number(every);

/** The least milliseconds of three runs. */
const least = (run) => {
  const found = [];
  for (let number = 0; number < 3; number++) {
    const began = process.cpuUsage();
    run();
    const { user, system } = process.cpuUsage(began);
    found.push((user + system) / 1000);
  }
  return Math.min(...found);
};

/** The milliseconds if all of the text so far is rendered after each chunk. */
const anew = (render) =>
  many *
  least(() => {
    for (let end = step; end < text.length + step; end += step * many) render(text.slice(0, end));
  });

require(path.resolve(web, "pulldown_cmark.js"))
  .load()
  .then(({ Stream, html }) => {
    const streamed = () => {
      const stream = new Stream(bits);
      for (let from = 0; from < text.length; from += step) {
        stream.push(text.slice(from, from + step));
        stream.refresh();
      }
    };
    const found = { stream: least(streamed), anew: anew((it) => html(it, bits)) };
    try {
      const peer = require("markdown-it")(bits ? "default" : "commonmark");
      found["markdown-it"] = anew((it) => peer.render(it));
    } catch (error) {
      if (error.code !== "MODULE_NOT_FOUND") throw error;
    }
    process.stdout.write(JSON.stringify(found));
  });
