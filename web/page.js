// The page: the text typed on the left is shown on the right, as HTML, as its source and as events. Text that is added at the end is read as a
// text that grows: only the blocks that may still change are read and shown again.
"use strict";
(async () => {
  const SAMPLE = `# For *tonight*

1. **Bread**, from [the corner][shop]
2. For the pasta:
   - tomatoes &amp; basil
   - \`penne\`, 500 g

> Remember the
bag, says <https://example.com>.

[shop]: https://example.com/bread "Open until six"
`;
  const at = (id) => document.getElementById(id);
  const text = at("text"), behind = at("behind"), rendered = at("rendered"), source = at("source"), list = at("events");
  const calls = await pulldownCmark.load();
  at("version").textContent = calls.version();
  at("sources").textContent = pulldownCmarkModule.sources;

  // The switches.
  const switches = Object.entries(calls.OPTIONS).map(([name, bits]) => {
    const label = document.createElement("label"), box = document.createElement("input");
    box.type = "checkbox";
    box.id = `option-${name}`;
    label.append(box, name.toLowerCase().replaceAll("_", " "));
    at("options").append(label);
    return { box, bits };
  });
  const safe = at("safe");
  const options = () => switches.reduce((set, { box, bits }) => (box.checked ? set | bits : set), 0);
  const choose = (set) => switches.forEach(({ box, bits }) => (box.checked = (set & bits) === bits));

  // The state in the address: the options as a number, `s=0` if the HTML is not the safe one, and the text as URL-safe base64.
  const packed = (string) => {
    let bytes = "";
    for (const byte of new TextEncoder().encode(string)) bytes += String.fromCharCode(byte);
    return btoa(bytes).replaceAll("+", "-").replaceAll("/", "_").replace(/=+$/, "");
  };
  const unpacked = (string) => {
    const bytes = atob(string.replaceAll("-", "+").replaceAll("_", "/"));
    return new TextDecoder("utf-8", { ignoreBOM: true }).decode(Uint8Array.from(bytes, (it) => it.charCodeAt(0)));
  };
  let written = null;
  const write = () => {
    if (player) return;
    written = `#o=${options()}&t=${packed(text.value)}${safe.checked ? "" : "&s=0"}`;
    history.replaceState(null, "", written);
  };
  const read = () => {
    if (location.hash === written) return;
    stop();
    const state = new URLSearchParams(location.hash.slice(1));
    choose(Number(state.get("o")) || 0);
    safe.checked = state.get("s") !== "0";
    try {
      text.value = state.has("t") ? unpacked(state.get("t")) : SAMPLE;
    } catch {
      text.value = SAMPLE;
    }
    show();
  };

  // The range that an event comes from.
  const point = (event) => {
    const value = text.value;
    behind.replaceChildren();
    if (event) {
      const mark = document.createElement("mark");
      mark.textContent = value.slice(event.start, event.end);
      behind.append(value.slice(0, event.start), mark, value.slice(event.end), "\n");
    }
    behind.scrollTop = text.scrollTop;
  };
  const select = (event) => {
    text.setSelectionRange(event.start, event.end);
    const mark = behind.querySelector("mark");
    if (mark) text.scrollTop = Math.max(0, mark.offsetTop - text.clientHeight / 3);
    behind.scrollTop = text.scrollTop;
  };

  // The events: elements are indented by their depth. A text may nest and repeat without end, so both are bounded.
  const ROWS = 2000, STEPS = 40;
  const valueOf = ({ value }) => {
    if (value === null || typeof value !== "object") return value === null ? "" : ` ${JSON.stringify(value)}`;
    const { name, ...fields } = value;
    return ` ${name}${Object.keys(fields).length ? ` ${JSON.stringify(fields)}` : ""}`;
  };
  const row = (event, depth) => {
    const item = document.createElement("li"), name = document.createElement("b"), place = document.createElement("i");
    name.textContent = event.name;
    place.textContent = ` ${event.start}..${event.end}`;
    item.append("  ".repeat(Math.min(depth, STEPS)), name, valueOf(event), place);
    item.tabIndex = 0;
    item.dataset.event = JSON.stringify(event);
    item.addEventListener("mouseenter", () => point(event));
    item.addEventListener("focus", () => point(event));
    item.addEventListener("mouseleave", () => point(null));
    item.addEventListener("blur", () => point(null));
    item.addEventListener("click", () => select(event));
    return item;
  };
  const rows = (events) => {
    const made = [];
    let depth = 0;
    for (const event of events) {
      if (made.length === ROWS) break;
      if (event.name === "End") depth--;
      made.push(row(event, event.name === "Start" ? depth++ : depth));
    }
    return made;
  };

  // The HTML as elements, without those that open a connection by themselves, whatever the policy of the pane says. Each link is kept,
  // but leads nowhere: its target is a new window, which the pane's sandbox refuses. Its address becomes its title, because a browser may
  // connect to an address as soon as a mouse button is down.
  const OPENERS = "link, meta, base, iframe, frame, frameset, object, embed, portal, fencedframe";
  const elements = (html) => {
    const parsed = new DOMParser().parseFromString(html, "text/html");
    parsed.querySelectorAll(OPENERS).forEach((it) => it.remove());
    parsed.querySelectorAll("a, area, form").forEach((it) => it.setAttribute("target", "_blank"));
    parsed.querySelectorAll("a[href], area[href]").forEach((it) => {
      if (!it.hasAttribute("title")) it.setAttribute("title", it.getAttribute("href"));
      it.setAttribute("href", "about:blank");
    });
    parsed.querySelectorAll("[formtarget]").forEach((it) => it.removeAttribute("formtarget"));
    const all = parsed.createRange();
    all.selectNodeContents(parsed.body);
    return all.extractContents();
  };

  // The text as a stream, what of it was pushed, and the settings with which it is read. If the text is not the pushed one with more at its
  // end, or if a setting has changed, a new stream begins.
  let stream = null, pushed = "", settings = "";
  const refresh = (value) => {
    const wanted = `${options()} ${safe.checked}`, isNew = stream === null || settings !== wanted || !value.startsWith(pushed);
    if (isNew) [stream, pushed, settings] = [new calls.Stream(options(), { safe: safe.checked }), "", wanted];
    stream.push(value.slice(pushed.length));
    pushed = value;
    return stream.refresh() === calls.Change.ANEW || isNew;
  };

  // The source of the settled blocks, and that of the others.
  const settledSource = new Text(), tailSource = new Text();
  source.append(settledSource, tailSource);
  // The number of nodes in the pane that are of settled blocks: they stay. Raw HTML may open an element in one block and end it in a later
  // one, so all nodes are replaced if the HTML is not the safe one.
  let kept = 0;
  const replaceTail = (isAnew) => {
    if (isAnew) settledSource.data = "";
    settledSource.appendData(stream.added);
    tailSource.data = stream.tail;
    const body = rendered.contentDocument && rendered.contentDocument.body;
    if (!body) return;
    if (isAnew || !safe.checked) kept = 0;
    while (body.childNodes.length > kept) body.lastChild.remove();
    if (!safe.checked) return body.append(elements(stream.html));
    body.append(elements(stream.added));
    kept = body.childNodes.length;
    body.append(elements(stream.tail));
  };

  const show = () => {
    const value = text.value, began = performance.now();
    let events;
    try {
      const isAnew = refresh(value);
      events = calls.events(value, options());
      replaceTail(isAnew);
    } catch (error) {
      stream = null;
      at("told").textContent = error.message;
      return;
    }
    const settled = stream.settled.length, all = settled + stream.tail.length;
    at("told").textContent = `${value.length} characters, ${events.length} events, shown in ${(performance.now() - began).toFixed(1)} ms; ${settled} of ${all} characters of HTML settled`;
    list.replaceChildren(...rows(events));
    at("more").textContent = events.length > ROWS ? `These are the first ${ROWS} of ${events.length} events.` : "";
    point(null);
    document.documentElement.dataset.shown = String(Number(document.documentElement.dataset.shown || 0) + 1);
  };

  // Plays the text: it comes again in chunks, as if a model wrote it. Nobody types meanwhile. If it is stopped, the whole text is back.
  const CHUNK = 12, PAUSE = 40;
  let player = 0, whole = "";
  const stop = () => {
    if (!player) return;
    clearInterval(player);
    player = 0;
    text.readOnly = false;
    text.value = whole;
    at("play").textContent = "play";
  };
  const playOn = () => {
    const end = text.value.length + CHUNK, isInside = /[\ud800-\udbff]/.test(whole.charAt(end - 1));
    text.value = whole.slice(0, isInside ? end + 1 : end);
    text.scrollTop = text.scrollHeight;
    if (text.value.length === whole.length) stop();
    show();
  };
  const play = () => {
    whole = text.value;
    text.readOnly = true;
    text.value = "";
    at("play").textContent = "stop";
    player = setInterval(playOn, PAUSE);
  };

  let waiting = 0;
  const changed = () => {
    show();
    clearTimeout(waiting);
    waiting = setTimeout(write, 150);
  };
  text.addEventListener("input", changed);
  text.addEventListener("scroll", () => (behind.scrollTop = text.scrollTop));
  at("options").addEventListener("change", changed);
  safe.addEventListener("change", changed);
  window.addEventListener("hashchange", read);
  at("play").addEventListener("click", () => {
    if (player) {
      stop();
      show();
    } else {
      play();
    }
  });
  rendered.addEventListener("load", () => {
    stream = null;
    show();
  });
  read();
})();
