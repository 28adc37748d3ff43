// Markdown to HTML and to events: the functions of a module of WebAssembly. For a page, with records.js before it, and for Node:
//
//     const pulldownCmark = await require("./pulldown_cmark.js").load();
//     pulldownCmark.html("*Hi*");                        // "<p><em>Hi</em></p>\n"
//     pulldownCmark.html("<b>", 0, { safe: true });      // "<p>&lt;b&gt;</p>\n", for a stranger's text
//     pulldownCmark.events("*Hi*").at(2).value;          // "Hi"
//
// module.js and module_simd.js, which has vectors, have to be in the same folder.
"use strict";
var pulldownCmark = ((records) => {
  const DONE = 0, TOO_LONG = 1, NOT_UTF8 = 2, MALFORMED = 4;

  /**
   * The rules beyond CommonMark; join them by `|`. With ALL_ENTITIES all 2,125 entity names of the HTML standard are known, and otherwise
   * eleven: amp, lt, gt, quot, apos, nbsp, copy, reg, hellip, mdash and ndash.
   */
  const OPTIONS = {
    TABLES: 2, FOOTNOTES: 4, STRIKETHROUGH: 8, TASKLISTS: 16, SMART_PUNCTUATION: 32, HEADING_ATTRIBUTES: 64,
    YAML_STYLE_METADATA_BLOCKS: 128, PLUSES_DELIMITED_METADATA_BLOCKS: 256, OLD_FOOTNOTES: 516, MATH: 1024, GFM: 2048,
    DEFINITION_LIST: 4096, SUPERSCRIPT: 8192, SUBSCRIPT: 16384, WIKILINKS: 32768, HIGHLIGHT: 65536, EMAIL_AUTOLINKS: 131072,
    ALL_ENTITIES: 1073741824,
  };
  /** The rules that GitHub reads. */
  const { TABLES, FOOTNOTES, STRIKETHROUGH, TASKLISTS, GFM, EMAIL_AUTOLINKS } = OPTIONS;
  const GITHUB = TABLES | FOOTNOTES | STRIKETHROUGH | TASKLISTS | GFM | EMAIL_AUTOLINKS;
  const ALL = Object.values(OPTIONS).reduce((set, bits) => set | bits);

  /** The error for bytes that are not UTF-8, and for a string with half of a pair of surrogates. */
  class NotUtf8Error extends TypeError {
    get name() {
      return "NotUtf8Error";
    }
  }

  /** The error for want of memory. The module works afterwards. */
  class OutOfMemoryError extends RangeError {
    get name() {
      return "OutOfMemoryError";
    }
  }

  /** A module of WebAssembly with one function that uses vectors. An engine without vectors does not accept it. */
  const WITH_VECTORS = [0, 97, 115, 109, 1, 0, 0, 0, 1, 5, 1, 96, 0, 1, 123, 3, 2, 1, 0, 10, 10, 1, 8, 0, 65, 0, 253, 15, 253, 98, 11];

  /** Whether the engine can run the module that has vectors. */
  const hasVectors = () => WebAssembly.validate(Uint8Array.from(WITH_VECTORS));

  /** The folder of this file, for a page. */
  const folder = typeof document !== "undefined" && document.currentScript ? new URL(".", document.currentScript.src).href : "";

  /** Runs a file of this folder in a page. */
  const added = (file) => new Promise((done, failed) => {
    const script = document.createElement("script");
    script.src = folder + file;
    script.onload = done;
    script.onerror = () => failed(new Error(`${file} cannot be loaded`));
    document.head.append(script);
  });

  /** The module's bytes in base64, from the file for this engine. A page or a worker may have loaded one of the files by itself. */
  const chosen = async () => {
    const file = hasVectors() ? "module_simd.js" : "module.js";
    if (typeof pulldownCmarkModule === "undefined" && typeof document !== "undefined") await added(file);
    const { bytes } = typeof pulldownCmarkModule === "undefined" ? require(`./${file}`) : pulldownCmarkModule;
    return bytes;
  };

  const bytesOf = (base64) => {
    const text = atob(base64), bytes = new Uint8Array(text.length);
    for (let at = 0; at < text.length; at++) bytes[at] = text.charCodeAt(at);
    return bytes;
  };

  /** The functions, once the module is ready. */
  const load = async () => {
    const bytes = await chosen();
    const { instance } = await WebAssembly.instantiate(bytesOf(bytes.replace(/\s/g, "")), {});
    return callsOf(instance);
  };

  const encoder = new TextEncoder(), decoder = new TextDecoder("utf-8", { ignoreBOM: true });
  const stringOf = (bytes) => decoder.decode(bytes);
  const copyOf = (bytes) => bytes.slice();

  /** Whether a value is a Uint8Array, also one of another realm, such as a frame's. */
  const isBytes = (value) => Object.prototype.toString.call(value) === "[object Uint8Array]";

  /** The bytes of a text: a string, or its bytes in UTF-8. */
  const encoded = (text) => {
    if (isBytes(text)) return text;
    if (typeof text !== "string") throw new TypeError(`Markdown is a string or a Uint8Array, not ${records.typeOf(text)}`);
    if (!records.isWellFormed(text)) throw new NotUtf8Error("the text has half of a pair of surrogates");
    return encoder.encode(text);
  };

  /** The bits of a set of options. */
  const bitsOf = (options) => {
    if (!Number.isInteger(options)) throw new TypeError("options are a number, joined by |");
    if (options !== (options & ALL)) throw new RangeError(`there is no such set of options: ${options}`);
    return options;
  };

  /** A limit as the module takes it. A limit that does not fit is replaced by the greatest one, which no text reaches. */
  const limitOf = (limit) => {
    const most = (1n << 64n) - 1n;
    if (typeof limit !== "bigint" && !Number.isInteger(limit) && limit !== Infinity) throw new TypeError("a limit is a whole number");
    if (limit < 0) throw new RangeError("a limit is at least 0");
    return limit < most ? BigInt(limit) : most;
  };

  /**
   * The settings of a call: those that are given, and otherwise these defaults. Any other name is an error, since a mistyped `safe` would give
   * HTML that is not safe.
   */
  const settingsOf = (given, defaults) => {
    if (given === null || typeof given !== "object") throw new TypeError(`settings are an object, not ${records.typeOf(given)}`);
    const names = Object.keys(defaults), settings = { ...defaults };
    for (const name in given) if (!names.includes(name)) throw new TypeError(`there is no setting ${name}, only ${names.join(", ")}`);
    // A setting counts too if it is inherited, or a getter of a class: a `safe` that is overlooked would leave the HTML as it is.
    for (const name of names) {
      const value = given[name];
      if (value !== undefined) settings[name] = value;
    }
    return settings;
  };

  /**
   * The schemes for safe HTML as the module takes them, or null if the HTML is not to be safe. A caller who lists schemes wants safe HTML. So a
   * list without `safe` is an error.
   */
  const schemesOf = ({ safe, schemes }) => {
    if (typeof schemes === "string" || typeof schemes?.[Symbol.iterator] !== "function") throw new TypeError(`schemes are a list of names, not ${records.typeOf(schemes)}`);
    const names = [...schemes], bytes = encoded(names.join(" "));
    for (const name of names) if (!SCHEME.test(name)) throw new RangeError(`${JSON.stringify(name)} is no scheme`);
    if (!safe && names.length) throw new RangeError("schemes are for safe HTML: set safe too");
    return safe ? bytes : null;
  };

  /** A scheme (RFC 3986, section 3.1). */
  const SCHEME = /^[a-z][a-z0-9+.-]*$/i;

  /**
   * The sizes of the first buffers for HTML and for records, for a text of this length. Of 861 Markdown files of one machine, none needs a
   * second call for its HTML, and 3 need one for their records.
   */
  const htmlRoom = (length) => 2 * length + 256;
  const recordsRoom = (length) => 6 * length + 4096;

  /**
   * The index in a string for each offset in its bytes, as a function. The indices are those of `slice`. They are computed once, when the
   * first one is asked for; in a text of ASCII they are the offsets.
   */
  const indicesOf = (text, size) => {
    let indices = null;
    return (offset) => {
      if (text.length === size) return offset;
      indices ??= tableOf(text, size);
      return indices[offset];
    };
  };

  /** For each byte of a text in UTF-8, and for its end, the index in the string. */
  const tableOf = (text, size) => {
    const indices = new Uint32Array(size + 1);
    let byte = 0;
    for (let at = 0; at < text.length; ) {
      const code = text.codePointAt(at), end = byte + (code < 0x80 ? 1 : code < 0x800 ? 2 : code < 0x10000 ? 3 : 4);
      while (byte < end) indices[byte++] = at;
      at += code < 0x10000 ? 1 : 2;
    }
    indices[size] = text.length;
    return indices;
  };

  /** How byte offsets in a text are given: as they are for bytes, and as indices for a string. */
  const placedIn = (text, size) => (typeof text === "string" ? indicesOf(text, size) : (offset) => offset);

  /** The index at which each line of a text starts. A line ends with a line feed, a carriage return, or both. */
  const lineStarts = (text) => {
    const codeAt = typeof text === "string" ? (at) => text.charCodeAt(at) : (at) => text[at];
    const starts = [0];
    for (let at = 0; at < text.length; at++) {
      const code = codeAt(at);
      if (code === 10 || (code === 13 && codeAt(at + 1) !== 10)) starts.push(at + 1);
    }
    return starts;
  };

  /** The events of a text, read from records one by one when they are asked for. */
  class Events {
    #bytes;
    #text;
    #placed;
    #starts = null;
    #lines = null;

    constructor(bytes, text, placed) {
      this.#bytes = bytes;
      this.#text = text;
      this.#placed = placed;
    }

    /** The offset of each event's first record. It is computed once. */
    #offsets() {
      if (this.#starts) return this.#starts;
      const reader = new records.Reader(this.#bytes), starts = [];
      for (; !reader.isAtEnd; reader.at = reader.after) if (reader.kind !== records.FURTHER) starts.push(reader.at);
      return (this.#starts = starts);
    }

    /** The number of events. */
    get length() {
      return this.#offsets().length;
    }

    /** The event with this number, from 0. A negative number counts from the end. */
    at(number) {
      const offsets = this.#offsets(), offset = offsets.at(number);
      return offset === undefined ? undefined : records.readEvent(new records.Reader(this.#bytes, offset), this.#placed);
    }

    *[Symbol.iterator]() {
      const reader = new records.Reader(this.#bytes);
      while (!reader.isAtEnd) yield records.readEvent(reader, this.#placed);
    }

    /** The line and the column in which an event or a definition of this text starts, both from 1. The lines are counted once. */
    placeOf({ start }) {
      this.#lines ??= lineStarts(this.#text);
      let [from, to] = [0, this.#lines.length];
      while (to - from > 1) {
        const middle = (from + to) >> 1;
        if (this.#lines[middle] <= start) from = middle;
        else to = middle;
      }
      return { line: from + 1, column: start - this.#lines[from] + 1 };
    }

    /** The flat records of the events, as a copy. */
    get records() {
      return this.#bytes.slice();
    }
  }

  /** The events with each run of adjacent texts joined, from the start of the first to the end of the last. A run that is empty is left out. */
  function* merged(events) {
    let run = [];
    const joined = () => {
      if (run.length < 2) return run;
      const value = run.map((it) => it.value).join("");
      return value ? [{ ...run[0], value, end: run[run.length - 1].end }] : [];
    };
    for (const event of events) {
      if (event.name === "Text") {
        run.push(event);
        continue;
      }
      yield* joined();
      run = [];
      yield event;
    }
    yield* joined();
  }

  /** A number that a call of the module may change. */
  class Cell {
    constructor(value) {
      this.value = value;
    }
  }

  /** An instance of the module: its calls with their memory. */
  class Instance {
    constructor({ exports }) {
      this.calls = exports;
    }

    get bytes() {
      return new Uint8Array(this.calls.memory.buffer);
    }

    /** The module's memory, for numbers of eight bytes. */
    get words() {
      return new DataView(this.calls.memory.buffer);
    }

    /** The address of `size` bytes of the module's memory. */
    take(size) {
      const place = Number(this.calls.take(BigInt(size)));
      if (!place) throw new OutOfMemoryError("out of memory");
      return place;
    }

    /**
     * The output of a call, as `read` takes it from the module's memory. The call gets these bytes, then `more`: numbers, lists of bytes, and
     * cells, which have the numbers that the call leaves once `read` is called. `length` is the size of its first buffer. All memory is given
     * back, also if an error is thrown.
     */
    answer(call, data, more, length, read) {
      const held = [], given = [], cells = [];
      const keep = (size) => (held.push(this.take(size)), held[held.length - 1]);
      const put = (bytes) => {
        const place = keep(bytes.length + 1);
        this.bytes.set(bytes, place);
        given.push(BigInt(place), BigInt(bytes.length));
      };
      const putCell = (cell) => {
        const place = keep(8);
        this.words.setBigUint64(place, BigInt(cell.value), true);
        given.push(BigInt(place));
        cells.push([cell, place]);
      };
      try {
        put(data);
        for (const it of more) if (isBytes(it)) put(it); else if (it instanceof Cell) putCell(it); else given.push(it);
        const size = keep(8);
        for (;;) {
          const room = keep(length), status = this.calls[call](...given, BigInt(room), BigInt(length), BigInt(size)), words = this.words;
          const written = Number(words.getBigUint64(size, true));
          if (status === DONE) {
            for (const [cell, place] of cells) cell.value = Number(words.getBigUint64(place, true));
            return read(this.bytes.subarray(room, room + written));
          }
          if (status !== TOO_LONG) throw failure(status);
          this.calls.give(BigInt(held.pop()));
          length = written;
        }
      } finally {
        for (const place of held) this.calls.give(BigInt(place));
      }
    }

    /** The HTML that a call returns for a text. */
    html(call, data, more) {
      return this.answer(call, data, more, htmlRoom(data.length), stringOf);
    }

    /** The records that a call returns for a text. */
    records(call, data, more) {
      return this.answer(call, data, more, recordsRoom(data.length), copyOf);
    }

    /** The HTML of the events that some records stand for. */
    rendered(bytes) {
      return this.answer("pcm_render", bytes, [], bytes.length + 256, stringOf);
    }

    /** The safe HTML of the events that some records stand for. */
    renderedSafely(bytes, schemes) {
      return this.answer("pcm_safe_render", bytes, [schemes], bytes.length + 256, stringOf);
    }
  }

  /** The error for a status. */
  const failure = (status) => {
    if (status === NOT_UTF8) return new NotUtf8Error("the text is not UTF-8");
    if (status === MALFORMED) return new records.MalformedError("the bytes are not the records of events");
    return new OutOfMemoryError("out of memory");
  };

  /**
   * How often a text is read for the answers of a callback. In a text such as "[a][]" many times in a row each answer leads to one new question
   * alone. Reading it until no question is left would take quadratic time.
   */
  const MOST_READINGS = 16;

  /** The records of the events of a text, whose links without a definition are answered by a function of the caller. */
  const answeredRecords = (instance, data, bits, brokenLink, placed) => {
    const answers = new records.Writer(), asked = new Set();
    for (let reading = 1; ; reading++) {
      const { records: found, questions } = records.withoutQuestions(instance.records("pcm_events_answered", data, [bits, answers.bytes]));
      let isAnswered = false;
      if (reading === MOST_READINGS) return found;
      for (const question of questions) {
        const { start, end } = question, range = `${start} ${end}`;
        if (asked.has(range)) continue;
        asked.add(range);
        records.writeAnswer(answers, question, brokenLink({ ...question, start: placed(start), end: placed(end) }));
        isAnswered = true;
      }
      if (!isAnswered) return found;
    }
  };

  /** The records of the events of a text. */
  const recordsIn = (instance, text, data, bits, brokenLink) => {
    if (brokenLink === null) return instance.records("pcm_events", data, [bits]);
    if (typeof brokenLink !== "function") throw new TypeError("brokenLink is no function");
    return answeredRecords(instance, data, bits, brokenLink, placedIn(text, data.length));
  };

  /**
   * The effect of a refresh on the settled HTML. After GROWN it begins with the settled HTML of before. After ANEW the settled HTML of before
   * is dropped, and nothing is settled: the text defines a link or a footnote, so that earlier blocks may have changed.
   */
  const Change = Object.freeze({ GROWN: "grown", ANEW: "anew" });

  /** The bytes of a text that arrives in chunks, each a string or bytes in UTF-8. A chunk may end inside a character. */
  class Chunks {
    #room = new Uint8Array(256);
    #size = 0;
    /** The first bytes of a character, and the first half of a pair of surrogates, at the end of the last chunk. One of them is empty. */
    #begun = new Uint8Array();
    #half = "";

    /** The bytes of all whole characters. They are valid until the next chunk. */
    get bytes() {
      return this.#room.subarray(0, this.#size);
    }

    get endsInsideCharacter() {
      return this.#begun.length + this.#half.length > 0;
    }

    /** Appends a chunk. Nothing changes if an error is thrown. */
    push(chunk) {
      if (typeof chunk === "string") this.#pushString(chunk);
      else this.#pushBytes(encoded(chunk));
    }

    #pushString(chunk) {
      if (chunk !== "" && this.#begun.length > 0) throw new NotUtf8Error("a string follows bytes that end inside a character");
      const text = this.#half + chunk, whole = text.replace(/[\ud800-\udbff]$/, "");
      this.#append(encoded(whole));
      this.#half = text.slice(whole.length);
    }

    #pushBytes(chunk) {
      if (chunk.length > 0 && this.#half !== "") throw new NotUtf8Error("bytes follow a string that ends with half of a pair of surrogates");
      const bytes = new Uint8Array(this.#begun.length + chunk.length);
      bytes.set(this.#begun);
      bytes.set(chunk, this.#begun.length);
      const size = encoder.encode(beginningOf(bytes)).length;
      this.#append(bytes.subarray(0, size));
      this.#begun = bytes.slice(size);
    }

    /** Appends bytes to the room, which doubles if it is too small. */
    #append(bytes) {
      const size = this.#size + bytes.length;
      if (size > this.#room.length) {
        const room = new Uint8Array(2 * size);
        room.set(this.bytes);
        this.#room = room;
      }
      this.#room.set(bytes, this.#size);
      this.#size = size;
    }
  }

  /** The text of some bytes, without the first bytes of a character at their end. */
  const beginningOf = (bytes) => {
    try {
      return new TextDecoder("utf-8", { fatal: true, ignoreBOM: true }).decode(bytes, { stream: true });
    } catch (error) {
      throw error instanceof TypeError ? new NotUtf8Error("the text is not UTF-8") : error;
    }
  };

  /** The class of texts that grow, for an instance of the module. */
  const streamOf = (instance) =>
    /**
     * A text that grows at its end, such as the output of a language model, with the HTML of all of it. `settled` is the HTML of blocks that
     * no further text changes, as long as the text defines neither a link nor a footnote. `tail` is the HTML of the other blocks.
     *
     * A refresh reads the lines after the settled blocks. It reads the whole text in three cases: the text defines a link or a footnote, a
     * line may begin metadata whose end may still come, or the text is one block. `isDue` says when a refresh is worth it. `safe` and
     * `schemes` are as for `html`, and `expansionLimit` too, which is 100,000 by default.
     */
    class Stream {
      #bits;
      #schemes;
      #limit;
      #chunks = new Chunks();
      /** The byte offset after the settled blocks. */
      #cut = 0;
      /** The bytes of the text at the last refresh that returned. */
      #read = 0;
      #settled = "";
      #added = "";
      #tail = "";

      constructor(options = 0, given = {}) {
        const settings = settingsOf(given, { safe: false, schemes: [], expansionLimit: 100_000 });
        this.#bits = bitsOf(options);
        this.#limit = limitOf(settings.expansionLimit);
        this.#schemes = schemesOf(settings);
      }

      /** The text so far: all chunks, joined. The beginning of a character is not in it until the rest of it is pushed. */
      get text() {
        return stringOf(this.#chunks.bytes);
      }

      /** The HTML of the settled blocks, at the last refresh that returned. */
      get settled() {
        return this.#settled;
      }

      /** The end of `settled` that the last refresh has added. A page appends it. */
      get added() {
        return this.#added;
      }

      /** The HTML of the other blocks, at the last refresh that returned. The next refresh replaces it. */
      get tail() {
        return this.#tail;
      }

      /** The HTML of the whole text, as it was at the last refresh that returned: `settled` and then `tail`. */
      get html() {
        return this.#settled + this.#tail;
      }

      /** Whether the chunks end inside a character. If no more arrive, the text was cut off. */
      get endsInsideCharacter() {
        return this.#chunks.endsInsideCharacter;
      }

      /**
       * Whether the text has grown enough for the next refresh: the lines that a refresh reads by more than a sixteenth, and the whole text,
       * which a refresh copies and checks, by more than a thousandth. A program that refreshes only then, and once at the end, reads at most
       * 36 bytes for each byte of the text, whatever the text is.
       */
      get isDue() {
        return Math.floor((this.#read - this.#cut) / 16) + Math.floor(this.#read / 1024) < this.#chunks.bytes.length - this.#read;
      }

      /**
       * Appends a chunk to the text: a string, or bytes in UTF-8. It may end inside a character, which the next chunk continues. Nothing is
       * read: the HTML stays as it is until the next refresh. If an error is thrown, the text is as before.
       */
      push(chunk) {
        this.#chunks.push(chunk);
      }

      /**
       * Reads the lines after the settled blocks. Afterwards `settled` and `tail` are the HTML of the whole text. If an error is thrown, the
       * text and its HTML are as before.
       *
       * The call copies the whole text into the module's memory, and the library checks that it is UTF-8. The module keeps nothing between
       * calls, so a stream needs no call that gives its memory back.
       */
      refresh() {
        const data = this.#chunks.bytes, cut = new Cell(this.#cut), settled = new Cell(0);
        const call = this.#schemes === null ? "pcm_stream" : "pcm_safe_stream", schemes = this.#schemes === null ? [] : [this.#schemes];
        const parts = (html) => [html.subarray(0, settled.value), html.subarray(settled.value)].map(stringOf);
        const [added, tail] = instance.answer(call, data, [this.#bits, ...schemes, this.#limit, cut, settled], htmlRoom(data.length - this.#cut), parts);
        const isAnew = cut.value === 0 && this.#settled !== "";
        this.#settled = cut.value === 0 ? "" : this.#settled + added;
        [this.#cut, this.#read, this.#added, this.#tail] = [cut.value, data.length, added, tail];
        return isAnew ? Change.ANEW : Change.GROWN;
      }
    };

  /** The functions of an instance of the module. */
  const callsOf = (exported) => {
    const instance = new Instance(exported);

    /**
     * The HTML of a text, which is a string or its UTF-8 bytes. It is not safe to show if the text comes from a stranger, except with `safe`:
     * then HTML is shown as text, a heading has no attribute but its anchor, and addresses are relative or begin with http:, https:, mailto:
     * or one of `schemes`. Safe HTML may still link to bad places, track by images, or mislead a math renderer.
     * Once the destinations and titles of references have `expansionLimit` bytes in all, further references stay text. The default limit is
     * 100,000 bytes, or the length of the text if that is more. `brokenLink` is asked about links without a definition, as by `events`. Of
     * `safe`, `expansionLimit` and `brokenLink` a call takes one.
     */
    const html = (text, options = 0, given = {}) => {
      const settings = settingsOf(given, { safe: false, schemes: [], expansionLimit: null, brokenLink: null });
      const data = encoded(text), bits = bitsOf(options), schemes = schemesOf(settings), { expansionLimit, brokenLink } = settings;
      if ([schemes, expansionLimit, brokenLink].filter((it) => it !== null).length > 1) throw new RangeError("a call takes one of safe, expansionLimit and brokenLink");
      if (schemes !== null) return instance.html("pcm_safe_html_with", data, [bits, schemes]);
      if (expansionLimit !== null) return instance.html("pcm_html_within", data, [bits, limitOf(expansionLimit)]);
      if (brokenLink !== null) return instance.rendered(recordsIn(instance, text, data, bits, brokenLink));
      return instance.html("pcm_html", data, [bits]);
    };

    /**
     * The events of a text, each `{ name, value, start, end }`. The range of an event in the text is `text.slice(start, end)`: in indices for
     * a string, and in bytes for bytes. `brokenLink` is a function that is asked once about each link without a definition. It gets
     * `{ linkType, reference, start, end }` and returns `{ destUrl, title }`, or null. An answer may lead to new questions, for which the
     * text is read again, at most 16 times. Questions after that have no answer.
     */
    const events = (text, options = 0, given = {}) => {
      const data = encoded(text), { brokenLink } = settingsOf(given, { brokenLink: null });
      return new Events(recordsIn(instance, text, data, bitsOf(options), brokenLink), text, placedIn(text, data.length));
    };

    /** The link reference definitions of a text, each `{ label, dest, title, start, end }`. The title is null if there is none. */
    const references = (text, options = 0) => {
      const data = encoded(text), bits = bitsOf(options);
      return records.readReferences(instance.records("pcm_references", data, [bits]), placedIn(text, data.length));
    };

    /** The records of some events, as `events` returns them or changed, or the bytes of records as they are. */
    const bytesOfEvents = (events) => {
      if (isBytes(events)) return events;
      if (events instanceof Events) return events.records;
      if (typeof events?.[Symbol.iterator] !== "function") throw new TypeError("events are an iterable object, or the bytes of records");
      return records.recordsOf(events);
    };

    /**
     * The HTML of some events, as `events` returns them or changed, or of the bytes of their records. It is not safe to show if a stranger
     * has a part in the events, except with `safe`: then it is safe as that of `html`, whoever made the events.
     */
    const render = (events, given = {}) => {
      const bytes = bytesOfEvents(events), schemes = schemesOf(settingsOf(given, { safe: false, schemes: [] }));
      return schemes === null ? instance.rendered(bytes) : instance.renderedSafely(bytes, schemes);
    };

    const version = () => {
      const number = instance.calls.pcm_version();
      const label = number >>> 31 ? " (not proved: what the proof rules out is checked at run time)" : "";
      return `${(number >> 16) & 0x7fff}.${(number >> 8) & 255}.${number & 255}${label}`;
    };
    return { html, events, references, merged, render, Stream: streamOf(instance), Change, version, OPTIONS, ...errors };
  };

  const errors = { NotUtf8Error, OutOfMemoryError, MalformedError: records.MalformedError };
  return { load, callsOf, hasVectors, OPTIONS, GITHUB, ...errors };
})(typeof pulldownCmarkRecords === "undefined" ? require("./records.js") : pulldownCmarkRecords);
if (typeof module !== "undefined") module.exports = pulldownCmark;
