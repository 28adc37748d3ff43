// Flat records: the bytes in which the library returns events and takes them back. crates/cmark_flat/README.md has their layout. This file
// reads records as objects, and writes objects as records.
"use strict";
var pulldownCmarkRecords = (() => {
  const HEAD = 32;
  const [FURTHER, START, END] = [0, 1, 2], [DEFINITION, QUESTION, ANSWER] = [14, 15, 16];
  const [TITLE, LABEL, HEADING_ID, CLASS, ATTRIBUTE, VALUE, NO_VALUE, FIRST_NUMBER] = [1, 2, 3, 4, 5, 6, 7, 8];

  // Names by their numbers in a record. The number 0 has no name, except where a list says it.
  const NAMES = [
    null, "Start", "End", "Text", "Code", "InlineMath", "DisplayMath", "Html", "InlineHtml", "FootnoteReference", "SoftBreak", "HardBreak",
    "Rule", "TaskListMarker",
  ];
  const WITHOUT_VALUE = ["SoftBreak", "HardBreak", "Rule"];
  const HAS_TEXT = NAMES.map((name) => name && !["Start", "End", "TaskListMarker", ...WITHOUT_VALUE].includes(name));
  const TAGS = [
    null, "Paragraph", "Heading", "BlockQuote", "CodeBlock", "HtmlBlock", "List", "Item", "FootnoteDefinition", "DefinitionList",
    "DefinitionListTitle", "DefinitionListDefinition", "Table", "TableHead", "TableRow", "TableCell", "Emphasis", "Strong", "Strikethrough",
    "Superscript", "Subscript", "Highlight", "Link", "Image", "MetadataBlock",
  ];
  const QUOTES = [null, "Note", "Tip", "Important", "Warning", "Caution"];
  const METADATA = ["YamlStyle", "PlusesStyle"];
  const ALIGNMENTS = ["None", "Left", "Center", "Right"];
  const LINK_TYPES = [
    "Inline", "Reference", "ReferenceUnknown", "Collapsed", "CollapsedUnknown", "Shortcut", "ShortcutUnknown", "Autolink", "Email", "WikiLink",
  ];
  const WIKILINK = LINK_TYPES.indexOf("WikiLink"), POTHOLE = WIKILINK + 1;

  /** The error for values or bytes that are not those of events. */
  class MalformedError extends TypeError {
    get name() {
      return "MalformedError";
    }
  }

  const UTF8 = new TextDecoder("utf-8", { ignoreBOM: true });
  // A text of fewer bytes is read by a loop, which is faster than a call of the decoder.
  const SHORT = 24;

  /** The string of some bytes in UTF-8. */
  const stringOf = (bytes, from, to) => {
    if (to - from >= SHORT) return UTF8.decode(bytes.subarray(from, to));
    let string = "";
    for (let at = from; at < to; at++) {
      if (bytes[at] > 127) return UTF8.decode(bytes.subarray(from, to));
      string += String.fromCharCode(bytes[at]);
    }
    return string;
  };

  /** Reads the records of the library, one after the other. It reads no bytes but these. */
  class Reader {
    constructor(bytes, at = 0) {
      this.bytes = bytes;
      this.view = new DataView(bytes.buffer, bytes.byteOffset, bytes.byteLength);
      this.at = at;
    }

    get isAtEnd() {
      return this.at >= this.bytes.length;
    }

    /** The kind of the record at which the reader is. */
    get kind() {
      return this.bytes[this.at];
    }

    /** Reads a number of eight bytes, the lowest byte first. */
    number(at) {
      const high = this.view.getUint32(at + 4, true);
      return this.view.getUint32(at, true) + (high && high * 2 ** 32);
    }

    /** The byte after the record at which the reader is. */
    get after() {
      return this.at + HEAD + this.number(this.at + 24);
    }

    /** Reads the record at which the reader is, and goes to the next one. */
    next() {
      const { at, after, bytes } = this;
      this.at = after;
      return { kind: bytes[at], tag: bytes[at + 1], data: bytes[at + 2], start: this.number(at + 8), end: this.number(at + 16), from: at + HEAD, to: after };
    }

    text(record) {
      return stringOf(this.bytes, record.from, record.to);
    }

    /** Reads the further records, each with its part, its text and its start. */
    further() {
      const found = [];
      while (!this.isAtEnd && this.kind === FURTHER) {
        const record = this.next();
        found.push({ part: record.tag, text: this.text(record), start: record.start });
      }
      return found;
    }
  }

  /** The id, the classes and the attributes of a heading. */
  const headingOf = (reader, level) => {
    const heading = { name: "Heading", level, id: null, classes: [], attrs: [] };
    for (const { part, text } of reader.further()) {
      if (part === HEADING_ID) heading.id = text;
      else if (part === CLASS) heading.classes.push(text);
      else if (part === ATTRIBUTE) heading.attrs.push([text, null]);
      else if (part === VALUE) heading.attrs[heading.attrs.length - 1][1] = text;
    }
    return heading;
  };

  /** The tag of a link or an image. Only a wikilink says whether it has a text of its own, a pothole. */
  const linkOf = (reader, record, name) => {
    const destUrl = reader.text(record), further = reader.further(), title = further[0].text, id = further[1].text, { data } = record;
    if (data < WIKILINK) return { name, linkType: LINK_TYPES[data], destUrl, title, id };
    return { name, linkType: "WikiLink", hasPothole: data === POTHOLE, destUrl, title, id };
  };

  /** The tag of a start. Its further records are read too. */
  const tagOf = (reader, record) => {
    const name = TAGS[record.tag], { data } = record;
    switch (name) {
      case "Heading":
        return headingOf(reader, data);
      case "BlockQuote":
        return { name, kind: QUOTES[data] };
      case "CodeBlock":
        return { name, kind: data ? "Fenced" : "Indented", info: data ? reader.text(record) : null };
      case "List":
        return { name, firstNumber: data ? reader.further()[0].start : null };
      case "FootnoteDefinition":
        return { name, label: reader.text(record) };
      case "Table":
        return { name, alignments: Array.from(reader.bytes.subarray(record.from, record.to), (it) => ALIGNMENTS[it]) };
      case "Link":
      case "Image":
        return linkOf(reader, record, name);
      case "MetadataBlock":
        return { name, kind: METADATA[data] };
      default:
        return { name };
    }
  };

  /** The tag of an end. */
  const endOf = ({ tag, data }) => {
    const name = TAGS[tag];
    switch (name) {
      case "Heading":
        return { name, level: data };
      case "BlockQuote":
        return { name, kind: QUOTES[data] };
      case "List":
        return { name, isOrdered: data === 1 };
      case "MetadataBlock":
        return { name, kind: METADATA[data] };
      default:
        return { name };
    }
  };

  /** The value of an event. */
  const valueOf = (reader, record, name) => {
    if (record.kind === START) return tagOf(reader, record);
    if (record.kind === END) return endOf(record);
    if (name === "TaskListMarker") return record.data === 1;
    return HAS_TEXT[record.kind] ? reader.text(record) : null;
  };

  /** Reads an event, with its range as `placed` gives it for byte offsets. */
  const readEvent = (reader, placed) => {
    const record = reader.next(), name = NAMES[record.kind];
    return { name, value: valueOf(reader, record, name), start: placed(record.start), end: placed(record.end) };
  };

  /** Reads all link reference definitions, and puts them in the order of the text. */
  const readReferences = (bytes, placed) => {
    const reader = new Reader(bytes), found = [];
    while (!reader.isAtEnd) {
      const record = reader.next(), parts = reader.further();
      const textOf = (part) => parts.filter((it) => it.part === part).map((it) => it.text);
      const [title = null] = textOf(TITLE), [label] = textOf(LABEL);
      found.push({ label, dest: reader.text(record), title, start: placed(record.start), end: placed(record.end) });
    }
    return found.sort((a, b) => a.start - b.start);
  };

  /** The records of the events, without the questions after them, and the questions, each with its range in bytes. */
  const withoutQuestions = (bytes) => {
    const reader = new Reader(bytes), questions = [];
    let size = bytes.length;
    while (!reader.isAtEnd) {
      const { at } = reader, record = reader.next();
      if (record.kind !== QUESTION) continue;
      size = Math.min(size, at);
      questions.push({ linkType: LINK_TYPES[record.data], reference: reader.text(record), start: record.start, end: record.end });
    }
    return { records: bytes.subarray(0, size), questions };
  };

  const isWellFormed = (text) => (text.isWellFormed ? text.isWellFormed() : !/\p{Surrogate}/u.test(text));

  const typeOf = (value) => (value === null ? "null" : typeof value);

  /** A text that a record can have, or an error that names it. */
  const checked = (text, what) => {
    if (typeof text !== "string") throw new MalformedError(`${what} is ${typeOf(text)}, not a string`);
    return text;
  };

  /** The number of a name in its list, or an error. */
  const numberOf = (list, name, what) => {
    const found = list.indexOf(name);
    if (found < 0) throw new MalformedError(`there is no ${what} ${JSON.stringify(name)}`);
    return found;
  };

  /** An offset or a count as a record has it, or an error. */
  const checkedNumber = (number, what) => {
    if (!Number.isSafeInteger(number) || number < 0) throw new MalformedError(`${what} is ${String(number)}, not an integer from 0 to 2 ** 53 - 1`);
    return number;
  };

  const checkedList = (list, what) => {
    if (!Array.isArray(list)) throw new MalformedError(`${what} is no array`);
    return list;
  };

  const encoder = new TextEncoder();

  /** Writes records into memory that grows. */
  class Writer {
    constructor() {
      this.room = new Uint8Array(4096);
      this.view = new DataView(this.room.buffer);
      this.size = 0;
    }

    /** The records that are written. */
    get bytes() {
      return this.room.subarray(0, this.size);
    }

    /** Makes room for more bytes. */
    grow(more) {
      if (this.size + more <= this.room.length) return;
      const room = new Uint8Array(Math.max(2 * this.room.length, this.size + more));
      room.set(this.bytes);
      this.room = room;
      this.view = new DataView(room.buffer);
    }

    /** Writes a number of eight bytes, the lowest byte first. */
    number(at, number) {
      this.view.setUint32(at, number % 2 ** 32, true);
      this.view.setUint32(at + 4, number / 2 ** 32, true);
    }

    /** Writes a text in UTF-8, for which there is room, and returns its number of bytes. */
    text(at, text) {
      for (let number = 0; number < text.length; number++) {
        const code = text.charCodeAt(number);
        if (code > 127 || number === SHORT) {
          if (!isWellFormed(text)) throw new MalformedError(`${JSON.stringify(text)} has half of a pair of surrogates`);
          return encoder.encodeInto(text, this.room.subarray(at)).written;
        }
        this.room[at + number] = code;
      }
      return text.length;
    }

    record(kind, tag, data, { start, end }, text = "") {
      this.grow(HEAD + 3 * text.length);
      const at = this.size, size = this.text(at + HEAD, text);
      this.view.setUint32(at, kind | (tag << 8) | (data << 16), true);
      this.view.setUint32(at + 4, 0, true);
      this.number(at + 8, start);
      this.number(at + 16, end);
      this.number(at + 24, size);
      this.size = at + HEAD + size;
    }

    further(part, text = "", start = 0) {
      this.record(FURTHER, part, 0, { start, end: 0 }, text);
    }
  }

  const levelOf = (level) => {
    if (![1, 2, 3, 4, 5, 6].includes(level)) throw new MalformedError(`there is no heading of the level ${String(level)}`);
    return level;
  };

  /** The number of a link type. */
  const linkData = ({ linkType, hasPothole }) => {
    const data = numberOf(LINK_TYPES, linkType, "link type");
    return data < WIKILINK ? data : data + numberOf([false, true], hasPothole, "value of `hasPothole`");
  };

  /** Writes the further records of a heading. */
  const writeParts = (writer, { id = null, classes = [], attrs = [] }) => {
    if (id !== null) writer.further(HEADING_ID, checked(id, "the id of a heading"));
    for (const it of checkedList(classes, "the list of classes")) writer.further(CLASS, checked(it, "a class"));
    for (const it of checkedList(attrs, "the list of attributes")) {
      const [name, value = null] = checkedList(it, "an attribute");
      writer.further(ATTRIBUTE, checked(name, "the name of an attribute"));
      if (value === null) writer.further(NO_VALUE);
      else writer.further(VALUE, checked(value, "the value of an attribute"));
    }
  };

  /** Writes the records of a start. */
  const writeStart = (writer, tag, range, value) => {
    const put = (data = 0, text = "") => writer.record(START, tag, data, range, text);
    switch (value.name) {
      case "Heading":
        put(levelOf(value.level));
        return writeParts(writer, value);
      case "BlockQuote":
        return put(numberOf(QUOTES, value.kind ?? null, "kind of a block quote"));
      case "CodeBlock": {
        const data = numberOf(["Indented", "Fenced"], value.kind, "kind of a code block");
        return put(data, data ? checked(value.info, "an info string") : "");
      }
      case "List": {
        const first = value.firstNumber ?? null;
        put(first === null ? 0 : 1);
        return first === null || writer.further(FIRST_NUMBER, "", checkedNumber(first, "the first number of a list"));
      }
      case "FootnoteDefinition":
        return put(0, checked(value.label, "the label of a footnote"));
      case "Table": {
        const columns = checkedList(value.alignments, "the list of alignments");
        return put(0, columns.map((it) => String.fromCharCode(numberOf(ALIGNMENTS, it, "alignment"))).join(""));
      }
      case "Link":
      case "Image":
        put(linkData(value), checked(value.destUrl, "a destination"));
        writer.further(TITLE, checked(value.title, "a title"));
        return writer.further(LABEL, checked(value.id, "the id of a link"));
      case "MetadataBlock":
        return put(numberOf(METADATA, value.kind, "kind of a metadata block"));
      default:
        return put();
    }
  };

  /** The data of an end. */
  const endData = (value) => {
    switch (value.name) {
      case "Heading":
        return levelOf(value.level);
      case "BlockQuote":
        return numberOf(QUOTES, value.kind ?? null, "kind of a block quote");
      case "List":
        return numberOf([false, true], value.isOrdered, "value of `isOrdered`");
      case "MetadataBlock":
        return numberOf(METADATA, value.kind, "kind of a metadata block");
      default:
        return 0;
    }
  };

  /** Writes the records of an event. An event without a range gets the range from 0 to 0, since no HTML depends on it. */
  const writeEvent = (writer, event) => {
    if (typeof event !== "object" || event === null) throw new MalformedError(`${String(event)} is no event`);
    const { name, value = null } = event, kind = numberOf(NAMES, name ?? "", "event");
    const range = { start: checkedNumber(event.start ?? 0, "a start"), end: checkedNumber(event.end ?? 0, "an end") };
    if (HAS_TEXT[kind]) return writer.record(kind, 0, 0, range, checked(value, `the value of the event ${name}`));
    if (name === "TaskListMarker") return writer.record(kind, 0, numberOf([false, true], value, "value of a task list marker"), range);
    if (WITHOUT_VALUE.includes(name)) {
      if (value !== null) throw new MalformedError(`the event ${name} has no value`);
      return writer.record(kind, 0, 0, range);
    }
    if (typeof value !== "object" || value === null) throw new MalformedError(`the value of the event ${name} is no tag`);
    const tag = numberOf(TAGS, value.name ?? "", "tag");
    return kind === START ? writeStart(writer, tag, range, value) : writer.record(END, tag, endData(value), range);
  };

  /** The records of some events. An error has the number of the event at which it was found. */
  const recordsOf = (events) => {
    const writer = new Writer();
    let number = 0;
    for (const event of events) {
      try {
        writeEvent(writer, event);
      } catch (error) {
        throw error instanceof MalformedError ? new MalformedError(`event ${number}: ${error.message}`) : error;
      }
      number++;
    }
    return writer.bytes;
  };

  /** Writes the answer to a question: a destination and a title, or null. */
  const writeAnswer = (writer, question, answer) => {
    if (answer === null || answer === undefined) return writer.record(ANSWER, 0, 0, question);
    if (typeof answer !== "object") throw new MalformedError("the answer for a link is no object");
    writer.record(ANSWER, 0, 1, question, checked(answer.destUrl, "the destination of the answer"));
    return writer.further(TITLE, checked(answer.title ?? "", "the title of the answer"));
  };

  return { Reader, Writer, MalformedError, FURTHER, readEvent, readReferences, withoutQuestions, recordsOf, writeAnswer, isWellFormed, typeOf };
})();
if (typeof module !== "undefined") module.exports = pulldownCmarkRecords;
