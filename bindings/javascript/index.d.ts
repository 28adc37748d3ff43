/** A range of the given text: `text.slice(start, end)`. For a string these are indices of the string, for bytes they are byte offsets. */
export interface Range {
  start: number;
  end: number;
}

/** How a link or an image is written, except a wikilink. */
export type LinkType =
  | "Inline" | "Reference" | "ReferenceUnknown" | "Collapsed" | "CollapsedUnknown" | "Shortcut" | "ShortcutUnknown" | "Autolink" | "Email";

/** The kind of an alert, which is a block quote. */
export type BlockQuoteKind = "Note" | "Tip" | "Important" | "Warning" | "Caution";
/** The alignment of a column of a table. */
export type Alignment = "None" | "Left" | "Center" | "Right";
/** How a metadata block is written: between lines of `---`, or of `+++`. */
export type MetadataBlockKind = "YamlStyle" | "PlusesStyle";
/** The level of a heading. */
export type HeadingLevel = 1 | 2 | 3 | 4 | 5 | 6;

/** The elements that have no fields, neither at their start nor at their end. */
export type PlainName =
  | "Paragraph" | "HtmlBlock" | "Item" | "DefinitionList" | "DefinitionListTitle" | "DefinitionListDefinition"
  | "TableHead" | "TableRow" | "TableCell" | "Emphasis" | "Strong" | "Strikethrough" | "Superscript" | "Subscript" | "Highlight";

/** What a link or an image leads to. `id` is the label of a reference, and otherwise empty. `title` may be empty. */
export interface Destination {
  destUrl: string;
  title: string;
  id: string;
}

/** An element that starts. */
export type Tag =
  | { name: PlainName }
  | { name: "Heading"; level: HeadingLevel; id: string | null; classes: string[]; attrs: [name: string, value: string | null][] }
  | { name: "BlockQuote"; kind: BlockQuoteKind | null }
  | { name: "CodeBlock"; kind: "Indented"; info: null }
  | { name: "CodeBlock"; kind: "Fenced"; info: string }
  /** A list. An ordered list has its first number. */
  | { name: "List"; firstNumber: number | null }
  | { name: "FootnoteDefinition"; label: string }
  | { name: "Table"; alignments: Alignment[] }
  | (Destination & { name: "Link" | "Image"; linkType: LinkType })
  /** A wikilink. With a pothole, `[[page|text]]`, it has a text of its own. */
  | (Destination & { name: "Link" | "Image"; linkType: "WikiLink"; hasPothole: boolean })
  | { name: "MetadataBlock"; kind: MetadataBlockKind };

/** An element that ends. */
export type TagEnd =
  | { name: PlainName | "CodeBlock" | "FootnoteDefinition" | "Table" | "Link" | "Image" }
  | { name: "Heading"; level: HeadingLevel }
  | { name: "BlockQuote"; kind: BlockQuoteKind | null }
  | { name: "List"; isOrdered: boolean }
  | { name: "MetadataBlock"; kind: MetadataBlockKind };

/** An event without its range. */
export type EventValue =
  | { name: "Start"; value: Tag }
  | { name: "End"; value: TagEnd }
  | { name: "Text" | "Code" | "InlineMath" | "DisplayMath" | "Html" | "InlineHtml" | "FootnoteReference"; value: string }
  | { name: "SoftBreak" | "HardBreak" | "Rule"; value: null }
  /** Whether the box of a task is checked. */
  | { name: "TaskListMarker"; value: boolean };

/** An event. */
export type Event = EventValue & Range;

/** The events of a text, in order. Each is read from the records of the library when it is asked for. */
export interface Events extends Iterable<Event> {
  /** The number of events. */
  readonly length: number;
  /** The event with this number, from 0; a negative number counts from the end. */
  at(number: number): Event | undefined;
  /** The line and the column in which an event or a definition of this text starts, both from 1. A column is an index or a byte. */
  placeOf(range: { start: number }): { line: number; column: number };
  /** The flat records of the events, as a copy. `render` takes them. */
  readonly records: Uint8Array;
}

/** A link without a definition. */
export interface BrokenLink extends Range {
  linkType: "ReferenceUnknown" | "CollapsedUnknown" | "ShortcutUnknown";
  /** The label that has no definition, as it is written. */
  reference: string;
}

/** Answers for a link without a definition. With null or undefined it is no link. It is asked at most once for each range. */
export type BrokenLinkCallback = (link: BrokenLink) => { destUrl: string; title?: string } | null | undefined;

/** Further settings of the events of a text. */
export interface EventsSettings {
  /** Answers for links without a definition. */
  brokenLink?: BrokenLinkCallback | null;
}

/** Whether HTML is to be safe. */
export interface SafeSettings {
  /** Whether the HTML is to be safe to show, also if the text or the events come from a stranger. */
  safe?: boolean;
  /** For safe HTML: schemes that addresses may have, besides `http`, `https` and `mailto`. */
  schemes?: readonly string[];
}

/** Further settings of the HTML of a text. At most one of `safe`, `expansionLimit` and `brokenLink` may be set. */
export interface HtmlSettings extends EventsSettings, SafeSettings {
  /** For plain HTML: once the destinations and titles of references have this number of bytes in all, further references stay text. */
  expansionLimit?: number | bigint | null;
}

/** A link reference definition. */
export interface LinkDef extends Range {
  label: string;
  dest: string;
  /** The title, or null if the definition has none. */
  title: string | null;
}

/** Settings of a text that grows. */
export interface StreamSettings extends SafeSettings {
  /** Once the destinations and titles of references have this number of bytes in all, further references stay text. It is 100,000 by default. */
  expansionLimit?: number | bigint;
}

/** The effect of a refresh on the settled HTML. */
export type Change = "grown" | "anew";
/**
 * After `GROWN` the settled HTML begins with the settled HTML of before. After `ANEW` the settled HTML of before is dropped, and nothing is
 * settled: the text defines a link or a footnote.
 */
export declare const Change: Readonly<{ GROWN: "grown"; ANEW: "anew" }>;

/**
 * A text that grows at its end, such as the output of a language model, with the HTML of all of it. The HTML is not safe to show if the text
 * comes from a stranger, except with `{ safe: true }`.
 */
export declare class Stream {
  constructor(options?: number, settings?: StreamSettings);
  /** The text so far: all chunks, joined. The beginning of a character is not in it until the rest of it is pushed. */
  readonly text: string;
  /** The HTML of blocks that no further text changes, as long as the text defines neither a link nor a footnote. */
  readonly settled: string;
  /** The end of `settled` that the last refresh has added. A page appends it. */
  readonly added: string;
  /** The HTML of the other blocks. The next refresh replaces it. */
  readonly tail: string;
  /** The HTML of the whole text at the last refresh: `settled` and then `tail`. */
  readonly html: string;
  /** Whether the chunks end inside a character. If no more arrive, the text was cut off. */
  readonly endsInsideCharacter: boolean;
  /**
   * Whether the text has grown enough for the next refresh. A program that refreshes only then, and once at the end, reads at most 36 bytes for
   * each byte of the text, whatever the text is.
   */
  readonly isDue: boolean;
  /** Appends a chunk: a string, or bytes in UTF-8. It may end inside a character. The HTML stays as it is until the next refresh. */
  push(chunk: string | Uint8Array): void;
  /** Reads the lines after the settled blocks. If an error is thrown, the text and its HTML are as before. */
  refresh(): Change;
}

/** The rules beyond CommonMark; join them by `|`. `GITHUB` has those that GitHub reads. With `ALL_ENTITIES` all 2,125 entity names of the HTML standard are known, and else eleven. */
export declare const Options: Readonly<Record<
  | "TABLES" | "FOOTNOTES" | "STRIKETHROUGH" | "TASKLISTS" | "SMART_PUNCTUATION" | "HEADING_ATTRIBUTES" | "YAML_STYLE_METADATA_BLOCKS"
  | "PLUSES_DELIMITED_METADATA_BLOCKS" | "OLD_FOOTNOTES" | "MATH" | "GFM" | "DEFINITION_LIST" | "SUPERSCRIPT" | "SUBSCRIPT" | "WIKILINKS"
  | "HIGHLIGHT" | "EMAIL_AUTOLINKS" | "ALL_ENTITIES" | "GITHUB", number>>;

/** Bytes that are not UTF-8, or a string with half of a pair of surrogates. */
export declare class NotUtf8Error extends TypeError {}
/** There was no memory. The package works afterwards. */
export declare class OutOfMemoryError extends RangeError {}
/** Values that are not events, or bytes that are not the records of events. */
export declare class MalformedError extends TypeError {}

/** The HTML of a text. It is not safe to show if the text comes from a stranger, except with `{ safe: true }`. */
export declare function html(text: string | Uint8Array, options?: number, settings?: HtmlSettings): string;
/** The events of a text, in order. */
export declare function events(text: string | Uint8Array, options?: number, settings?: EventsSettings): Events;
/** The link reference definitions of a text, in order. Of definitions with the same label the first one counts. */
export declare function references(text: string | Uint8Array, options?: number): LinkDef[];
/** The events, with adjacent texts joined. */
export declare function merged(events: Iterable<Event>): IterableIterator<Event>;
/** The HTML of events, which need not be balanced and need no ranges. It is not safe to show for a stranger, except with `{ safe: true }`. */
export declare function render(events: Iterable<EventValue & Partial<Range>>, settings?: SafeSettings): string;
/** The HTML of the flat records of events. It is not safe to show for a stranger, except with `{ safe: true }`. */
export declare function render(records: Uint8Array, settings?: SafeSettings): string;
/** The version of the library. */
export declare function version(): string;
