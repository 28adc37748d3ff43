/* Markdown to HTML and to events, for C and C++.

   The thirteen functions that are declared here are proved: if one returns PCM_DONE, it has written exactly the output that its comment
   describes. The proof assumes the following of the caller, which C cannot check:

   - No pointer is NULL, even if its length is 0; then any valid address will do, for example that of a spare byte. The inline functions
     below accept NULL for a text of length 0.
   - text has text_len bytes that may be read, room has room_len bytes that may be written, and size, cut and settled are one size_t each.
   - text, room, size, cut and settled do not overlap, and no other thread writes them during the call.
   - A call does not come from a signal handler, nor from the forked child of a process with threads.

   The library has no data of its own: calls on separate memory may run at the same time on any number of threads. It takes memory
   by malloc and realloc, and has returned it by free at the end of each call. A call takes at most 16 KB of the stack, however deep the
   parts of a text nest; pcm_stream and pcm_safe_stream take at most 32 KB. This is tested, not proved. The data of a thread come on top:
   on Linux a thread needs a stack of 24 KB, or of 40 KB for these two calls.

   The options are the bits below; a call with any other bit returns PCM_UNKNOWN_OPTIONS. The known entity names are amp, lt, gt, quot,
   apos, nbsp, copy, reg, hellip, mdash and ndash, or all 2,125 of HTML with PCM_ALL_ENTITIES; the HTML keeps any other as it is written. */
#ifndef PULLDOWN_CMARK_H
#define PULLDOWN_CMARK_H

#include <stddef.h>
#include <stdint.h>
#include <stdlib.h>

#ifdef __cplusplus
extern "C" {
#endif

/* The version of this header, which is the version of pulldown-cmark whose rules it follows. pcm_version returns the version of the library. */
#define PCM_VERSION_MAJOR 0
#define PCM_VERSION_MINOR 13
#define PCM_VERSION_PATCH 6
#define PCM_VERSION_STRING "0.13.6"
#define PCM_VERSION ((uint32_t)(PCM_VERSION_MAJOR << 16 | PCM_VERSION_MINOR << 8 | PCM_VERSION_PATCH))
#define PCM_NOT_PROVED ((uint32_t)1 << 31)

/* The status that a call returns. */
enum pcm_status {
    PCM_DONE = 0,      /* The output is in room[0] to room[*size - 1]; the rest of room is unchanged. */
    PCM_TOO_LONG = 1,  /* The output has *size bytes, which is more than room_len. room is unchanged. */
    PCM_NOT_UTF8 = 2,  /* The text is not UTF-8. room is unchanged, and *size is 0. */
    PCM_NO_MEMORY = 3, /* Memory was refused. room is unchanged, and *size is 0. */
    PCM_MALFORMED = 4, /* Only pcm_render, pcm_safe_render and pcm_events_answered: the given records are malformed. room is unchanged,
                          and *size is 0. */
    PCM_UNKNOWN_OPTIONS = 5, /* A bit of the options has no meaning. room is unchanged, and *size is 0. */
    PCM_BAD_CUT = 6 /* Only pcm_stream and pcm_safe_stream: *cut is past the end of the text or inside a character. room is unchanged, and
                       *size is 0. */
};

/* The rules beyond CommonMark that apply, and whether all entity names are known. Combine options with |. */
enum pcm_options {
    PCM_TABLES = 2,
    PCM_FOOTNOTES = 4,
    PCM_STRIKETHROUGH = 8,
    PCM_TASKLISTS = 16,
    PCM_SMART_PUNCTUATION = 32,
    PCM_HEADING_ATTRIBUTES = 64,
    PCM_YAML_STYLE_METADATA_BLOCKS = 128,
    PCM_PLUSES_DELIMITED_METADATA_BLOCKS = 256,
    PCM_OLD_FOOTNOTES = 516, /* has the bit of PCM_FOOTNOTES too */
    PCM_MATH = 1024,
    PCM_GFM = 2048,
    PCM_DEFINITION_LIST = 4096,
    PCM_SUPERSCRIPT = 8192,
    PCM_SUBSCRIPT = 16384,
    PCM_WIKILINKS = 32768,
    PCM_HIGHLIGHT = 65536,
    PCM_EMAIL_AUTOLINKS = 131072,
    PCM_ALL_ENTITIES = 1073741824 /* all names of the HTML Standard's list, in place of eleven */
};

/* The rules that GitHub reads, as the flag --github of the programs. An address without < and > is no link, and no tag is filtered. */
#define PCM_GITHUB (PCM_TABLES | PCM_FOOTNOTES | PCM_STRIKETHROUGH | PCM_TASKLISTS | PCM_GFM | PCM_EMAIL_AUTOLINKS)

/* Writes the HTML of the text into room, and returns a status. *size is always written: the length of the HTML in bytes, or 0 if there
   is none. No NUL is added. The HTML is that of the program mdhtml. It is not safe to show for a text of a stranger: raw
   HTML passes through, links may lead to javascript:, and headings may have attributes such as onclick. Use pcm_safe_html for it. */
uint32_t pcm_html(const uint8_t *text, size_t text_len, uint32_t options, uint8_t *room, size_t room_len, size_t *size);

/* Like pcm_html, but within a reference expansion limit. Once the destinations and titles of references have limit bytes, no
   definition is looked up, and a further reference stays text. The limit of pcm_html is text_len, or 100,000 if text_len is less. */
uint32_t pcm_html_within(const uint8_t *text, size_t text_len, uint32_t options, size_t limit, uint8_t *room, size_t room_len, size_t *size);

/* Like pcm_html, but writes safe HTML, for a text of a stranger. Raw HTML is shown as text. Addresses are relative, or begin with
   http:, https: or mailto:; others are empty. A heading has no attribute but its anchor, and anchors and names of footnotes begin with
   user-content-; a link #a of the text keeps its address. The text chooses no class but language- with the first word of an info string. It
   is proved that the output has only these tags and addresses. It is not proved that links lead to good places, that images do not track,
   or that a math renderer handles formulas safely. */
uint32_t pcm_safe_html(const uint8_t *text, size_t text_len, uint32_t options, uint8_t *room, size_t room_len, size_t *size);

/* Like pcm_safe_html, but addresses may also begin with further schemes: names in UTF-8 with white space between them, such as
   "tel sms". javascript, vbscript, data and file are never accepted. Returns PCM_NOT_UTF8 also if the list is not UTF-8. */
uint32_t pcm_safe_html_with(const uint8_t *text, size_t text_len, uint32_t options, const uint8_t *schemes, size_t schemes_len, uint8_t *room, size_t room_len, size_t *size);

/* The HTML of a text that grows at its end, such as the output of a language model. The library keeps nothing: the caller keeps the text,
   its HTML, and the cut, an offset in bytes. A call reads only the lines from the cut on, and looks at the earlier bytes only to see that the
   text is UTF-8. But if the lines from the cut on define a link or a footnote, it reads the whole text.

   - *cut is 0 at first. Later it is what the last call that returned PCM_DONE left, for a beginning of this text, with the same options,
     limit and schemes.
   - At PCM_DONE *cut is the new cut, and room has HTML of *size bytes. Its first *settled bytes are the HTML of the blocks before the new
     cut. No further text changes them, as long as the text defines neither a link nor a footnote. The rest is the HTML of the other
     blocks, which that of the next call replaces.
   - If the new cut is 0, the HTML is that of the whole text, and the settled HTML of earlier calls is dropped. This is so if the text
     defines a link or a footnote, or if nothing is settled yet.
   - At any other status *cut is unchanged, and *settled is 0. At PCM_TOO_LONG *size is the length of the HTML. PCM_BAD_CUT means that *cut
     is past the end of the text or inside a character.

   So after PCM_DONE a caller does this:

     if (cut == 0) clear(html);
     append(html, room, settled);
     tail = the bytes room[settled] to room[size - 1];

   html followed by tail is the HTML of the whole text, that of pcm_html_within. A *cut that no call returned for this text is safe: the
   HTML is that of the lines after it. */
uint32_t pcm_stream(const uint8_t *text, size_t text_len, uint32_t options, size_t limit, size_t *cut, size_t *settled, uint8_t *room, size_t room_len, size_t *size);

/* Like pcm_stream, but writes safe HTML, as pcm_safe_html_with does. Returns PCM_NOT_UTF8 also if the list of schemes is not UTF-8. */
uint32_t pcm_safe_stream(const uint8_t *text, size_t text_len, uint32_t options, const uint8_t *schemes, size_t schemes_len, size_t limit, size_t *cut, size_t *settled, uint8_t *room, size_t room_len, size_t *size);

/* Like pcm_html, but writes the events of the text in place of its HTML. Each event, in order, is a line of JSON as the program mdevents
   writes it, {"range":[FROM,TO],"event":[NAME,DATA..]}, and ends with a line feed. The range is in bytes of the text. */
uint32_t pcm_events_json(const uint8_t *text, size_t text_len, uint32_t options, uint8_t *room, size_t room_len, size_t *size);

/* Flat records: the events of a text as bytes. Each record has a head of PCM_HEAD bytes and then its text; the next record starts at the
   byte after the text:

   offset  bytes  field
        0      1  the kind of the event, or PCM_FURTHER
        1      1  the tag, if the kind is PCM_START or PCM_END; the part (enum pcm_part) of a further record; else 0
        2      1  data: a number that the kind or the tag explains; else 0
        3      5  0
        8      8  start, the byte offset in the text at which the event's range starts
       16      8  end, the byte offset at which it ends
       24      8  length, the number of bytes of the record's text
       32 length  the record's text, UTF-8

   Numbers of eight bytes have their lowest byte first. The text of a start is the info string of a fenced code block, the label of a
   footnote definition, the destination of a link or an image, or a byte for each column of a table. The data of a start are the level of a
   heading, the kind of a block quote, the link type, or the kind of a metadata block; a fenced code block and an ordered list have 1. An
   end has the data of a heading, a block quote, a list or a metadata block. A checked task list marker has the data 1. Further records
   follow the start that they belong to; their kind, data, start and end are 0, but PCM_PART_FIRST_NUMBER has its number as the start.
   crates/cmark_flat/README.md has the tables. */
#define PCM_HEAD 32

/* The kinds of records. */
enum pcm_kind {
    PCM_FURTHER = 0, /* a further record of the start before it */
    PCM_START = 1,
    PCM_END = 2,
    PCM_TEXT = 3,
    PCM_CODE = 4,
    PCM_INLINE_MATH = 5,
    PCM_DISPLAY_MATH = 6,
    PCM_HTML = 7,
    PCM_INLINE_HTML = 8,
    PCM_FOOTNOTE_REFERENCE = 9,
    PCM_SOFT_BREAK = 10,
    PCM_HARD_BREAK = 11,
    PCM_RULE = 12,
    PCM_TASK_LIST_MARKER = 13,
    /* Records that are no events, and that pcm_render does not accept. */
    PCM_DEFINITION = 14, /* a link reference definition: see pcm_references */
    PCM_QUESTION = 15, /* a question and its answer: see pcm_events_answered */
    PCM_ANSWER = 16
};

/* The tags of elements. */
enum pcm_tag {
    PCM_TAG_PARAGRAPH = 1,
    PCM_TAG_HEADING = 2,
    PCM_TAG_BLOCK_QUOTE = 3,
    PCM_TAG_CODE_BLOCK = 4,
    PCM_TAG_HTML_BLOCK = 5,
    PCM_TAG_LIST = 6,
    PCM_TAG_ITEM = 7,
    PCM_TAG_FOOTNOTE_DEFINITION = 8,
    PCM_TAG_DEFINITION_LIST = 9,
    PCM_TAG_DEFINITION_LIST_TITLE = 10,
    PCM_TAG_DEFINITION_LIST_DEFINITION = 11,
    PCM_TAG_TABLE = 12,
    PCM_TAG_TABLE_HEAD = 13,
    PCM_TAG_TABLE_ROW = 14,
    PCM_TAG_TABLE_CELL = 15,
    PCM_TAG_EMPHASIS = 16,
    PCM_TAG_STRONG = 17,
    PCM_TAG_STRIKETHROUGH = 18,
    PCM_TAG_SUPERSCRIPT = 19,
    PCM_TAG_SUBSCRIPT = 20,
    PCM_TAG_HIGHLIGHT = 21,
    PCM_TAG_LINK = 22,
    PCM_TAG_IMAGE = 23,
    PCM_TAG_METADATA_BLOCK = 24
};

/* The parts of a start, a definition or an answer that are in further records. */
enum pcm_part {
    PCM_PART_TITLE = 1, /* the title of a link or an image, of a definition, or of an answer */
    PCM_PART_LABEL = 2, /* the id of a link or an image, the label that it names; the label of a definition */
    PCM_PART_HEADING_ID = 3, /* the id of a heading */
    PCM_PART_CLASS = 4, /* a class of a heading */
    PCM_PART_ATTRIBUTE = 5, /* the name of a heading's attribute */
    PCM_PART_VALUE = 6, /* the value of the attribute before it */
    PCM_PART_NO_VALUE = 7, /* the attribute before it has no value */
    PCM_PART_FIRST_NUMBER = 8 /* the first number of an ordered list, in the place of the start */
};

/* Like pcm_html, but writes the events of the text as flat records in place of its HTML. */
uint32_t pcm_events(const uint8_t *text, size_t text_len, uint32_t options, uint8_t *room, size_t room_len, size_t *size);

/* Writes the HTML of the events that flat records stand for: those of pcm_events, or records that a filter has changed. Returns
   PCM_MALFORMED if the bytes are not the records of events: a record is cut short or out of order, a length leads past the end, a text is
   not UTF-8, or a number has no meaning. Never returns PCM_NOT_UTF8. The events need not be balanced. The HTML is not safe to show for a
   text of a stranger, as with pcm_html: use pcm_safe_render for it. */
uint32_t pcm_render(const uint8_t *records, size_t records_len, uint8_t *room, size_t room_len, size_t *size);

/* Like pcm_render, but writes safe HTML, as pcm_safe_html_with does, whoever made the records. schemes may be empty. Returns PCM_NOT_UTF8
   only if this list is not UTF-8. */
uint32_t pcm_safe_render(const uint8_t *records, size_t records_len, const uint8_t *schemes, size_t schemes_len, uint8_t *room, size_t room_len, size_t *size);

/* Like pcm_html, but writes the link reference definitions of the text in place of its HTML: of each label the first one, in no particular
   order. Each is a record of the kind PCM_DEFINITION. Its start and end are the range of the definition in the text, and its text is the
   destination. A further record PCM_PART_TITLE follows if it has a title, and then PCM_PART_LABEL, which has the label. */
uint32_t pcm_references(const uint8_t *text, size_t text_len, uint32_t options, uint8_t *room, size_t room_len, size_t *size);

/* Like pcm_events, but a link whose label no definition has gets an answer of the caller. Each such link is a question, and answers has the
   caller's answers to them:

   - The records of the questions follow those of the events, in the order in which they were put. Their kind is PCM_QUESTION. Start and end
     are the range of the link in the text, the data is the link type that it has if it is answered, and the text is the label.
   - An answer is a record of the kind PCM_ANSWER with the start and the end of its question. If the data is 1, the link leads to the
     record's text, and a further record PCM_PART_TITLE has its title, which may be empty. If the data is 0, it is no link, and its text
     is empty.
   - The first answer with the range of a question counts. A question without an answer is no link. Other answers have no effect.

   An answer may lead to further questions, so a caller answers the new ones and calls again, until no question is new. Mostly this is one
   call for a text without questions, and two for others. But in a text such as [a][] many times each answer leads to one question, so a
   caller should limit the number of calls. Returns PCM_MALFORMED if answers are not such records. */
uint32_t pcm_events_answered(const uint8_t *text, size_t text_len, uint32_t options, const uint8_t *answers, size_t answers_len, uint8_t *room, size_t room_len, size_t *size);

/* Returns the version of the library, to be compared with PCM_VERSION. A library without proofs, which make quick builds, returns
   another number: the version with the bit PCM_NOT_PROVED. */
uint32_t pcm_version(void);

/* The rest of this file are inline functions over some of the functions above. They are tested, not proved. A text of length 0 may be NULL. */

/* Whether a text that grows has grown enough for the next call of pcm_stream: the lines that the call reads by more than a sixteenth, and the
   whole text, which the call checks, by more than a thousandth. cut is the cut of the last call, and read the length of the text then; both
   are 0 at first. If calls are made only then, and once at the end, they read at most 36 bytes for each byte of the text, whatever it is. */
static inline int pcm_is_due(size_t cut, size_t read, size_t text_len)
{
    return (read - cut) / 16 + read / 1024 < text_len - read;
}

/* The type of pcm_html, pcm_safe_html, pcm_events_json, pcm_events and pcm_references. */
typedef uint32_t (*pcm_call)(const uint8_t *, size_t, uint32_t, uint8_t *, size_t, size_t *);

/* The length of the first buffer of pcm_answer, in bytes: times text_len and more, or text_len if that is too large for a size_t. */
static inline size_t pcm_first_room(size_t text_len, size_t times, size_t more)
{
    return text_len <= ((size_t)-1 - more) / times ? times * text_len + more : text_len;
}

/* Calls one of them with a buffer of its own. At PCM_DONE *answer is the output, with a NUL after its *size bytes; the caller frees it
   with pcm_free. At any other status *answer is NULL and *size is 0. Never returns PCM_TOO_LONG.

   If the first buffer is too small, the text is read a second time. The first buffer has 16 times the text and 4,096 bytes for
   pcm_events_json, 8 times and 1,024 for pcm_events, and 2 times and 256 for the others. It was large enough for each of some 800 Markdown
   files. Most systems do not take memory for the part of it that is not written. */
static inline uint32_t pcm_answer(pcm_call call, const char *text, size_t text_len, uint32_t options, char **answer, size_t *size)
{
    const size_t most = (size_t)-1;
    size_t room_len = pcm_first_room(text_len, 2, 256);
    if (call == pcm_events_json)
        room_len = pcm_first_room(text_len, 16, 4096);
    else if (call == pcm_events)
        room_len = pcm_first_room(text_len, 8, 1024);
    *answer = NULL;
    *size = 0;
    if (!text_len)
        text = "";
    for (;;) {
        uint8_t *room = room_len < most ? (uint8_t *)malloc(room_len + 1) : NULL;
        uint32_t status;
        if (!room)
            return PCM_NO_MEMORY;
        status = call((const uint8_t *)text, text_len, options, room, room_len, size);
        if (status == PCM_DONE) {
            room[*size] = 0;
            *answer = (char *)room;
            return status;
        }
        free(room);
        if (status != PCM_TOO_LONG)
            return status;
        room_len = *size;
        *size = 0;
    }
}

/* Returns the HTML in memory of its own, as pcm_answer does. */
static inline uint32_t pcm_html_alloc(const char *text, size_t text_len, uint32_t options, char **html, size_t *size)
{
    return pcm_answer(pcm_html, text, text_len, options, html, size);
}

/* Returns the safe HTML in memory of its own, as pcm_answer does. */
static inline uint32_t pcm_safe_html_alloc(const char *text, size_t text_len, uint32_t options, char **html, size_t *size)
{
    return pcm_answer(pcm_safe_html, text, text_len, options, html, size);
}

/* Returns the lines of pcm_events_json in memory of their own, as pcm_answer does. pcm_records_alloc returns flat records. */
static inline uint32_t pcm_events_alloc(const char *text, size_t text_len, uint32_t options, char **lines, size_t *size)
{
    return pcm_answer(pcm_events_json, text, text_len, options, lines, size);
}

/* Returns the flat records of pcm_events in memory of their own, as pcm_answer does. pcm_next_record reads them. */
static inline uint32_t pcm_records_alloc(const char *text, size_t text_len, uint32_t options, uint8_t **records, size_t *size)
{
    char *answer;
    uint32_t status = pcm_answer(pcm_events, text, text_len, options, &answer, size);
    *records = (uint8_t *)answer;
    return status;
}

/* Returns the flat records of pcm_references in memory of their own, as pcm_answer does. */
static inline uint32_t pcm_references_alloc(const char *text, size_t text_len, uint32_t options, uint8_t **records, size_t *size)
{
    char *answer;
    uint32_t status = pcm_answer(pcm_references, text, text_len, options, &answer, size);
    *records = (uint8_t *)answer;
    return status;
}

/* pcm_render with the parameters of pcm_html. */
static inline uint32_t pcm_render_call(const uint8_t *records, size_t records_len, uint32_t options, uint8_t *room, size_t room_len, size_t *size)
{
    (void)options;
    return pcm_render(records, records_len, room, room_len, size);
}

/* Returns the HTML of flat records in memory of its own, as pcm_answer does. Returns PCM_MALFORMED as pcm_render does. */
static inline uint32_t pcm_render_alloc(const uint8_t *records, size_t records_len, char **html, size_t *size)
{
    return pcm_answer(pcm_render_call, (const char *)records, records_len, 0, html, size);
}

/* pcm_safe_render without further schemes, with the parameters of pcm_html. */
static inline uint32_t pcm_safe_render_call(const uint8_t *records, size_t records_len, uint32_t options, uint8_t *room, size_t room_len, size_t *size)
{
    (void)options;
    return pcm_safe_render(records, records_len, (const uint8_t *)"", 0, room, room_len, size);
}

/* Returns the safe HTML of flat records in memory of its own, as pcm_render_alloc does. */
static inline uint32_t pcm_safe_render_alloc(const uint8_t *records, size_t records_len, char **html, size_t *size)
{
    return pcm_answer(pcm_safe_render_call, (const char *)records, records_len, 0, html, size);
}

/* Returns the flat records of pcm_events_answered in memory of their own, as pcm_answer does. answers may be NULL if answers_len is 0.
   pcm_put_answer writes answers. */
static inline uint32_t pcm_answered_alloc(const char *text, size_t text_len, uint32_t options, const uint8_t *answers, size_t answers_len, uint8_t **records, size_t *size)
{
    size_t room_len = pcm_first_room(text_len, 8, 1024);
    *records = NULL;
    *size = 0;
    for (;;) {
        uint8_t *room = (uint8_t *)malloc(room_len);
        uint32_t status;
        if (!room)
            return PCM_NO_MEMORY;
        status = pcm_events_answered((const uint8_t *)(text_len ? text : ""), text_len, options, answers_len ? answers : (const uint8_t *)"", answers_len, room, room_len, size);
        if (status == PCM_DONE) {
            *records = room;
            return status;
        }
        free(room);
        if (status != PCM_TOO_LONG)
            return status;
        room_len = *size;
        *size = 0;
    }
}

/* Frees the memory that one of these functions returned. NULL is allowed. */
static inline void pcm_free(void *answer)
{
    free(answer);
}

/* A function that receives bytes. It returns 0 to continue; after any other value it is not called again. The bytes are valid until it
   returns. */
typedef int (*pcm_take)(const char *bytes, size_t size, void *user);

/* Passes the HTML to take in one call, at PCM_DONE only. *taken is the value that take returned, or 0 if it was not called. */
static inline uint32_t pcm_html_to(const char *text, size_t text_len, uint32_t options, pcm_take take, void *user, int *taken)
{
    char *html;
    size_t size;
    uint32_t status = pcm_html_alloc(text, text_len, options, &html, &size);
    *taken = status == PCM_DONE ? take(html, size, user) : 0;
    pcm_free(html);
    return status;
}

/* Passes each event to take, as a line of JSON without its line feed. *taken is the last value that take returned, or 0 if it was not
   called. */
static inline uint32_t pcm_events_to(const char *text, size_t text_len, uint32_t options, pcm_take take, void *user, int *taken)
{
    char *lines;
    size_t size, from = 0, to;
    uint32_t status = pcm_events_alloc(text, text_len, options, &lines, &size);
    *taken = 0;
    for (to = 0; to < size && !*taken; to++) {
        if (lines[to] == '\n') {
            *taken = take(lines + from, to - from, user);
            from = to + 1;
        }
    }
    pcm_free(lines);
    return status;
}

/* A flat record, as pcm_next_record reads it. */
struct pcm_record {
    uint8_t kind, tag, data;
    uint64_t start, end;
    const uint8_t *text; /* inside of the records */
    size_t len;
};

/* A number of eight bytes, the lowest first. */
static inline uint64_t pcm_wide(const uint8_t *bytes)
{
    uint64_t number = 0;
    int i;
    for (i = 7; i >= 0; i--)
        number = number << 8 | bytes[i];
    return number;
}

/* Reads the record at records[*at], and moves *at to the byte after it. records has size bytes, and *at is at most size. Returns 1, or 0 at
   the end and if a record is cut short; then *at is size only at the end. */
static inline int pcm_next_record(const uint8_t *records, size_t size, size_t *at, struct pcm_record *record)
{
    const uint8_t *head = records + *at;
    uint64_t len;
    if (size - *at < PCM_HEAD)
        return 0;
    len = pcm_wide(head + 24);
    if (size - *at - PCM_HEAD < len)
        return 0;
    record->kind = head[0];
    record->tag = head[1];
    record->data = head[2];
    record->start = pcm_wide(head + 8);
    record->end = pcm_wide(head + 16);
    record->text = head + PCM_HEAD;
    record->len = (size_t)len;
    *at += PCM_HEAD + record->len;
    return 1;
}

/* Writes a number as eight bytes, the lowest first. */
static inline void pcm_put_wide(uint8_t *bytes, uint64_t number)
{
    int i;
    for (i = 0; i < 8; i++)
        bytes[i] = (uint8_t)(number >> 8 * i);
}

/* Writes the answer to a question to bytes: the link leads to dest, or it is no link if dest is NULL. Returns the number of bytes of the
   answer: PCM_HEAD if dest is NULL, else 2 * PCM_HEAD + dest_len + title_len. If bytes is NULL, only this number is returned. dest and
   title are UTF-8; title may be NULL if title_len is 0. */
static inline size_t pcm_put_answer(uint8_t *bytes, const struct pcm_record *question, const char *dest, size_t dest_len, const char *title, size_t title_len)
{
    const size_t text_len = dest ? dest_len : 0, size = dest ? 2 * PCM_HEAD + dest_len + title_len : PCM_HEAD;
    size_t i;
    uint8_t *part;
    if (!bytes)
        return size;
    for (i = 0; i < PCM_HEAD; i++)
        bytes[i] = 0;
    bytes[0] = PCM_ANSWER;
    bytes[2] = dest ? 1 : 0;
    pcm_put_wide(bytes + 8, question->start);
    pcm_put_wide(bytes + 16, question->end);
    pcm_put_wide(bytes + 24, text_len);
    if (!dest)
        return size;
    for (i = 0; i < dest_len; i++)
        bytes[PCM_HEAD + i] = (uint8_t)dest[i];
    part = bytes + PCM_HEAD + dest_len;
    for (i = 0; i < PCM_HEAD; i++)
        part[i] = 0;
    part[0] = PCM_FURTHER;
    part[1] = PCM_PART_TITLE;
    pcm_put_wide(part + 24, title_len);
    for (i = 0; i < title_len; i++)
        part[PCM_HEAD + i] = (uint8_t)title[i];
    return size;
}

/* A function that receives a record. It returns 0 to continue; after any other value it is not called again. The record is valid until it
   returns. */
typedef int (*pcm_take_record)(const struct pcm_record *record, void *user);

/* Passes each flat record to take, further records too. *taken is the last value that take returned, or 0 if it was not called. */
static inline uint32_t pcm_records_to(const char *text, size_t text_len, uint32_t options, pcm_take_record take, void *user, int *taken)
{
    uint8_t *records;
    size_t size, at = 0;
    struct pcm_record record;
    uint32_t status = pcm_records_alloc(text, text_len, options, &records, &size);
    *taken = 0;
    while (!*taken && status == PCM_DONE && pcm_next_record(records, size, &at, &record))
        *taken = take(&record, user);
    pcm_free(records);
    return status;
}

#ifdef __cplusplus
}
#endif
#endif
