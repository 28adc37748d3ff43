/* What bindings.c, bindings_guard.c and bindings_stream.c share: the records of standard input, and one call of the library. */
#ifndef BINDINGS_H
#define BINDINGS_H

#include "pulldown_cmark.h"
#include <stdio.h>
#include <string.h>

#define FILL 0xA5
#define GUARD 64

struct record {
    uint64_t options, len;
    uint8_t *text;
};

static struct record *records;
static size_t count;
/* The answers that pcm_events_answered is given below. */
static const uint8_t *answers = (const uint8_t *)"";
static size_t answers_len;

static inline uint32_t answered(const uint8_t *text, size_t text_len, uint32_t options, uint8_t *room, size_t room_len, size_t *size)
{
    return pcm_events_answered(text, text_len, options, answers, answers_len, room, room_len, size);
}

/* A call for a text that grows, from a cut on. */
typedef uint32_t (*growing_call)(const uint8_t *text, size_t text_len, uint32_t options, size_t *cut, size_t *settled, uint8_t *room, size_t room_len, size_t *size);

/* The limit that these calls get below. */
static size_t growing_limit = 100000;

static inline uint32_t growing(const uint8_t *text, size_t text_len, uint32_t options, size_t *cut, size_t *settled, uint8_t *room, size_t room_len, size_t *size)
{
    return pcm_stream(text, text_len, options, growing_limit, cut, settled, room, room_len, size);
}

static inline uint32_t safe_growing(const uint8_t *text, size_t text_len, uint32_t options, size_t *cut, size_t *settled, uint8_t *room, size_t room_len, size_t *size)
{
    return pcm_safe_stream(text, text_len, options, (const uint8_t *)"", 0, growing_limit, cut, settled, room, room_len, size);
}

static inline void stop(const char *why, const struct record *it);

/* Whether a character starts or the bytes end at an offset. */
static inline int is_boundary(const uint8_t *bytes, size_t len, size_t at)
{
    return at == len || (at < len && (bytes[at] & 0xC0) != 0x80);
}

/* One call from a cut on. Afterwards the cut and the settled size are within their bounds; without HTML the cut is unchanged. */
static inline uint32_t from_cut(growing_call call, const uint8_t *text, size_t text_len, uint32_t options, size_t *cut, size_t *settled, uint8_t *room, size_t room_len, size_t *size)
{
    const size_t before = *cut;
    uint32_t status;
    *settled = 12345;
    status = call(text, text_len, options, cut, settled, room, room_len, size);
    if (status != PCM_DONE && (*cut != before || *settled))
        stop("a call without HTML changed the cut or settled something", NULL);
    if (status == PCM_DONE && ((*cut && *cut < before) || !is_boundary(text, text_len, *cut)))
        stop("a call left a cut that is too small or inside a character", NULL);
    if (status == PCM_DONE && ((!*cut && *settled) || !is_boundary(room, *size, *settled)))
        stop("a call settled too much", NULL);
    return status;
}

/* These calls from the beginning of a text on, and from its middle on, with the parameters of pcm_html. */
static inline uint32_t streamed(const uint8_t *text, size_t text_len, uint32_t options, uint8_t *room, size_t room_len, size_t *size)
{
    size_t cut = 0, settled;
    return from_cut(growing, text, text_len, options, &cut, &settled, room, room_len, size);
}

static inline uint32_t safe_streamed(const uint8_t *text, size_t text_len, uint32_t options, uint8_t *room, size_t room_len, size_t *size)
{
    size_t cut = 0, settled;
    return from_cut(safe_growing, text, text_len, options, &cut, &settled, room, room_len, size);
}

static inline uint32_t streamed_from_middle(const uint8_t *text, size_t text_len, uint32_t options, uint8_t *room, size_t room_len, size_t *size)
{
    size_t cut = text_len / 2, settled;
    while (!is_boundary(text, text_len, cut))
        cut++;
    return from_cut(growing, text, text_len, options, &cut, &settled, room, room_len, size);
}

/* The calls that read a text. The programs write the outputs of the first two too. */
#define CALLS 8
static const pcm_call calls[CALLS] = {pcm_html, pcm_events_json, pcm_safe_html, pcm_events, pcm_references, answered, streamed, safe_streamed};
/* The calls that read flat records. */
#define RENDER pcm_render_call
#define SAFE_RENDER pcm_safe_render_call

static inline void stop(const char *why, const struct record *it)
{
    fprintf(stderr, "bindings: %s", why);
    if (it)
        fprintf(stderr, ", options %lu, text of %lu bytes: %.*s", (unsigned long)it->options, (unsigned long)it->len, (int)it->len, (const char *)it->text);
    fprintf(stderr, "\n");
    exit(1);
}

static inline void *memory(size_t size)
{
    void *place = malloc(size ? size : 1);
    if (!place)
        stop("there is no memory for the test itself", NULL);
    return place;
}

static inline void read_records(void)
{
    uint64_t head[2];
    size_t room = 0;
    while (fread(head, sizeof head, 1, stdin) == 1) {
        struct record *it;
        if (count == room && !(records = realloc(records, (room = 2 * room + 64) * sizeof *records)))
            stop("there is no memory for the test itself", NULL);
        it = &records[count++];
        it->options = head[0];
        it->len = head[1];
        it->text = memory(it->len);
        if (fread(it->text, 1, it->len, stdin) != it->len)
            stop("the input ends too early", NULL);
    }
}

static inline void give_records(void)
{
    size_t i;
    for (i = 0; i < count; i++)
        free(records[i].text);
    free(records);
}

/* pcm_events_answered for a short text, whose answers are the bytes that the others read as a text. */
static inline uint32_t with_answers(const uint8_t *given, size_t given_len, uint32_t options, uint8_t *room, size_t room_len, size_t *size)
{
    return pcm_events_answered((const uint8_t *)"[a] [b]", 7, options, given, given_len, room, room_len, size);
}

static inline int reads_records(pcm_call call)
{
    return call == RENDER || call == SAFE_RENDER || call == with_answers;
}

/* Whether all of some bytes are the fill. */
static inline int is_filled(const uint8_t *bytes, size_t size)
{
    while (size)
        if (bytes[--size] != FILL)
            return 0;
    return 1;
}

/* One call with a room of this length between two guards; the bytes outside the output have to be unchanged. */
static inline uint32_t guarded(pcm_call call, const struct record *it, size_t room_len, uint8_t *whole, size_t *size)
{
    uint8_t *room = whole + GUARD;
    uint32_t status;
    memset(whole, FILL, room_len + 2 * GUARD);
    *size = 12345;
    status = call(it->text, it->len, (uint32_t)it->options, room, room_len, size);
    if (!is_filled(whole, GUARD) || !is_filled(room + room_len, GUARD))
        stop("a call wrote beside the room", it);
    if (status == PCM_DONE && (*size > room_len || !is_filled(room + *size, room_len - *size)))
        stop("a call wrote after the answer", it);
    if (status != PCM_DONE && !is_filled(room, room_len))
        stop("a call that is not done wrote into the room", it);
    if (status == PCM_TOO_LONG && *size <= room_len)
        stop("a call found an answer too long that is not", it);
    if (status != PCM_DONE && status != PCM_TOO_LONG && *size)
        stop("a call without an answer gave it a size", it);
    if (status > PCM_UNKNOWN_OPTIONS || (status == PCM_NOT_UTF8 && reads_records(call)) || (status == PCM_MALFORMED && !reads_records(call) && call != answered))
        stop("a call answered no status", it);
    return status;
}

/* The whole output of a call; the caller frees it. */
static inline uint8_t *answer(pcm_call call, const struct record *it, uint32_t *status, size_t *size)
{
    size_t room_len = it->len + it->len / 4 + 64;
    uint8_t *whole = memory(room_len + 2 * GUARD);
    *status = guarded(call, it, room_len, whole, size);
    if (*status == PCM_TOO_LONG) {
        room_len = *size;
        free(whole);
        whole = memory(room_len + 2 * GUARD);
        *status = guarded(call, it, room_len, whole, size);
    }
    memmove(whole, whole + GUARD, *status == PCM_DONE ? *size : 0);
    return whole;
}

/* The flat records of a text, as a text of pcm_render; the caller frees them. */
static inline struct record flat_of(const struct record *it)
{
    struct record flat = *it;
    uint32_t status;
    size_t size;
    flat.text = answer(pcm_events, it, &status, &size);
    flat.len = size;
    return flat;
}

#endif
