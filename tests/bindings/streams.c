/* A text that grows by chunks, read by pcm_stream or rendered anew: streams LIBRARY CALL CHUNK EVERY OPTIONS, with the text on standard input.

   CALL is `stream` (pcm_stream), `due` (pcm_stream if pcm_is_due, and at the end), `whole` (pcm_html_within of the whole text so far) or
   `none` (no call). A chunk has CHUNK bytes, or up to three more so that it ends between characters. Only one in EVERY chunks is followed by
   a call. Writes the HTML of the whole text on standard output. Writes the number of calls, the bytes that they read, and the last cut on
   standard error. A call reads the bytes from the cut on that it is given, and then the whole text if it drops the cut.
   tests/bindings/streams and tests/speed/growing build and run it. */
#include "../../include/pulldown_cmark.h"
#include <dlfcn.h>
#include <stdint.h>
#include <stdio.h>
#include <stdlib.h>
#include <string.h>

typedef uint32_t (*stream_call)(const uint8_t *, size_t, uint32_t, size_t, size_t *, size_t *, uint8_t *, size_t, size_t *);
typedef uint32_t (*whole_call)(const uint8_t *, size_t, uint32_t, size_t, uint8_t *, size_t, size_t *);

enum { LIMIT = 100000 };

static uint8_t text[1 << 22], room[1 << 24], html[1 << 24];
static size_t html_len, tail_at, cut, read_len, calls, bytes_read;

/* The end of the chunk that begins at `from`: after a whole character. */
static size_t end_of(size_t from, size_t chunk, size_t len)
{
    size_t end = len - from < chunk ? len : from + chunk;
    while (end < len && (text[end] & 0xC0) == 0x80)
        end++;
    return end;
}

/* Keeps the settled HTML, and replaces the tail. */
static int read_on(stream_call call, size_t len, uint32_t options)
{
    size_t settled, size, from = cut;
    if (call(text, len, options, LIMIT, &cut, &settled, room, sizeof room, &size))
        return 0;
    calls++;
    bytes_read += len - from + (cut == 0 && from > 0 ? len : 0);
    read_len = len;
    if (cut == 0)
        tail_at = 0;
    if (size > sizeof html - tail_at)
        return 0;
    memcpy(html + tail_at, room, size);
    html_len = tail_at + size;
    tail_at += settled;
    return 1;
}

static int read_whole(whole_call call, size_t len, uint32_t options)
{
    calls++;
    bytes_read += len;
    return !call(text, len, options, LIMIT, html, sizeof html, &html_len);
}

int main(int words, char **word)
{
    void *library = words == 6 ? dlopen(word[1], RTLD_NOW) : NULL;
    stream_call stream = library ? (stream_call)dlsym(library, "pcm_stream") : NULL;
    whole_call whole = library ? (whole_call)dlsym(library, "pcm_html_within") : NULL;
    size_t chunk, every, len, end = 0, number = 0;
    uint32_t options;
    if (!stream || !whole)
        return 1;
    chunk = strtoul(word[3], NULL, 10);
    every = strtoul(word[4], NULL, 10);
    options = (uint32_t)strtoul(word[5], NULL, 10);
    len = fread(text, 1, sizeof text, stdin);
    if (!chunk || !every || !feof(stdin))
        return 1;
    while (end < len) {
        end = end_of(end, chunk, len);
        if (++number % every && end < len)
            continue;
        if (!strcmp(word[2], "stream") && !read_on(stream, end, options))
            return 1;
        if (!strcmp(word[2], "due") && (pcm_is_due(cut, read_len, end) || end == len) && !read_on(stream, end, options))
            return 1;
        if (!strcmp(word[2], "whole") && !read_whole(whole, end, options))
            return 1;
    }
    fprintf(stderr, "%zu %zu %zu\n", calls, bytes_read, cut);
    return fwrite(html, 1, html_len, stdout) != html_len;
}
