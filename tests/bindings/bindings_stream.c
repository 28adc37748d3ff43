/* Tests the calls for a text that grows: tests/bindings/run builds it, with the archive and with the shared library.

   bindings_stream grow      reads records of options, a length and a text. Each text grows by a byte, and by more. The HTML has to be that of
                             the whole text at each step, and the settled HTML only grows unless it is dropped
   bindings_stream cut       calls from each offset of each text on, in rooms of all lengths
   bindings_stream statuses  reads nothing, and tries each status

   The first two write how many calls had settled HTML. Numbers have eight bytes, in this machine's order. The status is 0 if all tests
   pass. */
#include "bindings.h"

/* HTML in memory of its own. */
struct html {
    uint8_t *bytes;
    size_t size, settled;
    uint32_t status;
};

/* The HTML of a text from a cut on, in a room of this length between two guards. */
static struct html html_in(growing_call call, const struct record *it, size_t *cut, size_t room_len)
{
    struct html found;
    uint8_t *whole = memory(room_len + 2 * GUARD), *room = whole + GUARD;
    memset(whole, FILL, room_len + 2 * GUARD);
    found.size = 12345;
    found.status = from_cut(call, it->text, it->len, (uint32_t)it->options, cut, &found.settled, room, room_len, &found.size);
    if (!is_filled(whole, GUARD) || !is_filled(room + room_len, GUARD))
        stop("a call wrote beside the room", it);
    if (found.status == PCM_DONE ? found.size > room_len || !is_filled(room + found.size, room_len - found.size) : !is_filled(room, room_len))
        stop("a call wrote outside of its HTML", it);
    if (found.status == PCM_TOO_LONG ? found.size <= room_len : found.status != PCM_DONE && found.size != 0)
        stop("a call returned a wrong size", it);
    memmove(whole, room, found.status == PCM_DONE ? found.size : 0);
    found.bytes = whole;
    return found;
}

/* The HTML of a text from a cut on. */
static struct html html_from(growing_call call, const struct record *it, size_t *cut)
{
    struct html found = html_in(call, it, cut, it->len + 16);
    if (found.status == PCM_TOO_LONG) {
        free(found.bytes);
        found = html_in(call, it, cut, found.size);
    }
    return found;
}

/* The HTML of a whole text, by a call without a cut. */
static uint32_t whole_html(const uint8_t *text, size_t text_len, uint32_t options, uint8_t *room, size_t room_len, size_t *size)
{
    return pcm_html_within(text, text_len, options, growing_limit, room, room_len, size);
}

static const struct {
    growing_call grows;
    pcm_call whole;
} both[] = {{growing, whole_html}, {safe_growing, pcm_safe_html}};

/* Stops if the settled HTML of a page and the tail of a call are not the HTML of the whole text. */
static void compare(pcm_call call, const struct record *it, const uint8_t *page, size_t page_len, const struct html *found)
{
    size_t size;
    uint32_t status;
    uint8_t *wanted = answer(call, it, &status, &size);
    if (status != PCM_DONE || size != page_len + found->size - found->settled)
        stop("the HTML of a text that grows has another size", it);
    if (memcmp(wanted, page, page_len) || memcmp(wanted + page_len, found->bytes + found->settled, found->size - found->settled))
        stop("the HTML of a text that grows is not that of the whole text", it);
    free(wanted);
}

/* A text that grows in steps of some bytes. Returns how many calls had settled HTML before their cut. */
static size_t grow(size_t k, const struct record *whole, size_t step)
{
    struct record it = *whole;
    size_t cut = 0, page_len = 0, page_room = 64, settled = 0;
    uint8_t *page = memory(page_room);
    for (it.len = 0; it.len <= whole->len; it.len += it.len + step > whole->len && it.len < whole->len ? whole->len - it.len : step) {
        struct html found = html_from(both[k].grows, &it, &cut);
        if (!is_boundary(whole->text, whole->len, it.len)) {
            if (found.status != PCM_NOT_UTF8)
                stop("a text that ends inside a character was read", &it);
            free(found.bytes);
            continue;
        }
        if (found.status != PCM_DONE)
            stop("a text that grows has no HTML", &it);
        if (!cut)
            page_len = 0;
        while (page_len + found.settled > page_room)
            if (!(page = realloc(page, page_room *= 2)))
                stop("there is no memory for the test itself", NULL);
        memcpy(page + page_len, found.bytes, found.settled);
        page_len += found.settled;
        settled += page_len > 0;
        compare(both[k].whole, &it, page, page_len, &found);
        free(found.bytes);
    }
    free(page);
    return settled;
}

/* A call from each offset on, also inside a character and after the end. Returns how many calls settled something. */
static size_t cut(growing_call call, const struct record *it)
{
    size_t at, next, room_len, settled = 0;
    for (at = 0; at <= it->len + 2; at++) {
        struct html found;
        next = at;
        found = html_from(call, it, &next);
        if (found.status != (uint32_t)(is_boundary(it->text, it->len, at) ? PCM_DONE : PCM_BAD_CUT))
            stop("a cut was judged wrongly", it);
        settled += found.status == PCM_DONE && found.settled;
        for (room_len = 0; found.status == PCM_DONE && room_len <= found.size + 1; room_len++) {
            size_t again = at;
            struct html other = html_in(call, it, &again, room_len);
            if (other.size != found.size || other.status != (uint32_t)(room_len < found.size ? PCM_TOO_LONG : PCM_DONE))
                stop("a room of another length than the HTML's was judged wrongly", it);
            if (other.status == PCM_DONE && (again != next || other.settled != found.settled || memcmp(other.bytes, found.bytes, found.size)))
                stop("the HTML from a cut on depends on the room", it);
            free(other.bytes);
        }
        free(found.bytes);
    }
    return settled;
}

/* One call of pcm_safe_stream with a list of schemes, or of pcm_stream if there is no list. Without HTML the cut is unchanged. */
static void expect(const char *text, uint32_t options, const char *schemes, size_t at, uint32_t wanted, const char *html)
{
    uint8_t room[256];
    size_t cut = at, settled = 12345, size = 12345;
    uint32_t status;
    if (schemes)
        status = pcm_safe_stream((const uint8_t *)text, strlen(text), options, (const uint8_t *)schemes, strlen(schemes), 100, &cut, &settled, room, sizeof room, &size);
    else
        status = pcm_stream((const uint8_t *)text, strlen(text), options, 100, &cut, &settled, room, sizeof room, &size);
    if (status != wanted || size != strlen(html) || memcmp(room, html, size) || (status != PCM_DONE && (settled || cut != at))) {
        fprintf(stderr, "bindings: status %u, HTML %.*s, cut %lu of %s\n", (unsigned)status, (int)size, (const char *)room, (unsigned long)cut, text);
        exit(1);
    }
}

/* Calls are due if the part after the cut has grown by more than a sixteenth, and the whole text by more than a thousandth. */
static void due(void)
{
    static const size_t yes[][3] = {{0, 0, 1}, {0, 15, 16}, {0, 16, 18}, {0, 160, 171}, {150, 160, 161}, {0, 1600, 1702}, {9990, 10240, 10266}},
                        no[][3] = {{0, 0, 0}, {7, 7, 7}, {0, 16, 17}, {0, 160, 170}, {0, 1600, 1701}, {9990, 10240, 10265}};
    size_t i;
    for (i = 0; i < sizeof yes / sizeof *yes; i++)
        if (!pcm_is_due(yes[i][0], yes[i][1], yes[i][2]))
            stop("a call that is due is not", NULL);
    for (i = 0; i < sizeof no / sizeof *no; i++)
        if (pcm_is_due(no[i][0], no[i][1], no[i][2]))
            stop("a call is due too early", NULL);
}

/* Each status, and what the calls settle of a known text. */
static void statuses(void)
{
    const char *text = "# a\n\nb\n\nc";
    uint8_t room[64];
    size_t cut = 0, settled, size;
    expect("*a*", 0, NULL, 0, PCM_DONE, "<p><em>a</em></p>\n");
    expect("", 0, NULL, 0, PCM_DONE, "");
    expect("a\xff", 0, NULL, 0, PCM_NOT_UTF8, "");
    expect("a", 1, NULL, 0, PCM_UNKNOWN_OPTIONS, "");
    expect("a", 1u << 31, "", 0, PCM_UNKNOWN_OPTIONS, "");
    expect("a", 0, NULL, 2, PCM_BAD_CUT, "");
    expect("\xc3\xa9", 0, NULL, 1, PCM_BAD_CUT, "");
    expect("\xc3\xa9", 0, "", 1, PCM_BAD_CUT, "");
    expect("", 0, "", 1, PCM_BAD_CUT, "");
    expect("a", 0, NULL, (size_t)-1, PCM_BAD_CUT, "");
    expect("[a](tel:1) <b>", 0, "", 0, PCM_DONE, "<p><a href=\"\">a</a> &lt;b&gt;</p>\n");
    expect("[a](tel:1) <b>", 0, "sms tel", 0, PCM_DONE, "<p><a href=\"tel:1\">a</a> &lt;b&gt;</p>\n");
    expect("a", 0, "tel\xff", 0, PCM_NOT_UTF8, "");
    expect("[x] [x]\n\n[x]: /u", 0, NULL, 0, PCM_DONE, "<p><a href=\"/u\">x</a> <a href=\"/u\">x</a></p>\n");
    if (pcm_stream((const uint8_t *)"[x] [x]\n\n[x]: /u", 16, 0, 1, &cut, &settled, room, sizeof room, &size) != PCM_DONE || size != 30 || cut)
        stop("the limit of a text that grows has no effect", NULL);
    if (pcm_stream((const uint8_t *)text, strlen(text), 0, 100, &cut, &settled, room, sizeof room, &size) != PCM_DONE || cut == 0 || cut > 8)
        stop("nothing is settled of a heading and two paragraphs", NULL);
    if (settled < 11 || memcmp(room, "<h1>a</h1>\n<p>b</p>\n<p>c</p>\n", size))
        stop("the heading is not settled", NULL);
    if (pcm_stream((const uint8_t *)text, strlen(text), 0, 100, &cut, &settled, room, 0, &size) != PCM_TOO_LONG || size == 0 || cut == 0 || settled)
        stop("a room that is too small was judged wrongly", NULL);
}

int main(int words, char **word)
{
    static const size_t steps[] = {1, 3, 17};
    size_t i, j, k, settled = 0;
    if (words == 2 && !strcmp(word[1], "statuses")) {
        statuses();
        due();
        return 0;
    }
    read_records();
    if (words != 2 || (strcmp(word[1], "grow") && strcmp(word[1], "cut")))
        stop("say grow, cut or statuses", NULL);
    for (i = 0; i < count; i++)
        for (k = 0; k < sizeof both / sizeof *both; k++) {
            if (!strcmp(word[1], "cut"))
                settled += cut(both[k].grows, &records[i]);
            else
                for (j = 0; j < sizeof steps / sizeof *steps; j++)
                    settled += grow(k, &records[i], steps[j]);
        }
    give_records();
    printf("%lu\n", (unsigned long)settled);
    return 0;
}
