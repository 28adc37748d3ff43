/* Tests the library from C: tests/bindings/run builds it, with the archive and with the shared library, and reads its output.

   bindings batch     reads records of options, a length and a text; writes for each the status, the size and the output of both calls
   bindings large     writes the outputs of all calls, with the default limit and without further schemes
   bindings safe      writes the outputs of the call for safe HTML
   bindings tries     tries the records for properties that no output shows: short rooms, rooms at the end, refused memory, bad UTF-8.
                      The flat records of each text are the text of pcm_render and pcm_safe_render
   bindings refusals  writes for each record the number of allocations of each call that were refused in turn

   Numbers have eight bytes, in this machine's order. The status is 0 if all tests pass. */
#include "bindings.h"

static long refuse_at = -1, asked, held;

#ifdef REFUSES
/* The linker replaces malloc, realloc and free by these, in the archive too (--wrap). */
void *__real_malloc(size_t);
void *__real_realloc(void *, size_t);
void __real_free(void *);

static int is_refused(void)
{
    return refuse_at >= 0 && asked++ == refuse_at;
}

void *__wrap_malloc(size_t size)
{
    void *place = is_refused() ? NULL : __real_malloc(size);
    if (place && refuse_at >= 0)
        held++;
    return place;
}

void *__wrap_realloc(void *old, size_t size)
{
    void *place = is_refused() ? NULL : __real_realloc(old, size);
    if (place && !old && refuse_at >= 0)
        held++;
    return place;
}

void __wrap_free(void *place)
{
    if (place && refuse_at >= 0)
        held--;
    __real_free(place);
}
#endif

/* Writes the status, the size and the output of each of some calls. */
static void write_answers(const pcm_call *some, size_t number, const struct record *it)
{
    size_t k, size;
    uint32_t status;
    for (k = 0; k < number; k++) {
        uint8_t *given = answer(some[k], it, &status, &size);
        uint64_t head[2];
        head[0] = status;
        head[1] = size;
        fwrite(head, sizeof head, 1, stdout);
        fwrite(given, 1, size, stdout);
        free(given);
    }
}

/* The outputs of a range of calls, for each record. */
static void batch(size_t first, size_t end)
{
    size_t i;
    for (i = 0; i < count; i++)
        write_answers(calls + first, end - first, &records[i]);
}

/* All rooms that are too short, a room that is just long enough, and a longer one. */
static void try_rooms(pcm_call call, const struct record *it)
{
    size_t wanted, size, room_len;
    uint32_t status;
    uint8_t *all = answer(call, it, &status, &wanted);
    uint8_t *whole = memory(wanted + 8 + 2 * GUARD);
    for (room_len = 0; room_len <= wanted + 8; room_len++) {
        status = guarded(call, it, room_len, whole, &size);
        if (size != wanted || status != (room_len < wanted ? PCM_TOO_LONG : PCM_DONE))
            stop("a room of another length than the answer's was judged wrongly", it);
        if (status == PCM_DONE && memcmp(all, whole + GUARD, size))
            stop("an answer depends on the room", it);
    }
    free(whole);
    free(all);
}

typedef uint32_t (*records_helper)(const uint8_t *, size_t, char **, size_t *);

/* The HTML of the records of a text is that of the text. */
static void try_render(pcm_call of_text, pcm_call of_records, records_helper helper, const struct record *it, const struct record *flat)
{
    size_t wanted, size, given_size;
    uint32_t status, rendered;
    uint8_t *all = answer(of_text, it, &status, &wanted), *html = answer(of_records, flat, &rendered, &size);
    char *given;
    if (rendered != PCM_DONE || (status == PCM_DONE && (size != wanted || memcmp(all, html, size))))
        stop("the records of a text have other HTML", it);
    if (helper(flat->text, flat->len, &given, &given_size) != PCM_DONE || given_size != size || memcmp(given, html, size) || given[size])
        stop("a helper renders other HTML", it);
    pcm_free(given);
    free(html);
    free(all);
}

/* One call with records that are damaged. */
static uint32_t damaged(pcm_call call, const struct record *bad)
{
    uint32_t status;
    size_t size;
    free(answer(call, bad, &status, &size));
    return status;
}

/* Records that are cut short at any byte, or changed there, are malformed or have some HTML, and safe HTML in the same cases. */
static void try_malformed(const struct record *flat)
{
    struct record bad = *flat;
    uint32_t status;
    size_t at;
    bad.text = memory(flat->len);
    memcpy(bad.text, flat->text, flat->len);
    for (at = 0; at < flat->len; at++) {
        bad.len = at;
        status = damaged(RENDER, &bad);
        if ((status != PCM_DONE && status != PCM_MALFORMED) || damaged(SAFE_RENDER, &bad) != status)
            stop("records that were cut short were judged wrongly", flat);
        bad.len = flat->len;
        bad.text[at] ^= 0xFF;
        status = damaged(RENDER, &bad);
        if ((status != PCM_DONE && status != PCM_MALFORMED) || damaged(SAFE_RENDER, &bad) != status)
            stop("records that were changed were judged wrongly", flat);
        bad.text[at] ^= 0xFF;
    }
    free(bad.text);
}

/* The records of an answer to each question of a text: every other one is a link. The caller frees them. */
static uint8_t *answers_to(const struct record *it, size_t *len)
{
    size_t size, at = 0, questions = 0;
    uint32_t status;
    uint8_t *found = answer(answered, it, &status, &size), *made = memory(size + 3 * size + 64);
    struct pcm_record record;
    *len = 0;
    while (pcm_next_record(found, size, &at, &record))
        if (record.kind == PCM_QUESTION) {
            size_t part = pcm_put_answer(NULL, &record, questions % 2 ? NULL : "/d", 2, "t", 1);
            if (pcm_put_answer(made + *len, &record, questions++ % 2 ? NULL : "/d", 2, "t", 1) != part)
                stop("an answer has another size than it said", it);
            *len += part;
        }
    free(found);
    return made;
}

/* The helper for events with answers. */
static void try_answered_helper(const struct record *it, const uint8_t *made, size_t len)
{
    size_t size, given_size, at = 0, links = 0;
    uint32_t status;
    uint8_t *wanted = answer(answered, it, &status, &size), *given;
    struct pcm_record record;
    if (pcm_answered_alloc((const char *)it->text, it->len, (uint32_t)it->options, len ? made : NULL, len, &given, &given_size) != status || given_size != size)
        stop("the helper for answers answers another status or size", it);
    if (status == PCM_DONE ? memcmp(given, wanted, size) : given != NULL)
        stop("the helper for answers answers other bytes", it);
    while (pcm_next_record(given, given_size, &at, &record))
        links += record.kind == PCM_START && record.len == 2 && !memcmp(record.text, "/d", 2);
    if (len && !links)
        stop("no link has its answer", it);
    pcm_free(given);
    free(wanted);
}

static void try_rooms(pcm_call call, const struct record *it);
static long try_refusals(pcm_call call, const struct record *it);

/* pcm_events_answered with answers, and with answers that are cut short at any byte. Returns the number of refused allocations. */
static long try_answers(const struct record *it)
{
    size_t len, size;
    uint32_t status;
    long refused = 0;
    uint8_t *made = answers_to(it, &len);
    answers = made;
    for (answers_len = 0; answers_len < len; answers_len++) {
        free(answer(answered, it, &status, &size));
        if (status != PCM_DONE && status != PCM_MALFORMED)
            stop("answers that were cut short were judged wrongly", it);
    }
    try_answered_helper(it, made, len);
    if (len) {
        try_rooms(answered, it);
#ifdef REFUSES
        refused = try_refusals(answered, it);
#endif
    }
    answers = (const uint8_t *)"";
    answers_len = 0;
    free(made);
    return refused;
}

static int gather(const char *bytes, size_t size, void *user)
{
    size_t *lines = user;
    if (bytes[size] != 0 && bytes[size] != '\n')
        stop("a helper gave bytes that end elsewhere", NULL);
    return ++*lines == 3;
}

static int gather_record(const struct pcm_record *record, void *user)
{
    size_t *number = user;
    if (record->kind > PCM_TASK_LIST_MARKER)
        stop("a helper gave no record", NULL);
    return ++*number == 3;
}

/* The helpers for flat records. */
static void try_record_helpers(const struct record *it)
{
    size_t size, given_size, at = 0, all = 0, number = 0;
    uint32_t status;
    int taken;
    uint8_t *wanted = answer(pcm_events, it, &status, &size), *given;
    struct pcm_record record;
    if (pcm_records_alloc((const char *)it->text, it->len, (uint32_t)it->options, &given, &given_size) != status || given_size != size)
        stop("the helper for records answers another status or size", it);
    if (status == PCM_DONE ? memcmp(given, wanted, size) : given != NULL)
        stop("the helper for records answers other bytes", it);
    while (pcm_next_record(given, given_size, &at, &record))
        all++;
    if (at != size)
        stop("the records end before their bytes", it);
    if (pcm_records_to((const char *)it->text, it->len, (uint32_t)it->options, gather_record, &number, &taken) != status || number != (all < 3 ? all : 3) || taken != (all >= 3))
        stop("a helper gave other records than there are", it);
    pcm_free(given);
    free(wanted);
    wanted = answer(pcm_references, it, &status, &size);
    if (pcm_references_alloc((const char *)it->text, it->len, (uint32_t)it->options, &given, &given_size) != status || given_size != size)
        stop("the helper for definitions answers another status or size", it);
    if (status == PCM_DONE ? memcmp(given, wanted, size) : given != NULL)
        stop("the helper for definitions answers other bytes", it);
    pcm_free(given);
    free(wanted);
}

/* The inline functions of the header. */
static void try_helpers(const struct record *it)
{
    size_t k, size, given_size, lines = 0, all = 0, i;
    uint32_t status;
    int taken;
    for (k = 0; k < CALLS; k++) {
        char *given;
        uint8_t *wanted = answer(calls[k], it, &status, &size);
        if (pcm_answer(calls[k], (const char *)it->text, it->len, (uint32_t)it->options, &given, &given_size) != status || given_size != size)
            stop("a helper answers another status or size", it);
        if (status == PCM_DONE ? memcmp(given, wanted, size) || given[size] : given != NULL)
            stop("a helper answers other bytes", it);
        if (k == 1 && status == PCM_DONE)
            for (i = 0; i < size; i++)
                all += given[i] == '\n';
        pcm_free(given);
        free(wanted);
    }
    if (pcm_events_to((const char *)it->text, it->len, (uint32_t)it->options, gather, &lines, &taken) != status || lines != (all < 3 ? all : 3) || taken != (all >= 3))
        stop("a helper gave other events than there are", it);
    lines = 0;
    if (pcm_html_to((const char *)it->text, it->len, (uint32_t)it->options, gather, &lines, &taken) != status || lines != (status == PCM_DONE) || taken)
        stop("a helper gave other HTML than there is", it);
}

/* Refuses each allocation of a call in turn; returns their number. */
static long try_refusals(pcm_call call, const struct record *it)
{
    long number, spared = 0;
    size_t size, wanted;
    uint32_t status;
    uint8_t *all = answer(call, it, &status, &wanted);
    uint8_t *whole = memory(wanted + 2 * GUARD);
    if (status != PCM_DONE)
        stop("a text to refuse memory to has no answer", it);
    for (number = 0;; number++) {
        asked = held = 0;
        refuse_at = number;
        status = guarded(call, it, wanted, whole, &size);
        refuse_at = -1;
        if (held)
            stop("a call has not given back all memory", it);
        if (asked <= number)
            break;
        if (status == PCM_DONE) {
            spared++;
            if (size != wanted || memcmp(all, whole + GUARD, size))
                stop("a call that did without memory answered something else", it);
        } else if (status != PCM_NO_MEMORY)
            stop("a call that was refused memory answered another status", it);
    }
    if (status != PCM_DONE || (number && spared == number))
        stop("refusing memory had no effect", it);
    free(whole);
    free(all);
    return number;
}

/* The inline functions treat a missing text as an empty one. */
static void try_no_text(void)
{
    size_t k, size;
    char *given;
    uint8_t *records_given;
    int taken;
    for (k = 0; k < CALLS; k++) {
        if (pcm_answer(calls[k], NULL, 0, 0, &given, &size) != PCM_DONE || size || given[0])
            stop("a helper answered something for no text", NULL);
        pcm_free(given);
    }
    if (pcm_render_alloc(NULL, 0, &given, &size) != PCM_DONE || size || given[0])
        stop("a helper rendered something for no records", NULL);
    pcm_free(given);
    if (pcm_safe_render_alloc(NULL, 0, &given, &size) != PCM_DONE || size || given[0])
        stop("a helper rendered something safe for no records", NULL);
    pcm_free(given);
    if (pcm_answered_alloc(NULL, 0, 0, NULL, 0, &records_given, &size) != PCM_DONE || size)
        stop("a helper gave an answered event for no text", NULL);
    pcm_free(records_given);
    size = 0;
    if (pcm_html_to(NULL, 0, 0, gather, &size, &taken) != PCM_DONE || size != 1 || pcm_events_to(NULL, 0, 0, gather, &size, &taken) != PCM_DONE || size != 1)
        stop("a helper gave something for no text", NULL);
    if (pcm_records_to(NULL, 0, 0, gather_record, &size, &taken) != PCM_DONE || size != 1 || taken)
        stop("a helper gave a record for no text", NULL);
}

static void try_bad_utf8(void)
{
    static const char *const bad[] = {"\x80", "a\xff", "caf\xe9", "\xc0\x80", "\xed\xa0\x80", "\xf4\x90\x80\x80", "*a* \xe2\x82", "# \xf0\x9f\x98"};
    uint8_t whole[256 + 2 * GUARD];
    size_t i, k, size;
    for (i = 0; i < sizeof bad / sizeof *bad; i++)
        for (k = 0; k < CALLS; k++) {
            struct record it;
            it.options = 0;
            it.len = strlen(bad[i]);
            it.text = (uint8_t *)bad[i];
            if (guarded(calls[k], &it, 256, whole, &size) != PCM_NOT_UTF8 || guarded(calls[k], &it, 0, whole, &size) != PCM_NOT_UTF8)
                stop("bytes that are not UTF-8 were read", &it);
        }
}

/* Definitions come in the order of their labels, and of each label the first one. */
static void try_order(void)
{
    static uint8_t text[] = "[b]: /1\n[Straße]: /2\n[a]: /3\n[STRASSE]: /4\n[C]: /5\n[A]: /6\n";
    static const char *const wanted[] = {"/3", "a", "/1", "b", "/5", "C", "/2", "Straße"};
    size_t size, at = 0, number = 0;
    uint32_t status;
    struct record it;
    struct pcm_record record;
    uint8_t *given;
    it.options = 0;
    it.len = sizeof text - 1;
    it.text = text;
    given = answer(pcm_references, &it, &status, &size);
    while (pcm_next_record(given, size, &at, &record)) {
        if (number == sizeof wanted / sizeof *wanted || record.len != strlen(wanted[number]) || memcmp(record.text, wanted[number], record.len))
            stop("definitions come in another order", &it);
        number++;
    }
    if (status != PCM_DONE || number != sizeof wanted / sizeof *wanted)
        stop("there are other definitions", &it);
    free(given);
}

/* A call within a limit, with the signature of the others. */
static size_t limit;

static uint32_t html_within(const uint8_t *text, size_t text_len, uint32_t options, uint8_t *room, size_t room_len, size_t *size)
{
    return pcm_html_within(text, text_len, options, limit, room, room_len, size);
}

/* References within a limit; footnotes, inline links and wikilinks do not count. */
static const struct {
    const char *text;
    uint32_t options;
    size_t limit;
    const char *html;
} limits[] = {
    {"[A]\n\n[a]: /1\n", 0, 0, "<p>[A]</p>\n"},
    {"[x] [x]\n\n[x]: /u", 0, 1, "<p><a href=\"/u\">x</a> [x]</p>\n"},
    {"[x] [x]\n\n[x]: /u", 0, 2, "<p><a href=\"/u\">x</a> [x]</p>\n"},
    {"[x] [x]\n\n[x]: /u", 0, 3, "<p><a href=\"/u\">x</a> <a href=\"/u\">x</a></p>\n"},
    {"[x](/u) [[y]]", PCM_WIKILINKS, 0, "<p><a href=\"/u\">x</a> <a href=\"y\">y</a></p>\n"},
    {"a[^1]\n\n[^1]: b\n", PCM_FOOTNOTES, 0, "<p>a<sup class=\"footnote-reference\"><a href=\"#1\">1</a></sup></p>\n<div class=\"footnote-definition\" id=\"1\"><sup class=\"footnote-definition-label\">1</sup>\n<p>b</p>\n</div>\n"},
};

static void try_limits(void)
{
    size_t i, size;
    uint32_t status;
    for (i = 0; i < sizeof limits / sizeof *limits; i++) {
        struct record it;
        uint8_t *given;
        it.options = limits[i].options;
        it.len = strlen(limits[i].text);
        it.text = (uint8_t *)limits[i].text;
        limit = limits[i].limit;
        given = answer(html_within, &it, &status, &size);
        if (status != PCM_DONE || size != strlen(limits[i].html) || memcmp(given, limits[i].html, size))
            stop("a text within a limit has other HTML", &it);
        free(given);
    }
}

/* Within the default limit the HTML is that of pcm_html. */
static void try_usual_limit(const struct record *it)
{
    size_t wanted, size;
    uint32_t status, within;
    uint8_t *all = answer(pcm_html, it, &status, &wanted), *given;
    limit = it->len < 100000 ? 100000 : it->len;
    given = answer(html_within, it, &within, &size);
    if (status != within || size != wanted || memcmp(given, all, size))
        stop("a text within the usual limit has other HTML", it);
    free(given);
    free(all);
}

static uint32_t safe_html_with_none(const uint8_t *text, size_t text_len, uint32_t options, uint8_t *room, size_t room_len, size_t *size)
{
    return pcm_safe_html_with(text, text_len, options, (const uint8_t *)"", 0, room, room_len, size);
}

/* Each call with a bit that is no option, for a text, for one that is not UTF-8, and for none. */
static void try_unknown_options(void)
{
    static const uint32_t unknown[] = {1, 1u << 18, 1u << 29, 1u << 31, PCM_TABLES | 1, PCM_ALL_ENTITIES | 1u << 31, 0xFFFFFFFF};
    static const pcm_call more[] = {html_within, safe_html_with_none};
    static const char *const texts[] = {"*a*", "\xff", ""};
    uint8_t whole[256 + 2 * GUARD];
    size_t i, j, k, size;
    for (i = 0; i < sizeof unknown / sizeof *unknown; i++)
        for (j = 0; j < sizeof texts / sizeof *texts; j++)
            for (k = 0; k < CALLS + 2; k++) {
                struct record it;
                it.options = unknown[i];
                it.len = strlen(texts[j]);
                it.text = (uint8_t *)texts[j];
                if (guarded(k < CALLS ? calls[k] : more[k - CALLS], &it, 256, whole, &size) != PCM_UNKNOWN_OPTIONS || size)
                    stop("a bit that is no option was taken", &it);
            }
}

/* Entity names: the eleven, and with the bit for all of them also others, for each call that reads a text. */
static void try_entities(void)
{
    static const struct {
        uint32_t options;
        const char *html;
    } tried[] = {
        {0, "<p>\xc2\xa9 &amp;ouml; &amp;NotEqualTilde; &amp;nosuch;</p>\n"},
        {PCM_ALL_ENTITIES, "<p>\xc2\xa9 \xc3\xb6 \xe2\x89\x82\xcc\xb8 &amp;nosuch;</p>\n"},
    };
    static const pcm_call some[] = {pcm_html, html_within, pcm_safe_html, safe_html_with_none};
    static uint8_t text[] = "&copy; &ouml; &NotEqualTilde; &nosuch;";
    size_t i, k, size, records_size;
    uint32_t status;
    for (i = 0; i < sizeof tried / sizeof *tried; i++) {
        struct record it, flat;
        uint8_t *given;
        it.options = tried[i].options;
        it.len = sizeof text - 1;
        it.text = text;
        for (k = 0; k < sizeof some / sizeof *some; k++) {
            given = answer(some[k], &it, &status, &size);
            if (status != PCM_DONE || size != strlen(tried[i].html) || memcmp(given, tried[i].html, size))
                stop("entity names are read wrongly", &it);
            free(given);
        }
        flat = flat_of(&it);
        given = answer(RENDER, &flat, &status, &size);
        if (status != PCM_DONE || size != strlen(tried[i].html) || memcmp(given, tried[i].html, size))
            stop("entity names have other events", &it);
        free(given);
        given = answer(answered, &it, &status, &records_size);
        if (status != PCM_DONE || records_size != flat.len || memcmp(given, flat.text, records_size))
            stop("entity names have other answered events", &it);
        free(given);
        free(flat.text);
    }
}

static void large(void)
{
    static const pcm_call all[] = {pcm_html, pcm_events_json, html_within, pcm_safe_html, safe_html_with_none, streamed, safe_streamed};
    size_t i;
    for (i = 0; i < count; i++) {
        limit = growing_limit = records[i].len < 100000 ? 100000 : records[i].len;
        write_answers(all, sizeof all / sizeof *all, &records[i]);
    }
}

/* The call that takes further schemes: its output with a list, without one, and with one that is not UTF-8. */
static void try_schemes(void)
{
    static const struct {
        const char *schemes, *html;
        uint32_t status;
    } tried[] = {
        {"", "<p><a href=\"\">a</a></p>\n", PCM_DONE},
        {"sms\ttel", "<p><a href=\"tel:1\">a</a></p>\n", PCM_DONE},
        {"tel1 javascript", "<p><a href=\"\">a</a></p>\n", PCM_DONE},
        {"tel\xff", "", PCM_NOT_UTF8},
    };
    const char *text = "[a](tel:1)";
    size_t i, size;
    for (i = 0; i < sizeof tried / sizeof *tried; i++) {
        uint8_t room[64];
        uint32_t status;
        size = 12345;
        status = pcm_safe_html_with((const uint8_t *)text, strlen(text), 0, (const uint8_t *)tried[i].schemes, strlen(tried[i].schemes), room, sizeof room, &size);
        if (status != tried[i].status || size != strlen(tried[i].html) || memcmp(room, tried[i].html, size))
            stop("further schemes were taken wrongly", NULL);
    }
}

static void refusals(void)
{
    size_t i;
    for (i = 0; i < count; i++) {
        struct record flat = flat_of(&records[i]);
        long html = try_refusals(pcm_html, &records[i]), lines = try_refusals(pcm_events_json, &records[i]);
        long events = try_refusals(pcm_events, &records[i]), render = try_refusals(RENDER, &flat), safe = try_refusals(SAFE_RENDER, &flat);
        long references = try_refusals(pcm_references, &records[i]), with_answers = try_refusals(answered, &records[i]);
        long grown = try_refusals(streamed, &records[i]), safe_grown = try_refusals(safe_streamed, &records[i]);
        printf("%ld %ld %ld %ld %ld %ld %ld %ld %ld\n", html, lines, events, render, safe, references, with_answers, grown, safe_grown);
        free(flat.text);
    }
}

static void tries(void)
{
    size_t i, k;
    long refused = 0;
    if (pcm_version() != PCM_VERSION)
        stop("the library is of another version than the header", NULL);
    try_bad_utf8();
    try_no_text();
    try_schemes();
    try_limits();
    try_unknown_options();
    try_entities();
    try_order();
    for (i = 0; i < count; i++) {
        struct record flat = flat_of(&records[i]);
        try_usual_limit(&records[i]);
        try_helpers(&records[i]);
        try_record_helpers(&records[i]);
        try_render(pcm_html, RENDER, pcm_render_alloc, &records[i], &flat);
        try_render(pcm_safe_html, SAFE_RENDER, pcm_safe_render_alloc, &records[i], &flat);
        try_malformed(&flat);
        refused += try_answers(&records[i]);
        for (k = 0; k < CALLS + 2; k++) {
            pcm_call call = k < CALLS ? calls[k] : k == CALLS ? RENDER : SAFE_RENDER;
            const struct record *given = k < CALLS ? &records[i] : &flat;
            try_rooms(call, given);
#ifdef REFUSES
            refused += try_refusals(call, given);
#else
            (void)try_refusals;
#endif
        }
        try_rooms(streamed_from_middle, &records[i]);
#ifdef REFUSES
        refused += try_refusals(streamed_from_middle, &records[i]);
#endif
        free(flat.text);
    }
    printf("%ld\n", refused);
}

int main(int words, char **word)
{
    read_records();
    if (words == 2 && !strcmp(word[1], "batch"))
        batch(0, 2);
    else if (words == 2 && !strcmp(word[1], "safe"))
        batch(2, 3);
    else if (words == 2 && !strcmp(word[1], "large"))
        large();
    else if (words == 2 && !strcmp(word[1], "tries"))
        tries();
    else if (words == 2 && !strcmp(word[1], "refusals"))
        refusals();
    else
        stop("say batch, safe, large, tries or refusals", NULL);
    give_records();
    return 0;
}
