/* Tests where the library reads and writes: tests/bindings/run builds it, with the archive and with the shared library.

   bindings_guard threads   reads records of options, a length and a text; renders them in four threads at once, each all of them, and
                            compares. The flat records of each text are the text of pcm_render, here and below
   bindings_guard stacks    the same in sixteen threads: each with a stack of 24 KB, without the calls for a text that grows, and then with
                            all calls, each with a stack of 40 KB
   bindings_guard depth     writes the most bytes of the stack that a call takes for the records: for a text that grows, and otherwise
   bindings_guard pages     renders each beginning of each record next to pages that may not be accessed, and compares
   bindings_guard exact     renders the records in memory of exactly their sizes, for a program that watches each access

   Numbers have eight bytes, in this machine's order. The status is 0 if all tests pass. */
#include "bindings.h"
#include <pthread.h>
#include <signal.h>
#include <sys/mman.h>
#include <unistd.h>

/* The stack sizes that the header calls enough for a thread, including the thread's own data: without the calls for a text that grows, and
   with them. */
#define SMALL_STACK (24 * 1024)
#define STREAM_STACK (40 * 1024)
/* A stack whose use is measured. */
#define LARGE_STACK (256 * 1024)

/* The outputs of all calls for a text. The last is that of pcm_render for its records. */
struct wanted {
    struct record flat;
    uint32_t status[CALLS + 1];
    size_t size[CALLS + 1];
    uint8_t *bytes[CALLS + 1];
};

static struct wanted *wanted;

/* Whether the calls for a text that grows are tried too. */
static int with_streams = 1;

static int is_stream(size_t k)
{
    return k < CALLS && (calls[k] == streamed || calls[k] == safe_streamed);
}

static void *work(void *user)
{
    size_t i, k, size, at = (size_t)(uintptr_t)user;
    uint32_t status;
    for (i = 0; i < count; i++, at++)
        for (k = 0; k <= CALLS; k++) {
            struct wanted *it = &wanted[at % count];
            uint8_t *given;
            if (is_stream(k) && !with_streams)
                continue;
            given = k < CALLS ? answer(calls[k], &records[at % count], &status, &size) : answer(RENDER, &it->flat, &status, &size);
            if (status != it->status[k] || size != it->size[k] || memcmp(given, it->bytes[k], size))
                stop("a thread answered something else", &records[at % count]);
            free(given);
        }
    return NULL;
}

/* All records in some threads at once, with stacks of this size, or of the default size if it is 0. */
static void threads(size_t number, size_t stack)
{
    pthread_t all[16];
    pthread_attr_t how;
    size_t i, k;
    pthread_attr_init(&how);
    if (stack && pthread_attr_setstacksize(&how, stack))
        stop("no thread may have this stack", NULL);
    wanted = memory(count * sizeof *wanted);
    for (i = 0; i < count; i++) {
        for (k = 0; k < CALLS; k++)
            wanted[i].bytes[k] = answer(calls[k], &records[i], &wanted[i].status[k], &wanted[i].size[k]);
        wanted[i].flat = flat_of(&records[i]);
        wanted[i].bytes[CALLS] = answer(RENDER, &wanted[i].flat, &wanted[i].status[CALLS], &wanted[i].size[CALLS]);
    }
    for (i = 0; i < number; i++)
        if (pthread_create(&all[i], &how, work, (void *)(uintptr_t)(i * count / number)))
            stop("a thread was not started", NULL);
    for (i = 0; i < number; i++)
        pthread_join(all[i], NULL);
    pthread_attr_destroy(&how);
    for (i = 0; i < count; i++) {
        for (k = 0; k <= CALLS; k++)
            free(wanted[i].bytes[k]);
        free(wanted[i].flat.text);
    }
    free(wanted);
}

struct job {
    pcm_call call;
    const struct record *it;
    uint8_t *room;
    size_t room_len, size;
    uint32_t status;
};

static void *run_job(void *user)
{
    struct job *job = user;
    if (job->call)
        job->status = job->call(job->it->text, job->it->len, (uint32_t)job->it->options, job->room, job->room_len, &job->size);
    return NULL;
}

/* The number of bytes of a stack that a thread with this job writes. */
static size_t depth_of(struct job *job, uint8_t *stack)
{
    pthread_t thread;
    pthread_attr_t how;
    size_t at = 0;
    memset(stack, FILL, LARGE_STACK);
    pthread_attr_init(&how);
    if (pthread_attr_setstack(&how, stack, LARGE_STACK) || pthread_create(&thread, &how, run_job, job))
        stop("a thread was not started", NULL);
    pthread_join(thread, NULL);
    pthread_attr_destroy(&how);
    while (at < LARGE_STACK && stack[at] == FILL)
        at++;
    return LARGE_STACK - at;
}

static void depth(void)
{
    uint8_t *stack = mmap(NULL, LARGE_STACK, PROT_READ | PROT_WRITE, MAP_PRIVATE | MAP_ANONYMOUS, -1, 0);
    size_t i, k, own, most[2] = {0, 0};
    struct job idle = {NULL, NULL, NULL, 0, 0, 0};
    if (stack == MAP_FAILED)
        stop("there is no memory for the test itself", NULL);
    for (i = 0; i < count; i++) {
        struct record flat = flat_of(&records[i]);
        for (k = 0; k <= CALLS; k++) {
            struct job job = {k < CALLS ? calls[k] : RENDER, k < CALLS ? &records[i] : &flat, NULL, 0, 0, 0};
            size_t found;
            job.room_len = 256 * records[i].len + 4096;
            job.room = memory(job.room_len);
            found = depth_of(&job, stack);
            if (job.status != PCM_DONE)
                stop("a call for the measure of its stack is not done", &records[i]);
            if (found > most[is_stream(k)])
                most[is_stream(k)] = found;
            free(job.room);
        }
        free(flat.text);
    }
    own = depth_of(&idle, stack);
    printf("%lu %lu\n", (unsigned long)(most[1] - own), (unsigned long)(most[0] - own));
    munmap(stack, LARGE_STACK);
}

/* Pages that may be read and written, between two that may not be accessed. */
struct pages {
    uint8_t *begin, *end;
};

static struct pages pages_of(size_t size)
{
    size_t page = (size_t)sysconf(_SC_PAGESIZE), inner = (size / page + 1) * page;
    uint8_t *whole = mmap(NULL, inner + 2 * page, PROT_NONE, MAP_PRIVATE | MAP_ANONYMOUS, -1, 0);
    struct pages it;
    if (whole == MAP_FAILED || mprotect(whole + page, inner, PROT_READ | PROT_WRITE))
        stop("there are no pages for the test itself", NULL);
    it.begin = whole + page;
    it.end = it.begin + inner;
    return it;
}

static void give_pages(struct pages it)
{
    size_t page = (size_t)sysconf(_SC_PAGESIZE);
    munmap(it.begin - page, (size_t)(it.end - it.begin) + 2 * page);
}

static void may_write(struct pages it, int is_allowed)
{
    if (mprotect(it.begin, (size_t)(it.end - it.begin), is_allowed ? PROT_READ | PROT_WRITE : PROT_READ))
        stop("the pages of the test do not change", NULL);
}

static const struct record *tried;

static void touched(int number)
{
    (void)number;
    stop("a call touched memory that is not its own", tried);
}

/* One call in a room of this length, after a guard, that ends with its pages. */
static uint32_t at_end(pcm_call call, const struct record *it, struct pages room, size_t room_len, size_t *size)
{
    uint8_t *begin = room.end - room_len;
    uint32_t status;
    memset(begin - GUARD, FILL, room_len + GUARD);
    tried = it;
    *size = 12345;
    status = call(it->text, it->len, (uint32_t)it->options, begin, room_len, size);
    if (!is_filled(begin - GUARD, GUARD))
        stop("a call wrote before the room", it);
    if (status != PCM_DONE && !is_filled(begin, room_len))
        stop("a call that is not done wrote into the room", it);
    return status;
}

/* A read-only text that ends with its pages; a room that ends with its pages, just long enough and a byte too short; a text that begins
   with its pages, followed by bytes that would continue it. */
static long try_pages(pcm_call call, const struct record *whole, size_t len, struct pages text, struct pages room)
{
    static const uint8_t following[] = {'`', '\n', ']', 0x80};
    struct record it = *whole;
    size_t wanted, size, i;
    uint32_t status;
    uint8_t *all;
    it.len = len;
    all = answer(call, &it, &status, &wanted);
    may_write(text, 1);
    it.text = text.end - len;
    memcpy(it.text, whole->text, len);
    may_write(text, 0);
    if (at_end(call, &it, room, wanted, &size) != status || size != wanted || memcmp(room.end - wanted, all, wanted))
        stop("an answer depends on where the text ends", &it);
    if (wanted && (at_end(call, &it, room, wanted - 1, &size) != PCM_TOO_LONG || size != wanted))
        stop("a room at the end of its pages was judged wrongly", &it);
    it.text = text.begin;
    for (i = 0; i < sizeof following; i++) {
        may_write(text, 1);
        memset(text.begin, following[i], (size_t)(text.end - text.begin));
        memcpy(it.text, whole->text, len);
        may_write(text, 0);
        if (at_end(call, &it, room, wanted, &size) != status || size != wanted || memcmp(room.end - wanted, all, wanted))
            stop("a result depends on the bytes after the text", &it);
    }
    free(all);
    return wanted ? 6 : 5;
}

/* Each beginning of a text, with some calls; returns their number. */
static long try_beginnings(const pcm_call *some, size_t number, const struct record *it, size_t step)
{
    size_t k, len, size, most;
    uint32_t status;
    long calls_made = 0;
    struct pages text = pages_of(it->len), room;
    for (k = 0, most = 0; k < number; k++) {
        free(answer(some[k], it, &status, &size));
        most = size > most ? size : most;
    }
    /* The output for a beginning may be longer than that for the whole. */
    room = pages_of(16 * (most + it->len) + 65536);
    for (len = 0; len <= it->len; len += len + step > it->len && len < it->len ? it->len - len : step)
        for (k = 0; k < number; k++)
            calls_made += try_pages(some[k], it, len, text, room);
    give_pages(text);
    give_pages(room);
    return calls_made;
}

/* Beginnings of the answers to two questions, which mostly are cut short in a record. */
static long try_beginnings_of_answers(void)
{
    static const pcm_call call[] = {with_answers};
    uint8_t made[5 * PCM_HEAD];
    struct pcm_record question = {PCM_QUESTION, 0, 6, 0, 3, NULL, 0};
    struct record it;
    it.options = 0;
    it.text = made;
    it.len = pcm_put_answer(made, &question, "/dest", 5, "title", 5);
    question.start = 4;
    question.end = 7;
    it.len += pcm_put_answer(made + it.len, &question, NULL, 0, NULL, 0);
    return try_beginnings(call, 1, &it, 1);
}

/* Beginnings of texts, of their flat records, and of answers. */
static void pages(void)
{
    static const pcm_call read[] = {pcm_html, pcm_events_json, pcm_events, pcm_references, answered, streamed, safe_streamed, streamed_from_middle};
    static const pcm_call render[] = {RENDER, SAFE_RENDER};
    size_t i;
    long number = 0;
    signal(SIGSEGV, touched);
    signal(SIGBUS, touched);
    for (i = 0; i < count; i++) {
        struct record flat = flat_of(&records[i]);
        number += try_beginnings(read, sizeof read / sizeof *read, &records[i], 1);
        number += try_beginnings(render, sizeof render / sizeof *render, &flat, 3);
        free(flat.text);
    }
    number += try_beginnings_of_answers();
    printf("%ld\n", number);
}

/* A call in memory of exactly the size that it needs; the bytes of the output are read. */
static unsigned long try_exact(pcm_call call, const struct record *it)
{
    size_t at, wanted, size;
    unsigned long sum = 0;
    uint8_t *room = memory(1);
    uint32_t status = call(it->text, it->len, (uint32_t)it->options, room, 0, &wanted);
    free(room);
    if (status != PCM_TOO_LONG)
        return 0;
    room = memory(wanted);
    if (call(it->text, it->len, (uint32_t)it->options, room, wanted, &size) != PCM_DONE || size != wanted)
        stop("a room of the answer's size was refused", it);
    for (at = 0; at < size; at++)
        sum += room[at] == '<';
    free(room);
    return sum;
}

/* All calls so, and pcm_render also with records that are cut short in their last byte. */
static void exact(void)
{
    size_t i, k;
    unsigned long sum = 0;
    for (i = 0; i < count; i++) {
        struct record flat = flat_of(&records[i]), cut = flat;
        for (k = 0; k < CALLS; k++)
            sum += try_exact(calls[k], &records[i]);
        sum += try_exact(streamed_from_middle, &records[i]);
        cut.text = memory(flat.len);
        memcpy(cut.text, flat.text, flat.len);
        sum += try_exact(RENDER, &cut);
        free(cut.text);
        cut.len = flat.len ? flat.len - 1 : 0;
        cut.text = memory(cut.len);
        memcpy(cut.text, flat.text, cut.len);
        sum += try_exact(RENDER, &cut);
        free(cut.text);
        free(flat.text);
    }
    printf("%lu\n", sum);
}

int main(int words, char **word)
{
    read_records();
    if (words == 2 && !strcmp(word[1], "threads"))
        threads(4, 0);
    else if (words == 2 && !strcmp(word[1], "stacks")) {
        with_streams = 0;
        threads(16, SMALL_STACK);
        with_streams = 1;
        threads(16, STREAM_STACK);
    } else if (words == 2 && !strcmp(word[1], "depth"))
        depth();
    else if (words == 2 && !strcmp(word[1], "pages"))
        pages();
    else if (words == 2 && !strcmp(word[1], "exact"))
        exact();
    else
        stop("say threads, stacks, depth, pages or exact", NULL);
    give_records();
    return 0;
}
