/* The calls per second of a function of a shared library: calls LIBRARY pcm|cmark|md4c FUNCTION FILE. With a further word it only makes so
   many calls. tests/speed/calls builds and runs it. */
#include <dlfcn.h>
#include <stdint.h>
#include <stdio.h>
#include <stdlib.h>
#include <string.h>
#include <time.h>

typedef uint32_t (*pcm)(const uint8_t *, size_t, uint32_t, uint8_t *, size_t, size_t *);
typedef char *(*cmark)(const char *, size_t, int);
typedef int (*md4c)(const char *, unsigned, void (*)(const char *, unsigned, void *), void *, unsigned, unsigned);

static char text[1 << 24], room[1 << 28];

static double now(void)
{
    struct timespec it;
    clock_gettime(CLOCK_MONOTONIC, &it);
    return (double)it.tv_sec + (double)it.tv_nsec / 1e9;
}

static size_t written;

/* Appends what md4c writes to the room. */
static void append(const char *bytes, unsigned count, void *user)
{
    (void)user;
    memcpy(room + written, bytes, count);
    written += count;
}

/* One call of the function. Returns whether it succeeded. */
static int call(const char *kind, void *function, size_t len)
{
    size_t size;
    written = 0;
    if (!strcmp(kind, "pcm"))
        return ((pcm)function)((uint8_t *)text, len, 0, (uint8_t *)room, sizeof room, &size) == 0;
    if (!strcmp(kind, "md4c"))
        return ((md4c)function)(text, (unsigned)len, append, NULL, 0, 0) == 0;
    free(((cmark)function)(text, len, 1 << 17 /* CMARK_OPT_UNSAFE */));
    return 1;
}

int main(int words, char **word)
{
    void *library = words == 5 || words == 6 ? dlopen(word[1], RTLD_NOW) : NULL;
    void *function = library ? dlsym(library, word[3]) : NULL;
    FILE *file = function ? fopen(word[4], "rb") : NULL;
    size_t len;
    double most = 0;
    int run;
    if (!function || !file)
        return 1;
    len = fread(text, 1, sizeof text, file);
    if (words == 6) {
        for (run = atoi(word[5]); run > 0; run--)
            if (!call(word[2], function, len))
                return 1;
        return 0;
    }
    for (run = 0; run < 5; run++) {
        double from = now(), to;
        long calls = 0;
        do {
            if (!call(word[2], function, len))
                return 1;
            calls++;
            to = now();
        } while (to - from < 0.4);
        if ((double)calls / (to - from) > most)
            most = (double)calls / (to - from);
    }
    printf("%.0f\n", most);
    return 0;
}
