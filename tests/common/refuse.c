/* Refuses one allocation of the program that this is linked into: the one with the number REFUSED, counted from 1; 0 refuses none. For
   each allocation that was refused, here or by the system, it writes a byte to the file descriptor TOLD. So a program that reports to be
   out of memory without such a byte had no refused allocation. The linker replaces malloc and realloc by the last two functions (--wrap):
   the program refuses memory to itself, and nothing is loaded into it. There are no headers, since the toolchain's compiler has none. */
typedef unsigned long size;
extern void *__real_malloc(size), *__real_realloc(void *, size);
extern char *getenv(const char *);
extern long write(int, const void *, size);

static long left = -1;

static long number(const char *digits) {
    long n = 0;
    for (; digits && *digits; digits++) n = n * 10 + (*digits - '0');
    return n;
}

static int is_refused(void) {
    if (left < 0) left = number(getenv("REFUSED"));
    return left > 0 && --left == 0;
}

static void *told(void *p) {
    if (!p) write((int)number(getenv("TOLD")), "!", 1);
    return p;
}

void *__wrap_malloc(size n) { return told(is_refused() ? 0 : __real_malloc(n)); }
/* a reallocation to size 0 frees the memory, and is not refused */
void *__wrap_realloc(void *p, size n) { return n ? told(is_refused() ? 0 : __real_realloc(p, n)) : __real_realloc(p, n); }
