/* Refuses one allocation of the shared library that this is linked into. refuse sets its number, counted from 1 from then on, and
   was_refused tells whether it occurred. The linker replaces malloc and realloc by the last two functions (--wrap), only in the library. */
#include <stddef.h>

extern void *__real_malloc(size_t), *__real_realloc(void *, size_t);

static long left;

void refuse(long number) { left = number; }

int was_refused(void) { return left == 0; }

static int is_refused(void) { return left > 0 && --left == 0; }

void *__wrap_malloc(size_t size) { return is_refused() ? NULL : __real_malloc(size); }
void *__wrap_realloc(void *held, size_t size) { return is_refused() ? NULL : __real_realloc(held, size); }
