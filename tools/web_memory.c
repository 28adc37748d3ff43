/* The functions of a C library that the library needs, for the module of the page: memory in sizes that are powers of two, from the
   module's own memory, which grows; and the functions that the compiler calls. Freed memory is kept in the list of its size. */
typedef __SIZE_TYPE__ size_t;
typedef unsigned long long word;

#define PAGE 65536
#define HEAD 16 /* the number of its list is stored before each piece */
#define MOST ((size_t)1 << 31)

extern unsigned char __heap_base;
static unsigned char *top, *end;
static unsigned char *lists[32];

/* A new piece of this many bytes, which is in no list, or 0. */
static unsigned char *fresh(size_t size)
{
    unsigned char *piece;
    if (!top) {
        top = (unsigned char *)(((size_t)&__heap_base + HEAD - 1) & ~(size_t)(HEAD - 1));
        end = (unsigned char *)(__builtin_wasm_memory_size(0) * PAGE);
    }
    if ((size_t)(end - top) < size) {
        size_t pages = (size - (size_t)(end - top) + PAGE - 1) / PAGE;
        if (pages < 16)
            pages = 16;
        /* wasm-opt reduces the number of pages to 32 bits, and extends the result with zeros. */
        if ((unsigned)__builtin_wasm_memory_grow(0, pages) == (unsigned)-1)
            return 0;
        end += pages * PAGE;
    }
    piece = top;
    top += size;
    return piece;
}

static void *take(size_t size)
{
    unsigned list = 5;
    unsigned char *piece;
    if (size > MOST - HEAD)
        return 0;
    while (((size_t)1 << list) < size + HEAD)
        list++;
    piece = lists[list];
    if (piece)
        lists[list] = *(unsigned char **)(piece + HEAD);
    else
        piece = fresh((size_t)1 << list);
    if (!piece)
        return 0;
    *(size_t *)piece = list;
    return piece + HEAD;
}

static void give(void *held)
{
    unsigned char *piece = (unsigned char *)held - HEAD;
    size_t list = *(size_t *)piece;
    *(unsigned char **)held = lists[list];
    lists[list] = piece;
}

void *memcpy(void *restrict to, const void *restrict from, size_t size) { return __builtin_memcpy(to, from, size); }
void *memmove(void *to, const void *from, size_t size) { return __builtin_memmove(to, from, size); }
void *memset(void *to, int byte, size_t size) { return __builtin_memset(to, byte, size); }

int memcmp(const void *x, const void *y, size_t size)
{
    const unsigned char *a = x, *b = y;
    for (; size; size--, a++, b++)
        if (*a != *b)
            return *a - *b;
    return 0;
}

/* The result of the library's three memory functions: whether there is memory, and its address. */
struct tried {
    word is_there;
    word place;
};

static struct tried tried(void *place, word align)
{
    struct tried it = {place != 0, place ? (word)(size_t)place : align};
    return it;
}

struct tried rattle_alloc(word size, word align) { return tried(take(size), align); }

struct tried rattle_realloc(void *held, word kept, word size, word align)
{
    size_t has = ((size_t)1 << *(size_t *)((unsigned char *)held - HEAD)) - HEAD;
    void *place;
    (void)kept;
    if (has >= size)
        return tried(held, align);
    place = take(size);
    if (place) {
        __builtin_memcpy(place, held, has);
        give(held);
    }
    return tried(place, align);
}

void rattle_dealloc(void *held) { give(held); }

__attribute__((export_name("take"))) void *take_for_page(size_t size) { return take(size); }
__attribute__((export_name("give"))) void give_for_page(void *held) { give(held); }

/* The product of two numbers of 128 bits. The compiler calls this function. */
__int128 __multi3(__int128 x, __int128 y)
{
    word a = (word)x, b = (word)y;
    word low = (a & 0xffffffff) * (b & 0xffffffff), right = (a & 0xffffffff) * (b >> 32), left = (a >> 32) * (b & 0xffffffff);
    word middle = (low >> 32) + (right & 0xffffffff) + (left & 0xffffffff);
    word high = (a >> 32) * (b >> 32) + (right >> 32) + (left >> 32) + (middle >> 32);
    high += a * (word)((unsigned __int128)y >> 64) + (word)((unsigned __int128)x >> 64) * b;
    return (__int128)((unsigned __int128)high << 64 | (middle << 32 | (low & 0xffffffff)));
}

/* A number of 128 bits as two words. The shifts that the compiler calls are by less than 128. */
union pair {
    unsigned __int128 whole;
    struct {
        word low, high;
    } half;
};

unsigned __int128 __ashlti3(unsigned __int128 number, int by)
{
    union pair from, to;
    from.whole = number;
    to.half.low = by & 64 ? 0 : from.half.low << (by & 63);
    to.half.high = by & 64 ? from.half.low << (by & 63) : from.half.high << (by & 63) | (by & 63 ? from.half.low >> (64 - (by & 63)) : 0);
    return to.whole;
}

unsigned __int128 __lshrti3(unsigned __int128 number, int by)
{
    union pair from, to;
    from.whole = number;
    to.half.high = by & 64 ? 0 : from.half.high >> (by & 63);
    to.half.low = by & 64 ? from.half.high >> (by & 63) : from.half.low >> (by & 63) | (by & 63 ? from.half.high << (64 - (by & 63)) : 0);
    return to.whole;
}
