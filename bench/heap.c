/* See heap.h. With COUNT_HEAP, and the linker told to --wrap malloc, calloc and realloc, each call of them comes through here. Apart from that
 * build nothing is counted, and nothing stands between a timed call and its memory. */
#include "heap.h"

#include <stddef.h>

static heap_use used;

heap_use heap_used(void)
{
    return used;
}

#ifdef COUNT_HEAP
void *__real_malloc(size_t size);
void *__real_calloc(size_t count, size_t size);
void *__real_realloc(void *old, size_t size);
void *__wrap_malloc(size_t size);
void *__wrap_calloc(size_t count, size_t size);
void *__wrap_realloc(void *old, size_t size);

static void note(size_t size)
{
    used.asked++;
    used.bytes += size;
}

void *__wrap_malloc(size_t size)
{
    note(size);
    return __real_malloc(size);
}

void *__wrap_calloc(size_t count, size_t size)
{
    note(count * size);
    return __real_calloc(count, size);
}

void *__wrap_realloc(void *old, size_t size)
{
    note(size);
    return __real_realloc(old, size);
}
#endif
