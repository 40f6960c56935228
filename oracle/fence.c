/* See fence.h. */
#include "fence.h"

#include <stdio.h>
#include <stdlib.h>
#include <string.h>
#include <sys/mman.h>
#include <unistd.h>

enum { WATCHED = 16, WATCH = 0xC3 };

static bool on_heap;

void fence_on_heap(bool heap)
{
    on_heap = heap;
}

static void must(bool good)
{
    if (!good) {
        fprintf(stderr, "compare: no memory\n");
        exit(2);
    }
}

void fence_make(fence *f, size_t most)
{
    memset(f, 0, sizeof *f);
    if (on_heap)
        return;
    size_t page = (size_t)sysconf(_SC_PAGESIZE);
    f->size = (most + WATCHED + page - 1) / page * page;
    f->pages = mmap(NULL, f->size + page, PROT_READ | PROT_WRITE, MAP_PRIVATE | MAP_ANONYMOUS, -1, 0);
    must(f->pages != MAP_FAILED);
    must(mprotect(f->pages + f->size, page, PROT_NONE) == 0);
}

uint8_t *fence_take(fence *f, size_t len)
{
    f->len = len;
    if (on_heap) {
        free(f->at);
        f->at = malloc(len);
        must(f->at || len == 0);
        return f->at;
    }
    must(len + WATCHED <= f->size);
    f->at = f->pages + f->size - len;
    memset(f->at - WATCHED, WATCH, WATCHED);
    return f->at;
}

bool fence_whole(const fence *f)
{
    for (int j = 1; !on_heap && j <= WATCHED; j++)
        if (*(f->at - j) != WATCH)
            return false;
    return true;
}
