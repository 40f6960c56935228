/* See problem.h. */
#include "problem.h"

void begin(problem *p, uint32_t np, uint32_t ns)
{
    p->np = np;
    p->ns = ns;
    p->cap = MOST_ROUNDS;
    p->m = 0;
    p->e = 0;
}

/* The first entry of the option that is being put together. */
static size_t first(const problem *p)
{
    return p->m == 0 ? 0 : p->ends[p->m - 1];
}

bool put(problem *p, uint32_t item, uint32_t colour)
{
    if (p->e == MOST_ENTRIES)
        return false;
    p->items[p->e] = item;
    p->colours[p->e] = colour;
    p->e++;
    return true;
}

bool end(problem *p)
{
    if (p->m == MOST_OPTIONS) {
        p->e = first(p);
        return false;
    }
    p->ends[p->m++] = (uint32_t)p->e;
    return true;
}

bool holds(const problem *p, uint32_t item)
{
    for (size_t j = first(p); j < p->e; j++)
        if (p->items[j] == item)
            return true;
    return false;
}

bool is_plain(const problem *p)
{
    for (size_t j = 0; j < p->e; j++)
        if (p->colours[j] != 0)
            return false;
    return true;
}

uint32_t draw(rng *r, uint32_t below)
{
    *r ^= *r >> 12;
    *r ^= *r << 25;
    *r ^= *r >> 27;
    return (uint32_t)((*r * 2685821657736338717u >> 32) * below >> 32);
}

void shuffle(rng *r, uint32_t *list, uint32_t count)
{
    for (uint32_t k = count; k > 1; k--) {
        uint32_t j = draw(r, k), kept = list[j];
        list[j] = list[k - 1];
        list[k - 1] = kept;
    }
}
