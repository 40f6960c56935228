/* A problem of the benchmark, and how one is put together. */
#ifndef BENCH_PROBLEM_H
#define BENCH_PROBLEM_H

#include <stdbool.h>
#include <stddef.h>
#include <stdint.h>

enum { MOST_ITEMS = 1024, MOST_OPTIONS = 4096, MOST_ENTRIES = 16384, MOST_ROUNDS = 5119 };

/* As kapkyrem_reduce_lists wants it. */
typedef struct {
    uint32_t np, ns, cap;
    size_t m, e; /* options, entries */
    uint32_t items[MOST_ENTRIES], colours[MOST_ENTRIES], ends[MOST_OPTIONS];
} problem;

/* No option yet; as many rounds as it takes. */
void begin(problem *p, uint32_t np, uint32_t ns);

/* An entry of the option that is being put together; false, and nothing done, if there is no room for it. */
bool put(problem *p, uint32_t item, uint32_t colour);

/* The entries put since the last end are an option; false, and they are taken back, if there is no room for it. */
bool end(problem *p);

/* Is the item in the option that is being put together? */
bool holds(const problem *p, uint32_t item);

/* Every colour is 0. */
bool is_plain(const problem *p);

/* Numbers that look random and are the same on every machine (xorshift64*). A seed is not 0. */
typedef uint64_t rng;
uint32_t draw(rng *r, uint32_t below);
void shuffle(rng *r, uint32_t *list, uint32_t count);

#endif
