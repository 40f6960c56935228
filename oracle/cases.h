/* Problems to compare on: a container, and where they come from (every problem of a small shape, random kinds, limits, damage). */
#ifndef CASES_H
#define CASES_H

#include <stdbool.h>
#include <stddef.h>
#include <stdint.h>
#include <stdio.h>

/* The figures of document 01 and a little more, so that lists one past each figure fit. */
enum { FULL_ITEMS = 1024, FULL_OPTIONS = 4096, FULL_ENTRIES = 16384 };
enum { DESK_ITEMS = 64, DESK_OPTIONS = 256, DESK_ENTRIES = 1024 };
enum { MOST_ITEMS = FULL_ITEMS + 8, MOST_OPTIONS = FULL_OPTIONS + 8, MOST_ENTRIES = FULL_ENTRIES + 8 };

enum { INPUTS = 3, ROOM = 5, RESULT = 5 };

/* Everything that a call is handed. Lengths of lent lists are kept as what they are beyond the need, so that they stay meant
 * as they were while a problem is made smaller. */
typedef struct {
    uint32_t np, ns, cap;
    uint32_t *items, *colours, *ends;
    size_t items_len, colours_len, ends_len;
    int room[ROOM], result[RESULT]; /* numbers beyond the need; below 0 is too short */
    uint8_t odd[INPUTS + RESULT];   /* bytes beyond whole fours in each byte list: items, colours, ends, the five of the result */
    bool nulls;                     /* hand in an empty list as NULL */
} problem;

problem *problem_new(void);
void problem_free(problem *p);
void problem_copy(problem *to, const problem *from);
void problem_clear(problem *p); /* no option, no entry, room as needed */
void put_entry(problem *p, uint32_t item, uint32_t colour);
void end_option(problem *p);
size_t room_len(const problem *p, int list);
size_t result_len(const problem *p, int list);
bool is_plain(const problem *p); /* no colour above 0 */
/* In the form `np ns cap| option| option`, then what is not as usual. */
void problem_print(FILE *to, const problem *p);

/* Numbers at random, the same for the same seed. */
typedef struct {
    uint64_t state;
} rng;
uint64_t rng_next(rng *r);
uint32_t below(rng *r, uint32_t limit); /* 0 .. limit - 1 */
bool one_in(rng *r, uint32_t n);

/* Random kinds. */
enum { SPARSE, DENSE, COLOURED, PLAIN, SKIPPED, PLANTED, CHAIN, DESK, FULL, KINDS };
extern const char *const kind_names[KINDS];
void make_random(problem *p, rng *r, int kind);

/* Gives an accepted problem 1 to 3 faults. */
void damage(problem *p, rng *r);

/* The limits of the table, one after another: each figure met and passed, each list exact and one short, each odd length. False past the last. */
bool make_limit(problem *p, unsigned which);

/* Every problem of a shape: m options over np + ns items, each an ordered choice of distinct items, secondaries with colours 0 .. colours. */
typedef struct {
    uint32_t np, ns, colours, m;
    bool quick; /* small enough for a short run */
} shape;
extern const shape shapes[];
extern const size_t shape_count;

typedef struct walk walk;
walk *walk_new(const shape *s);
bool walk_next(walk *w, problem *p); /* false past the last; the cap is left to the caller */
void walk_free(walk *w);

#endif
