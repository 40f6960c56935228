/* Runs one problem through either call, from exactly sized heap buffers filled with a pattern, and checks everything that is
 * handed back: the answer, every list to its end, and what must not have been touched. */
#ifndef HARNESS_H
#define HARNESS_H

#include <stddef.h>
#include <stdint.h>
#include <stdio.h>

#include "kapkyrem.h"

/* ---- Counting checks ---- */

extern unsigned long checks, failures;
extern char subject[256]; /* what the checks that follow are about */
#define ABOUT(...) snprintf(subject, sizeof subject, __VA_ARGS__)
void check(int holds, const char *what);

/* ---- A problem and the room that goes with it ---- */

enum way { BYTES, LISTS, WAYS }; /* kapkyrem_reduce, kapkyrem_reduce_lists */
enum { ITEMS, COLOURS, ENDS, INPUTS };
enum { KEPT, OUT_ENDS, NUMBERS, OUT_ITEMS, OUT_COLOURS, RESULTS };
enum { HEADS, UP, DOWN, TINTS, MARKS, WORKS };
enum { MOST = KAPKYREM_LISTS_MOST_ENTRIES + 8 }; /* the longest list that a test hands in */

struct problem {
    uint32_t np, ns, cap;
    uint32_t in[INPUTS][MOST];
    size_t len[INPUTS], room[RESULTS], work[WORKS]; /* in numbers */
    unsigned over[INPUTS + RESULTS];                /* bytes above whole fours; BYTES only */
    int nulls;                                      /* hand over NULL for each list of length 0 */
};

/* A problem and its answer, each in the form that is read below. */
struct example {
    const char *problem, *answer;
};

extern const char *const way_name[WAYS];
extern const size_t most_items[WAYS], most_options[WAYS], most_entries[WAYS];

/* Fills p from "np ns cap| option| option", an entry "item" or "item:colour"; room and work are exactly what is needed. */
void parse(struct problem *p, const char *text);

/* A problem whose result at cap 0 is the problem itself: options begin at rising items and hold consecutive ones, cyclically. */
void fill(struct problem *p, size_t np, size_t ns, size_t options, size_t entries);

/* A chain: options [0], [0 1], [1 2], .., any number of rounds. Only the last item is sure of its option, and a round can use only what the one
 * before found at a higher item: an even number of items takes items / 2 + 1 rounds, and every second one is left, alone in its
 * option. Broken, it is without [0]; then an odd number of items has no cover. */
void chain(struct problem *p, size_t items, int broken);

/* Room for exactly this problem. */
void fit_room(struct problem *p);

/* ---- The calls ---- */

struct outcome {
    uint64_t answer;
    uint32_t *in[INPUTS], *result[RESULTS], *work[WORKS]; /* as they are after the call; no work in BYTES */
};

/* Calls with lists of exactly the length that p says; what is lent holds a pattern. end_call frees the outcome's lists. */
void run_call(enum way way, const struct problem *p, struct outcome *o);
void end_call(struct outcome *o);

/* What was lent at this place of this list (working lists count on from RESULTS): a number that no call writes there. */
uint32_t pattern(int list, size_t place);

/* ---- What a call must give ---- */

enum { TEXT_ROOM = 16000 }; /* for an answer as text */

/* Calls, and checks that the answer reads as `want` says, one of
 *     refused N at PLACE
 *     infeasible: item I, cause C, round R
 *     reduced: R rounds, settled; kept P .. + S ..; NUMBER: entries; NUMBER: entries     (or: not settled)
 * and that all lists are as such an answer leaves them. */
void expect(enum way way, const struct problem *p, const char *want);

/* The same through both calls. */
void expect_both(const struct problem *p, const char *want);

/* At cap 0: the problem itself comes back, no rounds, not settled. */
void expect_itself(enum way way, const struct problem *p);

/* ---- The parts ---- */

void test_samples(void);
void test_refusals(void);
void test_limits(void);
void test_ragged(void);
void test_nulls(void);
void test_compact(int large);

#endif
