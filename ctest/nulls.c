/* NULL with length 0, for each list of each call, alone and together. */
#include "harness.h"

/* Hands over the list as NULL. */
static void no_input(struct problem *p, int list) { p->len[list] = 0; }

/* An accepted problem with one list taken away; what is missing is named as usual. */
static void test_each(enum way way) {
    static struct problem p;
    static const char *const answers[INPUTS] = {"refused 14 at 0", "refused 14 at 0", "refused 12 at 0"};
    for (int list = 0; list < INPUTS; list++) {
        parse(&p, "1 1 1| 0 1:1");
        p.nulls = 1;
        no_input(&p, list);
        ABOUT("no input list %d", list);
        expect(way, &p, answers[list]);
    }
    for (int list = 0; list < RESULTS; list++) {
        parse(&p, "1 1 1| 0 1:1");
        p.nulls = 1;
        p.room[list] = 0;
        ABOUT("no result list %d", list);
        expect(way, &p, "refused 18 at 0");
    }
    for (int list = 0; list < WORKS && way == LISTS; list++) {
        parse(&p, "1 1 1| 0 1:1");
        p.nulls = 1;
        p.work[list] = 0;
        ABOUT("no working list %d", list);
        expect(way, &p, "refused 17 at 0");
    }
}

/* No entries at all: items, colours and the lists for them are NULL, and the problem is accepted. */
static void test_no_entries(enum way way) {
    static struct problem p;
    ABOUT("an empty option alone");
    parse(&p, "1 0 1|");
    p.nulls = 1;
    expect(way, &p, "infeasible: item 0, cause 1, round 0");
    ABOUT("three empty options");
    parse(&p, "2 3 0|||");
    p.nulls = 1;
    expect(way, &p, "infeasible: item 0, cause 1, round 0");
}

/* Nothing but NULLs. */
static void test_nothing(enum way way) {
    static struct problem p;
    parse(&p, "0 0 0");
    p.nulls = 1;
    for (int list = 0; list < WORKS; list++) p.work[list] = 0;
    ABOUT("no list, no items");
    expect(way, &p, "refused 10 at 0");
    p.np = 65;
    p.ns = 1024;
    ABOUT("no list, many items");
    expect(way, &p, "refused 11 at 0");
    p.ns = 0;
    p.np = 1;
    ABOUT("no list, one item");
    expect(way, &p, "refused 12 at 0");
}

void test_nulls(void) {
    for (enum way way = BYTES; way < WAYS; way++) {
        test_each(way);
        test_no_entries(way);
        test_nothing(way);
    }
}
