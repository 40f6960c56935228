/* Sample 9: for each figure of each call, the most that is taken and one past it; room that is just enough and one short of it; the
 * widest values of every field of an answer. */
#include "harness.h"

/* ---- The figures ---- */

static void test_items(enum way way, struct problem *p) {
    size_t most = most_items[way];
    ABOUT("as many primary items as are taken");
    fill(p, most, 0, 1, most);
    expect_itself(way, p);
    ABOUT("one primary item more");
    fill(p, most + 1, 0, 1, most + 1);
    expect(way, p, "refused 11 at 0");
    ABOUT("as many items as are taken, all but one secondary");
    fill(p, 1, most - 1, 1, most);
    expect_itself(way, p);
    ABOUT("one secondary item more");
    fill(p, 1, most, 1, most + 1);
    expect(way, p, "refused 11 at 0");
}

static void test_options(enum way way, struct problem *p) {
    size_t most = most_options[way];
    ABOUT("as many options as are taken");
    fill(p, 1, 0, most, most);
    expect_itself(way, p);
    ABOUT("one option more");
    fill(p, 1, 0, most + 1, most + 1);
    expect(way, p, "refused 13 at 0");
}

static void test_entries(enum way way, struct problem *p) {
    size_t half = most_items[way] / 2;
    ABOUT("as many items, options and entries as are taken");
    fill(p, half, half, most_options[way], most_entries[way]);
    for (size_t e = 2; e < p->len[ITEMS]; e += 4) { /* some secondary items in place of primary ones, so that all are kept */
        p->in[ITEMS][e] = (uint32_t)(half + e / 4 % half);
        p->in[COLOURS][e] = 1;
    }
    expect_itself(way, p);
    ABOUT("one entry more");
    fill(p, half, half, most_options[way], most_entries[way] + 1);
    expect(way, p, "refused 15 at 0");
    ABOUT("entries only, one more, in one option");
    fill(p, 1, 0, 1, most_entries[way] + 1);
    expect(way, p, "refused 15 at 0");
}

static void test_colour(enum way way, struct problem *p) {
    ABOUT("colour 255");
    parse(p, "1 1 0| 0 1:255");
    expect_itself(way, p);
    ABOUT("colour 256");
    parse(p, "1 1 0| 0 1:256");
    expect(way, p, "refused 20 at 1");
}

/* ---- Room ---- */

/* Just enough is taken (expect_itself); one short in any one list is not. The problem is accepted otherwise. */
static void test_short_room(enum way way, struct problem *p) {
    expect_itself(way, p);
    for (int l = 0; l < WORKS && way == LISTS; l++) {
        p->work[l]--;
        expect(way, p, "refused 17 at 0");
        p->work[l]++;
    }
    for (int l = 0; l < RESULTS; l++) {
        p->room[l]--;
        expect(way, p, "refused 18 at 0");
        p->room[l]++;
    }
}

static void test_room(enum way way, struct problem *p) {
    ABOUT("room for a small problem");
    parse(p, "2 1 0| 0 2:1| 1");
    test_short_room(way, p);
    ABOUT("room for as much as is taken");
    fill(p, most_items[way], 0, most_options[way], most_entries[way]);
    test_short_room(way, p);
    ABOUT("room asked for by options that are skipped");
    parse(p, "1 1 1| 0| 1 |");
    p->room[NUMBERS]--;
    expect(way, p, "refused 18 at 0");
    fit_room(p);
    p->room[OUT_ITEMS]--;
    expect(way, p, "refused 18 at 0");
    fit_room(p);
    p->work[UP]--;
    expect(way, p, way == LISTS ? "refused 17 at 0" : "reduced: 1 rounds, settled; kept 0; 0: 0");
}

/* Room far above the figures: nothing behind the fronts is written, and all of the working room is cleared. */
static void test_long_room(enum way way, struct problem *p) {
    ABOUT("room far above the figures");
    parse(p, "2 1 1| 2 0| 1 2:1| 0");
    for (int l = 0; l < RESULTS; l++) p->room[l] = 20000;
    for (int l = 0; l < WORKS; l++) p->work[l] = 30000;
    expect(way, p, "reduced: 1 rounds, settled; kept 0 1 + 2; 2: 0; 1: 1 2:1; 0: 2 0");
}

/* ---- The widest answers ---- */

/* One option with all items: each is redundant for the last, which stays. */
static void test_one_option(enum way way, struct problem *p) {
    char want[80];
    ABOUT("one option with as many items as are taken");
    fill(p, most_items[way], 0, 1, most_items[way]);
    p->cap = UINT32_MAX;
    snprintf(want, sizeof want, "reduced: 2 rounds, settled; kept %u; 0: %u", (unsigned)most_items[way] - 1, (unsigned)most_items[way] - 1);
    expect(way, p, want);
}

/* Many rounds, and many options left. */
static void test_chain(enum way way, struct problem *p) {
    static char want[TEXT_ROOM];
    unsigned most = (unsigned)most_items[way];
    size_t used;
    ABOUT("a chain of as many items as are taken");
    chain(p, most, 0);
    used = (size_t)snprintf(want, sizeof want, "reduced: %u rounds, settled; kept", most / 2 + 1);
    for (unsigned i = 1; i < most; i += 2) used += (size_t)snprintf(want + used, sizeof want - used, " %u", i);
    for (unsigned i = 1; i < most; i += 2) used += (size_t)snprintf(want + used, sizeof want - used, "; %u: %u", i, i);
    expect(way, p, want);
}

/* The last item is in no option; the last entry is refused; the last option has a wrong end. */
static void test_far_places(enum way way, struct problem *p) {
    char want[60];
    size_t n = most_items[way], options = most_options[way], entries = most_entries[way];
    ABOUT("the last of all items is infeasible");
    fill(p, n, 0, 1, n - 1);
    snprintf(want, sizeof want, "infeasible: item %u, cause 1, round 0", (unsigned)n - 1);
    expect(way, p, want);
    ABOUT("the last of all entries is refused");
    fill(p, n, 0, options, entries);
    p->in[ITEMS][entries - 1] = (uint32_t)n;
    snprintf(want, sizeof want, "refused 19 at %u", (unsigned)entries - 1);
    expect(way, p, want);
    ABOUT("the last of all ends is refused");
    fill(p, n, 0, options, entries);
    p->in[ENDS][options - 1]--;
    snprintf(want, sizeof want, "refused 16 at %u", (unsigned)options - 1);
    expect(way, p, want);
}

void test_limits(void) {
    static struct problem p;
    for (enum way way = BYTES; way < WAYS; way++) {
        test_items(way, &p);
        test_options(way, &p);
        test_entries(way, &p);
        test_colour(way, &p);
        test_room(way, &p);
        test_long_room(way, &p);
        test_one_option(way, &p);
        test_chain(way, &p);
        test_far_places(way, &p);
    }
}
