/* kapkyrem_compact: what it writes, its refusals with their places and order, and what it leaves alone. */
#include <stdlib.h>
#include <string.h>

#include "harness.h"

enum { LONGEST = 8 };

struct compact {
    const char *name;
    uint32_t kept[LONGEST];
    size_t kept_count;
    uint32_t primaries;
    uint32_t items[LONGEST];
    size_t item_count, room;
    uint64_t answer;
    uint32_t out[LONGEST]; /* if the answer is 0 */
};

static const struct compact cases[] = {
    {"sample 8", {1, 2, 4}, 3, 2, {1, 4, 2}, 3, 3, 0, {0, 2, 1}},
    {"more room than is needed", {1, 2, 4}, 3, 2, {4, 1}, 2, 5, 0, {2, 0}},
    {"no items", {1, 2, 4}, 3, 1, {0}, 0, 0, 0, {0}},
    {"no items, room", {1, 2, 4}, 3, 3, {0}, 0, 2, 0, {0}},
    {"one item again and again", {7}, 1, 1, {7, 7, 7, 7}, 4, 4, 0, {0, 0, 0, 0}},
    {"any numbers", {0, 5, 4294967294u, 4294967295u}, 4, 1, {4294967295u, 0, 4294967294u, 5}, 4, 4, 0, {3, 0, 2, 1}},
    {"all four bytes count", {1, 257, 65537, 16777217}, 4, 4, {16777217, 1, 65537, 257}, 4, 4, 0, {3, 0, 2, 1}},
    {"an item that differs in its highest byte", {1, 2}, 2, 1, {2, 16777217}, 2, 2, 25 + 0x100 * 1, {0}},
    {"nothing kept, no items", {0}, 0, 0, {0}, 0, 0, 24, {0}},
    {"nothing kept", {0}, 0, 1, {1}, 1, 1, 24, {0}},
    {"no primary", {1, 2, 4}, 3, 0, {1}, 1, 1, 24, {0}},
    {"more primaries than kept", {1, 2, 4}, 3, 4, {1}, 1, 1, 24, {0}},
    {"far more primaries than kept", {1, 2, 4}, 3, 4294967295u, {1}, 1, 1, 24, {0}},
    {"one kept twice", {1, 2, 2}, 3, 1, {1}, 1, 1, 24, {0}},
    {"kept falls at the end", {1, 2, 4, 3}, 4, 1, {1}, 1, 1, 24, {0}},
    {"kept falls at the beginning", {2, 1, 4}, 3, 1, {1}, 1, 1, 24, {0}},
    {"24 before 18 and 25", {2, 2}, 2, 1, {9, 9}, 2, 1, 24, {0}},
    {"no primary and no room", {1, 2, 4}, 3, 0, {1, 9}, 2, 1, 24, {0}},
    {"too many primaries and no room", {1, 2, 4}, 3, 4, {1, 9}, 2, 1, 24, {0}},
    {"room one short", {1, 2, 4}, 3, 2, {1, 4, 2}, 3, 2, 18, {0}},
    {"no room", {1, 2, 4}, 3, 2, {1}, 1, 0, 18, {0}},
    {"18 before 25", {1, 2, 4}, 3, 2, {3, 4, 2}, 3, 2, 18, {0}},
    {"below all kept", {1, 2, 4}, 3, 2, {0, 1}, 2, 2, 25, {0}},
    {"between the kept", {1, 2, 4}, 3, 2, {1, 3, 2}, 3, 3, 25 + 0x100 * 1, {0}},
    {"above all kept, last", {1, 2, 4}, 3, 2, {1, 4, 2, 5}, 4, 6, 25 + 0x100 * 3, {0}},
    {"the first of two", {1, 2, 4}, 3, 2, {4, 2, 0, 9}, 4, 4, 25 + 0x100 * 2, {0}},
};

/* `count` numbers and `over` bytes on the heap, at exactly their length. */
static uint8_t *bytes_of(const uint32_t *numbers, size_t count, unsigned over) {
    uint8_t *at = malloc(4 * count + over + 1);
    if (!at) exit(2);
    for (size_t i = 0; i < count; i++) kapkyrem_put32(at + 1 + 4 * i, numbers[i]);
    memset(at + 1 + 4 * count, 0x77, over);
    return at;
}

/* Calls with a list for the outcome that holds a pattern; checks the answer and that list to its end. */
static void expect_compact(const struct compact *c, const unsigned over[3], uint64_t want, int nulls) {
    uint32_t lent[LONGEST];
    for (uint32_t i = 0; i < LONGEST; i++) lent[i] = pattern(0, i);
    uint8_t *kept = bytes_of(c->kept, c->kept_count, over[0]), *items = bytes_of(c->items, c->item_count, over[1]);
    uint8_t *out = bytes_of(lent, c->room, over[2]);
    size_t kept_len = 4 * c->kept_count + over[0], items_len = 4 * c->item_count + over[1], out_len = 4 * c->room + over[2];
    uint64_t got = kapkyrem_compact(
        nulls && kept_len == 0 ? NULL : kept + 1, kept_len, c->primaries,
        nulls && items_len == 0 ? NULL : items + 1, items_len, nulls && out_len == 0 ? NULL : out + 1, out_len);
    check(got == want, "the answer");
    for (size_t i = 0; i < c->room; i++) {
        uint32_t there = kapkyrem_get32(out + 1 + 4 * i);
        check(there == (want == 0 && i < c->item_count ? c->out[i] : lent[i]), "each number of the outcome list");
    }
    for (unsigned i = 0; i < over[2]; i++) check(out[1 + 4 * c->room + i] == 0x77, "the bytes above whole fours");
    free(kept);
    free(items);
    free(out);
}

/* A ragged list comes before every other fault. */
static void test_ragged_compact(const struct compact *c) {
    for (unsigned list = 0; list < 3; list++) {
        for (unsigned over = 1; over <= 3; over++) {
            unsigned overs[3] = {0, 0, 0};
            overs[list] = over;
            ABOUT("kapkyrem_compact, %s, %u bytes over in list %u", c->name, over, list);
            expect_compact(c, overs, 14, 0);
        }
    }
}

/* A place that needs more than three bytes of the answer: 2^24 + 1 items, all kept but the last. */
static void test_far_place(void) {
    size_t count = ((size_t)1 << 24) + 1;
    uint8_t kept[4], *items = malloc(4 * count), *out = malloc(4 * count);
    if (!items || !out) exit(2);
    memset(items, 0, 4 * count);
    kapkyrem_put32(kept, 0);
    kapkyrem_put32(items + 4 * (count - 1), 1);
    ABOUT("kapkyrem_compact, a far place");
    check(kapkyrem_compact(kept, 4, 1, items, 4 * count, out, 4 * count) == 25 + 0x100 * (uint64_t)(count - 1), "the answer");
    free(items);
    free(out);
}

void test_compact(int large) {
    static const unsigned even[3] = {0, 0, 0};
    for (size_t c = 0; c < sizeof cases / sizeof *cases; c++) {
        ABOUT("kapkyrem_compact, %s", cases[c].name);
        expect_compact(&cases[c], even, cases[c].answer, 0);
        ABOUT("kapkyrem_compact, %s, NULL for empty lists", cases[c].name);
        expect_compact(&cases[c], even, cases[c].answer, 1);
        test_ragged_compact(&cases[c]);
    }
    if (large) test_far_place();
}
