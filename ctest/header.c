/* The header's helpers on answers that are written out, and the three calls linked. This file is C and C++: ctest/run builds and runs it as
 * C99, C++11 and C++17. The header is included twice, and before everything else. */
#include "kapkyrem.h"
#include "kapkyrem.h"

#include <stdio.h>

static unsigned checks, failures;

static void check(int holds, const char *what) {
    checks++;
    if (holds) return;
    failures++;
    fprintf(stderr, "FAILED: header: %s\n", what);
}

/* 2^n, so that the answers below can be written as the documents do. */
static uint64_t two(unsigned n) { return (uint64_t)1 << n; }

static void test_refusal(uint64_t place) {
    uint64_t a = KAPKYREM_ITEM_TWICE + two(8) * place;
    check(kapkyrem_number(a) == 22 && kapkyrem_place(a) == place, "a refusal's number and place");
    check(kapkyrem_is_refused(a) && !kapkyrem_is_reduced(a) && !kapkyrem_is_infeasible(a), "a refusal is refused alone");
}

static void test_infeasible(uint32_t item, uint32_t cause, uint32_t round) {
    uint64_t a = 1 + two(8) * item + two(24) * cause + two(32) * round;
    check(kapkyrem_is_infeasible(a) && !kapkyrem_is_reduced(a) && !kapkyrem_is_refused(a), "infeasible is infeasible alone");
    check(kapkyrem_item(a) == item && kapkyrem_cause(a) == cause && kapkyrem_round(a) == round, "item, cause and round");
}

static void test_reduced(uint32_t rounds, uint32_t settled, uint32_t primaries, uint32_t secondaries, uint32_t options) {
    uint64_t a = two(8) * rounds + two(24) * settled + two(32) * primaries + two(40) * secondaries + two(48) * options;
    check(kapkyrem_is_reduced(a) && !kapkyrem_is_infeasible(a) && !kapkyrem_is_refused(a), "reduced is reduced alone");
    check(kapkyrem_rounds(a) == rounds && kapkyrem_settled(a) == (int)settled, "rounds and settled");
    check(kapkyrem_primaries(a) == primaries && kapkyrem_secondaries(a) == secondaries && kapkyrem_options(a) == options, "counts");
}

static void test_lists_reduced(uint32_t rounds, uint32_t settled, uint32_t primaries, uint32_t secondaries, uint32_t options) {
    uint64_t a = two(8) * rounds + two(24) * settled + two(25) * primaries + two(36) * secondaries + two(47) * options;
    check(kapkyrem_is_reduced(a) && !kapkyrem_is_infeasible(a) && !kapkyrem_is_refused(a), "lists: reduced is reduced alone");
    check(kapkyrem_rounds(a) == rounds && kapkyrem_settled(a) == (int)settled, "lists: rounds and settled");
    check(kapkyrem_lists_primaries(a) == primaries && kapkyrem_lists_secondaries(a) == secondaries, "lists: counts of items");
    check(kapkyrem_lists_options(a) == options, "lists: count of options");
}

static void test_bytes(uint32_t number, uint8_t a, uint8_t b, uint8_t c, uint8_t d) {
    uint8_t four[4] = {0, 0, 0, 0};
    kapkyrem_put32(four, number);
    check(four[0] == a && four[1] == b && four[2] == c && four[3] == d, "a number as four bytes");
    check(kapkyrem_get32(four) == number, "four bytes as a number");
}

/* The answers of sample 7 as whole numbers, through all three calls: the packing, without the helpers. */
static void test_packing(void) {
    uint32_t items[5] = {2, 0, 1, 2, 0}, colours[5] = {0, 0, 0, 1, 0}, ends[3] = {2, 4, 5};
    uint8_t b_items[20], b_colours[20], b_ends[12], b[5][20], fresh[12];
    uint32_t up[13], down[13], tints[13], marks[4], r[5][5];
    int32_t heads[13];
    uint64_t a;
    for (int i = 0; i < 5; i++) kapkyrem_put32(b_items + 4 * i, items[i]), kapkyrem_put32(b_colours + 4 * i, colours[i]);
    for (int i = 0; i < 3; i++) kapkyrem_put32(b_ends + 4 * i, ends[i]);
    a = kapkyrem_reduce(2, 1, 1, b_items, 20, b_colours, 20, b_ends, 12, b[0], 12, b[1], 12, b[2], 12, b[3], 20, b[4], 20);
    check(a == two(8) * 1 + two(24) * 1 + two(32) * 2 + two(40) * 1 + two(48) * 3, "sample 7 through kapkyrem_reduce");
    check(kapkyrem_lists_room(2, 1, 3, 5) == 13, "the room that sample 7 needs");
    a = kapkyrem_reduce_lists(2, 1, 1, items, 5, colours, 5, ends, 3, heads, 13, up, 13, down, 13, tints, 13, marks, 4,
                              r[0], 3, r[1], 3, r[2], 3, r[3], 5, r[4], 5);
    check(a == two(8) * 1 + two(24) * 1 + two(25) * 2 + two(36) * 1 + two(47) * 3, "sample 7 through kapkyrem_reduce_lists");
    a = kapkyrem_compact(b[0], 12, 2, b[0], 12, fresh, 12);
    check(a == KAPKYREM_DONE && kapkyrem_get32(fresh + 8) == 2, "sample 7's kept list through kapkyrem_compact");
    a = kapkyrem_compact(NULL, 0, 0, NULL, 0, NULL, 0);
    check(a == KAPKYREM_BAD_KEPT, "nothing through kapkyrem_compact");
}

int main(void) {
    test_refusal(0);
    test_refusal(1023);
    test_refusal(16383);
    test_refusal(two(56) - 1);
    test_infeasible(0, KAPKYREM_CAUSE_UNUSED, 0);
    test_infeasible(63, KAPKYREM_CAUSE_REDUNDANT, KAPKYREM_MOST_ROUNDS);
    test_infeasible(1023, KAPKYREM_CAUSE_BLOCKED, KAPKYREM_LISTS_MOST_ROUNDS);
    test_reduced(0, 0, 1, 0, 1);
    test_reduced(KAPKYREM_MOST_ROUNDS, 1, 1, 63, KAPKYREM_MOST_OPTIONS);
    test_reduced(1, 1, KAPKYREM_MOST_ITEMS, 0, 1);
    test_lists_reduced(0, 0, 1, 0, 1);
    test_lists_reduced(KAPKYREM_LISTS_MOST_ROUNDS, 1, 1, 1023, KAPKYREM_LISTS_MOST_OPTIONS);
    test_lists_reduced(1, 1, KAPKYREM_LISTS_MOST_ITEMS, 0, 1);
    test_bytes(0, 0, 0, 0, 0);
    test_bytes(1, 1, 0, 0, 0);
    test_bytes(0x01020304u, 4, 3, 2, 1);
    test_bytes(0xFFFEFDFCu, 0xFC, 0xFD, 0xFE, 0xFF);
    test_packing();
    printf("%u\n", checks);
    return failures != 0;
}
