/* Byte lists whose length is not a multiple of four: 14 in 14's turn, and until then whole fours count. kapkyrem_reduce alone. */
#include "harness.h"

enum { BYTE_LISTS = INPUTS + RESULTS };
static const char *const list_name[BYTE_LISTS] = {"items", "colours", "ends", "kept", "out_ends", "numbers", "out_items", "out_colours"};

/* One number less; of a result list, too little room. */
static void shorten(struct problem *p, int list) {
    if (list < INPUTS) {
        p->len[list]--;
    } else {
        p->room[list - INPUTS]--;
    }
}

/* A problem with all lists in order, and one list ragged; then the other faults beside it. */
static void test_list(int list, unsigned over) {
    static struct problem p;
    static const struct {
        const char *problem, *answer, *fault;
    } beside[] = {
        {"2 1 1| 0 2:1| 1", "refused 14 at 0", "no other fault"},
        {"0 1 1| 0| 0", "refused 10 at 0", "no primary item"},
        {"2 63 1| 0 2:1| 1", "refused 11 at 0", "too many items"},
        {"2 1 1| 5 2:1| 1", "refused 14 at 0", "a wrong item"},
        {"2 1 1| 0:1 2:256| 1", "refused 14 at 0", "wrong colours"},
    };
    for (size_t b = 0; b < sizeof beside / sizeof *beside; b++) {
        parse(&p, beside[b].problem);
        p.over[list] = over;
        ABOUT("%u bytes over in %s, %s", over, list_name[list], beside[b].fault);
        expect(BYTES, &p, beside[b].answer);
        shorten(&p, list);
        ABOUT("%u bytes over in %s, which is short, %s", over, list_name[list], beside[b].fault);
        expect(BYTES, &p, beside[b].answer);
    }
}

/* Beside faults of 12, 13, 15, 16 and 18. */
static void test_turn(int list, unsigned over) {
    static struct problem p;
    ABOUT("%u bytes over in %s, no option", over, list_name[list]);
    parse(&p, "2 1 1");
    p.over[list] = over;
    expect(BYTES, &p, "refused 12 at 0");
    ABOUT("%u bytes over in %s, too many options", over, list_name[list]);
    fill(&p, 1, 0, KAPKYREM_MOST_OPTIONS + 1, KAPKYREM_MOST_OPTIONS + 1);
    p.over[list] = over;
    expect(BYTES, &p, "refused 13 at 0");
    ABOUT("%u bytes over in %s, as many options as are taken", over, list_name[list]);
    fill(&p, 1, 0, KAPKYREM_MOST_OPTIONS, KAPKYREM_MOST_OPTIONS);
    p.over[list] = over;
    expect(BYTES, &p, "refused 14 at 0");
    ABOUT("%u bytes over in %s, too many entries", over, list_name[list]);
    fill(&p, 1, 0, 1, KAPKYREM_MOST_ENTRIES + 1);
    p.over[list] = over;
    expect(BYTES, &p, "refused 14 at 0");
    ABOUT("%u bytes over in %s, a wrong end and no room", over, list_name[list]);
    parse(&p, "2 1 1| 0| 1");
    p.in[ENDS][0] = 9;
    p.room[KEPT] = 0;
    p.over[list] = over;
    expect(BYTES, &p, "refused 14 at 0");
}

void test_ragged(void) {
    static struct problem p;
    for (int list = 0; list < BYTE_LISTS; list++) {
        for (unsigned over = 1; over <= 3; over++) {
            test_list(list, over);
            test_turn(list, over);
        }
    }
    ABOUT("items and colours ragged alike");
    parse(&p, "2 1 1| 0 2:1| 1");
    p.over[ITEMS] = p.over[COLOURS] = 2;
    expect(BYTES, &p, "refused 14 at 0");
    ABOUT("every list ragged");
    for (int list = 0; list < BYTE_LISTS; list++) p.over[list] = 1 + (unsigned)list % 3;
    expect(BYTES, &p, "refused 14 at 0");
}
