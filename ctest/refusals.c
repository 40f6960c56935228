/* Each refusal with its place, and which one is given where two fit. */
#include <string.h>

#include "harness.h"

/* Problems whose one or two faults can be written down as they are. */
static const struct example refused[] = {
    {"0 0 1| 0", "refused 10 at 0"},
    {"0 4 1| 0", "refused 10 at 0"},
    {"0 4294967295 1", "refused 10 at 0"},
    {"4294967295 0 1| 0", "refused 11 at 0"},
    {"4294967295 4294967295 1| 0", "refused 11 at 0"},
    {"1 4294967295 1| 0", "refused 11 at 0"}, /* the sum is 0 if it wraps */
    {"2 4294967295 1| 0| 1", "refused 11 at 0"},
    {"2147483648 2147483649 1| 0", "refused 11 at 0"},
    {"1 0 1", "refused 12 at 0"},
    /* 19 to 22, at the first and at a later entry, in a later option, and in one that would be skipped */
    {"2 2 1| 4 0| 1", "refused 19 at 0"},
    {"2 2 1| 0 4294967295| 1", "refused 19 at 1"},
    {"2 2 1| 0| 1| 2 4", "refused 19 at 3"},
    {"2 2 1| 0 1|| 3:1 4", "refused 19 at 3"},
    {"2 2 1| 2:256 0| 1", "refused 20 at 0"},
    {"2 2 1| 0| 1 2 3:4294967295", "refused 20 at 3"},
    {"2 2 1| 0 1| 2:256", "refused 20 at 2"},
    {"2 2 1| 0:1 1", "refused 21 at 0"},
    {"2 2 1| 2:1 0| 1:255", "refused 21 at 2"},
    {"2 2 1| 0 1 0", "refused 22 at 2"},
    {"2 2 1| 0 1| 2:1 2:2", "refused 22 at 3"},
    {"2 2 1| 0 1| 2 3 2", "refused 22 at 4"},
    {"2 2 1| 0| 0 1| 1 0 3 3", "refused 22 at 6"},
    /* all four bytes of a number count */
    {"2 2 1| 0 256| 1", "refused 19 at 1"},
    {"2 2 1| 0 65536| 1", "refused 19 at 1"},
    {"2 2 1| 0 16777216| 1", "refused 19 at 1"},
    {"2 2 1| 0 1 3:65536", "refused 20 at 2"},
    {"2 2 1| 0 1 3:16777216", "refused 20 at 2"},
    {"2 2 1| 0 1:2147483648", "refused 20 at 1"},
    /* an earlier entry comes first, whatever the numbers */
    {"2 2 1| 4 2:256| 0 1", "refused 19 at 0"},
    {"2 2 1| 2:256 4| 0 1", "refused 20 at 0"},
    {"2 2 1| 4 0:1 1", "refused 19 at 0"},
    {"2 2 1| 0:1 4 1", "refused 21 at 0"},
    {"2 2 1| 0 4 0 1", "refused 19 at 1"},
    {"2 2 1| 0 0 4 1", "refused 22 at 1"},
    {"2 2 1| 2:256 0:1 1", "refused 20 at 0"},
    {"2 2 1| 0:1 2:256 1", "refused 21 at 0"},
    {"2 2 1| 0 2:256 0 1", "refused 20 at 1"},
    {"2 2 1| 0 0 2:256 1", "refused 22 at 1"},
    {"2 2 1| 0 1:1 0", "refused 21 at 1"},
    {"2 2 1| 0 0 1:1", "refused 22 at 1"},
    /* within an entry by number */
    {"2 2 1| 0 1| 4:256", "refused 19 at 2"},
    {"2 2 1| 0 1| 4 4", "refused 19 at 2"},
    {"2 2 1| 0:256 1", "refused 20 at 0"},
    {"2 2 1| 0 1| 2 2:256", "refused 20 at 3"},
    {"2 2 1| 0 1 1:1", "refused 21 at 2"},
    {"2 2 1| 0 1 1:256", "refused 20 at 2"},
};

/* ---- 16: wrong ends ---- */

static void test_ends(void) {
    static const struct {
        uint32_t ends[3];
        size_t count;
        const char *answer;
    } cases[] = {
        /* of one entry */
        {{9, 0, 0}, 2, "refused 16 at 0"},          {{0, 5, 0}, 3, "refused 16 at 1"}, {{0, 0, 0}, 3, "refused 16 at 2"},
        {{1, 0, 1}, 3, "refused 16 at 1"},          {{0, 1, 0}, 3, "refused 16 at 2"}, {{0, 0, 2}, 3, "refused 16 at 2"},
        {{4294967295u, 1, 1}, 3, "refused 16 at 0"}, {{0, 0, 0}, 1, "refused 16 at 0"}, {{2, 0, 0}, 1, "refused 16 at 0"},
        {{0, 257, 1}, 3, "refused 16 at 1"},         {{65537, 1, 1}, 1, "refused 16 at 0"}, {{0, 1, 16777217}, 3, "refused 16 at 2"},
    };
    static struct problem p;
    for (size_t c = 0; c < sizeof cases / sizeof *cases; c++) {
        parse(&p, "1 0 1| 0||");
        ABOUT("one entry, %u ends, No. %u", (unsigned)cases[c].count, (unsigned)c);
        memcpy(p.in[ENDS], cases[c].ends, sizeof cases[c].ends);
        p.len[ENDS] = cases[c].count;
        expect_both(&p, cases[c].answer);
    }
}

/* ---- Two faults at once ---- */

/* Puts the fault into a problem; `list` says in which list the room is short. Faults of a higher number are put in first. */
static void put_fault(struct problem *p, enum way way, int number, int list) {
    size_t last = p->len[ENDS] - 1;
    switch (number) {
    case 10: p->np = 0; break;
    case 11: p->ns = UINT32_MAX - 1; break; /* with two primaries the sum wraps to 0 */
    case 12: p->len[ENDS] = 0; break;
    case 13:
        while (p->len[ENDS] <= most_options[way]) p->in[ENDS][p->len[ENDS]++] = p->in[ENDS][last];
        break;
    case 14: p->len[COLOURS]--; break;
    case 15:
        p->len[ITEMS] = p->len[COLOURS] = most_entries[way] + 1;
        p->in[ENDS][last] = (uint32_t)p->len[ITEMS];
        break;
    case 16: p->in[ENDS][1] = 0; break;
    case 17: p->work[list]--; break;
    case 18: p->room[list]--; break;
    case 19: p->in[ITEMS][3] = 4; break;
    case 20: p->in[COLOURS][1] = 256; break;
    case 21: p->in[COLOURS][0] = 1; break;
    case 22: p->in[ITEMS][2] = p->in[ITEMS][1]; break;
    }
}

/* The place of each fault when it is put in alone or with later ones. */
static unsigned place_of(int number) {
    switch (number) {
    case 16: return 1;
    case 19: return 3;
    case 20: return 1;
    case 22: return 2;
    default: return 0;
    }
}

static void two_faults(enum way way, int low, int high, int list) {
    static struct problem p;
    char want[40];
    parse(&p, "2 2 1| 0 2:1 3| 1 2:1| 0 1");
    if (high != low) put_fault(&p, way, high, list);
    put_fault(&p, way, low, list);
    ABOUT("faults %d and %d (list %d)", low, high, list);
    snprintf(want, sizeof want, "refused %d at %u", low, place_of(low));
    expect(way, &p, want);
}

/* Every pair of 10 to 22 up to 18, where a lower one always comes first; those of entries are in the table above. */
static void test_pairs(enum way way) {
    for (int low = 10; low <= 22; low++) {
        for (int high = low; high <= (low <= 18 ? 22 : low); high++) {
            int lists = low == 17 || low == 18 || high == 17 || high == 18 ? WORKS : 1;
            if (way == BYTES && (low == 17 || high == 17)) continue;
            if (low == 12 && high == 13) continue; /* no options and too many */
            for (int list = 0; list < lists; list++) two_faults(way, low, high, list);
        }
    }
}

/* Room for four thousand million items is not to be had; it is not looked at before 17. */
static void lend_nothing(struct problem *p) {
    memset(p->room, 0, sizeof p->room);
    memset(p->work, 0, sizeof p->work);
}

void test_refusals(void) {
    static struct problem p;
    for (size_t c = 0; c < sizeof refused / sizeof *refused; c++) {
        parse(&p, refused[c].problem);
        if ((uint64_t)p.np + p.ns > MOST) lend_nothing(&p);
        ABOUT("%s", refused[c].problem);
        expect_both(&p, refused[c].answer);
    }
    test_ends();
    test_pairs(BYTES);
    test_pairs(LISTS);
}
