/* Document 01's samples 1 to 8, and the inputs that settle its open points, through both calls. (Sample 9 is limits.c.) Each is run
 * in lists of exactly the length that is needed and in longer ones. */
#include "harness.h"

static const struct example samples[] = {
    /* 1 */
    {"1 0 1| 0", "reduced: 1 rounds, settled; kept 0; 0: 0"},
    /* 2 */
    {"2 0 2| 0 1| 1", "reduced: 2 rounds, settled; kept 0; 0: 0"},
    {"2 0 1| 0 1| 1", "reduced: 1 rounds, not settled; kept 0; 0: 0"},
    /* 3 */
    {"3 0 1| 0 1| 0 2| 1 2", "infeasible: item 0, cause 3, round 1"},
    {"3 0 0| 0 1| 0 2| 1 2", "reduced: 0 rounds, not settled; kept 0 1 2; 0: 0 1; 1: 0 2; 2: 1 2"},
    /* 4 */
    {"3 0 1| 0 1| 0 2", "infeasible: item 1, cause 2, round 1"},
    /* 5 */
    {"2 0 0| 0", "infeasible: item 1, cause 1, round 0"},
    /* 6 */
    {"1 1 1| 1| 0", "reduced: 1 rounds, settled; kept 0; 1: 0"},
    /* 7 */
    {"2 1 1| 2 0| 1 2:1| 0", "reduced: 1 rounds, settled; kept 0 1 + 2; 2: 0; 1: 1 2:1; 0: 2 0"},
    /* 8 */
    {"3 2 2| 0 1 4:1| 2", "reduced: 2 rounds, settled; kept 1 2 + 4; 0: 1 4:1; 1: 2"},
    /* cause 1 is found whatever the cap, and names the lowest item */
    {"4 0 4294967295| 0| 2", "infeasible: item 1, cause 1, round 0"},
    {"2 1 1| 0 2| 2", "infeasible: item 1, cause 1, round 0"},
    /* an item in options without a primary item only is not in a live one; empty options keep their number */
    {"1 1 1|| 1| 0 1:5|", "reduced: 1 rounds, settled; kept 0 + 1; 2: 0 1:5"},
    /* which p is taken */
    {"2 0 1| 0 1| 0", "reduced: 1 rounds, not settled; kept 1; 0: 1"},
    {"3 0 1| 2 0| 0 1 2", "reduced: 1 rounds, not settled; kept 1; 1: 1"},
    {"3 0 1| 0 2| 2 0 1", "reduced: 1 rounds, not settled; kept 1; 1: 1"},
    {"3 0 1| 1 2| 1 0", "infeasible: item 2, cause 2, round 1"},
    {"3 0 1| 2 0| 1 0 2", "reduced: 1 rounds, not settled; kept 2; 1: 2"},
    {"4 1 2| 2 3 1| 1 2| 1 0", "infeasible: item 3, cause 2, round 1"},
    /* live options that hold a redundant item coloured are deleted; being redundant needs it uncoloured */
    {"3 1 1| 3 2 1| 3:1 0", "infeasible: item 0, cause 2, round 1"},
    {"1 1 1| 1:1 0", "reduced: 1 rounds, settled; kept 0 + 1; 0: 1:1 0"},
    /* two options that hold an item uncoloured do not agree on it; one equal colour above 0 does */
    {"2 1 1| 0 2| 1 2", "infeasible: item 0, cause 3, round 1"},
    {"2 1 1| 0 2:1| 1 2:1", "reduced: 1 rounds, settled; kept 0 1 + 2; 0: 0 2:1; 1: 1 2:1"},
    {"2 1 1| 0 2:1| 1 2:2", "infeasible: item 0, cause 3, round 1"},
    /* cap 0 still drops unused secondaries and puts the rest in order */
    {"2 0 0| 1| 0", "reduced: 0 rounds, not settled; kept 0 1; 1: 0; 0: 1"},
    {"1 2 0| 0 2:255", "reduced: 0 rounds, not settled; kept 0 + 2; 0: 0 2:255"},
};

void test_samples(void) {
    static struct problem p;
    for (size_t s = 0; s < sizeof samples / sizeof *samples; s++) {
        parse(&p, samples[s].problem);
        ABOUT("%s", samples[s].problem);
        expect_both(&p, samples[s].answer);
        for (int l = 0; l < RESULTS; l++) p.room[l] += 3;
        for (int l = 0; l < WORKS; l++) p.work[l] += 3;
        ABOUT("%s in longer lists", samples[s].problem);
        expect_both(&p, samples[s].answer);
    }
}
