/* What a call must give, and what it must leave alone. See harness.h. */
#include <string.h>

#include "harness.h"

unsigned long checks, failures;
char subject[256];

void check(int holds, const char *what) {
    checks++;
    if (holds) return;
    failures++;
    fprintf(stderr, "FAILED: %s: %s\n", subject, what);
}

/* ---- What is to be seen of every answer ---- */

static size_t primaries(enum way way, uint64_t a) { return way == BYTES ? kapkyrem_primaries(a) : kapkyrem_lists_primaries(a); }
static size_t secondaries(enum way way, uint64_t a) { return way == BYTES ? kapkyrem_secondaries(a) : kapkyrem_lists_secondaries(a); }
static size_t options(enum way way, uint64_t a) { return way == BYTES ? kapkyrem_options(a) : kapkyrem_lists_options(a); }

/* How many numbers of a result list the answer says are written; more than there is room for cannot be. */
static size_t front(enum way way, const struct problem *p, const struct outcome *o, int list) {
    size_t count = options(way, o->answer);
    if (!kapkyrem_is_reduced(o->answer)) return 0;
    if (list == KEPT) count = primaries(way, o->answer) + secondaries(way, o->answer);
    if (list == OUT_ITEMS || list == OUT_COLOURS) {
        count = count > 0 && count <= p->room[OUT_ENDS] ? o->result[OUT_ENDS][count - 1] : 0;
    }
    return count <= p->room[list] ? count : p->room[list];
}

/* What was lent is as it was from this place on. */
static int kept_pattern(const uint32_t *at, int list, size_t from, size_t count) {
    size_t i = from;
    while (i < count && at[i] == pattern(list, i)) i++;
    return i >= count;
}

static int all_zero(const uint32_t *at, size_t count) {
    size_t i = 0;
    while (i < count && at[i] == 0) i++;
    return i == count;
}

/* The answer put together again from its parts: equal to it unless there are bits that belong to none. */
static uint64_t repacked(enum way way, uint64_t a) {
    if (kapkyrem_is_refused(a)) return a;
    if (kapkyrem_is_infeasible(a)) {
        return 1 + ((uint64_t)kapkyrem_item(a) << 8) + ((uint64_t)kapkyrem_cause(a) << 24) + ((uint64_t)kapkyrem_round(a) << 32);
    }
    uint64_t rest = ((uint64_t)kapkyrem_rounds(a) << 8) + ((uint64_t)kapkyrem_settled(a) << 24);
    if (way == BYTES) return rest + ((uint64_t)primaries(way, a) << 32) + ((uint64_t)secondaries(way, a) << 40) + ((uint64_t)options(way, a) << 48);
    return rest + ((uint64_t)primaries(way, a) << 25) + ((uint64_t)secondaries(way, a) << 36) + ((uint64_t)options(way, a) << 47);
}

static void check_outcome(enum way way, const struct problem *p, const struct outcome *o) {
    check(repacked(way, o->answer) == o->answer, "every bit of the answer belongs to a part of it");
    for (int l = 0; l < INPUTS; l++) {
        check(memcmp(o->in[l], p->in[l], 4 * p->len[l]) == 0, "what was handed in is as it was");
    }
    for (int l = 0; l < RESULTS; l++) {
        check(kept_pattern(o->result[l], l, front(way, p, o, l), p->room[l]), "nothing behind the front of a result list is written");
    }
    for (int l = 0; l < WORKS && way == LISTS; l++) {
        if (kapkyrem_is_refused(o->answer)) {
            check(kept_pattern(o->work[l], RESULTS + l, 0, p->work[l]), "a refusal writes nothing to a working list");
        } else {
            check(all_zero(o->work[l], p->work[l]), "every number of a working list is zero");
        }
    }
}

/* ---- An answer as text ---- */

struct text {
    char at[TEXT_ROOM];
    size_t used;
};

#define SAY(t, ...) ((t)->used += (size_t)snprintf((t)->at + (t)->used, sizeof(t)->at - (t)->used, __VA_ARGS__))
/* room for one more piece */
static int has_room(const struct text *t) { return t->used + 60 < sizeof t->at; }

static void say_options(enum way way, const struct problem *p, const struct outcome *o, struct text *t) {
    size_t at = 0, entries = front(way, p, o, OUT_ITEMS);
    for (size_t k = 0; k < front(way, p, o, OUT_ENDS) && has_room(t); k++) {
        SAY(t, "; %u:", (unsigned)o->result[NUMBERS][k]);
        for (; at < o->result[OUT_ENDS][k] && at < entries && has_room(t); at++) {
            SAY(t, " %u", (unsigned)o->result[OUT_ITEMS][at]);
            if (o->result[OUT_COLOURS][at] != 0) SAY(t, ":%u", (unsigned)o->result[OUT_COLOURS][at]);
        }
    }
}

static void say_reduced(enum way way, const struct problem *p, const struct outcome *o, struct text *t) {
    size_t kept = front(way, p, o, KEPT);
    SAY(t, "reduced: %u rounds, %ssettled; kept", (unsigned)kapkyrem_rounds(o->answer), kapkyrem_settled(o->answer) ? "" : "not ");
    for (size_t i = 0; i < kept && has_room(t); i++) {
        SAY(t, "%s %u", i == primaries(way, o->answer) ? " +" : "", (unsigned)o->result[KEPT][i]);
    }
    say_options(way, p, o, t);
}

static void say(enum way way, const struct problem *p, const struct outcome *o, struct text *t) {
    uint64_t a = o->answer;
    t->used = 0;
    if (kapkyrem_is_refused(a)) {
        SAY(t, "refused %u at %lu", (unsigned)kapkyrem_number(a), (unsigned long)kapkyrem_place(a));
    } else if (kapkyrem_is_infeasible(a)) {
        SAY(t, "infeasible: item %u, cause %u, round %u", (unsigned)kapkyrem_item(a), (unsigned)kapkyrem_cause(a), (unsigned)kapkyrem_round(a));
    } else if (kapkyrem_is_reduced(a)) {
        say_reduced(way, p, o, t);
    } else {
        SAY(t, "no answer: %u", (unsigned)kapkyrem_number(a));
    }
}

/* ---- What tests ask ---- */

void expect(enum way way, const struct problem *p, const char *want) {
    static struct text got;
    char about[sizeof subject], what[600];
    struct outcome o;
    strcpy(about, subject);
    ABOUT("%.200s, %s", about, way_name[way]);
    run_call(way, p, &o);
    say(way, p, &o, &got);
    snprintf(what, sizeof what, "wanted '%.250s', got '%.250s'", want, got.at);
    check(strcmp(want, got.at) == 0, what);
    check_outcome(way, p, &o);
    end_call(&o);
    strcpy(subject, about);
}

void expect_both(const struct problem *p, const char *want) {
    for (enum way way = BYTES; way < WAYS; way++) expect(way, p, want);
}

/* The result lists hold the input lists, the kept list and the numbers all that there are. */
static int comes_back(const struct problem *p, const struct outcome *o) {
    uint32_t n = p->np + p->ns;
    int same = memcmp(o->result[OUT_ENDS], p->in[ENDS], 4 * p->len[ENDS]) == 0;
    same = same && memcmp(o->result[OUT_ITEMS], p->in[ITEMS], 4 * p->len[ITEMS]) == 0;
    same = same && memcmp(o->result[OUT_COLOURS], p->in[COLOURS], 4 * p->len[COLOURS]) == 0;
    for (uint32_t i = 0; same && i < n; i++) same = o->result[KEPT][i] == i;
    for (uint32_t k = 0; same && k < p->len[ENDS]; k++) same = o->result[NUMBERS][k] == k;
    return same;
}

void expect_itself(enum way way, const struct problem *p) {
    char about[sizeof subject];
    struct outcome o;
    uint64_t a;
    strcpy(about, subject);
    ABOUT("%.200s, %s", about, way_name[way]);
    run_call(way, p, &o);
    a = o.answer;
    check(kapkyrem_is_reduced(a) && kapkyrem_rounds(a) == 0 && !kapkyrem_settled(a), "reduced, no rounds, not settled");
    check(primaries(way, a) == p->np && secondaries(way, a) == p->ns && options(way, a) == p->len[ENDS], "all are counted");
    check(comes_back(p, &o), "the problem itself comes back");
    check_outcome(way, p, &o);
    end_call(&o);
    strcpy(subject, about);
}
