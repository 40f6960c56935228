/* compare: puts problems to the C calls, to the model of document 01 and, where it was linked in, to the unchanged Rust. Ends with status 1 at the
 * first difference, after printing the smallest problem found that shows it and what each side says.
 *
 *   compare --seconds N    limits, small shapes for at most half of the time, then random and damaged problems until it is over
 *   compare --problems N   limits, every shape, then N random and damaged problems
 *   --seed S               other random problems (default 1)
 *   --heap                 exactly sized heap lists instead of fenced ones, for memory checkers; no problems at the full figures
 *   --replay FILE          stored answers alone (oracle/REPLAY.md) */
#include <stdlib.h>
#include <string.h>
#include <time.h>

#include "shrink.h"
#include "stored.h"

/* ---- Counts ---- */

enum { NUMBERS = 32, ROUNDS = 10 };

static struct {
    uint64_t shapes, limits, random[KINDS], damaged;
    uint64_t lists[NUMBERS], bytes[NUMBERS], compact[NUMBERS];
    uint64_t causes[4], settled[2], rounds[ROUNDS], many_rounds;
    uint64_t rust_coloured, rust_plain, rust_emptied;
    uint64_t coloured, skipping, shortened, deleted, tested, blocked;
    uint32_t most_rounds;
} total;

static void count_rounds(uint32_t rounds)
{
    if (rounds < ROUNDS)
        total.rounds[rounds]++;
    else
        total.many_rounds++;
    if (rounds > total.most_rounds)
        total.most_rounds = rounds;
}

static void count(const problem *p, const seen *s)
{
    const model_answer *a = &s->lists;
    total.lists[a->number]++;
    total.bytes[s->bytes]++;
    total.rust_coloured += s->rust_coloured;
    total.rust_plain += s->rust_plain;
    total.rust_emptied += s->rust_emptied;
    if (a->number > 1)
        return;
    if (a->number == 1)
        total.causes[a->cause]++;
    else
        total.settled[a->settled]++;
    count_rounds(a->number == 1 ? a->round : a->rounds);
    total.coloured += !is_plain(p);
    total.skipping += a->skipped > 0;
    total.shortened += a->shortened;
    total.deleted += a->deleted;
    total.tested += a->tested;
    total.blocked += a->blocked;
}

static void print_count(const char *what, uint64_t n)
{
    printf("  %-52s %12llu\n", what, (unsigned long long)n);
}

static void print_number(uint32_t number)
{
    static const char *const names[NUMBERS] = {"reduced", "infeasible", [10] = "no primary item", "too many items", "no option", "too many options",
                                               "uneven lists", "too many entries", "wrong end", "working room short", "result room short",
                                               "item not below n", "colour over 255", "coloured primary", "item twice",
                                               [24] = "kept list or count", "item not kept"};
    if (total.lists[number] || total.bytes[number] || total.compact[number])
        printf("  %2u %-25s %12llu %12llu %12llu\n", number, names[number] ? names[number] : "", (unsigned long long)total.lists[number],
               (unsigned long long)total.bytes[number], (unsigned long long)total.compact[number]);
}

static uint64_t problems_seen(void)
{
    uint64_t sum = total.shapes + total.limits + total.damaged;
    for (int i = 0; i < KINDS; i++)
        sum += total.random[i];
    return sum;
}

static void print_totals(void)
{
    printf("problems\n");
    print_count("every problem of small shapes", total.shapes);
    print_count("limits", total.limits);
    for (int i = 0; i < KINDS; i++) {
        char what[64];
        snprintf(what, sizeof what, "random, %s", kind_names[i]);
        print_count(what, total.random[i]);
    }
    print_count("random, damaged", total.damaged);
    print_count("in all", problems_seen());
    printf("answers                              over lists        bytes      compact\n");
    for (uint32_t i = 0; i < NUMBERS; i++)
        print_number(i);
    printf("over lists, infeasible or reduced\n");
    print_count("infeasible, cause 1", total.causes[1]);
    print_count("infeasible, cause 2", total.causes[2]);
    print_count("infeasible, cause 3", total.causes[3]);
    print_count("reduced, settled", total.settled[1]);
    print_count("reduced, not settled", total.settled[0]);
    for (int i = 0; i < ROUNDS; i++) {
        char what[64];
        snprintf(what, sizeof what, "rounds: %d", i);
        print_count(what, total.rounds[i]);
    }
    print_count("rounds: more", total.many_rounds);
    print_count("the most rounds", total.most_rounds);
    print_count("with a colour above 0", total.coloured);
    print_count("with a skipped option", total.skipping);
    print_count("steps: entries shortened", total.shortened);
    print_count("steps: options deleted with a redundant item", total.deleted);
    print_count("steps: options tested", total.tested);
    print_count("steps: options deleted as blocked", total.blocked);
    printf("the Rust\n");
    print_count("compared, coloured module", total.rust_coloured);
    print_count("compared, plain module too", total.rust_plain);
    print_count("of these, rules alone (it emptied a primary item)", total.rust_emptied);
}

/* ---- One problem ---- */

static void report(problem *p, uint64_t seed)
{
    seen s;
    printf("DIFFERENCE (seed %llu) on\n  ", (unsigned long long)seed);
    problem_print(stdout, p);
    fflush(stdout);
    shrink(p);
    printf("smallest found:\n  ");
    problem_print(stdout, p);
    agree(p, &s, stdout);
    fflush(stdout);
    exit(1);
}

static void report_compaction(compaction *c, uint64_t seed)
{
    uint32_t number;
    printf("DIFFERENCE in kapkyrem_compact (seed %llu)\nsmallest found:\n", (unsigned long long)seed);
    shrink_compaction(c);
    agree_compact(c, &number, stdout);
    fflush(stdout);
    exit(1);
}

/* ---- Compact: of what came back, and damaged ---- */

static void damage_compaction(compaction *c, rng *r)
{
    switch (below(r, 9)) {
    case 0: c->primaries = 0; break;
    case 1: c->primaries = (uint32_t)c->kept_len + 1 + (one_in(r, 2) ? UINT32_MAX / 2 : 0); break;
    case 2: c->kept[below(r, (uint32_t)c->kept_len)] = below(r, 12); break;
    case 3: c->items[below(r, (uint32_t)c->items_len)] = one_in(r, 2) ? UINT32_MAX : below(r, 12); break;
    case 4: c->more = -(int)below(r, 3); break;
    case 5: c->odd[below(r, 3)] = (uint8_t)(1 + below(r, 3)); break;
    case 6: c->kept_len = below(r, (uint32_t)c->kept_len + 1); break;
    case 7: c->items_len = 0; break;
    default: c->kept[c->kept_len - 1] = UINT32_MAX - below(r, 2); break;
    }
}

static void compact_result(const seen *s, rng *r, uint64_t seed)
{
    static compaction c;
    uint32_t number;
    c.primaries = s->lists.primaries;
    c.kept_len = s->lists.primaries + s->lists.secondaries;
    c.items_len = s->lists.entries;
    c.more = (int)below(r, 3);
    c.nulls = one_in(r, 2);
    memset(c.odd, 0, sizeof c.odd);
    memcpy(c.kept, s->kept, c.kept_len * sizeof *c.kept);
    memcpy(c.items, s->items, c.items_len * sizeof *c.items);
    for (uint32_t faults = one_in(r, 2) ? 0 : 1 + below(r, 2); faults > 0 && c.kept_len > 0 && c.items_len > 0; faults--)
        damage_compaction(&c, r);
    if (!agree_compact(&c, &number, NULL))
        report_compaction(&c, seed);
    total.compact[number]++;
}

static void try_problem(problem *p, rng *r, uint64_t seed)
{
    seen s;
    if (!agree(p, &s, NULL))
        report(p, seed);
    count(p, &s);
    if (s.lists.number == 0)
        compact_result(&s, r, seed);
}

/* ---- The sources of problems ---- */

typedef struct {
    uint64_t seed, problems;
    double start, seconds; /* seconds is 0 if not bounded */
    bool heap;
    rng r;
} plan;

static double now(void)
{
    struct timespec t;
    clock_gettime(CLOCK_MONOTONIC, &t);
    return (double)t.tv_sec + 1e-9 * (double)t.tv_nsec;
}

static bool over(const plan *x, double part)
{
    return x->seconds > 0 && now() - x->start > part * x->seconds;
}

static void run_limits(plan *x, problem *p)
{
    for (unsigned which = 0; make_limit(p, which); which++) {
        try_problem(p, &x->r, x->seed);
        total.limits++;
    }
}

/* Each problem with no round, one, two, and enough. */
static void try_caps(plan *x, problem *p)
{
    const uint32_t caps[] = {0, 1, 2, p->np + p->ns + (uint32_t)p->ends_len - 1};
    for (int i = 0; i < 4; i++) {
        p->cap = caps[i];
        try_problem(p, &x->r, x->seed);
        total.shapes++;
    }
}

static void run_shape(plan *x, problem *p, const shape *s)
{
    walk *w = walk_new(s);
    bool whole = true;
    while (whole && walk_next(w, p)) {
        try_caps(x, p);
        whole = !over(x, 0.5);
    }
    walk_free(w);
    if (!whole)
        printf("cut short for time: shape with %u primaries, %u secondaries, colours to %u, %u options\n", s->np, s->ns, s->colours, s->m);
}

static void run_shapes(plan *x, problem *p)
{
    for (size_t i = 0; i < shape_count && !over(x, 0.5); i++)
        if (shapes[i].quick || x->seconds == 0)
            run_shape(x, p, &shapes[i]);
}

/* Mostly small kinds; now and then the desk's figures, seldom the full ones, which take long. */
static int random_kind(plan *x, uint64_t turn)
{
    bool full = turn % 16000 == 1000 && !x->heap, desk = turn % 100 == 50;
    return full ? FULL : desk ? DESK : (int)below(&x->r, DESK);
}

static void run_random(plan *x, problem *p)
{
    for (uint64_t turn = 0; x->seconds > 0 ? !over(x, 1) : turn < x->problems; turn++) {
        int kind = random_kind(x, turn);
        make_random(p, &x->r, kind);
        bool damaged = one_in(&x->r, 3);
        if (damaged)
            damage(p, &x->r);
        try_problem(p, &x->r, x->seed);
        if (damaged)
            total.damaged++;
        else
            total.random[kind]++;
    }
}

static int usage(void)
{
    fprintf(stderr, "usage: compare --seconds N | --problems N | --replay FILE [--seed S] [--heap]\n");
    return 2;
}

int main(int argc, char **argv)
{
    plan x = {.seed = 1};
    const char *replay = NULL;
    for (int i = 1; i < argc; i++) {
        bool more = i + 1 < argc;
        if (!strcmp(argv[i], "--heap"))
            x.heap = true;
        else if (more && !strcmp(argv[i], "--seconds"))
            x.seconds = strtod(argv[++i], NULL);
        else if (more && !strcmp(argv[i], "--problems"))
            x.problems = strtoull(argv[++i], NULL, 10);
        else if (more && !strcmp(argv[i], "--seed"))
            x.seed = strtoull(argv[++i], NULL, 10);
        else if (more && !strcmp(argv[i], "--replay"))
            replay = argv[++i];
        else
            return usage();
    }
    if (x.seconds <= 0 && !x.problems && !replay)
        return usage();
    sides_start(x.heap, 600);
    if (replay)
        return stored_replay(replay) ? 0 : 1;
    x.r.state = x.seed;
    x.start = now();
    problem *p = problem_new();
    run_limits(&x, p);
    run_shapes(&x, p);
    run_random(&x, p);
    print_totals();
    printf("%llu problems compared in %.0f s (seed %llu%s): no difference\n", (unsigned long long)problems_seen(), now() - x.start,
           (unsigned long long)x.seed, sides_have_rust() ? "" : "; the model alone");
    problem_free(p);
    return 0;
}
