/* make_replay: picks problems, puts them to the unchanged Rust and writes stored answers (oracle/REPLAY.md) to the standard output.
 *
 * Candidates come from all random kinds, from damage and from a list of written samples. They are sorted into boxes by what happens to them, and
 * each box takes only so many, so that rare outcomes are as well represented as common ones. The same source gives the same file. */
#include <stdlib.h>
#include <string.h>

#include "rust_dlx.h"
#include "stored.h"

enum { SEED = 20, RUST_LINES = 5200, RULES_LINES = 600, BOX = 16, LARGE = 20 };

/* Samples of document 01 and of docs/DECISIONS.md, in the form `np ns cap| option| option`. */
static const char *const samples[] = {
    "1 0 1| 0", "2 0 2| 0 1| 1", "2 0 1| 0 1| 1", "3 0 1| 0 1| 0 2| 1 2", "3 0 0| 0 1| 0 2| 1 2", "3 0 1| 0 1| 0 2", "2 0 0| 0", "1 1 1| 1| 0",
    "2 1 1| 2 0| 1 2:1| 0", "3 2 2| 0 1 4:1| 2", "3 0 1| 0 1| 1 2", "1 0 1| 0| 1", "1 0 1| 0 0:1", "1 1 1| 1 1:1", "1 0 1| 0|", "2 0 1| 0 1| 0",
    "3 0 1| 2 0| 0 1 2", "3 0 1| 2 0| 1 0 2", "3 0 1| 1 2| 1 0", "3 0 1| 0 2| 2 0 1", "2 1 1| 2 0| 2:1 1", "1 1 1| 0 1:1", "3 1 1| 3 2 1| 3:1 0",
    "1 1 1| 1:1 0", "2 1 1| 2 0| 0 1 2:1| 2 1", "2 0 0| 1| 0", "1 1 0| 1| 0", "1 1 0| 0", "1 1 0| 1 0| 0", "1 0 9| 0", "2 0 9| 0 1",
    "3 0 9| 1 0 2| 1 2| 2 0", "2 0 2| 0 1", "4 0 1| 1 2| 2 3 1| 1 2| 1 0", "2 1 1| 0 1| 1 2| 2 0", "1 2 0| 0 2", "2 0 1| 0| 0 1", "0 1 0| 0",
    "1 0 0| 0 4", "1 0 0| 0 1", "1 0 0| 0:1", "1 0 0| 0 0", "2 0 1| 0 1| 0 0", "1 1 0| 0 1:256", "1 1024 0| 0",
};

/* ---- Written samples ---- */

static void read_options(problem *p, const char *text)
{
    char *rest;
    while (*text == '|') {
        text++;
        while (*text == ' ' && text[1]) {
            uint32_t item = (uint32_t)strtoul(text, &rest, 10), colour = *rest == ':' ? (uint32_t)strtoul(rest + 1, &rest, 10) : 0;
            put_entry(p, item, colour);
            text = rest;
        }
        end_option(p);
    }
}

static void read_sample(problem *p, const char *text)
{
    char *rest;
    problem_clear(p);
    p->np = (uint32_t)strtoul(text, &rest, 10);
    p->ns = (uint32_t)strtoul(rest, &rest, 10);
    p->cap = (uint32_t)strtoul(rest, &rest, 10);
    read_options(p, rest);
}

/* ---- One stored answer ---- */

static void stop(const problem *p, const char *why)
{
    fprintf(stderr, "make_replay: %s on ", why);
    problem_print(stderr, p);
    exit(1);
}

static model_answer rules_at(const model_figures *figures, const problem *p, stored *s)
{
    model_list result[RESULT] = {{s->kept, MOST_ITEMS}, {s->ends, MOST_OPTIONS}, {s->numbers, MOST_OPTIONS}, {s->items, MOST_ENTRIES}, {s->colours, MOST_ENTRIES}};
    model_problem given = {p->np, p->ns, p->cap, p->items, p->colours, p->ends, p->items_len, p->colours_len, p->ends_len};
    return model_outcome(figures, &given, false, NULL, result);
}

/* The Rust's answer becomes the stored one, list by list; what the rules said of counts and rounds must be what it says. */
static void take_rust(stored *s, int kind)
{
    const problem *p = s->p;
    model_answer *a = &s->a;
    rust_dlx_result r = rust_dlx_reduce(kind, p->np, p->ns, p->cap, p->items, p->colours, p->items_len, p->ends, p->ends_len, s->kept, s->ends,
                                        s->numbers, s->items, s->colours, s->crate_items);
    if (r.emptied != RUST_DLX_NONE) {
        if (a->number != 1 || a->cause != 3)
            stop(p, "the Rust emptied a primary item where the rules have no cause 3");
        s->who = STORED_RULES;
    } else if (r.code == RUST_DLX_INFEASIBLE) {
        if (a->number != 1 || a->item != r.item || a->round != r.rounds || a->cause != (r.rounds ? 2u : 1u))
            stop(p, "the Rust names another item, cause or round");
    } else if (r.code != RUST_DLX_OK || a->number != 0 || a->primaries != r.primaries || a->secondaries != r.secondaries || a->options != r.options ||
               a->entries != r.entries || a->rounds != r.rounds || a->settled != r.settled) {
        stop(p, "the Rust answers otherwise");
    }
}

/* Answers of the Rust, but the rules' where it is known to differ: refusals and cause 3. */
static void answer(stored *s)
{
    static stored rules;
    s->a = rules_at(&MODEL_LISTS_FIGURES, s->p, &rules);
    s->who = s->a.number > 1 ? STORED_RULES : STORED_RUST;
    if (s->a.number > 1)
        return;
    take_rust(s, RUST_DLX_COLOURED);
    size_t front = 4 * (size_t)s->a.entries, kept = 4 * (size_t)(s->a.primaries + s->a.secondaries), options = 4 * (size_t)s->a.options;
    if (s->a.number == 0 && (memcmp(s->kept, rules.kept, kept) || memcmp(s->ends, rules.ends, options) || memcmp(s->numbers, rules.numbers, options) ||
                             memcmp(s->items, rules.items, front) || memcmp(s->colours, rules.colours, front)))
        stop(s->p, "the Rust has another result");
    if (is_plain(s->p))
        take_rust(s, RUST_DLX_PLAIN);
}

/* ---- What to keep ---- */

enum { BOXES = 1 << 13 };
static uint16_t boxes[BOXES];

static uint32_t box_of(const problem *p, const model_answer *a, int kind)
{
    if (a->number > 1)
        return a->number;
    uint32_t rounds = a->number ? a->round : a->rounds, outcome = a->number ? 1 + a->cause : a->settled;
    uint32_t flags = (uint32_t)!is_plain(p) | (a->skipped > 0) << 1 | (a->shortened > 0) << 2 | (a->deleted > 0) << 3 | (a->blocked > 0) << 4;
    uint32_t box = (((rounds > 7 ? 7 : rounds) * 5 + outcome) * 32 + flags) * 4 + (uint32_t)(kind % 4);
    return 32 + box % (BOXES - 32);
}

/* Refusals that both calls give alike, whatever their figures, with room as needed. */
static bool storable(stored *s)
{
    static stored scratch;
    const problem *p = s->p;
    if (p->items_len > DESK_ENTRIES || p->colours_len > DESK_ENTRIES || p->ends_len > DESK_OPTIONS)
        return false;
    model_answer at_desk = rules_at(&MODEL_BYTES_FIGURES, p, &scratch), full = rules_at(&MODEL_LISTS_FIGURES, p, &scratch);
    return at_desk.number == full.number && at_desk.place == full.place;
}

static void usual_lengths(problem *p)
{
    memset(p->room, 0, sizeof p->room);
    memset(p->result, 0, sizeof p->result);
    memset(p->odd, 0, sizeof p->odd);
    p->nulls = false;
}

/* Lines are kept short: mostly small problems, more entries only where that makes more rounds. */
static bool short_enough(const problem *p, const model_answer *a, int kind)
{
    bool late = a->number ? a->round > 1 : a->rounds > 2;
    return p->items_len <= (kind == DESK ? 130 : late ? 20 : 10);
}

static void make_candidate(problem *p, rng *r, int kind)
{
    make_random(p, r, kind);
    if (one_in(r, 8))
        damage(p, r);
    usual_lengths(p);
}

/* Room in its box, which grows as common boxes fill up, and among the answers of the same giver? */
static bool wanted(const stored *s, const uint32_t lines[2], int kind, uint64_t turn)
{
    uint16_t *box = &boxes[box_of(s->p, &s->a, kind)];
    bool want = short_enough(s->p, &s->a, kind) && *box < BOX * (1 + turn / 100000) && lines[s->who] < (s->who == STORED_RUST ? RUST_LINES : RULES_LINES);
    *box += want;
    return want;
}

static void fill_lines(FILE *to, stored *s, uint32_t lines[2])
{
    rng r = {SEED};
    uint32_t large = 0;
    for (uint64_t turn = 0; lines[STORED_RUST] < RUST_LINES || lines[STORED_RULES] < RULES_LINES; turn++) {
        int kind = turn % 200 == 0 && large < LARGE ? DESK : (int)below(&r, DESK);
        make_candidate(s->p, &r, kind);
        if (!storable(s))
            continue;
        answer(s);
        if (!wanted(s, lines, kind, turn))
            continue;
        large += kind == DESK;
        stored_write(to, s);
        lines[s->who]++;
    }
}

int main(void)
{
    static stored s;
    s.p = problem_new();
    char *text;
    size_t len;
    FILE *to = open_memstream(&text, &len);
    uint32_t lines[2] = {0};
    for (size_t i = 0; i < sizeof samples / sizeof *samples; i++) {
        read_sample(s.p, samples[i]);
        answer(&s);
        stored_write(to, &s);
        lines[s.who]++;
    }
    fill_lines(to, &s, lines);
    fclose(to);
    printf("%u\n%s", lines[STORED_RUST] + lines[STORED_RULES], text);
    free(text);
    problem_free(s.p);
    return 0;
}
