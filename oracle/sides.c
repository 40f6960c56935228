/* See sides.h. */
#include "sides.h"

#include <setjmp.h>
#include <signal.h>
#include <stdlib.h>
#include <string.h>
#include <unistd.h>

#include "../include/kapkyrem.h"
#include "fence.h"
#ifdef WITH_RUST
#include "rust_dlx.h"
#endif

/* ---- The lists of one side ---- */

enum { LISTS = INPUTS + ROOM + RESULT, FIRST_ROOM = INPUTS, FIRST_RESULT = INPUTS + ROOM };

static const char *const list_names[LISTS] = {"items", "colours", "ends", "heads", "up", "down", "tints", "marks",
                                              "kept", "out_ends", "numbers", "out_items", "out_colours"};

typedef struct {
    fence list[LISTS];
    uint64_t answer;
    bool fault; /* the call touched what it may not */
} side;

static side ours, rules;
static fence compact_lists[2][3];
static unsigned patience;

/* What a lent list holds before a call: no number that a call would write, and not the same everywhere. */
static uint8_t pattern(int list, size_t at)
{
    return (uint8_t)(0x80 | (37 * (unsigned)list + 11 * at));
}

static void fill(fence *f, int list)
{
    for (size_t j = 0; j < f->len; j++)
        f->at[j] = pattern(list, j);
}

static void put_bytes(uint8_t *to, const uint32_t *from, size_t count)
{
    for (size_t j = 0; j < count; j++)
        kapkyrem_put32(to + 4 * j, from[j]);
}

/* Numbers for the call over lists: as the machine has them. */
static void hand_numbers(side *s, const problem *p)
{
    const uint32_t *in[INPUTS] = {p->items, p->colours, p->ends};
    size_t len[INPUTS] = {p->items_len, p->colours_len, p->ends_len};
    for (int i = 0; i < INPUTS; i++)
        if (fence_take(&s->list[i], 4 * len[i]) && len[i])
            memcpy(s->list[i].at, in[i], 4 * len[i]);
    for (int i = FIRST_ROOM; i < LISTS; i++) {
        fence_take(&s->list[i], 4 * (i < FIRST_RESULT ? room_len(p, i - FIRST_ROOM) : result_len(p, i - FIRST_RESULT)));
        fill(&s->list[i], i);
    }
}

/* Bytes for the desk's call, odd ones too; no working room. */
static void hand_bytes(side *s, const problem *p)
{
    const uint32_t *in[INPUTS] = {p->items, p->colours, p->ends};
    size_t len[INPUTS] = {p->items_len, p->colours_len, p->ends_len};
    for (int i = 0; i < LISTS; i++) {
        bool input = i < FIRST_ROOM, room = !input && i < FIRST_RESULT;
        size_t count = input ? len[i] : room ? 0 : result_len(p, i - FIRST_RESULT);
        fence_take(&s->list[i], 4 * count + (input ? p->odd[i] : room ? 0 : p->odd[i - ROOM]));
        fill(&s->list[i], i);
        if (input)
            put_bytes(s->list[i].at, in[i], count);
    }
}

static uint32_t number_at(const side *s, int list, size_t at)
{
    uint32_t x;
    memcpy(&x, s->list[list].at + 4 * at, 4);
    return x;
}

/* ---- Calls that may fault ---- */

static sigjmp_buf back;
static volatile sig_atomic_t guarded;
static const problem *in_hand;

static void on_fault(int signal_number)
{
    if (guarded)
        siglongjmp(back, 1);
    signal(signal_number, SIG_DFL);
    raise(signal_number);
}

static void on_alarm(int signal_number)
{
    (void)signal_number;
    printf("a side does not come to an end on\n  ");
    if (in_hand)
        problem_print(stdout, in_hand);
    fflush(stdout);
    _exit(1);
}

typedef uint64_t lists_call(
    uint32_t, uint32_t, uint32_t, const uint32_t *, size_t, const uint32_t *, size_t, const uint32_t *, size_t, int32_t *, size_t,
    uint32_t *, size_t, uint32_t *, size_t, uint32_t *, size_t, uint32_t *, size_t, uint32_t *, size_t, uint32_t *, size_t,
    uint32_t *, size_t, uint32_t *, size_t, uint32_t *, size_t);
typedef uint64_t bytes_call(
    uint32_t, uint32_t, uint32_t, const uint8_t *, size_t, const uint8_t *, size_t, const uint8_t *, size_t, uint8_t *, size_t,
    uint8_t *, size_t, uint8_t *, size_t, uint8_t *, size_t, uint8_t *, size_t);

/* A list's start, or NULL where it is empty and the problem says so. */
static void *start_of(const fence *f, bool nulls)
{
    return f->len == 0 && nulls ? NULL : (void *)f->at;
}

static void call_lists(lists_call *call, side *s, const problem *p)
{
    uint32_t *l[LISTS];
    size_t n[LISTS];
    for (int i = 0; i < LISTS; i++) {
        l[i] = start_of(&s->list[i], p->nulls);
        n[i] = s->list[i].len / 4;
    }
    guarded = 1;
    s->fault = sigsetjmp(back, 0) != 0;
    if (!s->fault)
        s->answer = call(p->np, p->ns, p->cap, l[0], n[0], l[1], n[1], l[2], n[2], (int32_t *)l[3], n[3], l[4], n[4], l[5], n[5], l[6], n[6],
                         l[7], n[7], l[8], n[8], l[9], n[9], l[10], n[10], l[11], n[11], l[12], n[12]);
    guarded = 0;
}

static void call_bytes(bytes_call *call, side *s, const problem *p)
{
    uint8_t *l[LISTS];
    size_t n[LISTS];
    for (int i = 0; i < LISTS; i++) {
        l[i] = start_of(&s->list[i], p->nulls);
        n[i] = s->list[i].len;
    }
    guarded = 1;
    s->fault = sigsetjmp(back, 0) != 0;
    if (!s->fault)
        s->answer = call(p->np, p->ns, p->cap, l[0], n[0], l[1], n[1], l[2], n[2], l[8], n[8], l[9], n[9], l[10], n[10], l[11], n[11],
                         l[12], n[12]);
    guarded = 0;
}

/* ---- What differs, and what each side says ---- */

/* A face is one of the two calls: how its answer is packed, in bits. */
typedef struct {
    const char *name, *rules;
    int primaries, secondaries, options, end;
} face;

static const face lists_face = {"kapkyrem_reduce_lists", "the rules", 25, 36, 47, 64};
static const face bytes_face = {"kapkyrem_reduce", "the rules, at the desk's figures", 32, 40, 48, 64};

static uint32_t field(uint64_t answer, int from, int to)
{
    return (uint32_t)(answer >> from & ((UINT64_C(1) << (to - from)) - 1));
}

static void say_list(FILE *say, const char *name, const uint32_t *list, size_t len)
{
    fprintf(say, "; %s", name);
    for (size_t j = 0; j < len && j < 64; j++)
        fprintf(say, " %u", list[j]);
    if (len > 64)
        fprintf(say, " ..");
}

static void say_side_list(FILE *say, const side *s, int list, size_t len)
{
    fprintf(say, "; %s", list_names[list]);
    for (size_t j = 0; j < len && j < 64 && 4 * j + 4 <= s->list[list].len; j++)
        fprintf(say, " %u", number_at(s, list, j));
}

static void say_stop(FILE *say, uint64_t a)
{
    if (field(a, 0, 8) == 1)
        fprintf(say, "infeasible, item %u, cause %u, round %u\n", field(a, 8, 24), field(a, 24, 32), (uint32_t)(a >> 32));
    else
        fprintf(say, "refused, %u, place %llu\n", field(a, 0, 8), (unsigned long long)(a >> 8));
}

static void say_side(FILE *say, const char *who, const side *s, const face *f)
{
    uint64_t a = s->answer;
    fprintf(say, "  %s: ", who);
    if (s->fault) {
        fprintf(say, "a fault: it touched what it may not\n");
        return;
    }
    if (field(a, 0, 8)) {
        say_stop(say, a);
        return;
    }
    uint32_t kept = field(a, f->primaries, f->secondaries) + field(a, f->secondaries, f->options), m = field(a, f->options, f->end);
    uint32_t e = m > 0 && 4 * (size_t)m <= s->list[FIRST_RESULT + 1].len ? number_at(s, FIRST_RESULT + 1, m - 1) : 0;
    fprintf(say, "reduced, %u primaries, %u rounds, %s", field(a, f->primaries, f->secondaries), field(a, 8, 24),
            field(a, 24, 25) ? "settled" : "not settled");
    size_t len[RESULT] = {kept, m, m, e, e};
    for (int i = 0; i < RESULT; i++)
        say_side_list(say, s, FIRST_RESULT + i, len[i]);
    fprintf(say, "\n");
}

/* Equal answers and equal lists, every byte, inputs and working room included. */
static bool same(const side *a, const side *b, FILE *say)
{
    bool good = !a->fault && !b->fault && a->answer == b->answer;
    if (!good && say)
        fprintf(say, "  the answers differ\n");
    for (int i = 0; i < LISTS && !a->fault; i++) {
        if (a->list[i].len && memcmp(a->list[i].at, b->list[i].at, a->list[i].len) != 0) {
            good = false;
            if (say)
                fprintf(say, "  list %s differs\n", list_names[i]);
        }
        if (!fence_whole(&a->list[i])) {
            good = false;
            if (say)
                fprintf(say, "  bytes before list %s were written\n", list_names[i]);
        }
    }
    return good;
}

/* The header's helpers must read an answer as the rules mean it. */
static bool header_reads(const model_answer *w, uint64_t a, const face *f)
{
    bool bytes = f == &bytes_face;
    if (kapkyrem_number(a) != w->number)
        return false;
    if (w->number == 1)
        return kapkyrem_is_infeasible(a) && kapkyrem_item(a) == w->item && kapkyrem_cause(a) == w->cause && kapkyrem_round(a) == w->round;
    if (w->number)
        return kapkyrem_is_refused(a) && kapkyrem_place(a) == w->place;
    return kapkyrem_is_reduced(a) && kapkyrem_rounds(a) == w->rounds && kapkyrem_settled(a) == (int)w->settled &&
           (bytes ? kapkyrem_primaries(a) : kapkyrem_lists_primaries(a)) == w->primaries &&
           (bytes ? kapkyrem_secondaries(a) : kapkyrem_lists_secondaries(a)) == w->secondaries &&
           (bytes ? kapkyrem_options(a) : kapkyrem_lists_options(a)) == w->options;
}

/* Is what the call did what the rules say? `w` is the answer that the header's helpers must read; NULL if they are not asked. */
static bool verdict(const face *f, const model_answer *w, FILE *say)
{
    bool good = same(&ours, &rules, say), read = !good || !w || header_reads(w, ours.answer, f);
    if (say && !good) {
        say_side(say, f->name, &ours, f);
        say_side(say, f->rules, &rules, f);
    }
    if (say && !read)
        fprintf(say, "  the header's helpers read the answer of %s wrongly\n", f->name);
    return good && read;
}

static bool agree_lists(const problem *p, seen *s, FILE *say)
{
    hand_numbers(&ours, p);
    call_lists(kapkyrem_reduce_lists, &ours, p);
    hand_numbers(&rules, p);
    uint32_t *l[LISTS];
    for (int i = 0; i < LISTS; i++)
        l[i] = (uint32_t *)rules.list[i].at;
    model_problem given = {p->np, p->ns, p->cap, l[0], l[1], l[2], p->items_len, p->colours_len, p->ends_len};
    model_list room[ROOM], result[RESULT];
    for (int i = 0; i < ROOM; i++)
        room[i] = (model_list){l[FIRST_ROOM + i], room_len(p, i)};
    for (int i = 0; i < RESULT; i++)
        result[i] = (model_list){l[FIRST_RESULT + i], result_len(p, i)};
    s->lists = model_outcome(&MODEL_LISTS_FIGURES, &given, false, room, result);
    s->kept = result[MODEL_KEPT].at;
    s->items = result[MODEL_ITEMS].at;
    rules.fault = false;
    rules.answer = model_pack_lists(&s->lists);
    return verdict(&lists_face, &s->lists, say);
}

/* The byte face is compared after the Rust, because it reuses the lists. */
static bool agree_bytes(const problem *p, seen *s, FILE *say)
{
    hand_bytes(&ours, p);
    call_bytes(kapkyrem_reduce, &ours, p);
    hand_bytes(&rules, p);
    call_bytes(model_reduce, &rules, p);
    s->bytes = field(rules.answer, 0, 8);
    /* Where both faces take the problem, the rules give both the same. */
    bool both = s->bytes <= 1 && s->lists.number <= 1;
    return verdict(&bytes_face, both ? &s->lists : NULL, say);
}

/* ---- The Rust ---- */

#ifdef WITH_RUST

static uint32_t rust_list[RESULT][MOST_ENTRIES], rust_crate_items[MOST_ENTRIES];

static bool same_numbers(const uint32_t *a, int list, size_t len)
{
    return len == 0 || memcmp(a, rules.list[FIRST_RESULT + list].at, 4 * len) == 0;
}

static bool same_result(const rust_dlx_result *r, const model_answer *w)
{
    return r->rounds == w->rounds && r->settled == w->settled && r->primaries == w->primaries && r->secondaries == w->secondaries &&
           r->options == w->options && r->entries == w->entries &&
           same_numbers(rust_list[MODEL_KEPT], MODEL_KEPT, w->primaries + w->secondaries) &&
           same_numbers(rust_list[MODEL_ENDS], MODEL_ENDS, w->options) && same_numbers(rust_list[MODEL_NUMBERS], MODEL_NUMBERS, w->options) &&
           same_numbers(rust_list[MODEL_ITEMS], MODEL_ITEMS, w->entries) && same_numbers(rust_list[MODEL_COLOURS], MODEL_COLOURS, w->entries);
}

/* The crate's numbers: primaries as they are; secondaries less sd. */
static bool same_crate_items(const rust_dlx_result *r, const seen *s, uint32_t np)
{
    const uint32_t *k = s->kept;
    uint32_t sd = r->secondaries ? k[r->primaries] - k[r->primaries - 1] - 1 : 0;
    for (uint32_t e = 0; e < r->entries; e++)
        if (rust_crate_items[e] != (s->items[e] < np ? s->items[e] : s->items[e] - sd))
            return false;
    return true;
}

/* Cause 3 is not in the Rust: there, and only there, it empties a primary item and goes on. */
static bool rust_as_rules(const rust_dlx_result *r, const seen *s, const problem *p)
{
    const model_answer *w = &s->lists;
    if (r->emptied != RUST_DLX_NONE || (w->number == 1 && w->cause == 3))
        return r->emptied != RUST_DLX_NONE && w->number == 1 && w->cause == 3;
    if (r->code == RUST_DLX_INFEASIBLE)
        return w->number == 1 && w->item == r->item && w->round == r->rounds && w->cause == (r->rounds ? 2u : 1u);
    return r->code == RUST_DLX_OK && w->number == 0 && same_result(r, w) && same_crate_items(r, s, p->np);
}

static void say_rust(FILE *say, int kind, const rust_dlx_result *r)
{
    fprintf(say, "  the Rust, %s: ", kind == RUST_DLX_PLAIN ? "plain" : "coloured");
    if (r->emptied != RUST_DLX_NONE)
        fprintf(say, "(a blocked deletion emptied item %u) ", r->emptied);
    if (r->code == RUST_DLX_PANIC) {
        fprintf(say, "it stopped itself\n");
    } else if (r->code == RUST_DLX_INFEASIBLE) {
        fprintf(say, "infeasible, item %u, round %u\n", r->item, r->rounds);
    } else {
        size_t len[RESULT] = {r->primaries + r->secondaries, r->options, r->options, r->entries, r->entries};
        fprintf(say, "reduced, %u primaries, %u rounds, %s", r->primaries, r->rounds, r->settled ? "settled" : "not settled");
        for (int i = 0; i < RESULT; i++)
            say_list(say, list_names[FIRST_RESULT + i], rust_list[i], len[i]);
        say_list(say, "crate's items", rust_crate_items, r->entries);
        fprintf(say, "\n");
    }
}

static bool agree_rust_kind(const problem *p, seen *s, int kind, FILE *say)
{
    rust_dlx_result r = rust_dlx_reduce(kind, p->np, p->ns, p->cap, p->items, p->colours, p->items_len, p->ends, p->ends_len, rust_list[MODEL_KEPT],
                                        rust_list[MODEL_ENDS], rust_list[MODEL_NUMBERS], rust_list[MODEL_ITEMS], rust_list[MODEL_COLOURS],
                                        rust_crate_items);
    bool good = rust_as_rules(&r, s, p);
    s->rust_emptied = r.emptied != RUST_DLX_NONE;
    if (say && !good) {
        say_rust(say, kind, &r);
        say_side(say, "the rules", &rules, &lists_face);
    }
    return good;
}

/* Refused problems are not put to the Rust: it does not check them. */
static bool agree_rust(const problem *p, seen *s, FILE *say)
{
    if (s->lists.number > 1)
        return true;
    s->rust_coloured = true;
    s->rust_plain = is_plain(p);
    return agree_rust_kind(p, s, RUST_DLX_COLOURED, say) && (!s->rust_plain || agree_rust_kind(p, s, RUST_DLX_PLAIN, say));
}

bool sides_have_rust(void)
{
    return true;
}

#else

static bool agree_rust(const problem *p, seen *s, FILE *say)
{
    (void)p, (void)s, (void)say;
    return true;
}

bool sides_have_rust(void)
{
    return false;
}

#endif

/* ---- The comparisons ---- */

static void watch_for(int signal_number, void (*handler)(int))
{
    struct sigaction action;
    memset(&action, 0, sizeof action);
    action.sa_handler = handler;
    action.sa_flags = SA_NODEFER;
    sigaction(signal_number, &action, NULL);
}

void sides_start(bool heap, unsigned seconds)
{
    fence_on_heap(heap);
    patience = seconds;
    size_t most = 4 * (size_t)(MOST_ITEMS + 2 + MOST_ENTRIES + MOST_OPTIONS + 16);
    for (int i = 0; i < LISTS; i++) {
        fence_make(&ours.list[i], most);
        fence_make(&rules.list[i], most);
    }
    for (int i = 0; i < 6; i++)
        fence_make(&compact_lists[i / 3][i % 3], most);
    watch_for(SIGALRM, on_alarm);
    if (!heap) {
        watch_for(SIGSEGV, on_fault);
        watch_for(SIGBUS, on_fault);
    }
}

bool agree(const problem *p, seen *s, FILE *say)
{
    memset(s, 0, sizeof *s);
    in_hand = p;
    alarm(patience);
    bool good = agree_lists(p, s, say) && agree_rust(p, s, say);
    if (good) {
        /* What the caller may still read of the rules' result is put by before the lists are used again. */
        static uint32_t kept[MOST_ITEMS], items[MOST_ENTRIES];
        if (s->lists.number == 0) {
            memcpy(kept, s->kept, 4 * (size_t)(s->lists.primaries + s->lists.secondaries));
            memcpy(items, s->items, 4 * (size_t)s->lists.entries);
        }
        s->kept = kept;
        s->items = items;
        good = agree_bytes(p, s, say);
    }
    alarm(0);
    in_hand = NULL;
    return good;
}

/* ---- Compact ---- */

typedef uint64_t compact_call(const uint8_t *, size_t, uint32_t, const uint8_t *, size_t, uint8_t *, size_t);

static uint64_t call_compact(compact_call *call, fence l[3], const compaction *c, bool *fault)
{
    size_t out = c->more < 0 && c->items_len < (size_t)-c->more ? 0 : c->items_len + (size_t)c->more;
    size_t len[3] = {c->kept_len, c->items_len, out};
    for (int i = 0; i < 3; i++) {
        fence_take(&l[i], 4 * len[i] + c->odd[i]);
        fill(&l[i], i);
    }
    put_bytes(l[0].at, c->kept, c->kept_len);
    put_bytes(l[1].at, c->items, c->items_len);
    uint64_t answer = 0;
    guarded = 1;
    *fault = sigsetjmp(back, 0) != 0;
    if (!*fault)
        answer = call(start_of(&l[0], c->nulls), l[0].len, c->primaries, start_of(&l[1], c->nulls), l[1].len, start_of(&l[2], c->nulls), l[2].len);
    guarded = 0;
    return answer;
}

static void say_compact(FILE *say, const compaction *c, uint64_t we, uint64_t they, bool fault)
{
    fprintf(say, "  %u primaries", c->primaries);
    say_list(say, "kept", c->kept, c->kept_len);
    say_list(say, "items", c->items, c->items_len);
    fprintf(say, "; outcome list %+d; odd bytes %u %u %u%s\n", c->more, c->odd[0], c->odd[1], c->odd[2], c->nulls ? "; empty lists as NULL" : "");
    fprintf(say, "  kapkyrem_compact: %s%u, place %llu; the rules: %u, place %llu\n", fault ? "a fault; " : "", field(we, 0, 8),
            (unsigned long long)(we >> 8), field(they, 0, 8), (unsigned long long)(they >> 8));
}

bool agree_compact(const compaction *c, uint32_t *number, FILE *say)
{
    bool fault, model_fault, good = true;
    alarm(patience);
    uint64_t we = call_compact(kapkyrem_compact, compact_lists[0], c, &fault);
    uint64_t they = call_compact(model_compact, compact_lists[1], c, &model_fault);
    alarm(0);
    *number = field(they, 0, 8);
    for (int i = 0; i < 3; i++) {
        const fence *a = &compact_lists[0][i], *b = &compact_lists[1][i];
        good = good && (a->len == 0 || memcmp(a->at, b->at, a->len) == 0) && fence_whole(a);
    }
    good = good && we == they && !fault && !model_fault;
    if (say && !good)
        say_compact(say, c, we, they, fault);
    return good;
}

/* ---- Stored answers ---- */

/* Is a call's answer the stored one, and are its result lists: the front as stored, behind it the pattern? */
static bool as_stored(const problem *p, const model_answer *want, const uint32_t *const result[RESULT], const face *f, uint64_t packed, FILE *say)
{
    size_t len[RESULT] = {0};
    if (want->number == 0) {
        len[MODEL_KEPT] = want->primaries + want->secondaries;
        len[MODEL_ENDS] = len[MODEL_NUMBERS] = want->options;
        len[MODEL_ITEMS] = len[MODEL_COLOURS] = want->entries;
    }
    for (int i = 0; i < RESULT; i++) {
        fence *l = &rules.list[FIRST_RESULT + i];
        fence_take(l, ours.list[FIRST_RESULT + i].len);
        fill(l, FIRST_RESULT + i);
        put_bytes(l->at, result[i], len[i]);
    }
    for (int i = 0; i < FIRST_RESULT; i++) {
        fence_take(&rules.list[i], ours.list[i].len);
        if (ours.list[i].len)
            memcpy(rules.list[i].at, ours.list[i].at, ours.list[i].len);
    }
    rules.answer = packed;
    rules.fault = false;
    bool good = same(&ours, &rules, say);
    if (say && !good) {
        problem_print(say, p);
        say_side(say, f->name, &ours, f);
        say_side(say, "stored", &rules, f);
    }
    return good;
}

bool agree_stored(const problem *p, const model_answer *want, const uint32_t *const result[RESULT], FILE *say)
{
    in_hand = p;
    alarm(patience);
    hand_numbers(&ours, p);
    call_lists(kapkyrem_reduce_lists, &ours, p);
    bool good = as_stored(p, want, result, &lists_face, model_pack_lists(want), say);
    hand_bytes(&ours, p);
    call_bytes(kapkyrem_reduce, &ours, p);
    good = good && as_stored(p, want, result, &bytes_face, model_pack_bytes(want), say);
    alarm(0);
    in_hand = NULL;
    return good;
}
