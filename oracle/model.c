/* See model.h. The order of this file is the paper's: the checks, the rounds, the result, the renumbering, the C calls. */
#include "model.h"

#include <stdio.h>
#include <stdlib.h>
#include <string.h>

const model_figures MODEL_LISTS_FIGURES = {1024, 4096, 16384, 255};
const model_figures MODEL_BYTES_FIGURES = {64, 256, 1024, 255};

static void *room_for(size_t count, size_t size)
{
    void *p = calloc(count + 1, size); /* never 0, so that NULL is a failure */
    if (!p) {
        fprintf(stderr, "model: no memory\n");
        exit(2);
    }
    return p;
}

/* ---- The checks ---- */

/* A refusal, or number 0 where there is none. */
typedef struct {
    uint32_t number;
    uint64_t place;
} refusal;

static refusal refuse(uint32_t number, uint64_t place)
{
    return (refusal){number, place};
}

/* 16: an end below the one before or above E; else the last end isn't E. */
static refusal check_ends(const model_problem *p)
{
    uint32_t before = 0;
    for (size_t k = 0; k < p->ends_len; k++) {
        if (p->ends[k] < before || p->ends[k] > p->items_len)
            return refuse(16, k);
        before = p->ends[k];
    }
    if (p->ends[p->ends_len - 1] != p->items_len)
        return refuse(16, p->ends_len - 1);
    return refuse(0, 0);
}

/* 17: four lists of at least n + 2 + E + M numbers and one of at least n + 1. */
static bool room_short(const model_list *room, uint64_t n, uint64_t e, uint64_t m)
{
    for (int i = 0; i < 4; i++)
        if (room[i].len < n + 2 + e + m)
            return true;
    return room[4].len < n + 1;
}

/* 18: n for kept items, M for ends, M for option numbers, E for items, E for colours. */
static bool result_short(const model_list *result, uint64_t n, uint64_t e, uint64_t m)
{
    return result[MODEL_KEPT].len < n || result[MODEL_ENDS].len < m || result[MODEL_NUMBERS].len < m ||
           result[MODEL_ITEMS].len < e || result[MODEL_COLOURS].len < e;
}

static bool item_before(const model_problem *p, size_t begin, size_t entry)
{
    for (size_t e = begin; e < entry; e++)
        if (p->items[e] == p->items[entry])
            return true;
    return false;
}

/* 19 to 22 of one entry; `begin` is the first entry of its option. */
static uint32_t check_entry(const model_figures *f, const model_problem *p, size_t begin, size_t entry)
{
    uint64_t n = (uint64_t)p->np + p->ns;
    if (p->items[entry] >= n)
        return 19;
    if (p->colours[entry] > f->colour)
        return 20;
    if (p->items[entry] < p->np && p->colours[entry] > 0)
        return 21;
    return item_before(p, begin, entry) ? 22 : 0;
}

static refusal check_entries(const model_figures *f, const model_problem *p)
{
    size_t begin = 0;
    for (size_t k = 0; k < p->ends_len; k++) {
        for (size_t e = begin; e < p->ends[k]; e++) {
            uint32_t number = check_entry(f, p, begin, e);
            if (number)
                return refuse(number, e);
        }
        begin = p->ends[k];
    }
    return refuse(0, 0);
}

/* All checks, in the table's order. */
static refusal check(const model_figures *f, const model_problem *p, bool ragged, const model_list *room, const model_list *result)
{
    uint64_t n = (uint64_t)p->np + p->ns, m = p->ends_len, e = p->items_len;
    if (p->np == 0)
        return refuse(10, 0);
    if (n > f->items)
        return refuse(11, 0);
    if (m == 0)
        return refuse(12, 0);
    if (m > f->options)
        return refuse(13, 0);
    if (ragged || p->items_len != p->colours_len)
        return refuse(14, 0);
    if (e > f->entries)
        return refuse(15, 0);
    refusal ends = check_ends(p);
    if (ends.number)
        return ends;
    if (room && room_short(room, n, e, m))
        return refuse(17, 0);
    if (result_short(result, n, e, m))
        return refuse(18, 0);
    return check_entries(f, p);
}

/* ---- The state: which options and which of their entries are live ---- */

enum { NONE = UINT32_MAX };

typedef struct {
    uint32_t np, n, m;
    const uint32_t *items, *colours;
    uint32_t *begin;    /* option k was given as the entries begin[k] .. begin[k + 1] - 1 */
    bool *option_live;  /* by option */
    bool *entry_live;   /* by entry; says nothing once its option is not live */
    uint32_t *where;    /* by option and item: the entry given, plus 1; 0 if there is none */
    uint32_t *given_to; /* the options given with item i are given_to[first[i]] .. given_to[first[i + 1] - 1], rising */
    uint32_t *first;
} state;

/* The live entry of option k that holds item i, or NONE. */
static uint32_t entry_of(const state *s, uint32_t k, uint32_t i)
{
    uint32_t e = s->where[(size_t)k * s->n + i];
    return e && s->option_live[k] && s->entry_live[e - 1] ? e - 1 : NONE;
}

static bool holds(const state *s, uint32_t k, uint32_t i)
{
    return entry_of(s, k, i) != NONE;
}

static bool holds_uncoloured(const state *s, uint32_t k, uint32_t i)
{
    uint32_t e = entry_of(s, k, i);
    return e != NONE && s->colours[e] == 0;
}

/* Is item i in a live option? */
static bool in_some(const state *s, uint32_t i)
{
    for (uint32_t h = s->first[i]; h < s->first[i + 1]; h++)
        if (holds(s, s->given_to[h], i))
            return true;
    return false;
}

static uint32_t first_entry(const state *s, uint32_t k)
{
    for (uint32_t e = s->begin[k]; e < s->begin[k + 1]; e++)
        if (s->entry_live[e])
            return e;
    return NONE;
}

/* The other live entries of option k in cyclic order from the one after entry `from`; how many there are. */
static uint32_t others(const state *s, uint32_t k, uint32_t from, uint32_t *out)
{
    uint32_t count = 0;
    for (uint32_t e = from + 1; e < s->begin[k + 1]; e++)
        if (s->entry_live[e])
            out[count++] = e;
    for (uint32_t e = s->begin[k]; e < from; e++)
        if (s->entry_live[e])
            out[count++] = e;
    return count;
}

static bool has_primary(const state *s, uint32_t k)
{
    for (uint32_t e = s->begin[k]; e < s->begin[k + 1]; e++)
        if (s->items[e] < s->np)
            return true;
    return false;
}

static void list_options_of_items(state *s, size_t entries)
{
    s->first = room_for(s->n + 1, sizeof *s->first);
    s->given_to = room_for(entries, sizeof *s->given_to);
    uint32_t count = 0;
    for (uint32_t i = 0; i < s->n; i++) {
        s->first[i] = count;
        for (uint32_t k = 0; k < s->m; k++)
            if (s->where[(size_t)k * s->n + i])
                s->given_to[count++] = k;
    }
    s->first[s->n] = count;
}

/* Options without a primary item are skipped; all others start live. */
static state start(const model_problem *p)
{
    state s = {.np = p->np, .n = p->np + p->ns, .m = (uint32_t)p->ends_len, .items = p->items, .colours = p->colours};
    s.begin = room_for(s.m + 1, sizeof *s.begin);
    s.option_live = room_for(s.m, sizeof *s.option_live);
    s.entry_live = room_for(p->items_len, sizeof *s.entry_live);
    s.where = room_for((size_t)s.m * s.n, sizeof *s.where);
    for (uint32_t k = 0; k < s.m; k++)
        s.begin[k + 1] = p->ends[k];
    for (uint32_t k = 0; k < s.m; k++) {
        s.option_live[k] = has_primary(&s, k);
        for (uint32_t e = s.begin[k]; e < s.begin[k + 1]; e++) {
            s.entry_live[e] = true;
            s.where[(size_t)k * s.n + s.items[e]] = e + 1;
        }
    }
    list_options_of_items(&s, p->items_len);
    return s;
}

static void end(state *s)
{
    free(s->begin);
    free(s->option_live);
    free(s->entry_live);
    free(s->where);
    free(s->first);
    free(s->given_to);
}

/* ---- Redundant ---- */

/* Every live option holding p, and there is one, holds c uncoloured. */
static bool redundant_for(const state *s, uint32_t c, uint32_t p)
{
    bool some = false;
    for (uint32_t h = s->first[p]; h < s->first[p + 1]; h++) {
        uint32_t k = s->given_to[h];
        if (!holds(s, k, p))
            continue;
        if (!holds_uncoloured(s, k, c))
            return false;
        some = true;
    }
    return some;
}

static uint32_t highest_option(const state *s, uint32_t p)
{
    for (uint32_t h = s->first[p + 1]; h > s->first[p]; h--)
        if (holds(s, s->given_to[h - 1], p))
            return s->given_to[h - 1];
    return NONE;
}

/* How far p's entry is from c's, going round option k as it was given: entries that are no longer live do not change who is met first. */
static uint32_t distance(const state *s, uint32_t k, uint32_t c, uint32_t p)
{
    uint32_t from = entry_of(s, k, c), to = entry_of(s, k, p);
    return to > from ? to - from : to + (s->begin[k + 1] - s->begin[k]) - from;
}

/* Of several p: the highest live option number; among equals, the last one met. */
static uint32_t chosen(const state *s, uint32_t c)
{
    uint32_t best = NONE, best_option = 0, best_distance = 0;
    for (uint32_t p = 0; p < s->np; p++) {
        if (p == c || !redundant_for(s, c, p))
            continue;
        uint32_t option = highest_option(s, p), far = distance(s, option, c, p);
        if (best == NONE || option > best_option || (option == best_option && far > best_distance)) {
            best = p;
            best_option = option;
            best_distance = far;
        }
    }
    return best;
}

/* The entries leave option k one after another. The first primary item then in no option, or NONE. */
static uint32_t leave(state *s, const uint32_t *entries, uint32_t count)
{
    for (uint32_t j = 0; j < count; j++) {
        uint32_t item = s->items[entries[j]];
        s->entry_live[entries[j]] = false;
        if (item < s->np && !in_some(s, item))
            return item;
    }
    return NONE;
}

/* Removes c for p. The primary item emptied, or NONE. */
static uint32_t remove_item(state *s, uint32_t c, uint32_t p, uint32_t *scratch, model_answer *a)
{
    for (uint32_t h = s->first[c]; h < s->first[c + 1]; h++) {
        uint32_t k = s->given_to[h], e = entry_of(s, k, c);
        if (e == NONE)
            continue;
        if (holds(s, k, p)) {
            s->entry_live[e] = false;
            a->shortened++;
            continue;
        }
        a->deleted++;
        uint32_t emptied = leave(s, scratch, others(s, k, e, scratch));
        if (emptied != NONE)
            return emptied;
        s->option_live[k] = false;
    }
    return NONE;
}

/* ---- Blocked ---- */

/* v is a rival of o if it holds c uncoloured, or some other item of o and the two colours are not one equal colour above 0. */
static void mark_rivals(const state *s, uint32_t o, uint32_t c, bool *rival)
{
    memset(rival, 0, s->m * sizeof *rival);
    for (uint32_t e = s->begin[o]; e < s->begin[o + 1]; e++) {
        if (!s->entry_live[e])
            continue;
        uint32_t item = s->items[e];
        for (uint32_t h = s->first[item]; h < s->first[item + 1]; h++) {
            uint32_t v = s->given_to[h], other = entry_of(s, v, item);
            if (other == NONE)
                continue;
            bool agree = s->colours[other] == s->colours[e] && s->colours[e] > 0;
            if (item == c ? s->colours[other] == 0 : !agree)
                rival[v] = true;
        }
    }
}

/* Item q is in a live option and has only rivals as its live options. */
static bool only_rivals(const state *s, uint32_t q, const bool *rival)
{
    bool some = false;
    for (uint32_t h = s->first[q]; h < s->first[q + 1]; h++) {
        uint32_t k = s->given_to[h];
        if (!holds(s, k, q))
            continue;
        if (!rival[k])
            return false;
        some = true;
    }
    return some;
}

static bool is_blocked(const state *s, uint32_t o, uint32_t c, bool *rival)
{
    mark_rivals(s, o, c, rival);
    for (uint32_t q = 0; q < s->np; q++)
        if (!holds(s, o, q) && only_rivals(s, q, rival))
            return true;
    return false;
}

/* Is o tested at c: is c its first live entry, uncoloured? */
static bool tested_at(const state *s, uint32_t o, uint32_t c)
{
    return holds_uncoloured(s, o, c) && entry_of(s, o, c) == first_entry(s, o);
}

/* Deletes option o, entries leaving from the second live one, the first last. The primary item emptied, or NONE. */
static uint32_t delete_option(state *s, uint32_t o, uint32_t *scratch)
{
    uint32_t first = first_entry(s, o), count = others(s, o, first, scratch);
    scratch[count++] = first;
    uint32_t emptied = leave(s, scratch, count);
    s->option_live[o] = false;
    return emptied;
}

/* All tests of c, then the deletions, highest number first. The primary item emptied, or NONE. */
static uint32_t delete_blocked(state *s, uint32_t c, uint32_t *scratch, model_answer *a, bool *changed)
{
    bool *rival = room_for(s->m, sizeof *rival), *doomed = room_for(s->m, sizeof *doomed);
    uint32_t emptied = NONE;
    for (uint32_t o = 0; o < s->m; o++) {
        if (tested_at(s, o, c)) {
            a->tested++;
            doomed[o] = is_blocked(s, o, c, rival);
        }
    }
    for (uint32_t o = s->m; o > 0 && emptied == NONE; o--) {
        if (doomed[o - 1]) {
            a->blocked++;
            *changed = true;
            emptied = delete_option(s, o - 1, scratch);
        }
    }
    free(rival);
    free(doomed);
    return emptied;
}

/* ---- The rounds ---- */

static void infeasible(model_answer *a, uint32_t item, uint32_t cause, uint32_t round)
{
    a->number = 1;
    a->item = item;
    a->cause = cause;
    a->round = round;
}

/* One item's turn. False if the problem turned out infeasible. */
static bool take(state *s, uint32_t c, uint32_t *scratch, model_answer *a, bool *changed)
{
    uint32_t p = chosen(s, c), emptied;
    if (p != NONE) {
        *changed = true;
        emptied = remove_item(s, c, p, scratch, a);
    } else {
        emptied = delete_blocked(s, c, scratch, a, changed);
    }
    if (emptied != NONE)
        infeasible(a, emptied, p != NONE ? 2 : 3, a->rounds);
    return emptied == NONE;
}

/* One round. False if the problem turned out infeasible. */
static bool run_round(state *s, uint32_t *scratch, model_answer *a, bool *changed)
{
    *changed = false;
    a->rounds++;
    for (uint32_t c = 0; c < s->n; c++)
        if (in_some(s, c) && !take(s, c, scratch, a, changed))
            return false;
    return true;
}

static void run_rounds(state *s, uint32_t cap, model_answer *a)
{
    for (uint32_t p = 0; p < s->np; p++) {
        if (!in_some(s, p)) {
            infeasible(a, p, 1, 0);
            return;
        }
    }
    uint32_t *scratch = room_for(s->n + 1, sizeof *scratch); /* an option holds each item once at most */
    while (a->rounds < cap && !a->settled) {
        bool changed;
        if (!run_round(s, scratch, a, &changed))
            break;
        a->settled = !changed;
    }
    free(scratch);
}

/* ---- The result ---- */

static void write_kept(const state *s, const model_list *result, model_answer *a)
{
    for (uint32_t i = 0; i < s->n; i++) {
        if (!in_some(s, i))
            continue;
        result[MODEL_KEPT].at[a->primaries + a->secondaries] = i;
        if (i < s->np)
            a->primaries++;
        else
            a->secondaries++;
    }
}

static void write_option(const state *s, uint32_t k, const model_list *result, model_answer *a)
{
    for (uint32_t e = s->begin[k]; e < s->begin[k + 1]; e++) {
        if (!s->entry_live[e])
            continue;
        result[MODEL_ITEMS].at[a->entries] = s->items[e];
        result[MODEL_COLOURS].at[a->entries] = s->colours[e];
        a->entries++;
    }
    result[MODEL_NUMBERS].at[a->options] = k;
    result[MODEL_ENDS].at[a->options] = a->entries;
    a->options++;
}

/* Options by first live item upward, then by option number. */
static void write_options(const state *s, const model_list *result, model_answer *a)
{
    for (uint32_t i = 0; i < s->n; i++) {
        for (uint32_t h = s->first[i]; h < s->first[i + 1]; h++) {
            uint32_t k = s->given_to[h];
            if (holds(s, k, i) && s->items[first_entry(s, k)] == i)
                write_option(s, k, result, a);
        }
    }
}

static void clear(const model_list *room)
{
    for (int i = 0; i < MODEL_ROOM; i++)
        for (size_t j = 0; j < room[i].len; j++)
            room[i].at[j] = 0;
}

model_answer model_outcome(const model_figures *figures, const model_problem *problem, bool ragged, const model_list *room, const model_list *result)
{
    model_answer a = {0};
    refusal no = check(figures, problem, ragged, room, result);
    if (no.number) {
        a.number = no.number;
        a.place = no.place;
        return a;
    }
    state s = start(problem);
    for (uint32_t k = 0; k < s.m; k++)
        a.skipped += !s.option_live[k];
    run_rounds(&s, problem->cap, &a);
    if (a.number == 0) {
        write_kept(&s, result, &a);
        write_options(&s, result, &a);
    }
    if (room)
        clear(room);
    end(&s);
    return a;
}

/* ---- Packed answers ---- */

static uint64_t pack_stop(const model_answer *a)
{
    if (a->number == 1)
        return 1 + ((uint64_t)a->item << 8) + ((uint64_t)a->cause << 24) + ((uint64_t)a->round << 32);
    return a->number + (a->place << 8);
}

uint64_t model_pack_lists(const model_answer *a)
{
    if (a->number)
        return pack_stop(a);
    return ((uint64_t)a->rounds << 8) + ((uint64_t)a->settled << 24) + ((uint64_t)a->primaries << 25) +
           ((uint64_t)a->secondaries << 36) + ((uint64_t)a->options << 47);
}

uint64_t model_pack_bytes(const model_answer *a)
{
    if (a->number)
        return pack_stop(a);
    return ((uint64_t)a->rounds << 8) + ((uint64_t)a->settled << 24) + ((uint64_t)a->primaries << 32) +
           ((uint64_t)a->secondaries << 40) + ((uint64_t)a->options << 48);
}

/* ---- Byte lists: four bytes to a number, lowest first ---- */

static model_list read_bytes(const uint8_t *bytes, size_t len)
{
    model_list l = {room_for(len / 4, sizeof *l.at), len / 4};
    for (size_t j = 0; j < l.len; j++)
        for (int b = 3; b >= 0; b--)
            l.at[j] = l.at[j] << 8 | bytes[4 * j + b];
    return l;
}

/* Numbers that were not changed come out as they went in, so writing them all changes no others. */
static void write_bytes(const model_list *l, uint8_t *bytes)
{
    for (size_t j = 0; j < l->len; j++)
        for (int b = 0; b < 4; b++)
            bytes[4 * j + b] = (uint8_t)(l->at[j] >> 8 * b);
}

/* ---- The calls ---- */

uint64_t model_reduce(
    uint32_t np, uint32_t ns, uint32_t cap,
    const uint8_t *items, size_t items_len, const uint8_t *colours, size_t colours_len, const uint8_t *ends, size_t ends_len,
    uint8_t *kept, size_t kept_len, uint8_t *out_ends, size_t out_ends_len, uint8_t *numbers, size_t numbers_len,
    uint8_t *out_items, size_t out_items_len, uint8_t *out_colours, size_t out_colours_len)
{
    bool ragged = (items_len | colours_len | ends_len | kept_len | out_ends_len | numbers_len | out_items_len | out_colours_len) & 3;
    uint8_t *out[MODEL_RESULT] = {kept, out_ends, numbers, out_items, out_colours};
    model_list in[3] = {read_bytes(items, items_len), read_bytes(colours, colours_len), read_bytes(ends, ends_len)};
    model_list result[MODEL_RESULT] = {read_bytes(kept, kept_len), read_bytes(out_ends, out_ends_len), read_bytes(numbers, numbers_len),
                                       read_bytes(out_items, out_items_len), read_bytes(out_colours, out_colours_len)};
    model_problem p = {np, ns, cap, in[0].at, in[1].at, in[2].at, in[0].len, in[1].len, in[2].len};
    model_answer a = model_outcome(&MODEL_BYTES_FIGURES, &p, ragged, NULL, result);
    for (int i = 0; i < MODEL_RESULT; i++) {
        write_bytes(&result[i], out[i]);
        free(result[i].at);
    }
    for (int i = 0; i < 3; i++)
        free(in[i].at);
    return model_pack_bytes(&a);
}

uint64_t model_reduce_lists(
    uint32_t np, uint32_t ns, uint32_t cap,
    const uint32_t *items, size_t items_len, const uint32_t *colours, size_t colours_len, const uint32_t *ends, size_t ends_len,
    int32_t *heads, size_t heads_len, uint32_t *up, size_t up_len, uint32_t *down, size_t down_len,
    uint32_t *tints, size_t tints_len, uint32_t *marks, size_t marks_len,
    uint32_t *kept, size_t kept_len, uint32_t *out_ends, size_t out_ends_len, uint32_t *numbers, size_t numbers_len,
    uint32_t *out_items, size_t out_items_len, uint32_t *out_colours, size_t out_colours_len)
{
    model_problem p = {np, ns, cap, items, colours, ends, items_len, colours_len, ends_len};
    model_list room[MODEL_ROOM] = {{(uint32_t *)heads, heads_len}, {up, up_len}, {down, down_len}, {tints, tints_len}, {marks, marks_len}};
    model_list result[MODEL_RESULT] = {{kept, kept_len}, {out_ends, out_ends_len}, {numbers, numbers_len},
                                       {out_items, out_items_len}, {out_colours, out_colours_len}};
    model_answer a = model_outcome(&MODEL_LISTS_FIGURES, &p, false, room, result);
    return model_pack_lists(&a);
}

/* ---- Compact: an item becomes its place in the kept list ---- */

static bool strictly_rising(const model_list *l)
{
    for (size_t j = 1; j < l->len; j++)
        if (l->at[j - 1] >= l->at[j])
            return false;
    return true;
}

static size_t place_in(const model_list *l, uint32_t item)
{
    size_t j = 0;
    while (j < l->len && l->at[j] != item)
        j++;
    return j;
}

static refusal compact(const model_list *kept, uint32_t primaries, const model_list *items, const model_list *out)
{
    if (!strictly_rising(kept) || primaries == 0 || primaries > kept->len)
        return refuse(24, 0);
    if (out->len < items->len)
        return refuse(18, 0);
    for (size_t j = 0; j < items->len; j++)
        if (place_in(kept, items->at[j]) == kept->len)
            return refuse(25, j);
    for (size_t j = 0; j < items->len; j++)
        out->at[j] = (uint32_t)place_in(kept, items->at[j]);
    return refuse(0, 0);
}

uint64_t model_compact(
    const uint8_t *kept, size_t kept_len, uint32_t primaries, const uint8_t *items, size_t items_len, uint8_t *out, size_t out_len)
{
    if ((kept_len | items_len | out_len) & 3)
        return 14;
    model_list k = read_bytes(kept, kept_len), i = read_bytes(items, items_len), o = read_bytes(out, out_len);
    refusal no = compact(&k, primaries, &i, &o);
    write_bytes(&o, out);
    free(k.at);
    free(i.at);
    free(o.at);
    return no.number + (no.place << 8);
}
