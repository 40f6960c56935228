/* See cases.h. */
#include "cases.h"

#include <stdlib.h>
#include <string.h>

/* ---- The container ---- */

static void *room_for(size_t count, size_t size)
{
    void *p = calloc(count, size);
    if (!p) {
        fprintf(stderr, "compare: no memory\n");
        exit(2);
    }
    return p;
}

problem *problem_new(void)
{
    problem *p = room_for(1, sizeof *p);
    p->items = room_for(MOST_ENTRIES, sizeof *p->items);
    p->colours = room_for(MOST_ENTRIES, sizeof *p->colours);
    p->ends = room_for(MOST_OPTIONS, sizeof *p->ends);
    return p;
}

void problem_free(problem *p)
{
    free(p->items);
    free(p->colours);
    free(p->ends);
    free(p);
}

void problem_copy(problem *to, const problem *from)
{
    problem own = *to;
    *to = *from;
    to->items = memcpy(own.items, from->items, from->items_len * sizeof *to->items);
    to->colours = memcpy(own.colours, from->colours, from->colours_len * sizeof *to->colours);
    to->ends = memcpy(own.ends, from->ends, from->ends_len * sizeof *to->ends);
}

void problem_clear(problem *p)
{
    p->np = p->ns = p->cap = 0;
    p->items_len = p->colours_len = p->ends_len = 0;
    memset(p->room, 0, sizeof p->room);
    memset(p->result, 0, sizeof p->result);
    memset(p->odd, 0, sizeof p->odd);
    p->nulls = false;
}

void put_entry(problem *p, uint32_t item, uint32_t colour)
{
    p->items[p->items_len++] = item;
    p->colours[p->colours_len++] = colour;
}

void end_option(problem *p)
{
    p->ends[p->ends_len++] = (uint32_t)p->items_len;
}

/* A length beyond the need. Item counts far above the figures are refused before any room is looked at, so they need none. */
static size_t beyond(uint64_t need, int more)
{
    return more < 0 && need < (uint64_t)-more ? 0 : (size_t)need + (size_t)more;
}

static uint64_t item_count(const problem *p)
{
    uint64_t n = (uint64_t)p->np + p->ns;
    return n > MOST_ITEMS ? MOST_ITEMS : n;
}

size_t room_len(const problem *p, int list)
{
    uint64_t n = item_count(p);
    return beyond(list < 4 ? n + 2 + p->items_len + p->ends_len : n + 1, p->room[list]);
}

size_t result_len(const problem *p, int list)
{
    uint64_t need[RESULT] = {item_count(p), p->ends_len, p->ends_len, p->items_len, p->items_len};
    return beyond(need[list], p->result[list]);
}

bool is_plain(const problem *p)
{
    for (size_t e = 0; e < p->colours_len; e++)
        if (p->colours[e])
            return false;
    return true;
}

/* ---- Printing ---- */

static bool well_formed(const problem *p)
{
    uint32_t before = 0;
    for (size_t k = 0; k < p->ends_len; k++) {
        if (p->ends[k] < before || p->ends[k] > p->items_len)
            return false;
        before = p->ends[k];
    }
    return before == p->items_len && p->items_len == p->colours_len;
}

static void print_list(FILE *to, const char *name, const uint32_t *list, size_t len)
{
    fprintf(to, "; %s", name);
    for (size_t j = 0; j < len; j++)
        fprintf(to, " %u", list[j]);
}

static void print_options(FILE *to, const problem *p)
{
    size_t e = 0;
    for (size_t k = 0; k < p->ends_len; k++) {
        fprintf(to, "|");
        for (; e < p->ends[k]; e++) {
            fprintf(to, " %u", p->items[e]);
            if (p->colours[e])
                fprintf(to, ":%u", p->colours[e]);
        }
    }
}

static void print_more(FILE *to, const char *name, int list, int more)
{
    if (more)
        fprintf(to, "; %s list %d %+d", name, list, more);
}

void problem_print(FILE *to, const problem *p)
{
    fprintf(to, "%u %u %u", p->np, p->ns, p->cap);
    if (well_formed(p)) {
        print_options(to, p);
    } else {
        print_list(to, "items", p->items, p->items_len);
        print_list(to, "colours", p->colours, p->colours_len);
        print_list(to, "ends", p->ends, p->ends_len);
    }
    for (int i = 0; i < ROOM; i++)
        print_more(to, "working", i, p->room[i]);
    for (int i = 0; i < RESULT; i++)
        print_more(to, "result", i, p->result[i]);
    for (int i = 0; i < INPUTS + RESULT; i++)
        if (p->odd[i])
            fprintf(to, "; %u bytes more in byte list %d", p->odd[i], i);
    fprintf(to, "%s\n", p->nulls ? "; empty lists as NULL" : "");
}

/* ---- Random numbers (splitmix64) ---- */

uint64_t rng_next(rng *r)
{
    uint64_t z = r->state += 0x9E3779B97F4A7C15u;
    z = (z ^ z >> 30) * 0xBF58476D1CE4E5B9u;
    z = (z ^ z >> 27) * 0x94D049BB133111EBu;
    return z ^ z >> 31;
}

uint32_t below(rng *r, uint32_t limit)
{
    return (uint32_t)((rng_next(r) >> 32) * limit >> 32);
}

bool one_in(rng *r, uint32_t n)
{
    return below(r, n) == 0;
}

static uint32_t between(rng *r, uint32_t low, uint32_t high)
{
    return low + below(r, high - low + 1);
}

/* ---- Random kinds ---- */

typedef struct {
    uint32_t items, options, entries;
} figures;

static const figures desk = {DESK_ITEMS, DESK_OPTIONS, DESK_ENTRIES}, full = {FULL_ITEMS, FULL_OPTIONS, FULL_ENTRIES};

const char *const kind_names[KINDS] = {"sparse", "dense", "coloured", "plain", "skipped", "planted", "chain", "desk figures", "full figures"};

/* How entries of a random option are coloured: one in `rate` secondaries stays uncoloured, the others have 1 .. top. */
typedef struct {
    uint32_t top, rate;
} tint;

static uint32_t colour_for(const problem *p, rng *r, tint t, uint32_t item)
{
    return item < p->np || t.top == 0 || one_in(r, t.rate) ? 0 : between(r, 1, t.top);
}

static void shuffle(rng *r, uint32_t *list, uint32_t count)
{
    for (uint32_t j = count; j > 1; j--) {
        uint32_t other = below(r, j), kept = list[j - 1];
        list[j - 1] = list[other];
        list[other] = kept;
    }
}

/* An option of `size` distinct items from `first` upward, in random order. Few of many are drawn one by one, many of few by shuffling. */
static void put_option(problem *p, rng *r, uint32_t first, uint32_t size, tint t)
{
    uint32_t pool[MOST_ITEMS], n = p->np + p->ns - first;
    for (uint32_t j = 0; j < n; j++)
        pool[j] = first + j;
    if (size > n)
        size = n;
    for (uint32_t j = 0; j < size; j++) {
        uint32_t at = between(r, j, n - 1), item = pool[at];
        pool[at] = pool[j];
        pool[j] = item;
        put_entry(p, item, colour_for(p, r, t, item));
    }
    end_option(p);
}

/* One to `most` options of `low` to `high` items. */
static void put_options(problem *p, rng *r, uint32_t most, uint32_t low, uint32_t high, tint t)
{
    for (uint32_t m = between(r, 1, most); m > 0; m--)
        put_option(p, r, 0, between(r, low, high), t);
}

static void make_sparse(problem *p, rng *r)
{
    p->np = between(r, 1, 8);
    p->ns = below(r, 6);
    put_options(p, r, 14, 1, 3, (tint){2, 3});
}

static void make_dense(problem *p, rng *r)
{
    p->np = between(r, 1, 6);
    p->ns = below(r, 4);
    uint32_t n = p->np + p->ns;
    put_options(p, r, 10, n / 2, n, (tint){3, 3});
}

static void make_coloured(problem *p, rng *r)
{
    p->np = between(r, 1, 5);
    p->ns = between(r, 1, 8);
    tint t = {one_in(r, 4) ? 255 : between(r, 1, 4), between(r, 2, 6)};
    put_options(p, r, 16, 1, 6, t);
}

static void make_plain(problem *p, rng *r)
{
    p->np = between(r, 1, 10);
    p->ns = below(r, 4);
    put_options(p, r, 16, 1, 4, (tint){0, 1});
}

static void make_skipped(problem *p, rng *r)
{
    p->np = between(r, 1, 4);
    p->ns = between(r, 1, 6);
    for (uint32_t m = between(r, 1, 14); m > 0; m--) {
        bool skip = one_in(r, 2);
        put_option(p, r, skip ? p->np : 0, skip ? below(r, 4) : between(r, 1, 4), (tint){2, 3});
    }
}

enum { MOST_SHADED = 4 };

/* An option with the primaries list[0 .. size - 1] and some secondaries, each coloured as `shade` says. */
static void put_planted(problem *p, rng *r, const uint32_t *list, uint32_t size, const uint32_t *shade)
{
    for (uint32_t j = 0; j < size; j++)
        put_entry(p, list[j], 0);
    for (uint32_t i = p->np, some = 0; i < p->np + p->ns && some < MOST_SHADED; i++) {
        if (one_in(r, 1 + p->ns / 2)) {
            put_entry(p, i, shade[i]);
            some++;
        }
    }
    end_option(p);
}

/* Does a noise option still fit, if every primary item yet to be covered gets an option of its own? */
static bool noise_fits(const problem *p, figures f, uint32_t size)
{
    return p->ends_len + 1 + p->np <= f.options && p->items_len + size + p->np * (1 + MOST_SHADED) <= f.entries;
}

/* A cover, with noise before, between and after its options: such problems lose much and are seldom infeasible. */
static void plant(problem *p, rng *r, figures f, uint32_t size, uint32_t noise)
{
    uint32_t list[MOST_ITEMS], shade[MOST_ITEMS];
    for (uint32_t i = 0; i < p->np; i++)
        list[i] = i;
    for (uint32_t i = 0; i < p->np + p->ns; i++)
        shade[i] = between(r, 1, 3);
    shuffle(r, list, p->np);
    for (uint32_t at = 0; at < p->np;) {
        uint32_t take = between(r, 1, size);
        take = take > p->np - at ? p->np - at : take;
        for (uint32_t j = below(r, noise + 1); j > 0 && noise_fits(p, f, size + 1); j--)
            put_option(p, r, 0, between(r, 1, size + 1), (tint){3, 3});
        put_planted(p, r, list + at, take, shade);
        at += take;
    }
}

static void make_planted(problem *p, rng *r)
{
    p->np = between(r, 2, 16);
    p->ns = below(r, 5);
    plant(p, r, (figures){20, 64, 400}, between(r, 1, 4), between(r, 1, 3));
}

/* Some options over the first few items. */
static void put_tangle(problem *p, rng *r, uint32_t items)
{
    uint32_t list[8];
    for (uint32_t options = between(r, 2, 4); options > 0; options--) {
        for (uint32_t i = 0; i < items; i++)
            list[i] = i;
        shuffle(r, list, items);
        for (uint32_t j = between(r, 1, 3); j > 0; j--)
            put_entry(p, list[j - 1], 0);
        end_option(p);
    }
}

static void put_pair(problem *p, rng *r, uint32_t i)
{
    bool turned = one_in(r, 3);
    put_entry(p, turned ? i + 1 : i, 0);
    put_entry(p, turned ? i : i + 1, 0);
    end_option(p);
}

/* A path: options that hold items i and i + 1, and one for item 0 alone. The last item has one option, which takes the last but one; that deletes the
 * option before, and so on downward, against the order in which a round takes items: about np / 2 rounds. Some begin with a tangle
 * instead, which may turn out infeasible when the rounds reach it; some have further options of one item, which break the path. */
static void make_chain_of(problem *p, rng *r, uint32_t np)
{
    p->np = np;
    p->ns = below(r, 2);
    uint32_t flavour = below(r, 3), first = 0;
    if (flavour == 0 && np > 4) {
        put_tangle(p, r, 4);
        first = between(r, 1, 3);
    } else {
        put_entry(p, 0, 0);
        end_option(p);
    }
    for (uint32_t i = first; i + 1 < np; i++) {
        if (flavour == 1 && one_in(r, 4)) {
            put_entry(p, i, 0);
            end_option(p);
        }
        put_pair(p, r, i);
    }
    if (one_in(r, 4))
        put_option(p, r, 0, between(r, 1, 3), (tint){2, 2});
}

static void make_chain(problem *p, rng *r)
{
    make_chain_of(p, r, between(r, 1, 14));
}

/* Up to figures given: one of few long options, many short ones, a planted cover, a chain. */
static void make_large(problem *p, rng *r, figures f)
{
    uint32_t flavour = below(r, 4);
    p->np = between(r, 1, flavour == 2 ? f.items / 2 : f.items);
    p->ns = one_in(r, 2) ? f.items - p->np : below(r, f.items - p->np + 1);
    if (flavour == 2)
        plant(p, r, f, between(r, 1, 5), between(r, 2, 12));
    if (flavour == 3)
        make_chain_of(p, r, between(r, f.items / 2, f.items - 1));
    uint32_t least = flavour == 0 ? (p->np + p->ns + 1) / 2 : 1, top = one_in(r, 3) ? 0 : between(r, 1, 4);
    uint32_t options = one_in(r, 2) ? f.options : between(r, f.options / 8, f.options);
    while (flavour < 2 && p->ends_len < options) {
        uint32_t size = between(r, least, flavour == 0 ? p->np + p->ns : 7);
        if (p->items_len + size > f.entries)
            break;
        put_option(p, r, 0, size, (tint){top, 3});
    }
}

/* No round, one, a few, enough (items + options - 1), or the highest number there is. */
static uint32_t random_cap(const problem *p, rng *r)
{
    uint32_t enough = p->np + p->ns + (uint32_t)p->ends_len - 1;
    uint32_t caps[] = {0, 1, 2, 3, enough, enough, enough, UINT32_MAX, below(r, enough + 2), (uint32_t)rng_next(r)};
    return caps[below(r, sizeof caps / sizeof *caps)];
}

static void random_lengths(problem *p, rng *r)
{
    for (int i = 0; i < ROOM; i++)
        p->room[i] = one_in(r, 2) ? 0 : (int)below(r, 4);
    for (int i = 0; i < RESULT; i++)
        p->result[i] = one_in(r, 2) ? 0 : (int)below(r, 4);
    p->nulls = one_in(r, 2);
}

void make_random(problem *p, rng *r, int kind)
{
    problem_clear(p);
    switch (kind) {
    case SPARSE: make_sparse(p, r); break;
    case DENSE: make_dense(p, r); break;
    case COLOURED: make_coloured(p, r); break;
    case PLAIN: make_plain(p, r); break;
    case SKIPPED: make_skipped(p, r); break;
    case PLANTED: make_planted(p, r); break;
    case CHAIN: make_chain(p, r); break;
    case DESK: make_large(p, r, desk); break;
    default: make_large(p, r, full); break;
    }
    p->cap = random_cap(p, r);
    random_lengths(p, r);
}

/* ---- Damage ---- */

static uint32_t any_of(rng *r, const uint32_t *list, uint32_t count)
{
    return list[below(r, count)];
}

/* Sums just past a figure, and sums that would wrap. */
static void too_many_items(problem *p, rng *r)
{
    uint32_t figure = one_in(r, 2) ? DESK_ITEMS : FULL_ITEMS;
    uint32_t wrapping[] = {figure + 1 - p->np, -p->np, UINT32_MAX, 1 - p->np, UINT32_MAX - p->np};
    p->ns = any_of(r, wrapping, 5);
    if (one_in(r, 4))
        p->np = UINT32_MAX;
}

static void too_many_options(problem *p, rng *r)
{
    size_t figure = one_in(r, 8) ? FULL_OPTIONS : DESK_OPTIONS;
    while (p->ends_len <= figure)
        end_option(p);
}

static void too_many_entries(problem *p, rng *r)
{
    size_t figure = one_in(r, 8) ? FULL_ENTRIES : DESK_ENTRIES;
    while (p->items_len <= figure && p->colours_len < MOST_ENTRIES)
        put_entry(p, 0, 0);
}

static void lengths_differ(problem *p, rng *r)
{
    if (one_in(r, 2) && p->colours_len > 0)
        p->colours_len--;
    else if (p->colours_len < MOST_ENTRIES)
        p->colours[p->colours_len++] = 0;
}

static void wrong_end(problem *p, rng *r)
{
    uint32_t e = (uint32_t)p->items_len, values[] = {0, e + 1, UINT32_MAX, e, below(r, e + 1), e - 1};
    if (p->ends_len > 0)
        p->ends[below(r, (uint32_t)p->ends_len)] = any_of(r, values, 6);
}

static void wrong_last_end(problem *p, rng *r)
{
    if (one_in(r, 2) && p->items_len < MOST_ENTRIES)
        put_entry(p, 0, 0);
    else if (p->ends_len > 1)
        p->ends_len--;
}

static void wrong_item(problem *p, rng *r)
{
    uint32_t n = p->np + p->ns, values[] = {n, n + 1, n + 2, UINT32_MAX, UINT32_MAX - 1, 1u << 31};
    if (p->items_len > 0)
        p->items[below(r, (uint32_t)p->items_len)] = any_of(r, values, 6);
}

static void wrong_colour(problem *p, rng *r)
{
    uint32_t values[] = {256, 257, UINT32_MAX, 1u << 31, 512, 65536};
    if (p->colours_len > 0)
        p->colours[below(r, (uint32_t)p->colours_len)] = any_of(r, values, 6);
}

static void coloured_primary(problem *p, rng *r)
{
    for (uint32_t tries = 0; tries < 20 && p->colours_len > 0; tries++) {
        uint32_t e = below(r, (uint32_t)p->colours_len);
        if (e < p->items_len && p->items[e] < p->np) {
            p->colours[e] = between(r, 1, 255);
            return;
        }
    }
}

/* An entry takes the item of the one before it or before that one: mostly in the same option, so that the item is there twice. */
static void repeated_item(problem *p, rng *r)
{
    if (p->items_len < 2)
        return;
    uint32_t e = between(r, 1, (uint32_t)p->items_len - 1), back = e > 1 && one_in(r, 2) ? 2 : 1;
    p->items[e] = p->items[e - back];
    if (e < p->colours_len && p->items[e] < p->np && !one_in(r, 4))
        p->colours[e] = 0;
}

static void one_fault(problem *p, rng *r)
{
    switch (below(r, 15)) {
    case 0: p->np = 0; break;
    case 1: too_many_items(p, r); break;
    case 2: p->ends_len = 0; break;
    case 3: too_many_options(p, r); break;
    case 4: lengths_differ(p, r); break;
    case 5: too_many_entries(p, r); break;
    case 6: wrong_end(p, r); break;
    case 7: wrong_last_end(p, r); break;
    case 8: p->room[below(r, ROOM)] = one_in(r, 4) ? -(int)below(r, 9) : -1; break;
    case 9: p->result[below(r, RESULT)] = one_in(r, 4) ? -(int)below(r, 9) : -1; break;
    case 10: wrong_item(p, r); break;
    case 11: wrong_colour(p, r); break;
    case 12: coloured_primary(p, r); break;
    case 13: repeated_item(p, r); break;
    default: p->odd[below(r, INPUTS + RESULT)] = (uint8_t)between(r, 1, 3); break;
    }
}

void damage(problem *p, rng *r)
{
    for (uint32_t faults = between(r, 1, 3); faults > 0; faults--)
        one_fault(p, r);
}

/* ---- Limits ---- */

static void only_option(problem *p)
{
    p->np = 1;
    p->cap = 1;
    put_entry(p, 0, 0);
    end_option(p);
}

static void limit_items(problem *p, uint32_t items, bool primary)
{
    p->np = primary ? items : 1;
    p->ns = items - p->np;
    p->cap = 2;
    for (uint32_t i = 0; i < items && i < MOST_ITEMS; i++)
        put_entry(p, i, 0);
    end_option(p);
}

static void limit_options(problem *p, uint32_t options)
{
    p->np = 1;
    p->cap = 1;
    for (uint32_t k = 0; k < options; k++) {
        put_entry(p, 0, 0);
        end_option(p);
    }
}

/* Long options that hold every item, then short ones up to the entry count. */
static void limit_entries(problem *p, uint32_t items, uint32_t entries)
{
    p->np = 1;
    p->ns = items - 1;
    while (p->items_len + items <= entries) {
        for (uint32_t i = 0; i < items; i++)
            put_entry(p, (i + (uint32_t)p->ends_len) % items, 0);
        end_option(p);
    }
    while (p->items_len < entries) {
        put_entry(p, 0, 0);
        end_option(p);
    }
}

/* Limits 0 to 7 of one set of figures. */
static void limit_figure(problem *p, unsigned which, figures f)
{
    uint32_t more = which & 1;
    switch (which / 2) {
    case 0: limit_items(p, f.items + more, true); break;
    case 1: limit_items(p, f.items + more, false); break;
    case 2: limit_options(p, f.options + more); break;
    default: limit_entries(p, f.items, f.entries + more); break;
    }
}

/* Sums of item counts that do not fit 32 bits, and the highest that do. */
static void limit_sum(problem *p, unsigned which)
{
    const uint32_t sums[][2] = {{1, UINT32_MAX}, {UINT32_MAX, 1}, {UINT32_MAX, UINT32_MAX}, {1, UINT32_MAX - 1}, {2, UINT32_MAX}, {0, UINT32_MAX}, {0, 0}};
    only_option(p);
    p->np = sums[which][0];
    p->ns = sums[which][1];
}

static void limit_colour(problem *p, unsigned which)
{
    const uint32_t colours[] = {1, 254, 255, 256, UINT32_MAX};
    p->np = p->ns = p->cap = 1;
    put_entry(p, 0, 0);
    put_entry(p, 1, colours[which]);
    end_option(p);
}

/* Each list one short, exact and one longer, over two options of which one is skipped. */
static void limit_length(problem *p, unsigned which)
{
    only_option(p);
    p->ns = 2;
    put_entry(p, 1, 3);
    put_entry(p, 2, 0);
    end_option(p);
    int more = (int)(which % 3) - 1, list = (int)(which / 3);
    if (list < ROOM)
        p->room[list] = more;
    else
        p->result[list - ROOM] = more;
}

/* Each byte list with 1 to 3 odd bytes, on the problem of limit_length; then ends lists of odd length about the desk's figure and about nothing. */
static void limit_odd(problem *p, unsigned which)
{
    limit_length(p, 1);
    if (which < 24) {
        p->odd[which / 3] = (uint8_t)(which % 3 + 1);
        return;
    }
    const uint32_t counts[] = {0, DESK_OPTIONS, DESK_OPTIONS + 1};
    uint32_t options = counts[(which - 24) / 3];
    if (options == 0)
        p->ends_len = 0;
    while (p->ends_len < options)
        end_option(p);
    p->odd[2] = (uint8_t)((which - 24) % 3 + 1);
}

bool make_limit(problem *p, unsigned which)
{
    const struct {
        unsigned count;
        void (*make)(problem *, unsigned);
    } rest[] = {{7, limit_sum}, {5, limit_colour}, {3 * (ROOM + RESULT), limit_length}, {33, limit_odd}};
    problem_clear(p);
    if (which < 16) {
        limit_figure(p, which % 8, which < 8 ? desk : full);
        return true;
    }
    which -= 16;
    for (unsigned j = 0; j < sizeof rest / sizeof *rest; j++) {
        if (which < rest[j].count) {
            rest[j].make(p, which);
            return true;
        }
        which -= rest[j].count;
    }
    return false;
}

/* ---- Every problem of a shape ---- */

const shape shapes[] = {
    {1, 0, 0, 1, true}, {1, 0, 0, 4, true}, {2, 0, 0, 1, true}, {2, 0, 0, 2, true}, {2, 0, 0, 3, true}, {2, 0, 0, 4, true},
    {3, 0, 0, 2, true}, {3, 0, 0, 3, true}, {1, 1, 2, 1, true}, {1, 1, 2, 2, true}, {1, 1, 2, 3, true}, {2, 1, 1, 2, true},
    {2, 1, 1, 3, true}, {1, 2, 1, 2, true}, {2, 1, 2, 2, true}, {3, 0, 0, 4, false}, {1, 1, 2, 4, false}, {2, 1, 2, 3, false},
    {1, 2, 1, 3, false}, {4, 0, 0, 3, false}, {3, 1, 1, 2, false}, {2, 1, 1, 4, false},
};
const size_t shape_count = sizeof shapes / sizeof *shapes;

enum { MOST_WALKED = 8 };

struct walk {
    shape s;
    uint32_t (*options)[MOST_WALKED]; /* each option: its length, then item + 16 x colour of each entry */
    uint32_t count, at[MOST_WALKED];
    bool done;
};

/* Appends every option that begins with the entries chosen so far. */
static void list_options(walk *w, uint32_t *chosen, uint32_t *room)
{
    if (w->count == *room) {
        *room = *room ? 2 * *room : 64;
        w->options = realloc(w->options, *room * sizeof *w->options);
        if (!w->options)
            exit(2);
    }
    memcpy(w->options[w->count++], chosen, MOST_WALKED * sizeof *chosen);
    uint32_t n = w->s.np + w->s.ns, len = chosen[0];
    for (uint32_t i = 0; i < n; i++) {
        bool there = false;
        for (uint32_t j = 1; j <= len; j++)
            there |= (chosen[j] & 15) == i;
        for (uint32_t x = 0; !there && x <= (i < w->s.np ? 0 : w->s.colours); x++) {
            chosen[0] = len + 1;
            chosen[len + 1] = i + 16 * x;
            list_options(w, chosen, room);
            chosen[0] = len;
        }
    }
}

walk *walk_new(const shape *s)
{
    walk *w = room_for(1, sizeof *w);
    uint32_t chosen[MOST_WALKED] = {0}, room = 0;
    w->s = *s;
    list_options(w, chosen, &room);
    return w;
}

static void walk_step(walk *w)
{
    for (uint32_t k = 0; k < w->s.m; k++) {
        if (++w->at[k] < w->count)
            return;
        w->at[k] = 0;
    }
    w->done = true;
}

bool walk_next(walk *w, problem *p)
{
    if (w->done)
        return false;
    problem_clear(p);
    p->np = w->s.np;
    p->ns = w->s.ns;
    for (uint32_t k = 0; k < w->s.m; k++) {
        const uint32_t *option = w->options[w->at[k]];
        for (uint32_t j = 1; j <= option[0]; j++)
            put_entry(p, option[j] & 15, option[j] >> 4);
        end_option(p);
    }
    walk_step(w);
    return true;
}

void walk_free(walk *w)
{
    free(w->options);
    free(w);
}
