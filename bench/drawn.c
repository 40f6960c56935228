/* Problems drawn at random, around a cover that is laid out first, so that none is infeasible but those that are meant to be. */
#include "families.h"

typedef struct {
    uint32_t first;          /* item numbers are drawn from here on */
    uint32_t np, ns, m;
    uint32_t each_np, each_ns; /* primary and secondary items of an option */
    uint32_t colours;        /* secondary items have a colour 1 to this, one in eight none; 0: all have none */
    uint32_t rare;           /* so many of the primary items, the last ones, are drawn in one case of sixteen */
    rng seed;
} recipe;

/* The colour of a secondary item in the cover, so that no two options of it clash. */
static uint32_t true_colour(const recipe *c, uint32_t item)
{
    return c->colours == 0 ? 0 : 1 + item % c->colours;
}

/* Option g of the cover. The primary items stand shuffled in `order`; uncoloured secondary items are taken in turn, each once. */
static void put_planted(problem *p, const recipe *c, const uint32_t *order, uint32_t g)
{
    for (uint32_t j = g * c->each_np; j < (g + 1) * c->each_np && j < c->np; j++)
        put(p, c->first + order[j], 0);
    for (uint32_t j = 0; j < c->each_ns; j++) {
        uint32_t s = c->first + c->np + (g * c->each_ns + j) % c->ns;
        put(p, s, true_colour(c, s));
    }
    end(p);
}

static uint32_t draw_primary(const recipe *c, rng *r)
{
    uint32_t item = draw(r, c->np);
    while (item >= c->np - c->rare && draw(r, 16) != 0)
        item = draw(r, c->np);
    return c->first + item;
}

static void put_drawn(problem *p, const recipe *c, rng *r)
{
    for (uint32_t j = 0; j < c->each_np;) {
        uint32_t item = draw_primary(c, r);
        if (!holds(p, item)) {
            put(p, item, 0);
            j++;
        }
    }
    for (uint32_t j = 0; j < c->each_ns;) {
        uint32_t item = c->first + c->np + draw(r, c->ns);
        if (!holds(p, item)) {
            put(p, item, c->colours == 0 || draw(r, 8) == 0 ? 0 : 1 + draw(r, c->colours));
            j++;
        }
    }
    end(p);
}

/* The options of the recipe, those of the cover spread evenly among the others. */
static void put_options(problem *p, const recipe *c)
{
    uint32_t order[MOST_ITEMS], groups = (c->np + c->each_np - 1) / c->each_np, step = c->m / groups;
    rng r = c->seed;
    for (uint32_t i = 0; i < c->np; i++)
        order[i] = i;
    shuffle(&r, order, c->np);
    for (uint32_t k = 0; k < c->m; k++) {
        if (k % step == 0 && k / step < groups)
            put_planted(p, c, order, k / step);
        else
            put_drawn(p, c, &r);
    }
}

static void make(problem *p, recipe c)
{
    begin(p, c.np, c.ns);
    put_options(p, &c);
}

/* Four primary items an option; a quarter of the items are rare. */
static recipe thin(uint32_t n)
{
    return (recipe){.np = n, .m = 4 * n, .each_np = 4, .rare = n / 4, .seed = 0x5fa55e};
}

/* The same without rare items: nothing is redundant and nothing blocked. */
static recipe even(uint32_t n)
{
    return (recipe){.np = n, .m = 4 * n, .each_np = 4, .seed = 0x57111};
}

/* Two primary and two coloured secondary items an option. */
static recipe tinted(uint32_t n)
{
    return (recipe){.np = n / 4, .ns = n - n / 4, .m = 4 * n, .each_np = 2, .each_ns = 2, .colours = 4, .rare = n / 16, .seed = 0xc0105};
}

void sparse(problem *p, int size)
{
    make(p, thin(256u << size));
}

/* Few primary items, so that 256 options hold each of them; two secondary items beside. */
void dense(problem *p, int size)
{
    uint32_t n = 256u << size, np = 8u << size;
    make(p, (recipe){.np = np, .ns = n - np, .m = 4 * n, .each_np = 2, .each_ns = 2, .seed = 0xde45e});
}

void coloured(problem *p, int size)
{
    make(p, tinted(256u << size));
}

/* 64 options of an eighth of the items, among options of two items; 128 of these have a third, to fill the figures. */
void lengthy(problem *p, int size)
{
    enum { LONG = 64, SHARES = 8 };
    uint32_t n = 256u << size, order[MOST_ITEMS], step = 4 * n / LONG, third = 2 * LONG;
    rng r = 0x10f6;
    begin(p, n, 0);
    for (uint32_t i = 0; i < n; i++)
        order[i] = i;
    for (uint32_t k = 0; k < 4 * n; k++) {
        recipe few = {.np = n, .each_np = 2 + (third > 0)};
        uint32_t share = k / step % SHARES, width = n / SHARES;
        if (k % step != 0) {
            put_drawn(p, &few, &r);
            third -= third > 0;
            continue;
        }
        /* eight long options share out the items, so that there are covers */
        if (share == 0)
            shuffle(&r, order, n);
        for (uint32_t j = 0; j < width; j++)
            put(p, order[share * width + j], 0);
        end(p);
    }
}

void still(problem *p, int size)
{
    make(p, even(256u << size));
    p->cap = 1;
}

void copied(problem *p, int size)
{
    make(p, thin(256u << size));
    p->cap = 0;
}

/* Infeasible before the first round: the last item is in no option. */
void unused(problem *p, int size)
{
    make(p, even((256u << size) - 1));
    p->np++;
}

/* Infeasible at the first item: 0 must go with 1 and with 2, which are in no other option. */
void early(problem *p, int size)
{
    uint32_t n = 256u << size;
    recipe c = even(n - 3);
    c.first = 3;
    c.m = 4 * n - 2;
    begin(p, n, 0);
    for (uint32_t other = 1; other <= 2; other++) {
        put(p, 0, 0);
        put(p, other, 0);
        end(p);
    }
    put_options(p, &c);
}

void desk_sparse(problem *p, int size)
{
    make(p, thin(16u << size));
}

void desk_coloured(problem *p, int size)
{
    make(p, tinted(16u << size));
}
