/* See shrink.h. Each try changes a copy; it is kept if the sides still differ on it. */
#include "shrink.h"

#include <string.h>

typedef void change(problem *p, size_t at);

static bool differs(const problem *p)
{
    seen s;
    return !agree(p, &s, NULL);
}

static void drop_number(uint32_t *list, size_t *len, size_t at)
{
    memmove(list + at, list + at + 1, (*len - at - 1) * sizeof *list);
    (*len)--;
}

/* An entry goes, and every end behind it comes down by one. */
static void drop_entry(problem *p, size_t at)
{
    if (at < p->items_len)
        drop_number(p->items, &p->items_len, at);
    if (at < p->colours_len)
        drop_number(p->colours, &p->colours_len, at);
    for (size_t k = 0; k < p->ends_len; k++)
        if (p->ends[k] > at)
            p->ends[k]--;
}

static void drop_option(problem *p, size_t at)
{
    size_t begin = at ? p->ends[at - 1] : 0;
    for (size_t e = p->ends[at]; e > begin && e <= p->items_len; e--)
        drop_entry(p, e - 1);
    drop_number(p->ends, &p->ends_len, at);
}

static void drop_end(problem *p, size_t at)
{
    drop_number(p->ends, &p->ends_len, at);
}

/* Item `at` goes from the numbering; entries with it go too. */
static void drop_item(problem *p, size_t at)
{
    for (size_t e = p->items_len; e > 0; e--)
        if (p->items[e - 1] == at)
            drop_entry(p, e - 1);
    for (size_t e = 0; e < p->items_len; e++)
        if (p->items[e] > at)
            p->items[e]--;
    if (at < p->np)
        p->np--;
    else
        p->ns--;
}

static void less_colour(problem *p, size_t at)
{
    p->colours[at] = p->colours[at] > 2 ? 2 : p->colours[at] ? p->colours[at] - 1 : 0;
}

static void less_cap(problem *p, size_t at)
{
    p->cap = at == 0 ? 0 : at == 1 ? 1 : at == 2 ? p->cap / 2 : p->cap - 1;
}

static void usual_length(problem *p, size_t at)
{
    if (at < ROOM)
        p->room[at] = 0;
    else if (at < ROOM + RESULT)
        p->result[at - ROOM] = 0;
    else if (at < ROOM + RESULT + INPUTS + RESULT)
        p->odd[at - ROOM - RESULT] = 0;
    else
        p->nulls = false;
}

static bool same_problem(const problem *a, const problem *b)
{
    return a->np == b->np && a->ns == b->ns && a->cap == b->cap && a->items_len == b->items_len && a->colours_len == b->colours_len &&
           a->ends_len == b->ends_len && a->nulls == b->nulls && memcmp(a->room, b->room, sizeof a->room) == 0 &&
           memcmp(a->result, b->result, sizeof a->result) == 0 && memcmp(a->odd, b->odd, sizeof a->odd) == 0 &&
           memcmp(a->colours, b->colours, a->colours_len * sizeof *a->colours) == 0;
}

/* Tries the change at each place from the last down; says whether one was kept. */
static bool try_each(problem *p, problem *copy, size_t count, change *c)
{
    bool kept = false;
    for (size_t at = count; at > 0; at--) {
        problem_copy(copy, p);
        c(copy, at - 1);
        if (!same_problem(copy, p) && differs(copy)) {
            problem_copy(p, copy);
            kept = true;
        }
    }
    return kept;
}

void shrink(problem *p)
{
    problem *copy = problem_new();
    bool again = true;
    while (again) {
        uint64_t n = (uint64_t)p->np + p->ns;
        again = try_each(p, copy, p->ends_len, drop_option);
        again |= try_each(p, copy, p->ends_len, drop_end);
        again |= try_each(p, copy, p->items_len, drop_entry);
        again |= try_each(p, copy, n <= MOST_ITEMS ? n : 0, drop_item);
        again |= try_each(p, copy, p->colours_len, less_colour);
        again |= p->cap > 0 && try_each(p, copy, 4, less_cap);
        again |= try_each(p, copy, ROOM + RESULT + INPUTS + RESULT + 1, usual_length);
    }
    problem_free(copy);
}

static bool compaction_differs(const compaction *c)
{
    uint32_t number;
    return !agree_compact(c, &number, NULL);
}

/* Drops a number from one of the two lists, if the sides then still differ. */
static bool try_dropping(compaction *c, bool kept, size_t at)
{
    static compaction copy;
    copy = *c;
    drop_number(kept ? copy.kept : copy.items, kept ? &copy.kept_len : &copy.items_len, at);
    if (!compaction_differs(&copy))
        return false;
    *c = copy;
    return true;
}

void shrink_compaction(compaction *c)
{
    bool again = true;
    while (again) {
        again = false;
        for (size_t at = c->items_len; at > 0; at--)
            again |= try_dropping(c, false, at - 1);
        for (size_t at = c->kept_len; at > 0; at--)
            again |= try_dropping(c, true, at - 1);
    }
}
