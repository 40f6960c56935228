/* See stored.h: writing. */
#include "stored.h"

static void write_list(FILE *to, const uint32_t *list, size_t len)
{
    for (size_t j = 0; j < len; j++)
        fprintf(to, " %u", list[j]);
}

static void write_problem(FILE *to, const problem *p)
{
    fprintf(to, " %u %u %u %zu", p->np, p->ns, p->cap, p->items_len);
    write_list(to, p->items, p->items_len);
    fprintf(to, " %zu", p->colours_len);
    write_list(to, p->colours, p->colours_len);
    fprintf(to, " %zu", p->ends_len);
    write_list(to, p->ends, p->ends_len);
}

static void write_reduced(FILE *to, const stored *s)
{
    const model_answer *a = &s->a;
    fprintf(to, " %u %u %u %u %u %u", a->primaries, a->secondaries, a->options, a->entries, a->rounds, a->settled);
    write_list(to, s->kept, a->primaries + a->secondaries);
    write_list(to, s->ends, a->options);
    write_list(to, s->numbers, a->options);
    write_list(to, s->items, a->entries);
    write_list(to, s->colours, a->entries);
    write_list(to, s->crate_items, a->entries);
}

void stored_write(FILE *to, const stored *s)
{
    fprintf(to, "%u", s->who);
    write_problem(to, s->p);
    fprintf(to, " %u", s->a.number);
    if (s->a.number == 0)
        write_reduced(to, s);
    else if (s->a.number == 1)
        fprintf(to, " %u %u %u", s->a.item, s->a.cause, s->a.round);
    else
        fprintf(to, " %llu", (unsigned long long)s->a.place);
    fprintf(to, "\n");
}
