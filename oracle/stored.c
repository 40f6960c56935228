/* See stored.h: reading. */
#include "stored.h"

#include <stdlib.h>

static uint32_t read_number(FILE *from)
{
    unsigned long long x;
    if (fscanf(from, "%llu", &x) != 1 || x > UINT32_MAX) {
        fprintf(stderr, "compare: not a file of stored answers\n");
        exit(2);
    }
    return (uint32_t)x;
}

static void read_list(FILE *from, uint32_t *list, size_t len, size_t most)
{
    for (size_t j = 0; j < len; j++) {
        uint32_t x = read_number(from);
        if (j < most)
            list[j] = x;
    }
}

static void read_problem(FILE *from, problem *p)
{
    problem_clear(p);
    p->np = read_number(from);
    p->ns = read_number(from);
    p->cap = read_number(from);
    read_list(from, p->items, p->items_len = read_number(from), MOST_ENTRIES);
    read_list(from, p->colours, p->colours_len = read_number(from), MOST_ENTRIES);
    read_list(from, p->ends, p->ends_len = read_number(from), MOST_OPTIONS);
}

static void read_answer(FILE *from, stored *s)
{
    model_answer *a = &s->a;
    *a = (model_answer){.number = read_number(from)};
    if (a->number > 1) {
        a->place = read_number(from);
        return;
    }
    uint32_t *one[] = {&a->item, &a->cause, &a->round};
    uint32_t *none[] = {&a->primaries, &a->secondaries, &a->options, &a->entries, &a->rounds, &a->settled};
    for (int i = 0; i < (a->number ? 3 : 6); i++)
        *(a->number ? one[i] : none[i]) = read_number(from);
    read_list(from, s->kept, a->primaries + a->secondaries, MOST_ITEMS);
    read_list(from, s->ends, a->options, MOST_OPTIONS);
    read_list(from, s->numbers, a->options, MOST_OPTIONS);
    read_list(from, s->items, a->entries, MOST_ENTRIES);
    read_list(from, s->colours, a->entries, MOST_ENTRIES);
    read_list(from, s->crate_items, a->entries, MOST_ENTRIES);
}

bool stored_replay(const char *file)
{
    FILE *from = fopen(file, "r");
    if (!from) {
        fprintf(stderr, "compare: cannot read %s\n", file);
        exit(2);
    }
    static stored s;
    s.p = problem_new();
    uint32_t count = read_number(from), line = 0;
    bool good = true;
    for (; line < count && good; line++) {
        s.who = read_number(from);
        read_problem(from, s.p);
        read_answer(from, &s);
        const uint32_t *const result[RESULT] = {s.kept, s.ends, s.numbers, s.items, s.colours};
        good = agree_stored(s.p, &s.a, result, stdout);
    }
    fclose(from);
    problem_free(s.p);
    if (good)
        printf("%u stored answers, each given by both calls\n", count);
    else
        printf("DIFFERENCE from stored answer %u (%s)\n", line, s.who == STORED_RUST ? "the Rust's" : "the rules'");
    return good;
}
