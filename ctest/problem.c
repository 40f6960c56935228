/* Problems for the tests, and the room that goes with them. See harness.h. */
#include <stdlib.h>
#include <string.h>

#include "harness.h"

const char *const way_name[WAYS] = {"kapkyrem_reduce", "kapkyrem_reduce_lists"};
const size_t most_items[WAYS] = {KAPKYREM_MOST_ITEMS, KAPKYREM_LISTS_MOST_ITEMS};
const size_t most_options[WAYS] = {KAPKYREM_MOST_OPTIONS, KAPKYREM_LISTS_MOST_OPTIONS};
const size_t most_entries[WAYS] = {KAPKYREM_MOST_ENTRIES, KAPKYREM_LISTS_MOST_ENTRIES};

void fit_room(struct problem *p) {
    size_t n = (size_t)p->np + p->ns, all = kapkyrem_lists_room(p->np, p->ns, p->len[ENDS], p->len[ITEMS]);
    size_t room[RESULTS] = {n, p->len[ENDS], p->len[ENDS], p->len[ITEMS], p->len[ITEMS]};
    memcpy(p->room, room, sizeof room);
    for (int w = 0; w < WORKS; w++) p->work[w] = w == MARKS ? n + 1 : all;
}

static void add_entry(struct problem *p, uint32_t item, uint32_t colour) {
    p->in[ITEMS][p->len[ITEMS]++] = item;
    p->in[COLOURS][p->len[COLOURS]++] = colour;
}

static void end_option(struct problem *p) { p->in[ENDS][p->len[ENDS]++] = (uint32_t)p->len[ITEMS]; }

static uint32_t number_at(const char **text) {
    char *end;
    uint32_t number = (uint32_t)strtoul(*text, &end, 10);
    *text = end;
    while (*end == ' ') *text = ++end;
    return number;
}

void parse(struct problem *p, const char *text) {
    memset(p, 0, sizeof *p);
    p->np = number_at(&text);
    p->ns = number_at(&text);
    p->cap = number_at(&text);
    while (*text == '|') {
        for (text++; *text == ' ';) text++;
        while (*text && *text != '|') {
            uint32_t item = number_at(&text), colour = 0;
            if (*text == ':') {
                text++;
                colour = number_at(&text);
            }
            add_entry(p, item, colour);
        }
        end_option(p);
    }
    fit_room(p);
}

void fill(struct problem *p, size_t np, size_t ns, size_t options, size_t entries) {
    size_t n = np + ns;
    memset(p, 0, sizeof *p);
    p->np = (uint32_t)np;
    p->ns = (uint32_t)ns;
    for (size_t k = 0; k < options; k++) {
        size_t first = k * np / options, count = entries / options + (k == options - 1 ? entries % options : 0);
        for (size_t i = first; i < first + count; i++) {
            add_entry(p, (uint32_t)(i % n), i % n < np ? 0 : KAPKYREM_MOST_COLOUR);
        }
        end_option(p);
    }
    fit_room(p);
}

void chain(struct problem *p, size_t items, int broken) {
    memset(p, 0, sizeof *p);
    p->np = (uint32_t)items;
    p->cap = UINT32_MAX;
    for (uint32_t k = broken ? 1 : 0; k < items; k++) {
        if (k > 0) add_entry(p, k - 1, 0);
        add_entry(p, k, 0);
        end_option(p);
    }
    fit_room(p);
}
