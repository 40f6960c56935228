/* Stored answers: the text that oracle/REPLAY.md describes. */
#ifndef STORED_H
#define STORED_H

#include "sides.h"

/* Who gave a stored answer. */
enum { STORED_RUST = 0, STORED_RULES = 1 };

/* One line: who, problem, answer, and for a reduced one the five lists and the crate's item numbers. */
typedef struct {
    uint32_t who;
    problem *p;
    model_answer a;
    uint32_t kept[MOST_ITEMS], ends[MOST_OPTIONS], numbers[MOST_OPTIONS], items[MOST_ENTRIES], colours[MOST_ENTRIES], crate_items[MOST_ENTRIES];
} stored;

void stored_write(FILE *to, const stored *s);

/* Reads every line and puts it to both calls. False at the first difference, which it prints. */
bool stored_replay(const char *file);

#endif
