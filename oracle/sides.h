/* One problem put to every side: the C calls, the model, and the Rust where it applies. */
#ifndef SIDES_H
#define SIDES_H

#include "cases.h"
#include "model.h"

/* What came of a problem, for counting. */
typedef struct {
    model_answer lists;           /* the rules at the full figures */
    uint32_t bytes;               /* the number of the rules' answer at the desk's figures */
    bool rust_coloured, rust_plain; /* the Rust was compared, through its module c, x */
    bool rust_emptied;            /* the Rust emptied a primary item in a blocked deletion: rules alone */
    const uint32_t *kept, *items; /* the rules' result, until the next problem */
} seen;

/* An input of kapkyrem_compact. The outcome list has `more` numbers beyond the need. */
typedef struct {
    uint32_t kept[MOST_ITEMS], items[MOST_ENTRIES], primaries;
    size_t kept_len, items_len;
    int more;
    uint8_t odd[3]; /* bytes beyond whole fours: kept, items, outcome */
    bool nulls;
} compaction;

/* `heap`: lists on the heap, for memory checkers. `patience`: seconds that one problem may take. */
void sides_start(bool heap, unsigned patience);
bool sides_have_rust(void);

/* Do all sides agree? With `say`, prints what differs and what each side says. */
bool agree(const problem *p, seen *s, FILE *say);
bool agree_compact(const compaction *c, uint32_t *number, FILE *say);

/* Do both calls give this answer and these lists (kept, ends, numbers, items, colours) to an accepted problem within the desk's figures, or a
 * refusal that is the same at both figures? */
bool agree_stored(const problem *p, const model_answer *want, const uint32_t *const result[RESULT], FILE *say);

#endif
