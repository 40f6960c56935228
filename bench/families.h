/* The families: kinds of problems, each at three sizes. docs/SPEED.md says what each is for. */
#ifndef BENCH_FAMILIES_H
#define BENCH_FAMILIES_H

#include "problem.h"

enum { SIZES = 3 };

typedef struct {
    const char *name;
    bool desk; /* through the desk's call: 64 items, 256 options and 1,024 entries at most */
    void (*make)(problem *p, int size); /* size 0, 1 or 2 */
} family;

extern const family families[];
extern const size_t families_count;

/* ledger.c */
void ledger(problem *p, int size);
void desk_ledger(problem *p, int size);

/* drawn.c */
void sparse(problem *p, int size);
void dense(problem *p, int size);
void coloured(problem *p, int size);
void lengthy(problem *p, int size);
void still(problem *p, int size);
void copied(problem *p, int size);
void unused(problem *p, int size);
void early(problem *p, int size);
void desk_sparse(problem *p, int size);
void desk_coloured(problem *p, int size);

/* puzzles.c */
void chain(problem *p, int size);
void desk_chain(problem *p, int size);
void langford(problem *p, int size);
void queens(problem *p, int size);
void sudoku(problem *p, int size);

#endif
