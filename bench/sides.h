/* The two sides that are compared: our call, and the unchanged Rust's. */
#ifndef BENCH_SIDES_H
#define BENCH_SIDES_H

#include "../oracle/rust_dlx.h"
#include "problem.h"

typedef struct {
    const problem *p;
    bool desk;      /* ours goes through kapkyrem_reduce, else through kapkyrem_reduce_lists */
    uint64_t ours;  /* the answer of our call */
    uint64_t rust;  /* of the Rust's: options + 1, or 0 if infeasible */
    uint32_t rounds, options;
    rust_dlx_problem *at_hand; /* the problem as a user of the Rust has it: a list of lists */
} job;

/* Lays everything out that a user of either side has at hand before the call, and sees that both sides give the same answer
 * and the same lists. `module` is RUST_DLX_COLOURED or RUST_DLX_PLAIN. False, with a line on the standard error, if they do not. */
bool open_job(job *j, const problem *p, bool desk, int module);
void close_job(job *j);

/* One whole call. Ours: checks, nodes, rounds, result, cleared room; the room is lent at its exact length. The Rust's: nodes, rounds, result, and all
 * memory given back; or all but that. */
uint64_t call_ours(const job *j);
uint64_t call_rust(const job *j);
uint64_t call_rust_keeping(const job *j);
void drop_kept(void);

/* Before calls of ours: fills the result lists with numbers that no call gives. After them: are they what they should be? */
void spoil_result(void);
bool good_result(const job *j);

#endif
