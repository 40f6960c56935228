/* The unchanged Rust (crate dlx 0.8.5, `Preproc::reduce` over `OptOrder::Seq`), called from C.
 *
 * oracle/build-rust makes the archive and, beside it, a file that names the system libraries to link with.
 * Only problems that document 01 accepts may be handed in: on others the Rust can stop, loop or read links that it made up. */
#ifndef RUST_DLX_H
#define RUST_DLX_H

#include <stddef.h>
#include <stdint.h>

#ifdef __cplusplus
extern "C" {
#endif

/* Which module of the crate holds the problem. RUST_DLX_PLAIN is right only where every colour is 0. */
enum { RUST_DLX_COLOURED = 0, RUST_DLX_PLAIN = 1 };

enum {
    RUST_DLX_OK = 0,         /* the Rust answered Ok */
    RUST_DLX_INFEASIBLE = 1, /* the Rust answered Err */
    RUST_DLX_PANIC = 2       /* the Rust stopped itself; of the rest only emptied is set */
};

#define RUST_DLX_NONE UINT32_MAX

typedef struct {
    int code;
    /* Err: the item of the error text less 1, so that it counts from 0 as ours do. RUST_DLX_NONE if the text names none. */
    uint32_t item;
    /* Rounds that the Rust began (an Err in round 0 is cause 1, a later one cause 2). */
    uint32_t rounds;
    /* Ok: 1 if the last round changed nothing, as a second run with one round more shows. */
    uint32_t settled;
    /* A primary item that a blocked deletion left in no option (document 01, known differences, cause 3), or RUST_DLX_NONE.
     * Where there is one the rest is not to be compared with our rules. */
    uint32_t emptied;
    uint32_t primaries, secondaries, options, entries; /* Ok */
} rust_dlx_result;

/* Reduces once and fills the fronts of the six lists (room: np + ns, m, m, e, e, e) if the Rust answers Ok.
 * out_items has original item numbers, crate_items the crate's own (secondaries lowered by sd). */
rust_dlx_result rust_dlx_reduce(
    int kind, uint32_t np, uint32_t ns, uint32_t cap,
    const uint32_t *items, const uint32_t *colours, size_t e, const uint32_t *ends, size_t m,
    uint32_t *kept, uint32_t *out_ends, uint32_t *numbers, uint32_t *out_items, uint32_t *out_colours, uint32_t *crate_items);

/* For timing, the same in parts. rust_dlx_prepare makes the list of lists that a user of the crate has at hand. */
typedef struct rust_dlx_problem rust_dlx_problem;
rust_dlx_problem *rust_dlx_prepare(
    int kind, uint32_t np, uint32_t ns,
    const uint32_t *items, const uint32_t *colours, size_t e, const uint32_t *ends, size_t m);
void rust_dlx_release(rust_dlx_problem *problem);

/* The whole call on it: make_problem, Preproc::new, reduce, and everything given back. Nothing is counted or watched.
 * Answers options + 1 if Ok, 0 if Err, UINT64_MAX if the Rust stopped itself. */
uint64_t rust_dlx_call(const rust_dlx_problem *problem, uint32_t cap);

/* The same, but what the call made (problem and answer) is kept, so that giving it back can be left out of a timing.
 * Never NULL; rust_dlx_drop gives it back. */
typedef struct rust_dlx_answer rust_dlx_answer;
rust_dlx_answer *rust_dlx_call_keeping(const rust_dlx_problem *problem, uint32_t cap);
uint64_t rust_dlx_answer_options(const rust_dlx_answer *answer); /* as rust_dlx_call */
void rust_dlx_drop(rust_dlx_answer *answer);

#ifdef __cplusplus
}
#endif
#endif
