/* See sides.h. */
#include "sides.h"

#include <stdio.h>
#include <string.h>

#include "../include/kapkyrem.h"

enum { RESULTS = 5, ROOM = MOST_ITEMS + 2 + MOST_ENTRIES + MOST_OPTIONS, SPOILT = 0xFF };

/* What a caller lends. */
static int32_t heads[ROOM];
static uint32_t up[ROOM], down[ROOM], tints[ROOM], marks[MOST_ITEMS + 1];
static uint32_t result[RESULTS][MOST_ENTRIES];

/* The same for the desk, in bytes. */
static uint8_t in_bytes[3][4 * KAPKYREM_MOST_ENTRIES], out_bytes[RESULTS][4 * KAPKYREM_MOST_ENTRIES];

/* The result as the Rust gives it, and how many numbers each list has. */
static uint32_t wanted[RESULTS][MOST_ENTRIES];
static size_t counts[RESULTS];

static rust_dlx_answer *kept_answer;

/* ---- The calls ---- */

static uint64_t through_lists(const problem *p)
{
    size_t n = (size_t)p->np + p->ns, room = kapkyrem_lists_room(p->np, p->ns, p->m, p->e);
    return kapkyrem_reduce_lists(p->np, p->ns, p->cap, p->items, p->e, p->colours, p->e, p->ends, p->m, heads, room, up, room, down, room,
                                 tints, room, marks, n + 1, result[0], n, result[1], p->m, result[2], p->m, result[3], p->e, result[4], p->e);
}

static uint64_t through_desk(const problem *p)
{
    size_t n = (size_t)p->np + p->ns;
    return kapkyrem_reduce(p->np, p->ns, p->cap, in_bytes[0], 4 * p->e, in_bytes[1], 4 * p->e, in_bytes[2], 4 * p->m, out_bytes[0], 4 * n,
                           out_bytes[1], 4 * p->m, out_bytes[2], 4 * p->m, out_bytes[3], 4 * p->e, out_bytes[4], 4 * p->e);
}

uint64_t call_ours(const job *j)
{
    return j->desk ? through_desk(j->p) : through_lists(j->p);
}

uint64_t call_rust(const job *j)
{
    return rust_dlx_call(j->at_hand, j->p->cap);
}

uint64_t call_rust_keeping(const job *j)
{
    kept_answer = rust_dlx_call_keeping(j->at_hand, j->p->cap);
    return rust_dlx_answer_options(kept_answer);
}

void drop_kept(void)
{
    rust_dlx_drop(kept_answer);
}

/* ---- What they give ---- */

void spoil_result(void)
{
    memset(result, SPOILT, sizeof result);
    memset(out_bytes, SPOILT, sizeof out_bytes);
}

/* Number k of a result list of our call. */
static uint32_t given(const job *j, int list, size_t k)
{
    return j->desk ? kapkyrem_get32(out_bytes[list] + 4 * k) : result[list][k];
}

bool good_result(const job *j)
{
    for (int list = 0; list < RESULTS; list++)
        for (size_t k = 0; k < counts[list]; k++)
            if (given(j, list, k) != wanted[list][k])
                return false;
    return true;
}

/* Our answer as the Rust's outcome says it should be. */
static uint64_t answer_for(const job *j, const rust_dlx_result *r)
{
    uint64_t low = (uint64_t)r->rounds << 8 | (uint64_t)r->settled << 24;
    if (r->code == RUST_DLX_INFEASIBLE)
        return 1 | (uint64_t)r->item << 8 | (uint64_t)(r->rounds == 0 ? 1 : 2) << 24 | (uint64_t)r->rounds << 32;
    if (j->desk)
        return low | (uint64_t)r->primaries << 32 | (uint64_t)r->secondaries << 40 | (uint64_t)r->options << 48;
    return low | (uint64_t)r->primaries << 25 | (uint64_t)r->secondaries << 36 | (uint64_t)r->options << 47;
}

/* The Rust's outcome, watched, to compare with. False if it stops itself, or empties a primary item in a blocked deletion and goes on. */
static bool ask_rust(job *j, int module)
{
    static uint32_t crate_items[MOST_ENTRIES];
    const problem *p = j->p;
    rust_dlx_result r = rust_dlx_reduce(module, p->np, p->ns, p->cap, p->items, p->colours, p->e, p->ends, p->m, wanted[0], wanted[1],
                                        wanted[2], wanted[3], wanted[4], crate_items);
    bool ok = r.code == RUST_DLX_OK;
    if (r.code == RUST_DLX_PANIC || r.emptied != RUST_DLX_NONE)
        return false;
    j->ours = answer_for(j, &r);
    j->rust = ok ? (uint64_t)r.options + 1 : 0;
    j->rounds = r.rounds;
    j->options = ok ? r.options : 0;
    counts[0] = ok ? r.primaries + r.secondaries : 0;
    counts[1] = counts[2] = j->options;
    counts[3] = counts[4] = ok ? r.entries : 0;
    return true;
}

static void put_bytes(uint8_t *to, const uint32_t *from, size_t count)
{
    for (size_t k = 0; k < count; k++)
        kapkyrem_put32(to + 4 * k, from[k]);
}

bool open_job(job *j, const problem *p, bool desk, int module)
{
    *j = (job){.p = p, .desk = desk};
    if (desk) {
        put_bytes(in_bytes[0], p->items, p->e);
        put_bytes(in_bytes[1], p->colours, p->e);
        put_bytes(in_bytes[2], p->ends, p->m);
    }
    j->at_hand = rust_dlx_prepare(module, p->np, p->ns, p->items, p->colours, p->e, p->ends, p->m);
    spoil_result();
    const char *fault = !ask_rust(j, module)               ? "the Rust's answer cannot be compared"
                        : call_ours(j) != j->ours          ? "our answer is another than the Rust's"
                        : !good_result(j)                  ? "our lists are other than the Rust's"
                        : call_rust(j) != j->rust          ? "the Rust's two calls differ"
                                                           : NULL;
    if (fault)
        fprintf(stderr, "bench: %s\n", fault);
    return fault == NULL;
}

void close_job(job *j)
{
    rust_dlx_release(j->at_hand);
}
