/* A plain model of document 01 in C, in the paper's words and order. It shares no code with the Rattle sources nor with the Rust, and has no links: options and
 * entries are live or not. Whoever wrote it had read the Rust and model.py, so a misreading common to them is not excluded.
 *
 * It is there to be compared with: plain before quick. The three calls at the end have the shapes and the answers of the C calls that
 * include/kapkyrem.h declares, refusals and every list included. */
#ifndef MODEL_H
#define MODEL_H

#include <stdbool.h>
#include <stddef.h>
#include <stdint.h>

/* The most that is taken. */
typedef struct {
    uint32_t items, options, entries, colour;
} model_figures;

extern const model_figures MODEL_LISTS_FIGURES; /* 1,024 items, 4,096 options, 16,384 entries, colour 255 */
extern const model_figures MODEL_BYTES_FIGURES; /* 64 items, 256 options, 1,024 entries, colour 255 */

/* A problem as handed in. E is items_len, M is ends_len. */
typedef struct {
    uint32_t np, ns, cap;
    const uint32_t *items, *colours, *ends;
    size_t items_len, colours_len, ends_len;
} model_problem;

typedef struct {
    uint32_t *at;
    size_t len;
} model_list;

/* Lists in the order of the calls: heads, up, down, tints, marks; and kept, ends, numbers, items, colours. */
enum { MODEL_ROOM = 5, MODEL_RESULT = 5 };
enum { MODEL_KEPT, MODEL_ENDS, MODEL_NUMBERS, MODEL_ITEMS, MODEL_COLOURS };

/* The answer, as the paper's table has it, and what the rounds did (no part of the answer, for whoever picks problems). */
typedef struct {
    uint32_t number;
    uint64_t place;                                              /* refusals */
    uint32_t item, cause, round;                                 /* 1 */
    uint32_t primaries, secondaries, options, entries;           /* 0 */
    uint32_t rounds, settled;                                    /* 0 */
    uint32_t skipped, shortened, deleted, tested, blocked;       /* options skipped; steps of each kind */
} model_answer;

/* Document 01's call. `ragged` says that some byte list's length is no multiple of four. `room` is NULL for the face that has working room of its own. */
model_answer model_outcome(const model_figures *figures, const model_problem *problem, bool ragged, const model_list *room, const model_list *result);

uint64_t model_pack_lists(const model_answer *answer);
uint64_t model_pack_bytes(const model_answer *answer);

uint64_t model_reduce(
    uint32_t np, uint32_t ns, uint32_t cap,
    const uint8_t *items, size_t items_len, const uint8_t *colours, size_t colours_len, const uint8_t *ends, size_t ends_len,
    uint8_t *kept, size_t kept_len, uint8_t *out_ends, size_t out_ends_len, uint8_t *numbers, size_t numbers_len,
    uint8_t *out_items, size_t out_items_len, uint8_t *out_colours, size_t out_colours_len);

uint64_t model_reduce_lists(
    uint32_t np, uint32_t ns, uint32_t cap,
    const uint32_t *items, size_t items_len, const uint32_t *colours, size_t colours_len, const uint32_t *ends, size_t ends_len,
    int32_t *heads, size_t heads_len, uint32_t *up, size_t up_len, uint32_t *down, size_t down_len,
    uint32_t *tints, size_t tints_len, uint32_t *marks, size_t marks_len,
    uint32_t *kept, size_t kept_len, uint32_t *out_ends, size_t out_ends_len, uint32_t *numbers, size_t numbers_len,
    uint32_t *out_items, size_t out_items_len, uint32_t *out_colours, size_t out_colours_len);

uint64_t model_compact(
    const uint8_t *kept, size_t kept_len, uint32_t primaries, const uint8_t *items, size_t items_len, uint8_t *out, size_t out_len);

#endif
