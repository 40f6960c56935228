/* Hands a problem to a call in buffers of exactly the length that is handed over. See harness.h. */
#include <stdlib.h>
#include <string.h>

#include "harness.h"

/* No byte of it is below 128, so that a single byte written is seen too. */
uint32_t pattern(int list, size_t place) {
    return 0xA5808080u + ((uint32_t)list << 16) + ((uint32_t)(place >> 7 & 0x7Fu) << 8) + (uint32_t)(place & 0x7Fu);
}

static void *room_for(size_t bytes) {
    void *at = malloc(bytes ? bytes : 1);
    if (!at) {
        fprintf(stderr, "no memory\n");
        exit(2);
    }
    return at;
}

/* A byte list begins at an odd address, so that nobody can rely on its being aligned; the byte before it is checked. */
struct bytes {
    uint8_t *block, *at;
    size_t len;
};

static struct bytes bytes_of(const struct problem *p, const uint32_t *numbers, int list, size_t count, unsigned over) {
    struct bytes b;
    b.len = 4 * count + over;
    b.block = room_for(b.len + 1);
    b.block[0] = 0x5A;
    for (size_t i = 0; i < count; i++) kapkyrem_put32(b.block + 1 + 4 * i, numbers ? numbers[i] : pattern(list, i));
    for (unsigned i = 0; i < over; i++) b.block[1 + 4 * count + i] = (uint8_t)(0x77 + i);
    b.at = p->nulls && b.len == 0 ? NULL : b.block + 1;
    return b;
}

/* The numbers of a byte list; also that nothing beside them was touched. */
static uint32_t *numbers_of(struct bytes b, unsigned over) {
    size_t count = b.len / 4;
    uint32_t *numbers = room_for(4 * count);
    int same = b.block[0] == 0x5A;
    for (size_t i = 0; i < count; i++) numbers[i] = kapkyrem_get32(b.block + 1 + 4 * i);
    for (unsigned i = 0; i < over; i++) same = same && b.block[1 + 4 * count + i] == (uint8_t)(0x77 + i);
    check(same, "the bytes beside the numbers of a list are as they were");
    free(b.block);
    return numbers;
}

/* ---- The two calls ---- */

static void call_bytes(const struct problem *p, struct outcome *o) {
    struct bytes in[INPUTS], r[RESULTS];
    for (int l = 0; l < INPUTS; l++) in[l] = bytes_of(p, p->in[l], l, p->len[l], p->over[l]);
    for (int l = 0; l < RESULTS; l++) r[l] = bytes_of(p, NULL, l, p->room[l], p->over[INPUTS + l]);
    o->answer = kapkyrem_reduce(
        p->np, p->ns, p->cap, in[ITEMS].at, in[ITEMS].len, in[COLOURS].at, in[COLOURS].len, in[ENDS].at, in[ENDS].len,
        r[KEPT].at, r[KEPT].len, r[OUT_ENDS].at, r[OUT_ENDS].len, r[NUMBERS].at, r[NUMBERS].len,
        r[OUT_ITEMS].at, r[OUT_ITEMS].len, r[OUT_COLOURS].at, r[OUT_COLOURS].len);
    for (int l = 0; l < INPUTS; l++) o->in[l] = numbers_of(in[l], p->over[l]);
    for (int l = 0; l < RESULTS; l++) o->result[l] = numbers_of(r[l], p->over[INPUTS + l]);
    for (int l = 0; l < WORKS; l++) o->work[l] = NULL;
}

static uint32_t *list_of(const uint32_t *numbers, int list, size_t count) {
    uint32_t *at = room_for(4 * count);
    for (size_t i = 0; i < count; i++) at[i] = numbers ? numbers[i] : pattern(list, i);
    return at;
}

static void call_lists(const struct problem *p, struct outcome *o) {
    uint32_t *in[INPUTS], *r[RESULTS], *w[WORKS]; /* as handed over: NULL where nulls asks for it */
    for (int l = 0; l < INPUTS; l++) o->in[l] = list_of(p->in[l], l, p->len[l]);
    for (int l = 0; l < RESULTS; l++) o->result[l] = list_of(NULL, l, p->room[l]);
    for (int l = 0; l < WORKS; l++) o->work[l] = list_of(NULL, RESULTS + l, p->work[l]);
    for (int l = 0; l < INPUTS; l++) in[l] = p->nulls && p->len[l] == 0 ? NULL : o->in[l];
    for (int l = 0; l < RESULTS; l++) r[l] = p->nulls && p->room[l] == 0 ? NULL : o->result[l];
    for (int l = 0; l < WORKS; l++) w[l] = p->nulls && p->work[l] == 0 ? NULL : o->work[l];
    o->answer = kapkyrem_reduce_lists(
        p->np, p->ns, p->cap, in[ITEMS], p->len[ITEMS], in[COLOURS], p->len[COLOURS], in[ENDS], p->len[ENDS],
        (int32_t *)w[HEADS], p->work[HEADS], w[UP], p->work[UP], w[DOWN], p->work[DOWN], w[TINTS], p->work[TINTS], w[MARKS], p->work[MARKS],
        r[KEPT], p->room[KEPT], r[OUT_ENDS], p->room[OUT_ENDS], r[NUMBERS], p->room[NUMBERS],
        r[OUT_ITEMS], p->room[OUT_ITEMS], r[OUT_COLOURS], p->room[OUT_COLOURS]);
}

void run_call(enum way way, const struct problem *p, struct outcome *o) {
    if (way == BYTES) {
        call_bytes(p, o);
    } else {
        call_lists(p, o);
    }
}

void end_call(struct outcome *o) {
    for (int l = 0; l < INPUTS; l++) free(o->in[l]);
    for (int l = 0; l < RESULTS; l++) free(o->result[l]);
    for (int l = 0; l < WORKS; l++) free(o->work[l]);
}
