/* How much stack the calls take. Each call runs in a thread on a block of known place and size. Just before the call everything below the
 * thread's own frame is painted; the lowest byte that has changed after it says how deep the call went.
 * Prints the most that each call took; fails if that is 64 KiB or more. */
#define _POSIX_C_SOURCE 200809L /* pthread_attr_setstack */
#include <pthread.h>
#include <stdlib.h>

#include "harness.h"

enum { BLOCK = 1 << 20, PAINT = 0xA5, OWN_FRAME = 512, LIMIT = 65536 };

static uint8_t *block;
static struct problem p;

/* What the calls are given, made ready beforehand. */
static uint8_t b_in[INPUTS][4 * KAPKYREM_MOST_ENTRIES], b_out[RESULTS][4 * KAPKYREM_MOST_ENTRIES];
static uint32_t out[RESULTS][MOST], work[WORKS][MOST + KAPKYREM_LISTS_MOST_OPTIONS + KAPKYREM_LISTS_MOST_ITEMS];
static int32_t heads[sizeof work[0] / sizeof work[0][0]];

static uint64_t call_reduce(void) {
    return kapkyrem_reduce(
        p.np, p.ns, p.cap, b_in[ITEMS], 4 * p.len[ITEMS], b_in[COLOURS], 4 * p.len[COLOURS], b_in[ENDS], 4 * p.len[ENDS],
        b_out[0], sizeof b_out[0], b_out[1], sizeof b_out[1], b_out[2], sizeof b_out[2], b_out[3], sizeof b_out[3], b_out[4], sizeof b_out[4]);
}

static uint64_t call_lists(void) {
    return kapkyrem_reduce_lists(
        p.np, p.ns, p.cap, p.in[ITEMS], p.len[ITEMS], p.in[COLOURS], p.len[COLOURS], p.in[ENDS], p.len[ENDS],
        heads, p.work[HEADS], work[UP], p.work[UP], work[DOWN], p.work[DOWN], work[TINTS], p.work[TINTS], work[MARKS], p.work[MARKS],
        out[0], MOST, out[1], MOST, out[2], MOST, out[3], MOST, out[4], MOST);
}

/* A kept list as long as there can be one, with all its items. */
static uint64_t call_compact(void) { return kapkyrem_compact(b_in[ENDS], 4 * p.len[ENDS], 1, b_in[ENDS], 4 * p.len[ENDS], b_out[0], sizeof b_out[0]); }

struct job {
    uint64_t (*call)(void);
    uint64_t answer;
    size_t deep;
};

static void *on_the_block(void *argument) {
    struct job *job = argument;
    volatile uint8_t here = 0; /* a place in this frame */
    volatile uint8_t *paint = block;
    size_t own = (size_t)((uintptr_t)&here - (uintptr_t)block), at;
    for (at = 0; at < own - OWN_FRAME; at++) paint[at] = PAINT;
    job->answer = job->call();
    for (at = 0; at < own - OWN_FRAME && paint[at] == PAINT;) at++;
    job->deep = own - at;
    return NULL;
}

/* Runs the call; what it took, or the most so far if that is more. */
static size_t deeper(size_t most, uint64_t (*call)(void), const char *what, uint32_t number) {
    struct job job = {call, 0, 0};
    pthread_attr_t attributes;
    pthread_t thread;
    int wrong = pthread_attr_init(&attributes) || pthread_attr_setstack(&attributes, block, BLOCK);
    if (wrong || pthread_create(&thread, &attributes, on_the_block, &job) || pthread_join(thread, NULL)) {
        fprintf(stderr, "no thread\n");
        exit(2);
    }
    pthread_attr_destroy(&attributes);
    ABOUT("the stack of a call on %s", what);
    check(kapkyrem_number(job.answer) == number, "the answer is the one that the problem was made for");
    return job.deep > most ? job.deep : most;
}

/* p as byte lists, as far as it fits. */
static void to_bytes(void) {
    for (int l = 0; l < INPUTS; l++) {
        for (size_t i = 0; i < p.len[l] && i < KAPKYREM_MOST_ENTRIES; i++) kapkyrem_put32(b_in[l] + 4 * i, p.in[l][i]);
    }
}

static size_t measure(enum way way, uint64_t (*call)(void)) {
    size_t most = 0, items = most_items[way];
    chain(&p, items, 0);
    to_bytes();
    most = deeper(most, call, "a chain", KAPKYREM_REDUCED);
    chain(&p, items - 1, 1);
    to_bytes();
    most = deeper(most, call, "a broken chain", KAPKYREM_INFEASIBLE);
    fill(&p, items / 2, items / 2, most_options[way], most_entries[way]);
    p.cap = UINT32_MAX;
    to_bytes();
    most = deeper(most, call, "a full problem", KAPKYREM_REDUCED);
    p.in[ITEMS][most_entries[way] - 1] = p.in[ITEMS][most_entries[way] - 2];
    to_bytes();
    return deeper(most, call, "a refused problem", KAPKYREM_ITEM_TWICE);
}

static void report(const char *name, size_t bytes) {
    fprintf(stderr, "stack of %s: %u bytes\n", name, (unsigned)bytes);
    ABOUT("%s", name);
    check(bytes > 0 && bytes < LIMIT, "less than 64 KiB of stack");
}

int main(void) {
    char *room = malloc(BLOCK + 4096);
    if (!room) return 2;
    block = (uint8_t *)(room + 4096 - (size_t)room % 4096);
    report(way_name[BYTES], measure(BYTES, call_reduce));
    report(way_name[LISTS], measure(LISTS, call_lists));
    fill(&p, 1, 0, KAPKYREM_MOST_OPTIONS, KAPKYREM_MOST_OPTIONS);
    to_bytes();
    report("kapkyrem_compact", deeper(0, call_compact, "a long kept list", KAPKYREM_DONE));
    printf("%lu\n", checks);
    free(room);
    return failures != 0;
}
