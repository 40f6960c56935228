/* How often memory was asked for. Counted in a program that is linked with heap.c and --wrap; heap.c says how. */
#ifndef BENCH_HEAP_H
#define BENCH_HEAP_H

typedef struct {
    unsigned long long asked, bytes;
} heap_use;

heap_use heap_used(void);

#endif
