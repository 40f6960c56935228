/* Lists whose first byte past the end must not be touched.
 *
 * Fenced, a list ends right before a page that may not be read or written, so that a step past its end is a fault at once, also in
 * code that no memory checker has seen; some bytes before it are watched. On the heap, it has exactly its length, for memory checkers. */
#ifndef FENCE_H
#define FENCE_H

#include <stdbool.h>
#include <stddef.h>
#include <stdint.h>

typedef struct {
    uint8_t *at; /* the list */
    size_t len;  /* in bytes */
    uint8_t *pages;
    size_t size;
} fence;

/* Call once, before any list is made. */
void fence_on_heap(bool heap);

/* A list for up to `most` bytes, later given any length up to that. */
void fence_make(fence *f, size_t most);
uint8_t *fence_take(fence *f, size_t len);

/* Are the bytes before the list as they were when it was taken? */
bool fence_whole(const fence *f);

#endif
