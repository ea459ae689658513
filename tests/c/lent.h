/*
 * Blocks to lend to a call. Each is exactly as long as the slice or the place, so that valgrind sees a byte read or written
 * outside it, and is held afterwards to what it must hold.
 */
#ifndef LENT_H
#define LENT_H

#include <stdlib.h>
#include <string.h>

#include "checks.h"

/* A block of exactly that many bytes, which differ from place to place and from check to check. */
static inline void *lend(size_t bytes)
{
    uint8_t *block = (uint8_t *)malloc(bytes);
    size_t i;
    for (i = 0; i < bytes; i++)
        block[i] = (uint8_t)(37 * i + 11 * (size_t)checks);
    return block;
}

/* The same, holding a copy. */
static inline void *lend_copy(const void *from, size_t bytes)
{
    void *block = lend(bytes);
    if (bytes != 0)
        memcpy(block, from, bytes);
    return block;
}

/* Holds a block to what it must hold, byte by byte, and frees both. */
static inline void hold(const char *what, int64_t input, void *got, void *right, size_t bytes)
{
    checks++;
    if (bytes != 0 && memcmp(got, right, bytes) != 0 && failures++ < MOST_SHOWN)
        fprintf(stderr, "FAILED: what %s leaves at %" PRId64 "\n", what, input);
    free(got);
    free(right);
}

/*
 * Makes a call with `lent` and the plain call with `right`, equal blocks of one `type`, and holds the answer and the block of the
 * first to those of the second.
 */
#define SAME_WITH_PLACE(type, input, call, plain_call)  \
    do {                                                \
        type *lent = (type *)lend(sizeof *lent);        \
        int64_t *right = (int64_t *)lend(sizeof *lent); \
        same(#call, input, call, plain_call);           \
        hold(#call, input, lent, right, sizeof *lent);  \
    } while (0)

/*
 * Blocks that hold nothing yet, as C's callers hand them in: valgrind sees whether a call's answer depends on one, and whether
 * the call writes the bytes at its front that it must. `lent` is a block of `count` elements of `type`, `right` the plain call's.
 */
#define SAME_WITH_UNSET(type, plain_type, count, bytes_written, call, plain_call)  \
    do {                                                                           \
        type *lent = (type *)malloc((count) * sizeof *lent);                       \
        plain_type *right = (plain_type *)lend((count) * sizeof *lent);            \
        same("unset " #call, 0, call, plain_call);                                 \
        hold("unset " #call, 0, lent, right, bytes_written);                       \
    } while (0)
#define DONE_WITH_UNSET(type, call, plain_call) SAME_WITH_UNSET(type, int64_t, 1, sizeof(type), call, plain_call)
#define REFUSED_WITH_UNSET(type, call, plain_call) SAME_WITH_UNSET(type, int64_t, 1, 0, call, plain_call)

#endif
