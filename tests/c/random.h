/* Random numbers, the same in every run. */
#ifndef RANDOM_H
#define RANDOM_H

#include <stdint.h>

static inline int64_t random_within(int64_t first, int64_t last)
{
    static uint64_t state = 1;
    state = state * 6364136223846793005ULL + 1442695040888963407ULL;
    return first + (int64_t)((state >> 11) % (uint64_t)(last - first + 1));
}

#endif
