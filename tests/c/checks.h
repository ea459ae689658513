/* Counts what was held to be right and what was not; each program of the tests ends with `finish`. */
#ifndef CHECKS_H
#define CHECKS_H

#include <inttypes.h>
#include <stdio.h>

#define COUNT(array) (sizeof(array) / sizeof(array)[0])

/* So many failures are shown, the first ones. */
#define MOST_SHOWN 20

static long checks, failures;

/* Holds a number, what a call answered or wrote, to the right one. */
static inline void same(const char *what, int64_t input, int64_t got, int64_t right)
{
    checks++;
    if (got != right && failures++ < MOST_SHOWN)
        fprintf(stderr, "FAILED: %s at %" PRId64 " is %" PRId64 ", not %" PRId64 "\n", what, input, got, right);
}

/* Whether one of the failures that are shown came since there were that many. */
static inline int failed_since(long failures_before)
{
    return failures != failures_before && failures_before < MOST_SHOWN;
}

static inline int finish(const char *what)
{
    printf("%s: %ld checks, %ld failures\n", what, checks, failures);
    return failures != 0;
}

#endif
