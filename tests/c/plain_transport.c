/* The transport clock: change request Five. A clock is whether something has been heard, and the position. */
#include <stdlib.h>

#include "plain.h"

/* Whether a step lies within its limits and leads from a position to one that is the value modulo 2^33. */
static int fits(int64_t position, int64_t step, int64_t value)
{
    return step >= PAPER_LEAST_STEP && step < PAPER_STEP_END && (position + step - value) % PAPER_CLOCK_WRAP == 0;
}

/* The step that fits, which must be one: it goes straight to the value, or there by one wrap less or more. */
static int64_t step_to(int64_t position, int64_t value)
{
    const int64_t straight = value - position % PAPER_CLOCK_WRAP;
    const int64_t steps[3] = {straight, straight - PAPER_CLOCK_WRAP, straight + PAPER_CLOCK_WRAP};
    int64_t step = 0;
    int i, found = 0;
    for (i = 0; i < 3; i++)
        if (fits(position, steps[i], value)) {
            step = steps[i];
            found++;
        }
    if (found != 1)
        abort();
    return step;
}

int64_t plain_follow(int64_t *clock, int64_t value)
{
    int64_t position = value;
    if (outside(0, PAPER_CLOCK_WRAP - 1, value))
        return -14;
    if (clock[0] != 0) {
        if (outside(0, PAPER_LAST_CLOCK_POSITION, clock[1]))
            return -14;
        position = clock[1] + step_to(clock[1], value);
    }
    if (outside(0, PAPER_LAST_CLOCK_POSITION, position))
        return -14;
    clock[0] = 1;
    clock[1] = position;
    return position / PAPER_TICKS_PER_MILLISECOND;
}

int64_t plain_follow_all(int64_t *clock, const int64_t *values, size_t count)
{
    int64_t passed_over = 0;
    size_t i;
    for (i = 0; i < count; i++)
        if (plain_follow(clock, values[i]) < 0)
            passed_over++;
    return passed_over;
}
