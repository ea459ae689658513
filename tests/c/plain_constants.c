/* Constants that stand for a division: document 01, "Constants on trial". */
#include "plain.h"

static int allowed(struct constants q)
{
    const struct constants least = paper_least, most = paper_most;
    return !(outside(least.a, most.a, q.a) || outside(least.b, most.b, q.b) || outside(least.d, most.d, q.d)
             || outside(least.m, most.m, q.m) || outside(least.c, most.c, q.c) || outside(least.k, most.k, q.k)
             || outside(least.t, most.t, q.t));
}

/* Whether the two quotients of allowed constants are more than t apart at n. */
static int differs(struct constants q, int64_t n)
{
    uint64_t exact = (uint64_t)((q.a * n + q.b) / q.d);
    uint64_t device = ((uint64_t)q.m * (uint64_t)n + (uint64_t)q.c) >> q.k;
    return (exact > device ? exact - device : device - exact) > (uint64_t)q.t;
}

/* The least n below `end` with a difference, or `end`. */
static int64_t scan(struct constants q, int64_t end)
{
    int64_t n = 0;
    while (n < end && !differs(q, n))
        n++;
    return n;
}

int64_t plain_first_difference(struct constants q, int64_t end)
{
    return allowed(q) && !outside(0, PAPER_END_MAX, end) ? scan(q, end) : -9;
}

int64_t plain_check_bound(struct constants q, int64_t bound, int64_t *least)
{
    int64_t first;
    if (!allowed(q) || outside(0, PAPER_BOUND_MAX, bound))
        return -9;
    first = scan(q, bound + 1);
    if (first > bound)
        return -11;
    if (first == bound)
        return 0;
    *least = first;
    return -10;
}
