/*
 * Reads claims, a line a b d m c k t bound for each, and prints a line for each as check_sheet does, by trying every n up to its
 * bound: see plain_constants.c. Nothing of the library is in it.
 */
#include <inttypes.h>
#include <stdio.h>

#include "plain.h"

int main(void)
{
    struct constants q;
    int64_t bound, place;
    for (place = 0; scanf("%" SCNd64 "%" SCNd64 "%" SCNd64 "%" SCNd64 "%" SCNd64 "%" SCNd64 "%" SCNd64 "%" SCNd64, &q.a, &q.b, &q.d,
                          &q.m, &q.c, &q.k, &q.t, &bound) == 8; place++) {
        int64_t least = 0, answer = plain_check_bound(q, bound, &least);
        if (answer == 0)
            printf("%" PRId64 " accepted\n", place);
        else if (answer == -10)
            printf("%" PRId64 " 10 %" PRId64 "\n", place, least);
        else
            printf("%" PRId64 " %" PRId64 "\n", place, -answer);
    }
    return 0;
}
