/*
 * Change request Ten: the three ways from a day count to a date, and the shift of day 0, held to one another and to plain.h, for
 * every count of the range; and refused counts, the first and the last hundred beyond the range, those at the ends of int64_t, and
 * those whose lowest 32 bits are those of a count of the range. An argument n is the step: only every n-th count of the range is
 * asked about. Compiled as C and as C++.
 */
#include "lent.h"
#include "ovenquill.h"
#include "plain.h"
#include "random.h"

struct way {
    const char *name;
    int64_t (*date_of)(int64_t days, ovenquill_date *date);
};

/* Day 0, shifted: the way by products alone, which shifts and splits go. */
static int64_t shifted(int64_t days, ovenquill_date *date)
{
    return ovenquill_add_days(1970, 1, 1, days, date);
}

static const struct way ways[] = {
    {"by products and a table of days", ovenquill_civil_from_days},
    {"by products alone", shifted},
    {"by divisions", ovenquill_civil_from_days_plain},
    {"by a table of years", ovenquill_civil_from_days_audit},
};

static void same_date(const char *what, int64_t input, const ovenquill_date *got, const int64_t *right)
{
    same(what, input, got->year, right[0]);
    same(what, input, got->month, right[1]);
    same(what, input, got->day, right[2]);
}

/* A count of the range: the first way has the date of plain.h, and each other way has that of the way before it. */
static void check_count(int64_t days)
{
    int64_t right[3];
    size_t i;
    same("plain date", days, plain_civil_from_days(days, right), 0);
    for (i = 0; i < COUNT(ways); i++) {
        ovenquill_date date = {-1, -1, -1};
        same(ways[i].name, days, ways[i].date_of(days, &date), 0);
        same_date(ways[i].name, days, &date, right);
        memcpy(right, &date, sizeof date);
    }
}

/* A count outside the range: each way refuses it and leaves the place as it was. */
static void check_refused(int64_t days)
{
    same("a refused count is outside", days, outside(PAPER_FIRST_COUNT, PAPER_LAST_COUNT, days), 1);
    SAME_WITH_PLACE(ovenquill_date, days, ovenquill_civil_from_days(days, lent), OVENQUILL_OUT_OF_RANGE);
    SAME_WITH_PLACE(ovenquill_date, days, shifted(days, lent), OVENQUILL_OUT_OF_RANGE);
    SAME_WITH_PLACE(ovenquill_date, days, ovenquill_civil_from_days_plain(days, lent), OVENQUILL_OUT_OF_RANGE);
    SAME_WITH_PLACE(ovenquill_date, days, ovenquill_civil_from_days_audit(days, lent), OVENQUILL_OUT_OF_RANGE);
}

static void check_beyond(void)
{
    enum { BEYOND = 100 };
    int64_t i;
    for (i = 0; i < BEYOND; i++) {
        check_refused(PAPER_FIRST_COUNT - 1 - i);
        check_refused(PAPER_LAST_COUNT + 1 + i);
        check_refused(INT64_MIN + i);
        check_refused(INT64_MAX - i);
    }
}

/* Counts whose lowest 32 bits are those of a count of the range, and random ones of every length beyond it. */
static void check_far(void)
{
    int64_t i, bits;
    for (i = 1; i <= INT32_MAX; i *= 2) {
        const int64_t moved = i << 32, inside = random_within(PAPER_FIRST_COUNT, PAPER_LAST_COUNT);
        check_refused(PAPER_FIRST_COUNT + moved);
        check_refused(PAPER_LAST_COUNT - moved);
        check_refused(inside + moved);
        check_refused(inside - moved);
    }
    for (bits = 24; bits < 63; bits++)
        for (i = 0; i < 100; i++) {
            const int64_t length = (int64_t)1 << bits, far = length + random_within(0, length - 1);
            check_refused(far);
            check_refused(-far);
        }
}

int main(int argc, char **argv)
{
    const int64_t step = argc > 1 ? atoi(argv[1]) : 1;
    int64_t days;
    for (days = PAPER_FIRST_COUNT; days <= PAPER_LAST_COUNT; days += step)
        check_count(days);
    check_count(PAPER_LAST_COUNT);
    check_beyond();
    check_far();
    return finish("three ways");
}
