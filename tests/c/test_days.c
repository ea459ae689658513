/*
 * Every day of the calendar, walked from the first one by document 01's steps: each call that takes or gives a day, a date or an
 * instant. An argument n is the step: only every n-th day is asked about. Compiled as C and as C++.
 */
#include <stdlib.h>
#include <string.h>

#include "checks.h"
#include "ovenquill.h"
#include "plain.h"

/* `in_week` is the place of the weekday in paper_week. */
struct day {
    int64_t count, of_year;
    size_t in_week;
    ovenquill_date date;
};

/* A Saturday as 0000-01-01 is, since 80 times 400 years are whole weeks. */
static const struct day first_day = {OVENQUILL_FIRST_COUNT, 1, 2, {OVENQUILL_FIRST_YEAR, 1, 1}};

/* The day after a day. */
static struct day next(struct day d)
{
    d.count++;
    d.of_year++;
    d.in_week = (d.in_week + 1) % COUNT(paper_week);
    if (++d.date.day > plain_month_length(d.date.year, d.date.month)) {
        d.date.day = 1;
        if (++d.date.month > 12) {
            d.date.month = 1;
            d.of_year = 1;
            d.date.year++;
        }
    }
    return d;
}

static void same_date(const char *what, int64_t input, ovenquill_date got, ovenquill_date right)
{
    same(what, input, got.year, right.year);
    same(what, input, got.month, right.month);
    same(what, input, got.day, right.day);
}

static void check_date(struct day d)
{
    static const ovenquill_date last = {OVENQUILL_LAST_YEAR, 12, 31};
    ovenquill_date date = {-1, -1, -1};
    const int64_t n = d.count;
    int64_t days = INT64_MIN;
    same("weekday", n, ovenquill_weekday(n), paper_week[d.in_week]);
    same("days from civil", n, ovenquill_days_from_civil(d.date.year, d.date.month, d.date.day, &days), 0);
    same("days from civil", n, days, n);
    same("civil from days", n, ovenquill_civil_from_days(n, &date), 0);
    same_date("civil from days", n, date, d.date);
    same("is leap", n, ovenquill_is_leap(d.date.year), plain_is_leap(d.date.year));
    same("last day of month", n, ovenquill_last_day_of_month(d.date.year, d.date.month),
         plain_month_length(d.date.year, d.date.month));
    same("day of year", n, ovenquill_day_of_year(d.date.year, d.date.month, d.date.day), d.of_year);
    same("add days to the first", n, ovenquill_add_days(OVENQUILL_FIRST_YEAR, 1, 1, n - OVENQUILL_FIRST_COUNT, &date), 0);
    same_date("add days to the first", n, date, d.date);
    same("add days to the last", n,
         ovenquill_add_days(d.date.year, d.date.month, d.date.day, OVENQUILL_LAST_COUNT - n, &date), 0);
    same_date("add days to the last", n, date, last);
}

/* The label of an instant is read as that instant; what is left where its year has none is not read. */
static void check_label(int64_t instant, int has_label)
{
    uint8_t label[OVENQUILL_INSTANT_LABEL_BYTES], right[OVENQUILL_INSTANT_LABEL_BYTES];
    int64_t read = INT64_MIN;
    memset(label, '?', sizeof label);
    memset(right, '?', sizeof right);
    same("write instant", instant, ovenquill_write_instant(instant, label, sizeof label),
         plain_write_instant(instant, right, sizeof right));
    same("label of an instant", instant, memcmp(label, right, sizeof label), 0);
    same("read instant", instant, ovenquill_read_instant(label, sizeof label, &read), has_label ? 0 : OVENQUILL_MALFORMED_LABEL);
    same("read instant", instant, read, has_label ? instant : INT64_MIN);
}

static void check_instant(struct day d, int64_t time)
{
    const int64_t instant = d.count * OVENQUILL_INSTANTS_PER_DAY + time;
    int64_t fields[7], right[7], days = INT64_MIN, joined = INT64_MIN;
    ovenquill_fields f = {-1, -1, -1, -1, -1, -1, -1};
    size_t i;
    same("day of instant", instant, ovenquill_day_of_instant(instant, &days), 0);
    same("day of instant", instant, days, d.count);
    same("split instant", instant, ovenquill_split_instant(instant, &f), 0);
    plain_split_instant(instant, right);
    memcpy(fields, &f, sizeof fields);
    for (i = 0; i < COUNT(fields); i++)
        same("field of an instant", instant, fields[i], right[i]);
    same("year of an instant", instant, f.year, d.date.year);
    same("month of an instant", instant, f.month, d.date.month);
    same("day of an instant", instant, f.day, d.date.day);
    same("join instant", instant,
         ovenquill_join_instant(f.year, f.month, f.day, f.hour, f.minute, f.second, f.millisecond, &joined), 0);
    same("join instant", instant, joined, instant);
    check_label(instant, !outside(PAPER_FIRST_LABEL_YEAR, PAPER_LAST_LABEL_YEAR, d.date.year));
}

/* A time of day that differs from day to day. */
static int64_t time_between(int64_t count)
{
    return (count - OVENQUILL_FIRST_COUNT) * 7919 % OVENQUILL_INSTANTS_PER_DAY;
}

static void check_instants(struct day d)
{
    check_instant(d, 0);
    check_instant(d, time_between(d.count));
    check_instant(d, OVENQUILL_INSTANTS_PER_DAY - 1);
}

/* An index of an instant from each day, beginning with one; answers the day from which the next index goes on. */
static int64_t check_index(int64_t first, int64_t step)
{
    enum { MOST = 1 << 20 };
    static int64_t instants[MOST];
    static int32_t days[MOST];
    int64_t place = -1, day = first;
    size_t count, i;
    for (count = 0; count < MOST && day <= OVENQUILL_LAST_COUNT; count++, day += step)
        instants[count] = day * OVENQUILL_INSTANTS_PER_DAY + time_between(day);
    same("index days", first, ovenquill_index_days(instants, count, days, count, &place), (int64_t)count);
    same("place of an accepted index", first, place, -1);
    for (i = 0; i < count; i++)
        same("day of an index", instants[i], days[i], first + (int64_t)i * step);
    return day;
}

int main(int argc, char **argv)
{
    const int64_t step = argc > 1 ? atoi(argv[1]) : 1;
    int64_t indexed = OVENQUILL_FIRST_COUNT;
    struct day d;
    for (d = first_day; d.count <= OVENQUILL_LAST_COUNT; d = next(d))
        if ((d.count - OVENQUILL_FIRST_COUNT) % step == 0 || d.count == OVENQUILL_LAST_COUNT) {
            check_date(d);
            check_instants(d);
        }
    same("year after the last day", d.count, d.date.year, OVENQUILL_LAST_YEAR + 1);
    while (indexed <= OVENQUILL_LAST_COUNT)
        indexed = check_index(indexed, step);
    return finish("days");
}
