/* Week dates and their labels: change requests Seven and Eight. A week date is the week year, the week and the weekday. */
#include <stdio.h>
#include <string.h>

#include "plain.h"

/* The Thursday of a day's week, which begins with a Monday. */
static int64_t thursday_of(int64_t days)
{
    while (plain_any_weekday(days) != MONDAY)
        days--;
    while (plain_any_weekday(days) != THURSDAY)
        days++;
    return days;
}

/* How many Thursdays the year of a Thursday has up to it, itself counted. */
static int64_t thursdays_up_to(int64_t thursday)
{
    const int64_t first_day = plain_year_start(plain_year_of(thursday));
    int64_t count = 0;
    for (; thursday >= first_day; thursday -= 7)
        count++;
    return count;
}

int64_t plain_week_from_days(int64_t days, int64_t *week_date)
{
    int64_t thursday;
    if (outside(PAPER_FIRST_COUNT, PAPER_LAST_COUNT, days))
        return -4;
    thursday = thursday_of(days);
    week_date[0] = plain_year_of(thursday);
    week_date[1] = thursdays_up_to(thursday);
    week_date[2] = plain_any_weekday(days);
    return 0;
}

/* Whether a day, in the range or not, has that week date. */
static int has(int64_t days, int64_t year, int64_t week, int64_t weekday)
{
    return plain_any_weekday(days) == weekday && plain_year_of(thursday_of(days)) == year
           && thursdays_up_to(thursday_of(days)) == week;
}

/* Tries every day of the calendar year and of the weeks before and after it: no other day has a Thursday of that year. */
int64_t plain_days_from_week(int64_t year, int64_t week, int64_t weekday, int64_t *days)
{
    int64_t day;
    if (outside(PAPER_FIRST_WEEK_YEAR, PAPER_LAST_WEEK_YEAR, year))
        return -1;
    for (day = plain_year_start(year) - 7; day < plain_year_start(year + 1) + 7; day++)
        if (has(day, year, week, weekday)) {
            if (outside(PAPER_FIRST_COUNT, PAPER_LAST_COUNT, day))
                return -4;
            *days = day;
            return 0;
        }
    return -16;
}

int64_t plain_write_week(int64_t days, uint8_t *out, size_t length)
{
    int64_t w[3];
    char label[80];
    if (plain_week_from_days(days, w) != 0)
        return -4;
    if (outside(PAPER_FIRST_LABEL_YEAR, PAPER_LAST_LABEL_YEAR, w[0]))
        return -1;
    if (length < PAPER_WEEK_LABEL_BYTES)
        return -7;
    snprintf(label, sizeof label, PAPER_WEEK_LABEL, (int)w[0], (int)w[1], (int)w[2]);
    memcpy(out, label, PAPER_WEEK_LABEL_BYTES);
    return PAPER_WEEK_LABEL_BYTES;
}

int64_t plain_read_week(const uint8_t *label, size_t length, int64_t *days)
{
    char shape[80]; /* 0 for a digit; a hyphen ends a field */
    int64_t fields[3] = {0, 0, 0};
    size_t i, field = 0;
    snprintf(shape, sizeof shape, PAPER_WEEK_LABEL, 0, 0, 0);
    if (length != strlen(shape))
        return -8;
    for (i = 0; i < length; i++) {
        if (shape[i] == '0' ? outside('0', '9', label[i]) : label[i] != shape[i])
            return -8;
        if (shape[i] == '0')
            fields[field] = fields[field] * 10 + label[i] - '0';
        else if (shape[i] == '-')
            field++;
    }
    return plain_days_from_week(fields[0], fields[1], fields[2], days);
}
