/* The calendar: document 01, "Calendar rules", in change request Eight's range. */
#include "plain.h"

static int leap(int64_t year)
{
    return year % 4 == 0 && !(year % 100 == 0 && year % 400 != 0);
}

int64_t plain_month_length(int64_t year, int64_t month)
{
    static const int lengths[12] = {31, 28, 31, 30, 31, 30, 31, 31, 30, 31, 30, 31};
    return month == 2 && leap(year) ? 29 : lengths[month - 1];
}

/* Counted year by year, forwards and backwards from year 0. */
int64_t plain_year_start(int64_t year)
{
    static int64_t starts[PAPER_LAST_YEAR - PAPER_FIRST_YEAR + 5];
    int64_t *const of_year = starts + 2 - PAPER_FIRST_YEAR;
    if (of_year[0] == 0) {
        int64_t y;
        of_year[0] = PAPER_YEAR_ZERO_COUNT;
        for (y = 1; y <= PAPER_LAST_YEAR + 2; y++)
            of_year[y] = of_year[y - 1] + (leap(y - 1) ? 366 : 365);
        for (y = -1; y >= PAPER_FIRST_YEAR - 2; y--)
            of_year[y] = of_year[y + 1] - (leap(y) ? 366 : 365);
    }
    return of_year[year];
}

/* Searched for from a year near it: 400 years have some 146097 days. */
int64_t plain_year_of(int64_t days)
{
    int64_t year = PAPER_FIRST_YEAR + (days - PAPER_FIRST_COUNT) * 400 / 146097;
    while (plain_year_start(year) > days)
        year--;
    while (plain_year_start(year + 1) <= days)
        year++;
    return year;
}

/* The first of refusals 1, 2 and 3 that a date has, negated, or 0. */
static int date_refusal(int64_t year, int64_t month, int64_t day)
{
    if (outside(PAPER_FIRST_YEAR, PAPER_LAST_YEAR, year))
        return -1;
    if (outside(1, 12, month))
        return -2;
    return outside(1, plain_month_length(year, month), day) ? -3 : 0;
}

/* The day of the year, from 1, of a date that has no refusal. */
static int64_t day_of_year(int64_t year, int64_t month, int64_t day)
{
    int64_t m;
    for (m = 1; m < month; m++)
        day += plain_month_length(year, m);
    return day;
}

int64_t plain_days_from_civil(int64_t year, int64_t month, int64_t day, int64_t *days)
{
    int refusal = date_refusal(year, month, day);
    if (refusal == 0)
        *days = plain_year_start(year) + day_of_year(year, month, day) - 1;
    return refusal;
}

int64_t plain_civil_from_days(int64_t days, int64_t *date)
{
    int64_t year, month = 1, rest;
    if (outside(PAPER_FIRST_COUNT, PAPER_LAST_COUNT, days))
        return -4;
    year = plain_year_of(days);
    rest = days - plain_year_start(year);
    while (rest >= plain_month_length(year, month))
        rest -= plain_month_length(year, month++);
    date[0] = year;
    date[1] = month;
    date[2] = rest + 1;
    return 0;
}

int64_t plain_any_weekday(int64_t days)
{
    return paper_week[(days % 7 + 7) % 7];
}

int64_t plain_weekday(int64_t days)
{
    return outside(PAPER_FIRST_COUNT, PAPER_LAST_COUNT, days) ? -4 : plain_any_weekday(days);
}

int64_t plain_is_leap(int64_t year)
{
    return outside(PAPER_FIRST_YEAR, PAPER_LAST_YEAR, year) ? -1 : leap(year);
}

int64_t plain_last_day_of_month(int64_t year, int64_t month)
{
    int refusal = date_refusal(year, month, 1);
    return refusal != 0 ? refusal : plain_month_length(year, month);
}

int64_t plain_day_of_year(int64_t year, int64_t month, int64_t day)
{
    int refusal = date_refusal(year, month, day);
    return refusal != 0 ? refusal : day_of_year(year, month, day);
}

int64_t plain_add_days(int64_t year, int64_t month, int64_t day, int64_t days, int64_t *date)
{
    int64_t from;
    int64_t refusal = plain_days_from_civil(year, month, day, &from);
    if (refusal != 0)
        return refusal;
    if (outside(PAPER_FIRST_COUNT - from, PAPER_LAST_COUNT - from, days))
        return -4;
    return plain_civil_from_days(from + days, date);
}
