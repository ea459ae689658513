/*
 * Prints the first and the last day of every month of the calendar from the library's calls, a line for each month as tools/dates.py
 * prints it: of each day the year, month and day of its count, the count, and the weekday. Compiled as C and as C++.
 */
#include <inttypes.h>
#include <stdio.h>

#include "ovenquill.h"

/* What a place holds that a refused call leaves as it was; no year, month or day is that. */
#define UNCHANGED INT64_MIN

static void print_day(int64_t year, int64_t month, int64_t day)
{
    int64_t days = UNCHANGED;
    ovenquill_date date = {UNCHANGED, UNCHANGED, UNCHANGED};
    ovenquill_days_from_civil(year, month, day, &days);
    ovenquill_civil_from_days(days, &date);
    printf("%" PRId64 " %" PRId64 " %" PRId64 " %" PRId64 " %" PRId64, date.year, date.month, date.day, days, ovenquill_weekday(days));
}

int main(void)
{
    int64_t year, month;
    for (year = OVENQUILL_FIRST_YEAR; year <= OVENQUILL_LAST_YEAR; year++)
        for (month = OVENQUILL_FIRST_MONTH; month <= OVENQUILL_LAST_MONTH; month++) {
            print_day(year, month, 1);
            putchar(' ');
            print_day(year, month, ovenquill_last_day_of_month(year, month));
            putchar('\n');
        }
    return fflush(stdout) != 0 || ferror(stdout);
}
