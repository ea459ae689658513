/*
 * Writes what the library answers about week dates to standard output, for tests/test_weeks.py: for each cycle of 400 years the
 * numbers of its days, one kind after the other, and then their labels; and at last the days of the first and the last week dates of
 * each week year. Numbers are int32_t as the machine has them. Compiled as C and as C++.
 */
#include <stdio.h>
#include <string.h>

#include "ovenquill.h"

#define COUNT(array) (sizeof(array) / sizeof(array)[0])

/* The days of 400 years. */
#define CYCLE 146097

/* What a place holds that a refused call leaves as it was. */
#define UNCHANGED 77

/* The week date of a day, the day of that, and the day that is read from its label, with what the four calls answered. */
enum number { YEAR, WEEK, WEEKDAY, WEEK_ANSWER, AGAIN, AGAIN_ANSWER, WRITE_ANSWER, READ, READ_ANSWER, NUMBERS };

static int32_t numbers[NUMBERS][CYCLE];
static uint8_t labels[CYCLE][OVENQUILL_WEEK_LABEL_BYTES];

/* A number that 32 bits do not hold is none that is right. */
static int32_t narrow(int64_t n)
{
    return n < INT32_MIN || n > INT32_MAX ? INT32_MIN : (int32_t)n;
}

static void fill(int64_t days, size_t place)
{
    ovenquill_week_date week = {UNCHANGED, UNCHANGED, UNCHANGED};
    uint8_t *label = labels[place];
    int64_t again = UNCHANGED, read = UNCHANGED;
    memset(label, '?', OVENQUILL_WEEK_LABEL_BYTES);
    numbers[WEEK_ANSWER][place] = narrow(ovenquill_week_from_days(days, &week));
    numbers[AGAIN_ANSWER][place] = narrow(ovenquill_days_from_week(week.year, week.week, week.weekday, &again));
    numbers[WRITE_ANSWER][place] = narrow(ovenquill_write_week(days, label, OVENQUILL_WEEK_LABEL_BYTES));
    numbers[READ_ANSWER][place] = narrow(ovenquill_read_week(label, OVENQUILL_WEEK_LABEL_BYTES, &read));
    numbers[YEAR][place] = narrow(week.year);
    numbers[WEEK][place] = narrow(week.week);
    numbers[WEEKDAY][place] = narrow(week.weekday);
    numbers[AGAIN][place] = narrow(again);
    numbers[READ][place] = narrow(read);
}

/* The day of a week date, and what the call answered. */
static void write_week_date(int64_t year, int64_t week, int64_t weekday)
{
    int64_t days = UNCHANGED, answer = ovenquill_days_from_week(year, week, weekday, &days);
    const int32_t pair[2] = {narrow(days), narrow(answer)};
    fwrite(pair, sizeof pair, 1, stdout);
}

int main(void)
{
    /* the calendar ends on a Friday and begins on a Saturday */
    static const int64_t weekdays[] = {0, OVENQUILL_MONDAY, OVENQUILL_FRIDAY, OVENQUILL_SATURDAY, OVENQUILL_SUNDAY, 8};
    static const int64_t weeks[] = {0, 1, 52, 53, 54};
    int64_t first, year;
    size_t i, j;
    for (first = OVENQUILL_FIRST_COUNT; first <= OVENQUILL_LAST_COUNT; first += CYCLE) {
        for (i = 0; i < CYCLE; i++)
            fill(first + (int64_t)i, i);
        fwrite(numbers, sizeof numbers, 1, stdout);
        fwrite(labels, sizeof labels, 1, stdout);
    }
    for (year = OVENQUILL_FIRST_WEEK_YEAR - 1; year <= OVENQUILL_LAST_WEEK_YEAR + 1; year++)
        for (i = 0; i < COUNT(weeks); i++)
            for (j = 0; j < COUNT(weekdays); j++)
                write_week_date(year, weeks[i], weekdays[j]);
    return fflush(stdout) != 0 || ferror(stdout);
}
