/*
 * Week dates and their labels, held to plain.h: every day there and back, numbers that are week dates and that are not, and labels
 * of every kind. Places, labels and buffers are heap blocks of exactly their size, but for those of the days. An argument n is the
 * step: only every n-th day, year and random label is asked about. Compiled as C and as C++.
 */
#include <stdlib.h>
#include <string.h>

#include "lent.h"
#include "ovenquill.h"
#include "plain.h"
#include "random.h"
#include "texts.h"

#define LABEL OVENQUILL_WEEK_LABEL_BYTES

/* Every day */

static void check_week_date(int64_t days, const int64_t *right)
{
    ovenquill_week_date got = {INT64_MIN, INT64_MIN, INT64_MIN};
    int64_t again = INT64_MIN;
    same("week from days", days, ovenquill_week_from_days(days, &got), 0);
    same("week year", days, got.year, right[0]);
    same("week", days, got.week, right[1]);
    same("weekday", days, got.weekday, right[2]);
    same("days from week", days, ovenquill_days_from_week(right[0], right[1], right[2], &again), 0);
    same("days from week", days, again, days);
}

/* The label of a day is read as that day; what is left where there is none is not read. */
static void check_label(int64_t days, int has_label)
{
    uint8_t got[LABEL], right[LABEL];
    int64_t again = INT64_MIN;
    memset(got, '?', LABEL);
    memset(right, '?', LABEL);
    same("write week", days, ovenquill_write_week(days, got, LABEL), plain_write_week(days, right, LABEL));
    same("week label", days, memcmp(got, right, LABEL), 0);
    same("read week", days, ovenquill_read_week(got, LABEL, &again), has_label ? 0 : OVENQUILL_MALFORMED_LABEL);
    same("read week", days, again, has_label ? days : INT64_MIN);
}

static void check_day(int64_t days)
{
    int64_t right[3] = {0, 0, 0};
    same("plain week from days", days, plain_week_from_days(days, right), 0);
    check_week_date(days, right);
    check_label(days, !outside(PAPER_FIRST_LABEL_YEAR, PAPER_LAST_LABEL_YEAR, right[0]));
}

/* Every day by the step, and the last one in any case. */
static void check_days(int64_t step)
{
    int64_t days;
    for (days = OVENQUILL_FIRST_COUNT; days < OVENQUILL_LAST_COUNT; days += step)
        check_day(days);
    check_day(OVENQUILL_LAST_COUNT);
}

/* New Year */

static ovenquill_week_date week_of_date(int64_t year, int64_t month, int64_t day)
{
    ovenquill_week_date week = {INT64_MIN, INT64_MIN, INT64_MIN};
    int64_t days = INT64_MIN;
    same("days of a date", year, ovenquill_days_from_civil(year, month, day, &days), 0);
    same("week of a date", year, ovenquill_week_from_days(days, &week), 0);
    return week;
}

/* "4 January lies in week 1 of its year; a year has 52 or 53 weeks." So 28 December, a week before 4 January, lies in the last. */
static void check_first_and_last_week(int64_t year)
{
    const ovenquill_week_date first = week_of_date(year, 1, 4), last = week_of_date(year, 12, 28);
    int64_t days = 7;
    same("week year of 4 January", year, first.year, year);
    same("week of 4 January", year, first.week, 1);
    same("week year of 28 December", year, last.year, year);
    same("week of 28 December is 52 or 53", year, last.week == 52 || last.week == 53, 1);
    same("a week too many", year, ovenquill_days_from_week(year, last.week + 1, last.weekday, &days), OVENQUILL_WEEK_OUT_OF_RANGE);
    same("the days of a week too many", year, days, 7);
}

/* A year begins a week exactly if it begins with a Monday. */
static void check_new_year(int64_t year)
{
    const ovenquill_week_date before = week_of_date(year - 1, 12, 31), first = week_of_date(year, 1, 1);
    if (first.weekday == OVENQUILL_MONDAY) {
        same("week year of a Monday, 1 January", year, first.year, year);
        same("week of a Monday, 1 January", year, first.week, 1);
        same("week year of the day before a Monday, 1 January", year, before.year, year - 1);
        same("weekday before a Monday, 1 January", year, before.weekday, OVENQUILL_SUNDAY);
    } else {
        same("week year of 31 December", year, before.year, first.year);
        same("week of 31 December", year, before.week, first.week);
        same("weekday of 31 December", year, before.weekday, first.weekday - 1);
    }
}

static void check_new_years(int64_t step)
{
    int64_t year;
    for (year = OVENQUILL_FIRST_YEAR; year <= OVENQUILL_LAST_YEAR; year += step) {
        check_first_and_last_week(year);
        if (year > OVENQUILL_FIRST_YEAR)
            check_new_year(year);
    }
}

/* Counts and numbers, in the range and not */

/* Ends of ranges and of types, numbers that are right modulo 2^8, 2^16 or 2^32, and one whose 7-fold is 5 modulo 2^64. */
static const int64_t edges[] = {
    INT64_MIN, INT64_MIN + 1, INT32_MIN, OVENQUILL_FIRST_COUNT - 1, OVENQUILL_FIRST_COUNT, OVENQUILL_FIRST_WEEK_YEAR - 1,
    OVENQUILL_FIRST_WEEK_YEAR, -401, -256, -2, -1, 0, 1, 4, 7, 8, 52, 53, 54, 256 + 1, 400, 2020, 2021,
    OVENQUILL_LAST_LABEL_YEAR, OVENQUILL_LAST_LABEL_YEAR + 1, OVENQUILL_LAST_WEEK_YEAR, OVENQUILL_LAST_WEEK_YEAR + 1, 65536 + 1,
    OVENQUILL_LAST_COUNT, OVENQUILL_LAST_COUNT + 1, INT32_MAX, (INT64_C(1) << 32) + 1, (INT64_C(1) << 32) + 2020,
    INT64_C(2635249153387078803), INT64_MAX - 1, INT64_MAX,
};

static void try_write(int64_t days, size_t length)
{
    uint8_t *out = (uint8_t *)lend(length), *right = (uint8_t *)lend(length);
    same("ovenquill_write_week", days, ovenquill_write_week(days, out, length), plain_write_week(days, right, length));
    hold("ovenquill_write_week", days, out, right, length);
}

/* Buffers of every length up to MOST bytes, and one that is 10 bytes modulo 256. */
static void try_count(int64_t days)
{
    enum { MOST = 24 };
    size_t length;
    SAME_WITH_PLACE(ovenquill_week_date, days, ovenquill_week_from_days(days, lent), plain_week_from_days(days, right));
    for (length = 0; length <= MOST; length++)
        try_write(days, length);
    try_write(days, 256 + LABEL);
}

/* The edges, and the days around the ends of the range and of the years that labels have. */
static void check_counts(void)
{
    int64_t away;
    size_t i;
    for (i = 0; i < COUNT(edges); i++)
        try_count(edges[i]);
    for (away = -40; away <= 40; away++) {
        try_count(OVENQUILL_FIRST_COUNT + away);
        try_count(PAPER_FIRST_LABEL_DAY + away);
        try_count(PAPER_LAST_LABEL_DAY + away);
        try_count(OVENQUILL_LAST_COUNT + away);
    }
}

static void try_numbers(int64_t year, int64_t week, int64_t weekday)
{
    const long before = failures;
    SAME_WITH_PLACE(int64_t, year, ovenquill_days_from_week(year, week, weekday, lent),
                    plain_days_from_week(year, week, weekday, right));
    if (failures != before && before < MOST_SHOWN)
        fprintf(stderr, "  the week %" PRId64 " and the weekday %" PRId64 "\n", week, weekday);
}

/* Every week and weekday, and those beside them, of years with 52 and 53 weeks, of the limits, and beside them. */
static void check_grids(void)
{
    static const int64_t years[] = {-32003, -32002, -32001, -32000, -31999, -401, -400, -101, -100, -5,   -4,   -3,    -2,    -1,
                                    0,      1,      2,      3,      4,      5,    1899, 1900, 1902, 1903, 1904, 2000,  2003,  2004,
                                    2005,   2014,   2015,   2016,   2019,   2020, 2021, 2025, 2026, 2027, 9996, 9997,  9998,  9999,
                                    10000,  10001,  31998,  31999,  32000,  32001};
    size_t i;
    for (i = 0; i < COUNT(years); i++) {
        int64_t week, weekday;
        for (week = -2; week <= 56; week++)
            for (weekday = -1; weekday <= 9; weekday++)
                try_numbers(years[i], week, weekday);
    }
}

/* The ends of every year. */
static void check_years(int64_t step)
{
    static const int64_t weeks[] = {0, 1, 52, 53, 54}, weekdays[] = {0, OVENQUILL_MONDAY, OVENQUILL_SUNDAY, 8};
    int64_t year;
    for (year = OVENQUILL_FIRST_WEEK_YEAR - 1; year <= OVENQUILL_LAST_WEEK_YEAR + 1; year += step) {
        size_t i, j;
        for (i = 0; i < COUNT(weeks); i++)
            for (j = 0; j < COUNT(weekdays); j++)
                try_numbers(year, weeks[i], weekdays[j]);
    }
}

/* Each edge as each number. */
static void check_edges(void)
{
    size_t i, j, k;
    for (i = 0; i < COUNT(edges); i++)
        for (j = 0; j < COUNT(edges); j++)
            for (k = 0; k < COUNT(edges); k++)
                try_numbers(edges[i], edges[j], edges[k]);
}

/* Labels to read */

static void try_read(const void *label, size_t length)
{
    const long before = failures;
    uint8_t *lent_label = (uint8_t *)lend_copy(label, length), *same_label = (uint8_t *)lend_copy(label, length);
    SAME_WITH_PLACE(int64_t, (int64_t)length, ovenquill_read_week(lent_label, length, lent),
                    plain_read_week(same_label, length, right));
    hold("ovenquill_read_week in its label", (int64_t)length, lent_label, same_label, length);
    show_failed_text(before, label, length);
}

/* Labels that are right, the last of 10000-01-02. */
static const char *const right_labels[] = {"2023-W19-3", "2020-W53-4", "0000-W01-1", "1999-W52-7", "9999-W52-5", "9999-W52-7"};

static const char *const wrong_labels[] = {
    "-001-W52-6", "+023-W19-3", " 023-W19-3", "2023-w19-3", "2023-W 1-3", "2023-W+1-3", "2023-W1-03", "2023W19-03",
    "2023-W193-", "2023-05-10", "2023/W19/3", "2023-W19-:", "2023-W19-A", "2023-W00-1", "2023-W53-1", "2023-W01-0",
    "2023-W01-8", "9999-W53-1", "2023-W19", "2023W193", "2023-W1-3", "10000-W01-1", "2023-W019-3", "2023-W19-03",
    "-0001-W52-6", "2023-W19-3Z", "2023-W19-3\n", "31999-W52-5", "-2000-W01-1", "-32001-W52-6",
};

/* A label cut off and followed by another, and the end of one. */
static void check_lengths(void)
{
    size_t i, length;
    for (i = 0; i < COUNT(right_labels); i++) {
        char three[3 * LABEL + 1];
        snprintf(three, sizeof three, "%s%s%s", right_labels[i], right_labels[i], right_labels[i]);
        for (length = 0; length <= 3 * LABEL; length++) {
            try_read(three, length);
            try_read(three + 3 * LABEL - length, length);
        }
    }
}

/* A label with others behind it, also of 10 bytes modulo 2^8 and 2^16. */
static void check_long_lengths(void)
{
    static const size_t lengths[] = {64, 255, 256, 256 + LABEL, 4096, 65536, 65536 + LABEL};
    static char labels[65536 + LABEL];
    size_t i;
    for (i = 0; i < sizeof labels; i++)
        labels[i] = right_labels[0][i % LABEL];
    for (i = 0; i < COUNT(lengths); i++)
        try_read(labels, lengths[i]);
}

/* Every byte at every place. */
static void check_damaged(void)
{
    size_t i, place, byte;
    for (i = 0; i < COUNT(right_labels); i++)
        for (place = 0; place < LABEL; place++)
            for (byte = 0; byte < 256; byte++) {
                uint8_t label[LABEL];
                memcpy(label, right_labels[i], LABEL);
                label[place] = (uint8_t)byte;
                try_read(label, LABEL);
            }
}

/* Bytes that are right at some place, those beside them, and those with other upper bits, at every two places. */
static void check_damaged_twice(void)
{
    static const uint8_t bytes[] = {0x00, 0x0d, 0x10, 0x19, ' ',  '+',  ',',  '-',  '.',  '/',  '0',  '5',  '9',  ':',
                                    'V',  'W',  'X',  'w',  0x70, 0x7f, 0x80, 0xad, 0xb0, 0xb9, 0xd7, 0xf0, 0xff};
    size_t place, other, i, j;
    for (place = 0; place < LABEL; place++)
        for (other = place + 1; other < LABEL; other++)
            for (i = 0; i < COUNT(bytes); i++)
                for (j = 0; j < COUNT(bytes); j++) {
                    uint8_t label[LABEL];
                    memcpy(label, right_labels[0], LABEL);
                    label[place] = bytes[i];
                    label[other] = bytes[j];
                    try_read(label, LABEL);
                }
}

static void try_digits(int64_t year, int64_t week, int64_t weekday)
{
    char label[80];
    snprintf(label, sizeof label, PAPER_WEEK_LABEL, (int)year, (int)week, (int)weekday);
    try_read(label, LABEL);
}

/* Every week and weekday that digits can say. */
static void check_digits(void)
{
    static const int64_t years[] = {0, 1, 4, 999, 1000, 1900, 2000, 2020, 2021, 9997, 9998, 9999};
    size_t i;
    for (i = 0; i < COUNT(years); i++) {
        int64_t week, weekday;
        for (week = 0; week <= 99; week++)
            for (weekday = 0; weekday <= 9; weekday++)
                try_digits(years[i], week, weekday);
    }
}

static void check_random(int64_t rounds)
{
    while (rounds-- > 0) {
        uint8_t label[LABEL];
        size_t i;
        try_numbers(random_within(OVENQUILL_FIRST_WEEK_YEAR - 9, OVENQUILL_LAST_WEEK_YEAR + 9), random_within(-1, 55),
                    random_within(-1, 9));
        try_digits(random_within(0, 9999), random_within(0, 54), random_within(0, 8));
        for (i = 0; i < LABEL; i++)
            label[i] = (uint8_t)random_within(0, 255);
        try_read(label, LABEL);
    }
}

static void check_labels(int64_t step)
{
    size_t i;
    for (i = 0; i < COUNT(wrong_labels); i++)
        try_read(wrong_labels[i], strlen(wrong_labels[i]));
    check_lengths();
    check_long_lengths();
    check_damaged();
    check_damaged_twice();
    check_digits();
    check_random(20000 / step);
}

int main(int argc, char **argv)
{
    const int64_t step = argc > 1 ? atoi(argv[1]) : 1;
    check_days(step);
    check_new_years(step);
    check_counts();
    check_grids();
    check_years(step);
    check_edges();
    check_labels(step);
    return finish("week dates");
}
