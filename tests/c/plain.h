/*
 * Document 01 and change requests One and Three to Nine in plain C, written from their text and sharing nothing with the
 * library: years are counted one by one, weeks by their Thursdays, the day of a week date is searched for, labels go by
 * snprintf, the readers of instants and week dates go byte by byte, those of timestamps and cue lines take one part after the
 * other, the constants go by trying every n, a sheet by trying every number of records, and a step of the transport clock by trying
 * three. Each call here has the answer, and leaves in what it is lent the bytes, that the library's call of the same name must have
 * and leave: a date and a week date are three numbers, fields are seven, a cue and a clock are two, a record is eight. The three
 * ways to the date of a count that the library has since change request Ten have one call here.
 */
#ifndef PLAIN_H
#define PLAIN_H

#include <stddef.h>
#include <stdint.h>

/* Document 01's numbers, in the order of its sections; the range is change request Eight's. */

#define PAPER_YEAR_ZERO_COUNT (-719528)
#define PAPER_FIRST_YEAR (-32000)
#define PAPER_LAST_YEAR 31999
#define PAPER_FIRST_COUNT (-12407288)
#define PAPER_LAST_COUNT 10968231

/* As change request Four numbers them. */
enum paper_weekday { MONDAY = 1, TUESDAY, WEDNESDAY, THURSDAY, FRIDAY, SATURDAY, SUNDAY };

/* The weekdays of day 0 and of the six after it. */
static const int64_t paper_week[7] = {THURSDAY, FRIDAY, SATURDAY, SUNDAY, MONDAY, TUESDAY, WEDNESDAY};

#define PAPER_SECOND 1000LL
#define PAPER_DAY (86400 * PAPER_SECOND)
#define PAPER_FIRST_INSTANT (PAPER_FIRST_COUNT * PAPER_DAY)
#define PAPER_LAST_INSTANT ((PAPER_LAST_COUNT + 1) * PAPER_DAY - 1)
#define PAPER_INSTANT_LABEL "%04d-%02d-%02dT%02d:%02d:%02d.%03dZ"
#define PAPER_INSTANT_LABEL_BYTES 24
#define PAPER_LAST_POSITION 359999999999LL
#define PAPER_POSITION_LABEL_MIN_BYTES 12
#define PAPER_POSITION_LABEL_MAX_BYTES 15

/* Constants to check: (a*n + b) / d by (m*n + c) >> k, within t. */
struct constants {
    int64_t a, b, d, m, c, k, t;
};

static const struct constants paper_least = {1, 0, 1, 0, 0, 0, 0};
static const struct constants paper_most = {1023, 1023, 1048575, 4294967295LL, 4294967295LL, 47, 255};

#define PAPER_END_MAX 4294967295LL
#define PAPER_BOUND_MAX 4294967294LL
#define PAPER_LAST_REFUSAL 17

/* Change request Five's, in ticks: values are below the wrap, and steps go from the least to before the end. */
#define PAPER_CLOCK_WRAP 8589934592LL
#define PAPER_LEAST_STEP (-4294967296LL)
#define PAPER_STEP_END 4294967296LL
#define PAPER_LAST_CLOCK_POSITION 9007199254740992LL
#define PAPER_TICKS_PER_MILLISECOND 90

/*
 * Change requests Seven's and Eight's: the week years that are given and taken, the years and week years of labels, and the days
 * and instants of these years.
 */
#define PAPER_FIRST_WEEK_YEAR (-32001)
#define PAPER_LAST_WEEK_YEAR 31999
#define PAPER_FIRST_LABEL_YEAR 0
#define PAPER_LAST_LABEL_YEAR 9999
#define PAPER_FIRST_LABEL_DAY PAPER_YEAR_ZERO_COUNT
#define PAPER_LAST_LABEL_DAY 2932896
#define PAPER_FIRST_LABEL_INSTANT (PAPER_FIRST_LABEL_DAY * PAPER_DAY)
#define PAPER_LAST_LABEL_INSTANT ((PAPER_LAST_LABEL_DAY + 1) * PAPER_DAY - 1)
#define PAPER_WEEK_LABEL "%04d-W%02d-%d"
#define PAPER_WEEK_LABEL_BYTES 10

/* Change request Nine's: the most bytes and records of a sheet, and the bytes of 1,024 lines with a least n of ten digits. */
#define PAPER_SHEET_BYTES 65536
#define PAPER_SHEET_RECORDS 1024
#define PAPER_SHEET_REPORT_BYTES 18346

/* The length of a month, 1 to 12, of any year. */
int64_t plain_month_length(int64_t year, int64_t month);

/* The weekday of any day, in the range or not. */
int64_t plain_any_weekday(int64_t days);

/* The count of the first day of a year: one of the range, or one of the two before it or after it. */
int64_t plain_year_start(int64_t year);

/* The year of a day of these years, but for the last of them. */
int64_t plain_year_of(int64_t days);

int64_t plain_days_from_civil(int64_t year, int64_t month, int64_t day, int64_t *days);
int64_t plain_civil_from_days(int64_t days, int64_t *date);
int64_t plain_weekday(int64_t days);
int64_t plain_is_leap(int64_t year);
int64_t plain_last_day_of_month(int64_t year, int64_t month);
int64_t plain_day_of_year(int64_t year, int64_t month, int64_t day);
int64_t plain_add_days(int64_t year, int64_t month, int64_t day, int64_t days, int64_t *date);
int64_t plain_week_from_days(int64_t days, int64_t *week_date);
int64_t plain_days_from_week(int64_t year, int64_t week, int64_t weekday, int64_t *days);
int64_t plain_day_of_instant(int64_t instant, int64_t *days);
int64_t plain_split_instant(int64_t instant, int64_t *fields);
int64_t plain_join_instant(const int64_t *fields, int64_t *instant);
int64_t plain_index_days(const int64_t *instants, size_t count, int32_t *days, size_t days_length, int64_t *place);
int64_t plain_write_instant(int64_t instant, uint8_t *out, size_t length);
int64_t plain_read_instant(const uint8_t *label, size_t length, int64_t *instant);
int64_t plain_write_week(int64_t days, uint8_t *out, size_t length);
int64_t plain_read_week(const uint8_t *label, size_t length, int64_t *days);
int64_t plain_write_position(int64_t position, uint8_t *out, size_t length);
int64_t plain_read_position(const uint8_t *text, size_t length);
int64_t plain_read_cue(const uint8_t *line, size_t length, int64_t *cue);
int64_t plain_first_difference(struct constants q, int64_t end);
int64_t plain_check_bound(struct constants q, int64_t bound, int64_t *least);
int64_t plain_sheet_read(const uint8_t *sheet, size_t length, int64_t *note_length);
int64_t plain_sheet_record(const uint8_t *sheet, size_t length, int64_t place, int64_t *record);
int64_t plain_sheet_check(const uint8_t *sheet, size_t length, int64_t place, int64_t *least);
int64_t plain_sheet_write(const uint8_t *note, size_t note_length, const uint32_t *numbers, size_t count, uint8_t *out,
                          size_t length);
int64_t plain_sheet_report(const uint8_t *sheet, size_t length, uint8_t *out, size_t out_length);
int64_t plain_follow(int64_t *clock, int64_t value);
int64_t plain_follow_all(int64_t *clock, const int64_t *values, size_t count);

static inline int outside(int64_t first, int64_t last, int64_t n)
{
    return n < first || n > last;
}

#endif
