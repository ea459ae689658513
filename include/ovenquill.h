/*
 * Ovenquill: the proleptic Gregorian calendar, ISO 8601 week dates, labels of instants, of week dates and of positions (WebVTT
 * timestamps), cue lines, a checker of multiply-and-shift constants, sheets of claims about them, and a follower of the 33-bit
 * transport clock, proved right.
 *
 * For C99, C++11 and later ones. Link with libovenquill.a; after `make install`, `pkg-config --cflags --libs ovenquill` says
 * how.
 *
 * The archive is for x86-64 with ELF and is position independent: it also goes into a shared library. Header and archive go
 * together: nothing tells at run time that they are of different versions.
 *
 * Any numbers and any bytes may be handed in. A call allocates nothing, keeps no state (a transport clock is the caller's),
 * calls no function outside the archive, leaves errno alone and needs less than 1 KiB of stack: it may be made from any thread
 * and from a signal handler. One call is different: ovenquill_civil_from_days_audit calls memset, and no other function outside
 * the archive, and needs less than 2 KiB of stack beside what memset needs. It too may be made from any thread and, as POSIX
 * allows of memset, from a signal handler. A program that is linked without C's library needs a memset of its own, also where it
 * does not make this call, unless the linker leaves out what is not called.
 *
 * Every call returns 0 or more where it is done, and below 0 where it is refused: the refusal's number negated, which has a
 * macro below. The refusals of a call are listed in the order in which they are looked for; the first whose cause holds is
 * answered. Three refusals hand back more than their number: those about an instant of an index write where it stands to
 * `place`, and a claim with a difference below its bound, by itself or in a sheet, writes the least such input to `least`. After
 * every other answer of these calls `place` and `least` are unchanged. Nothing else that was lent to a refused call is changed.
 *
 * What is asked of the pointers that are handed in:
 *   - A pointer with a length points to that many elements. It may be null only where the length is 0.
 *   - A pointer without a length points to one number or struct, and is not null.
 *   - What is pointed to is valid for the whole call and aligned for its type.
 *   - Nobody changes what is pointed to during the call; what is not const nobody reads either.
 *   - What is not const overlaps nothing else that is lent to the same call. What it holds before the call makes no
 *     difference to the answer, but for a transport clock, of which `heard` is read, and `position` where `heard` is not 0.
 */
#ifndef OVENQUILL_H
#define OVENQUILL_H

#include <stddef.h>
#include <stdint.h>

#ifdef __cplusplus
extern "C" {
#endif

/* The version of this header, in numbers and as a string. */
#define OVENQUILL_VERSION_MAJOR 0
#define OVENQUILL_VERSION_MINOR 10
#define OVENQUILL_VERSION_PATCH 0
#define OVENQUILL_VERSION OVENQUILL_DOTTED_(OVENQUILL_VERSION_MAJOR, OVENQUILL_VERSION_MINOR, OVENQUILL_VERSION_PATCH)
#define OVENQUILL_DOTTED_(major, minor, patch) OVENQUILL_STRING_(major.minor.patch)
#define OVENQUILL_STRING_(tokens) #tokens

/*
 * Ranges, ends included. A name that ends in _ has the bare digits, for the texts of the refusals. INT64_C takes no sign: a
 * number below zero has the digits of its negation.
 */
#define OVENQUILL_NUMBER_(digits) INT64_C(digits)
#define OVENQUILL_TEXT_(digits) OVENQUILL_STRING_(digits)
#define OVENQUILL_RANGE_TEXT_(first, last) OVENQUILL_STRING_(first) ".." OVENQUILL_STRING_(last)

/*
 * Years. The calendar begins with the first day of the first year and ends with the last day of the last one. Year 0 is the one
 * before year 1, and -1 the one before year 0, as in astronomy and ISO 8601: 44 BC is year -43.
 */
#define OVENQUILL_NEGATED_FIRST_YEAR_ 32000
#define OVENQUILL_LAST_YEAR_ 31999
#define OVENQUILL_FIRST_YEAR (-OVENQUILL_NUMBER_(OVENQUILL_NEGATED_FIRST_YEAR_))
#define OVENQUILL_LAST_YEAR OVENQUILL_NUMBER_(OVENQUILL_LAST_YEAR_)

/* Week years, of ISO 8601 week dates: the first days of the calendar lie in a week of the year before it. */
#define OVENQUILL_NEGATED_FIRST_WEEK_YEAR_ 32001
#define OVENQUILL_LAST_WEEK_YEAR_ OVENQUILL_LAST_YEAR_
#define OVENQUILL_FIRST_WEEK_YEAR (-OVENQUILL_NUMBER_(OVENQUILL_NEGATED_FIRST_WEEK_YEAR_))
#define OVENQUILL_LAST_WEEK_YEAR OVENQUILL_NUMBER_(OVENQUILL_LAST_WEEK_YEAR_)

/* What the four digits of a label can tell: the years of instant labels, and the week years of week labels. */
#define OVENQUILL_FIRST_LABEL_YEAR_ 0
#define OVENQUILL_LAST_LABEL_YEAR_ 9999
#define OVENQUILL_FIRST_LABEL_YEAR OVENQUILL_NUMBER_(OVENQUILL_FIRST_LABEL_YEAR_)
#define OVENQUILL_LAST_LABEL_YEAR OVENQUILL_NUMBER_(OVENQUILL_LAST_LABEL_YEAR_)

/* Months, the first of them January; a month's days begin with 1, and ovenquill_last_day_of_month answers the last. */
#define OVENQUILL_FIRST_MONTH_ 1
#define OVENQUILL_LAST_MONTH_ 12
#define OVENQUILL_FIRST_MONTH OVENQUILL_NUMBER_(OVENQUILL_FIRST_MONTH_)
#define OVENQUILL_LAST_MONTH OVENQUILL_NUMBER_(OVENQUILL_LAST_MONTH_)

/* The time of day: hours, minutes, seconds and milliseconds, each from 0. */
#define OVENQUILL_LAST_HOUR_ 23
#define OVENQUILL_LAST_MINUTE_ 59
#define OVENQUILL_LAST_SECOND_ 59
#define OVENQUILL_LAST_MILLISECOND_ 999
#define OVENQUILL_LAST_HOUR OVENQUILL_NUMBER_(OVENQUILL_LAST_HOUR_)
#define OVENQUILL_LAST_MINUTE OVENQUILL_NUMBER_(OVENQUILL_LAST_MINUTE_)
#define OVENQUILL_LAST_SECOND OVENQUILL_NUMBER_(OVENQUILL_LAST_SECOND_)
#define OVENQUILL_LAST_MILLISECOND OVENQUILL_NUMBER_(OVENQUILL_LAST_MILLISECOND_)

/* Day counts: days from 1970-01-01, below zero before it. */
#define OVENQUILL_FIRST_COUNT (-INT64_C(12407288))
#define OVENQUILL_LAST_COUNT INT64_C(10968231)

/* Instants: milliseconds from 1970-01-01 00:00 UTC, below zero before it. Every day has as many; there are no leap seconds. */
#define OVENQUILL_INSTANTS_PER_DAY                                             \
    ((OVENQUILL_LAST_HOUR + 1) * (OVENQUILL_LAST_MINUTE + 1)                   \
     * (OVENQUILL_LAST_SECOND + 1) * (OVENQUILL_LAST_MILLISECOND + 1))
#define OVENQUILL_FIRST_INSTANT (OVENQUILL_FIRST_COUNT * OVENQUILL_INSTANTS_PER_DAY)
#define OVENQUILL_LAST_INSTANT ((OVENQUILL_LAST_COUNT + 1) * OVENQUILL_INSTANTS_PER_DAY - 1)

/* Positions: milliseconds from the start of a recording. */
#define OVENQUILL_FIRST_POSITION_ 0
#define OVENQUILL_LAST_POSITION_ 359999999999
#define OVENQUILL_FIRST_POSITION OVENQUILL_NUMBER_(OVENQUILL_FIRST_POSITION_)
#define OVENQUILL_LAST_POSITION OVENQUILL_NUMBER_(OVENQUILL_LAST_POSITION_)

/* The transport clock: its values, which 33 bits hold, and its unwrapped positions, both in ticks. */
#define OVENQUILL_FIRST_CLOCK_VALUE_ 0
#define OVENQUILL_LAST_CLOCK_VALUE_ 8589934591
#define OVENQUILL_FIRST_CLOCK_POSITION_ 0
#define OVENQUILL_LAST_CLOCK_POSITION_ 9007199254740992
#define OVENQUILL_FIRST_CLOCK_VALUE OVENQUILL_NUMBER_(OVENQUILL_FIRST_CLOCK_VALUE_)
#define OVENQUILL_LAST_CLOCK_VALUE OVENQUILL_NUMBER_(OVENQUILL_LAST_CLOCK_VALUE_)
#define OVENQUILL_FIRST_CLOCK_POSITION OVENQUILL_NUMBER_(OVENQUILL_FIRST_CLOCK_POSITION_)
#define OVENQUILL_LAST_CLOCK_POSITION OVENQUILL_NUMBER_(OVENQUILL_LAST_CLOCK_POSITION_)
#define OVENQUILL_CLOCK_TICKS_PER_MILLISECOND INT64_C(90)

/* The constants that are checked, the end of a search and the bound of a claim. */
#define OVENQUILL_A_MIN INT64_C(1)
#define OVENQUILL_A_MAX INT64_C(1023)
#define OVENQUILL_B_MIN INT64_C(0)
#define OVENQUILL_B_MAX INT64_C(1023)
#define OVENQUILL_D_MIN INT64_C(1)
#define OVENQUILL_D_MAX INT64_C(1048575)
#define OVENQUILL_M_MIN INT64_C(0)
#define OVENQUILL_M_MAX INT64_C(4294967295)
#define OVENQUILL_C_MIN INT64_C(0)
#define OVENQUILL_C_MAX INT64_C(4294967295)
#define OVENQUILL_K_MIN INT64_C(0)
#define OVENQUILL_K_MAX INT64_C(47)
#define OVENQUILL_T_MIN INT64_C(0)
#define OVENQUILL_T_MAX INT64_C(255)
#define OVENQUILL_END_MIN INT64_C(0)
#define OVENQUILL_END_MAX INT64_C(4294967295)
#define OVENQUILL_BOUND_MIN INT64_C(0)
#define OVENQUILL_BOUND_MAX (OVENQUILL_END_MAX - 1)

/*
 * The bytes of an instant label, of a week label, and the fewest and the most of a position label that is written. No zero byte
 * is written after a label, and a call that reads one looks for none.
 */
#define OVENQUILL_INSTANT_LABEL_BYTES 24
#define OVENQUILL_WEEK_LABEL_BYTES 10
#define OVENQUILL_POSITION_LABEL_MIN_BYTES 12
#define OVENQUILL_POSITION_LABEL_MAX_BYTES 15

/*
 * Sheets: the numbers and the bytes of a record, the bytes of the trailer, the most records and the most bytes of a sheet, and
 * the most bytes of its report.
 */
#define OVENQUILL_SHEET_RECORD_NUMBERS 8
#define OVENQUILL_SHEET_RECORD_BYTES 32
#define OVENQUILL_SHEET_TRAILER_BYTES 12
#define OVENQUILL_SHEET_MAX_RECORDS 1024
#define OVENQUILL_SHEET_MAX_BYTES 65536
#define OVENQUILL_SHEET_REPORT_MAX_BYTES 18346

/*
 * Weekdays, what ovenquill_weekday answers and week dates have: 1 Monday to 7 Sunday, as ISO 8601 numbers them. A table that
 * is indexed by them has eight elements. They are not those of tm_wday in <time.h>, which are these modulo 7.
 */
#define OVENQUILL_MONDAY 1
#define OVENQUILL_TUESDAY 2
#define OVENQUILL_WEDNESDAY 3
#define OVENQUILL_THURSDAY 4
#define OVENQUILL_FRIDAY 5
#define OVENQUILL_SATURDAY 6
#define OVENQUILL_SUNDAY 7

/* Refusals, as the calls answer them: each one's number, negated. */
#define OVENQUILL_YEAR_OUT_OF_RANGE (-1)
#define OVENQUILL_MONTH_OUT_OF_RANGE (-2)
#define OVENQUILL_DAY_OUT_OF_RANGE (-3)
#define OVENQUILL_OUT_OF_RANGE (-4)
#define OVENQUILL_TIME_OUT_OF_RANGE (-5)
#define OVENQUILL_POSITION_OUT_OF_RANGE (-6)
#define OVENQUILL_BUFFER_TOO_SHORT (-7)
#define OVENQUILL_MALFORMED_LABEL (-8)
#define OVENQUILL_CONSTANT_OUT_OF_LIMITS (-9)
#define OVENQUILL_DIFFERENCE_BELOW_BOUND (-10)
#define OVENQUILL_NO_DIFFERENCE_UP_TO_BOUND (-11)
#define OVENQUILL_UNEQUAL_LENGTHS (-12)
#define OVENQUILL_MALFORMED_TIMING (-13)
#define OVENQUILL_CLOCK_OUT_OF_RANGE (-14)
#define OVENQUILL_OUT_OF_ORDER (-15)
#define OVENQUILL_WEEK_OUT_OF_RANGE (-16)
#define OVENQUILL_MALFORMED_SHEET (-17)

/* A refusal in words, by what a call answered. Any number may be handed in; the text is never null and is not to be freed. */
static inline const char *ovenquill_refusal_text(int64_t answer)
{
    switch (answer) {
    case OVENQUILL_YEAR_OUT_OF_RANGE:
        return "year outside -" OVENQUILL_RANGE_TEXT_(OVENQUILL_NEGATED_FIRST_YEAR_, OVENQUILL_LAST_YEAR_)
               ", week year outside -"
               OVENQUILL_RANGE_TEXT_(OVENQUILL_NEGATED_FIRST_WEEK_YEAR_, OVENQUILL_LAST_WEEK_YEAR_) ", or either outside "
               OVENQUILL_RANGE_TEXT_(OVENQUILL_FIRST_LABEL_YEAR_, OVENQUILL_LAST_LABEL_YEAR_) " in a label";
    case OVENQUILL_MONTH_OUT_OF_RANGE:
        return "month outside " OVENQUILL_RANGE_TEXT_(OVENQUILL_FIRST_MONTH_, OVENQUILL_LAST_MONTH_);
    case OVENQUILL_DAY_OUT_OF_RANGE:
        return "day outside 1..length of that month";
    case OVENQUILL_OUT_OF_RANGE:
        return "day count, instant, shifted date or week date outside the range";
    case OVENQUILL_TIME_OUT_OF_RANGE:
        return "hour outside " OVENQUILL_RANGE_TEXT_(0, OVENQUILL_LAST_HOUR_)
               ", minute or second outside " OVENQUILL_RANGE_TEXT_(0, OVENQUILL_LAST_MINUTE_)
               ", or millisecond outside " OVENQUILL_RANGE_TEXT_(0, OVENQUILL_LAST_MILLISECOND_);
    case OVENQUILL_POSITION_OUT_OF_RANGE:
        return "position below " OVENQUILL_TEXT_(OVENQUILL_FIRST_POSITION_)
               " or above " OVENQUILL_TEXT_(OVENQUILL_LAST_POSITION_);
    case OVENQUILL_BUFFER_TOO_SHORT:
        return "buffer shorter than the label, the sheet or the report";
    case OVENQUILL_MALFORMED_LABEL:
        return "label not " OVENQUILL_TEXT_(OVENQUILL_INSTANT_LABEL_BYTES) " bytes, of a week date not "
               OVENQUILL_TEXT_(OVENQUILL_WEEK_LABEL_BYTES)
               ", a non-digit where a digit stands, or a wrong mark (T and Z may be small, W not)";
    case OVENQUILL_CONSTANT_OUT_OF_LIMITS:
        return "a constant, a search end or a claimed bound outside its limits";
    case OVENQUILL_DIFFERENCE_BELOW_BOUND:
        return "claim: a difference stands below the bound";
    case OVENQUILL_NO_DIFFERENCE_UP_TO_BOUND:
        return "claim: no difference at or below the bound";
    case OVENQUILL_UNEQUAL_LENGTHS:
        return "index lists of unequal length";
    case OVENQUILL_MALFORMED_TIMING:
        return "timestamp or cue line of a wrong shape, or a cue's end not later than its start";
    case OVENQUILL_CLOCK_OUT_OF_RANGE:
        return "clock value outside " OVENQUILL_RANGE_TEXT_(OVENQUILL_FIRST_CLOCK_VALUE_, OVENQUILL_LAST_CLOCK_VALUE_)
               ", or position handed in or reached outside "
               OVENQUILL_RANGE_TEXT_(OVENQUILL_FIRST_CLOCK_POSITION_, OVENQUILL_LAST_CLOCK_POSITION_);
    case OVENQUILL_OUT_OF_ORDER:
        return "index instant smaller than the one before it";
    case OVENQUILL_WEEK_OUT_OF_RANGE:
        return "week that its year does not have, or weekday outside "
               OVENQUILL_RANGE_TEXT_(OVENQUILL_MONDAY, OVENQUILL_SUNDAY);
    case OVENQUILL_MALFORMED_SHEET:
        return "bytes that are no sheet, a note and numbers that make none, or a record that is not there";
    default:
        return answer < 0 ? "unknown refusal" : "not refused";
    }
}

/*
 * A date: year OVENQUILL_FIRST_YEAR, which is below zero, to OVENQUILL_LAST_YEAR, month OVENQUILL_FIRST_MONTH to
 * OVENQUILL_LAST_MONTH, day 1 to the length of the month.
 */
typedef struct ovenquill_date {
    int64_t year;
    int64_t month;
    int64_t day;
} ovenquill_date;

/*
 * An ISO 8601 week date: the week year, which early in January and late in December may be another than the year of the date,
 * the week 1 to 52 or 53, and the weekday OVENQUILL_MONDAY to OVENQUILL_SUNDAY.
 */
typedef struct ovenquill_week_date {
    int64_t year;
    int64_t week;
    int64_t weekday;
} ovenquill_week_date;

/*
 * The date and the time of day of an instant: hour 0 to OVENQUILL_LAST_HOUR, minute 0 to OVENQUILL_LAST_MINUTE, second 0 to
 * OVENQUILL_LAST_SECOND, millisecond 0 to OVENQUILL_LAST_MILLISECOND.
 */
typedef struct ovenquill_fields {
    int64_t year;
    int64_t month;
    int64_t day;
    int64_t hour;
    int64_t minute;
    int64_t second;
    int64_t millisecond;
} ovenquill_fields;

/* The positions at which a cue starts and ends. */
typedef struct ovenquill_cue {
    int64_t start;
    int64_t end;
} ovenquill_cue;

/*
 * A record of a sheet: the numbers of a claim, as ovenquill_check_bound takes them. Each is 0 to 4294967295, and may be outside
 * its limits in a claim.
 */
typedef struct ovenquill_record {
    int64_t a;
    int64_t b;
    int64_t d;
    int64_t m;
    int64_t c;
    int64_t k;
    int64_t t;
    int64_t bound;
} ovenquill_record;

/*
 * A transport clock that is followed. `heard` is 0 where nothing has been heard yet, and any other number where something has;
 * an accepted value sets it to 1. `position` is the unwrapped position in ticks; while `heard` is 0 it is not looked at, and
 * need not be set. A clock begins with ovenquill_clock clock = OVENQUILL_CLOCK_START; and is begun anew by clock.heard = 0.
 */
typedef struct ovenquill_clock {
    int64_t heard;
    int64_t position;
} ovenquill_clock;

#define OVENQUILL_CLOCK_START {0, 0}

/*
 * The calendar: Gregorian, run backwards without a break; years 0, -4 and -400 are leap, -1 and -100 are not. Dates before
 * October 1582 are mostly given by the Julian calendar, which is another one: convert them first.
 */

/*
 * The day count of a date. Writes it to `days` and answers 0.
 *
 * Refusals, after which `days` is unchanged:
 *   OVENQUILL_YEAR_OUT_OF_RANGE    year outside OVENQUILL_FIRST_YEAR to OVENQUILL_LAST_YEAR
 *   OVENQUILL_MONTH_OUT_OF_RANGE   month outside OVENQUILL_FIRST_MONTH to OVENQUILL_LAST_MONTH
 *   OVENQUILL_DAY_OUT_OF_RANGE     day outside 1 to the length of that month
 */
int64_t ovenquill_days_from_civil(int64_t year, int64_t month, int64_t day, int64_t *days);

/*
 * The date of a day count. Writes it to `date` and answers 0.
 *
 * There are three ways to it, with the same answers, dates and refusals for every int64_t. This is the one to use: it goes by
 * products, shifts and a table of the days of a year, and is the fastest. The other two follow.
 *
 * Refusal, after which `date` is unchanged:
 *   OVENQUILL_OUT_OF_RANGE   days outside OVENQUILL_FIRST_COUNT to OVENQUILL_LAST_COUNT
 */
int64_t ovenquill_civil_from_days(int64_t days, ovenquill_date *date);

/*
 * The date of a day count by ordinary divisions, after algorithm 3 of Neri and Schneider's paper on Euclidean affine functions in
 * calendars. Writes it to `date` and answers 0. It is there to compare ovenquill_civil_from_days with, and a program of one's own.
 *
 * Refusal, after which `date` is unchanged:
 *   OVENQUILL_OUT_OF_RANGE   days outside OVENQUILL_FIRST_COUNT to OVENQUILL_LAST_COUNT
 */
int64_t ovenquill_civil_from_days_plain(int64_t days, ovenquill_date *date);

/*
 * The date of a day count for audits at a desk. Writes it to `date` and answers 0. It goes by a table of the days on which the
 * 400 years of a cycle of the calendar and the year after them begin, in which the year is searched for. Each call fills the
 * table anew from the leap rule. So it is slow, some 0.6 microseconds a call where it was measured, and but for the test of the
 * range and for where days and years are counted from it has nothing in common with ovenquill_civil_from_days, which it can check.
 *
 * The table is on the stack, 1604 bytes, and memset clears it: see above for what that asks of a caller.
 *
 * Refusal, after which `date` is unchanged:
 *   OVENQUILL_OUT_OF_RANGE   days outside OVENQUILL_FIRST_COUNT to OVENQUILL_LAST_COUNT
 */
int64_t ovenquill_civil_from_days_audit(int64_t days, ovenquill_date *date);

/*
 * The weekday of a day count. Answers it, OVENQUILL_MONDAY to OVENQUILL_SUNDAY, and never 0.
 *
 * Refusal:
 *   OVENQUILL_OUT_OF_RANGE   days outside OVENQUILL_FIRST_COUNT to OVENQUILL_LAST_COUNT
 */
int64_t ovenquill_weekday(int64_t days);

/*
 * Whether a year is leap. Answers 1 if it is, 0 if not.
 *
 * Refusal:
 *   OVENQUILL_YEAR_OUT_OF_RANGE   year outside OVENQUILL_FIRST_YEAR to OVENQUILL_LAST_YEAR
 */
int64_t ovenquill_is_leap(int64_t year);

/*
 * The length of a month. Answers its last day, 28 to 31.
 *
 * Refusals:
 *   OVENQUILL_YEAR_OUT_OF_RANGE    year outside OVENQUILL_FIRST_YEAR to OVENQUILL_LAST_YEAR
 *   OVENQUILL_MONTH_OUT_OF_RANGE   month outside OVENQUILL_FIRST_MONTH to OVENQUILL_LAST_MONTH
 */
int64_t ovenquill_last_day_of_month(int64_t year, int64_t month);

/*
 * The day of the year of a date. Answers it: 1 for the first of January, to 365, or 366 in a leap year.
 *
 * Refusals:
 *   OVENQUILL_YEAR_OUT_OF_RANGE    year outside OVENQUILL_FIRST_YEAR to OVENQUILL_LAST_YEAR
 *   OVENQUILL_MONTH_OUT_OF_RANGE   month outside OVENQUILL_FIRST_MONTH to OVENQUILL_LAST_MONTH
 *   OVENQUILL_DAY_OUT_OF_RANGE     day outside 1 to the length of that month
 */
int64_t ovenquill_day_of_year(int64_t year, int64_t month, int64_t day);

/*
 * The date that lies a number of days after a date, or before it where that number is below zero: the one whose day count is
 * the sum. Writes it to `date` and answers 0. The sum is taken in whole numbers, so none wraps.
 *
 * Refusals, after which `date` is unchanged:
 *   OVENQUILL_YEAR_OUT_OF_RANGE    year outside OVENQUILL_FIRST_YEAR to OVENQUILL_LAST_YEAR
 *   OVENQUILL_MONTH_OUT_OF_RANGE   month outside OVENQUILL_FIRST_MONTH to OVENQUILL_LAST_MONTH
 *   OVENQUILL_DAY_OUT_OF_RANGE     day outside 1 to the length of that month
 *   OVENQUILL_OUT_OF_RANGE         the sum outside OVENQUILL_FIRST_COUNT to OVENQUILL_LAST_COUNT
 */
int64_t ovenquill_add_days(int64_t year, int64_t month, int64_t day, int64_t days, ovenquill_date *date);

/*
 * ISO 8601 week dates. A week runs from Monday to Sunday and belongs to the year in which its Thursday lies, the week year;
 * week 1 is the one with that year's first Thursday, in which 4 January always lies. A week year has 52 or 53 weeks: one that
 * has no week 53 refuses it. 2021-01-01, a Friday, is 2020-W53-5.
 */

/*
 * The week date of a day count. Writes it to `week` and answers 0.
 *
 * Refusal, after which `week` is unchanged:
 *   OVENQUILL_OUT_OF_RANGE   days outside OVENQUILL_FIRST_COUNT to OVENQUILL_LAST_COUNT
 */
int64_t ovenquill_week_from_days(int64_t days, ovenquill_week_date *week);

/*
 * The day count of a week date. Writes it to `days` and answers 0. Of the week year OVENQUILL_FIRST_WEEK_YEAR only the days
 * from OVENQUILL_FIRST_COUNT on are in the range, and of the last week of OVENQUILL_LAST_WEEK_YEAR those up to
 * OVENQUILL_LAST_COUNT.
 *
 * Refusals, after which `days` is unchanged:
 *   OVENQUILL_YEAR_OUT_OF_RANGE   year outside OVENQUILL_FIRST_WEEK_YEAR to OVENQUILL_LAST_WEEK_YEAR
 *   OVENQUILL_WEEK_OUT_OF_RANGE   week outside 1 to 52, or 53 in a year that has it, or weekday outside OVENQUILL_MONDAY to
 *                                 OVENQUILL_SUNDAY
 *   OVENQUILL_OUT_OF_RANGE        the day count outside OVENQUILL_FIRST_COUNT to OVENQUILL_LAST_COUNT
 */
int64_t ovenquill_days_from_week(int64_t year, int64_t week, int64_t weekday, int64_t *days);

/* Instants. */

/*
 * The day count of an instant: its quotient by OVENQUILL_INSTANTS_PER_DAY, rounded toward minus infinity. Writes it to `days`
 * and answers 0.
 *
 * Refusal, after which `days` is unchanged:
 *   OVENQUILL_OUT_OF_RANGE   instant outside OVENQUILL_FIRST_INSTANT to OVENQUILL_LAST_INSTANT
 */
int64_t ovenquill_day_of_instant(int64_t instant, int64_t *days);

/*
 * The date and the time of day of an instant. Writes them to `fields` and answers 0.
 *
 * Refusal, after which `fields` is unchanged:
 *   OVENQUILL_OUT_OF_RANGE   instant outside OVENQUILL_FIRST_INSTANT to OVENQUILL_LAST_INSTANT
 */
int64_t ovenquill_split_instant(int64_t instant, ovenquill_fields *fields);

/*
 * The instant of a date and a time of day. Writes it to `instant` and answers 0.
 *
 * Refusals, after which `instant` is unchanged:
 *   OVENQUILL_YEAR_OUT_OF_RANGE    year outside OVENQUILL_FIRST_YEAR to OVENQUILL_LAST_YEAR
 *   OVENQUILL_MONTH_OUT_OF_RANGE   month outside OVENQUILL_FIRST_MONTH to OVENQUILL_LAST_MONTH
 *   OVENQUILL_DAY_OUT_OF_RANGE     day outside 1 to the length of that month
 *   OVENQUILL_TIME_OUT_OF_RANGE    hour, minute, second or millisecond below 0 or above OVENQUILL_LAST_HOUR,
 *                                  OVENQUILL_LAST_MINUTE, OVENQUILL_LAST_SECOND or OVENQUILL_LAST_MILLISECOND
 */
int64_t ovenquill_join_instant(int64_t year, int64_t month, int64_t day, int64_t hour, int64_t minute, int64_t second,
                               int64_t millisecond, int64_t *instant);

/*
 * The days of a recording index, which is refused where its instants go down; equal instants are accepted. Writes the day
 * count of each instant, as ovenquill_day_of_instant gives it, to the same index of `days`, and answers how many it wrote,
 * `count`; two empty lists are accepted. `place` is then unchanged. The days that are written never go down either. The time is
 * linear in `count`.
 *
 * Each call looks at its own list only: whoever hands in an index in parts compares the last instant of a part with the first
 * of the next. For instants in any order there is ovenquill_day_of_instant.
 *
 * Refusals, after which no element of `days` is changed; an index that is written to `place` is counted from 0:
 *   OVENQUILL_UNEQUAL_LENGTHS   count is not days_length; `place` is unchanged
 *   OVENQUILL_OUT_OF_RANGE      an instant outside OVENQUILL_FIRST_INSTANT to OVENQUILL_LAST_INSTANT, also one behind instants
 *                               that go down; the index of the first such instant is written to `place`
 *   OVENQUILL_OUT_OF_ORDER      an instant smaller than the one before it; the index of the first such instant, 1 or more, is
 *                               written to `place`
 */
int64_t ovenquill_index_days(const int64_t *instants, size_t count, int32_t *days, size_t days_length, int64_t *place);

/*
 * Instant labels: YYYY-MM-DDTHH:MM:SS.mmmZ, a form of RFC 3339. The T and the Z are written as capitals. An instant of a year
 * that four digits cannot tell has no label; ovenquill_split_instant gives its date and its time of day.
 */

/*
 * Writes the label of an instant to the front of `out`, and answers the bytes written, OVENQUILL_INSTANT_LABEL_BYTES. The
 * bytes after them are unchanged.
 *
 * Refusals, after which no byte of `out` is changed:
 *   OVENQUILL_OUT_OF_RANGE        instant outside OVENQUILL_FIRST_INSTANT to OVENQUILL_LAST_INSTANT
 *   OVENQUILL_YEAR_OUT_OF_RANGE   year outside OVENQUILL_FIRST_LABEL_YEAR to OVENQUILL_LAST_LABEL_YEAR
 *   OVENQUILL_BUFFER_TOO_SHORT    length below OVENQUILL_INSTANT_LABEL_BYTES
 */
int64_t ovenquill_write_instant(int64_t instant, uint8_t *out, size_t length);

/*
 * Reads a label, whose T and Z may each be a capital or small. Writes its instant to `instant` and answers 0. What it reads,
 * with the two letters as capitals, is what ovenquill_write_instant writes for that instant, byte for byte. No label is out of
 * range: the calendar has every year of four digits.
 *
 * Refusals, after which `instant` is unchanged:
 *   OVENQUILL_MALFORMED_LABEL      length other than OVENQUILL_INSTANT_LABEL_BYTES, a byte that is no decimal digit where one
 *                                  must stand, or a wrong mark
 *   OVENQUILL_MONTH_OUT_OF_RANGE   month outside OVENQUILL_FIRST_MONTH to OVENQUILL_LAST_MONTH
 *   OVENQUILL_DAY_OUT_OF_RANGE     day outside 1 to the length of that month
 *   OVENQUILL_TIME_OUT_OF_RANGE    hour, minute or second above OVENQUILL_LAST_HOUR, OVENQUILL_LAST_MINUTE or
 *                                  OVENQUILL_LAST_SECOND
 */
int64_t ovenquill_read_instant(const uint8_t *label, size_t length, int64_t *instant);

/*
 * Week labels: YYYY-Www-D, the form of ISO 8601, with the week year, a capital W, the week and the weekday. A day of a week year
 * that four digits cannot tell has no label; ovenquill_week_from_days gives its week date. It is the week year that counts:
 * 0000-01-01 lies in the week year -1 and has no label, and 10000-01-01 lies in the week year 9999 and has one, 9999-W52-6.
 */

/*
 * Writes the week label of a day count to the front of `out`, and answers the bytes written, OVENQUILL_WEEK_LABEL_BYTES. The
 * bytes after them are unchanged.
 *
 * Refusals, after which no byte of `out` is changed:
 *   OVENQUILL_OUT_OF_RANGE        days outside OVENQUILL_FIRST_COUNT to OVENQUILL_LAST_COUNT
 *   OVENQUILL_YEAR_OUT_OF_RANGE   week year outside OVENQUILL_FIRST_LABEL_YEAR to OVENQUILL_LAST_LABEL_YEAR
 *   OVENQUILL_BUFFER_TOO_SHORT    length below OVENQUILL_WEEK_LABEL_BYTES
 */
int64_t ovenquill_write_week(int64_t days, uint8_t *out, size_t length);

/*
 * Reads a week label. Writes its day count to `days` and answers 0. What it reads is what ovenquill_write_week writes for that
 * count, byte for byte. No label is out of range: the calendar has every day of the week years of four digits.
 *
 * Refusals, after which `days` is unchanged:
 *   OVENQUILL_MALFORMED_LABEL     length other than OVENQUILL_WEEK_LABEL_BYTES, a byte that is no decimal digit where one must
 *                                 stand, or a wrong mark, as a sign or a small w is
 *   OVENQUILL_WEEK_OUT_OF_RANGE   week 00, or above 52, but for 53 in a year that has it; or weekday 0, 8 or 9
 */
int64_t ovenquill_read_week(const uint8_t *label, size_t length, int64_t *days);

/*
 * Position labels: the timestamps of WebVTT. One that is written has hours, of at least two digits and with no other leading
 * zero, and :MM:SS.mmm. One that is read may have more leading zeros, or MM:SS.mmm alone.
 */

/*
 * Writes the label of a position to the front of `out`, and answers the bytes written, OVENQUILL_POSITION_LABEL_MIN_BYTES to
 * OVENQUILL_POSITION_LABEL_MAX_BYTES. The bytes after them are unchanged.
 *
 * Refusals, after which no byte of `out` is changed:
 *   OVENQUILL_POSITION_OUT_OF_RANGE   position outside OVENQUILL_FIRST_POSITION to OVENQUILL_LAST_POSITION
 *   OVENQUILL_BUFFER_TOO_SHORT        length below the bytes of this position's label
 */
int64_t ovenquill_write_position(int64_t position, uint8_t *out, size_t length);

/*
 * Reads a timestamp: hours of two or more decimal digits and :MM:SS.mmm, or MM:SS.mmm alone; minutes and seconds are 00 to 59.
 * Answers its position. The `length` bytes are the timestamp and nothing else: no blank, no line ending, no zero byte. The time
 * is linear in `length`.
 *
 * What ovenquill_write_position writes for a position is read as that position. A label that is read and written again has its
 * hours, and no leading zero too many: 01:02.003 becomes 00:01:02.003.
 *
 * Refusals:
 *   OVENQUILL_MALFORMED_TIMING        any other bytes; minutes or seconds of 60 to 99 are such
 *   OVENQUILL_POSITION_OUT_OF_RANGE   position above OVENQUILL_LAST_POSITION, however many digits its hours have
 */
int64_t ovenquill_read_position(const uint8_t *text, size_t length);

/*
 * Reads a cue timing line without settings: a timestamp, as ovenquill_read_position reads it, one or more spaces or tabs, -->,
 * one or more spaces or tabs, and a timestamp. Writes their positions to `cue` and answers 0. Nothing may stand before the
 * first timestamp or behind the second: no blank, no line ending, no zero byte. The time is linear in `length`.
 *
 * Refusals, after which `cue` is unchanged:
 *   OVENQUILL_MALFORMED_TIMING        any other bytes
 *   OVENQUILL_POSITION_OUT_OF_RANGE   start or end above OVENQUILL_LAST_POSITION
 *   OVENQUILL_MALFORMED_TIMING        end not later than start
 * The two causes of OVENQUILL_MALFORMED_TIMING are not told apart.
 */
int64_t ovenquill_read_cue(const uint8_t *line, size_t length, ovenquill_cue *cue);

/*
 * Constants of a multiply-and-shift. The exact quotient at n is (a*n + b) / d, rounded down; the device's quotient is
 * (m*n + c) >> k. A difference at n means that the two are more than t apart. n is a whole number from 0.
 *
 * The n are not tried one by one: the time does not grow with the n that is found. It grows with the digits of a and d, to some
 * hundreds of short steps, well below a millisecond.
 */

/*
 * The first difference. Answers the least n below `end` with a difference, or `end` where there is none below it.
 *
 * Refusal:
 *   OVENQUILL_CONSTANT_OUT_OF_LIMITS   a, b, d, m, c, k, t or end outside its limits, OVENQUILL_A_MIN to OVENQUILL_A_MAX for a
 *                                      and by the same names for the other seven
 */
int64_t ovenquill_first_difference(int64_t a, int64_t b, int64_t d, int64_t m, int64_t c, int64_t k, int64_t t, int64_t end);

/*
 * The claim that the least n with a difference is `bound`. Answers 0 where it is; `least` is then unchanged.
 *
 * Refusals:
 *   OVENQUILL_CONSTANT_OUT_OF_LIMITS      a, b, d, m, c, k, t or bound outside its limits, OVENQUILL_A_MIN to OVENQUILL_A_MAX
 *                                         for a and by the same names for the other seven; `least` is unchanged
 *   OVENQUILL_DIFFERENCE_BELOW_BOUND      a difference below bound; the least n with one is written to `least`
 *   OVENQUILL_NO_DIFFERENCE_UP_TO_BOUND   no difference at any n up to bound, bound included; `least` is unchanged
 */
int64_t ovenquill_check_bound(int64_t a, int64_t b, int64_t d, int64_t m, int64_t c, int64_t k, int64_t t, int64_t bound,
                              int64_t *least);

/*
 * Sheets: claims by file. A sheet is bytes, three parts one behind the other without a gap:
 *
 *     the note      any bytes, as many as there are before the records, also none
 *     the records   OVENQUILL_SHEET_RECORD_BYTES bytes each: the numbers a, b, d, m, c, k, t and bound of a claim
 *     the trailer   OVENQUILL_SHEET_TRAILER_BYTES bytes, the last ones: three numbers, the offset of the first record from the
 *                   front, which is the length of the note, the number of records, and the length of the whole sheet
 *
 * Every number is an unsigned one of 32 bits, in four bytes with the lowest first (little-endian), wherever it begins: nothing
 * is asked of the offset but that the records run from there up to the trailer. A sheet has at most
 * OVENQUILL_SHEET_MAX_RECORDS records, and may have none, and at most OVENQUILL_SHEET_MAX_BYTES bytes. The place of a record is
 * counted from 0.
 *
 *     const uint32_t numbers[] = {1, 0, 10, 26, 0, 8, 0, 69, 1, 0, 10, 26, 0, 8, 0, 100};
 *     uint8_t sheet[OVENQUILL_SHEET_MAX_BYTES], text[OVENQUILL_SHEET_REPORT_MAX_BYTES];
 *     int64_t note_length, least;
 *     ovenquill_sheet_write((const uint8_t *)"tenths", 6, numbers, 16, sheet, sizeof sheet)   answers 82, the bytes written
 *     ovenquill_sheet_read(sheet, 82, &note_length)          answers 2, the number of records; note_length is 6
 *     ovenquill_sheet_check(sheet, 82, 0, &least)            answers 0: the claim is accepted
 *     ovenquill_sheet_check(sheet, 82, 1, &least)            answers OVENQUILL_DIFFERENCE_BELOW_BOUND; least is 69
 *     ovenquill_sheet_check(sheet, 82, 2, &least)            answers OVENQUILL_MALFORMED_SHEET: there is no third record
 *     ovenquill_sheet_report(sheet, 82, text, sizeof text)   answers 19; the text is "0 accepted\n1 10 69\n"
 */

/*
 * Reads a sheet. Answers the number of its records, 0 to OVENQUILL_SHEET_MAX_RECORDS, and writes the length of its note, which
 * is where its first record begins, to `note_length`: the note is the first `note_length` bytes of `sheet`, with no zero byte at
 * its end. The `length` bytes are the sheet and nothing else. What it reads is what ovenquill_sheet_write writes for that note and
 * the numbers of those records, byte for byte. The time does not grow with `length`.
 *
 * Refusal, after which `note_length` is unchanged:
 *   OVENQUILL_MALFORMED_SHEET   length below OVENQUILL_SHEET_TRAILER_BYTES or above OVENQUILL_SHEET_MAX_BYTES, a trailer whose
 *                               third number is not length, more than OVENQUILL_SHEET_MAX_RECORDS records, or records that do
 *                               not run from their offset up to the trailer without gap
 */
int64_t ovenquill_sheet_read(const uint8_t *sheet, size_t length, int64_t *note_length);

/*
 * The record of a sheet at a place. Writes its numbers to `record` and answers 0. They are handed over as they are: what they
 * claim is for ovenquill_sheet_check to judge. Each call tests the sheet anew; the time does not grow with `length`.
 *
 * Refusal, after which `record` is unchanged:
 *   OVENQUILL_MALFORMED_SHEET   no sheet, as ovenquill_sheet_read refuses it, or place below 0 or not below the number of records
 */
int64_t ovenquill_sheet_record(const uint8_t *sheet, size_t length, int64_t place, ovenquill_record *record);

/*
 * The claim of a sheet's record at a place. Answers 0 where it is accepted; `least` is then unchanged. The verdict is
 * ovenquill_check_bound's own: what that call answers to the eight numbers of the record, and writes to `least`. So is the time,
 * but for the test of the sheet, which does not grow with `length`.
 *
 * Refusals:
 *   OVENQUILL_MALFORMED_SHEET             no such record, as ovenquill_sheet_record refuses it; `least` is unchanged
 *   OVENQUILL_CONSTANT_OUT_OF_LIMITS      a number of the record outside its limits in a claim; `least` is unchanged
 *   OVENQUILL_DIFFERENCE_BELOW_BOUND      a difference below bound; the least n with one is written to `least`
 *   OVENQUILL_NO_DIFFERENCE_UP_TO_BOUND   no difference at any n up to bound, bound included; `least` is unchanged
 */
int64_t ovenquill_sheet_check(const uint8_t *sheet, size_t length, int64_t place, int64_t *least);

/*
 * Writes the sheet of a note and of records to the front of `out`, and answers the bytes written: note_length, 4 for each
 * number, and OVENQUILL_SHEET_TRAILER_BYTES. The bytes after them are unchanged. `numbers` has the records one behind the
 * other, OVENQUILL_SHEET_RECORD_NUMBERS numbers to a record, and `count` is the count of numbers. No claim is checked: any
 * numbers are written. What is written is read as the same note and the same records. The time is linear in the bytes written.
 *
 * Refusals, after which no byte of `out` is changed:
 *   OVENQUILL_MALFORMED_SHEET    count no multiple of OVENQUILL_SHEET_RECORD_NUMBERS, so that a part of a record is left, more
 *                                than OVENQUILL_SHEET_MAX_RECORDS records, or more than OVENQUILL_SHEET_MAX_BYTES bytes
 *   OVENQUILL_BUFFER_TOO_SHORT   length below the bytes of this sheet
 */
int64_t ovenquill_sheet_write(const uint8_t *note, size_t note_length, const uint32_t *numbers, size_t count, uint8_t *out,
                              size_t length);

/*
 * Writes the verdicts on a sheet as text to the front of `out`, and answers the bytes written. There is a line for each record
 * in order: its place, a space, and `accepted`, `9`, `10` with a space and the least n, or `11`, by the number that
 * ovenquill_sheet_check answers there. A sheet without records has no line, and the answer is 0. Bytes that are no sheet have
 * the one line `17`, which is text and no refusal. Every line ends with a newline; no zero byte is written after the last one,
 * and the bytes after it are unchanged. The time is that of checking the claims, and twice that for a buffer in which the longest
 * report has no room.
 *
 * OVENQUILL_SHEET_REPORT_MAX_BYTES bytes always suffice. The program check_sheet, which `make install` installs too, prints
 * this text for the sheet on its standard input.
 *
 * Refusal, after which no byte of `out` is changed:
 *   OVENQUILL_BUFFER_TOO_SHORT   out_length below the bytes of this text
 */
int64_t ovenquill_sheet_report(const uint8_t *sheet, size_t length, uint8_t *out, size_t out_length);

/*
 * The clock of a transport stream counts 90,000 ticks in a second and is carried in 33 bits, as the base of a program clock
 * reference (PCR) and as the time stamps of pictures and sound (PTS, DTS): after 26 h 30 min 43.7 s it begins again at 0. A
 * follower counts on, forwards and backwards and past any number of wraps:
 *
 *     ovenquill_clock clock = OVENQUILL_CLOCK_START;
 *     ovenquill_follow(&clock, 8589934500)    answers 95443716; clock.position is 8589934500, the first value as it is
 *     ovenquill_follow(&clock, 2910)          answers 95443750; clock.position is 8589937502, after the wrap
 *     ovenquill_follow(&clock, 8589934590)    answers 95443717; clock.position is 8589934590, a picture sent out of order
 *     ovenquill_follow(&clock, 8589934592)    answers OVENQUILL_CLOCK_OUT_OF_RANGE; the clock is unchanged
 *
 * From one accepted value to the next goes the one step s with -2^32 <= s < 2^32 that leads to the new value modulo 2^33: the
 * shorter way round, and backwards where both are as long. So a stream may jump by less than half a wrap, which is
 * 13 h 15 min 21.86 s, either way; a longer jump is taken for the shorter one that leads to the same value, and every position
 * from then on is off by a whole number of wraps. No position is below 0: a value that would lead there, as 8589934591 does after
 * a first value of 0, is refused. Where a stream changes its time base, at a discontinuity, begin the clock anew.
 *
 * A follower that is restarted knows nothing of earlier wraps: it takes its first value as it is, and counts from there. To go
 * on after a restart, keep both numbers and hand them in again before the stream has moved by half a wrap.
 */

/*
 * Follows one value. Answers the milliseconds of its position: ticks divided by OVENQUILL_CLOCK_TICKS_PER_MILLISECOND,
 * rounded down. `clock` is then at that position, with `heard` 1. The largest answer is that of
 * OVENQUILL_LAST_CLOCK_POSITION; above OVENQUILL_LAST_POSITION milliseconds, some 11 years, ovenquill_write_position writes no
 * label of it.
 *
 * Refusal, after which `clock` is unchanged, so that the next value is read as if this one had not come:
 *   OVENQUILL_CLOCK_OUT_OF_RANGE   value outside OVENQUILL_FIRST_CLOCK_VALUE to OVENQUILL_LAST_CLOCK_VALUE, or the position
 *                                  handed in (not while `heard` is 0) or the position reached outside
 *                                  OVENQUILL_FIRST_CLOCK_POSITION to OVENQUILL_LAST_CLOCK_POSITION
 */
int64_t ovenquill_follow(ovenquill_clock *clock, int64_t value);

/*
 * Follows a list of values in order, each as ovenquill_follow does, and passes over those that it refuses. Answers how many it
 * passed over; it is never refused. `clock` is then where the last accepted value led to, with `heard` 1; where none was
 * accepted it is unchanged. From a position outside its range every value is passed over, until the clock is begun anew. A list
 * may be split into batches anywhere: the clock after the last batch is the same, and the answers add up. The time is linear in
 * `count`.
 */
int64_t ovenquill_follow_all(ovenquill_clock *clock, const int64_t *values, size_t count);

#ifdef __cplusplus
}
#endif

#endif
