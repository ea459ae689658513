/*
 * The header's macros, structs and words against the numbers of document 01 and of change requests Five and Seven to Nine. Compiled
 * as C and as C++, the header needing no other.
 */
#include "ovenquill.h"

#include <string.h>

#include "checks.h"
#include "plain.h"

#define SAME(macro, right) same(#macro, 0, macro, right)

/* The ranges are for the preprocessor too, those with an end below zero included. */
#if OVENQUILL_FIRST_YEAR != PAPER_FIRST_YEAR || OVENQUILL_FIRST_WEEK_YEAR != OVENQUILL_FIRST_YEAR - 1 \
    || OVENQUILL_FIRST_COUNT != PAPER_FIRST_COUNT || OVENQUILL_FIRST_INSTANT != PAPER_FIRST_INSTANT
#error "the preprocessor reads the first year, week year, day count or instant otherwise"
#endif

static void check_ranges(void)
{
    SAME(OVENQUILL_FIRST_YEAR, PAPER_FIRST_YEAR);
    SAME(OVENQUILL_LAST_YEAR, PAPER_LAST_YEAR);
    SAME(OVENQUILL_FIRST_WEEK_YEAR, PAPER_FIRST_WEEK_YEAR);
    SAME(OVENQUILL_LAST_WEEK_YEAR, PAPER_LAST_WEEK_YEAR);
    SAME(OVENQUILL_FIRST_LABEL_YEAR, PAPER_FIRST_LABEL_YEAR);
    SAME(OVENQUILL_LAST_LABEL_YEAR, PAPER_LAST_LABEL_YEAR);
    SAME(OVENQUILL_FIRST_MONTH, 1);
    SAME(OVENQUILL_LAST_MONTH, 12);
    SAME(OVENQUILL_LAST_HOUR, 23);
    SAME(OVENQUILL_LAST_MINUTE, 59);
    SAME(OVENQUILL_LAST_SECOND, 59);
    SAME(OVENQUILL_LAST_MILLISECOND, PAPER_SECOND - 1);
    SAME(sizeof OVENQUILL_FIRST_YEAR, sizeof(int64_t));
    SAME(sizeof OVENQUILL_LAST_YEAR, sizeof(int64_t));
    SAME(sizeof OVENQUILL_FIRST_WEEK_YEAR, sizeof(int64_t));
    SAME(OVENQUILL_FIRST_COUNT, PAPER_FIRST_COUNT);
    SAME(OVENQUILL_LAST_COUNT, PAPER_LAST_COUNT);
    SAME(OVENQUILL_INSTANTS_PER_DAY, PAPER_DAY);
    SAME(OVENQUILL_FIRST_INSTANT, PAPER_FIRST_INSTANT);
    SAME(OVENQUILL_LAST_INSTANT, PAPER_LAST_INSTANT);
    SAME(OVENQUILL_FIRST_POSITION, 0);
    SAME(OVENQUILL_LAST_POSITION, PAPER_LAST_POSITION);
    SAME(OVENQUILL_FIRST_CLOCK_VALUE, 0);
    SAME(OVENQUILL_LAST_CLOCK_VALUE, PAPER_CLOCK_WRAP - 1);
    SAME(OVENQUILL_FIRST_CLOCK_POSITION, 0);
    SAME(OVENQUILL_LAST_CLOCK_POSITION, PAPER_LAST_CLOCK_POSITION);
    SAME(OVENQUILL_CLOCK_TICKS_PER_MILLISECOND, PAPER_TICKS_PER_MILLISECOND);
    SAME(OVENQUILL_INSTANT_LABEL_BYTES, PAPER_INSTANT_LABEL_BYTES);
    SAME(OVENQUILL_WEEK_LABEL_BYTES, PAPER_WEEK_LABEL_BYTES);
    SAME(OVENQUILL_POSITION_LABEL_MIN_BYTES, PAPER_POSITION_LABEL_MIN_BYTES);
    SAME(OVENQUILL_POSITION_LABEL_MAX_BYTES, PAPER_POSITION_LABEL_MAX_BYTES);
    SAME(OVENQUILL_SHEET_RECORD_NUMBERS, 8);
    SAME(OVENQUILL_SHEET_RECORD_BYTES, 32);
    SAME(OVENQUILL_SHEET_TRAILER_BYTES, 12);
    SAME(OVENQUILL_SHEET_MAX_RECORDS, PAPER_SHEET_RECORDS);
    SAME(OVENQUILL_SHEET_MAX_BYTES, PAPER_SHEET_BYTES);
    SAME(OVENQUILL_SHEET_REPORT_MAX_BYTES, PAPER_SHEET_REPORT_BYTES);
}

static void check_limits(void)
{
    SAME(OVENQUILL_A_MIN, paper_least.a);
    SAME(OVENQUILL_B_MIN, paper_least.b);
    SAME(OVENQUILL_D_MIN, paper_least.d);
    SAME(OVENQUILL_M_MIN, paper_least.m);
    SAME(OVENQUILL_C_MIN, paper_least.c);
    SAME(OVENQUILL_K_MIN, paper_least.k);
    SAME(OVENQUILL_T_MIN, paper_least.t);
    SAME(OVENQUILL_A_MAX, paper_most.a);
    SAME(OVENQUILL_B_MAX, paper_most.b);
    SAME(OVENQUILL_D_MAX, paper_most.d);
    SAME(OVENQUILL_M_MAX, paper_most.m);
    SAME(OVENQUILL_C_MAX, paper_most.c);
    SAME(OVENQUILL_K_MAX, paper_most.k);
    SAME(OVENQUILL_T_MAX, paper_most.t);
    SAME(OVENQUILL_END_MIN, 0);
    SAME(OVENQUILL_END_MAX, PAPER_END_MAX);
    SAME(OVENQUILL_BOUND_MIN, 0);
    SAME(OVENQUILL_BOUND_MAX, PAPER_BOUND_MAX);
}

static void check_weekdays(void)
{
    SAME(OVENQUILL_MONDAY, MONDAY);
    SAME(OVENQUILL_TUESDAY, TUESDAY);
    SAME(OVENQUILL_WEDNESDAY, WEDNESDAY);
    SAME(OVENQUILL_THURSDAY, THURSDAY);
    SAME(OVENQUILL_FRIDAY, FRIDAY);
    SAME(OVENQUILL_SATURDAY, SATURDAY);
    SAME(OVENQUILL_SUNDAY, SUNDAY);
}

/* Whether the words of a refusal have those in them. */
static int has_words(int64_t refusal, const char *words)
{
    return strstr(ovenquill_refusal_text(refusal), words) != NULL;
}

/* Each refusal by its number, with words of its own; tests/test_readme.py holds them to README's. */
static void check_refusals(void)
{
    char years[160];
    static const int64_t refusals[] = {
        OVENQUILL_YEAR_OUT_OF_RANGE,      OVENQUILL_MONTH_OUT_OF_RANGE,        OVENQUILL_DAY_OUT_OF_RANGE,
        OVENQUILL_OUT_OF_RANGE,           OVENQUILL_TIME_OUT_OF_RANGE,         OVENQUILL_POSITION_OUT_OF_RANGE,
        OVENQUILL_BUFFER_TOO_SHORT,       OVENQUILL_MALFORMED_LABEL,           OVENQUILL_CONSTANT_OUT_OF_LIMITS,
        OVENQUILL_DIFFERENCE_BELOW_BOUND, OVENQUILL_NO_DIFFERENCE_UP_TO_BOUND, OVENQUILL_UNEQUAL_LENGTHS,
        OVENQUILL_MALFORMED_TIMING,       OVENQUILL_CLOCK_OUT_OF_RANGE,        OVENQUILL_OUT_OF_ORDER,
        OVENQUILL_WEEK_OUT_OF_RANGE,      OVENQUILL_MALFORMED_SHEET,
    };
    static const int64_t unknown[] = {-PAPER_LAST_REFUSAL - 1, INT32_MIN, INT64_MIN, INT64_MIN + 1};
    static const int64_t done[] = {0, 1, PAPER_LAST_REFUSAL, INT64_MAX};
    size_t i;
    same("number of refusals", 0, (int64_t)COUNT(refusals), PAPER_LAST_REFUSAL);
    for (i = 0; i < COUNT(refusals); i++) {
        same("number of a refusal", (int64_t)i + 1, refusals[i], -(int64_t)i - 1);
        same("words of a refusal", refusals[i], has_words(refusals[i], "unknown") || has_words(refusals[i], "not refused"), 0);
    }
    snprintf(years, sizeof years, "year outside %d..%d, week year outside %d..%d, or either outside %d..%d in a label", PAPER_FIRST_YEAR,
             PAPER_LAST_YEAR, PAPER_FIRST_WEEK_YEAR, PAPER_LAST_WEEK_YEAR, PAPER_FIRST_LABEL_YEAR, PAPER_LAST_LABEL_YEAR);
    SAME(strcmp(ovenquill_refusal_text(OVENQUILL_YEAR_OUT_OF_RANGE), years), 0);
    SAME(has_words(OVENQUILL_MALFORMED_LABEL, "10"), 1);
    SAME(has_words(OVENQUILL_WEEK_OUT_OF_RANGE, "weekday outside 1..7"), 1);
    for (i = 0; i < COUNT(unknown); i++)
        same("words of no refusal", unknown[i], strcmp(ovenquill_refusal_text(unknown[i]), "unknown refusal"), 0);
    for (i = 0; i < COUNT(done); i++)
        same("words of an answer", done[i], strcmp(ovenquill_refusal_text(done[i]), "not refused"), 0);
}

/* The structs lie in memory as the papers' numbers do in a row; a clock at its start has heard nothing. */
static void check_structs(void)
{
    static const ovenquill_date date = {1, 2, 3};
    static const ovenquill_week_date week_date = {1, 2, 3};
    static const ovenquill_fields fields = {1, 2, 3, 4, 5, 6, 7};
    static const ovenquill_cue cue = {1, 2};
    static const ovenquill_record record = {1, 2, 3, 4, 5, 6, 7, 8};
    static const ovenquill_clock clock = {1, 2}, start = OVENQUILL_CLOCK_START;
    static const int64_t row[] = {1, 2, 3, 4, 5, 6, 7, 8};
    SAME(sizeof date, 3 * sizeof *row);
    SAME(sizeof week_date, 3 * sizeof *row);
    SAME(sizeof fields, 7 * sizeof *row);
    SAME(sizeof cue, 2 * sizeof *row);
    SAME(sizeof record, 8 * sizeof *row);
    SAME(sizeof clock, 2 * sizeof *row);
    SAME(memcmp(&date, row, sizeof date), 0);
    SAME(memcmp(&week_date, row, sizeof week_date), 0);
    SAME(memcmp(&fields, row, sizeof fields), 0);
    SAME(memcmp(&cue, row, sizeof cue), 0);
    SAME(memcmp(&record, row, sizeof record), 0);
    SAME(memcmp(&clock, row, sizeof clock), 0);
    SAME(date.year, 1);
    SAME(date.month, 2);
    SAME(date.day, 3);
    SAME(week_date.year, 1);
    SAME(week_date.week, 2);
    SAME(week_date.weekday, 3);
    SAME(fields.year, 1);
    SAME(fields.month, 2);
    SAME(fields.day, 3);
    SAME(fields.hour, 4);
    SAME(fields.minute, 5);
    SAME(fields.second, 6);
    SAME(fields.millisecond, 7);
    SAME(cue.start, 1);
    SAME(cue.end, 2);
    SAME(record.a, 1);
    SAME(record.b, 2);
    SAME(record.d, 3);
    SAME(record.m, 4);
    SAME(record.c, 5);
    SAME(record.k, 6);
    SAME(record.t, 7);
    SAME(record.bound, 8);
    SAME(sizeof clock.heard, sizeof *row);
    SAME(sizeof clock.position, sizeof *row);
    SAME(clock.heard, 1);
    SAME(clock.position, 2);
    SAME(start.heard, 0);
}

static void check_version(void)
{
    char dotted[80];
    snprintf(dotted, sizeof dotted, "%d.%d.%d", OVENQUILL_VERSION_MAJOR, OVENQUILL_VERSION_MINOR, OVENQUILL_VERSION_PATCH);
    SAME(strcmp(OVENQUILL_VERSION, dotted), 0);
}

int main(void)
{
    check_ranges();
    check_limits();
    check_weekdays();
    check_refusals();
    check_structs();
    check_version();
    return finish("header");
}
