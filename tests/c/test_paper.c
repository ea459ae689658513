/*
 * Document 01's rows, "Numbers to try", and the words of change request One on reading positions, of Three on small letters,
 * of Four on weekdays, with a week of dates by the names and the numbers of their days, of Five on the transport clock, of Six on
 * the order of an index, of Seven on week dates, of Eight on the range of years, of Nine on sheets, and of Ten on three ways from a
 * count to a date. Compiled as C and as C++.
 */
#include <string.h>

#include "checks.h"
#include "ovenquill.h"
#include "texts.h"

/* The three ways to the date of a count. */
static int64_t (*const ways[])(int64_t days, ovenquill_date *date) = {
    ovenquill_civil_from_days,
    ovenquill_civil_from_days_plain,
    ovenquill_civil_from_days_audit,
};

static void check_date(int64_t count, int64_t year, int64_t month, int64_t day)
{
    int64_t days = 0;
    size_t i;
    same("days of a date", count, ovenquill_days_from_civil(year, month, day, &days), 0);
    same("days of a date", count, days, count);
    for (i = 0; i < COUNT(ways); i++) {
        ovenquill_date date = {0, 0, 0};
        same("date of a count", count, ways[i](count, &date), 0);
        same("year of a count", count, date.year, year);
        same("month of a count", count, date.month, month);
        same("day of a count", count, date.day, day);
    }
}

static void check_weekday(int64_t year, int64_t month, int64_t day, int64_t weekday)
{
    int64_t days = 0;
    same("days of a date", day, ovenquill_days_from_civil(year, month, day, &days), 0);
    same("weekday of a date", days, ovenquill_weekday(days), weekday);
}

static void check_calendar(void)
{
    int64_t days = 0, number;
    check_date(-719528, 0, 1, 1);
    check_date(-719469, 0, 2, 29);
    check_date(-719468, 0, 3, 1);
    check_date(-25509, 1900, 2, 28);
    check_date(-25508, 1900, 3, 1);
    check_date(-1, 1969, 12, 31);
    check_date(11016, 2000, 2, 29);
    check_date(47540, 2100, 2, 28);
    check_date(47541, 2100, 3, 1);
    check_date(2932896, 9999, 12, 31);
    check_date(19487, 2023, 5, 10);
    check_weekday(0, 1, 1, OVENQUILL_SATURDAY);
    check_weekday(1969, 12, 31, OVENQUILL_WEDNESDAY);
    check_weekday(1970, 1, 1, OVENQUILL_THURSDAY);
    check_weekday(9999, 12, 31, OVENQUILL_FRIDAY);
    check_weekday(2023, 5, 8, OVENQUILL_MONDAY);
    check_weekday(2023, 5, 9, OVENQUILL_TUESDAY);
    check_weekday(2023, 5, 10, OVENQUILL_WEDNESDAY);
    check_weekday(2023, 5, 11, OVENQUILL_THURSDAY);
    check_weekday(2023, 5, 12, OVENQUILL_FRIDAY);
    check_weekday(2023, 5, 13, OVENQUILL_SATURDAY);
    check_weekday(2023, 5, 14, OVENQUILL_SUNDAY);
    /* the same week by its numbers, from the Monday */
    for (number = 1; number <= 7; number++)
        check_weekday(2023, 5, 7 + number, number);
    same("year 0 is leap", 0, ovenquill_is_leap(0), 1);
    same("1900-02-29", 1900, ovenquill_days_from_civil(1900, 2, 29, &days), OVENQUILL_DAY_OUT_OF_RANGE);
    same("month 13 with day 99", 13, ovenquill_days_from_civil(2023, 13, 99, &days), OVENQUILL_MONTH_OUT_OF_RANGE);
}

/* An instant's day, its label, and the label read back. */
static void check_instant(int64_t instant, int64_t day, const char *label)
{
    uint8_t out[OVENQUILL_INSTANT_LABEL_BYTES];
    int64_t days = 0, again = 0;
    same("day of an instant", instant, ovenquill_day_of_instant(instant, &days), 0);
    same("day of an instant", instant, days, day);
    same("writing an instant", instant, ovenquill_write_instant(instant, out, sizeof out), (int64_t)strlen(label));
    same("label of an instant", instant, memcmp(out, label, strlen(label)), 0);
    same("reading a label", instant, ovenquill_read_instant(out, sizeof out, &again), 0);
    same("instant of a label", instant, again, instant);
}

static void check_instants(void)
{
    static const int64_t instants[] = {-1, 0, 86399999, 86400000};
    static const int64_t right[] = {-1, 0, 0, 1};
    static const char second_60[] = "2016-12-31T23:59:60.000Z";
    int32_t days[COUNT(instants)];
    int64_t instant = 0, place = 0;
    size_t i;
    check_instant(1683729000000, 19487, "2023-05-10T14:30:00.000Z");
    check_instant(-1, -1, "1969-12-31T23:59:59.999Z");
    check_instant(-86400000, -1, "1969-12-31T00:00:00.000Z");
    check_instant(-86400001, -2, "1969-12-30T23:59:59.999Z");
    same("second 60", 60, ovenquill_read_instant((const uint8_t *)second_60, strlen(second_60), &instant),
         OVENQUILL_TIME_OUT_OF_RANGE);
    same("index", 4, ovenquill_index_days(instants, COUNT(instants), days, COUNT(days), &place), 4);
    for (i = 0; i < COUNT(instants); i++)
        same("day of an index", instants[i], days[i], right[i]);
}

/* A label with those letters is read as that instant, whose own label has capitals; or it is refused. */
static void check_letters(char t, char z, int64_t right)
{
    static const char capitals[] = "2023-05-10T14:30:00.000Z";
    uint8_t label[OVENQUILL_INSTANT_LABEL_BYTES], again[OVENQUILL_INSTANT_LABEL_BYTES];
    int64_t instant = -1, letters = 256 * (uint8_t)t + (uint8_t)z;
    memcpy(label, capitals, sizeof label);
    label[10] = (uint8_t)t;
    label[23] = (uint8_t)z;
    same("reading letters", letters, ovenquill_read_instant(label, sizeof label, &instant), right);
    same("instant of letters", letters, instant, right == 0 ? 1683729000000 : -1);
    if (right != 0)
        return;
    same("writing again", letters, ovenquill_write_instant(instant, again, sizeof again), (int64_t)sizeof again);
    same("capitals again", letters, memcmp(again, capitals, sizeof again), 0);
}

static void check_small_letters(void)
{
    check_letters('T', 'Z', 0);
    check_letters('T', 'z', 0);
    check_letters('t', 'Z', 0);
    check_letters('t', 'z', 0);
    /* Z in the middle, T at the end, and a space */
    check_letters('Z', 'Z', OVENQUILL_MALFORMED_LABEL);
    check_letters('z', 'z', OVENQUILL_MALFORMED_LABEL);
    check_letters('T', 'T', OVENQUILL_MALFORMED_LABEL);
    check_letters('t', 't', OVENQUILL_MALFORMED_LABEL);
    check_letters(' ', 'z', OVENQUILL_MALFORMED_LABEL);
    /* T and Z with other bits changed than that of small letters */
    check_letters('\xd4', 'Z', OVENQUILL_MALFORMED_LABEL);
    check_letters('\xf4', 'Z', OVENQUILL_MALFORMED_LABEL);
    check_letters('T', '\xda', OVENQUILL_MALFORMED_LABEL);
    check_letters('T', '\xfa', OVENQUILL_MALFORMED_LABEL);
}

static void check_position(int64_t position, const char *label)
{
    uint8_t out[OVENQUILL_POSITION_LABEL_MAX_BYTES];
    size_t length = strlen(label);
    same("writing a position", position, ovenquill_write_position(position, out, length), (int64_t)length);
    same("label of a position", position, memcmp(out, label, length), 0);
    same("a byte too few", position, ovenquill_write_position(position, out, length - 1), OVENQUILL_BUFFER_TOO_SHORT);
    same("a written position read back", position, ovenquill_read_position(out, length), position);
}

static void check_positions(void)
{
    uint8_t out[OVENQUILL_POSITION_LABEL_MAX_BYTES];
    check_position(0, "00:00:00.000");
    check_position(359999999999, "99999:59:59.999");
    check_position(4287767296, "1191:02:47.296");
    same("position below 0", -1, ovenquill_write_position(-1, out, sizeof out), OVENQUILL_POSITION_OUT_OF_RANGE);
    same("position after the last", 360000000000, ovenquill_write_position(360000000000, out, sizeof out),
         OVENQUILL_POSITION_OUT_OF_RANGE);
}

/* "A read label written again gives the full form with hours." */
static void check_full_form(const char *text, const char *full_form)
{
    uint8_t out[OVENQUILL_POSITION_LABEL_MAX_BYTES];
    const size_t length = strlen(full_form);
    same(text, 0, ovenquill_write_position(read_position(text), out, sizeof out), (int64_t)length);
    same(text, 1, memcmp(out, full_form, length), 0);
}

/* "Hours of two or more digits, or no hours at all, in which case minutes lead; minutes and seconds 00 to 59, three decimals." */
static void check_timestamps(void)
{
    check_full_form("01:02.003", "00:01:02.003");
    check_full_form("00:01:02.003", "00:01:02.003");
    check_full_form("59:59.999", "00:59:59.999");
    check_full_form("123:59:59.999", "123:59:59.999");
    check_full_form("000000000123:00:00.000", "123:00:00.000");
    same("minutes lead", 0, read_position("01:02.003"), 62003);
    same("hours of one digit", 0, read_position("1:01:02.003"), OVENQUILL_MALFORMED_TIMING);
    same("minutes of one digit", 0, read_position("1:02.003"), OVENQUILL_MALFORMED_TIMING);
    same("seconds of one digit", 0, read_position("01:2.003"), OVENQUILL_MALFORMED_TIMING);
    same("minute 60", 0, read_position("60:02.003"), OVENQUILL_MALFORMED_TIMING);
    same("second 60", 0, read_position("01:60.003"), OVENQUILL_MALFORMED_TIMING);
    same("two decimals", 0, read_position("01:02.00"), OVENQUILL_MALFORMED_TIMING);
    same("four decimals", 0, read_position("01:02.0030"), OVENQUILL_MALFORMED_TIMING);
    same("the last position", 0, read_position("99999:59:59.999"), 359999999999);
    same("a position above the limit", 0, read_position("100000:00:00.000"), OVENQUILL_POSITION_OUT_OF_RANGE);
    same("13 before 6", 0, read_position("100000:60:00.000"), OVENQUILL_MALFORMED_TIMING);
}

/* "A timestamp, one or more spaces or tabs, `-->`, the same again, a timestamp, with the end later than the start." */
static void check_cues(void)
{
    check_cue("01:02.003 --> 01:02.004", 62003, 62004);
    check_cue("01:02.003 \t-->\t\t 99999:59:59.999", 62003, 359999999999);
    check_refused_cue("01:02.003--> 01:02.004", OVENQUILL_MALFORMED_TIMING);
    check_refused_cue("01:02.003 -->01:02.004", OVENQUILL_MALFORMED_TIMING);
    check_refused_cue("01:02.003 -> 01:02.004", OVENQUILL_MALFORMED_TIMING);
    check_refused_cue("01:02.003 --> 01:02.004 line:0", OVENQUILL_MALFORMED_TIMING);
    check_refused_cue("01:02.003 --> 100000:00:00.000", OVENQUILL_POSITION_OUT_OF_RANGE);
    check_refused_cue("100000:00:00.000 --> 01:02.004", OVENQUILL_POSITION_OUT_OF_RANGE);
    check_refused_cue("100000:00:00.000 --> 01:60.000", OVENQUILL_MALFORMED_TIMING);
    check_refused_cue("01:02.003 --> 01:02.003", OVENQUILL_MALFORMED_TIMING);
    check_refused_cue("01:02.003 --> 01:02.002", OVENQUILL_MALFORMED_TIMING);
}

/* A row of the constants: the first difference below the greatest search end, or none, and then the claims beside it. */
static void check_constants(int64_t a, int64_t b, int64_t d, int64_t m, int64_t c, int64_t k, int64_t t, int64_t first)
{
    const int64_t end = OVENQUILL_END_MAX;
    int64_t least = -1;
    same("first difference", first, ovenquill_first_difference(a, b, d, m, c, k, t, end), first);
    same("none below 0", first, ovenquill_first_difference(a, b, d, m, c, k, t, 0), 0);
    if (first == end) {
        same("claim where there is none", first, ovenquill_check_bound(a, b, d, m, c, k, t, OVENQUILL_BOUND_MAX, &least),
             OVENQUILL_NO_DIFFERENCE_UP_TO_BOUND);
        same("no least n where there is none", first, least, -1);
        return;
    }
    same("claim", first, ovenquill_check_bound(a, b, d, m, c, k, t, first, &least), 0);
    if (first > 0)
        same("claim below it", first, ovenquill_check_bound(a, b, d, m, c, k, t, first - 1, &least),
             OVENQUILL_NO_DIFFERENCE_UP_TO_BOUND);
    same("no least n", first, least, -1);
    same("claim above it", first, ovenquill_check_bound(a, b, d, m, c, k, t, first + 1, &least),
         OVENQUILL_DIFFERENCE_BELOW_BOUND);
    same("least n", first, least, first);
}

static void check_all_constants(void)
{
    check_constants(1, 0, 10, 26, 0, 8, 0, 69);
    check_constants(1, 0, 10, 26, 0, 8, 1, 709);
    check_constants(1, 0, 10, 25, 0, 8, 0, 10);
    check_constants(5, 461, 153, 2141, 197913, 16, 0, 734);
    check_constants(1, 0, 1461, 2939745, 0, 32, 0, 28825529);
    check_constants(1, 0, 1461, 376287347, 0, 39, 0, OVENQUILL_END_MAX);
    check_constants(1, 0, 146097, 963315389, 0, 47, 0, OVENQUILL_END_MAX);
    check_constants(1, 0, 4, 1, 0, 2, 0, OVENQUILL_END_MAX);
    check_constants(1, 0, 1, 1, 1, 0, 0, 0);
}

static void check_clock(const char *what, int64_t input, ovenquill_clock clock, int64_t heard, int64_t position)
{
    same(what, input, clock.heard, heard);
    same(what, input, clock.position, position);
}

static void check_accepted(ovenquill_clock *clock, int64_t value, int64_t milliseconds, int64_t position)
{
    same("an accepted value", value, ovenquill_follow(clock, value), milliseconds);
    check_clock("the clock of an accepted value", value, *clock, 1, position);
}

static void check_refused(ovenquill_clock *clock, int64_t value)
{
    const ovenquill_clock kept = *clock;
    same("a refused value", value, ovenquill_follow(clock, value), OVENQUILL_CLOCK_OUT_OF_RANGE);
    check_clock("the clock of a refused value", value, *clock, kept.heard, kept.position);
}

/*
 * "The first value is taken as it is. After that the step s is the one number with -2^32 <= s < 2^32 that fits the new
 * value modulo 2^33." "An accepted value also answers its position in milliseconds, ticks divided by 90, rounded down."
 */
static void check_steps(void)
{
    ovenquill_clock clock = OVENQUILL_CLOCK_START, forwards = OVENQUILL_CLOCK_START, backwards = OVENQUILL_CLOCK_START;
    ovenquill_clock last = {1, 9007199254740992}, restarted = OVENQUILL_CLOCK_START;
    check_accepted(&clock, 8589934591, 95443717, 8589934591);
    /* the wrap, after 26 h 30 min 43.717 s, and back */
    check_accepted(&clock, 0, ((26 * 60 + 30) * 60 + 43) * 1000 + 717, 8589934592);
    check_accepted(&clock, 8589934591, 95443717, 8589934591);
    /* three steps of 2^32 - 1; then both ways are 2^32 long, and it goes backwards */
    check_accepted(&forwards, 1, 0, 1);
    check_accepted(&forwards, 4294967296, 47721858, 4294967296);
    check_accepted(&forwards, 8589934591, 95443717, 8589934591);
    check_accepted(&forwards, 4294967294, 143165576, 12884901886);
    check_accepted(&forwards, 8589934590, 95443717, 8589934590);
    check_accepted(&backwards, 4294967296, 47721858, 4294967296);
    check_accepted(&backwards, 0, 0, 0);
    check_accepted(&backwards, 89, 0, 89);
    check_accepted(&backwards, 90, 1, 90);
    check_accepted(&backwards, 91, 1, 91);
    check_accepted(&last, 0, 100079991719344, 9007199254740992);
    check_accepted(&last, 4294967296, 100079943997485, 9007194959773696);
    /* "A restarted follower knows nothing of earlier wraps." */
    check_accepted(&restarted, 0, 0, 0);
}

/*
 * "Refuse with 14, state kept (also where nothing has been heard yet), exactly if a value is below 0 or is 2^33 or more, or
 * the position handed in or reached is outside 0..2^53; the next value is then read as if the refused one had not come."
 */
static void check_refused_values(void)
{
    ovenquill_clock clock = OVENQUILL_CLOCK_START, below = {1, -1}, beyond = {1, 9007199254740993};
    ovenquill_clock first = {1, 0}, last = {1, 9007199254740992};
    check_refused(&clock, -1);
    check_refused(&clock, 8589934592);
    check_accepted(&clock, 8589934591, 95443717, 8589934591);
    check_refused(&clock, -1);
    check_refused(&clock, 8589934592);
    check_accepted(&clock, 0, 95443717, 8589934592);
    check_refused(&below, 0);
    check_refused(&below, 8589934591);
    check_refused(&beyond, 0);
    check_refused(&beyond, 1);
    check_refused(&first, 8589934591);
    check_refused(&first, 4294967296);
    check_accepted(&first, 4294967295, 47721858, 4294967295);
    check_refused(&last, 1);
    check_refused(&last, 4294967295);
    check_accepted(&last, 8589934591, 100079991719344, 9007199254740991);
    check_accepted(&last, 0, 100079991719344, 9007199254740992);
}

/*
 * "A batch call takes a list of values in order, passes over refused ones and answers the end state and how many it passed
 * over; a run split into batches anywhere ends in the same state."
 */
static void check_batches(void)
{
    static const int64_t values[] = {-1, 8589934591, 8589934592, 4294967294, 8589934589, -1, 0};
    size_t split;
    for (split = 0; split <= COUNT(values); split++) {
        ovenquill_clock clock = OVENQUILL_CLOCK_START;
        int64_t passed_over = ovenquill_follow_all(&clock, values, split);
        passed_over += ovenquill_follow_all(&clock, values + split, COUNT(values) - split);
        same("a batch", (int64_t)split, passed_over, 3);
        check_clock("the clock of a batch", (int64_t)split, clock, 1, 17179869184);
    }
}

/* An index of three instants, whose days never fall. */
static void check_accepted_index(int64_t first, int64_t second, int64_t third)
{
    const int64_t instants[3] = {first, second, third};
    int32_t days[3] = {7, 7, 7};
    int64_t place = -1, day;
    size_t i;
    same("an accepted index", first, ovenquill_index_days(instants, 3, days, 3, &place), 3);
    same("the place of an accepted index", first, place, -1);
    for (i = 0; i < 3; i++) {
        same("a day by itself", instants[i], ovenquill_day_of_instant(instants[i], &day), 0);
        same("a day of an accepted index", instants[i], days[i], day);
    }
    same("the days never fall", first, days[0] <= days[1] && days[1] <= days[2], 1);
}

/* An index of three instants with some days, which are kept; so is the place, -1, where the refusal has none. */
static void check_refused_index(int64_t first, int64_t second, int64_t third, size_t days_length, int64_t refusal,
                                int64_t right_place)
{
    const int64_t instants[3] = {first, second, third};
    int32_t days[4] = {7, 7, 7, 7};
    int64_t place = -1;
    size_t i;
    same("a refused index", first, ovenquill_index_days(instants, 3, days, days_length, &place), refusal);
    same("the place of a refused index", first, place, right_place);
    for (i = 0; i < COUNT(days); i++)
        same("a day of a refused index", (int64_t)i, days[i], 7);
}

/*
 * "Refuse it with 15 and the place of the first instant smaller than the one before it. Equal neighbours are fine. The order
 * is now 12, 4, 15, and nothing is written on any of them. With this, the days handed out never fall either."
 */
static void check_order_of_index(void)
{
    const int64_t first = -1071989683200000, last = 947655244799999;
    check_accepted_index(5, 5, 5);
    check_accepted_index(-1, -1, 0);
    check_accepted_index(86399999, 86400000, 86400000);
    check_accepted_index(first, first, last);
    check_accepted_index(first, last, last);
    /* the place is that of the later one: a fall within a day, one between days, several, and those of the range's ends */
    check_refused_index(0, 2, 1, 3, OVENQUILL_OUT_OF_ORDER, 2);
    check_refused_index(2, 1, 2, 3, OVENQUILL_OUT_OF_ORDER, 1);
    check_refused_index(0, 86400000, 86399999, 3, OVENQUILL_OUT_OF_ORDER, 2);
    check_refused_index(0, -1, -1, 3, OVENQUILL_OUT_OF_ORDER, 1);
    check_refused_index(2, 1, 0, 3, OVENQUILL_OUT_OF_ORDER, 1);
    check_refused_index(first, last, first, 3, OVENQUILL_OUT_OF_ORDER, 2);
    /* 4 before 15, wherever the two stand */
    check_refused_index(1, 0, last + 1, 3, OVENQUILL_OUT_OF_RANGE, 2);
    check_refused_index(1, 0, first - 1, 3, OVENQUILL_OUT_OF_RANGE, 2);
    check_refused_index(1, INT64_MIN, 0, 3, OVENQUILL_OUT_OF_RANGE, 1);
    check_refused_index(last + 1, 1, 0, 3, OVENQUILL_OUT_OF_RANGE, 0);
    check_refused_index(first - 1, 1, 0, 3, OVENQUILL_OUT_OF_RANGE, 0);
    check_refused_index(INT64_MAX, INT64_MIN, 0, 3, OVENQUILL_OUT_OF_RANGE, 0);
    /* 12 before both */
    check_refused_index(0, 1, 2, 2, OVENQUILL_UNEQUAL_LENGTHS, -1);
    check_refused_index(1, 0, 2, 4, OVENQUILL_UNEQUAL_LENGTHS, -1);
    check_refused_index(1, 0, last + 1, 2, OVENQUILL_UNEQUAL_LENGTHS, -1);
    check_refused_index(last + 1, 1, 0, 4, OVENQUILL_UNEQUAL_LENGTHS, -1);
}

/* A day count and its week date, each led to the other. */
static void check_week(int64_t count, int64_t year, int64_t week, int64_t weekday)
{
    ovenquill_week_date date = {0, 0, 0};
    int64_t days = 0;
    same("week date of a count", count, ovenquill_week_from_days(count, &date), 0);
    same("week year of a count", count, date.year, year);
    same("week of a count", count, date.week, week);
    same("weekday of a count", count, date.weekday, weekday);
    same("days of a week date", count, ovenquill_days_from_week(year, week, weekday, &days), 0);
    same("days of a week date", count, days, count);
}

static void check_refused_week(int64_t year, int64_t week, int64_t weekday, int64_t refusal)
{
    int64_t days = 7;
    same("a refused week date", year, ovenquill_days_from_week(year, week, weekday, &days), refusal);
    same("the days of a refused week date", year, days, 7);
}

/*
 * "Week 1 holds the year's first Thursday." "16 for a week that its year doesn't have or a weekday outside 1..7; 4 for a result out
 * of range." By change request Eight "week years run from -32001 to 31999": the first is "given and taken for the days in range only".
 */
static void check_week_dates(void)
{
    check_date(18627, 2020, 12, 31);
    check_date(18628, 2021, 1, 1);
    check_week(19487, 2023, 19, OVENQUILL_WEDNESDAY);
    check_week(18627, 2020, 53, OVENQUILL_THURSDAY);
    check_week(18628, 2020, 53, OVENQUILL_FRIDAY);
    check_week(-719528, -1, 52, OVENQUILL_SATURDAY);
    check_week(-719527, -1, 52, OVENQUILL_SUNDAY);
    check_week(-719526, 0, 1, OVENQUILL_MONDAY);
    check_week(2932896, 9999, 52, OVENQUILL_FRIDAY);
    /* the first year, year -1 and the last year, on each side of their ends */
    check_week(-12407288, -32001, 52, OVENQUILL_SATURDAY);
    check_week(-12407287, -32001, 52, OVENQUILL_SUNDAY);
    check_week(-12407286, -32000, 1, OVENQUILL_MONDAY);
    check_week(-719893, -2, 53, OVENQUILL_FRIDAY);
    check_week(-719890, -1, 1, OVENQUILL_MONDAY);
    check_week(-719529, -1, 52, OVENQUILL_FRIDAY);
    check_week(10968227, 31999, 52, OVENQUILL_MONDAY);
    check_week(10968231, 31999, 52, OVENQUILL_FRIDAY);
    check_refused_week(-32002, 1, 1, OVENQUILL_YEAR_OUT_OF_RANGE);
    check_refused_week(32000, 1, 1, OVENQUILL_YEAR_OUT_OF_RANGE);
    check_refused_week(-32001, 53, 1, OVENQUILL_WEEK_OUT_OF_RANGE);
    check_refused_week(-1, 53, 1, OVENQUILL_WEEK_OUT_OF_RANGE);
    check_refused_week(2021, 53, 1, OVENQUILL_WEEK_OUT_OF_RANGE);
    check_refused_week(2020, 54, 1, OVENQUILL_WEEK_OUT_OF_RANGE);
    check_refused_week(2020, 0, 1, OVENQUILL_WEEK_OUT_OF_RANGE);
    check_refused_week(2020, 1, 0, OVENQUILL_WEEK_OUT_OF_RANGE);
    check_refused_week(2020, 1, 8, OVENQUILL_WEEK_OUT_OF_RANGE);
    check_refused_week(9999, 53, 1, OVENQUILL_WEEK_OUT_OF_RANGE);
    check_refused_week(-32001, 52, 5, OVENQUILL_OUT_OF_RANGE);
    check_refused_week(-32001, 1, 1, OVENQUILL_OUT_OF_RANGE);
    check_refused_week(31999, 52, 6, OVENQUILL_OUT_OF_RANGE);
    check_refused_week(31999, 52, 7, OVENQUILL_OUT_OF_RANGE);
    /* 1 before 16, and 16 before 4 */
    check_refused_week(-32002, 54, 8, OVENQUILL_YEAR_OUT_OF_RANGE);
    check_refused_week(32000, 0, 0, OVENQUILL_YEAR_OUT_OF_RANGE);
    check_refused_week(-32001, 0, 5, OVENQUILL_WEEK_OUT_OF_RANGE);
    check_refused_week(-32001, 52, 0, OVENQUILL_WEEK_OUT_OF_RANGE);
    check_refused_week(31999, 53, 1, OVENQUILL_WEEK_OUT_OF_RANGE);
    check_refused_week(31999, 52, 8, OVENQUILL_WEEK_OUT_OF_RANGE);
}

/* A day and its label, each led to the other; the two bytes after the label are kept. */
static void check_week_label(int64_t count, const char *label)
{
    uint8_t out[12];
    int64_t days = 0;
    memset(out, '?', sizeof out);
    same("writing a week label", count, ovenquill_write_week(count, out, sizeof out), 10);
    same("a week label", count, memcmp(out, label, 10), 0);
    same("the bytes after a week label", count, memcmp(out + 10, "??", 2), 0);
    same("reading a week label", count, ovenquill_read_week(out, 10, &days), 0);
    same("the days of a week label", count, days, count);
}

static void check_unwritten_week(int64_t count, size_t length, int64_t refusal)
{
    uint8_t out[10];
    memset(out, '?', sizeof out);
    same("a refused week label", count, ovenquill_write_week(count, out, length), refusal);
    same("the buffer of a refused week label", count, memcmp(out, "??????????", sizeof out), 0);
}

static void check_unread_week(const char *label, int64_t refusal)
{
    const long before = failures;
    int64_t days = 7;
    same("an unread week label", 0, ovenquill_read_week((const uint8_t *)label, strlen(label), &days), refusal);
    same("the days of an unread week label", 0, days, 7);
    show_failed_text(before, label, strlen(label));
}

/*
 * "`YYYY-Www-D`, 10 bytes, week years 0 to 9999 only; the writer takes a day count and refuses with 4, then 1 for other week years,
 * then 7. Order of the reader's checks: shape (8, here any length but 10), year (1), week, weekday (16), range (4)." Change request
 * Eight's range has every year and every day that ten bytes can tell.
 */
static void check_week_labels(void)
{
    check_week_label(19487, "2023-W19-3");
    check_week_label(18627, "2020-W53-4");
    check_week_label(18628, "2020-W53-5");
    check_week_label(-719526, "0000-W01-1");
    check_week_label(2932896, "9999-W52-5");
    check_week_label(2932897, "9999-W52-6");
    check_week_label(2932898, "9999-W52-7");
    check_unwritten_week(-12407289, 9, OVENQUILL_OUT_OF_RANGE);
    check_unwritten_week(-12407289, 10, OVENQUILL_OUT_OF_RANGE);
    check_unwritten_week(10968232, 9, OVENQUILL_OUT_OF_RANGE);
    check_unwritten_week(10968232, 10, OVENQUILL_OUT_OF_RANGE);
    check_unwritten_week(-12407288, 9, OVENQUILL_YEAR_OUT_OF_RANGE);
    check_unwritten_week(-12407288, 10, OVENQUILL_YEAR_OUT_OF_RANGE);
    check_unwritten_week(-719529, 10, OVENQUILL_YEAR_OUT_OF_RANGE);
    check_unwritten_week(-719528, 9, OVENQUILL_YEAR_OUT_OF_RANGE);
    check_unwritten_week(-719527, 10, OVENQUILL_YEAR_OUT_OF_RANGE);
    check_unwritten_week(2932899, 9, OVENQUILL_YEAR_OUT_OF_RANGE);
    check_unwritten_week(2932899, 10, OVENQUILL_YEAR_OUT_OF_RANGE);
    check_unwritten_week(10968231, 9, OVENQUILL_YEAR_OUT_OF_RANGE);
    check_unwritten_week(10968231, 10, OVENQUILL_YEAR_OUT_OF_RANGE);
    check_unwritten_week(-719526, 9, OVENQUILL_BUFFER_TOO_SHORT);
    check_unwritten_week(2932898, 9, OVENQUILL_BUFFER_TOO_SHORT);
    check_unwritten_week(19487, 0, OVENQUILL_BUFFER_TOO_SHORT);
    check_unread_week("-001-W52-6", OVENQUILL_MALFORMED_LABEL);
    check_unread_week("2023-w19-3", OVENQUILL_MALFORMED_LABEL);
    check_unread_week("2023-W1-3", OVENQUILL_MALFORMED_LABEL);
    check_unread_week("10000-W01-1", OVENQUILL_MALFORMED_LABEL);
    check_unread_week("2023-W00-1", OVENQUILL_WEEK_OUT_OF_RANGE);
    check_unread_week("2023-W53-1", OVENQUILL_WEEK_OUT_OF_RANGE);
    check_unread_week("2023-W01-0", OVENQUILL_WEEK_OUT_OF_RANGE);
    check_unread_week("2023-W01-8", OVENQUILL_WEEK_OUT_OF_RANGE);
    check_unread_week("2023-W01-9", OVENQUILL_WEEK_OUT_OF_RANGE);
    check_unread_week("9999-W53-1", OVENQUILL_WEEK_OUT_OF_RANGE);
    check_unread_week("9999-W52-8", OVENQUILL_WEEK_OUT_OF_RANGE);
    /* 8 before 16 */
    check_unread_week("2023-w00-8", OVENQUILL_MALFORMED_LABEL);
}

/* A day count that is outside the range, in each call that takes one or leads to one. */
static void check_refused_count(int64_t count)
{
    ovenquill_date date = {7, 7, 7};
    ovenquill_week_date week = {7, 7, 7};
    size_t i;
    for (i = 0; i < COUNT(ways); i++)
        same("the date of a refused count", count, ways[i](count, &date), OVENQUILL_OUT_OF_RANGE);
    same("the weekday of a refused count", count, ovenquill_weekday(count), OVENQUILL_OUT_OF_RANGE);
    same("the week date of a refused count", count, ovenquill_week_from_days(count, &week), OVENQUILL_OUT_OF_RANGE);
    same("a refused shift from day 0", count, ovenquill_add_days(1970, 1, 1, count, &date), OVENQUILL_OUT_OF_RANGE);
    same("the date that a refused count leaves", count, date.year == 7 && date.month == 7 && date.day == 7, 1);
    same("the week date that a refused count leaves", count, week.year == 7 && week.week == 7 && week.weekday == 7, 1);
}

/* A year that is outside the range comes before whatever else is wrong in a call. */
static void check_refused_year(int64_t year)
{
    ovenquill_date date = {7, 7, 7};
    int64_t days = 7, instant = 7;
    same("leap in a refused year", year, ovenquill_is_leap(year), OVENQUILL_YEAR_OUT_OF_RANGE);
    same("a month of a refused year", year, ovenquill_last_day_of_month(year, 13), OVENQUILL_YEAR_OUT_OF_RANGE);
    same("a day of a refused year", year, ovenquill_day_of_year(year, 2, 30), OVENQUILL_YEAR_OUT_OF_RANGE);
    same("the count of a refused year", year, ovenquill_days_from_civil(year, 13, 99, &days), OVENQUILL_YEAR_OUT_OF_RANGE);
    same("a refused year shifted", year, ovenquill_add_days(year, 1, 1, INT64_MAX, &date), OVENQUILL_YEAR_OUT_OF_RANGE);
    same("an instant of a refused year", year, ovenquill_join_instant(year, 1, 1, 24, 0, 0, 0, &instant),
         OVENQUILL_YEAR_OUT_OF_RANGE);
    same("what a refused year leaves", year, days == 7 && instant == 7, 1);
    same("the date that a refused year leaves", year, date.year == 7 && date.month == 7 && date.day == 7, 1);
}

/* 29 February of a year that has none. */
static void check_no_leap_day(int64_t year)
{
    int64_t days = 7;
    same("a year that is not leap", year, ovenquill_is_leap(year), 0);
    same("29 February of such a year", year, ovenquill_days_from_civil(year, 2, 29, &days), OVENQUILL_DAY_OUT_OF_RANGE);
    same("the count of 29 February of such a year", year, days, 7);
}

static void check_leap_day(int64_t count, int64_t year)
{
    same("a leap year", year, ovenquill_is_leap(year), 1);
    check_date(count, year, 2, 29);
    check_date(count + 1, year, 3, 1);
}

/*
 * "Raise the calendar to years -32000 through 31999, day counts -12407288 to 10968231. Refusals 1 and 4 move with it." "Day 2932897
 * and 9999-W52-6 are then both 10000-01-01."
 */
static void check_museum_years(void)
{
    check_date(-12407288, -32000, 1, 1);
    check_weekday(-32000, 1, 1, OVENQUILL_SATURDAY);
    check_date(10968231, 31999, 12, 31);
    check_weekday(31999, 12, 31, OVENQUILL_FRIDAY);
    check_refused_count(-12407289);
    check_refused_count(10968232);
    check_refused_year(-32001);
    check_refused_year(32000);
    check_date(-719529, -1, 12, 31);
    check_weekday(-1, 12, 31, OVENQUILL_FRIDAY);
    check_date(2932897, 10000, 1, 1);
    check_weekday(10000, 1, 1, OVENQUILL_SATURDAY);
    check_week(2932897, 9999, 52, OVENQUILL_SATURDAY);
    check_week(2932898, 9999, 52, OVENQUILL_SUNDAY);
    check_week(2932899, 10000, 1, OVENQUILL_MONDAY);
    check_leap_day(-12407229, -32000);
    check_leap_day(-865566, -400);
    check_leap_day(-720930, -4);
    check_leap_day(2932956, 10000);
    check_leap_day(10966830, 31996);
    check_no_leap_day(-100);
    check_no_leap_day(-1);
    check_no_leap_day(31999);
}

/* An instant that is the first or the last of its day: that day, its date and time, and the instant of these. */
static void check_split(int64_t instant, int64_t count, int64_t year, int64_t month, int64_t day, int is_last)
{
    const int64_t hour = is_last ? 23 : 0, minute = is_last ? 59 : 0, millisecond = is_last ? 999 : 0;
    ovenquill_fields f = {7, 7, 7, 7, 7, 7, 7};
    int64_t days = 7, joined = 7;
    same("the day of an instant", instant, ovenquill_day_of_instant(instant, &days), 0);
    same("the day of an instant", instant, days, count);
    same("the fields of an instant", instant, ovenquill_split_instant(instant, &f), 0);
    same("the date of an instant", instant, f.year == year && f.month == month && f.day == day, 1);
    same("the time of an instant", instant,
         f.hour == hour && f.minute == minute && f.second == minute && f.millisecond == millisecond, 1);
    same("the instant of fields", instant, ovenquill_join_instant(year, month, day, hour, minute, minute, millisecond, &joined), 0);
    same("the instant of fields", instant, joined, instant);
}

static void check_refused_instant(int64_t instant)
{
    ovenquill_fields f = {7, 7, 7, 7, 7, 7, 7};
    int64_t days = 7;
    same("the day of a refused instant", instant, ovenquill_day_of_instant(instant, &days), OVENQUILL_OUT_OF_RANGE);
    same("the fields of a refused instant", instant, ovenquill_split_instant(instant, &f), OVENQUILL_OUT_OF_RANGE);
    same("what a refused instant leaves", instant, days == 7 && f.year == 7 && f.millisecond == 7, 1);
}

/* In a buffer of any length up to the longest, which is a byte too few for a label or one more than it needs. */
static void check_unwritten_instant(int64_t instant, size_t longest, int64_t refusal)
{
    uint8_t out[25], kept[sizeof out];
    size_t length;
    memset(out, '?', sizeof out);
    memset(kept, '?', sizeof kept);
    for (length = 0; length <= longest; length++) {
        same("a refused instant label", instant, ovenquill_write_instant(instant, out, length), refusal);
        same("the buffer of a refused instant label", instant, memcmp(out, kept, sizeof out), 0);
    }
}

/*
 * "Instants too." "Instant labels stay with years 0 to 9999: the writer refuses other years with 1, after 4 and before 7." Instants
 * at the ends of the range and of the labels' years, and those beside them.
 */
static void check_museum_instants(void)
{
    check_split(-1071989683200000, -12407288, -32000, 1, 1, 0);
    check_split(947655244799999, 10968231, 31999, 12, 31, 1);
    check_refused_instant(-1071989683200001);
    check_refused_instant(947655244800000);
    check_split(-62167219200001, -719529, -1, 12, 31, 1);
    check_split(-62167219200000, -719528, 0, 1, 1, 0);
    check_split(253402300799999, 2932896, 9999, 12, 31, 1);
    check_split(253402300800000, 2932897, 10000, 1, 1, 0);
    check_instant(-62167219200000, -719528, "0000-01-01T00:00:00.000Z");
    check_instant(253402300799999, 2932896, "9999-12-31T23:59:59.999Z");
    check_unwritten_instant(-62167219200000, 23, OVENQUILL_BUFFER_TOO_SHORT);
    check_unwritten_instant(253402300799999, 23, OVENQUILL_BUFFER_TOO_SHORT);
    check_unwritten_instant(-62167219200001, 25, OVENQUILL_YEAR_OUT_OF_RANGE);
    check_unwritten_instant(253402300800000, 25, OVENQUILL_YEAR_OUT_OF_RANGE);
    check_unwritten_instant(-1071989683200000, 25, OVENQUILL_YEAR_OUT_OF_RANGE);
    check_unwritten_instant(947655244799999, 25, OVENQUILL_YEAR_OUT_OF_RANGE);
    check_unwritten_instant(-1071989683200001, 25, OVENQUILL_OUT_OF_RANGE);
    check_unwritten_instant(947655244800000, 25, OVENQUILL_OUT_OF_RANGE);
    check_unwritten_instant(INT64_MIN, 25, OVENQUILL_OUT_OF_RANGE);
    check_unwritten_instant(INT64_MAX, 25, OVENQUILL_OUT_OF_RANGE);
}

/* The request's two claims, and a sheet of them behind a note of three bytes. */
static const uint32_t tenths[] = {1, 0, 10, 26, 0, 8, 0, 69, 1, 0, 10, 26, 0, 8, 0, 100};
static const uint8_t sheet_of_tenths[] = {
    'a', 'b', 'c',
    1, 0, 0, 0, 0, 0, 0, 0, 10, 0, 0, 0, 26, 0, 0, 0, 0, 0, 0, 0, 8, 0, 0, 0, 0, 0, 0, 0, 69,  0, 0, 0,
    1, 0, 0, 0, 0, 0, 0, 0, 10, 0, 0, 0, 26, 0, 0, 0, 0, 0, 0, 0, 8, 0, 0, 0, 0, 0, 0, 0, 100, 0, 0, 0,
    3, 0, 0, 0, 2, 0, 0, 0, 79, 0, 0, 0,
};

static void check_sheet_report(const uint8_t *sheet, size_t length, const char *text)
{
    uint8_t out[40];
    const int64_t bytes = (int64_t)strlen(text);
    memset(out, '?', sizeof out);
    same("the report of a sheet", (int64_t)length, ovenquill_sheet_report(sheet, length, out, sizeof out), bytes);
    same("the lines of a sheet", (int64_t)length, memcmp(out, text, (size_t)bytes), 0);
    same("the bytes after the lines", (int64_t)length, out[bytes], '?');
    if (bytes > 0)
        same("a byte too few", (int64_t)length, ovenquill_sheet_report(sheet, length, out, (size_t)bytes - 1),
             OVENQUILL_BUFFER_TOO_SHORT);
}

static void check_refused_sheet(const uint8_t *sheet, size_t length)
{
    ovenquill_record record = {7, 7, 7, 7, 7, 7, 7, 7};
    int64_t note_length = 7, least = 7;
    same("a refused sheet", (int64_t)length, ovenquill_sheet_read(sheet, length, &note_length), OVENQUILL_MALFORMED_SHEET);
    same("its record", (int64_t)length, ovenquill_sheet_record(sheet, length, 0, &record), OVENQUILL_MALFORMED_SHEET);
    same("its claim", (int64_t)length, ovenquill_sheet_check(sheet, length, 0, &least), OVENQUILL_MALFORMED_SHEET);
    same("what it leaves", (int64_t)length, note_length == 7 && least == 7 && record.a == 7 && record.bound == 7, 1);
    check_sheet_report(sheet, length, "17\n");
}

/* A sheet in which one byte of the trailer is another. */
static void check_damaged_sheet(size_t place, uint8_t byte)
{
    uint8_t sheet[sizeof sheet_of_tenths];
    memcpy(sheet, sheet_of_tenths, sizeof sheet);
    sheet[place] = byte;
    check_refused_sheet(sheet, sizeof sheet);
}

/*
 * "The last 12 bytes of the file are a trailer: offset of the first record, number of records, length of the whole file. Records
 * run from that offset up to the trailer without gap; bytes before them are a free note." "Asked for a record that isn't there, the
 * reader answers 17. Each record otherwise gets accepted, 9, 10 with its least n, or 11."
 */
static void check_read_sheets(void)
{
    const size_t length = sizeof sheet_of_tenths;
    static const uint8_t empty[] = {0, 0, 0, 0, 0, 0, 0, 0, 12, 0, 0, 0}, note_alone[] = {'x', 1, 0, 0, 0, 0, 0, 0, 0, 13, 0, 0, 0};
    static const uint8_t elsewhere[] = {'x', 0, 0, 0, 0, 0, 0, 0, 0, 13, 0, 0, 0};
    ovenquill_record record = {7, 7, 7, 7, 7, 7, 7, 7};
    int64_t note_length = 7, least = 7;
    same("a sheet of two records", 0, ovenquill_sheet_read(sheet_of_tenths, length, &note_length), 2);
    same("a note of three bytes", 0, note_length, 3);
    same("a record", 1, ovenquill_sheet_record(sheet_of_tenths, length, 1, &record), 0);
    same("the constants of a record", 1, record.a == 1 && record.b == 0 && record.d == 10 && record.m == 26, 1);
    same("the constants of a record", 1, record.c == 0 && record.k == 8 && record.t == 0 && record.bound == 100, 1);
    same("a record that isn't there", 2, ovenquill_sheet_record(sheet_of_tenths, length, 2, &record), OVENQUILL_MALFORMED_SHEET);
    same("a record below 0", -1, ovenquill_sheet_record(sheet_of_tenths, length, -1, &record), OVENQUILL_MALFORMED_SHEET);
    same("an accepted record", 0, ovenquill_sheet_check(sheet_of_tenths, length, 0, &least), 0);
    same("no least n", 0, least, 7);
    same("a record with a difference below", 1, ovenquill_sheet_check(sheet_of_tenths, length, 1, &least),
         OVENQUILL_DIFFERENCE_BELOW_BOUND);
    same("its least n", 1, least, 69);
    check_sheet_report(sheet_of_tenths, length, "0 accepted\n1 10 69\n");
    same("a sheet without records", 0, ovenquill_sheet_read(empty, sizeof empty, &note_length), 0);
    same("a note of no bytes", 0, note_length, 0);
    check_sheet_report(empty, sizeof empty, "");
    same("a note alone", 0, ovenquill_sheet_read(note_alone, sizeof note_alone, &note_length), 0);
    same("a note of one byte", 0, note_length, 1);
    check_refused_sheet(elsewhere, sizeof elsewhere);
    check_refused_sheet(empty, sizeof empty - 1);
    check_refused_sheet(sheet_of_tenths, length - 1);
    check_refused_sheet(sheet_of_tenths + 1, length - 1);
    /* the offset, the number of records and the length, one less and one more */
    check_damaged_sheet(length - 12, 2);
    check_damaged_sheet(length - 12, 4);
    check_damaged_sheet(length - 8, 1);
    check_damaged_sheet(length - 8, 3);
    check_damaged_sheet(length - 4, 78);
    check_damaged_sheet(length - 4, 80);
}

static void check_unwritten_sheet(size_t note_length, const uint32_t *numbers, size_t count, size_t length, int64_t refusal)
{
    static uint8_t note[65536], out[65536];
    size_t i, changed = 0;
    memset(out, '?', sizeof out);
    same("a refused writing", (int64_t)count, ovenquill_sheet_write(note, note_length, numbers, count, out, length), refusal);
    for (i = 0; i < sizeof out; i++)
        changed += out[i] != '?';
    same("the buffer of a refused writing", (int64_t)count, (int64_t)changed, 0);
}

/*
 * "The writer takes the note and a list of u32, eight to a record; it answers the bytes written and touches nothing behind them, or
 * refuses with 17 for a part record or too many records or bytes, then 7, changing nothing."
 */
static void check_written_sheets(void)
{
    static uint32_t many[1025 * 8];
    uint8_t out[sizeof sheet_of_tenths + 1];
    memset(out, '?', sizeof out);
    same("a written sheet", 16, ovenquill_sheet_write((const uint8_t *)"abc", 3, tenths, 16, out, sizeof out), 79);
    same("the bytes of a written sheet", 16, memcmp(out, sheet_of_tenths, 79), 0);
    same("the byte behind a written sheet", 16, out[79], '?');
    check_unwritten_sheet(3, tenths, 16, 78, OVENQUILL_BUFFER_TOO_SHORT);
    check_unwritten_sheet(3, tenths, 16, 0, OVENQUILL_BUFFER_TOO_SHORT);
    check_unwritten_sheet(0, tenths, 15, 65536, OVENQUILL_MALFORMED_SHEET);
    check_unwritten_sheet(0, tenths, 1, 65536, OVENQUILL_MALFORMED_SHEET);
    check_unwritten_sheet(0, many, 1025 * 8, 65536, OVENQUILL_MALFORMED_SHEET);
    check_unwritten_sheet(0, many, 1024 * 8, 32779, OVENQUILL_BUFFER_TOO_SHORT);
    check_unwritten_sheet(65525, many, 0, 65536, OVENQUILL_MALFORMED_SHEET);
    check_unwritten_sheet(65524, many, 0, 65535, OVENQUILL_BUFFER_TOO_SHORT);
    check_unwritten_sheet(65493, many, 8, 65536, OVENQUILL_MALFORMED_SHEET);
    /* 17 before 7 */
    check_unwritten_sheet(0, tenths, 15, 0, OVENQUILL_MALFORMED_SHEET);
    check_unwritten_sheet(0, many, 1025 * 8, 0, OVENQUILL_MALFORMED_SHEET);
    check_unwritten_sheet(65525, many, 0, 65535, OVENQUILL_MALFORMED_SHEET);
}

int main(void)
{
    check_calendar();
    check_instants();
    check_small_letters();
    check_positions();
    check_timestamps();
    check_cues();
    check_all_constants();
    check_steps();
    check_refused_values();
    check_batches();
    check_order_of_index();
    check_week_dates();
    check_week_labels();
    check_museum_years();
    check_museum_instants();
    check_read_sheets();
    check_written_sheets();
    return finish("the numbers of document 01 and of change requests One and Three to Ten");
}
