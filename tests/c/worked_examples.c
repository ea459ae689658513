/*
 * Prints what the program `worked_examples` must print: its rows, each answered by the plain reference. Nothing here calls the
 * library. Compiled as C and as C++. The expected output is made by
 *
 *     cc -O2 tests/c/worked_examples.c tests/c/plain_*.c -o build/rows && build/rows > crates/worked_examples/stdout
 *
 * in some 25 seconds: three searches try every n below 4294967295.
 */
#include <inttypes.h>
#include <stdio.h>
#include <string.h>

#include "plain.h"

static void show_numbers(const int64_t *values, int count)
{
    int i;
    for (i = 0; i < count; i++)
        printf("%s%" PRId64, i == 0 ? "" : " ", values[i]);
}

/* The refusal of an answer below 0, else the values that were asked for. */
static void show(int64_t answer, const int64_t *values, int count)
{
    if (answer < 0)
        printf("refused %" PRId64, -answer);
    else
        show_numbers(values, count);
}

/* An answer that is its own value. */
static void show_answer(int64_t answer)
{
    show(answer, &answer, 1);
}

/* A writer's answer and the bytes of the buffer that it was lent, which began as question marks. */
static void show_written(int64_t writer(int64_t, uint8_t *, size_t), int64_t number, size_t length)
{
    uint8_t out[32];
    memset(out, '?', sizeof out);
    show_answer(writer(number, out, length));
    printf(" %.*s", (int)length, (const char *)out);
}

static void day_row(int64_t days)
{
    int64_t date[3];
    printf("day %" PRId64 ": ", days);
    show(plain_civil_from_days(days, date), date, 3);
    printf(", weekday ");
    show_answer(plain_weekday(days));
    printf("\n");
}

static void date_row(int64_t year, int64_t month, int64_t day)
{
    int64_t days, leap = plain_is_leap(year);
    printf("date %" PRId64 " %" PRId64 " %" PRId64 ": count ", year, month, day);
    show(plain_days_from_civil(year, month, day, &days), &days, 1);
    printf(", day of year ");
    show_answer(plain_day_of_year(year, month, day));
    printf(", month length ");
    show_answer(plain_last_day_of_month(year, month));
    printf(", leap ");
    if (leap < 0)
        show_answer(leap);
    else
        printf("%s", leap ? "yes" : "no");
    printf("\n");
}

static void shift_row(int64_t year, int64_t month, int64_t day, int64_t days)
{
    int64_t shifted[3];
    printf("date %" PRId64 " %" PRId64 " %" PRId64 " shifted by %" PRId64 ": ", year, month, day, days);
    show(plain_add_days(year, month, day, days, shifted), shifted, 3);
    printf("\n");
}

static void calendar_rows(void)
{
    static const int64_t days[] = {-719528, -719469, -719468, -25509, -25508, -1, 0, 11016, 19487, 47540, 47541,
                                   2932896, 2932897, -719529, -12407288, -12407289, 10968231, 10968232, INT64_MAX};
    size_t i;
    for (i = 0; i < sizeof days / sizeof *days; i++)
        day_row(days[i]);
    date_row(0, 1, 1);
    date_row(0, 2, 29);
    date_row(1900, 2, 28);
    date_row(1900, 2, 29);
    date_row(1969, 12, 31);
    date_row(2000, 2, 29);
    date_row(2023, 13, 99);
    date_row(9999, 12, 31);
    date_row(10000, 1, 1);
    date_row(-1, 12, 31);
    date_row(-4, 2, 29);
    date_row(-100, 2, 29);
    date_row(-400, 2, 29);
    date_row(-32000, 1, 1);
    date_row(31999, 12, 31);
    date_row(32000, 1, 1);
    date_row(-32001, 0, 0);
    shift_row(1970, 1, 1, -719528);
    shift_row(1970, 1, 1, -12407288);
    shift_row(1970, 1, 1, -12407289);
    shift_row(-32000, 1, 1, 23375519);
    shift_row(-32000, 1, 1, 23375520);
    shift_row(31999, 12, 31, INT64_MAX);
    shift_row(-32000, 1, 1, INT64_MIN);
    shift_row(1900, 2, 29, 0);
}

static void week_row(int64_t days)
{
    int64_t week_date[3];
    printf("day %" PRId64 ": week date ", days);
    show(plain_week_from_days(days, week_date), week_date, 3);
    printf("\n");
}

static void week_date_row(int64_t year, int64_t week, int64_t weekday)
{
    int64_t days;
    printf("week date %" PRId64 " %" PRId64 " %" PRId64 ": count ", year, week, weekday);
    show(plain_days_from_week(year, week, weekday, &days), &days, 1);
    printf("\n");
}

static void week_label_row(int64_t days)
{
    printf("day %" PRId64 ": label ", days);
    show_written(plain_write_week, days, PAPER_WEEK_LABEL_BYTES);
    printf("\n");
}

static void short_week_label_row(int64_t days)
{
    printf("day %" PRId64 " in %d bytes: label ", days, PAPER_WEEK_LABEL_BYTES - 1);
    show_written(plain_write_week, days, PAPER_WEEK_LABEL_BYTES - 1);
    printf("\n");
}

static void week_label_read_row(const char *text)
{
    int64_t days;
    printf("label %s: day ", text);
    show(plain_read_week((const uint8_t *)text, strlen(text), &days), &days, 1);
    printf("\n");
}

static void week_rows(void)
{
    week_row(19487);
    week_row(18627);
    week_row(18628);
    week_row(-719528);
    week_row(-719527);
    week_row(-719526);
    week_row(2932896);
    week_row(2932897);
    week_row(2932898);
    week_row(2932899);
    week_row(-12407288);
    week_row(-12407289);
    week_row(10968231);
    week_row(10968232);
    week_date_row(-1, 52, 6);
    week_date_row(-1, 52, 5);
    week_date_row(-1, 53, 1);
    week_date_row(9999, 52, 5);
    week_date_row(9999, 52, 6);
    week_date_row(9999, 52, 7);
    week_date_row(9999, 53, 1);
    week_date_row(10000, 1, 1);
    week_date_row(-32001, 52, 6);
    week_date_row(-32001, 52, 5);
    week_date_row(-32001, 53, 1);
    week_date_row(-32002, 1, 1);
    week_date_row(31999, 52, 5);
    week_date_row(31999, 52, 6);
    week_date_row(32000, 1, 1);
    week_date_row(2021, 53, 1);
    week_date_row(2020, 53, 4);
    week_date_row(2020, 0, 1);
    week_date_row(2020, 1, 0);
    week_date_row(2020, 1, 8);
    week_label_row(19487);
    week_label_row(18627);
    week_label_row(18628);
    week_label_row(-719527);
    week_label_row(-719526);
    week_label_row(2932897);
    week_label_row(2932898);
    week_label_row(2932899);
    week_label_row(-12407289);
    week_label_row(10968232);
    short_week_label_row(19487);
    short_week_label_row(-719527);
    short_week_label_row(10968232);
    week_label_read_row("2023-W19-3");
    week_label_read_row("2020-W53-4");
    week_label_read_row("2020-W53-5");
    week_label_read_row("2023-w19-3");
    week_label_read_row("2023-W00-1");
    week_label_read_row("2023-W01-0");
    week_label_read_row("2023-W01-8");
    week_label_read_row("2023-W01-9");
    week_label_read_row("-001-W52-6");
    week_label_read_row("9999-W52-6");
    week_label_read_row("9999-W52-7");
    week_label_read_row("9999-W53-1");
    week_label_read_row("0000-W01-1");
    week_label_read_row("2023-W1-3");
    week_label_read_row("10000-W01-1");
}

static void instant_row(int64_t instant)
{
    int64_t days, fields[7];
    printf("instant %" PRId64 ": day ", instant);
    show(plain_day_of_instant(instant, &days), &days, 1);
    printf(", fields ");
    show(plain_split_instant(instant, fields), fields, 7);
    printf("\n");
}

static void fields_row(int64_t year, int64_t month, int64_t day, int64_t hour, int64_t minute, int64_t second, int64_t millisecond)
{
    const int64_t fields[7] = {year, month, day, hour, minute, second, millisecond};
    int64_t instant;
    printf("fields ");
    show_numbers(fields, 7);
    printf(": instant ");
    show(plain_join_instant(fields, &instant), &instant, 1);
    printf("\n");
}

/* The row of an index, named by its instants or in words; the days that are shown begin as 7. */
static void index_row(const char *words, const int64_t *instants, size_t count, size_t days_length, int shown)
{
    int32_t days[4] = {7, 7, 7, 7};
    int64_t place = -1, answer = plain_index_days(instants, count, days, days_length, &place);
    int i;
    printf("index ");
    if (words != NULL)
        printf("%s", words);
    else
        show_numbers(instants, (int)count);
    printf(": %s", answer < 0 ? "" : "written ");
    show_answer(answer);
    if (place >= 0)
        printf(" at %" PRId64, place);
    for (i = 0; i < shown; i++)
        printf("%s%" PRId32, i == 0 ? ", days " : " ", days[i]);
    printf("\n");
}

static void instant_rows(void)
{
    static const int64_t instants[] = {-86400000, -86400001, -1, 0, 1683729000000LL, -62167219200000LL,
                                       -62167219200001LL, 253402300799999LL, 253402300800000LL, -1071989683200000LL,
                                       -1071989683200001LL, 947655244799999LL, 947655244800000LL};
    static const int64_t across[] = {-1, 0, 86399999, 86400000}, no_labels[] = {-62167219200001LL, 253402300800000LL};
    static const int64_t outside_last[] = {0, 947655244800000LL}, both_wrong[] = {1, 0, 947655244800000LL};
    static const int64_t falling[] = {0, 86400000, 86399999}, equal[] = {5, 5};
    size_t i;
    for (i = 0; i < sizeof instants / sizeof *instants; i++)
        instant_row(instants[i]);
    fields_row(2023, 5, 10, 14, 30, 0, 0);
    fields_row(1969, 12, 31, 23, 59, 59, 999);
    fields_row(2016, 12, 31, 23, 59, 60, 0);
    fields_row(2016, 12, 32, 23, 59, 60, 0);
    fields_row(2016, 12, 31, 24, 0, 0, 0);
    fields_row(10000, 1, 1, 0, 0, 0, 0);
    fields_row(-1, 12, 31, 23, 59, 59, 999);
    fields_row(32000, 13, 1, 0, 0, 0, 0);
    index_row(NULL, across, 4, 4, 4);
    index_row(NULL, no_labels, 2, 2, 2);
    index_row(NULL, outside_last, 2, 2, 2);
    index_row(NULL, falling, 3, 3, 3);
    index_row(NULL, equal, 2, 2, 2);
    index_row(NULL, both_wrong, 3, 3, 3);
    index_row("of no instants", across, 0, 0, 0);
    index_row("of one instant with two days", across, 1, 2, 0);
}

static void label_row(int64_t instant)
{
    printf("instant %" PRId64 ": label ", instant);
    show_written(plain_write_instant, instant, PAPER_INSTANT_LABEL_BYTES);
    printf("\n");
}

static void short_label_row(int64_t instant)
{
    printf("instant %" PRId64 " in %d bytes: label ", instant, PAPER_INSTANT_LABEL_BYTES - 1);
    show_written(plain_write_instant, instant, PAPER_INSTANT_LABEL_BYTES - 1);
    printf("\n");
}

static void label_read_row(const char *text)
{
    int64_t instant;
    printf("label %s: instant ", text);
    show(plain_read_instant((const uint8_t *)text, strlen(text), &instant), &instant, 1);
    printf("\n");
}

static void position_row(int64_t position)
{
    printf("position %" PRId64 ": ", position);
    show_written(plain_write_position, position, 16);
    printf("\n");
}

static void label_rows(void)
{
    label_row(1683729000000LL);
    label_row(-1);
    label_row(-62167219200000LL);
    label_row(-62167219200001LL);
    label_row(253402300799999LL);
    label_row(253402300800000LL);
    label_row(-1071989683200001LL);
    label_row(947655244800000LL);
    short_label_row(0);
    short_label_row(253402300800000LL);
    short_label_row(947655244800000LL);
    label_read_row("2023-05-10T14:30:00.000Z");
    label_read_row("1969-12-31T23:59:59.999Z");
    label_read_row("2016-12-31T23:59:60.000Z");
    label_read_row("2023-13-99T99:99:99.999Z");
    label_read_row("1900-02-29T24:00:00.000Z");
    label_read_row("2023-05-10t14:30:00.000z");
    label_read_row("2023-05-10T14:30:00.000z");
    label_read_row("2023-05-10z14:30:00.000z");
    label_read_row("2023-05-10t14:30:00.000t");
    label_read_row("2023-05-10T14:30:00.00Z");
    position_row(0);
    position_row(359999999999LL);
    position_row(4287767296LL);
    position_row(-1);
    position_row(360000000000LL);
    printf("position 4287767296 in 13 bytes: ");
    show_written(plain_write_position, 4287767296LL, 13);
    printf("\n");
}

static void timestamp_row(const char *text)
{
    int64_t position = plain_read_position((const uint8_t *)text, strlen(text));
    printf("timestamp %s: ", text);
    show_answer(position);
    if (position >= 0) {
        printf(", written ");
        show_written(plain_write_position, position, 16);
    }
    printf("\n");
}

static void cue_row(const char *line)
{
    int64_t times[2], answer = plain_read_cue((const uint8_t *)line, strlen(line), times);
    printf("cue %s: ", line);
    if (answer < 0)
        show_answer(answer);
    else
        printf("%" PRId64 " to %" PRId64, times[0], times[1]);
    printf("\n");
}

static void timing_rows(void)
{
    timestamp_row("01:02.003");
    timestamp_row("00:01:02.003");
    timestamp_row("0000100:00:00.000");
    timestamp_row("99999:59:59.999");
    timestamp_row("100000:00:00.000");
    timestamp_row("18446744073709551616:00:00.000");
    timestamp_row("1:00:00.000");
    timestamp_row("00:60.000");
    timestamp_row("00:00.0000");
    timestamp_row("00:01,500");
    timestamp_row("01.5");
    cue_row("00:01.000 --> 00:02.500");
    cue_row("00:59:59.999\t --> \t01:00:00.000");
    cue_row("00:01.000 --> 00:01.000");
    cue_row("00:01.000-->00:02.500");
    cue_row("00:01.000 -> 00:02.500");
    cue_row("00:01.000 --> 00:02.500 line:0");
    cue_row("00:01.000 --> 100000:00:00.000");
    cue_row("00:01.0000 --> 100000:00:00.000");
}

static void show_constants(const char *call, struct constants q, int64_t end)
{
    printf("%s a=%" PRId64 " b=%" PRId64 " d=%" PRId64 " m=%" PRId64, call, q.a, q.b, q.d, q.m);
    printf(" c=%" PRId64 " k=%" PRId64 " t=%" PRId64 " %" PRId64 ": ", q.c, q.k, q.t, end);
}

static void search_row(struct constants q, int64_t end)
{
    int64_t answer = plain_first_difference(q, end);
    show_constants("search", q, end);
    if (answer == end)
        printf("none");
    else
        show_answer(answer);
    printf("\n");
}

static void claim_row(struct constants q, int64_t bound)
{
    int64_t least = -1, answer = plain_check_bound(q, bound, &least);
    show_constants("claim", q, bound);
    if (answer < 0)
        show_answer(answer);
    else
        printf("accepted");
    if (least >= 0)
        printf(" at %" PRId64, least);
    printf("\n");
}

static struct constants of(int64_t a, int64_t b, int64_t d, int64_t m, int64_t c, int64_t k, int64_t t)
{
    const struct constants q = {a, b, d, m, c, k, t};
    return q;
}

static void constants_rows(void)
{
    search_row(of(1, 0, 10, 26, 0, 8, 0), PAPER_END_MAX);
    search_row(of(1, 0, 10, 26, 0, 8, 1), PAPER_END_MAX);
    search_row(of(1, 0, 10, 25, 0, 8, 0), PAPER_END_MAX);
    search_row(of(5, 461, 153, 2141, 197913, 16, 0), PAPER_END_MAX);
    search_row(of(1, 0, 1461, 2939745, 0, 32, 0), PAPER_END_MAX);
    search_row(of(1, 0, 1461, 376287347, 0, 39, 0), PAPER_END_MAX);
    search_row(of(1, 0, 146097, 963315389, 0, 47, 0), PAPER_END_MAX);
    search_row(of(1, 0, 4, 1, 0, 2, 0), PAPER_END_MAX);
    search_row(of(1, 0, 4, 1, 0, 2, 0), 5);
    search_row(of(1, 0, 1, 1, 1, 0, 0), PAPER_END_MAX);
    search_row(of(1, 0, 10, 26, 0, 8, 0), 69);
    search_row(paper_most, 0);
    search_row(of(1, 0, 0, 26, 0, 8, 0), PAPER_END_MAX);
    search_row(of(1, 0, 10, 26, 0, 48, 0), PAPER_END_MAX);
    search_row(of(1, 0, 10, 26, 0, 8, 0), PAPER_END_MAX + 1);
    claim_row(of(1, 0, 10, 26, 0, 8, 0), 69);
    claim_row(of(1, 0, 10, 26, 0, 8, 0), 100);
    claim_row(of(1, 0, 10, 26, 0, 8, 0), 68);
    claim_row(of(1, 0, 10, 26, 0, 8, 0), PAPER_BOUND_MAX + 1);
}

static void show_clock(const int64_t *clock)
{
    if (clock[0] == 0)
        printf("with nothing heard");
    else
        printf("at %" PRId64, clock[1]);
}

static void value_row(int64_t heard, int64_t position, int64_t value)
{
    int64_t clock[2] = {heard, position}, answer;
    printf("clock ");
    show_clock(clock);
    printf(", value %" PRId64 ": ", value);
    answer = plain_follow(clock, value);
    if (answer < 0)
        show_answer(answer);
    else
        printf("%" PRId64 " ticks, %" PRId64 " ms", clock[1], answer);
    printf(", then ");
    show_clock(clock);
    printf("\n");
}

static void values_row(int64_t heard, int64_t position, const int64_t *values, int count)
{
    int64_t clock[2] = {heard, position}, passed_over;
    printf("clock ");
    show_clock(clock);
    printf(", values ");
    show_numbers(values, count);
    passed_over = plain_follow_all(clock, values, (size_t)count);
    printf(": %" PRId64 " passed over, then ", passed_over);
    show_clock(clock);
    printf("\n");
}

static void clock_rows(void)
{
    static const int64_t past_the_wrap[] = {-1, 8589934500, 8589934592, 2910, 8589934590, 5913};
    static const int64_t none[] = {-1, 8589934592}, some[] = {0, 90, 180}, far_apart[] = {8589934591, 90, 4294967386};
    value_row(0, 0, 8589934500);
    value_row(1, 8589934500, 2910);
    value_row(1, 8589937502, 8589934590);
    value_row(1, 85899345920, 1);
    value_row(1, 0, 4294967295);
    value_row(1, 0, 4294967296);
    value_row(1, 8589934592, 4294967296);
    value_row(1, 8589934592, 4294967295);
    value_row(1, 9007199254740991, 0);
    value_row(1, 9007199254740992, 0);
    value_row(1, 9007199254740992, 1);
    value_row(1, 9007199254740993, 0);
    value_row(1, -1, 0);
    value_row(1, 0, 8589934591);
    value_row(0, 0, 8589934591);
    value_row(0, 0, 8589934592);
    value_row(0, 0, -1);
    values_row(0, 0, past_the_wrap, 6);
    values_row(0, 0, none, 2);
    values_row(1, -1, some, 3);
    values_row(1, 17179869184, far_apart, 3);
}

int main(void)
{
    calendar_rows();
    week_rows();
    instant_rows();
    label_rows();
    timing_rows();
    constants_rows();
    clock_rows();
    return 0;
}
