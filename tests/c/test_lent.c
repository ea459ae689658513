/*
 * Every call, with what it is lent in heap blocks of exactly that size. Answers, buffers, lists and places are held to plain.h,
 * whole: what a refused call was lent and what stands after a label must be as it was. The texts for the readers of timestamps
 * and cue lines are in test_timings.c, the calls of the transport clock in test_transport.c, those of sheets in test_sheets.c, the
 * numbers and labels to read of week dates in test_weeks.c, and lengths beyond 32 bits in test_huge.c. Compiled as C and as C++.
 */
#include <string.h>

#include "lent.h"
#include "ovenquill.h"
#include "plain.h"
#include "random.h"

#define LABEL OVENQUILL_INSTANT_LABEL_BYTES
#define LETTER_T 10
#define LETTER_Z (LABEL - 1)
#define RIGHT_INSTANT (1683729000 * PAPER_SECOND)
#define WEEK_LABEL OVENQUILL_WEEK_LABEL_BYTES

/* Each call at one input */

static void try_count(int64_t days)
{
    same("ovenquill_weekday", days, ovenquill_weekday(days), plain_weekday(days));
    SAME_WITH_PLACE(ovenquill_date, days, ovenquill_civil_from_days(days, lent), plain_civil_from_days(days, right));
    SAME_WITH_PLACE(ovenquill_date, days, ovenquill_civil_from_days_plain(days, lent), plain_civil_from_days(days, right));
    SAME_WITH_PLACE(ovenquill_date, days, ovenquill_civil_from_days_audit(days, lent), plain_civil_from_days(days, right));
    SAME_WITH_PLACE(ovenquill_week_date, days, ovenquill_week_from_days(days, lent), plain_week_from_days(days, right));
}

static void try_date(int64_t y, int64_t m, int64_t d, int64_t days)
{
    same("ovenquill_is_leap", y, ovenquill_is_leap(y), plain_is_leap(y));
    same("ovenquill_last_day_of_month", m, ovenquill_last_day_of_month(y, m), plain_last_day_of_month(y, m));
    same("ovenquill_day_of_year", d, ovenquill_day_of_year(y, m, d), plain_day_of_year(y, m, d));
    SAME_WITH_PLACE(int64_t, d, ovenquill_days_from_civil(y, m, d, lent), plain_days_from_civil(y, m, d, right));
    SAME_WITH_PLACE(ovenquill_date, days, ovenquill_add_days(y, m, d, days, lent), plain_add_days(y, m, d, days, right));
}

static void try_instant(int64_t instant)
{
    SAME_WITH_PLACE(int64_t, instant, ovenquill_day_of_instant(instant, lent), plain_day_of_instant(instant, right));
    SAME_WITH_PLACE(ovenquill_fields, instant, ovenquill_split_instant(instant, lent), plain_split_instant(instant, right));
}

static void try_fields(const int64_t *f)
{
    SAME_WITH_PLACE(int64_t, f[0], ovenquill_join_instant(f[0], f[1], f[2], f[3], f[4], f[5], f[6], lent),
                    plain_join_instant(f, right));
}

static void try_constants(struct constants q, int64_t n)
{
    same("ovenquill_first_difference", n, ovenquill_first_difference(q.a, q.b, q.d, q.m, q.c, q.k, q.t, n),
         plain_first_difference(q, n));
    SAME_WITH_PLACE(int64_t, n, ovenquill_check_bound(q.a, q.b, q.d, q.m, q.c, q.k, q.t, n, lent),
                    plain_check_bound(q, n, right));
}

static void try_writers(int64_t n, size_t length)
{
    uint8_t *out = (uint8_t *)lend(length), *right = (uint8_t *)lend(length);
    same("ovenquill_write_instant", n, ovenquill_write_instant(n, out, length), plain_write_instant(n, right, length));
    hold("ovenquill_write_instant", n, out, right, length);
    out = (uint8_t *)lend(length), right = (uint8_t *)lend(length);
    same("ovenquill_write_position", n, ovenquill_write_position(n, out, length), plain_write_position(n, right, length));
    hold("ovenquill_write_position", n, out, right, length);
    out = (uint8_t *)lend(length), right = (uint8_t *)lend(length);
    same("ovenquill_write_week", n, ovenquill_write_week(n, out, length), plain_write_week(n, right, length));
    hold("ovenquill_write_week", n, out, right, length);
}

static void try_reader(const void *label, size_t length)
{
    uint8_t *lent_label = (uint8_t *)lend_copy(label, length), *same_label = (uint8_t *)lend_copy(label, length);
    SAME_WITH_PLACE(int64_t, (int64_t)length, ovenquill_read_instant(lent_label, length, lent),
                    plain_read_instant(same_label, length, right));
    hold("ovenquill_read_instant in its label", (int64_t)length, lent_label, same_label, length);
}

/* Answers what the plain call does. */
static int64_t try_index(const int64_t *instants, size_t count, size_t days_length)
{
    const size_t instants_bytes = count * sizeof *instants, days_bytes = days_length * sizeof(int32_t);
    int64_t *lent_instants = (int64_t *)lend_copy(instants, instants_bytes);
    int64_t *same_instants = (int64_t *)lend_copy(instants, instants_bytes);
    int32_t *days = (int32_t *)lend(days_bytes), *right_days = (int32_t *)lend(days_bytes);
    int64_t answer = 0;
    SAME_WITH_PLACE(int64_t, (int64_t)count, ovenquill_index_days(lent_instants, count, days, days_length, lent),
                    answer = plain_index_days(same_instants, count, right_days, days_length, right));
    hold("ovenquill_index_days in its days", (int64_t)count, days, right_days, days_bytes);
    hold("ovenquill_index_days in its instants", (int64_t)count, lent_instants, same_instants, instants_bytes);
    return answer;
}

/* What is tried */

/*
 * The ends of each range, of the years that labels have, of the hours' widths and of the signed 64-bit numbers, years of the leap
 * rule below zero, and what stands around small ranges.
 */
static const int64_t edges[] = {
    INT64_MIN, INT64_MIN + 1, INT64_MAX - 1, INT64_MAX,
    OVENQUILL_FIRST_YEAR - 1, OVENQUILL_FIRST_YEAR, OVENQUILL_LAST_YEAR, OVENQUILL_LAST_YEAR + 1,
    OVENQUILL_LAST_LABEL_YEAR, OVENQUILL_LAST_LABEL_YEAR + 1, -400, -100, -4,
    OVENQUILL_FIRST_COUNT - 1, OVENQUILL_FIRST_COUNT, OVENQUILL_LAST_COUNT, OVENQUILL_LAST_COUNT + 1,
    PAPER_FIRST_LABEL_DAY - 1, PAPER_FIRST_LABEL_DAY, PAPER_FIRST_LABEL_DAY + 1, PAPER_FIRST_LABEL_DAY + 2,
    PAPER_LAST_LABEL_DAY, PAPER_LAST_LABEL_DAY + 1, PAPER_LAST_LABEL_DAY + 2, PAPER_LAST_LABEL_DAY + 3,
    INT64_MIN - OVENQUILL_FIRST_COUNT, INT64_MAX - OVENQUILL_LAST_COUNT,
    OVENQUILL_FIRST_INSTANT - 1, OVENQUILL_FIRST_INSTANT, OVENQUILL_LAST_INSTANT, OVENQUILL_LAST_INSTANT + 1,
    PAPER_FIRST_LABEL_INSTANT - 1, PAPER_FIRST_LABEL_INSTANT, PAPER_LAST_LABEL_INSTANT, PAPER_LAST_LABEL_INSTANT + 1,
    INT64_MIN - OVENQUILL_FIRST_INSTANT, INT64_MAX - OVENQUILL_LAST_INSTANT,
    -OVENQUILL_INSTANTS_PER_DAY - 1, -OVENQUILL_INSTANTS_PER_DAY, -1, 0, 1, 11, 12, 13, 28, 29, 30, 31, 32,
    OVENQUILL_INSTANTS_PER_DAY - 1, OVENQUILL_INSTANTS_PER_DAY, RIGHT_INSTANT,
    OVENQUILL_LAST_POSITION, OVENQUILL_LAST_POSITION + 1, 4287767296, 359999999, 360000000, 3599999999, 3600000000,
    35999999999, 36000000000,
};

static int64_t random_instant(void)
{
    return random_within(OVENQUILL_FIRST_INSTANT, OVENQUILL_LAST_INSTANT);
}

static int64_t random_label_instant(void)
{
    return random_within(PAPER_FIRST_LABEL_INSTANT, PAPER_LAST_LABEL_INSTANT);
}

static size_t random_place(size_t n)
{
    return (size_t)random_within(0, (int64_t)n - 1);
}

/* Each edge as each number of each call. */
static void check_edges(void)
{
    static const int64_t leap_day_end[7] = {2000, 2, 29, 23, 59, 59, PAPER_SECOND - 1};
    size_t i, j;
    for (i = 0; i < COUNT(edges); i++) {
        const int64_t e = edges[i];
        try_count(e);
        try_instant(e);
        try_date(e, 1, 1, 0);
        try_date(2000, e, 1, 0);
        try_date(1900, 2, e, 0);
        try_date(2000, 2, e, 0);
        try_date(2000, 2, 29, e);
        try_date(OVENQUILL_FIRST_YEAR, 1, 1, e);
        try_date(OVENQUILL_LAST_YEAR, 12, 31, e);
        for (j = 0; j < COUNT(edges); j++) {
            try_date(e, edges[j], edges[j], edges[j]);
            try_date(2000, e, edges[j], edges[j]);
            try_date(2000, 2, e, edges[j]);
        }
    }
    /* each field at the edges and at the numbers around its range's ends, with the others right and with one of them wrong */
    for (i = 0; i < 7; i++) {
        int64_t fields[7];
        memcpy(fields, leap_day_end, sizeof fields);
        try_fields(fields);
        for (j = 0; j < COUNT(edges); j++) {
            fields[i] = edges[j];
            try_fields(fields);
        }
        for (fields[i] = -2; fields[i] <= PAPER_SECOND + 1; fields[i] += fields[i] == 70 ? PAPER_SECOND - 140 : 1) {
            int64_t worse[7];
            try_fields(fields);
            memcpy(worse, fields, sizeof worse);
            worse[(i + 3) % 7] = -1;
            try_fields(worse);
        }
    }
}

/* A date shifted to the calendar's first and last day, and to the days beside these. */
static void try_sums_at_the_ends(int64_t year, int64_t month, int64_t day)
{
    int64_t count = 0, beside;
    plain_days_from_civil(year, month, day, &count);
    for (beside = -1; beside <= 1; beside++) {
        try_date(year, month, day, OVENQUILL_FIRST_COUNT - count + beside);
        try_date(year, month, day, OVENQUILL_LAST_COUNT - count + beside);
    }
}

static void check_random(int rounds)
{
    while (rounds-- > 0) {
        const int64_t year = random_within(OVENQUILL_FIRST_YEAR - 9, OVENQUILL_LAST_YEAR + 9), month = random_within(0, 13);
        const int64_t width = INT64_C(1) << random_within(0, 51);
        const int64_t date_time[7] = {year, month, random_within(0, 32), random_within(-1, 24), random_within(-1, 60),
                                      random_within(-1, 60), random_within(-1, PAPER_SECOND)};
        try_date(year, month, random_within(-1, 33), random_within(-width, width));
        try_date(year, month, random_within(1, 28), random_within(-width, width));
        try_sums_at_the_ends(year, month, random_within(1, 28));
        try_fields(date_time);
        try_count(random_within(-width, width));
        try_instant(random_instant());
        try_instant(random_within(-width, width));
        try_writers(random_instant(), (size_t)random_within(LABEL - 1, LABEL + 1));
        try_writers(random_label_instant(), (size_t)random_within(LABEL - 1, LABEL + 1));
        try_writers(random_within(OVENQUILL_FIRST_COUNT, OVENQUILL_LAST_COUNT),
                    (size_t)random_within(WEEK_LABEL - 1, WEEK_LABEL + 1));
        try_writers(random_within(PAPER_FIRST_LABEL_DAY, PAPER_LAST_LABEL_DAY),
                    (size_t)random_within(WEEK_LABEL - 1, WEEK_LABEL + 1));
        try_writers(random_within(0, width),
                    (size_t)random_within(OVENQUILL_POSITION_LABEL_MIN_BYTES - 1, OVENQUILL_POSITION_LABEL_MAX_BYTES + 1));
    }
}

/* The edges and random positions, with buffers of a length. */
static void try_writers_with(size_t length)
{
    size_t i;
    for (i = 0; i < COUNT(edges); i++)
        try_writers(edges[i], length);
    for (i = 0; i < 12; i++)
        try_writers(random_within(0, OVENQUILL_LAST_POSITION >> i), length);
}

/* Every length up to SHORT bytes, for writers MEDIUM, and long ones: powers of two and, as far above one, the length of a label. */
#define SHORT 40
#define MEDIUM 300
#define LONGEST (65536 + LABEL)
static const size_t long_lengths[] = {SHORT + 1, 64, 255, 256, 256 + LABEL, 4096, 65536, LONGEST};

static void check_writers(void)
{
    size_t i, length;
    for (length = 0; length <= MEDIUM; length++)
        try_writers_with(length);
    for (i = 0; i < COUNT(long_lengths); i++)
        try_writers_with(long_lengths[i]);
}

/* A label with each letter as a capital and small. */
static void try_letters(const void *label)
{
    uint8_t bytes[LABEL];
    size_t form;
    for (form = 0; form < 4; form++) {
        memcpy(bytes, label, LABEL);
        bytes[LETTER_T] = (uint8_t)"TtTt"[form];
        bytes[LETTER_Z] = (uint8_t)"ZZzz"[form];
        try_reader(bytes, LABEL);
    }
}

/* A label of fields that need not be right. */
static void try_reading(int year, int month, int day, int hour, int minute, int second)
{
    char label[80];
    snprintf(label, sizeof label, PAPER_INSTANT_LABEL, year, month, day, hour, minute, second, 10 * day + second % 10);
    try_letters(label);
}

static void check_reader(void)
{
    static uint8_t labels[LONGEST + LABEL];
    uint8_t label[SHORT];
    size_t i, n, byte;
    int year, k;
    for (i = 0; i + LABEL <= sizeof labels; i += LABEL)
        plain_write_instant(RIGHT_INSTANT, labels + i, LABEL);
    /* short lengths: a label cut off or followed by another, the end of one, and one byte over and over */
    for (n = 0; n <= SHORT; n++) {
        try_reader(labels, n);
        try_reader(labels + 2 * LABEL - n, n);
        for (byte = 0; byte < 256; byte++) {
            memset(label, (int)byte, sizeof label);
            try_reader(label, n);
        }
    }
    for (i = 0; i < COUNT(long_lengths); i++)
        try_reader(labels, long_lengths[i]);
    for (i = 0; i < 1000; i++) {
        plain_write_instant(random_label_instant(), label, LABEL);
        try_letters(label);
    }
    /* every byte at every place, with each letter as a capital and small */
    for (i = 0; i < LABEL; i++)
        for (byte = 0; byte < 256; byte++)
            for (k = 0; k < 4; k++) {
                memcpy(label, labels, LABEL);
                label[LETTER_T] = (uint8_t)"TtTt"[k];
                label[LETTER_Z] = (uint8_t)"ZZzz"[k];
                label[i] = (uint8_t)byte;
                try_reader(label, LABEL);
            }
    /* every two bytes in place of the two letters */
    for (i = 0; i < 256; i++)
        for (byte = 0; byte < 256; byte++) {
            memcpy(label, labels, LABEL);
            label[LETTER_T] = (uint8_t)i;
            label[LETTER_Z] = (uint8_t)byte;
            try_reader(label, LABEL);
        }
    /* every number in every field of two digits, alone and beside wrong ones, in years of all that labels have */
    for (year = PAPER_FIRST_LABEL_YEAR; year <= PAPER_LAST_LABEL_YEAR; year += 101)
        for (k = 0; k < 100; k++) {
            try_reading(year, k, 29, k % 25, 59, 59);
            try_reading(year, 2, k, 23, k % 61, 59);
            try_reading(year, 1 + k % 12, 28, k, 59, 60 - k % 2);
            try_reading(year, 12, 31, 0, k, 100 - k - 1);
        }
}

static const int64_t bad[] = {OVENQUILL_FIRST_INSTANT - 1, OVENQUILL_LAST_INSTANT + 1, INT64_MIN, INT64_MAX};

/* How an index goes up: from its first instant by steps of at most `step`, and by a wide jump after every `run` instants. */
struct rise {
    int64_t first, step;
    size_t run;
};

#define NO_JUMPS SIZE_MAX
static const struct rise rises[] = {
    /* one instant over and over; steps of 0 and 1, to the end of the range and across midnight */
    {OVENQUILL_FIRST_INSTANT, 0, NO_JUMPS},
    {OVENQUILL_LAST_INSTANT, 0, NO_JUMPS},
    {OVENQUILL_LAST_INSTANT - 20, 1, NO_JUMPS},
    {-20, 1, NO_JUMPS},
    /* all of one day, some 64 and some 16 to a day, and days from one to the next */
    {RIGHT_INSTANT, PAPER_SECOND / 2, NO_JUMPS},
    {RIGHT_INSTANT, OVENQUILL_INSTANTS_PER_DAY / 32, NO_JUMPS},
    {-OVENQUILL_INSTANTS_PER_DAY, OVENQUILL_INSTANTS_PER_DAY / 8, NO_JUMPS},
    {OVENQUILL_FIRST_INSTANT, 4 * OVENQUILL_INSTANTS_PER_DAY, NO_JUMPS},
    /* years from one to the next, or from one run to the next */
    {OVENQUILL_FIRST_INSTANT, 0, 1},
    {OVENQUILL_FIRST_INSTANT, 1, 8},
    {OVENQUILL_FIRST_INSTANT, PAPER_SECOND, 16},
    {OVENQUILL_FIRST_INSTANT, PAPER_SECOND, 32},
    {OVENQUILL_FIRST_INSTANT, PAPER_SECOND, 37},
};

static int64_t clamped(int64_t instant)
{
    if (instant < OVENQUILL_FIRST_INSTANT)
        return OVENQUILL_FIRST_INSTANT;
    return instant > OVENQUILL_LAST_INSTANT ? OVENQUILL_LAST_INSTANT : instant;
}

/* Fills a list with instants that are accepted; the jumps are as wide as the range has room for. */
static void fill(int64_t *instants, size_t n, struct rise rise)
{
    const int64_t jump = (OVENQUILL_LAST_INSTANT - rise.first) / (int64_t)(n / rise.run + 1);
    int64_t instant = rise.first;
    size_t i;
    for (i = 0; i < n; i++) {
        instants[i] = instant;
        instant = clamped(instant + random_within(0, (i + 1) % rise.run == 0 ? jump : rise.step));
    }
}

/* By how much an instant is smaller than the one before it: within a day, and by more than 32 bits hold. */
static const int64_t falls[] = {1, PAPER_SECOND, OVENQUILL_INSTANTS_PER_DAY, INT64_C(1) << 31, INT64_C(1) << 32,
                                OVENQUILL_LAST_INSTANT - OVENQUILL_FIRST_INSTANT};

/* The form of a fall: twice the place of its size in `falls`, and one more where the first of the two instants goes up. */
#define FALL_FORMS (2 * COUNT(falls))
#define LEAST_FALL 0
#define WIDEST_FALL (FALL_FORMS - 2)
#define FIRST_GOES_UP 1

/* Makes the second of two instants smaller than the first, as far as the range has room for that size. */
static void let_fall(int64_t *pair, size_t form)
{
    const int64_t by = falls[form / 2];
    if (form % 2 == FIRST_GOES_UP) {
        if (pair[1] == OVENQUILL_LAST_INSTANT)
            pair[1]--;
        pair[0] = clamped(pair[1] + by);
    } else {
        if (pair[0] == OVENQUILL_FIRST_INSTANT)
            pair[0]++;
        pair[1] = clamped(pair[0] - by);
    }
}

static void try_accepted(const int64_t *instants, size_t n)
{
    same("an index that never falls", (int64_t)n, try_index(instants, n, n), (int64_t)n);
}

/* Lets an accepted index fall at a place. */
static void try_fall(int64_t *instants, size_t n, size_t i, size_t form)
{
    int64_t *pair = instants + i - 1;
    const int64_t kept[2] = {pair[0], pair[1]};
    let_fall(pair, form);
    same("an index that falls", (int64_t)i, try_index(instants, n, n), OVENQUILL_OUT_OF_ORDER);
    memcpy(pair, kept, sizeof kept);
}

/* Lists of up to SHORT_LIST by every rise: as they are, with equal neighbours at every place, and with a fall at every place. */
#define SHORT_LIST 70
static void check_short_lists(void)
{
    int64_t instants[SHORT_LIST];
    size_t n, i, r;
    for (n = 0; n <= SHORT_LIST; n++)
        for (r = 0; r < COUNT(rises); r++) {
            fill(instants, n, rises[r]);
            try_accepted(instants, n);
            for (i = 1; i < n; i++) {
                const int64_t kept = instants[i];
                instants[i] = instants[i - 1];
                try_accepted(instants, n);
                instants[i] = kept;
                try_fall(instants, n, i, (n + i + r) % FALL_FORMS);
            }
        }
}

/* A list of two instants only, the smaller one up to a place and the larger one from there on, and the other way round. */
static void try_two_instants(int64_t *instants, size_t n, size_t i, const int64_t *pair)
{
    size_t k;
    for (k = 0; k < n; k++)
        instants[k] = pair[k >= i];
    try_accepted(instants, n);
    for (k = 0; k < n; k++)
        instants[k] = pair[k < i];
    same("an index that falls once", (int64_t)i, try_index(instants, n, n), OVENQUILL_OUT_OF_ORDER);
}

static const int64_t across_midnight[2] = {-1, 0};

/* The least and the widest falls, within a day and between days, at every place. */
static void check_two_instants(void)
{
    static const int64_t pairs[][2] = {
        {OVENQUILL_FIRST_INSTANT, OVENQUILL_LAST_INSTANT},
        {OVENQUILL_FIRST_INSTANT, OVENQUILL_FIRST_INSTANT + 1},
        {OVENQUILL_LAST_INSTANT - 1, OVENQUILL_LAST_INSTANT},
        {0, OVENQUILL_INSTANTS_PER_DAY - 1},
    };
    int64_t instants[SHORT_LIST];
    size_t n, i, p;
    for (n = 2; n <= SHORT_LIST; n++)
        for (i = 1; i < n; i++) {
            try_two_instants(instants, n, i, across_midnight);
            for (p = 0; p < COUNT(pairs); p++)
                try_two_instants(instants, n, i, pairs[p]);
        }
}

/* Lists that fall at every place, and most of them behind it too: the first fall is named. */
static void check_many_falls(void)
{
    int64_t instants[SHORT_LIST];
    size_t n, i;
    for (n = 2; n <= SHORT_LIST; n++) {
        fill(instants, n, rises[n % COUNT(rises)]);
        for (i = n - 1; i > 0; i--) {
            let_fall(instants + i - 1, n % COUNT(falls) * 2 + FIRST_GOES_UP);
            same("an index that falls and falls", (int64_t)i, try_index(instants, n, n), OVENQUILL_OUT_OF_ORDER);
        }
    }
}

/* Lists with a bad instant at every place, alone and beside a fall at every place: the first bad one is named. */
static void check_bad_instants(void)
{
    int64_t instants[SHORT_LIST];
    size_t n, i, j;
    for (n = 1; n <= SHORT_LIST; n++) {
        fill(instants, n, rises[n % COUNT(rises)]);
        for (i = n; i-- > 0;) {
            const int64_t kept = instants[i];
            instants[i] = bad[(n + i) % COUNT(bad)];
            same("an index with a bad instant", (int64_t)i, try_index(instants, n, n), OVENQUILL_OUT_OF_RANGE);
            if (n % 2 == 0) /* in the other lists the later ones stay bad */
                instants[i] = kept;
        }
    }
    for (n = 2; n <= SHORT_LIST; n += n < 9 ? 1 : 15)
        for (i = 1; i < n; i++)
            for (j = 0; j < n; j++) {
                fill(instants, n, rises[(i + j) % COUNT(rises)]);
                let_fall(instants + i - 1, j % FALL_FORMS);
                instants[j] = bad[(i + j) % COUNT(bad)];
                same("a fall beside a bad instant", (int64_t)j, try_index(instants, n, n), OVENQUILL_OUT_OF_RANGE);
            }
}

/* Lists of instants and of days of every two lengths; the instants are right, then fall, and then have a bad one too. */
static void check_lengths(void)
{
    int64_t instants[SHORT_LIST];
    size_t n, days_length;
    for (n = 0; n <= SHORT_LIST; n++)
        for (days_length = 0; days_length <= SHORT_LIST; days_length++) {
            fill(instants, n, rises[n % COUNT(rises)]);
            try_index(instants, n, days_length);
            if (n > 1)
                let_fall(instants + random_place(n - 1), days_length % FALL_FORMS);
            try_index(instants, n, days_length);
            if (n > 0)
                instants[random_place(n)] = bad[days_length % COUNT(bad)];
            try_index(instants, n, days_length);
        }
}

/* A long list by every rise, with a fall at its last place, and with one at each place that is its turn. */
static void try_long_rises(int64_t *instants, size_t n, size_t thinned)
{
    size_t r, i;
    for (r = 0; r < COUNT(rises); r++) {
        fill(instants, n, rises[r]);
        try_accepted(instants, n);
        try_fall(instants, n, n - 1, r % FALL_FORMS);
        for (i = 1 + r; i < n; i += COUNT(rises) * thinned) {
            try_fall(instants, n, i, LEAST_FALL + r % 2);
            try_fall(instants, n, i, WIDEST_FALL + r % 2);
        }
    }
}

/* Long lists, equal and unequal by a little or by a power of two, with a fall and with a bad instant at many places. */
static void check_long_lists(int rounds)
{
    static const size_t lengths[] = {127, 128, 129, 255, 256, 256 + SHORT_LIST, 1000, 65536 + 1};
    static const size_t apart[] = {1, 256, 65536};
    static int64_t instants[65536 + 1];
    size_t n, i;
    for (n = 0; n < COUNT(lengths); n++) {
        const size_t length = lengths[n], thinned = 1 + length * length / (1 + 500 * (size_t)rounds);
        const size_t places[] = {length - 1, length / 2, 256, 255, 0};
        for (i = 1; i < length; i += thinned)
            try_two_instants(instants, length, i, across_midnight);
        try_long_rises(instants, length, thinned);
        for (i = 1; i < length; i *= 2)
            try_fall(instants, length, i, LEAST_FALL);
        for (i = 0; i < COUNT(apart); i++)
            if (apart[i] <= length) {
                try_index(instants, length, length - apart[i]);
                try_index(instants, length - apart[i], length);
            }
        for (i = 0; i < COUNT(places); i++)
            if (places[i] < length) {
                const int64_t kept = instants[places[i]];
                instants[places[i]] = bad[i % COUNT(bad)];
                try_index(instants, length, length);
                instants[places[i]] = kept;
            }
    }
}

/* Unequal lengths that multiples of 2^16 and of 2^17 lie apart, either list the longer one, and one beside each. */
static void check_lengths_far_apart(void)
{
    static const size_t apart[] = {65536, 131072, 196608, 262144};
    static const size_t shorter[] = {0, 1, SHORT_LIST};
    static int64_t instants[262144 + SHORT_LIST];
    size_t i, j;
    fill(instants, COUNT(instants), rises[0]);
    for (i = 0; i < COUNT(apart); i++)
        for (j = 0; j < COUNT(shorter); j++) {
            const size_t longer = shorter[j] + apart[i];
            same("days far too many", (int64_t)longer, try_index(instants, shorter[j], longer), OVENQUILL_UNEQUAL_LENGTHS);
            same("days one fewer", (int64_t)longer, try_index(instants, shorter[j], longer - 1), OVENQUILL_UNEQUAL_LENGTHS);
            same("days far too few", (int64_t)longer, try_index(instants, longer, shorter[j]), OVENQUILL_UNEQUAL_LENGTHS);
        }
}

/* Long lists with two bad instants, two falls, or one of each, at places behind the first 2048: the first is named. */
static void check_two_far_places(int rounds)
{
    static const size_t lengths[] = {2048 + SHORT_LIST, 5000, 65536 + SHORT_LIST};
    static int64_t instants[65536 + SHORT_LIST];
    while (rounds-- > 0) {
        const size_t length = lengths[rounds % 20 == 0 ? 2 : rounds % 2];
        const size_t first = 2048 + random_place(length - 2048 - 2);
        const size_t second = rounds % 3 == 0 ? length - 1 : first + 2 + random_place(length - first - 2);
        const int64_t one_bad = bad[random_place(COUNT(bad))], other_bad = bad[random_place(COUNT(bad))];
        int64_t kept;
        fill(instants, length, rises[random_place(COUNT(rises))]);
        kept = instants[first];
        instants[second] = other_bad;
        instants[first] = one_bad;
        same("two bad instants", (int64_t)first, try_index(instants, length, length), OVENQUILL_OUT_OF_RANGE);
        instants[first] = kept;
        let_fall(instants + first - 1, random_place(FALL_FORMS));
        same("a bad instant behind a fall", (int64_t)first, try_index(instants, length, length), OVENQUILL_OUT_OF_RANGE);
        instants[second] = instants[second - 1];
        let_fall(instants + second - 1, random_place(FALL_FORMS));
        same("two falls", (int64_t)first, try_index(instants, length, length), OVENQUILL_OUT_OF_ORDER);
        instants[first] = one_bad;
        same("a fall behind a bad instant", (int64_t)first, try_index(instants, length, length), OVENQUILL_OUT_OF_RANGE);
    }
}

/* Lists of random lengths, some with equal neighbours, falls or bad instants at random places. */
static void check_random_lists(int rounds)
{
    static int64_t instants[1 << 13];
    while (rounds-- > 0) {
        const size_t n = 2 + random_place((COUNT(instants) - 1) >> random_within(0, 12));
        int64_t changes;
        fill(instants, n, rises[random_place(COUNT(rises))]);
        for (changes = random_within(0, 2); changes > 0; changes--) {
            int64_t *pair = instants + random_place(n - 1);
            pair[1] = pair[0];
        }
        for (changes = random_within(-1, 2); changes > 0; changes--)
            let_fall(instants + random_place(n - 1), random_place(FALL_FORMS));
        for (changes = random_within(-5, 2); changes > 0; changes--)
            instants[random_place(n)] = bad[random_place(COUNT(bad))];
        try_index(instants, n, n);
    }
}

/* Lists that begin wherever their types may: the other blocks begin at multiples of 16 bytes. */
static void check_alignments(void)
{
    int64_t instants[SHORT_LIST + 1], place = -1;
    int32_t days[SHORT_LIST + 3], right[SHORT_LIST];
    size_t n, i, j;
    for (n = 0; n <= SHORT_LIST; n++)
        for (i = 0; i <= 1; i++)
            for (j = 0; j <= 3; j++) {
                fill(instants + i, n, rises[n % COUNT(rises)]);
                same("an index anywhere", (int64_t)n, ovenquill_index_days(instants + i, n, days + j, n, &place),
                     plain_index_days(instants + i, n, right, n, &place));
                same("the days of an index anywhere", (int64_t)n, memcmp(days + j, right, n * sizeof *right), 0);
            }
}

/* Each constant at, beside and far outside the ends of its limits. */
static void check_limits(void)
{
    static const struct constants q = {1, 0, 10, 26, 0, 8, 0};
    size_t i;
    for (i = 0; i < 7; i++) {
        int64_t least[7], most[7], tried[7];
        size_t j;
        memcpy(least, &paper_least, sizeof least);
        memcpy(most, &paper_most, sizeof most);
        const int64_t ends[] = {least[i] - 1, least[i], most[i], most[i] + 1, INT64_MIN, INT64_MAX, -most[i]};
        for (j = 0; j < COUNT(ends); j++) {
            struct constants changed;
            memcpy(tried, &q, sizeof tried);
            tried[i] = ends[j];
            memcpy(&changed, tried, sizeof changed);
            try_constants(changed, 100);
            try_constants(changed, -1);
        }
    }
}

/* The search end and the claimed bound at, beside and far outside the ends of their limits. */
static void check_ends(void)
{
    static const struct constants q = {1, 0, 10, 26, 0, 8, 0};
    static const int64_t n[] = {INT64_MIN, -1, 0, 1, 68, 69, 70, 71, OVENQUILL_BOUND_MAX, OVENQUILL_END_MAX,
                                OVENQUILL_END_MAX + 1, INT64_MAX};
    size_t i;
    for (i = 0; i < COUNT(n); i++)
        try_constants(q, n[i]);
}

/* Constants that are meant to divide, a little wrong, so that differences stand anywhere or nowhere below the ends. */
static void check_constants(int rounds)
{
    while (rounds-- > 0) {
        struct constants q;
        int64_t first;
        q.a = random_within(1, random_within(1, 1023));
        q.b = random_within(0, random_within(0, 1023));
        q.d = random_within(q.a, random_within(q.a, 1048575));
        q.k = random_within(0, 31);
        q.m = (q.a << q.k) / q.d + random_within(-1, 2);
        if (q.m < 0)
            q.m = 0;
        q.c = (q.b << q.k) / q.d + random_within(0, 1);
        if (q.c > OVENQUILL_C_MAX)
            q.c = OVENQUILL_C_MAX;
        q.t = random_within(0, 3) == 0 ? random_within(0, 255) : 0;
        try_constants(q, random_within(0, 50));
        try_constants(q, random_within(0, 3000));
        /* the three answers of a claim, at the first difference and beside it */
        first = plain_first_difference(q, 3000);
        try_constants(q, first - 1);
        try_constants(q, first);
        try_constants(q, first + 1);
    }
}

/* Constants whose least difference is known, or FAR_END where there is none below it: the search, and the claims beside it. */
#define FAR_END (INT64_C(1) << 26)
static void know_difference(struct constants q, int64_t first)
{
    const int64_t end = first < FAR_END ? OVENQUILL_END_MAX : FAR_END;
    same("a far difference", first, ovenquill_first_difference(q.a, q.b, q.d, q.m, q.c, q.k, q.t, end), first);
    same("none below it", first, ovenquill_first_difference(q.a, q.b, q.d, q.m, q.c, q.k, q.t, first), first);
    SAME_WITH_PLACE(int64_t, first, ovenquill_check_bound(q.a, q.b, q.d, q.m, q.c, q.k, q.t, first - 1, lent),
                    first == 0 ? OVENQUILL_CONSTANT_OUT_OF_LIMITS : OVENQUILL_NO_DIFFERENCE_UP_TO_BOUND);
    if (first == FAR_END)
        return;
    SAME_WITH_PLACE(int64_t, first, ovenquill_check_bound(q.a, q.b, q.d, q.m, q.c, q.k, q.t, first, lent), 0);
    SAME_WITH_PLACE(int64_t, first, ovenquill_check_bound(q.a, q.b, q.d, q.m, q.c, q.k, q.t, first + 1, lent),
                    (*right = first, OVENQUILL_DIFFERENCE_BELOW_BOUND));
    SAME_WITH_PLACE(int64_t, first, ovenquill_check_bound(q.a, q.b, q.d, q.m, q.c, q.k, q.t, OVENQUILL_BOUND_MAX, lent),
                    (*right = first, OVENQUILL_DIFFERENCE_BELOW_BOUND));
}

/* Constants of every tolerance and shift, with an m so far off that t + 1 quotients are reached near a number. */
static struct constants random_far_constants(int64_t near)
{
    struct constants q;
    do {
        int64_t off;
        q.a = random_within(1, random_within(1, 1023));
        q.b = random_within(0, random_within(0, 1023));
        q.d = random_within(1, random_within(1, 1048575));
        q.k = random_within(0, 47);
        q.t = random_within(0, 255);
        off = ((q.t + 1) << q.k) / near;
        q.m = (q.a << q.k) / q.d + (random_within(0, 1) == 0 ? off : -off);
        q.c = (q.b << q.k) / q.d;
    } while (outside(OVENQUILL_M_MIN, OVENQUILL_M_MAX, q.m) || outside(OVENQUILL_C_MIN, OVENQUILL_C_MAX, q.c));
    return q;
}

/* Differences that stand beyond 2^20. */
static void check_far_differences(int rounds)
{
    static const struct constants tenth = {1, 0, 10, 6554, 0, 16, 30};
    know_difference(tenth, 4931589);
    same("plain_first_difference", 0, plain_first_difference(tenth, FAR_END), 4931589);
    while (rounds-- > 0) {
        const int64_t near = random_within(INT64_C(1) << 20, INT64_C(1) << random_within(21, 26));
        const struct constants q = random_far_constants(near);
        know_difference(q, plain_first_difference(q, FAR_END));
    }
}

/* No slice at all: a null pointer with length 0. */
static void check_null(void)
{
    const int64_t none[1] = {0};
    same("null buffer for an instant", 0, ovenquill_write_instant(0, NULL, 0), OVENQUILL_BUFFER_TOO_SHORT);
    same("null buffer for an instant of no label", 0, ovenquill_write_instant(OVENQUILL_LAST_INSTANT, NULL, 0),
         OVENQUILL_YEAR_OUT_OF_RANGE);
    same("null buffer for a bad instant", 0, ovenquill_write_instant(INT64_MAX, NULL, 0), OVENQUILL_OUT_OF_RANGE);
    same("null buffer for a position", 0, ovenquill_write_position(0, NULL, 0), OVENQUILL_BUFFER_TOO_SHORT);
    same("null buffer for a bad position", 0, ovenquill_write_position(-1, NULL, 0), OVENQUILL_POSITION_OUT_OF_RANGE);
    same("null buffer for a week", 0, ovenquill_write_week(0, NULL, 0), OVENQUILL_BUFFER_TOO_SHORT);
    same("null buffer for a week of no label", 0, ovenquill_write_week(OVENQUILL_FIRST_COUNT, NULL, 0),
         OVENQUILL_YEAR_OUT_OF_RANGE);
    same("null buffer for a bad week", 0, ovenquill_write_week(INT64_MAX, NULL, 0), OVENQUILL_OUT_OF_RANGE);
    same("null timestamp", 0, ovenquill_read_position(NULL, 0), OVENQUILL_MALFORMED_TIMING);
    SAME_WITH_PLACE(int64_t, 0, ovenquill_read_instant(NULL, 0, lent), plain_read_instant(NULL, 0, right));
    SAME_WITH_PLACE(int64_t, 0, ovenquill_read_week(NULL, 0, lent), plain_read_week(NULL, 0, right));
    SAME_WITH_PLACE(ovenquill_cue, 0, ovenquill_read_cue(NULL, 0, lent), plain_read_cue(NULL, 0, right));
    SAME_WITH_PLACE(int64_t, 0, ovenquill_index_days(NULL, 0, NULL, 0, lent), plain_index_days(NULL, 0, NULL, 0, right));
    SAME_WITH_PLACE(int64_t, 1, ovenquill_index_days(none, 1, NULL, 0, lent), plain_index_days(none, 1, NULL, 0, right));
}

static void check_unset_places(void)
{
    static const int64_t day[7] = {2023, 5, 10, 14, 30, 59, 1}, no_day[7] = {2023, 2, 29, 14, 30, 59, 1};
    static const struct constants q = {1, 0, 10, 26, 0, 8, 0};
    static const uint8_t line[] = "00:01.500 --> 00:02.000", late_line[] = "00:01.500 --> 100000:00:00.000",
                         backward_line[] = "00:01.500 --> 00:01.500";
    const int64_t late = OVENQUILL_LAST_INSTANT + 1;
    uint8_t label[LABEL];
    plain_write_instant(RIGHT_INSTANT, label, LABEL);
    DONE_WITH_UNSET(int64_t, ovenquill_days_from_civil(2023, 5, 10, lent), plain_days_from_civil(2023, 5, 10, right));
    REFUSED_WITH_UNSET(int64_t, ovenquill_days_from_civil(2023, 2, 29, lent), plain_days_from_civil(2023, 2, 29, right));
    DONE_WITH_UNSET(ovenquill_date, ovenquill_civil_from_days(-1, lent), plain_civil_from_days(-1, right));
    REFUSED_WITH_UNSET(ovenquill_date, ovenquill_civil_from_days(INT64_MAX, lent), plain_civil_from_days(INT64_MAX, right));
    DONE_WITH_UNSET(ovenquill_date, ovenquill_civil_from_days_plain(-1, lent), plain_civil_from_days(-1, right));
    REFUSED_WITH_UNSET(ovenquill_date, ovenquill_civil_from_days_plain(INT64_MAX, lent), plain_civil_from_days(INT64_MAX, right));
    DONE_WITH_UNSET(ovenquill_date, ovenquill_civil_from_days_audit(-1, lent), plain_civil_from_days(-1, right));
    REFUSED_WITH_UNSET(ovenquill_date, ovenquill_civil_from_days_audit(INT64_MAX, lent), plain_civil_from_days(INT64_MAX, right));
    DONE_WITH_UNSET(ovenquill_date, ovenquill_add_days(2023, 5, 10, 30, lent), plain_add_days(2023, 5, 10, 30, right));
    REFUSED_WITH_UNSET(ovenquill_date, ovenquill_add_days(2023, 2, 29, 30, lent), plain_add_days(2023, 2, 29, 30, right));
    REFUSED_WITH_UNSET(ovenquill_date, ovenquill_add_days(2023, 2, 1, INT64_MAX, lent),
                       plain_add_days(2023, 2, 1, INT64_MAX, right));
    DONE_WITH_UNSET(int64_t, ovenquill_day_of_instant(-1, lent), plain_day_of_instant(-1, right));
    REFUSED_WITH_UNSET(int64_t, ovenquill_day_of_instant(late, lent), plain_day_of_instant(late, right));
    DONE_WITH_UNSET(ovenquill_fields, ovenquill_split_instant(-1, lent), plain_split_instant(-1, right));
    REFUSED_WITH_UNSET(ovenquill_fields, ovenquill_split_instant(late, lent), plain_split_instant(late, right));
    DONE_WITH_UNSET(int64_t, ovenquill_join_instant(day[0], day[1], day[2], day[3], day[4], day[5], day[6], lent),
                    plain_join_instant(day, right));
    REFUSED_WITH_UNSET(int64_t, ovenquill_join_instant(no_day[0], no_day[1], no_day[2], no_day[3], no_day[4], no_day[5],
                                                       no_day[6], lent),
                       plain_join_instant(no_day, right));
    DONE_WITH_UNSET(int64_t, ovenquill_read_instant(label, LABEL, lent), plain_read_instant(label, LABEL, right));
    REFUSED_WITH_UNSET(int64_t, ovenquill_read_instant(label, LABEL - 1, lent), plain_read_instant(label, LABEL - 1, right));
    label[LABEL - 1] = '!';
    REFUSED_WITH_UNSET(int64_t, ovenquill_read_instant(label, LABEL, lent), plain_read_instant(label, LABEL, right));
    DONE_WITH_UNSET(ovenquill_cue, ovenquill_read_cue(line, sizeof line - 1, lent),
                    plain_read_cue(line, sizeof line - 1, right));
    REFUSED_WITH_UNSET(ovenquill_cue, ovenquill_read_cue(line, sizeof line - 2, lent),
                       plain_read_cue(line, sizeof line - 2, right));
    REFUSED_WITH_UNSET(ovenquill_cue, ovenquill_read_cue(late_line, sizeof late_line - 1, lent),
                       plain_read_cue(late_line, sizeof late_line - 1, right));
    REFUSED_WITH_UNSET(ovenquill_cue, ovenquill_read_cue(backward_line, sizeof backward_line - 1, lent),
                       plain_read_cue(backward_line, sizeof backward_line - 1, right));
    REFUSED_WITH_UNSET(int64_t, ovenquill_check_bound(q.a, q.b, q.d, q.m, q.c, q.k, q.t, 69, lent),
                       plain_check_bound(q, 69, right));
    REFUSED_WITH_UNSET(int64_t, ovenquill_check_bound(q.a, q.b, q.d, q.m, q.c, q.k, q.t, 68, lent),
                       plain_check_bound(q, 68, right));
    REFUSED_WITH_UNSET(int64_t, ovenquill_check_bound(q.a, q.b, q.d, q.m, q.c, q.k, q.t, -1, lent),
                       plain_check_bound(q, -1, right));
    DONE_WITH_UNSET(int64_t, ovenquill_check_bound(q.a, q.b, q.d, q.m, q.c, q.k, q.t, 70, lent),
                    plain_check_bound(q, 70, right));
}

static void check_unset_weeks(void)
{
    static const uint8_t label[] = "2023-W19-3", damaged[] = "2023-W19-!", no_week[] = "2023-W53-3";
    const int64_t first = OVENQUILL_FIRST_WEEK_YEAR;
    DONE_WITH_UNSET(ovenquill_week_date, ovenquill_week_from_days(-1, lent), plain_week_from_days(-1, right));
    REFUSED_WITH_UNSET(ovenquill_week_date, ovenquill_week_from_days(INT64_MAX, lent), plain_week_from_days(INT64_MAX, right));
    DONE_WITH_UNSET(int64_t, ovenquill_days_from_week(2023, 19, 3, lent), plain_days_from_week(2023, 19, 3, right));
    REFUSED_WITH_UNSET(int64_t, ovenquill_days_from_week(first - 1, 1, 1, lent), plain_days_from_week(first - 1, 1, 1, right));
    REFUSED_WITH_UNSET(int64_t, ovenquill_days_from_week(2023, 53, 1, lent), plain_days_from_week(2023, 53, 1, right));
    REFUSED_WITH_UNSET(int64_t, ovenquill_days_from_week(first, 52, 5, lent), plain_days_from_week(first, 52, 5, right));
    DONE_WITH_UNSET(int64_t, ovenquill_read_week(label, WEEK_LABEL, lent), plain_read_week(label, WEEK_LABEL, right));
    REFUSED_WITH_UNSET(int64_t, ovenquill_read_week(label, WEEK_LABEL - 1, lent), plain_read_week(label, WEEK_LABEL - 1, right));
    REFUSED_WITH_UNSET(int64_t, ovenquill_read_week(damaged, WEEK_LABEL, lent), plain_read_week(damaged, WEEK_LABEL, right));
    REFUSED_WITH_UNSET(int64_t, ovenquill_read_week(no_week, WEEK_LABEL, lent), plain_read_week(no_week, WEEK_LABEL, right));
}

static void check_unset_buffers(void)
{
    const size_t position_label = OVENQUILL_POSITION_LABEL_MIN_BYTES;
    SAME_WITH_UNSET(uint8_t, uint8_t, 99, LABEL, ovenquill_write_instant(-1, lent, 99), plain_write_instant(-1, right, 99));
    SAME_WITH_UNSET(uint8_t, uint8_t, 9, 0, ovenquill_write_instant(-1, lent, 9), plain_write_instant(-1, right, 9));
    SAME_WITH_UNSET(uint8_t, uint8_t, 99, 0, ovenquill_write_instant(OVENQUILL_FIRST_INSTANT, lent, 99),
                    plain_write_instant(OVENQUILL_FIRST_INSTANT, right, 99));
    SAME_WITH_UNSET(uint8_t, uint8_t, 99, 0, ovenquill_write_instant(INT64_MAX, lent, 99),
                    plain_write_instant(INT64_MAX, right, 99));
    SAME_WITH_UNSET(uint8_t, uint8_t, 99, WEEK_LABEL, ovenquill_write_week(-1, lent, 99), plain_write_week(-1, right, 99));
    SAME_WITH_UNSET(uint8_t, uint8_t, 9, 0, ovenquill_write_week(-1, lent, 9), plain_write_week(-1, right, 9));
    SAME_WITH_UNSET(uint8_t, uint8_t, 99, 0, ovenquill_write_week(OVENQUILL_FIRST_COUNT, lent, 99),
                    plain_write_week(OVENQUILL_FIRST_COUNT, right, 99));
    SAME_WITH_UNSET(uint8_t, uint8_t, 99, 0, ovenquill_write_week(INT64_MAX, lent, 99), plain_write_week(INT64_MAX, right, 99));
    SAME_WITH_UNSET(uint8_t, uint8_t, 99, position_label, ovenquill_write_position(0, lent, 99),
                    plain_write_position(0, right, 99));
    SAME_WITH_UNSET(uint8_t, uint8_t, 9, 0, ovenquill_write_position(0, lent, 9), plain_write_position(0, right, 9));
    SAME_WITH_UNSET(uint8_t, uint8_t, 99, 0, ovenquill_write_position(-1, lent, 99), plain_write_position(-1, right, 99));
}

static void check_unset_index(void)
{
    int64_t instants[SHORT_LIST], falling[SHORT_LIST], with_a_bad_one[SHORT_LIST], ignored;
    int32_t ignored_days[SHORT_LIST];
    size_t n;
    for (n = 2; n <= SHORT_LIST; n++) {
        int64_t *place = (int64_t *)malloc(sizeof *place);
        int32_t *days = (int32_t *)malloc(n * sizeof *days);
        fill(instants, SHORT_LIST, rises[n % COUNT(rises)]);
        memcpy(falling, instants, sizeof falling);
        let_fall(falling + n - 2, LEAST_FALL);
        memcpy(with_a_bad_one, falling, sizeof with_a_bad_one);
        with_a_bad_one[n / 2] = INT64_MAX;
        SAME_WITH_UNSET(int32_t, int32_t, n, n * sizeof(int32_t), ovenquill_index_days(instants, n, lent, n, place),
                        plain_index_days(instants, n, right, n, &ignored));
        REFUSED_WITH_UNSET(int64_t, ovenquill_index_days(with_a_bad_one, n - 1, days, n, lent),
                           plain_index_days(with_a_bad_one, n - 1, ignored_days, n, right));
        DONE_WITH_UNSET(int64_t, ovenquill_index_days(with_a_bad_one, n, days, n, lent),
                        plain_index_days(with_a_bad_one, n, ignored_days, n, right));
        DONE_WITH_UNSET(int64_t, ovenquill_index_days(falling, n, days, n, lent),
                        plain_index_days(falling, n, ignored_days, n, right));
        free(place);
        free(days);
    }
}

/* An argument is how many random rounds are made; the fewer they are, the fewer places of long lists are tried. */
int main(int argc, char **argv)
{
    const int rounds = argc > 1 ? atoi(argv[1]) : 20000;
    check_edges();
    check_random(rounds);
    check_writers();
    check_reader();
    check_short_lists();
    check_two_instants();
    check_many_falls();
    check_bad_instants();
    check_lengths();
    check_lengths_far_apart();
    check_long_lists(rounds);
    check_two_far_places(1 + rounds / 20);
    check_random_lists(rounds);
    check_alignments();
    check_limits();
    check_ends();
    check_constants(rounds / 4);
    check_far_differences(1 + rounds / 200);
    check_null();
    check_unset_places();
    check_unset_weeks();
    check_unset_buffers();
    check_unset_index();
    return finish("lent blocks");
}
