/*
 * The transport clock: values one by one and in batches, each clock and each list in a heap block of exactly its size.
 * Answers, clocks and lists are held to plain.h, and those of a run to the true positions that it was made of. An argument
 * n makes the runs and the random rounds n times shorter. Compiled as C and as C++.
 */
#include "lent.h"
#include "ovenquill.h"
#include "plain.h"
#include "random.h"

#define WRAP PAPER_CLOCK_WRAP
#define HALF (WRAP / 2)
#define LAST PAPER_LAST_CLOCK_POSITION
#define TICKS PAPER_TICKS_PER_MILLISECOND
#define REFUSED OVENQUILL_CLOCK_OUT_OF_RANGE

/* The ticks from one picture to the next where 30,000 are sent in 1001 seconds. */
#define PICTURE 3003

static const ovenquill_clock start = OVENQUILL_CLOCK_START;

static ovenquill_clock clock_of(int64_t heard, int64_t position)
{
    ovenquill_clock clock;
    clock.heard = heard;
    clock.position = position;
    return clock;
}

/* The value that stands for a position, which may be outside its range, modulo 2^33. */
static int64_t value_of(int64_t position)
{
    return (position % WRAP + WRAP) % WRAP;
}

/* Each call with its blocks; the clock is then where the call left it */

static int64_t follow(ovenquill_clock *clock, int64_t value)
{
    ovenquill_clock *lent = (ovenquill_clock *)lend_copy(clock, sizeof *clock);
    const int64_t answer = ovenquill_follow(lent, value);
    *clock = *lent;
    free(lent);
    return answer;
}

/* An empty list is lent as a null pointer. */
static int64_t follow_all(ovenquill_clock *clock, const int64_t *values, size_t count)
{
    const size_t bytes = count * sizeof *values;
    ovenquill_clock *lent = (ovenquill_clock *)lend_copy(clock, sizeof *clock);
    int64_t *lent_values = bytes == 0 ? NULL : (int64_t *)lend_copy(values, bytes);
    int64_t *same_values = (int64_t *)lend_copy(values, bytes);
    const int64_t passed_over = ovenquill_follow_all(lent, lent_values, count);
    hold("ovenquill_follow_all in its values", (int64_t)count, lent_values, same_values, bytes);
    *clock = *lent;
    free(lent);
    return passed_over;
}

/* Calls that are held to known answers and clocks */

static void same_clock(const char *what, int64_t input, ovenquill_clock got, ovenquill_clock right)
{
    same(what, input, got.heard, right.heard);
    same(what, input, got.position, right.position);
}

/* Shows the clock that was handed in if there were failures since there were that many before. */
static void show_failed_clock(long failures_before, ovenquill_clock from)
{
    if (failed_since(failures_before))
        fprintf(stderr, "  from the clock {%" PRId64 ", %" PRId64 "}\n", from.heard, from.position);
}

static void know_value(const char *what, ovenquill_clock *clock, int64_t value, int64_t answer, ovenquill_clock right)
{
    const long before = failures;
    const ovenquill_clock from = *clock;
    same(what, value, follow(clock, value), answer);
    same_clock(what, value, *clock, right);
    show_failed_clock(before, from);
}

static void know_batch(const char *what, ovenquill_clock *clock, const int64_t *values, size_t count,
                       int64_t passed_over, ovenquill_clock right)
{
    const long before = failures;
    const ovenquill_clock from = *clock;
    same(what, (int64_t)count, follow_all(clock, values, count), passed_over);
    same_clock(what, (int64_t)count, *clock, right);
    show_failed_clock(before, from);
}

static void know_accepted(const char *what, ovenquill_clock *clock, int64_t value, int64_t milliseconds,
                          int64_t position)
{
    know_value(what, clock, value, milliseconds, clock_of(1, position));
}

static void know_refused(const char *what, ovenquill_clock *clock, int64_t value)
{
    know_value(what, clock, value, REFUSED, *clock);
}

/* Calls that are held to plain.h */

static void try_value(ovenquill_clock from, int64_t value)
{
    const long before = failures;
    ovenquill_clock clock = from;
    int64_t right[2] = {from.heard, from.position};
    same("ovenquill_follow", value, follow(&clock, value), plain_follow(right, value));
    same_clock("the clock of ovenquill_follow", value, clock, clock_of(right[0], right[1]));
    show_failed_clock(before, from);
}

/* A batch, and its values one by one. */
static void try_batch(ovenquill_clock from, const int64_t *values, size_t count)
{
    const long before = failures;
    const int64_t input = (int64_t)count;
    ovenquill_clock batch = from, one_by_one = from;
    int64_t right[2] = {from.heard, from.position}, refused = 0;
    const int64_t passed_over = plain_follow_all(right, values, count);
    size_t i;
    same("ovenquill_follow_all", input, follow_all(&batch, values, count), passed_over);
    same_clock("the clock of ovenquill_follow_all", input, batch, clock_of(right[0], right[1]));
    for (i = 0; i < count; i++)
        refused += follow(&one_by_one, values[i]) == REFUSED;
    same("refused one by one", input, refused, passed_over);
    same_clock("the clock one by one", input, one_by_one, clock_of(right[0], right[1]));
    show_failed_clock(before, from);
}

/* Examples and single values */

/* The examples of the header and of README. */
static void check_examples(void)
{
    static const int64_t values[] = {8589934500, 2910, 8589934592, 5913};
    ovenquill_clock header = OVENQUILL_CLOCK_START, readme = OVENQUILL_CLOCK_START;
    ovenquill_clock restarted = OVENQUILL_CLOCK_START, in_rust = OVENQUILL_CLOCK_START;
    know_accepted("the header's example", &header, 8589934500, 95443716, 8589934500);
    know_accepted("the header's example", &header, 2910, 95443750, 8589937502);
    know_accepted("the header's example", &header, 8589934590, 95443717, 8589934590);
    know_refused("the header's example", &header, 8589934592);
    know_accepted("README's example", &readme, values[0], 95443716, 8589934500);
    know_accepted("README's example", &readme, values[1], 95443750, 8589937502);
    know_refused("README's example", &readme, values[2]);
    know_accepted("README's example", &readme, values[3], 95443783, 8589940505);
    know_batch("README's restarted clock", &restarted, values + 1, 3, 1, clock_of(1, 5913));
    know_batch("README's clock in Rust", &in_rust, values, 3, 1, clock_of(1, 8589937502));
    know_accepted("README's clock in Rust", &in_rust, values[3], 95443783, 8589940505);
}

/* The milliseconds of a position, by a step of 0 and, where it is a value too, as the first one. */
static void know_milliseconds(int64_t position, int64_t milliseconds)
{
    ovenquill_clock there = clock_of(1, position), nowhere = start;
    know_accepted("milliseconds", &there, value_of(position), milliseconds, position);
    if (position < WRAP)
        know_accepted("milliseconds of a first value", &nowhere, position, milliseconds, position);
}

static void check_milliseconds(int rounds)
{
    know_milliseconds(0, 0);
    know_milliseconds(1, 0);
    know_milliseconds(89, 0);
    know_milliseconds(90, 1);
    know_milliseconds(91, 1);
    know_milliseconds(179, 1);
    know_milliseconds(180, 2);
    know_milliseconds(8589934529, 95443716);
    know_milliseconds(8589934530, 95443717);
    know_milliseconds(8589934591, 95443717);
    know_milliseconds(8589934592, 95443717);
    know_milliseconds(386547056639, 4294967295);
    know_milliseconds(386547056640, 4294967296);
    know_milliseconds(9007199254740959, 100079991719343);
    know_milliseconds(9007199254740960, 100079991719344);
    know_milliseconds(9007199254740991, 100079991719344);
    know_milliseconds(9007199254740992, 100079991719344);
    while (rounds-- > 0) {
        const int64_t milliseconds = random_within(1, LAST / TICKS >> random_within(0, 46));
        know_milliseconds(milliseconds * TICKS - 1, milliseconds - 1);
        know_milliseconds(milliseconds * TICKS, milliseconds);
        know_milliseconds(milliseconds * TICKS + 1, milliseconds);
    }
}

static const int64_t heard_numbers[] = {0, 1, -1, 2, INT64_MIN, INT64_MAX};

/* The limits of values, steps, positions and the signed 64-bit numbers; each is tried with the two numbers beside it. */
static const int64_t limits[] = {
    INT64_MIN + 1, INT64_MIN + HALF, INT64_MIN + WRAP, INT64_MIN + LAST, -LAST, -WRAP - HALF, -WRAP, -HALF, 0, HALF, WRAP,
    WRAP + HALF, 2 * WRAP, 3 * WRAP, 331 * WRAP, LAST / 2, LAST - 2 * WRAP, LAST - WRAP - HALF, LAST - WRAP, LAST - HALF,
    LAST, LAST + HALF, LAST + WRAP, 2 * LAST, INT64_MAX - LAST, INT64_MAX - WRAP, INT64_MAX - HALF, INT64_MAX - 1,
};

/* Steps at, beside and between their limits; a value that lies HALF or more ahead is one of a step back. */
static const int64_t steps[] = {-HALF, -HALF + 1, -HALF / 2, -2, -1, 0, 1, 2, HALF / 2, HALF - 2, HALF - 1};

/* From a position in its range by a step: to their sum, or refused where that is outside. */
static void know_step(ovenquill_clock from, int64_t step)
{
    const int64_t sum = from.position + step;
    if (outside(0, LAST, sum))
        know_refused("a step too far", &from, value_of(sum));
    else
        know_accepted("a step", &from, value_of(sum), sum / TICKS, sum);
}

static void try_alone_and_in_batch(ovenquill_clock from, int64_t value)
{
    try_value(from, value);
    try_batch(from, &value, 1);
}

/* A clock with each value at a limit, and with the value that each step leads to. */
static void try_clock(ovenquill_clock from)
{
    int64_t beside;
    size_t i;
    for (i = 0; i < COUNT(limits); i++)
        for (beside = -1; beside <= 1; beside++)
            try_alone_and_in_batch(from, limits[i] + beside);
    for (i = 0; i < COUNT(steps); i++) {
        try_alone_and_in_batch(from, value_of(value_of(from.position) + steps[i]));
        if (from.heard != 0 && !outside(0, LAST, from.position))
            know_step(from, steps[i]);
    }
}

static void check_limits(void)
{
    int64_t beside;
    size_t i, j;
    for (i = 0; i < COUNT(limits); i++)
        for (beside = -1; beside <= 1; beside++)
            for (j = 0; j < COUNT(heard_numbers); j++)
                try_clock(clock_of(heard_numbers[j], limits[i] + beside));
}

/* The first value is taken as it is, whatever position is handed in with nothing heard. */
static void check_first_values(int rounds)
{
    int64_t beside;
    size_t i;
    while (rounds-- > 0) {
        const int64_t value = random_within(0, (WRAP - 1) >> random_within(0, 33));
        for (i = 0; i < COUNT(limits); i++)
            for (beside = -1; beside <= 1; beside++) {
                ovenquill_clock clock = clock_of(0, limits[i] + beside);
                know_accepted("a first value", &clock, value, value / TICKS, value);
            }
    }
}

/* A value that is refused whatever the clock: beside the range, far outside it, or a right one with higher bits. */
static int64_t bad_value(void)
{
    static const int64_t bad[] = {INT64_MIN, INT64_MIN + 1, -WRAP, -HALF, -2, -1, WRAP, WRAP + 1, 2 * WRAP - 1, 2 * WRAP,
                                  LAST, INT64_MAX - 1, INT64_MAX};
    const int64_t with_higher_bits = random_within(0, WRAP - 1) + WRAP * random_within(1, INT64_MAX / WRAP);
    switch (random_within(0, 3)) {
    case 0:
        return with_higher_bits;
    case 1:
        return -1 - with_higher_bits;
    case 2:
        return -1 - random_within(0, WRAP - 1);
    default:
        return bad[random_within(0, (int64_t)COUNT(bad) - 1)];
    }
}

/* Any clocks with any values, many of them about half a wrap away. */
static void check_random(int rounds)
{
    while (rounds-- > 0) {
        const int64_t width = LAST >> random_within(0, 53), within = random_within(0, width);
        const int64_t positions[] = {within, LAST - within, WRAP * random_within(0, LAST / WRAP) - random_within(0, 3),
                                     -within, LAST + within};
        const int64_t position = positions[random_within(0, (int64_t)COUNT(positions) - 1)];
        const int64_t values[] = {random_within(0, WRAP - 1), value_of(position + HALF + random_within(-3, 3)),
                                  value_of(position + random_within(-9000, 9000)), bad_value()};
        const int64_t heard = heard_numbers[random_within(0, (int64_t)COUNT(heard_numbers) - 1)];
        size_t i;
        for (i = 0; i < COUNT(values); i++)
            try_value(clock_of(heard, position), values[i]);
        try_batch(clock_of(heard, position), values, COUNT(values));
    }
}

/* Runs of true positions */

/* Values with what each must answer and the clock that it must leave, which are known as the run is made. */
#define LONGEST 1000000
static struct {
    ovenquill_clock from, clocks[LONGEST];
    int64_t values[LONGEST], answers[LONGEST], refused;
    size_t count;
} run;

/* How a run goes: from what clock, with what first position where nothing is heard yet, and by what steps. */
struct course {
    ovenquill_clock from;
    int64_t first;
    /* Steps are -width <= s < width; of every eight, at least so many and at most so many go forwards. */
    int64_t width, fewest, most;
};

/* A step at either end, about 0, or anywhere between. */
static int64_t random_step(int64_t width, int64_t forwards)
{
    const int64_t at_an_end[] = {width - 1, width - 2, 0, 1};
    const int64_t choice = random_within(0, 7), far = choice < 4 ? at_an_end[choice] : random_within(0, width - 1);
    return random_within(1, 8) <= forwards ? far : -1 - far;
}

/* Bad values come first, now and then, and many in a row; a position outside the range is refused too. */
static void make_run(const struct course *course, size_t count)
{
    ovenquill_clock clock = course->from;
    int64_t forwards = 0, bad = 0;
    size_t i;
    run.from = course->from;
    run.count = count;
    run.refused = 0;
    for (i = 0; i < count; i++) {
        int accepted = 0;
        if (i % 100 == 0) {
            forwards = random_within(course->fewest, course->most);
            bad = random_within(0, 9) == 0 ? 8 : 1;
        }
        if (i < 3 || random_within(1, 8) <= bad) {
            run.values[i] = bad_value();
        } else {
            const int64_t step = random_step(course->width, forwards);
            const int64_t position = clock.heard == 0 ? course->first : clock.position + step;
            run.values[i] = value_of(position);
            accepted = !outside(0, LAST, position);
            if (accepted)
                clock = clock_of(1, position);
        }
        run.answers[i] = accepted ? clock.position / TICKS : REFUSED;
        run.refused += !accepted;
        run.clocks[i] = clock;
    }
}

/* The plain call, too, gives back the true positions. */
static void check_one_by_one(void)
{
    ovenquill_clock clock = run.from;
    int64_t plain[2] = {run.from.heard, run.from.position};
    size_t i;
    for (i = 0; i < run.count; i++) {
        know_value("a value of a run", &clock, run.values[i], run.answers[i], run.clocks[i]);
        same("plain_follow in a run", run.values[i], plain_follow(plain, run.values[i]), run.answers[i]);
        same_clock("the clock of plain_follow in a run", run.values[i], clock_of(plain[0], plain[1]), run.clocks[i]);
    }
}

static void check_whole_run(void)
{
    ovenquill_clock clock = run.from;
    know_batch("a whole run", &clock, run.values, run.count, run.refused, run.clocks[run.count - 1]);
    try_batch(run.from, run.values, run.count);
}

/* In batches of at most so many values, some of them empty: each leaves the clock of its last value; the counts add up. */
static void check_split_run(size_t longest)
{
    ovenquill_clock clock = run.from;
    int64_t passed_over = 0;
    size_t i = 0;
    while (i < run.count) {
        const size_t left = run.count - i, any = (size_t)random_within(0, (int64_t)longest);
        const size_t count = any < left ? any : left;
        passed_over += follow_all(&clock, run.values + i, count);
        i += count;
        same_clock("a batch of a run", (int64_t)i, clock, i == 0 ? run.from : run.clocks[i - 1]);
    }
    same("the batches of a run", (int64_t)longest, passed_over, run.refused);
}

static void check_runs(size_t count)
{
    static const struct course courses[] = {
        /* through many wraps, forwards and backwards */
        {OVENQUILL_CLOCK_START, WRAP - 1, HALF, 0, 8},
        {{0, INT64_MIN}, HALF, HALF, 5, 8},
        /* near 0 and near the last position, where many steps lead outside */
        {{0, INT64_MAX}, 0, HALF, 1, 3},
        {{-1, LAST}, 0, HALF, 5, 7},
        {{INT64_MIN, LAST - WRAP}, 0, WRAP / 64, 6, 7},
        /* pictures out of order, about the first wrap and about the last */
        {{0, -1}, WRAP - PICTURE, 2 * PICTURE, 4, 4},
        {{2, LAST - WRAP}, 0, 2 * PICTURE, 4, 4},
    };
    static const size_t longest[] = {1, 9, 300, 70000};
    size_t i, j;
    for (i = 0; i < COUNT(courses); i++) {
        make_run(&courses[i], count);
        check_one_by_one();
        check_whole_run();
        for (j = 0; j < COUNT(longest); j++)
            check_split_run(longest[j]);
    }
}

/*
 * By the longest steps up to the last position and down again, one by one and in a batch each way. The way of the most steps
 * begins at 0 with nothing heard.
 */
static void check_long_way(int64_t steps_down)
{
    const int64_t bottom = LAST - steps_down * HALF;
    const ovenquill_clock at_bottom = clock_of(bottom != 0, bottom);
    int64_t *values = (int64_t *)malloc(((size_t)steps_down + 3) * sizeof *values), position;
    ovenquill_clock clock = at_bottom, batch = at_bottom;
    size_t count = 0;
    for (position = bottom; position < LAST; position += HALF - 1) {
        know_accepted("the way up", &clock, value_of(position), position / TICKS, position);
        values[count++] = value_of(position);
    }
    know_accepted("the last position", &clock, value_of(LAST), LAST / TICKS, LAST);
    values[count++] = value_of(LAST);
    know_refused("beyond the last position", &clock, value_of(LAST + 1));
    know_batch("the way up in a batch", &batch, values, count, 0, clock_of(1, LAST));
    count = 0;
    for (position = LAST - HALF; position >= bottom; position -= HALF) {
        know_accepted("the way down", &clock, value_of(position), position / TICKS, position);
        values[count++] = value_of(position);
    }
    know_batch("the way down in a batch", &batch, values, count, 0, clock_of(1, bottom));
    know_step(clock, -1);
    free(values);
}

/* A position each quarter of an hour for 366 days, past so many wraps: forwards from nothing heard, and back again. */
#define QUARTERS (366 * 24 * 4)
static void check_year(int64_t first, int64_t wraps)
{
    static int64_t forwards[QUARTERS + 1], backwards[QUARTERS + 1];
    const int64_t quarter = 15 * 60 * PAPER_SECOND, last = first + QUARTERS * quarter * TICKS;
    ovenquill_clock clock = start, batch = start;
    int64_t i;
    for (i = 0; i <= QUARTERS; i++) {
        const int64_t position = first + i * quarter * TICKS;
        forwards[i] = backwards[QUARTERS - i] = value_of(position);
        know_accepted("a year", &clock, forwards[i], first / TICKS + i * quarter, position);
    }
    same("wraps of a year", first, clock.position / WRAP, wraps);
    for (i = QUARTERS; i >= 0; i--)
        know_accepted("a year backwards", &clock, forwards[i], first / TICKS + i * quarter,
                      first + i * quarter * TICKS);
    know_batch("a year in a batch", &batch, forwards, QUARTERS + 1, 0, clock_of(1, last));
    know_batch("a year backwards in a batch", &batch, backwards, QUARTERS + 1, 0, clock_of(1, first));
}

/* Batches */

/* Lists of every short length in which no value is refused, each one, all, and all but each one. */
#define SHORT 40
static void check_short_lists(ovenquill_clock from, int64_t first, int64_t bad)
{
    size_t count, one, i;
    for (count = 0; count <= SHORT; count++)
        for (one = 0; one <= count; one++) {
            int64_t but_one[SHORT], only_one[SHORT];
            ovenquill_clock clock = from, end = from;
            for (i = 0; i < count; i++) {
                const int64_t position = first + (int64_t)i * PICTURE;
                but_one[i] = i == one ? bad : value_of(position);
                only_one[i] = i == one ? value_of(position) : bad;
                if (i != one)
                    end = clock_of(1, position);
            }
            know_batch("a list with one bad value", &clock, but_one, count, one < count, end);
            clock = from;
            end = one < count ? clock_of(1, first + (int64_t)one * PICTURE) : from;
            know_batch("a list with one good value", &clock, only_one, count, (int64_t)count - (one < count), end);
        }
}

static void check_all_short_lists(void)
{
    check_short_lists(start, 0, -1);
    check_short_lists(start, HALF, WRAP);
    check_short_lists(clock_of(0, INT64_MIN), 1, INT64_MIN);
    check_short_lists(clock_of(0, LAST + 1), WRAP - SHORT * PICTURE, INT64_MAX);
    check_short_lists(clock_of(1, WRAP - 1), WRAP - SHORT / 2 * PICTURE, WRAP + 1);
    check_short_lists(clock_of(-1, 7 * WRAP + HALF), 7 * WRAP, -WRAP);
    /* values that lead below 0 or beyond the last position */
    check_short_lists(clock_of(2, 0), 0, value_of(-1));
    check_short_lists(clock_of(INT64_MAX, LAST), LAST - SHORT * PICTURE, value_of(LAST + 1));
}

/* So many refused values in a row and then the value of a position: bad ones, or ones of a list of those refused from there. */
static void know_many_refused(ovenquill_clock from, size_t refused, const int64_t *list, size_t listed, int64_t position)
{
    int64_t *values = (int64_t *)malloc((refused + 2) * sizeof *values);
    ovenquill_clock all = from, with_good = from, with_another = from;
    size_t i;
    for (i = 0; i < refused; i++)
        values[i] = listed == 0 ? bad_value() : list[random_within(0, (int64_t)listed - 1)];
    values[refused] = value_of(position);
    values[refused + 1] = -1;
    know_batch("many refused values", &all, values, refused, (int64_t)refused, from);
    know_batch("a good value behind many", &with_good, values, refused + 1, (int64_t)refused, clock_of(1, position));
    know_batch("one behind it", &with_another, values, refused + 2, (int64_t)refused + 1, clock_of(1, position));
    free(values);
}

static void check_many_refused(size_t refused)
{
    static const int64_t below_0[] = {WRAP - 1, WRAP - HALF, WRAP - PICTURE, -1, WRAP};
    static const int64_t beyond_last[] = {1, PICTURE, HALF - 1, -1, WRAP};
    know_many_refused(start, refused, NULL, 0, WRAP - 1);
    know_many_refused(clock_of(1, WRAP - 1), refused, NULL, 0, WRAP);
    know_many_refused(clock_of(1, 0), refused, below_0, COUNT(below_0), PICTURE);
    know_many_refused(clock_of(1, LAST), refused, beyond_last, COUNT(beyond_last), LAST - 1);
}

/* `heard` is kept, whatever it is, where nothing is accepted, and is 1 where something is. */
static void check_heard(void)
{
    static const int64_t bad[] = {-1, WRAP, INT64_MAX}, mixed[] = {-1, 91, WRAP};
    size_t i;
    for (i = 0; i < COUNT(heard_numbers); i++) {
        ovenquill_clock clock = clock_of(heard_numbers[i], 89), batch = clock;
        know_refused("heard is kept", &clock, -1);
        know_refused("heard is kept", &clock, WRAP);
        know_batch("heard is kept", &batch, bad, COUNT(bad), COUNT(bad), batch);
        know_accepted("heard is 1", &clock, 91, 1, 91);
        know_batch("heard is 1", &batch, mixed, COUNT(mixed), 2, clock_of(1, 91));
    }
}

/* With a position handed in that is outside its range no value is accepted, and both numbers stay. */
static void check_bad_position(ovenquill_clock from)
{
    int64_t values[SHORT];
    size_t i;
    for (i = 0; i < SHORT; i++)
        values[i] = value_of(value_of(from.position) + steps[i % COUNT(steps)]);
    for (i = 0; i <= SHORT; i++) {
        ovenquill_clock clock = from;
        if (i < SHORT)
            know_refused("a bad position", &clock, values[i]);
        know_batch("a bad position", &clock, values, i, (int64_t)i, from);
    }
}

static void check_bad_positions(void)
{
    int64_t beside;
    size_t i, j;
    for (i = 0; i < COUNT(limits); i++)
        for (beside = -1; beside <= 1; beside++)
            for (j = 0; j < COUNT(heard_numbers); j++)
                if (heard_numbers[j] != 0 && outside(0, LAST, limits[i] + beside))
                    check_bad_position(clock_of(heard_numbers[j], limits[i] + beside));
}

/* Empty lists with any clock: a null pointer, and one to the end of a block. */
static void check_empty_lists(void)
{
    int64_t *block = (int64_t *)lend(sizeof *block), beside;
    size_t i, j;
    for (i = 0; i < COUNT(limits); i++)
        for (beside = -1; beside <= 1; beside++)
            for (j = 0; j < COUNT(heard_numbers); j++) {
                const ovenquill_clock from = clock_of(heard_numbers[j], limits[i] + beside);
                ovenquill_clock *lent = (ovenquill_clock *)lend_copy(&from, sizeof from);
                same("a null list", from.position, ovenquill_follow_all(lent, NULL, 0), 0);
                same_clock("a null list", from.position, *lent, from);
                same("an empty list", from.position, ovenquill_follow_all(lent, block + 1, 0), 0);
                same_clock("an empty list", from.position, *lent, from);
                free(lent);
            }
    free(block);
}

/* With nothing heard a position that holds nothing yet: valgrind sees whether a call's answer depends on it. */
static void check_unset_position(void)
{
    static const int64_t bad[] = {-1, WRAP}, mixed[] = {-1, WRAP - 1, WRAP, 0};
    ovenquill_clock *clock = (ovenquill_clock *)malloc(sizeof *clock);
    ovenquill_clock *batch = (ovenquill_clock *)malloc(sizeof *batch);
    clock->heard = 0;
    same("unset position with a bad value", WRAP, ovenquill_follow(clock, WRAP), REFUSED);
    same("heard after a bad value", WRAP, clock->heard, 0);
    same("unset position with a value", 91, ovenquill_follow(clock, 91), 1);
    same_clock("unset position with a value", 91, *clock, clock_of(1, 91));
    batch->heard = 0;
    same("unset position with no list", 0, ovenquill_follow_all(batch, NULL, 0), 0);
    same("unset position with bad values", 2, ovenquill_follow_all(batch, bad, COUNT(bad)), 2);
    same("heard after bad values", 2, batch->heard, 0);
    same("unset position with values", 4, ovenquill_follow_all(batch, mixed, COUNT(mixed)), 2);
    same_clock("unset position with values", 4, *batch, clock_of(1, WRAP));
    free(clock);
    free(batch);
}

int main(int argc, char **argv)
{
    const int thinned = argc > 1 ? atoi(argv[1]) : 1;
    check_examples();
    check_milliseconds(100000 / thinned);
    check_limits();
    check_first_values(1000 / thinned);
    check_random(200000 / thinned);
    check_runs(LONGEST / (size_t)thinned);
    check_long_way(LAST / HALF / thinned);
    check_year(0, 331);
    check_year(WRAP - 1, 332);
    check_all_short_lists();
    check_many_refused(10000);
    check_many_refused(LONGEST / (size_t)thinned);
    check_heard();
    check_bad_positions();
    check_empty_lists();
    check_unset_position();
    return finish("transport clock");
}
