/*
 * Instants, the index and the two labels: document 01, "Instants and the two labels". Reading positions and cue lines: change
 * request One. The order of an index: change request Six. The years of labels: change request Eight.
 */
#include <stdio.h>
#include <string.h>

#include "plain.h"

#define MINUTE (60 * PAPER_SECOND)
#define HOUR (60 * MINUTE)

int64_t plain_day_of_instant(int64_t instant, int64_t *days)
{
    if (outside(PAPER_FIRST_INSTANT, PAPER_LAST_INSTANT, instant))
        return -4;
    *days = (instant - PAPER_FIRST_INSTANT) / PAPER_DAY + PAPER_FIRST_COUNT;
    return 0;
}

int64_t plain_split_instant(int64_t instant, int64_t *fields)
{
    int64_t days, time;
    if (plain_day_of_instant(instant, &days) != 0)
        return -4;
    plain_civil_from_days(days, fields);
    time = instant - days * PAPER_DAY;
    fields[3] = time / HOUR;
    fields[4] = time % HOUR / MINUTE;
    fields[5] = time % MINUTE / PAPER_SECOND;
    fields[6] = time % PAPER_SECOND;
    return 0;
}

int64_t plain_join_instant(const int64_t *fields, int64_t *instant)
{
    int64_t days;
    int64_t refusal = plain_days_from_civil(fields[0], fields[1], fields[2], &days);
    if (refusal != 0)
        return refusal;
    if (outside(0, 23, fields[3]) || outside(0, 59, fields[4]) || outside(0, 59, fields[5])
        || outside(0, PAPER_SECOND - 1, fields[6]))
        return -5;
    *instant = days * PAPER_DAY + fields[3] * HOUR + fields[4] * MINUTE + fields[5] * PAPER_SECOND + fields[6];
    return 0;
}

int64_t plain_index_days(const int64_t *instants, size_t count, int32_t *days, size_t days_length, int64_t *place)
{
    size_t i;
    if (count != days_length)
        return -12;
    for (i = 0; i < count; i++)
        if (outside(PAPER_FIRST_INSTANT, PAPER_LAST_INSTANT, instants[i])) {
            *place = (int64_t)i;
            return -4;
        }
    for (i = 1; i < count; i++)
        if (instants[i] < instants[i - 1]) {
            *place = (int64_t)i;
            return -15;
        }
    for (i = 0; i < count; i++) {
        int64_t day = 0;
        plain_day_of_instant(instants[i], &day);
        days[i] = (int32_t)day;
    }
    return (int64_t)count;
}

/* Writes a label to the front of a buffer, if it is long enough. */
static int64_t put(const char *label, uint8_t *out, size_t length)
{
    if (length < strlen(label))
        return -7;
    memcpy(out, label, strlen(label));
    return (int64_t)strlen(label);
}

int64_t plain_write_instant(int64_t instant, uint8_t *out, size_t length)
{
    int64_t f[7];
    char label[80];
    if (plain_split_instant(instant, f) != 0)
        return -4;
    if (outside(PAPER_FIRST_LABEL_YEAR, PAPER_LAST_LABEL_YEAR, f[0]))
        return -1;
    snprintf(label, sizeof label, PAPER_INSTANT_LABEL, (int)f[0], (int)f[1], (int)f[2], (int)f[3], (int)f[4], (int)f[5],
             (int)f[6]);
    return put(label, out, length);
}

/* Whether a byte is that mark: T and Z are also taken small. */
static int is_mark(char mark, uint8_t byte)
{
    if (mark == 'T')
        return byte == 'T' || byte == 't';
    if (mark == 'Z')
        return byte == 'Z' || byte == 'z';
    return byte == mark;
}

int64_t plain_read_instant(const uint8_t *label, size_t length, int64_t *instant)
{
    char shape[80]; /* 0 for a digit; a mark ends a field */
    int64_t fields[8] = {0, 0, 0, 0, 0, 0, 0, 0};
    size_t i, field = 0;
    snprintf(shape, sizeof shape, PAPER_INSTANT_LABEL, 0, 0, 0, 0, 0, 0, 0);
    if (length != strlen(shape))
        return -8;
    for (i = 0; i < length; i++) {
        if (shape[i] == '0' ? outside('0', '9', label[i]) : !is_mark(shape[i], label[i]))
            return -8;
        if (shape[i] == '0')
            fields[field] = fields[field] * 10 + label[i] - '0';
        else
            field++;
    }
    return plain_join_instant(fields, instant);
}

int64_t plain_write_position(int64_t position, uint8_t *out, size_t length)
{
    char label[80];
    if (outside(0, PAPER_LAST_POSITION, position))
        return -6;
    snprintf(label, sizeof label, "%02d:%02d:%02d.%03d", (int)(position / 3600000), (int)(position % 3600000 / 60000),
             (int)(position % 60000 / 1000), (int)(position % 1000));
    return put(label, out, length);
}

/* What is left of a text that is read from its front. */
struct rest {
    const uint8_t *next;
    size_t length;
};

/* Takes one byte, where it is next. */
static int take(struct rest *rest, char byte)
{
    if (rest->length == 0 || *rest->next != byte)
        return 0;
    rest->next++;
    rest->length--;
    return 1;
}

/* Takes the digits that are next, at most so many, and answers how many. Their number stops growing above the last one. */
static size_t take_digits(struct rest *rest, size_t most, int64_t last, int64_t *number)
{
    size_t taken;
    *number = 0;
    for (taken = 0; taken < most && rest->length != 0 && !outside('0', '9', *rest->next); taken++) {
        if (*number <= last)
            *number = *number * 10 + *rest->next - '0';
        rest->next++;
        rest->length--;
    }
    return taken;
}

/* Takes exactly so many digits, whose number is not above the last one. */
static int take_field(struct rest *rest, size_t digits, int64_t last, int64_t *number)
{
    return take_digits(rest, digits, last, number) == digits && *number <= last;
}

/* Takes MM:SS.mmm. */
static int take_clock(struct rest *rest, int64_t *time)
{
    int64_t minute, second, millisecond;
    if (!take_field(rest, 2, 59, &minute) || !take(rest, ':') || !take_field(rest, 2, 59, &second) || !take(rest, '.')
        || !take_field(rest, 3, 999, &millisecond))
        return 0;
    *time = minute * MINUTE + second * PAPER_SECOND + millisecond;
    return 1;
}

/* Takes a timestamp: hours, a colon and a clock, or else a clock alone. Its position may be above the last one. */
static int take_timestamp(struct rest *rest, int64_t *position)
{
    const struct rest before = *rest;
    const int64_t last_hour = PAPER_LAST_POSITION / HOUR;
    int64_t hours, time;
    if (take_digits(rest, rest->length, last_hour, &hours) >= 2 && take(rest, ':') && take_clock(rest, &time)) {
        *position = hours * HOUR + time;
        return 1;
    }
    *rest = before;
    return take_clock(rest, position);
}

/* Takes spaces and tabs, one or more. */
static int take_blanks(struct rest *rest)
{
    const size_t before = rest->length;
    while (take(rest, ' ') || take(rest, '\t'))
        continue;
    return rest->length < before;
}

int64_t plain_read_position(const uint8_t *text, size_t length)
{
    struct rest rest = {text, length};
    int64_t position;
    if (!take_timestamp(&rest, &position) || rest.length != 0)
        return -13;
    return position > PAPER_LAST_POSITION ? -6 : position;
}

int64_t plain_read_cue(const uint8_t *line, size_t length, int64_t *cue)
{
    struct rest rest = {line, length};
    int64_t start, end;
    if (!take_timestamp(&rest, &start) || !take_blanks(&rest) || !take(&rest, '-') || !take(&rest, '-') || !take(&rest, '>')
        || !take_blanks(&rest) || !take_timestamp(&rest, &end) || rest.length != 0)
        return -13;
    if (start > PAPER_LAST_POSITION || end > PAPER_LAST_POSITION)
        return -6;
    if (end <= start)
        return -13;
    cue[0] = start;
    cue[1] = end;
    return 0;
}
