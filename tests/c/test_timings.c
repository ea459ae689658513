/*
 * The readers of timestamps and cue lines, on texts that are right, nearly right or of any bytes. Both get each text in a heap
 * block of exactly its size; what they answer and leave is held to plain.h, and what is read is written again. An argument n
 * is the step: only every n-th text is tried. Every text whose answer is known, and every label just written, is besides read
 * where it stands, whatever the step. Compiled as C and as C++.
 */
#include <string.h>

#include "lent.h"
#include "ovenquill.h"
#include "plain.h"
#include "random.h"
#include "texts.h"

static long step = 1;

/* Holds what is written of a position that was read to the full form. */
static void try_writing(int64_t position)
{
    uint8_t label[OVENQUILL_POSITION_LABEL_MAX_BYTES], right[OVENQUILL_POSITION_LABEL_MAX_BYTES];
    const int64_t bytes = plain_write_position(position, right, sizeof right);
    same("written again", position, ovenquill_write_position(position, label, sizeof label), bytes);
    same("label written again", position, memcmp(label, right, (size_t)bytes), 0);
}

static void try_text(const void *text, size_t length)
{
    static long texts;
    const long before = failures;
    const int64_t input = (int64_t)length;
    uint8_t *lent_text, *same_text;
    int64_t position;
    if (texts++ % step != 0)
        return;
    lent_text = (uint8_t *)lend_copy(text, length), same_text = (uint8_t *)lend_copy(text, length);
    position = plain_read_position(same_text, length);
    same("ovenquill_read_position", input, ovenquill_read_position(lent_text, length), position);
    SAME_WITH_PLACE(ovenquill_cue, input, ovenquill_read_cue(lent_text, length, lent),
                    plain_read_cue(same_text, length, right));
    hold("a reader in its text", input, lent_text, same_text, length);
    if (position >= 0)
        try_writing(position);
    show_failed_text(before, text, length);
}

static void try_string(const char *text)
{
    try_text(text, strlen(text));
}

/* A text that is put together from its front. Zero bytes follow it. */
struct built {
    char bytes[500];
    size_t length;
};

static void add_bytes(struct built *text, const char *bytes, size_t length)
{
    memcpy(text->bytes + text->length, bytes, length);
    text->length += length;
}

static void add(struct built *text, const char *bytes)
{
    add_bytes(text, bytes, strlen(bytes));
}

static void add_times(struct built *text, char byte, size_t times)
{
    memset(text->bytes + text->length, byte, times);
    text->length += times;
}

static void try_built(const struct built *text)
{
    try_text(text->bytes, text->length);
}

/* Tries a text that has one byte so many times between its front and its back. */
static void try_filled(const char *front, char byte, size_t times, const char *back)
{
    const size_t bytes = strlen(front) + times;
    char *text = (char *)malloc(bytes + strlen(back) + 1);
    strcpy(text, front);
    memset(text + strlen(front), byte, times);
    strcpy(text + bytes, back);
    try_text(text, bytes + strlen(back));
    free(text);
}

/* Tries a line of two timestamps and what stands between them. */
static void try_line(const char *start, const char *between, const char *end)
{
    struct built line = {"", 0};
    add(&line, start);
    add(&line, between);
    add(&line, end);
    try_built(&line);
}

/* Tries a timestamp, and lines that start and end with it. */
static void try_timestamp(const char *timestamp)
{
    try_string(timestamp);
    try_line(timestamp, " --> ", "99999:59:59.999");
    try_line("00:00.000", " --> ", timestamp);
}

/* Texts whose answers are known without plain.h */

static void know_position(const char *text, int64_t right)
{
    const long before = failures;
    same("a known timestamp", 0, read_position(text), right);
    show_failed_text(before, text, strlen(text));
    try_timestamp(text);
}

static void know_cue(const char *line, int64_t start, int64_t end)
{
    check_cue(line, start, end);
    try_string(line);
}

static void know_refused_cue(const char *line, int64_t refusal)
{
    check_refused_cue(line, refusal);
    try_string(line);
}

static void check_known_positions(void)
{
    static const char *const malformed[] = {
        /* what readers in wide use take */
        "01.5", "00:01,500", "1:00:00.000", "00:60.000", "60:00.000", "00:60:00.000", "00:00:60.000", "00:00.0000", "00:00.00",
        "00:00", "00:00:00", "0:00.000", "00:0.000", "00:00.", "00:00.000Z", "+00:00.000", "-00:00.000", "00:-1.000",
        "00: 1.000", "1e:00.000", "00:00:00,000", "00:00:00:000", "00:00:00:00.000", "0x10:00:00.000", "1,000:00:00.000",
        /* a part that is left out, too short or too long */
        "", ":", ".", "0", ":00:00.000", "000:00.000", "00:000.000", "00:00:000.000", "00:000:00.000", "00.00.000", "00:00:000",
        "00::00.000", "00:00:.000", "0:00:00.000", "9:59:59.999", "00:00..000", "00:00.000.000", "00:00.-00", "00:00.+01",
        /* other bytes around a right one */
        " 00:00.000", "00:00.000 ", "\t00:00.000", "00:00.000\t", "00:00.000\n", "00:00.000\r\n", "00:00.000\r", "\n00:00.000",
        "00:00.000 --> 00:01.000", "00:00.000a", "00:00.0000000000", "\xef\xbb\xbf" "00:00.000", "\xd9\xa0\xd9\xa0:00.000",
    };
    /* hours above the last by a little, or by so much that a product or a sum of 32, 64 or 128 bits wraps to one below it */
    static const char *const above[] = {
        "100000", "0100000", "00000000000000000000000000100000", "100001", "999999", "1000000", "1193047", "71582789",
        "4294967295", "4294967296", "4294967297", "4295067295", "2562047788015", "2562047788016", "5124095576030",
        "5124095576031", "10248191152061", "5124095576030432", "307445734561825861", "9223372036854775807",
        "9223372036854775808", "18446744073709551615", "18446744073709551616", "18446744073709551617", "18446744073709651615",
        "36893488147419103232", "340282366920938463463374607431768211456", "340282366920938463463374607431768211457",
        "115792089237316195423570985008687907853269984665640564039457584007913129639936",
    };
    size_t i;
    know_position("00:00.000", 0);
    know_position("00:00.001", 1);
    know_position("01:02.003", 62003);
    know_position("59:59.999", 3599999);
    know_position("00:00:00.000", 0);
    know_position("00:01:02.003", 62003);
    know_position("000:01:02.003", 62003);
    know_position("0000000000000000000000000000000000000000:01:02.003", 62003);
    know_position("01:00:00.000", 3600000);
    know_position("10:00:00.000", 36000000);
    know_position("1193:02:47.295", 4294967295);
    know_position("1193:02:47.296", 4294967296);
    know_position("99999:00:00.000", 359996400000);
    know_position("99999:59:59.999", OVENQUILL_LAST_POSITION);
    know_position("00000000000000000000099999:59:59.999", OVENQUILL_LAST_POSITION);
    for (i = 0; i < COUNT(malformed); i++)
        know_position(malformed[i], OVENQUILL_MALFORMED_TIMING);
    for (i = 0; i < COUNT(above); i++) {
        struct built text = {"", 0};
        add(&text, above[i]);
        add(&text, ":00:00.000");
        know_position(text.bytes, OVENQUILL_POSITION_OUT_OF_RANGE);
        /* 13 before 6 */
        text.bytes[text.length - 9] = '6';
        know_position(text.bytes, OVENQUILL_MALFORMED_TIMING);
    }
}

static void check_known_lines(void)
{
    static const char *const malformed[] = {
        /* the blanks */
        "00:01.000-->00:02.000", "00:01.000 -->00:02.000", "00:01.000--> 00:02.000", " 00:01.000 --> 00:02.000",
        "00:01.000 --> 00:02.000 ", "\t00:01.000 --> 00:02.000", "00:01.000 --> 00:02.000\t", "00:01.000 --> 00:02.000\n",
        "00:01.000 --> 00:02.000\r", "00:01.000 --> 00:02.000\r\n", "00:01.000\n--> 00:02.000", "00:01.000 -->\n00:02.000",
        "00:01.000\v--> 00:02.000", "00:01.000 -->\f00:02.000", "00:01.000\xc2\xa0--> 00:02.000",
        "00:01.000 -->\xa0" "00:02.000", "00:01.000 \xe2\x80\x83--> 00:02.000", "00:01.000 -->  \r00:02.000",
        /* the arrow */
        "00:01.000 -> 00:02.000", "00:01.000 ---> 00:02.000", "00:01.000 -- > 00:02.000", "00:01.000 - -> 00:02.000",
        "00:01.000 -->> 00:02.000", "00:01.000 --> --> 00:02.000", "00:01.000 > 00:02.000", "00:01.000 00:02.000",
        "00:01.000  00:02.000", "00:01.000 --&gt; 00:02.000", "00:01.000 \xe2\x86\x92 00:02.000", "00:01.000 <-- 00:02.000",
        "00:01.000 ==> 00:02.000", "00:01.000 -- 00:02.000", "00:01.000 - 00:02.000", "00:01.000,00:02.000",
        /* what stands beside the timestamps, or in their stead */
        "00:01.000 --> 00:02.000 align:start", "00:01.000 --> 00:02.000 --> 00:03.000", "00:01.000 --> 00:02.000,00:03.000",
        "1 00:01.000 --> 00:02.000", "00:01.000 --> 00:02.0000", "00:01.000 --> 00:02,000", "00:01,000 --> 00:02.000",
        "0:00:01.000 --> 00:02.000", "00:01.000 --> 0:00:02.000", "00:01.000 --> 00:60.000", "00:01.000 --> +00:02.000",
        "00:01.000 -->", "00:01.000 --> ", "--> 00:02.000", " --> 00:02.000", "-->", " --> ", "", " ", "00:01.000",
        /* the end */
        "00:01.000 --> 00:01.000", "00:01.000 --> 00:00.999", "00:01.000 --> 00:00:01.000", "0000:00:01.000 --> 00:01.000",
        "99999:59:59.999 --> 99999:59:59.999", "99999:59:59.999 --> 00:00.000", "01:00:00.000 --> 59:59.999",
        /* 13 before 6 */
        "00:61.000 --> 100000:00:00.000", "100000:00:00.000 --> 00:61.000", "100000:00:00.000 --> 100001:00:00.000 ",
        "100000:00:00.000 -> 100001:00:00.000", "18446744073709551616:00:00.000-->00:02.000",
    };
    static const char *const above[] = {
        "00:01.000 --> 100000:00:00.000", "100000:00:00.000 --> 00:01.000", "100000:00:00.000 --> 100000:00:00.000",
        "100000:00:00.001 --> 100000:00:00.000", "99999:59:59.999 --> 100000:00:00.000",
        /* an end that wraps to one after the start, or a start to one before the end */
        "00:01.000 --> 18446744073709551616:00:02.000", "18446744073709551616:00:01.000 --> 00:02.000",
        "00:01.000 --> 5124095576031:00:00.000", "00:01.000 --> 4294967296:00:02.000",
    };
    size_t i;
    know_cue("00:01.000 --> 00:02.000", 1000, 2000);
    know_cue("00:01.000\t-->\t00:02.000", 1000, 2000);
    know_cue("00:01.000 \t  -->\t\t 00:02.000", 1000, 2000);
    know_cue("00:00.000 --> 00:00.001", 0, 1);
    know_cue("01:02.003 --> 00:01:02.004", 62003, 62004);
    know_cue("00:01:02.003 --> 01:02.004", 62003, 62004);
    know_cue("000000000000000000000000000000:01:02.003 --> 0000000000000000000000001:00:00.000", 62003, 3600000);
    know_cue("00:00.000 --> 99999:59:59.999", 0, OVENQUILL_LAST_POSITION);
    know_cue("1193:02:47.295 --> 1193:02:47.296", 4294967295, 4294967296);
    for (i = 0; i < COUNT(malformed); i++)
        know_refused_cue(malformed[i], OVENQUILL_MALFORMED_TIMING);
    for (i = 0; i < COUNT(above); i++)
        know_refused_cue(above[i], OVENQUILL_POSITION_OUT_OF_RANGE);
}

/* Texts that are held to plain.h */

/* Each number of two digits as minutes and as seconds, and each of three as decimals, after hours of every form and none. */
static void check_fields(void)
{
    static const char *const hours[] = {"", "00:", "59:", "99:", "100:", "0001:", "99999:", "100000:", "000000012345:"};
    char timestamp[80];
    size_t i;
    int n, m;
    for (i = 0; i < COUNT(hours); i++) {
        for (n = 0; n < 100; n++)
            for (m = 0; m < 100; m++) {
                snprintf(timestamp, sizeof timestamp, "%s%02d:%02d.%03d", hours[i], n, m, 10 * n + m % 10);
                try_string(timestamp);
            }
        for (n = 0; n < 1000; n++) {
            snprintf(timestamp, sizeof timestamp, "%s%02d:%02d.%03d", hours[i], n / 17, n % 60, n);
            try_timestamp(timestamp);
        }
    }
}

/* Right timestamps and lines of every form. */
static const char *const right_texts[] = {
    "00:00.000", "12:34.567", "59:59.999", "00:00:00.000", "01:23:45.678", "99:59:59.999", "100:00:00.000", "00012:34:56.789",
    "99999:59:59.999", "00000099999:59:59.999", "00:00.000 --> 00:00.001", "12:34.567\t-->\t23:45.678",
    "00:00:00.000 --> 99:59:59.999", "59:59.999 \t--> \t01:00:00.000", "01:00:00.000 --> 0099999:59:59.999",
    "09999:59:59.999  -->  10000:00:00.000",
};

/* Bytes that stand in timestamps and lines, and some that are like them. */
static const char likely[] = "0001234556699:::...--->> \t \t\n\r\v,;+/\xa0\xff";

static char likely_byte(void)
{
    return likely[random_within(0, (int64_t)sizeof likely - 2)];
}

/* Tries a text with other bytes in place of so many of its own. */
static void try_changed(const char *text, size_t place, size_t left_out, const char *put_in, size_t bytes)
{
    struct built changed = {"", 0};
    add_bytes(&changed, text, place);
    add_bytes(&changed, put_in, bytes);
    add(&changed, text + place + left_out);
    try_built(&changed);
}

/* At every place one byte left out, every byte in its stead, and every byte put in before it. */
static void check_damage(void)
{
    size_t i, place;
    int value;
    for (i = 0; i < COUNT(right_texts); i++) {
        const size_t length = strlen(right_texts[i]);
        try_string(right_texts[i]);
        for (place = 0; place <= length; place++) {
            const size_t damaged = place < length;
            try_changed(right_texts[i], place, damaged, "", 0);
            for (value = 0; value < 256; value++) {
                const char byte = (char)value;
                try_changed(right_texts[i], place, damaged, &byte, 1);
                try_changed(right_texts[i], place, 0, &byte, 1);
            }
        }
    }
}

/* Every length up to SHORT: likely bytes, right texts cut off at either end, and right texts followed by others. */
#define SHORT 40
static void check_lengths(void)
{
    size_t length, i, j;
    char text[SHORT];
    int round;
    for (length = 0; length <= SHORT; length++) {
        for (round = 0; round < 5000; round++) {
            for (i = 0; i < length; i++)
                text[i] = likely_byte();
            try_text(text, length);
        }
        for (i = 0; i < COUNT(right_texts); i++) {
            const size_t right_length = strlen(right_texts[i]);
            if (length <= right_length) {
                try_text(right_texts[i], length);
                try_string(right_texts[i] + length);
            }
            for (j = 0; j < COUNT(right_texts); j++)
                if (length <= strlen(right_texts[j]))
                    try_changed(right_texts[i], right_length, 0, right_texts[j], length);
        }
    }
}

/* Several bytes of a right text damaged by likely ones. */
static void check_much_damage(void)
{
    long round;
    int damaged;
    for (round = 0; round < 700000; round++) {
        struct built text = {"", 0};
        add(&text, right_texts[(size_t)round % COUNT(right_texts)]);
        for (damaged = (int)random_within(2, 4); damaged > 0; damaged--)
            text.bytes[random_within(0, (int64_t)text.length - 1)] = likely_byte();
        try_built(&text);
    }
}

/* Hours of up to 200 digits: one digit over and over and then others, and any digits, also with a byte that is none. */
static void check_hours(void)
{
    static const char *const last_digits[] = {"", "1", "42", "12345", "99999", "100000", "4294967296", "18446744073709551616"};
    size_t digits, i, j;
    for (digits = 1; digits <= 200; digits++) {
        for (i = 0; i < COUNT(last_digits) && strlen(last_digits[i]) <= digits; i++)
            for (j = 0; j < 3; j++) {
                const size_t times = digits - strlen(last_digits[i]);
                struct built back = {"", 0};
                add(&back, last_digits[i]);
                add(&back, ":59:59.999");
                try_filled("", "019"[j], times, back.bytes);
                try_filled("00:00.000 --> ", "019"[j], times, back.bytes);
                add(&back, " --> 99999:59:59.999");
                try_filled("", "019"[j], times, back.bytes);
            }
        for (i = 0; i < 20; i++) {
            struct built text = {"", 0};
            for (j = 0; j < digits; j++)
                add_bytes(&text, &"0123456789"[j < digits * i / 20 ? 0 : random_within(0, 9)], 1);
            add(&text, ":12:34.567");
            try_timestamp(text.bytes);
            text.bytes[random_within(0, (int64_t)digits - 1)] = likely_byte();
            try_timestamp(text.bytes);
        }
    }
}

/* Hours of up to 200 digits, all but one of them zeros. */
static void check_one_digit(void)
{
    size_t digits, place, i;
    for (digits = 1; digits <= 200; digits++)
        for (place = 0; place < digits; place++)
            for (i = 0; i < 3; i++) {
                struct built text = {"", 0};
                add_times(&text, '0', digits);
                text.bytes[place] = i == 0 ? '1' : i == 1 ? '9' : "2345678"[random_within(0, 6)];
                add(&text, ":12:34.567");
                try_timestamp(text.bytes);
            }
}

/* Hours of one digit and so many zeros: such a timestamp, and lines that start and end with it, are refused with 6. */
static void know_zeros_behind(char digit, size_t zeros)
{
    static const char line_end[] = " --> 00:02.000", line_start[] = "00:01.000 --> ";
    char *text = (char *)malloc(zeros + 80), *timestamp = text + strlen(line_start);
    const long before = failures;
    memcpy(text, line_start, strlen(line_start));
    sprintf(timestamp, "%c%0*d:00:00.000", digit, (int)zeros, 0);
    same("one digit and zeros", (int64_t)zeros, read_position(timestamp), OVENQUILL_POSITION_OUT_OF_RANGE);
    show_failed_text(before, timestamp, strlen(timestamp));
    try_string(timestamp);
    know_refused_cue(text, OVENQUILL_POSITION_OUT_OF_RANGE);
    strcat(timestamp, line_end);
    know_refused_cue(timestamp, OVENQUILL_POSITION_OUT_OF_RANGE);
    /* 13 before 6 */
    timestamp[1 + zeros + 1] = '6';
    know_refused_cue(timestamp, OVENQUILL_MALFORMED_TIMING);
    free(text);
}

/* One digit in front of zeros of every count from 200 to 600, and of many more. */
static void check_one_far_digit(void)
{
    static const size_t many[] = {1023, 1024, 1025, 4095, 4096, 4097, 10000, 32767, 32768, 65530, 65535, 65536, 65537, 70000};
    size_t zeros, i;
    for (zeros = 200; zeros <= 600; zeros++)
        know_zeros_behind("123456789"[zeros % 9], zeros);
    for (i = 0; i < COUNT(many); i++) {
        know_zeros_behind('1', many[i]);
        know_zeros_behind('9', many[i]);
    }
}

/* Up to five blanks on either side of the arrow, each a space or a tab: the bits of a number below its highest one. */
static void check_blanks(void)
{
    static const char *const arrows[] = {"-->", "->", "--->", "-- >", "--", ">", "", "- ->", "-->-->", "=->"};
    size_t i;
    int before, after, bits;
    for (before = 1; before < 64; before++)
        for (after = 1; after < 64; after++)
            for (i = 0; i < (before < 4 && after < 4 ? COUNT(arrows) : 1); i++) {
                struct built between = {"", 0};
                for (bits = before; bits > 1; bits /= 2)
                    add(&between, bits % 2 == 0 ? " " : "\t");
                add(&between, arrows[i]);
                for (bits = after; bits > 1; bits /= 2)
                    add(&between, bits % 2 == 0 ? " " : "\t");
                try_line("00:01.000", between.bytes, "00:02.000");
                try_line("00:00:01.000", between.bytes, "100:00:02.000");
                try_line("", between.bytes, "00:02.000");
                try_line("00:01.000", between.bytes, "");
            }
}

/* Puts that many spaces and tabs: in turn, a tab amid spaces, a space amid tabs, or, by any other pattern, at random. */
static void put_blanks(char *bytes, size_t count, int pattern)
{
    const size_t odd = (size_t)random_within(0, (int64_t)count - 1);
    size_t i;
    for (i = 0; i < count; i++) {
        const size_t tab = pattern == 0 ? i % 2 : pattern == 1 ? i == odd : pattern == 2 ? i != odd : (size_t)random_within(0, 1);
        bytes[i] = " \t"[tab];
    }
}

static void add_blanks(struct built *text, size_t count, int pattern)
{
    put_blanks(text->bytes + text->length, count, pattern);
    text->length += count;
}

/* Up to 100 blanks on either side of the arrow, of every pattern, as they are and with a byte of them damaged. */
static void check_many_blanks(void)
{
    size_t blanks, i;
    int pattern;
    for (blanks = 1; blanks <= 100; blanks++)
        for (pattern = 0; pattern < 40; pattern++) {
            const size_t few = (size_t)random_within(1, 100);
            const size_t counts[][2] = {{blanks, 1}, {1, blanks}, {blanks, few}, {few, blanks}};
            for (i = 0; i < COUNT(counts); i++) {
                struct built line = {"", 0}, before, behind;
                size_t arrow;
                add(&line, pattern % 3 == 0 ? "00:00:01.000" : "00:01.000");
                add_blanks(&line, counts[i][0], pattern);
                arrow = line.length;
                add(&line, "-->");
                add_blanks(&line, counts[i][1], pattern);
                add(&line, pattern % 4 == 0 ? "100:00:02.000" : "00:02.000");
                try_built(&line);
                before = line, behind = line;
                before.bytes[arrow - (size_t)random_within(1, (int64_t)counts[i][0])] = likely_byte();
                behind.bytes[arrow + 2 + (size_t)random_within(1, (int64_t)counts[i][1])] = likely_byte();
                try_built(&before);
                try_built(&behind);
            }
        }
}

/* A right line with so many blanks before the arrow and behind it is read as it is, and not with one of them damaged. */
static void know_blanks(size_t before, size_t behind, int pattern)
{
    static const char start[] = "00:01.000", arrow[] = "-->", end[] = "00:02.000";
    char *line = (char *)malloc(sizeof start + before + sizeof arrow + behind + sizeof end), *next = line;
    char *damaged;
    memcpy(next, start, strlen(start));
    next += strlen(start);
    damaged = next + random_within(0, (int64_t)before - 1);
    put_blanks(next, before, pattern);
    next += before;
    memcpy(next, arrow, strlen(arrow));
    next += strlen(arrow);
    if (pattern % 2 == 0)
        damaged = next + random_within(0, (int64_t)behind - 1);
    put_blanks(next, behind, pattern);
    strcpy(next + behind, end);
    know_cue(line, 1000, 2000);
    *damaged = "\n\r\v0-_\xa0"[random_within(0, 6)];
    know_refused_cue(line, OVENQUILL_MALFORMED_TIMING);
    free(line);
}

/* From 101 to some thousands of blanks, of every pattern, on one side of the arrow or on both. */
static void check_thousands_of_blanks(void)
{
    static const size_t many[] = {511, 512, 513, 1000, 1023, 1024, 1025, 2047, 2048, 2049, 4095, 4096, 4097, 5000};
    size_t blanks, i;
    int pattern;
    for (pattern = 0; pattern < 6; pattern++) {
        for (blanks = 101; blanks <= 300; blanks++) {
            know_blanks(blanks, 1, pattern);
            know_blanks(1, blanks, pattern);
            know_blanks(blanks, (size_t)random_within(1, 300), pattern);
        }
        for (i = 0; i < COUNT(many); i++) {
            know_blanks(many[i], 1, pattern);
            know_blanks(1, many[i], pattern);
            know_blanks(many[i], many[random_within(0, (int64_t)COUNT(many) - 1)], pattern);
        }
    }
}

/* Right lines whose hours or blanks are up to 100, one of them or all, with blanks, line endings and others before and behind. */
static void check_around_long_lines(void)
{
    static const char *const around[] = {"", " ", "\t", "\n", "\r", "\r\n", "\v", " \t", "0", ":", "-", "\xa0"};
    size_t many, part, i;
    for (many = 1; many <= 100; many++)
        for (part = 0; part < 5; part++)
            for (i = 0; i < COUNT(around); i++) {
                struct built line = {"", 0}, text = {"", 0};
                add_times(&line, '0', part == 0 || part == 4 ? many : 1);
                add(&line, "1:01:02.003");
                add_blanks(&line, part == 1 || part == 4 ? many : 1, 3);
                add(&line, "-->");
                add_blanks(&line, part == 2 || part == 4 ? many : 1, 3);
                add_times(&line, '0', part == 3 || part == 4 ? many : 1);
                add(&line, "99999:59:59.999");
                add(&text, around[i]);
                add(&text, line.bytes);
                try_built(&text);
                add(&line, around[i]);
                try_built(&line);
            }
}

/* Other white space and other bytes at every place where a blank may or may not stand, alone and beside a space. */
static void check_other_blanks(void)
{
    static const char *const blanks[] = {"\n", "\r", "\r\n", "\v", "\f", "\b", "\x7f", "\x85", "\xa0", "\xc2\xa0", "_", "0",
                                         "\xe2\x80\x89", "\xe3\x80\x80", "&nbsp;", ":", "-", ">"};
    static const size_t places[] = {0, 9, 10, 13, 14, 23};
    static const char line[] = "00:01.000 --> 00:02.000";
    size_t i, j;
    for (j = 0; j < COUNT(places); j++) {
        for (i = 0; i < COUNT(blanks); i++) {
            try_changed(line, places[j], 0, blanks[i], strlen(blanks[i]));
            if (line[places[j]] == ' ')
                try_changed(line, places[j], 1, blanks[i], strlen(blanks[i]));
        }
        try_changed(line, places[j], 0, "\0", 1);
    }
}

/* Any two of timestamps that are right, of a wrong shape or above the limit, as start and end. */
static void check_pairs(void)
{
    static const char *const timestamps[] = {
        "00:00.000", "00:00.001", "00:01.000", "00:00:01.000", "0000:00:01.000", "59:59.999", "01:00:00.000", "99:59:59.999",
        "100:00:00.000", "1193:02:47.296", "99999:59:59.998", "99999:59:59.999", "0099999:59:59.999", "100000:00:00.000",
        "100000:00:00.001", "4294967296:00:00.500", "5124095576031:00:00.000", "18446744073709551616:00:00.500",
        "00:60.000", "60:00.000", "0:00:01.000", "00:00:60.000", "100000:60:00.000", "00:01.00", "00:01.0000", "00:01,000", "",
        "1", "00:01.000\t", " 00:01.000",
    };
    size_t i, j;
    for (i = 0; i < COUNT(timestamps); i++)
        for (j = 0; j < COUNT(timestamps); j++) {
            try_line(timestamps[i], " --> ", timestamps[j]);
            try_line(timestamps[i], "\t -->\t", timestamps[j]);
            try_line(timestamps[i], "-->", timestamps[j]);
        }
}

/* Every line of up to five of some pieces. */
static void check_pieces(void)
{
    static const char *const pieces[] = {"00:01.000", "00:02.000", "00:00:03.000", "100000:00:00.000", "0:04.000", " ", "\t",
                                         "-->", "->", "\n"};
    size_t lines = 1, count, n, rest, i;
    for (count = 0; count <= 5; count++) {
        for (n = 0; n < lines; n++) {
            struct built line = {"", 0};
            for (i = 0, rest = n; i < count; i++, rest /= COUNT(pieces))
                add(&line, pieces[rest % COUNT(pieces)]);
            try_built(&line);
        }
        lines *= COUNT(pieces);
    }
}

/* What is written is read back, the label alone and on a line. */
static void check_written(void)
{
    uint8_t label[OVENQUILL_POSITION_LABEL_MAX_BYTES];
    char start[80], end[80];
    int64_t round;
    for (round = 0; round < 50000; round++) {
        const int64_t position = random_within(0, OVENQUILL_LAST_POSITION >> round % 38);
        const int64_t other = round % 4 == 0 ? position + random_within(-1, 1) : random_within(0, OVENQUILL_LAST_POSITION);
        const int64_t bytes = ovenquill_write_position(position, label, sizeof label);
        same("a written position read back", position, ovenquill_read_position(label, (size_t)bytes), position);
        if (position < 3600000)
            same("the same without hours", position, ovenquill_read_position(label + 3, (size_t)bytes - 3), position);
        if (other >= 0 && other <= OVENQUILL_LAST_POSITION) {
            start[plain_write_position(position, (uint8_t *)start, sizeof start)] = '\0';
            end[plain_write_position(other, (uint8_t *)end, sizeof end)] = '\0';
            try_line(start, " --> ", end);
        }
    }
}

/* Long texts, whose lengths no byte and no 16 bits hold: hours, blanks and arrows. */
static void check_long(void)
{
    static const size_t times[] = {255, 256, 257, 300, 65535, 65536, 65537, 1000000};
    size_t i;
    for (i = 0; i < COUNT(times); i++) {
        try_filled("", '0', times[i], ":59:59.999");
        try_filled("", '0', times[i], "99999:59:59.999");
        try_filled("", '0', times[i], "100000:00:00.000");
        try_filled("", '9', times[i], ":00:00.000");
        try_filled("", '9', times[i], ":60:00.000");
        try_filled("", '9', times[i], "");
        try_filled("", ':', times[i], "00:00.000");
        try_filled("00:00.", '0', times[i], "");
        try_filled("", '0', times[i], ":00:01.000 --> 00:02.000");
        try_filled("", '9', times[i], ":00:01.000 --> 00:02.000");
        try_filled("00:01.000 --> ", '0', times[i], ":00:02.000");
        try_filled("00:01.000 --> ", '9', times[i], ":00:02.000");
        try_filled("00:01.000", ' ', times[i], "--> 00:02.000");
        try_filled("00:01.000 -->", '\t', times[i], "00:02.000");
        try_filled("00:01.000 -->", '\t', times[i], "00:01.000");
        try_filled("00:01.000 --> 00:02.000", ' ', times[i], "");
        try_filled("", ' ', times[i], "00:01.000 --> 00:02.000");
        try_filled("00:01.000 ", '-', times[i], "> 00:02.000");
    }
}

int main(int argc, char **argv)
{
    step = argc > 1 ? atoi(argv[1]) : 1;
    check_known_positions();
    check_known_lines();
    check_fields();
    check_damage();
    check_much_damage();
    check_lengths();
    check_hours();
    check_one_digit();
    check_one_far_digit();
    check_blanks();
    check_many_blanks();
    check_thousands_of_blanks();
    check_around_long_lines();
    check_other_blanks();
    check_pairs();
    check_pieces();
    check_written();
    check_long();
    return finish("timestamps and cue lines");
}
