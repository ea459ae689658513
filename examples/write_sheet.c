/*
 * Writes a sheet of claims, for check_sheet to check.
 *
 *     write_sheet [NOTE] < LINES > SHEET
 *
 * Each line of standard input is a record: eight whole numbers, a b d m c k t bound, each 0 to 4294967295, with blanks between
 * them; empty lines are passed over. The note is the argument, or nothing. Whether a claim is right, or within its limits, is for
 * check_sheet to say. The sheet goes to standard output, and only where every line is a record: a wrong line gets a message with
 * its number on standard error. The exit status is 0 where the sheet was written, and 1 where it was not.
 */
#include <inttypes.h>
#include <stdio.h>
#include <string.h>

#include "ovenquill.h"
#include "read_line.h"

static const char digits[] = "0123456789";

static const char *const names[OVENQUILL_SHEET_RECORD_NUMBERS] = {"a", "b", "d", "m", "c", "k", "t", "bound"};

/* Begins a message about a line. */
static void begin_message(long line_number)
{
    fprintf(stderr, "write_sheet: line %ld: ", line_number);
}

static size_t count_words(const char *text)
{
    size_t count = 0;
    for (text += strspn(text, blanks); *text != '\0'; text += strspn(text, blanks)) {
        text += strcspn(text, blanks);
        count++;
    }
    return count;
}

/* Reads a word of decimal digits; answers 0 where it has another byte or is too large for 32 bits. */
static int read_number(const char *word, size_t length, uint32_t *number)
{
    uint64_t value = 0;
    if (strspn(word, digits) < length)
        return 0;
    for (size_t i = 0; i < length; i++) {
        value = 10 * value + (uint64_t)(word[i] - '0');
        if (value > UINT32_MAX)
            return 0;
    }
    *number = (uint32_t)value;
    return 1;
}

/* Reads the numbers of a record from a line that is not empty; answers 0, and says what is wrong, where it is none. */
static int read_record(const char *text, long line_number, uint32_t *record)
{
    size_t count = count_words(text);
    if (count != OVENQUILL_SHEET_RECORD_NUMBERS) {
        begin_message(line_number);
        fprintf(stderr, "%zu number%s, expected are %d: a b d m c k t bound\n", count, count == 1 ? "" : "s",
                OVENQUILL_SHEET_RECORD_NUMBERS);
        return 0;
    }
    for (size_t i = 0; i < OVENQUILL_SHEET_RECORD_NUMBERS; i++) {
        text += strspn(text, blanks);
        size_t length = strcspn(text, blanks);
        if (!read_number(text, length, &record[i])) {
            begin_message(line_number);
            fprintf(stderr, "%s is \"%.*s\", expected is a whole number, 0 to %" PRIu32 "\n", names[i], (int)length, text,
                    UINT32_MAX);
            return 0;
        }
        text += length;
    }
    return 1;
}

/* The numbers of a sheet, eight to a record, and whether there are more than it may have. */
struct records {
    uint32_t numbers[OVENQUILL_SHEET_MAX_RECORDS * OVENQUILL_SHEET_RECORD_NUMBERS];
    size_t count;
    int too_many;
};

/* Takes a line into the records; answers 0, and says what is wrong, where it is none. */
static int take_line(const struct line *line, long line_number, struct records *records)
{
    if (line->length >= sizeof line->text) {
        begin_message(line_number);
        fprintf(stderr, "more than %zu bytes are no record\n", sizeof line->text - 1);
        return 0;
    }
    if (line->has_zero_byte) {
        begin_message(line_number);
        fprintf(stderr, "a zero byte is in no record\n");
        return 0;
    }
    if (line->text[strspn(line->text, blanks)] == '\0')
        return 1;
    uint32_t record[OVENQUILL_SHEET_RECORD_NUMBERS];
    if (!read_record(line->text, line_number, record))
        return 0;
    if (records->count == sizeof records->numbers / sizeof *records->numbers) {
        if (!records->too_many) {
            begin_message(line_number);
            fprintf(stderr, "one record too many, a sheet has at most %d\n", OVENQUILL_SHEET_MAX_RECORDS);
        }
        records->too_many = 1;
        return 0;
    }
    memcpy(records->numbers + records->count, record, sizeof record);
    records->count += OVENQUILL_SHEET_RECORD_NUMBERS;
    return 1;
}

/* Reads the records of a stream; answers 0 where a line is none, or where not everything could be read. */
static int read_records(FILE *in, struct records *records)
{
    struct line line;
    int all_right = 1;
    records->count = 0;
    records->too_many = 0;
    for (long number = 1; read_line(in, &line); number++)
        all_right &= take_line(&line, number, records);
    if (ferror(in)) {
        perror("write_sheet: standard input");
        return 0;
    }
    return all_right;
}

/* Writes the sheet to standard output; answers 0, and says why, where it cannot be. */
static int write_sheet(const char *note, const struct records *records)
{
    static uint8_t sheet[OVENQUILL_SHEET_MAX_BYTES];
    size_t note_length = strlen(note);
    int64_t written = ovenquill_sheet_write((const uint8_t *)note, note_length, records->numbers, records->count, sheet,
                                            sizeof sheet);
    if (written < 0) {
        fprintf(stderr, "write_sheet: refused (%" PRId64 "): %s\n", -written, ovenquill_refusal_text(written));
        fprintf(stderr, "write_sheet: bytes of the note: %zu, of the records: %zu, of the trailer: %d; a sheet has at most %d in all\n",
                note_length, records->count * sizeof *records->numbers, OVENQUILL_SHEET_TRAILER_BYTES, OVENQUILL_SHEET_MAX_BYTES);
        return 0;
    }
    fwrite(sheet, 1, (size_t)written, stdout);
    return 1;
}

/* Closes standard output; answers 0 where not everything could be written to it. */
static int close_output(void)
{
    int failed = ferror(stdout);
    if (fclose(stdout) != 0 || failed) {
        fprintf(stderr, "write_sheet: not everything could be written to standard output\n");
        return 0;
    }
    return 1;
}

static void print_usage(FILE *out)
{
    fprintf(out, "usage: write_sheet [NOTE] < LINES > SHEET\n"
                 "Each line has the eight numbers of a record: a b d m c k t bound, each 0 to %" PRIu32 ".\n"
                 "For instance: echo 1 0 10 26 0 8 0 69 | write_sheet | check_sheet\n",
            UINT32_MAX);
}

int main(int argc, char **argv)
{
    static struct records records;
    int done = 0;
    if (argc == 2 && strcmp(argv[1], "--help") == 0) {
        print_usage(stdout);
        done = 1;
    } else if (argc > 2) {
        print_usage(stderr);
    } else if (read_records(stdin, &records)) {
        done = write_sheet(argc == 2 ? argv[1] : "", &records);
    }
    return close_output() && done ? 0 : 1;
}
