/*
 * Answers the questions about sheets that tests/test_sheets.py puts to standard input, with what the library answers and leaves.
 * A question is a letter and its parts: R, the length of a sheet, and the sheet; or W, the length of a note, the count of numbers,
 * the length of a buffer, the note, and the numbers. Lengths, counts and numbers are uint32_t, and what is answered is int64_t,
 * both as the machine has them. Compiled as C and as C++.
 */
#include <stdio.h>
#include <stdlib.h>
#include <string.h>

#include "ovenquill.h"

/* What a place holds that a call leaves as it was, and each byte of a buffer. */
#define UNCHANGED 77

static void write_number(int64_t number)
{
    fwrite(&number, sizeof number, 1, stdout);
}

/* A block of exactly so many bytes, read from standard input. */
static void *read_block(size_t bytes)
{
    void *block = malloc(bytes);
    if (bytes != 0 && (block == NULL || fread(block, 1, bytes, stdin) != bytes)) {
        fprintf(stderr, "answer_sheets: a question is cut off\n");
        exit(1);
    }
    return block;
}

static size_t read_length(void)
{
    uint32_t *number = (uint32_t *)read_block(sizeof *number);
    const size_t length = *number;
    free(number);
    return length;
}

/* The answers about the record at a place: that of the reader with eight numbers, and that of the check with the least n. */
static void answer_place(const uint8_t *sheet, size_t length, int64_t place)
{
    ovenquill_record record = {UNCHANGED, UNCHANGED, UNCHANGED, UNCHANGED, UNCHANGED, UNCHANGED, UNCHANGED, UNCHANGED};
    int64_t least = UNCHANGED;
    write_number(ovenquill_sheet_record(sheet, length, place, &record));
    fwrite(&record, sizeof record, 1, stdout);
    write_number(ovenquill_sheet_check(sheet, length, place, &least));
    write_number(least);
}

/* The answer in a buffer of a length, and then the whole buffer. */
static void answer_report(const uint8_t *sheet, size_t length, size_t out_length)
{
    uint8_t *out = (uint8_t *)malloc(out_length);
    if (out_length != 0)
        memset(out, UNCHANGED, out_length);
    write_number(ovenquill_sheet_report(sheet, length, out, out_length));
    fwrite(out, 1, out_length, stdout);
    free(out);
}

/* The records and the note's length, every place with one beside each end, and the report in buffers too short, as long, longer. */
static void answer_reading(void)
{
    const size_t length = read_length();
    uint8_t *sheet = (uint8_t *)read_block(length), *text = (uint8_t *)malloc(OVENQUILL_SHEET_REPORT_MAX_BYTES);
    int64_t note_length = UNCHANGED, place, bytes;
    const int64_t records = ovenquill_sheet_read(sheet, length, &note_length);
    write_number(records);
    write_number(note_length);
    for (place = -1; place < 1 || place <= records; place++)
        answer_place(sheet, length, place);
    bytes = ovenquill_sheet_report(sheet, length, text, OVENQUILL_SHEET_REPORT_MAX_BYTES);
    write_number(bytes);
    if (bytes > 0)
        answer_report(sheet, length, (size_t)bytes - 1);
    if (bytes >= 0) {
        answer_report(sheet, length, (size_t)bytes);
        answer_report(sheet, length, (size_t)bytes + 9);
    }
    free(sheet);
    free(text);
}

/* The answer of the writer, and then the whole buffer. */
static void answer_writing(void)
{
    const size_t note_length = read_length(), count = read_length(), length = read_length();
    uint8_t *note = (uint8_t *)read_block(note_length);
    uint32_t *numbers = (uint32_t *)read_block(count * sizeof *numbers);
    uint8_t *out = (uint8_t *)malloc(length);
    if (length != 0)
        memset(out, UNCHANGED, length);
    write_number(ovenquill_sheet_write(note, note_length, numbers, count, out, length));
    fwrite(out, 1, length, stdout);
    free(note);
    free(numbers);
    free(out);
}

int main(void)
{
    int letter;
    while ((letter = getchar()) != EOF) {
        if (letter == 'R')
            answer_reading();
        else if (letter == 'W')
            answer_writing();
        else {
            fprintf(stderr, "answer_sheets: no question begins with byte %d\n", letter);
            return 1;
        }
    }
    return fflush(stdout) != 0 || ferror(stdout) || ferror(stdin);
}
