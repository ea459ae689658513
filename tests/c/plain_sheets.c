/* Sheets of claims: change request Nine. A sheet is known by trying every number of records. */
#include <stdio.h>
#include <string.h>

#include "plain.h"

#define NUMBER 4
#define RECORD (8 * NUMBER)
#define TRAILER (3 * NUMBER)

/* A line of the report is shorter. */
#define LINE 80

/* Bytes that are put one behind the other, and how many there would be in all; those that find no room are only counted. */
struct text {
    uint8_t *bytes;
    size_t room, length;
};

static void put(struct text *text, uint8_t byte)
{
    if (text->length < text->room)
        text->bytes[text->length] = byte;
    text->length++;
}

/* "All numbers are little-endian u32." */
static void put_number(struct text *text, size_t number)
{
    int i;
    for (i = 0; i < NUMBER; i++) {
        put(text, (uint8_t)(number % 256));
        number /= 256;
    }
}

/* "Offset of the first record, number of records, length of the whole file." */
static void put_trailer(struct text *text, size_t first, size_t records)
{
    put_number(text, first);
    put_number(text, records);
    put_number(text, first + records * RECORD + TRAILER);
}

/* Whether bytes end as a sheet does that has so many records behind so many bytes. */
static int ends_with(const uint8_t *sheet, size_t first, size_t records)
{
    uint8_t trailer[TRAILER];
    struct text right = {trailer, TRAILER, 0};
    put_trailer(&right, first, records);
    return memcmp(sheet + first + records * RECORD, trailer, TRAILER) == 0;
}

int64_t plain_sheet_read(const uint8_t *sheet, size_t length, int64_t *note_length)
{
    size_t records;
    if (length > PAPER_SHEET_BYTES)
        return -17;
    for (records = 0; records <= PAPER_SHEET_RECORDS && records * RECORD + TRAILER <= length; records++) {
        const size_t first = length - TRAILER - records * RECORD;
        if (ends_with(sheet, first, records)) {
            *note_length = (int64_t)first;
            return (int64_t)records;
        }
    }
    return -17;
}

int64_t plain_sheet_record(const uint8_t *sheet, size_t length, int64_t place, int64_t *record)
{
    int64_t first;
    int i, j;
    if (outside(0, plain_sheet_read(sheet, length, &first) - 1, place))
        return -17;
    sheet += first + place * RECORD;
    for (i = 0; i < 8; i++) {
        record[i] = 0;
        for (j = NUMBER - 1; j >= 0; j--)
            record[i] = record[i] * 256 + sheet[i * NUMBER + j];
    }
    return 0;
}

int64_t plain_sheet_check(const uint8_t *sheet, size_t length, int64_t place, int64_t *least)
{
    int64_t r[8];
    struct constants q;
    if (plain_sheet_record(sheet, length, place, r) != 0)
        return -17;
    q.a = r[0], q.b = r[1], q.d = r[2], q.m = r[3], q.c = r[4], q.k = r[5], q.t = r[6];
    return plain_check_bound(q, r[7], least);
}

int64_t plain_sheet_write(const uint8_t *note, size_t note_length, const uint32_t *numbers, size_t count, uint8_t *out,
                          size_t length)
{
    static uint8_t whole[PAPER_SHEET_BYTES];
    struct text sheet = {whole, sizeof whole, 0};
    size_t i, records = 0;
    if (note_length > PAPER_SHEET_BYTES)
        return -17;
    for (i = 0; i < note_length; i++)
        put(&sheet, note[i]);
    for (; count >= 8 && records <= PAPER_SHEET_RECORDS; count -= 8, records++)
        for (i = 0; i < 8; i++)
            put_number(&sheet, *numbers++);
    put_trailer(&sheet, note_length, records);
    if (count != 0 || records > PAPER_SHEET_RECORDS || sheet.length > PAPER_SHEET_BYTES)
        return -17;
    if (length < sheet.length)
        return -7;
    memcpy(out, whole, sheet.length);
    return (int64_t)sheet.length;
}

/* A line of the report, without its newline. */
static void print_verdict(char *line, int64_t place, int64_t answer, int64_t least)
{
    if (answer == 0)
        snprintf(line, LINE, "%d accepted", (int)place);
    else if (answer == -10)
        snprintf(line, LINE, "%d 10 %lld", (int)place, (long long)least);
    else
        snprintf(line, LINE, "%d %d", (int)place, (int)-answer);
}

static void put_line(struct text *text, const char *line)
{
    while (*line != '\0')
        put(text, (uint8_t)*line++);
    put(text, '\n');
}

int64_t plain_sheet_report(const uint8_t *sheet, size_t length, uint8_t *out, size_t out_length)
{
    static uint8_t whole[PAPER_SHEET_RECORDS * LINE];
    struct text report = {whole, sizeof whole, 0};
    int64_t first, place, least = 0;
    const int64_t records = plain_sheet_read(sheet, length, &first);
    if (records < 0)
        put_line(&report, "17");
    for (place = 0; place < records; place++) {
        char line[LINE];
        const int64_t answer = plain_sheet_check(sheet, length, place, &least);
        print_verdict(line, place, answer, least);
        put_line(&report, line);
    }
    if (out_length < report.length)
        return -7;
    if (report.length > 0)
        memcpy(out, whole, report.length);
    return (int64_t)report.length;
}
