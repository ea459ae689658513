/*
 * Lengths that 32 bits do not hold, for the calls that take one and do not look at every element, as the readers of timestamps and of
 * cue lines do: what they answer and leave at the front. What is lent is addresses that, but for the front, have no memory behind them.
 * Where the machine has not so many to give, nothing is tried. Compiled as C and as C++.
 */
#ifndef _DEFAULT_SOURCE
#define _DEFAULT_SOURCE /* for MAP_ANONYMOUS and MAP_NORESERVE in C99 */
#endif
#include <stdlib.h>
#include <string.h>
#include <sys/mman.h>

#include "checks.h"
#include "ovenquill.h"
#include "plain.h"

/* 2^32 elements and a page, of four bytes each. */
#define BEYOND_32_BITS ((size_t)1 << 32)
#define PAGE ((size_t)4096)
#define MAPPED_BYTES (4 * (BEYOND_32_BITS + PAGE))

/* So much of the front is held to what it must be. */
#define FRONT 64

static uint8_t *mapped;

/* Lengths that are nothing, a label or some other small number modulo 2^32. */
static const size_t more[] = {0, 1, 9, OVENQUILL_WEEK_LABEL_BYTES, OVENQUILL_POSITION_LABEL_MIN_BYTES, 14,
                              OVENQUILL_POSITION_LABEL_MAX_BYTES, 23, OVENQUILL_INSTANT_LABEL_BYTES, 25, FRONT, PAGE};

typedef int64_t writer(int64_t number, uint8_t *out, size_t length);

static void try_writer(const char *what, writer *call, writer *plain_call, int64_t number)
{
    size_t i;
    for (i = 0; i < COUNT(more); i++) {
        uint8_t right[FRONT];
        memset(mapped, '?', FRONT);
        memset(right, '?', FRONT);
        same(what, number, call(number, mapped, BEYOND_32_BITS + more[i]), plain_call(number, right, FRONT));
        same(what, number, memcmp(mapped, right, FRONT), 0);
    }
}

static void check_writers(void)
{
    static const int64_t instants[] = {-1, PAPER_FIRST_LABEL_INSTANT, PAPER_LAST_LABEL_INSTANT, OVENQUILL_LAST_INSTANT,
                                       OVENQUILL_LAST_INSTANT + 1};
    static const int64_t days[] = {-1, PAPER_FIRST_LABEL_DAY, PAPER_LAST_LABEL_DAY, OVENQUILL_LAST_COUNT, OVENQUILL_LAST_COUNT + 1};
    static const int64_t positions[] = {-1, 0, 4287767296, OVENQUILL_LAST_POSITION, OVENQUILL_LAST_POSITION + 1};
    size_t i;
    for (i = 0; i < COUNT(instants); i++)
        try_writer("write instant", ovenquill_write_instant, plain_write_instant, instants[i]);
    for (i = 0; i < COUNT(days); i++)
        try_writer("write week", ovenquill_write_week, plain_write_week, days[i]);
    for (i = 0; i < COUNT(positions); i++)
        try_writer("write position", ovenquill_write_position, plain_write_position, positions[i]);
}

/* A label that is right alone is refused with bytes behind it. */
static void try_readers(const char *label)
{
    const int64_t bytes = (int64_t)strlen(label);
    size_t i;
    memset(mapped, 0, FRONT);
    memcpy(mapped, label, (size_t)bytes);
    for (i = 0; i < COUNT(more); i++) {
        int64_t instant = -1, days = -1;
        same("read instant", bytes, ovenquill_read_instant(mapped, BEYOND_32_BITS + more[i], &instant), OVENQUILL_MALFORMED_LABEL);
        same("instant", bytes, instant, -1);
        same("read week", bytes, ovenquill_read_week(mapped, BEYOND_32_BITS + more[i], &days), OVENQUILL_MALFORMED_LABEL);
        same("days", bytes, days, -1);
    }
}

static void check_readers(void)
{
    try_readers("2023-05-10T14:30:00.000Z");
    try_readers("2023-W19-3");
}

/* Lists whose lengths lie 2^32 apart, of which the second is the longer; for the first there would have to be twice the addresses. */
static void check_index(void)
{
    static const int64_t instants[] = {-1, 0, 86399999, 86400000};
    static const int32_t none[COUNT(instants)] = {0, 0, 0, 0};
    size_t count;
    memset(mapped, 0, FRONT);
    for (count = 0; count <= COUNT(instants); count++) {
        int64_t place = -1;
        same("index days", (int64_t)count, ovenquill_index_days(instants, count, (int32_t *)mapped, BEYOND_32_BITS + count, &place),
             OVENQUILL_UNEQUAL_LENGTHS);
        same("place", (int64_t)count, place, -1);
        same("days", (int64_t)count, memcmp(mapped, none, sizeof none), 0);
    }
}

/* A sheet of one record, which fits the front, and its report. */
static const uint32_t tenth[] = {1, 0, 10, 26, 0, 8, 0, 100};
#define SHEET (OVENQUILL_SHEET_RECORD_BYTES + OVENQUILL_SHEET_TRAILER_BYTES)

/* Lengths that are modulo 2^32 that of the sheet at the front, which has no records. */
static void check_huge_sheets(void)
{
    static uint8_t note[PAGE];
    size_t i;
    for (i = 0; i < COUNT(more); i++) {
        const size_t length = BEYOND_32_BITS + more[i];
        const int64_t input = (int64_t)more[i];
        ovenquill_record record = {-1, -1, -1, -1, -1, -1, -1, -1};
        int64_t note_length = -1, least = -1;
        uint8_t text[4] = {'?', '?', '?', '?'};
        if (more[i] >= OVENQUILL_SHEET_TRAILER_BYTES)
            plain_sheet_write(note, more[i] - OVENQUILL_SHEET_TRAILER_BYTES, NULL, 0, mapped, more[i]);
        same("read sheet", input, ovenquill_sheet_read(mapped, length, &note_length), OVENQUILL_MALFORMED_SHEET);
        same("note length", input, note_length, -1);
        same("record", input, ovenquill_sheet_record(mapped, length, 0, &record), OVENQUILL_MALFORMED_SHEET);
        same("record", input, record.a == -1 && record.bound == -1, 1);
        same("check record", input, ovenquill_sheet_check(mapped, length, 0, &least), OVENQUILL_MALFORMED_SHEET);
        same("least", input, least, -1);
        same("report", input, ovenquill_sheet_report(mapped, length, text, sizeof text), 3);
        same("text", input, memcmp(text, "17\n?", sizeof text), 0);
    }
}

/* A written sheet or its report at the front of a buffer. */
static void check_huge_buffers(void)
{
    uint8_t sheet[SHEET];
    size_t i;
    plain_sheet_write(NULL, 0, tenth, COUNT(tenth), sheet, SHEET);
    for (i = 0; i < COUNT(more); i++) {
        const size_t length = BEYOND_32_BITS + more[i];
        const int64_t input = (int64_t)more[i];
        uint8_t right[FRONT];
        memset(mapped, '?', FRONT);
        memset(right, '?', FRONT);
        same("write sheet", input, ovenquill_sheet_write(NULL, 0, tenth, COUNT(tenth), mapped, length),
             plain_sheet_write(NULL, 0, tenth, COUNT(tenth), right, FRONT));
        same("write sheet", input, memcmp(mapped, right, FRONT), 0);
        memset(mapped, '?', FRONT);
        memset(right, '?', FRONT);
        same("report", input, ovenquill_sheet_report(sheet, SHEET, mapped, length), plain_sheet_report(sheet, SHEET, right, FRONT));
        same("report", input, memcmp(mapped, right, FRONT), 0);
    }
}

static void try_refused_write(const uint8_t *note, size_t note_length, const uint32_t *numbers, size_t count)
{
    uint8_t out[FRONT], kept[FRONT];
    memset(out, '?', FRONT);
    memset(kept, '?', FRONT);
    same("refused sheet", (int64_t)note_length, ovenquill_sheet_write(note, note_length, numbers, count, out, FRONT),
         OVENQUILL_MALFORMED_SHEET);
    same("refused sheet", (int64_t)count, memcmp(out, kept, FRONT), 0);
}

/* Notes and numbers of a length that is small modulo 2^32, alone, in bytes, or with the rest of the sheet. */
static void check_huge_notes(void)
{
    const uint32_t *numbers = (const uint32_t *)(const void *)mapped;
    size_t i;
    memset(mapped, 0, FRONT);
    for (i = 0; i < COUNT(more); i++) {
        try_refused_write(mapped, BEYOND_32_BITS + more[i], NULL, 0);
        try_refused_write(mapped, BEYOND_32_BITS + more[i], tenth, COUNT(tenth));
        try_refused_write(mapped, BEYOND_32_BITS - SHEET + more[i], tenth, COUNT(tenth));
        try_refused_write(NULL, 0, numbers, BEYOND_32_BITS + more[i]);
        try_refused_write(NULL, 0, numbers, BEYOND_32_BITS + 8 * (more[i] % 9));
        try_refused_write(NULL, 0, numbers, BEYOND_32_BITS / 4 + 8 * (more[i] % 9));
        try_refused_write(mapped, BEYOND_32_BITS / 2, numbers, BEYOND_32_BITS / 8);
    }
}

int main(void)
{
    void *block = mmap(NULL, MAPPED_BYTES, PROT_READ | PROT_WRITE, MAP_PRIVATE | MAP_ANONYMOUS | MAP_NORESERVE, -1, 0);
    if (block == MAP_FAILED) {
        printf("huge lengths: not tried, since there are no %lu bytes of addresses\n", (unsigned long)MAPPED_BYTES);
        return 0;
    }
    mapped = (uint8_t *)block;
    check_writers();
    check_readers();
    check_index();
    check_huge_sheets();
    check_huge_buffers();
    check_huge_notes();
    munmap(block, MAPPED_BYTES);
    return finish("huge lengths");
}
