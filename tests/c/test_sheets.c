/*
 * Sheets of claims, held to plain.h: the reader, its records and their verdicts, the report and the writer, with sheets of every
 * length around the limits, damaged ones and random ones. Claims whose least difference is too far to be scanned for are held to
 * known ones. Sheets, notes, numbers, places and buffers are heap blocks of exactly their size. An argument n is the step: only
 * every n-th damaged or random sheet is tried, and of those with many records only every n-th place. Compiled as C and as C++.
 */
#include <stdlib.h>
#include <string.h>

#include "lent.h"
#include "ovenquill.h"
#include "plain.h"
#include "random.h"

#define NUMBERS OVENQUILL_SHEET_RECORD_NUMBERS
#define RECORD OVENQUILL_SHEET_RECORD_BYTES
#define TRAILER OVENQUILL_SHEET_TRAILER_BYTES
#define LONGEST OVENQUILL_SHEET_MAX_BYTES
#define MOST OVENQUILL_SHEET_MAX_RECORDS
#define LONGEST_REPORT OVENQUILL_SHEET_REPORT_MAX_BYTES
#define REFUSED OVENQUILL_MALFORMED_SHEET
#define TOO_SHORT OVENQUILL_BUFFER_TOO_SHORT

/* As many as four bytes can tell. */
#define WORDS (INT64_C(1) << 32)
#define LAST_WORD (WORDS - 1)

static int64_t step = 1;

/* Whether it is the turn of one of those that are thinned out. */
static int its_turn(void)
{
    static int64_t turn;
    return turn++ % step == 0;
}

static size_t random_size(size_t first, size_t last)
{
    return (size_t)random_within((int64_t)first, (int64_t)last);
}

/* Claims */

static void set_claim(uint32_t *numbers, struct constants q, int64_t bound)
{
    const int64_t row[NUMBERS] = {q.a, q.b, q.d, q.m, q.c, q.k, q.t, bound};
    size_t i;
    for (i = 0; i < NUMBERS; i++)
        numbers[i] = (uint32_t)row[i];
}

/* Constants that are meant to divide, a little wrong. */
static struct constants random_constants(void)
{
    struct constants q;
    q.a = random_within(1, random_within(1, 1023));
    q.b = random_within(0, random_within(0, 1023));
    q.d = random_within(q.a, random_within(q.a, 1048575));
    q.k = random_within(0, 31);
    q.m = (q.a << q.k) / q.d + random_within(0, 2);
    q.c = (q.b << q.k) / q.d + random_within(0, 1);
    if (q.c > OVENQUILL_C_MAX)
        q.c = OVENQUILL_C_MAX;
    q.t = random_within(0, 3) == 0 ? random_within(0, 255) : 0;
    return q;
}

/* Numbers at, beside and outside the limits of claims. */
static const uint32_t edges[] = {0,    1,       47,      48,         255,        256,        1023,
                                 1024, 1048575, 1048576, 0x7fffffff, 0x80000000, 0xfffffffe, 0xffffffff};

/* A claim of any verdict, whose bound is small unless it is outside its limits. */
static void random_claim(uint32_t *numbers)
{
    const struct constants q = random_constants();
    const int64_t first = plain_first_difference(q, 900);
    size_t i;
    switch (random_within(0, 7)) {
    case 0: /* any bytes, of which hardly any are a claim within its limits */
        for (i = 0; i < NUMBERS; i++)
            numbers[i] = (uint32_t)random_within(0, LAST_WORD);
        return;
    case 1: /* one of the constants at an edge */
        set_claim(numbers, q, first);
        numbers[random_within(0, NUMBERS - 2)] = edges[random_within(0, (int64_t)COUNT(edges) - 1)];
        return;
    case 2:
        set_claim(numbers, q, LAST_WORD);
        return;
    case 3:
        set_claim(numbers, q, first == 0 ? 0 : first - 1);
        return;
    case 4:
    case 5:
        set_claim(numbers, q, first + random_within(0, 1));
        return;
    default:
        set_claim(numbers, q, random_within(0, random_within(0, 900)));
    }
}

/* The numbers of sheets that are made here: claims of every verdict, one after the other. */
static uint32_t claims[(2 * MOST + 2) * NUMBERS];

static void fill_claims(void)
{
    static const int64_t bounds[] = {69, 100, 68, LAST_WORD};
    const struct constants tenth = {1, 0, 10, 26, 0, 8, 0};
    size_t i;
    for (i = 0; i < COUNT(claims) / NUMBERS; i++)
        if (i % 8 < COUNT(bounds))
            set_claim(claims + NUMBERS * i, tenth, bounds[i % 8]);
        else
            random_claim(claims + NUMBERS * i);
}

/* Sheets that are made, right ones and others */

/* What is tried is made here; there is room for one that is too long. */
static uint8_t made[3 * LONGEST];

static void put_number(uint8_t *at, int64_t number)
{
    size_t i;
    for (i = 0; i < 4; i++)
        at[i] = (uint8_t)(number >> 8 * i);
}

/* Ends `length` bytes with three numbers, as a trailer does. */
static void put_trailer(uint8_t *sheet, size_t length, int64_t first, int64_t records, int64_t whole)
{
    put_number(sheet + length - 12, first);
    put_number(sheet + length - 8, records);
    put_number(sheet + length - 4, whole);
}

/* Makes a sheet of a note of some bytes and of so many claims, however many; answers its length. */
static size_t make_sheet(size_t note_length, size_t records)
{
    const size_t length = note_length + RECORD * records + TRAILER;
    size_t i;
    for (i = 0; i < note_length; i++)
        made[i] = (uint8_t)(7 * i + 3);
    for (i = 0; i < NUMBERS * records; i++)
        put_number(made + note_length + 4 * i, claims[i % COUNT(claims)]);
    put_trailer(made, length, (int64_t)note_length, (int64_t)records, (int64_t)length);
    return length;
}

/* Each call with its blocks */

/* Shows how a sheet ends if there were failures since there were that many before. */
static void show_failed_sheet(long failures_before, const uint8_t *sheet, size_t length)
{
    size_t i;
    if (!failed_since(failures_before))
        return;
    fprintf(stderr, "  the sheet, of %lu bytes, ends with", (unsigned long)length);
    for (i = length < 12 ? length : 12; i > 0; i--)
        fprintf(stderr, "%s%02x", i % 4 == 0 ? " " : "", sheet[length - i]);
    fprintf(stderr, "\n");
}

static void try_place(const uint8_t *sheet, size_t length, int64_t place)
{
    SAME_WITH_PLACE(ovenquill_record, place, ovenquill_sheet_record(sheet, length, place, lent),
                    plain_sheet_record(sheet, length, place, right));
    SAME_WITH_PLACE(int64_t, place, ovenquill_sheet_check(sheet, length, place, lent),
                    plain_sheet_check(sheet, length, place, right));
}

/* Places that no sheet has, some of which are a place it has modulo 2^32, or begin a record of it modulo 2^32 or 2^64. */
static const int64_t far_places[] = {
    INT64_MIN, INT64_MIN + 1, -(INT64_C(1) << 59), -WORDS, -WORDS + 1, -1024, -2, -1, MOST, MOST + 1, 65536, INT64_C(1) << 27,
    (INT64_C(1) << 27) + 1, INT32_MAX, INT64_C(1) << 31, WORDS, WORDS + 1, INT64_C(1) << 58, INT64_C(1) << 59,
    (INT64_C(1) << 59) + 1, INT64_C(1) << 60, INT64_MAX - 1, INT64_MAX,
};

/* The first and the last records, those beside them, one far away and any. */
static void try_places(const uint8_t *sheet, size_t length, int64_t records)
{
    int64_t place;
    for (place = -1; place < 2 || (place <= records && place < 5); place++)
        try_place(sheet, length, place);
    for (place = records - 1 > 5 ? records - 1 : 5; place <= records + 1; place++)
        try_place(sheet, length, place);
    try_place(sheet, length, far_places[random_within(0, (int64_t)COUNT(far_places) - 1)]);
    if (records > 0)
        try_place(sheet, length, random_within(0, records - 1));
}

/* The report of a sheet whose text is known, in a buffer. */
static void try_report(const uint8_t *sheet, size_t length, const uint8_t *text, size_t bytes, size_t out_length)
{
    const int has_room = out_length >= bytes;
    uint8_t *out = (uint8_t *)lend(out_length), *right = (uint8_t *)lend(out_length);
    if (has_room && bytes != 0)
        memcpy(right, text, bytes);
    same("ovenquill_sheet_report", (int64_t)out_length, ovenquill_sheet_report(sheet, length, out, out_length),
         has_room ? (int64_t)bytes : TOO_SHORT);
    hold("ovenquill_sheet_report", (int64_t)out_length, out, right, out_length);
}

/* In buffers of the text's length, around it, and of any. */
static void try_reports(const uint8_t *sheet, size_t length, const uint8_t *text, size_t bytes)
{
    size_t out_length;
    for (out_length = bytes < 3 ? 0 : bytes - 3; out_length <= bytes + 2; out_length++)
        try_report(sheet, length, text, bytes, out_length);
    try_report(sheet, length, text, bytes, 0);
    try_report(sheet, length, text, bytes, random_size(0, bytes + 40));
    try_report(sheet, length, text, bytes, LONGEST_REPORT);
}

/* Everything that is asked of bytes, which stay as they are; answers how many records they have. */
static int64_t try_sheet(const uint8_t *sheet, size_t length)
{
    static uint8_t text[LONGEST_REPORT];
    const long before = failures;
    uint8_t *lent_sheet = (uint8_t *)lend_copy(sheet, length), *same_sheet = (uint8_t *)lend_copy(sheet, length);
    int64_t records = 0, bytes;
    SAME_WITH_PLACE(int64_t, (int64_t)length, ovenquill_sheet_read(lent_sheet, length, lent),
                    records = plain_sheet_read(same_sheet, length, right));
    try_places(lent_sheet, length, records);
    bytes = plain_sheet_report(same_sheet, length, text, sizeof text);
    same("the bytes that suffice for a report", (int64_t)length, bytes >= 0, 1);
    try_reports(lent_sheet, length, text, (size_t)bytes);
    hold("a call in its sheet", (int64_t)length, lent_sheet, same_sheet, length);
    show_failed_sheet(before, sheet, length);
    return records;
}

static void know_records(const char *what, const uint8_t *sheet, size_t length, int64_t records)
{
    same(what, (int64_t)length, try_sheet(sheet, length), records);
}

static void try_write(const uint8_t *note, size_t note_length, const uint32_t *numbers, size_t count, size_t length)
{
    const long before = failures;
    const size_t bytes = count * sizeof *numbers;
    uint8_t *lent_note = (uint8_t *)lend_copy(note, note_length), *same_note = (uint8_t *)lend_copy(note, note_length);
    uint32_t *lent_numbers = (uint32_t *)lend_copy(numbers, bytes), *same_numbers = (uint32_t *)lend_copy(numbers, bytes);
    uint8_t *out = (uint8_t *)lend(length), *right = (uint8_t *)lend(length);
    same("ovenquill_sheet_write", (int64_t)length, ovenquill_sheet_write(lent_note, note_length, lent_numbers, count, out, length),
         plain_sheet_write(same_note, note_length, same_numbers, count, right, length));
    hold("ovenquill_sheet_write", (int64_t)length, out, right, length);
    hold("ovenquill_sheet_write in its note", (int64_t)length, lent_note, same_note, note_length);
    hold("ovenquill_sheet_write in its numbers", (int64_t)length, lent_numbers, same_numbers, bytes);
    if (failed_since(before))
        fprintf(stderr, "  the note has %lu bytes, and there are %lu numbers\n", (unsigned long)note_length, (unsigned long)count);
}

/* In buffers of the sheet's length, around it, with much room, and of any length. */
static void try_writes(const uint8_t *note, size_t note_length, const uint32_t *numbers, size_t count)
{
    const size_t bytes = note_length + 4 * count + TRAILER;
    size_t length;
    for (length = bytes - TRAILER; length < bytes - 2; length += 3)
        try_write(note, note_length, numbers, count, length);
    for (length = bytes - 2; length <= bytes + 2; length++)
        try_write(note, note_length, numbers, count, length);
    try_write(note, note_length, numbers, count, 0);
    try_write(note, note_length, numbers, count, bytes + 100);
    try_write(note, note_length, numbers, count, random_size(0, bytes));
}

/* "Read back, a written sheet gives the same records and note." */
static void know_read_back(const uint8_t *note, size_t note_length, const uint32_t *numbers, size_t records)
{
    const size_t length = note_length + RECORD * records + TRAILER;
    uint8_t *sheet = (uint8_t *)lend(length);
    int64_t found = -1;
    size_t i, j;
    same("a written sheet", (int64_t)length, ovenquill_sheet_write(note, note_length, numbers, NUMBERS * records, sheet, length),
         (int64_t)length);
    same("the records read back", (int64_t)length, ovenquill_sheet_read(sheet, length, &found), (int64_t)records);
    same("the length of the note read back", (int64_t)length, found, (int64_t)note_length);
    same("the note read back", (int64_t)length, note_length == 0 || memcmp(sheet, note, note_length) == 0, 1);
    for (i = 0; i < records; i++) {
        ovenquill_record record = {-1, -1, -1, -1, -1, -1, -1, -1};
        int64_t row[NUMBERS];
        same("a record read back", (int64_t)i, ovenquill_sheet_record(sheet, length, (int64_t)i, &record), 0);
        memcpy(row, &record, sizeof row);
        for (j = 0; j < NUMBERS; j++)
            same("a number read back", (int64_t)i, row[j], numbers[NUMBERS * i + j]);
    }
    free(sheet);
}

/* Examples and what is known */

static void same_text(const char *what, const uint8_t *got, int64_t bytes, const char *right)
{
    same(what, 0, bytes, (int64_t)strlen(right));
    if (bytes == (int64_t)strlen(right))
        same(what, 1, memcmp(got, right, strlen(right)), 0);
}

/* The header's example. */
static void check_example(void)
{
    const uint32_t numbers[] = {1, 0, 10, 26, 0, 8, 0, 69, 1, 0, 10, 26, 0, 8, 0, 100};
    uint8_t sheet[LONGEST], text[LONGEST_REPORT];
    int64_t note_length = -1, least = -1;
    same("the header's sheet", 0, ovenquill_sheet_write((const uint8_t *)"tenths", 6, numbers, 16, sheet, sizeof sheet), 82);
    same("the header's records", 0, ovenquill_sheet_read(sheet, 82, &note_length), 2);
    same("the header's note", 0, note_length, 6);
    same("the header's first claim", 0, ovenquill_sheet_check(sheet, 82, 0, &least), 0);
    same("the header's first claim", 0, least, -1);
    same("the header's second claim", 0, ovenquill_sheet_check(sheet, 82, 1, &least), OVENQUILL_DIFFERENCE_BELOW_BOUND);
    same("the header's second claim", 0, least, 69);
    same("the header's third claim", 0, ovenquill_sheet_check(sheet, 82, 2, &least), REFUSED);
    same_text("the header's report", text, ovenquill_sheet_report(sheet, 82, text, sizeof text), "0 accepted\n1 10 69\n");
}

/*
 * Constants whose least difference is known: by m = 2^k + 1 the device's quotient is n + ((n + c) >> k), which is more than t from
 * the exact one, n, from (t + 1)*2^k - c on.
 */
struct far_claim {
    struct constants q;
    int64_t first;
};

static struct far_claim far_claim(int64_t k, int64_t t, int64_t c)
{
    struct far_claim claim = {{1, 0, 1, (INT64_C(1) << k) + 1, c, k, t}, ((t + 1) << k) - c};
    return claim;
}

/* Holds the verdict on the only record of a sheet, the same claim's by itself, and the report to known ones. */
static void know_verdict(struct constants q, int64_t bound, int64_t answer, int64_t first)
{
    uint32_t numbers[NUMBERS];
    uint8_t sheet[RECORD + TRAILER], text[80];
    char right[80];
    int64_t least = -1, alone = -1, bytes;
    set_claim(numbers, q, bound);
    same("the sheet of a far claim", bound, ovenquill_sheet_write(NULL, 0, numbers, NUMBERS, sheet, sizeof sheet), sizeof sheet);
    same("a far claim by itself", bound, ovenquill_check_bound(q.a, q.b, q.d, q.m, q.c, q.k, q.t, bound, &alone), answer);
    same("the least n of a far claim by itself", bound, alone, answer == OVENQUILL_DIFFERENCE_BELOW_BOUND ? first : -1);
    same("a far claim", bound, ovenquill_sheet_check(sheet, sizeof sheet, 0, &least), answer);
    same("the least n of a far claim", bound, least, alone);
    if (answer == 0)
        snprintf(right, sizeof right, "0 accepted\n");
    else if (answer == OVENQUILL_DIFFERENCE_BELOW_BOUND)
        snprintf(right, sizeof right, "0 10 %" PRId64 "\n", first);
    else
        snprintf(right, sizeof right, "0 %d\n", (int)-answer);
    bytes = ovenquill_sheet_report(sheet, sizeof sheet, text, sizeof text);
    same_text("the report of a far claim", text, bytes, right);
}

static void know_far_claim(struct far_claim claim)
{
    const int64_t ends[] = {OVENQUILL_BOUND_MAX, claim.first + 1, claim.first, claim.first - 1, 0};
    size_t i;
    for (i = 0; i < COUNT(ends); i++)
        if (!outside(0, OVENQUILL_BOUND_MAX, ends[i]))
            know_verdict(claim.q, ends[i],
                         ends[i] > claim.first    ? OVENQUILL_DIFFERENCE_BELOW_BOUND
                         : ends[i] == claim.first ? 0
                                                  : OVENQUILL_NO_DIFFERENCE_UP_TO_BOUND,
                         claim.first);
    know_verdict(claim.q, LAST_WORD, OVENQUILL_CONSTANT_OUT_OF_LIMITS, 0);
}

/* Least numbers of every count of digits, and those at their ends. */
static void check_far_claims(int64_t rounds)
{
    int64_t power;
    for (power = 1; power < WORDS; power *= 10) {
        int64_t beside;
        for (beside = power - 1; beside <= power + 1; beside++) {
            const struct far_claim claim = far_claim(31, 1, WORDS - beside);
            if (!outside(OVENQUILL_C_MIN, OVENQUILL_C_MAX, claim.q.c))
                know_far_claim(claim);
        }
    }
    know_far_claim(far_claim(31, 1, 2));
    know_far_claim(far_claim(31, 1, 3));
    while (rounds-- > 0) {
        const int64_t k = random_within(0, 31), t = random_within(0, k <= 24 ? OVENQUILL_T_MAX : (WORDS >> k) - 1);
        const int64_t most = (t + 1) << k;
        know_far_claim(far_claim(k, t, random_within(most == WORDS ? 2 : 0, most - 1)));
    }
    /* claims for which a difference never comes */
    know_verdict(paper_least, 0, OVENQUILL_NO_DIFFERENCE_UP_TO_BOUND, 0);
    for (power = 0; power < 32; power++) {
        const struct constants never = {1, 0, 1, INT64_C(1) << power, 0, power, 0};
        know_verdict(never, OVENQUILL_BOUND_MAX, OVENQUILL_NO_DIFFERENCE_UP_TO_BOUND, 0);
    }
}

/* Sheets of far claims alone: the report of as many as there may be, each with a least n of ten digits, has the longest text. */
static void check_longest_report(void)
{
    static char text[LONGEST_REPORT + 80];
    static const size_t notes[] = {0, 1, LONGEST - MOST * RECORD - TRAILER};
    const struct far_claim claim = far_claim(31, 0, 7);
    uint32_t numbers[MOST * NUMBERS];
    size_t records, i, bytes = 0;
    for (records = 0; records <= MOST; records++) {
        if (records > MOST - 3 || records < 12 || records % 50 == 0)
            for (i = 0; i < COUNT(notes); i++) {
                const size_t length = notes[i] + RECORD * records + TRAILER;
                uint8_t *sheet = (uint8_t *)lend(length);
                same("a sheet of far claims", (int64_t)records,
                     ovenquill_sheet_write(made, notes[i], numbers, NUMBERS * records, sheet, length), (int64_t)length);
                try_reports(sheet, length, (const uint8_t *)text, bytes);
                free(sheet);
            }
        if (records < MOST) {
            set_claim(numbers + NUMBERS * records, claim.q, claim.first + 1 + (int64_t)records);
            bytes += (size_t)snprintf(text + bytes, 80, "%d 10 %" PRId64 "\n", (int)records, claim.first);
        }
    }
    same("the longest report", MOST, (int64_t)bytes, LONGEST_REPORT);
}

/* Verdicts on any claims within their limits, far or not: the checker's own. */
static void check_own_verdicts(int64_t rounds)
{
    while (rounds-- > 0) {
        uint32_t n[NUMBERS];
        uint8_t sheet[5 + RECORD + TRAILER];
        struct constants q = random_constants();
        q.k = random_within(0, 47);
        q.m = random_within(0, 1) == 0 ? random_within(0, OVENQUILL_M_MAX >> random_within(0, 31)) : q.m;
        set_claim(n, q, random_within(0, OVENQUILL_BOUND_MAX >> random_within(0, 31)));
        same("the sheet of a claim", 0, ovenquill_sheet_write(made, 5, n, NUMBERS, sheet, sizeof sheet), sizeof sheet);
        SAME_WITH_PLACE(int64_t, n[7], ovenquill_sheet_check(sheet, sizeof sheet, 0, lent),
                        ovenquill_check_bound(n[0], n[1], n[2], n[3], n[4], n[5], n[6], n[7], right));
    }
}

/* Lengths */

/* Bytes of a length whose trailer has the right length and so many records, and an offset that fits or wraps. */
static void try_length(size_t length, size_t records)
{
    const int64_t first = (int64_t)length - TRAILER - RECORD * (int64_t)records;
    const int is_sheet = first >= 0 && length <= LONGEST && records <= MOST;
    if (first >= 0)
        make_sheet((size_t)first, records);
    else
        put_trailer(made, length, first, (int64_t)records, (int64_t)length);
    know_records("a sheet by its length", made, length, is_sheet ? (int64_t)records : REFUSED);
}

/* Too few bytes for a trailer: the front, the end or the middle of a right one, zeros, and ones. */
static void check_shortest(void)
{
    size_t length, i;
    for (length = 0; length < TRAILER; length++) {
        for (i = 0; i < 3; i++) {
            const size_t whole = make_sheet(i, i);
            know_records("the end of a sheet", made + whole - length, length, REFUSED);
            know_records("the front of a trailer", made + whole - TRAILER, length, REFUSED);
        }
        memset(made, 0, length);
        know_records("zeros", made, length, REFUSED);
        memset(made, 0xff, length);
        know_records("ones", made, length, REFUSED);
    }
}

/* Every length from a trailer on, with as many records as fit and three more. */
static void check_short_lengths(void)
{
    size_t length, records;
    for (length = TRAILER; length <= 240; length++)
        for (records = 0; records <= length / RECORD + 3; records++)
            try_length(length, records);
}

/* Every length around the longest, and some beyond it, of which the trailer says all or, as 16 bits would, the rest. */
static void check_long_lengths(void)
{
    static const size_t records[] = {0, 1, 2, MOST - 1, MOST, MOST + 1, 2 * MOST - 2, 2 * MOST - 1, 2 * MOST};
    static const size_t far_lengths[] = {LONGEST + TRAILER, LONGEST + RECORD + TRAILER, 2 * LONGEST, 2 * LONGEST + TRAILER,
                                         2 * LONGEST + RECORD + TRAILER, 3 * LONGEST};
    size_t length, i, j;
    for (length = LONGEST - 50; length <= LONGEST + 50; length++)
        for (i = 0; i < COUNT(records); i++)
            if (its_turn() || length == LONGEST || length == LONGEST + 1)
                try_length(length, records[i]);
    for (j = 0; j < COUNT(far_lengths); j++) {
        try_length(far_lengths[j], 0);
        try_length(far_lengths[j], 1);
        put_trailer(made, far_lengths[j], 0, 0, (int64_t)far_lengths[j] % LONGEST);
        know_records("a length of 16 bits", made, far_lengths[j], REFUSED);
        put_trailer(made, far_lengths[j], 0, 1, (int64_t)far_lengths[j] % LONGEST);
        know_records("a length of 16 bits", made, far_lengths[j], REFUSED);
    }
}

/* Every number of records around the most, and up to the most that fit into a sheet; with no note, and with the longest. */
static void check_many_records(void)
{
    size_t records;
    for (records = MOST - 3; records <= 2 * MOST - 1; records++)
        if (records <= MOST + 3 || its_turn()) {
            try_length(RECORD * records + TRAILER, records);
            try_length(RECORD * records + TRAILER + 1, records);
            try_length(LONGEST, records);
        }
}

/* Damaged trailers */

/* Numbers in place of a right one, modulo 2^32: beside it, a record away, its bytes turned round, ends, and with higher bits. */
static size_t wrong_numbers(int64_t right, size_t length, int64_t *wrong)
{
    const int64_t turned = (right & 0xff) << 24 | (right & 0xff00) << 8 | (right >> 8 & 0xff00) | (right >> 24 & 0xff);
    const int64_t bytes = (int64_t)length;
    const int64_t numbers[] = {
        right, right - 1, right + 1, right - RECORD, right + RECORD, right + TRAILER, right - TRAILER, turned, 0, 1, 2, 31, MOST,
        MOST + 1, bytes, bytes - TRAILER, bytes - TRAILER - RECORD, LAST_WORD, LAST_WORD - 1, -TRAILER, -RECORD, right + 256,
        right + 65536, right + (1 << 24), right + (1 << 27), right + (INT64_C(1) << 31),
    };
    memcpy(wrong, numbers, sizeof numbers);
    return COUNT(numbers);
}

/* Every three such numbers, of which some are a trailer that fits. */
static void try_trailers(size_t note_length, size_t records)
{
    const size_t length = make_sheet(note_length, records);
    int64_t firsts[40], counts[40], wholes[40];
    const size_t n = wrong_numbers((int64_t)note_length, length, firsts);
    size_t i, j, k;
    wrong_numbers((int64_t)records, length, counts);
    wrong_numbers((int64_t)length, length, wholes);
    for (i = 0; i < n; i++)
        for (j = 0; j < n; j++)
            for (k = 0; k < n; k++)
                if ((i == 0) + (j == 0) + (k == 0) >= 2 || its_turn()) {
                    put_trailer(made, length, firsts[i], counts[j], wholes[k]);
                    try_sheet(made, length);
                }
}

static void check_trailers(void)
{
    static const size_t notes[] = {0, 1, 44, 256 + 12}, records[] = {0, 1, 3};
    size_t i, j;
    for (i = 0; i < COUNT(notes); i++)
        for (j = 0; j < COUNT(records); j++)
            try_trailers(notes[i], records[j]);
}

/* "Each trailer number off by one and at 2^32 - 1", with the others right: none of these is a sheet. */
static void check_wrong_trailers(void)
{
    static const size_t notes[] = {0, 1, 2, 31, 32, 33, 44, 255, 256}, records[] = {0, 1, 2, 7, 8, 255, 256, MOST};
    size_t i, j, place;
    for (i = 0; i < COUNT(notes); i++)
        for (j = 0; j < COUNT(records); j++) {
            const size_t length = make_sheet(notes[i], records[j]);
            const int64_t right[3] = {(int64_t)notes[i], (int64_t)records[j], (int64_t)length};
            know_records("a right sheet", made, length, right[1]);
            for (place = 0; place < 3; place++) {
                const int64_t wrong[] = {right[place] - 1, right[place] + 1, LAST_WORD};
                size_t w;
                for (w = 0; w < COUNT(wrong); w++) {
                    int64_t trailer[3];
                    memcpy(trailer, right, sizeof trailer);
                    trailer[place] = wrong[w];
                    put_trailer(made, length, trailer[0], trailer[1], trailer[2]);
                    know_records("a wrong number in a trailer", made, length, REFUSED);
                }
            }
        }
}

/* Trailers whose sum is the length modulo 2^32: every number of records, of which only those that fit are a sheet. */
static void check_wrapped_sums(void)
{
    static const size_t lengths[] = {12, 13, 43, 44, 45, 76, 100, 1000};
    static const int64_t higher[] = {0, 1 << 27, INT64_C(1) << 28, INT64_C(31) << 27};
    size_t i, j;
    for (i = 0; i < COUNT(lengths); i++) {
        const int64_t length = (int64_t)make_sheet(lengths[i] - TRAILER, 0), fit = (length - TRAILER) / RECORD;
        int64_t records;
        for (records = 0; records <= MOST + 3; records++)
            for (j = 0; j < COUNT(higher); j++)
                if (records <= fit + 2 || records > MOST - 2 || its_turn()) {
                    put_trailer(made, lengths[i], length - TRAILER - RECORD * records, records + higher[j], length);
                    know_records("a sum that wraps", made, lengths[i], j == 0 && records <= fit ? records : REFUSED);
                }
    }
}

/* Every byte at every place of a trailer. */
static void check_damaged_bytes(void)
{
    static const size_t notes[] = {0, 3, 300}, records[] = {0, 2, 9};
    size_t i, place, byte;
    for (i = 0; i < COUNT(notes); i++)
        for (place = 0; place < TRAILER; place++)
            for (byte = 0; byte < 256; byte++) {
                const size_t length = make_sheet(notes[i], records[i]);
                made[length - TRAILER + place] = (uint8_t)byte;
                if (its_turn())
                    try_sheet(made, length);
            }
}

/* Sheets that are cut off at either end, and such with more bytes at either end, which are zeros or those of another trailer. */
static void check_cut_sheets(void)
{
    static const size_t notes[] = {0, 5, 44}, records[] = {0, 1, 3};
    size_t i, j, cut;
    for (i = 0; i < COUNT(notes); i++)
        for (j = 0; j < COUNT(records); j++)
            for (cut = 1; cut <= 50; cut++) {
                size_t length = make_sheet(notes[i], records[j]);
                if (cut <= length) {
                    know_records("a sheet without its front", made + cut, length - cut, REFUSED);
                    know_records("a sheet without its end", made, length - cut, REFUSED);
                }
                memset(made + length, 0, cut);
                know_records("a sheet with zeros behind it", made, length + cut, REFUSED);
                memcpy(made + length, made + length - TRAILER, TRAILER);
                know_records("a sheet with its trailer twice", made, length + TRAILER, REFUSED);
                memmove(made + cut, made, length);
                memset(made, 0, cut);
                know_records("a sheet with zeros before it", made, length + cut, REFUSED);
            }
}

/* Notes that look like a trailer, or end with the very one of the sheet; records that look like one, and sheets in a note. */
static void check_notes_like_trailers(void)
{
    static const size_t records[] = {0, 1, 2, 5};
    size_t i, j;
    for (i = 0; i < COUNT(records); i++)
        for (j = TRAILER; j <= 60; j++) {
            size_t length = make_sheet(j, records[i]);
            put_trailer(made, j, (int64_t)j, (int64_t)records[i], (int64_t)length);
            know_records("a note with the sheet's trailer", made, length, (int64_t)records[i]);
            put_trailer(made, j, 0, 0, TRAILER);
            know_records("a note with another trailer", made, length, (int64_t)records[i]);
            put_trailer(made, j, (int64_t)j - TRAILER, 0, (int64_t)j);
            know_records("a note that is a sheet", made, length, (int64_t)records[i]);
            know_records("that note alone", made, j, 0);
            if (records[i] > 0) {
                put_trailer(made, length - TRAILER, (int64_t)j, (int64_t)records[i], (int64_t)length);
                know_records("a record with the sheet's trailer", made, length, (int64_t)records[i]);
                put_trailer(made, length - TRAILER, 0, 0, (int64_t)length - TRAILER);
                know_records("a record with another trailer", made, length, (int64_t)records[i]);
            }
        }
}

/* A sheet as the note of another, and that as the note of a third: each is read by its own length. */
static void check_sheets_in_notes(void)
{
    static const size_t records[] = {2, 1, 3};
    uint8_t sheet[3 * (RECORD * 3 + TRAILER)];
    size_t lengths[3], i, length = 0;
    for (i = 0; i < 3; i++) {
        uint8_t note[sizeof sheet];
        memcpy(note, sheet, length);
        length = (size_t)plain_sheet_write(note, length, claims, NUMBERS * records[i], sheet, sizeof sheet);
        lengths[i] = length;
    }
    for (i = 0; i < 3; i++)
        know_records("a sheet in a note", sheet, lengths[i], (int64_t)records[i]);
}

/* Random sheets */

/* A random sheet in `made`, with any bytes as its note; answers its length. */
static size_t make_random_sheet(size_t most_records, size_t longest_note)
{
    static uint32_t numbers[MOST * NUMBERS];
    static uint8_t note[LONGEST];
    const size_t records = random_size(0, most_records), room = LONGEST - RECORD * records - TRAILER;
    const size_t note_length = random_size(0, longest_note < room ? longest_note : room);
    size_t i;
    for (i = 0; i < records; i++)
        random_claim(numbers + NUMBERS * i);
    for (i = 0; i < note_length; i++)
        note[i] = (uint8_t)random_within(0, 255);
    if (records <= 100)
        know_read_back(note, note_length, numbers, records);
    try_write(note, note_length, numbers, NUMBERS * records, note_length + RECORD * records + random_size(0, 20));
    return (size_t)plain_sheet_write(note, note_length, numbers, NUMBERS * records, made, LONGEST);
}

/* Changes a byte anywhere, but for a bound, since to scan up to a large one takes too long. */
static void damage(size_t first, size_t length)
{
    const size_t place = random_size(0, length - 1);
    if (place < first || place >= length - TRAILER || (place - first) % RECORD < RECORD - 4)
        made[place] = (uint8_t)random_within(0, 255);
}

/* Random sheets as they are, with a byte changed anywhere or in the trailer, and with another offset and number of records. */
static void check_random(int64_t rounds)
{
    while (rounds-- > 0) {
        const size_t most_records = rounds % 250 == 0 ? MOST : 8, longest_note = rounds % 9 == 0 ? LONGEST : 90;
        const size_t length = make_random_sheet(random_size(0, most_records), random_size(0, longest_note));
        const size_t in_trailer = length - random_size(1, TRAILER);
        const int64_t records = try_sheet(made, length), fewer = random_within(0, records);
        const int64_t first = (int64_t)length - TRAILER - RECORD * records;
        same("a random sheet", (int64_t)length, records >= 0, 1);
        damage((size_t)first, length);
        try_sheet(made, length);
        made[in_trailer] = (uint8_t)(made[in_trailer] + random_within(1, 255));
        try_sheet(made, length);
        put_trailer(made, length, first + RECORD * fewer, records - fewer, (int64_t)length);
        know_records("a sheet with records in its note", made, length, records - fewer);
        put_trailer(made, length, first + random_within(-40, 40), records + random_within(-1, 1), (int64_t)length);
        try_sheet(made, length);
    }
}

/* All places of a sheet with as many records as there may be, and those that no sheet has. */
static void check_all_places(void)
{
    static const size_t records[] = {0, 1, 2, 9, MOST};
    size_t i, j;
    for (i = 0; i < COUNT(records); i++) {
        const size_t length = make_sheet(5 * i, records[i]);
        uint8_t *sheet = (uint8_t *)lend_copy(made, length);
        for (j = 0; j < records[i]; j++)
            if (records[i] <= 9 || its_turn())
                try_place(sheet, length, (int64_t)j);
        for (j = 0; j < COUNT(far_places); j++)
            try_place(sheet, length, far_places[j]);
        try_place(sheet, length, (int64_t)records[i]);
        try_place(sheet, length, WORDS + (int64_t)records[i] - 1);
        free(sheet);
    }
}

/* The writer */

/* Every short note with every short list of numbers: whole records, and parts of one. */
static void check_short_writes(void)
{
    size_t note_length, count;
    for (note_length = 0; note_length <= 40; note_length++)
        for (count = 0; count <= 4 * NUMBERS + 1; count++)
            if (count % NUMBERS == 0 || its_turn())
                try_writes(made, note_length, claims, count);
}

/* Numbers around the most, with short notes, and with those that make the sheet as long as it may be, and longer and shorter. */
static void check_long_writes(void)
{
    static const size_t counts[] = {0, 1, 8, 64, 4096, MOST * NUMBERS - 8, MOST * NUMBERS - 4, MOST * NUMBERS - 1, MOST * NUMBERS,
                                    MOST * NUMBERS + 1, MOST * NUMBERS + 4, MOST * NUMBERS + 8, MOST * NUMBERS + 16};
    size_t i;
    for (i = 0; i < COUNT(counts); i++) {
        const size_t room = LONGEST - TRAILER - 4 * counts[i];
        const size_t notes[] = {0, 1, 12, room - 1, room, room + 1, room + 2, room + 12, room + 4 * counts[i], LONGEST + 12,
                                2 * LONGEST};
        size_t j;
        for (j = 0; j < COUNT(notes); j++)
            try_writes(made, notes[j], claims, counts[i]);
    }
}

/* Bytes of every value at every place of a number. */
static void check_written_bytes(void)
{
    size_t place, byte;
    for (place = 0; place < 4; place++)
        for (byte = 0; byte < 256; byte++) {
            uint32_t numbers[NUMBERS];
            size_t i;
            for (i = 0; i < NUMBERS; i++)
                numbers[i] = (uint32_t)(byte << 8 * place) + (uint32_t)i;
            know_read_back(made, place, numbers, 1);
            try_write(made, place, numbers, NUMBERS, place + RECORD + TRAILER);
        }
}

/* What is lent begins wherever it may: the other blocks begin at multiples of 16 bytes. */
static void check_alignments(void)
{
    size_t records, offset, shift;
    for (records = 0; records <= 3; records++)
        for (offset = 0; offset < 16; offset++)
            for (shift = 0; shift < 4; shift++) {
                const size_t length = make_sheet(shift, records);
                uint8_t *block = (uint8_t *)lend(offset + length);
                uint32_t *numbers = (uint32_t *)lend((shift + NUMBERS * records) * sizeof *numbers);
                if (records > 0)
                    memcpy(numbers + shift, claims, RECORD * records);
                same("a sheet written anywhere", (int64_t)offset,
                     ovenquill_sheet_write(made, shift, numbers + shift, NUMBERS * records, block + offset, length),
                     (int64_t)length);
                same("a sheet anywhere", (int64_t)offset, memcmp(block + offset, made, length), 0);
                try_places(block + offset, length, (int64_t)records);
                free(block);
                free(numbers);
            }
}

/* No slice at all: a null pointer with length 0. */
static void check_null(void)
{
    const size_t empty = make_sheet(0, 0);
    uint8_t *sheet = (uint8_t *)lend_copy(made, empty), *text = (uint8_t *)lend(3), *out = (uint8_t *)lend(TRAILER + RECORD);
    SAME_WITH_PLACE(int64_t, 0, ovenquill_sheet_read(NULL, 0, lent), plain_sheet_read(NULL, 0, right));
    try_place(NULL, 0, 0);
    try_place(NULL, 0, -1);
    same("null sheet and buffer", 0, ovenquill_sheet_report(NULL, 0, NULL, 0), TOO_SHORT);
    same("null sheet", 0, ovenquill_sheet_report(NULL, 0, text, 3), 3);
    same("the report of a null sheet", 0, memcmp(text, "17\n", 3), 0);
    same("null buffer for no line", 0, ovenquill_sheet_report(sheet, empty, NULL, 0), 0);
    same("null buffer for a line", 0, ovenquill_sheet_report(sheet, empty - 1, NULL, 0), TOO_SHORT);
    same("null note, numbers and buffer", 0, ovenquill_sheet_write(NULL, 0, NULL, 0, NULL, 0), TOO_SHORT);
    same("null buffer for a part record", 0, ovenquill_sheet_write(NULL, 0, claims, 7, NULL, 0), REFUSED);
    same("null buffer for a record", 0, ovenquill_sheet_write(NULL, 0, claims, NUMBERS, NULL, 0), TOO_SHORT);
    same("null note and numbers", 0, ovenquill_sheet_write(NULL, 0, NULL, 0, out, TRAILER), TRAILER);
    same("the sheet of nothing", 0, memcmp(out, made, TRAILER), 0);
    same("null numbers", 0, ovenquill_sheet_write((const uint8_t *)"note", 4, NULL, 0, out, 4 + TRAILER), 4 + TRAILER);
    same("the sheet of a note", 0, memcmp(out, "note\4\0\0\0\0\0\0\0\20\0\0", 4 + TRAILER), 0);
    same("null note", 0, ovenquill_sheet_write(NULL, 0, claims, NUMBERS, out, TRAILER + RECORD), TRAILER + RECORD);
    make_sheet(0, 1);
    same("the sheet of a record", 0, memcmp(out, made, TRAILER + RECORD), 0);
    free(sheet);
    free(text);
    free(out);
}

/* Places and buffers that hold nothing yet, with accepted calls and refused ones. */
static void check_unset(void)
{
    const size_t length = make_sheet(5, 3), text = strlen("0 accepted\n1 10 69\n2 11\n");
    uint8_t *sheet = (uint8_t *)lend_copy(made, length);
    DONE_WITH_UNSET(int64_t, ovenquill_sheet_read(sheet, length, lent), plain_sheet_read(sheet, length, right));
    REFUSED_WITH_UNSET(int64_t, ovenquill_sheet_read(sheet, length - 1, lent), plain_sheet_read(sheet, length - 1, right));
    DONE_WITH_UNSET(ovenquill_record, ovenquill_sheet_record(sheet, length, 2, lent), plain_sheet_record(sheet, length, 2, right));
    REFUSED_WITH_UNSET(ovenquill_record, ovenquill_sheet_record(sheet, length, 3, lent),
                       plain_sheet_record(sheet, length, 3, right));
    REFUSED_WITH_UNSET(ovenquill_record, ovenquill_sheet_record(sheet, length - 1, 0, lent),
                       plain_sheet_record(sheet, length - 1, 0, right));
    REFUSED_WITH_UNSET(int64_t, ovenquill_sheet_check(sheet, length, 0, lent), plain_sheet_check(sheet, length, 0, right));
    DONE_WITH_UNSET(int64_t, ovenquill_sheet_check(sheet, length, 1, lent), plain_sheet_check(sheet, length, 1, right));
    REFUSED_WITH_UNSET(int64_t, ovenquill_sheet_check(sheet, length, 2, lent), plain_sheet_check(sheet, length, 2, right));
    REFUSED_WITH_UNSET(int64_t, ovenquill_sheet_check(sheet, length, 3, lent), plain_sheet_check(sheet, length, 3, right));
    SAME_WITH_UNSET(uint8_t, uint8_t, 200, length, ovenquill_sheet_write(made, 5, claims, 24, lent, 200),
                    plain_sheet_write(made, 5, claims, 24, right, 200));
    SAME_WITH_UNSET(uint8_t, uint8_t, 200, 0, ovenquill_sheet_write(made, 5, claims, 24, lent, length - 1),
                    plain_sheet_write(made, 5, claims, 24, right, length - 1));
    SAME_WITH_UNSET(uint8_t, uint8_t, 200, 0, ovenquill_sheet_write(made, 5, claims, 23, lent, 200),
                    plain_sheet_write(made, 5, claims, 23, right, 200));
    SAME_WITH_UNSET(uint8_t, uint8_t, 200, text, ovenquill_sheet_report(sheet, length, lent, 200),
                    plain_sheet_report(sheet, length, right, 200));
    SAME_WITH_UNSET(uint8_t, uint8_t, 200, 0, ovenquill_sheet_report(sheet, length, lent, text - 1),
                    plain_sheet_report(sheet, length, right, text - 1));
    SAME_WITH_UNSET(uint8_t, uint8_t, 200, 3, ovenquill_sheet_report(sheet, length - 1, lent, 200),
                    plain_sheet_report(sheet, length - 1, right, 200));
    free(sheet);
}

int main(int argc, char **argv)
{
    step = argc > 1 ? atoi(argv[1]) : 1;
    fill_claims();
    check_example();
    check_far_claims(20000 / step);
    check_longest_report();
    check_own_verdicts(100000 / step);
    check_shortest();
    check_short_lengths();
    check_long_lengths();
    check_many_records();
    check_trailers();
    check_wrong_trailers();
    check_wrapped_sums();
    check_damaged_bytes();
    check_cut_sheets();
    check_notes_like_trailers();
    check_sheets_in_notes();
    check_random(10000 / step);
    check_all_places();
    check_short_writes();
    check_long_writes();
    check_written_bytes();
    check_alignments();
    check_null();
    check_unset();
    return finish("sheets");
}
