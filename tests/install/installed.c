/* A program of somebody who has installed the library: prints its version and what a few calls answer. Compiled as C and C++. */
#include <stdio.h>

#include <ovenquill.h>

int main(void)
{
    uint8_t label[OVENQUILL_INSTANT_LABEL_BYTES];
    int64_t instant = 0, least = 0;
    int64_t written = ovenquill_write_instant(1683729000000, label, sizeof label);
    int64_t read = ovenquill_read_instant(label, sizeof label, &instant);
    int64_t claim = ovenquill_check_bound(1, 0, 10, 26, 0, 8, 0, 100, &least);
    const uint32_t numbers[16] = {1, 0, 10, 26, 0, 8, 0, 69, 1, 0, 10, 26, 0, 8, 0, 100};
    uint8_t sheet[16 * 4 + OVENQUILL_SHEET_TRAILER_BYTES], text[40];
    int64_t note_length = 0, sheet_bytes = ovenquill_sheet_write(NULL, 0, numbers, 16, sheet, sizeof sheet);
    int64_t records = ovenquill_sheet_read(sheet, sizeof sheet, &note_length);
    int64_t report = ovenquill_sheet_report(sheet, sizeof sheet, text, sizeof text);
    printf("%s\n", OVENQUILL_VERSION);
    printf("%d %d %lld\n", (int)written, (int)read, (long long)instant);
    printf("%d %lld\n", (int)claim, (long long)least);
    printf("%d %d %d\n", (int)sheet_bytes, (int)records, (int)report);
    return 0;
}
