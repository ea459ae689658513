/* Texts that are handed to the readers of timestamps and cue lines, and shown where one of these fails. */
#ifndef TEXTS_H
#define TEXTS_H

#include <string.h>

#include "checks.h"
#include "ovenquill.h"

/* Shows a text if there were failures since there were that many before: its first bytes, as numbers where they do not print. */
static inline void show_failed_text(long failures_before, const void *text, size_t length)
{
    const unsigned char *bytes = (const unsigned char *)text;
    const size_t most = 60;
    size_t i;
    if (!failed_since(failures_before))
        return;
    fprintf(stderr, "  the text, of %lu bytes: \"", (unsigned long)length);
    for (i = 0; i < length && i < most; i++)
        if (bytes[i] < ' ' || bytes[i] > '~' || bytes[i] == '"' || bytes[i] == '\\')
            fprintf(stderr, "\\x%02x", bytes[i]);
        else
            fputc(bytes[i], stderr);
    fprintf(stderr, "\"%s\n", length > most ? " and more" : "");
}

static inline int64_t read_position(const char *text)
{
    return ovenquill_read_position((const uint8_t *)text, strlen(text));
}

/* Holds the answer of a line and its cue to known ones. A refused line leaves the cue as it was. */
static inline void check_line(const char *line, int64_t answer, int64_t start, int64_t end)
{
    const long before = failures;
    ovenquill_cue cue = {-1, -2};
    same("a known line", 0, ovenquill_read_cue((const uint8_t *)line, strlen(line), &cue), answer);
    same("the start of a known line", 0, cue.start, answer == 0 ? start : -1);
    same("the end of a known line", 0, cue.end, answer == 0 ? end : -2);
    show_failed_text(before, line, strlen(line));
}

static inline void check_cue(const char *line, int64_t start, int64_t end)
{
    check_line(line, 0, start, end);
}

static inline void check_refused_cue(const char *line, int64_t refusal)
{
    check_line(line, refusal, 0, 0);
}

#endif
