/*
 * Prints the label and the weekday of each instant of a recording, as a player would show them.
 *
 *     player MILLISECONDS ..        instants as arguments
 *     player < FILE                 one instant to a line; empty lines are passed over
 *
 * An instant is a whole number of milliseconds from 1970-01-01 00:00 UTC. Standard output has labels and nothing else: a line or
 * an argument that is no instant, or whose instant is refused, as one whose year has no label is, gets a message with its number on
 * standard error, and the others still get their labels. The exit status is 1 where an instant was bad or refused, or where not
 * everything could be read or written.
 */
#include <errno.h>
#include <inttypes.h>
#include <stdio.h>
#include <stdlib.h>
#include <string.h>

#include "ovenquill.h"
#include "read_line.h"

/* By the weekday's number; there is no weekday 0. */
static const char *const weekday_names[] = {
    [OVENQUILL_MONDAY] = "Monday",     [OVENQUILL_TUESDAY] = "Tuesday", [OVENQUILL_WEDNESDAY] = "Wednesday",
    [OVENQUILL_THURSDAY] = "Thursday", [OVENQUILL_FRIDAY] = "Friday",   [OVENQUILL_SATURDAY] = "Saturday",
    [OVENQUILL_SUNDAY] = "Sunday",
};

/* Prints the label and the weekday of an instant, and answers 0, or what a refused call answered. */
static int64_t print_label(int64_t instant)
{
    uint8_t label[OVENQUILL_INSTANT_LABEL_BYTES];
    int64_t written = ovenquill_write_instant(instant, label, sizeof label);
    if (written < 0)
        return written;
    int64_t days;
    int64_t answer = ovenquill_day_of_instant(instant, &days);
    if (answer < 0)
        return answer;
    int64_t weekday = ovenquill_weekday(days);
    if (weekday < 0)
        return weekday;
    printf("%.*s %s\n", (int)written, (const char *)label, weekday_names[weekday]);
    return 0;
}

/* Where an instant was handed in: "line 3" or "argument 3". */
struct origin {
    const char *kind;
    long number;
};

/* Begins a message about what was handed in there. */
static void begin_message(struct origin origin)
{
    fprintf(stderr, "player: %s %ld: ", origin.kind, origin.number);
}

/* Prints the line of one instant; answers 0, or 1 where the text is no instant or is refused. */
static int show(const char *text, struct origin origin)
{
    char *end;
    errno = 0;
    long long instant = strtoll(text, &end, 10);
    if (end == text || end[strspn(end, blanks)] != '\0') {
        begin_message(origin);
        fprintf(stderr, "\"%s\" is no whole number of milliseconds\n", text);
        return 1;
    }
    if (errno == ERANGE) {
        begin_message(origin);
        fprintf(stderr, "\"%s\" does not fit 64 bits\n", text);
        return 1;
    }
    int64_t answer = print_label(instant);
    if (answer < 0) {
        begin_message(origin);
        fprintf(stderr, "%lld is refused (%" PRId64 "): %s\n", instant, -answer, ovenquill_refusal_text(answer));
        return 1;
    }
    return 0;
}

/* Shows each line of a stream; a line with a zero byte or longer than the buffer is bad as a whole. */
static int show_lines(FILE *in)
{
    struct line line;
    struct origin origin = {"line", 0};
    int status = 0;
    while (!ferror(stdout) && read_line(in, &line)) {
        origin.number++;
        if (line.length >= sizeof line.text) {
            begin_message(origin);
            fprintf(stderr, "more than %zu bytes are no instant\n", sizeof line.text - 1);
            status = 1;
        } else if (line.has_zero_byte) {
            begin_message(origin);
            fprintf(stderr, "a zero byte is in no instant\n");
            status = 1;
        } else if (line.text[strspn(line.text, blanks)] != '\0') {
            status |= show(line.text, origin);
        }
    }
    if (ferror(in)) {
        perror("player: standard input");
        status = 1;
    }
    return status;
}

/* Closes standard output; answers 0, or 1 where not everything could be written to it. */
static int close_output(void)
{
    int failed = ferror(stdout);
    if (fclose(stdout) != 0 || failed) {
        fprintf(stderr, "player: not everything could be written to standard output\n");
        return 1;
    }
    return 0;
}

int main(int argc, char **argv)
{
    int status = 0;
    if (argc == 2 && strcmp(argv[1], "--help") == 0)
        printf("usage: player MILLISECONDS .., or player < FILE with one instant to a line\n"
               "An instant is a whole number of milliseconds from 1970-01-01 00:00 UTC.\n");
    else if (argc < 2)
        status = show_lines(stdin);
    else
        for (int i = 1; i < argc; i++)
            status |= show(argv[i], (struct origin){"argument", i});
    return status | close_output();
}
