/*
 * The lines of a stream, for the examples that read them.
 */
#ifndef READ_LINE_H
#define READ_LINE_H

#include <stddef.h>
#include <stdio.h>

/* What may stand around a line's numbers; a carriage return ends the lines of some systems. */
static const char blanks[] = " \t\r";

/* A line without its newline: as many of its bytes as the buffer holds, and how many the stream had. */
struct line {
    char text[256];
    size_t length;
    int has_zero_byte;
};

/* Reads the next line; answers 0 where there is none. */
static int read_line(FILE *in, struct line *line)
{
    int c;
    line->length = 0;
    line->has_zero_byte = 0;
    while ((c = getc(in)) != EOF && c != '\n') {
        if (line->length < sizeof line->text - 1)
            line->text[line->length] = (char)c;
        line->length++;
        line->has_zero_byte |= c == '\0';
    }
    line->text[line->length < sizeof line->text ? line->length : sizeof line->text - 1] = '\0';
    return c != EOF || line->length != 0;
}

#endif
