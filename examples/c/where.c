/*
 * Tells where in a script its output came from: for the bytes that pressed a key the script's line and column, and the
 * rule by which they were written.
 *
 *     where SCRIPT             all of the output, from its first byte to its last
 *     where SCRIPT POSITION    the one byte at that position of the output, counted from 1
 *
 * SCRIPT names a file. It is run in what the program gpm lends, and what it wrote is told in records of three lines:
 *
 *     positions 8 to 25 "[F7][OK][0042][OK]": line 5, column 21, given by another built-in
 *       ;$audit,Merak,0042,3;$audit,Jolly,123,0;$audit,Oriel,7711,1;
 *                           ^
 *
 * A record is about bytes next to each other with the same place and rule, at most 40 of them. A byte that is not
 * printable ASCII, a " and a \ are written as \x and two hexadecimal digits. Lines and columns count from 1, columns in
 * bytes; a line feed belongs to the line that it ends. Of a line over 72 bytes those around the place are shown, with
 * ... where it is cut. In the line shown each byte takes one column, so that the mark stands beneath its place: one that
 * is not printable ASCII, a tab among them, is shown as ?.
 *
 * Where the run did not finish, what it wrote is told all the same; its outcome, and how far the script was read, go to
 * standard error. The exit status is 0 where the run finished and all that was asked for is told, 1 where the run did
 * not finish or its output has no such position, and 2 where there was no run or the records could not be written.
 */
#include "gpm.h"

#include <inttypes.h>
#include <stdio.h>
#include <stdlib.h>
#include <string.h>

#define ALLOWANCE 10000000
#define RECORD_MOST 40 /* bytes of output in one record */
#define WINDOW 72      /* bytes of a line that are shown */

static const uint8_t signs[GPM_SIGNS_LENGTH] = GPM_STANDARD_SIGNS;
/* One more than may be lent, so that a script too long is refused and not cut. */
static uint8_t text[GPM_TEXT_LIMIT + 1];
static size_t text_length;
static uint32_t cells[16384];
static uint8_t output[GPM_OUTPUT_LIMIT];
static uint32_t origins[GPM_OUTPUT_LIMIT];
static uint32_t rules[GPM_OUTPUT_LIMIT];

/* A line of the script: text[begin] is its first byte, and text[end] its line feed, or the text ends there. */
struct line {
    size_t number;
    size_t begin;
    size_t end;
};

static struct line line_from(size_t number, size_t begin)
{
    struct line line = {number, begin, begin};

    while (line.end < text_length && text[line.end] != '\n')
        line.end++;
    return line;
}

/* The line of a place that lies in the given line or behind it. */
static struct line line_of(size_t place, struct line line)
{
    while (line.end < place)
        line = line_from(line.number + 1, line.end + 1);
    return line;
}

static const char *in_words(uint32_t rule)
{
    switch ((enum gpm_rule)rule) {
    case GPM_COPIED_FROM_TEXT: return "copied from the text";
    case GPM_COPIED_FROM_BODY: return "copied from a body";
    case GPM_FETCHED: return "fetched by ~";
    case GPM_GIVEN_BY_VAL: return "given by VAL";
    case GPM_GIVEN_BY_BUILT_IN: return "given by another built-in";
    }
    return "by a rule that gpm.h does not have";
}

static int is_printable(uint8_t byte)
{
    return byte >= ' ' && byte <= '~';
}

/* Bytes of the output in quotes, so that they can be read in one way only. */
static void print_bytes(size_t begin, size_t end)
{
    putchar('"');
    for (size_t at = begin; at < end; at++) {
        if (is_printable(output[at]) && output[at] != '"' && output[at] != '\\')
            putchar(output[at]);
        else
            printf("\\x%02x", (unsigned)output[at]);
    }
    putchar('"');
}

/* A line of the script, or its part around the place, and the mark. */
static void print_line(const struct line *line, size_t place)
{
    size_t begin = line->begin;
    size_t end = line->end;

    if (end - begin > WINDOW) {
        if (place - begin > WINDOW / 2)
            begin = place - WINDOW / 2;
        if (begin > end - WINDOW)
            begin = end - WINDOW;
        end = begin + WINDOW;
    }
    printf("  %s", begin > line->begin ? "..." : "");
    for (size_t at = begin; at < end; at++)
        putchar(is_printable(text[at]) ? text[at] : '?');
    puts(end < line->end ? "..." : "");
    printf("  %s%*s^\n", begin > line->begin ? "   " : "", (int)(place - begin), "");
}

/* The record of output[begin] up to output[end - 1], whose place lies in the line. */
static void print_record(size_t begin, size_t end, const struct line *line)
{
    size_t place = origins[begin] - 1;

    if (end - begin == 1)
        printf("position %zu ", end);
    else
        printf("positions %zu to %zu ", begin + 1, end);
    print_bytes(begin, end);
    printf(": line %zu, column %zu, %s\n", line->number, place - line->begin + 1, in_words(rules[begin]));
    print_line(line, place);
}

/* Where the record that begins with output[begin] ends. */
static size_t record_end(size_t begin, size_t written)
{
    size_t end = begin + 1;

    while (end < written && end - begin < RECORD_MOST && origins[end] == origins[begin] && rules[end] == rules[begin])
        end++;
    return end;
}

static void print_all(size_t written)
{
    struct line line = line_from(1, 0);
    size_t end;

    for (size_t begin = 0; begin < written; begin = end) {
        end = record_end(begin, written);
        /* Origins never fall, so no line before the last one is needed again. */
        line = line_of(origins[begin] - 1, line);
        print_record(begin, end, &line);
    }
}

static void print_one(size_t position)
{
    struct line line = line_of(origins[position - 1] - 1, line_from(1, 0));

    print_record(position - 1, position, &line);
}

/* How a run that did not finish ended. A script that is too long was not read at all. */
static void print_outcome(const gpm_report *report)
{
    fprintf(stderr, "outcome %" PRIu64, report->outcome);
    if (report->read > 0) {
        size_t place = (size_t)report->read - 1;
        struct line line = line_of(place, line_from(1, 0));

        fprintf(stderr, ", the script read up to line %zu, column %zu", line.number, place - line.begin + 1);
    }
    fputc('\n', stderr);
}

static int read_script(const char *name)
{
    FILE *file = fopen(name, "rb");
    int is_read;

    if (file == NULL)
        return 0;
    text_length = fread(text, 1, sizeof text, file);
    is_read = !ferror(file);
    fclose(file);
    return is_read;
}

/* The position that an argument says, or 0 where it says none. One too large for a number becomes the largest, which is
 * behind every output too. */
static unsigned long long position_of(const char *argument)
{
    if (argument[strspn(argument, "0123456789")] != '\0')
        return 0;
    return strtoull(argument, NULL, 10);
}

/* Tells what was asked for, all where the position is 0, and returns the exit status. */
static int answer(const gpm_report *report, unsigned long long position)
{
    int status = 0;

    if (position == 0)
        print_all((size_t)report->written);
    else if (position <= report->written)
        print_one((size_t)position);
    if (fflush(stdout) != 0 || ferror(stdout)) {
        fputs("the records could not be written\n", stderr);
        return 2;
    }
    if (position > report->written) {
        fprintf(stderr, "no position %llu: the output has %" PRIu64 " bytes\n", position, report->written);
        status = 1;
    }
    if (report->outcome > GPM_FINISHED_AT_QUOTE) {
        print_outcome(report);
        status = 1;
    }
    return status;
}

int main(int argc, char **argv)
{
    unsigned long long position = argc == 3 ? position_of(argv[2]) : 0;
    gpm_report report;

    if (argc != 2 && argc != 3) {
        fputs("usage: where SCRIPT [POSITION]\n", stderr);
        return 2;
    }
    if (argc == 3 && position == 0) {
        fprintf(stderr, "%s is not a position: these are numbers from 1 on\n", argv[2]);
        return 2;
    }
    if (!read_script(argv[1])) {
        fprintf(stderr, "%s could not be read\n", argv[1]);
        return 2;
    }
    report = gpm_expand_origins(signs, sizeof signs, text, text_length, cells, sizeof cells / sizeof cells[0], output,
                                sizeof output, origins, sizeof origins / sizeof origins[0], rules,
                                sizeof rules / sizeof rules[0], ALLOWANCE);
    return answer(&report, position);
}
