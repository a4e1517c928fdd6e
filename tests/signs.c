/*
 * Runs a script from standard input as the program gpm does, but with other signs: those that stand for $ , ; ~ < >, in this
 * order, in the one argument.
 */
#include "gpm.h"

#include <stdio.h>
#include <string.h>

static uint8_t signs[GPM_SIGNS_LENGTH];
static uint8_t text[GPM_TEXT_LIMIT];
static uint32_t cells[16384];
static uint8_t output[GPM_OUTPUT_LIMIT];

int main(int argc, char **argv)
{
    size_t length, kind;
    gpm_report report;

    if (argc != 2 || strlen(argv[1]) != GPM_KIND_UNQUOTES)
        return 2;
    for (kind = GPM_KIND_OPENS; kind <= GPM_KIND_UNQUOTES; kind++)
        signs[(unsigned char)argv[1][kind - 1]] = (uint8_t)kind;
    length = fread(text, 1, sizeof text, stdin);
    report = gpm_expand_signs(signs, sizeof signs, text, length, cells, sizeof cells / sizeof cells[0], output,
                              sizeof output, 10000000);
    fprintf(stderr, "%u %u %u %u %u %u\n", (unsigned)report.outcome, (unsigned)report.read, (unsigned)report.written,
            (unsigned)report.scans, (unsigned)report.most, (unsigned)report.live);
    if (report.outcome <= GPM_FINISHED_AT_QUOTE)
        fwrite(output, 1, (size_t)report.written, stdout);
    return 0;
}
