/*
 * Expands a script for a maker whose key names have $ and ; in them: there # begins a call and ! applies it.
 * The exit status is 0 where the run finished and its output is written, and 1 where it is not.
 */
#include "gpm.h"

#include <stdio.h>

static const char script[] = "#DEF,stake,<[$~1][;OK]>!#stake,5!#stake,10!\n";

/* The standard signs, until some are moved. */
static uint8_t signs[GPM_SIGNS_LENGTH] = GPM_STANDARD_SIGNS;
static uint32_t cells[1024];
static uint8_t output[4096];

/* Has one byte be the sign that another was, which is plain from then on. */
static void move_sign(unsigned char from, unsigned char to)
{
    signs[to] = signs[from];
    signs[from] = GPM_KIND_PLAIN;
}

int main(void)
{
    gpm_report report;

    move_sign('$', '#');
    move_sign(';', '!');
    report = gpm_expand_signs(signs, sizeof signs, (const uint8_t *)script, sizeof script - 1, cells,
                              sizeof cells / sizeof cells[0], output, sizeof output, 100000);
    if (report.outcome != GPM_FINISHED) {
        fprintf(stderr, "outcome %u\n", (unsigned)report.outcome);
        return 1;
    }
    return fwrite(output, 1, (size_t)report.written, stdout) != report.written || fflush(stdout) != 0;
}
