/*
 * Expands a script from standard input and writes its report, in words, to standard error. Where the run
 * finished it writes the output to standard output: what a refused run has written is no complete key text.
 * The cells, the output and the allowance that are lent may be given as arguments.
 *
 *     expand [CELLS [OUTPUT [ALLOWANCE]]] < SCRIPT
 *
 * The exit status is 0 where the run finished, 1 where it did not, and 2 where there was no run.
 */
#include "gpm.h"

#include <errno.h>
#include <inttypes.h>
#include <stdio.h>
#include <stdlib.h>

/* One more than may be lent, so that a size too large can be lent and is refused. */
static uint8_t text[GPM_TEXT_LIMIT + 1];
static uint32_t cells[GPM_CELLS_LIMIT + 1];
static uint8_t output[GPM_OUTPUT_LIMIT + 1];

static const char *in_words(uint64_t outcome)
{
    switch ((enum gpm_outcome)outcome) {
    case GPM_FINISHED: return "finished at the end of the text";
    case GPM_FINISHED_AT_QUOTE: return "finished at an unquoted >";
    case GPM_TOO_LARGE: return "text, cells or output too large";
    case GPM_NO_SCANS_LEFT: return "no scans left";
    case GPM_NO_CELLS_LEFT: return "no cells left";
    case GPM_NO_OUTPUT_LEFT: return "no room left for output";
    case GPM_APPLIES_NOTHING: return "a ; in a body applies no call begun in that body";
    case GPM_PARAMETER_IN_TEXT: return "a ~ in the text while a call is collected";
    case GPM_FETCHES_NOTHING: return "no digit or letter a to z after ~ in a body";
    case GPM_NOT_SUPPLIED: return "a parameter was not supplied";
    case GPM_BODY_IN_CALL: return "a body ended inside a call begun in it";
    case GPM_NOT_DEFINED: return "a name is not defined";
    case GPM_QUOTE_IN_CALL: return "an unquoted > while a call is collected";
    case GPM_TEXT_IN_QUOTES: return "the text ended inside quotes";
    case GPM_TEXT_IN_CALL: return "the text ended inside a call";
    case GPM_BUILT_IN: return "VAL, UPDATE or LOCK on a built-in";
    case GPM_BODY_BEING_READ: return "UPDATE of a definition whose body is being read";
    case GPM_UPDATE_TOO_LONG: return "UPDATE longer than the value first defined";
    case GPM_NOT_A_NUMBER: return "an operand is not a number in range";
    case GPM_DIVISOR_ZERO: return "the divisor is zero";
    case GPM_RESULT_OUT_OF_RANGE: return "a result is out of range";
    case GPM_NOT_A_TABLE: return "the signs are no table of 256 kinds";
    case GPM_SIGN_NOT_ONE_BYTE: return "a sign has no byte or several";
    case GPM_RESERVED_SIGN: return "a letter, a digit, +, - or * is a sign";
    case GPM_EMPTY_NAME: return "DEF of an empty name";
    case GPM_NO_SCRIPT: return "no script gives the wanted keys";
    case GPM_NUMBERS_TOO_SHORT: return "origins or rules shorter than the output";
    case GPM_LOCKED: return "UPDATE of a locked definition";
    }
    return "an outcome that gpm.h does not have";
}

static void print_report(const gpm_report *report)
{
    fprintf(stderr, "outcome %" PRIu64 ": %s\n", report->outcome, in_words(report->outcome));
    fprintf(stderr, "bytes read: %" PRIu64 "\n", report->read);
    fprintf(stderr, "bytes written: %" PRIu64 "\n", report->written);
    fprintf(stderr, "scans: %" PRIu64 "\n", report->scans);
    fprintf(stderr, "most cells charged: %" PRIu64 "\n", report->most);
    fprintf(stderr, "live definitions: %" PRIu64 "\n", report->live);
}

/* The argument at a place as a number up to `most`, or `otherwise` where there are fewer arguments. */
static uint64_t argument(int argc, char **argv, int at, uint64_t otherwise, uint64_t most)
{
    char *end;
    unsigned long long number;

    if (at >= argc)
        return otherwise;
    errno = 0;
    number = strtoull(argv[at], &end, 10);
    if (argv[at][0] < '0' || argv[at][0] > '9' || *end != '\0' || errno != 0 || number > most) {
        fprintf(stderr, "%s is not a number up to %" PRIu64 "\n", argv[at], most);
        exit(2);
    }
    return number;
}

int main(int argc, char **argv)
{
    uint64_t cells_lent = argument(argc, argv, 1, 16384, GPM_CELLS_LIMIT + 1);
    uint64_t output_lent = argument(argc, argv, 2, GPM_OUTPUT_LIMIT, GPM_OUTPUT_LIMIT + 1);
    uint64_t allowance = argument(argc, argv, 3, 10000000, UINT64_MAX);
    size_t length = fread(text, 1, sizeof text, stdin);
    gpm_report report;

    if (ferror(stdin)) {
        fputs("the script could not be read\n", stderr);
        return 2;
    }
    report = gpm_expand(text, length, cells, (size_t)cells_lent, output, (size_t)output_lent, allowance);
    print_report(&report);
    if (report.outcome > GPM_FINISHED_AT_QUOTE)
        return 1;
    if (fwrite(output, 1, (size_t)report.written, stdout) != report.written || fflush(stdout) != 0) {
        fputs("the output could not be written\n", stderr);
        return 2;
    }
    return 0;
}
