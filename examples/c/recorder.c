/*
 * Reads recorded keys from standard input and writes a script for them to standard output: expanded, it gives exactly
 * these keys.
 *
 *     recorder < KEYS > SCRIPT
 *
 * The exit status is 0 where the script is written, 1 where the keys have none, and 2 where they could not be read or the
 * script could not be written.
 */
#include "gpm.h"

#include <stdio.h>

/* One more than may be wanted, so that too many keys are refused and not cut. */
static uint8_t keys[GPM_WANTED_LIMIT + 1];
static uint8_t script[GPM_OUTPUT_LIMIT];

int main(void)
{
    size_t count = fread(keys, 1, sizeof keys, stdin);
    uint64_t answer;
    size_t length;

    if (ferror(stdin)) {
        fputs("the keys could not be read\n", stderr);
        return 2;
    }
    answer = gpm_script(keys, count, script, sizeof script);
    switch (GPM_SCRIPT_OUTCOME(answer)) {
    case GPM_FINISHED:
        break;
    case GPM_NO_SCRIPT:
        fputs("no script gives these keys: their quotes < and > do not match\n", stderr);
        return 1;
    default:
        fprintf(stderr, "more than %d keys\n", GPM_WANTED_LIMIT);
        return 1;
    }
    length = GPM_SCRIPT_LENGTH(answer);
    if (fwrite(script, 1, length, stdout) != length || fflush(stdout) != 0) {
        fputs("the script could not be written\n", stderr);
        return 2;
    }
    return 0;
}
