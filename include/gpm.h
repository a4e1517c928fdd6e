/*
 * Vuzhatten: Strachey's General Purpose Macrogenerator in lent memory, for C11 and C++17 on x86-64.
 *
 * One call expands one text: gpm_expand with the standard signs $ , ; ~ < >, gpm_expand_signs with signs of the
 * caller's own, gpm_expand_origins likewise and with where each byte of the output came from. The other way, gpm_script
 * makes a text that expands to given keys. A call allocates nothing, keeps nothing between calls and calls nothing of
 * the operating system; calls on memory of their own may run at the same time. It always returns, one that expands
 * after at most `allowance` scans. What it reports and leaves is proved, for every text, all signs, all keys and all
 * lent memory, where the caller keeps what "The caller" asks below.
 */
#ifndef GPM_H
#define GPM_H

#include <stddef.h>
#include <stdint.h>

#ifdef __cplusplus
extern "C" {
#endif

/* The most that may be lent of each; one more is refused with GPM_TOO_LARGE. */
#define GPM_TEXT_LIMIT 65536   /* bytes of text */
#define GPM_CELLS_LIMIT 65536  /* cells of 32 bits */
#define GPM_OUTPUT_LIMIT 65536 /* bytes of output */
#define GPM_WANTED_LIMIT 65534 /* keys wanted of gpm_script: their script has two bytes more */

/* How a run ended. 0 and 1 finish it, 2 to 5 are about what was lent, 10 to 24, 33 and 36 are faults of the text, and
 * 30 to 32 refuse signs; 34 is gpm_script's alone, 35 gpm_expand_origins's. Below the standard signs stand for those in
 * force. */
enum gpm_outcome {
    GPM_FINISHED = 0,             /* the text ended outside quotes and calls */
    GPM_FINISHED_AT_QUOTE = 1,    /* an unquoted > in the text, no call being collected; the rest is unread */
    GPM_TOO_LARGE = 2,            /* text, cells or output over its limit: all counts 0, nothing touched */
    GPM_NO_SCANS_LEFT = 3,        /* a further scan is due and the allowance has been used */
    GPM_NO_CELLS_LEFT = 4,        /* the charge would exceed the cells lent */
    GPM_NO_OUTPUT_LEFT = 5,       /* the bytes of this scan would exceed the output lent */
    GPM_APPLIES_NOTHING = 10,     /* an unquoted ; in a body, with no call begun in that body still open */
    GPM_PARAMETER_IN_TEXT = 11,   /* an unquoted ~ in the text while a call is collected */
    GPM_FETCHES_NOTHING = 12,     /* ~ in a body, and next is no digit or letter a to z, or the body ends */
    GPM_NOT_SUPPLIED = 13,        /* a parameter fetched, or needed by a built-in, was not supplied */
    GPM_BODY_IN_CALL = 14,        /* a body ended inside a call begun in it */
    GPM_NOT_DEFINED = 15,         /* a name is not defined */
    GPM_QUOTE_IN_CALL = 16,       /* an unquoted > in the text while a call is collected */
    GPM_TEXT_IN_QUOTES = 17,      /* the text ended inside quotes */
    GPM_TEXT_IN_CALL = 18,        /* the text ended inside a call */
    GPM_BUILT_IN = 19,            /* VAL, UPDATE or LOCK on a built-in */
    GPM_BODY_BEING_READ = 20,     /* UPDATE of a definition whose body is being read */
    GPM_UPDATE_TOO_LONG = 21,     /* UPDATE longer than the value first defined */
    GPM_NOT_A_NUMBER = 22,        /* an operand is not a number in range */
    GPM_DIVISOR_ZERO = 23,        /* the divisor is zero */
    GPM_RESULT_OUT_OF_RANGE = 24, /* the result is out of range */
    GPM_NOT_A_TABLE = 30,         /* the signs are not 256 bytes, or one is above 6: all counts 0, nothing touched */
    GPM_SIGN_NOT_ONE_BYTE = 31,   /* a kind from 1 to 6 is that of no byte or of several: the same */
    GPM_RESERVED_SIGN = 32,       /* a letter, a digit, +, - or * is a sign: the same */
    GPM_EMPTY_NAME = 33,          /* DEF of an empty name */
    GPM_NO_SCRIPT = 34,           /* no script of any length gives the wanted keys: their quotes do not match */
    GPM_NUMBERS_TOO_SHORT = 35,   /* origins or rules shorter than the output lent: all counts 0, nothing touched */
    GPM_LOCKED = 36               /* UPDATE of a locked definition */
};

/* The name of 12 before letters stood for parameters, for programs that have it. */
#define GPM_PARAMETER_NOT_DIGIT GPM_FETCHES_NOTHING

/*
 * Signs are a table of 256 bytes: for each byte its kind. An accepted one has each kind from 1 to 6 for exactly one
 * byte, and no letter, digit, +, - or * among these.
 */
#define GPM_SIGNS_LENGTH 256

enum gpm_kind {
    GPM_KIND_PLAIN = 0,
    GPM_KIND_OPENS = 1,     /* $ begins a call */
    GPM_KIND_SEPARATES = 2, /* , separates arguments */
    GPM_KIND_APPLIES = 3,   /* ; applies a call */
    GPM_KIND_FETCHES = 4,   /* ~ fetches a parameter */
    GPM_KIND_QUOTES = 5,    /* < begins a quotation */
    GPM_KIND_UNQUOTES = 6   /* > ends it */
};

/* The standard signs, to begin a table of one's own with: uint8_t signs[GPM_SIGNS_LENGTH] = GPM_STANDARD_SIGNS; */
#define GPM_STANDARD_SIGNS { \
    0, 0, 0, 0, 0, 0, 0, 0, 0, 0, 0, 0, 0, 0, 0, 0, \
    0, 0, 0, 0, 0, 0, 0, 0, 0, 0, 0, 0, 0, 0, 0, 0, \
    0, 0, 0, 0, 1, 0, 0, 0, 0, 0, 0, 0, 2, 0, 0, 0, \
    0, 0, 0, 0, 0, 0, 0, 0, 0, 0, 0, 3, 5, 0, 6, 0, \
    0, 0, 0, 0, 0, 0, 0, 0, 0, 0, 0, 0, 0, 0, 0, 0, \
    0, 0, 0, 0, 0, 0, 0, 0, 0, 0, 0, 0, 0, 0, 0, 0, \
    0, 0, 0, 0, 0, 0, 0, 0, 0, 0, 0, 0, 0, 0, 0, 0, \
    0, 0, 0, 0, 0, 0, 0, 0, 0, 0, 0, 0, 0, 0, 4, 0, \
    0, 0, 0, 0, 0, 0, 0, 0, 0, 0, 0, 0, 0, 0, 0, 0, \
    0, 0, 0, 0, 0, 0, 0, 0, 0, 0, 0, 0, 0, 0, 0, 0, \
    0, 0, 0, 0, 0, 0, 0, 0, 0, 0, 0, 0, 0, 0, 0, 0, \
    0, 0, 0, 0, 0, 0, 0, 0, 0, 0, 0, 0, 0, 0, 0, 0, \
    0, 0, 0, 0, 0, 0, 0, 0, 0, 0, 0, 0, 0, 0, 0, 0, \
    0, 0, 0, 0, 0, 0, 0, 0, 0, 0, 0, 0, 0, 0, 0, 0, \
    0, 0, 0, 0, 0, 0, 0, 0, 0, 0, 0, 0, 0, 0, 0, 0, \
    0, 0, 0, 0, 0, 0, 0, 0, 0, 0, 0, 0, 0, 0, 0, 0 \
}

/* What a run reports. The byte at which a run is refused counts as read, and that scan counts. */
typedef struct gpm_report {
    uint64_t outcome; /* one of enum gpm_outcome */
    uint64_t read;    /* bytes of the text read */
    uint64_t written; /* bytes of output written */
    uint64_t scans;   /* scans made */
    uint64_t most;    /* the highest charge, in cells */
    uint64_t live;    /* definitions standing at the end, built-ins not counted */
} gpm_report;

/*
 * Expands a text with the standard signs.
 *
 * With outcome 0, 1, 3, 4, 5, 10 to 24, 33 or 36: the first report.written bytes of the output are the text's
 * expansion so far, the bytes behind them are as they were, and all cells are 0.
 * With outcome 2: nothing is touched.
 * What the cells and the output hold before does not matter. The text is never written.
 *
 * The caller: text, cells and output point to as many bytes, cells and bytes as their lengths say, and not to
 * NULL, also where a length is 0; cells lies at a multiple of 4; none of the three overlaps another; nothing else
 * reads or writes cells and output, or writes the text, before the call returns.
 */
gpm_report gpm_expand(const uint8_t *text, size_t text_length, uint32_t *cells, size_t cells_length, uint8_t *output,
                      size_t output_length, uint64_t allowance);

/*
 * The same with the caller's own signs in place of the standard ones; with GPM_STANDARD_SIGNS it is gpm_expand.
 *
 * The checks are made in the order 2, 30, 31, 32, and the first that holds is the outcome, with all counts 0 and
 * nothing touched. The signs may have any length and content, and are never written.
 *
 * The caller: as above; the signs point to as many bytes as their length says, and not to NULL, and overlap neither
 * cells nor output; nothing else writes them before the call returns.
 */
gpm_report gpm_expand_signs(const uint8_t *signs, size_t signs_length, const uint8_t *text, size_t text_length,
                            uint32_t *cells, size_t cells_length, uint8_t *output, size_t output_length,
                            uint64_t allowance);

/* By which rule a byte of the output was written. */
enum gpm_rule {
    GPM_COPIED_FROM_TEXT = 1, /* copied from the text, quoted or not, also a , ; or ~ that is copied */
    GPM_COPIED_FROM_BODY = 2, /* copied from the body of a definition, quoted or not */
    GPM_FETCHED = 3,          /* fetched by ~, whichever the parameter */
    GPM_GIVEN_BY_VAL = 4,     /* given by VAL */
    GPM_GIVEN_BY_BUILT_IN = 5 /* given by another built-in */
};

/*
 * The same as gpm_expand_signs, and for each byte of the output where it came from.
 *
 * Report, output and cells are those of gpm_expand_signs. For each of the first report.written places, origins holds
 * the bytes of the text read by the end of the scan that wrote the output byte at that place, and rules holds one of
 * enum gpm_rule. Origins never fall from place to place, are at least 1 and are at most report.read; so
 * text[origins[i] - 1] is always a byte of the text. A byte copied from the text is that byte; for all others it is how
 * far the text had been read, up to the ; of the call. The places behind these are as they were in both.
 *
 * The checks are made in the order 2, 30, 31, 32, 35, and the first that holds is the outcome, with all counts 0 and
 * nothing touched. origins and rules may be longer than the output, and what they hold before does not matter.
 *
 * The caller: as above; origins and rules point to as many numbers as their lengths say, and not to NULL, and lie at
 * multiples of 4; neither overlaps the other or anything else that is lent; nothing else reads or writes them before
 * the call returns.
 */
gpm_report gpm_expand_origins(const uint8_t *signs, size_t signs_length, const uint8_t *text, size_t text_length,
                              uint32_t *cells, size_t cells_length, uint8_t *output, size_t output_length,
                              uint32_t *origins, size_t origins_length, uint32_t *rules, size_t rules_length,
                              uint64_t allowance);

/*
 * Writes a script for the wanted bytes, with the standard signs: one that expands to exactly these bytes. It is the
 * wanted bytes inside one pair of quotes.
 *
 * The answer is one number, outcome times 4,294,967,296 plus the script's length, which GPM_SCRIPT_OUTCOME and
 * GPM_SCRIPT_LENGTH take apart. The checks are made in this order, and the first that holds is the outcome, with length 0
 * and the output untouched:
 *
 *   2   wanted over GPM_WANTED_LIMIT, or output over GPM_OUTPUT_LIMIT
 *   34  no script of any length gives these bytes; that is so exactly where their quotes do not match
 *   5   output shorter than the script, which has wanted_length + 2 bytes
 *
 * With outcome 0 the first GPM_SCRIPT_LENGTH bytes of the output are the script, and those behind them are as they were.
 * gpm_expand finishes it with outcome 0 and the wanted bytes wherever it is lent, within the limits, at least
 * wanted_length bytes of output and wanted_length + 3 scans; no cells are needed. The wanted bytes are never written.
 *
 * The caller: wanted and output point to as many bytes as their lengths say, and not to NULL, also where a length is 0;
 * they do not overlap; nothing else reads or writes the output, or writes the wanted bytes, before the call returns.
 */
uint64_t gpm_script(const uint8_t *wanted, size_t wanted_length, uint8_t *output, size_t output_length);

/* The parts of its answer. */
#define GPM_SCRIPT_OUTCOME(answer) ((uint32_t)((uint64_t)(answer) >> 32))
#define GPM_SCRIPT_LENGTH(answer) ((size_t)((uint64_t)(answer) & UINT32_MAX))

#ifdef __cplusplus
}
#endif

#endif
