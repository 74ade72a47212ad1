/* One call, made twice on lent memory, and what the header promises of every call. */
#ifndef CALL_H
#define CALL_H

#include "../include/havdrims.h"

enum call { MEASURE, FORMULAS, OPEN, RESUME, CLOSE, TRIM, EXPLAIN, SUMMARY, STATUS, TALLY, PARSE, WORST_LOG, SIMULATE, CALLS };

enum { MOST_BYTES = 1 << 16, MOST_POINT = HAVDRIMS_MOST_WORDS + 8 };

/* What a call is given, as far as it takes it, and what it leaves. */
struct given {
    const uint8_t *first; /* the rule; parse's text; tally's sheet */
    size_t first_len;
    const uint8_t *log;
    size_t log_len;
    uint64_t *point;
    size_t point_len;
    uint8_t *out; /* the sheet; what trim, explain, parse, worst_log and simulate write */
    size_t out_len;
    uint64_t scalars[6];    /* the numbers that go in, in the header's order */
    uint64_t numbers[4][8]; /* the numbers that come out, in the header's order */
};

/*
 * Makes the call twice, with every buffer against the forbidden page behind it and then against the one before it, and gives
 * its number. Ends the program with a message unless
 *
 *   both calls leave the same,
 *   the number is one that the header names for this call,
 *   a refused call has changed nothing,
 *   and an accepted one has written no more than it says.
 *
 * What the call wrote then stands in `given`.
 */
uint32_t make_call(enum call call, struct given *given);

/* Prints the refusals that the header names for each call and that no call so far has met, and how many of all were met. */
void print_refusals_met(void);

/* Ends the program with a message unless it holds. */
void must(int holds, const char *what);

#endif
