/* A week: one rule, one log, one point, and what the header says of them from call to call. */
#ifndef WEEK_H
#define WEEK_H

#include "call.h"
#include "plain.h"

enum { MOST_RECORDS = 1500, MOST_LOG = 16 + 8 * MOST_RECORDS + 64 };

struct week {
    uint8_t rule[MOST_RULE_ROOM];
    size_t rule_len;
    struct shape shape;
    uint8_t version;                   /* of the log: 1, or 2, which may be trimmed to 3 */
    uint8_t records[8 * MOST_RECORDS]; /* of the untouched log */
    size_t count;
    uint64_t point[MOST_POINT];
    size_t point_len;
    uint8_t verdicts[MOST_RECORDS]; /* of all calls, laid end to end */
    uint64_t given, seen, wanted;   /* as havdrims_status has to tell them */
    int closed;
    int trimmed; /* the log is brought as version 3, from record `dropped` on */
    uint64_t dropped;
    uint8_t scribble; /* what stands in the records before the first wanted, unless it is 0 */
    int sound;        /* rule, point and log are as the header wants them: then all that it promises is checked */
};

/* The bytes of the log that is brought, and those that a call writes. */
extern uint8_t brought[MOST_LOG], sheet[MOST_BYTES];

/* The week's rule and point. */
struct given lent_to(struct week *w);

/* Lends so many bytes of `sheet`, each of which is `mark`. */
void lend_sheet(struct given *g, size_t length, uint8_t mark);

/* Writes the untouched log's first n records into `brought`. The log's length. */
size_t untouched_log(const struct week *w, uint64_t n);

/* The same as this week brings it: perhaps trimmed, and perhaps overwritten where it may be. */
size_t bring(const struct week *w, uint64_t n);

/* How many positions a rule settles on the untouched log's first n records, and their verdicts: one run from a fresh point. */
uint64_t run_of(const struct week *w, const uint8_t *rule, size_t rule_len, uint64_t n, int closing, uint8_t *verdicts);

/* That of the week's rule. */
uint64_t one_run(const struct week *w, uint64_t n, int closing, uint8_t *verdicts);

/* The positions among the untouched log's first n records. */
struct positions positions_of(const struct week *w, uint64_t n);

/* Holds an accepted resume or close of a sound week, which brought n records, to one run and to the plain reading. */
void check_verdicts(struct week *w, uint64_t n, int closing, const struct given *g);

#endif
