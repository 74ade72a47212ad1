/* The plain reading of a rule on a log as it ends: the definition of each operator, word for word, however slow. */
#ifndef PLAIN_H
#define PLAIN_H

#include "rule.h"

/* A log's positions. */
struct positions {
    size_t count;
    const uint32_t *times;
    const uint32_t *sets;
};

enum { MOST_CELLS = 1 << 16, MOST_WORK = 1 << 20 };

/* Whether each entry holds at each position. */
struct plain {
    size_t positions;
    uint8_t answers[MOST_CELLS];
};

/* Whether so much is read in a moment. */
int is_read_soon(const struct shape *shape, size_t positions);

void read_plainly(const uint8_t *rule, const struct shape *shape, const struct positions *log, struct plain *plain);

/* Entry k's answers, one for each position. */
const uint8_t *answers_of(const struct plain *plain, int k);

/* The verdict byte of a position. */
uint8_t plain_verdict(const struct shape *shape, const struct plain *plain, size_t position);

/* The gap from an earlier position to a later one lies between low and high. */
int is_within(struct entry e, const struct positions *log, size_t earlier, size_t later);

#endif
