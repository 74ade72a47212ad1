/* Rules: made of the fuzzer's bytes, measured, and said as text. */
#ifndef RULE_H
#define RULE_H

#include "../include/havdrims.h"
#include "input.h"

enum { MOST_RULE_ROOM = HAVDRIMS_MOST_RULE + 64 };

enum kind { LETTER, NOT, OR, PREVIOUS, NEXT, SINCE, UNTIL };

struct entry {
    int kind, letter;
    uint32_t low, high;
};

/* What a rule says of itself, reckoned from its entries as the papers say it. */
struct shape {
    int entries;
    int formulas;
    int roots[HAVDRIMS_MOST_FORMULAS]; /* the last entry of each formula */
    int left[128], right[128];         /* an entry's operands, or -1; the only one is the right one */
    uint64_t words;
    uint64_t reach;
    uint64_t looks_back; /* the most previous entries on a path to a letter */
};

/* Writes a rule with nothing wrong in it, unless its need is too large. Its length. */
size_t make_rule(struct input *in, uint8_t *rule);

/* Entry k of a rule. */
struct entry entry_of(const uint8_t *rule, int k);

/* Of a rule with nothing wrong in it, unless its need is too large. */
struct shape shape_of(const uint8_t *rule);

/* Writes the text that says a rule's first formula, with brackets around every part. Its length, or 0 if `room` is short. */
size_t say(const uint8_t *rule, const struct shape *shape, uint8_t *text, size_t room);

#endif
