/* What a since or until has to say of a position, found in the plain reading. */
#ifndef FACTS_H
#define FACTS_H

#include "plain.h"

/* A since or until at a position i, with its operands' answers. */
struct span {
    struct entry e;
    const struct positions *log;
    const uint8_t *left, *right;
    size_t i;
};

enum cause { YES, BY_LEFT, BY_TIME };

/* Whether a since says just this: yes by its earliest position j, or no by the position at which left fails or time ends. */
int is_since_fact(const struct span *s, enum cause cause, size_t j);

/*
 * Whether an until may say this. Where it is no, which positions of left are answered is not known here: that none before j
 * is answered no is not looked at.
 */
int is_until_fact(const struct span *s, enum cause cause, size_t j);

#endif
