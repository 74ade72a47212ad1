/* Reads the text of a reason back, and holds its facts to the log. */
#ifndef REASON_H
#define REASON_H

#include "plain.h"

/* What a reason is about. */
struct subject {
    const uint8_t *rule;
    const struct shape *shape;
    const struct positions *log;
    const struct plain *plain; /* null where rule and log are too large: then the facts about operands are not looked at */
};

/* Whether the text tells a yes. Ends the program if it is not in the form that the header gives, or a fact does not hold. */
int told(const struct subject *subject, int formula, uint64_t position, const uint8_t *text, size_t length);

#endif
