#include "plain.h"

int is_read_soon(const struct shape *shape, size_t positions) {
    size_t cells = (size_t)shape->entries * positions;
    return cells <= MOST_CELLS && cells * positions <= MOST_WORK;
}

int is_within(struct entry e, const struct positions *log, size_t earlier, size_t later) {
    uint32_t gap = log->times[later] - log->times[earlier];
    return gap >= e.low && (e.high == UINT32_MAX || gap <= e.high);
}

/* Some j up to i within the interval at which right holds, and left holds behind j up to i. */
static int since_at(struct entry e, const struct positions *log, const uint8_t *left, const uint8_t *right, size_t i) {
    for (size_t j = i;; j--) {
        if (right[j] && is_within(e, log, j, i)) {
            return 1;
        }
        if (j == 0 || !left[j]) {
            return 0;
        }
    }
}

/* Some j from i on within the interval at which right holds, and left holds from i on before j. */
static int until_at(struct entry e, const struct positions *log, const uint8_t *left, const uint8_t *right, size_t i) {
    for (size_t j = i; j < log->count; j++) {
        if (right[j] && is_within(e, log, i, j)) {
            return 1;
        }
        if (!left[j]) {
            return 0;
        }
    }
    return 0;
}

static int holds(struct entry e, const struct positions *log, const uint8_t *left, const uint8_t *right, size_t i) {
    switch (e.kind) {
    case LETTER:
        return log->sets[i] >> e.letter & 1;
    case NOT:
        return !right[i];
    case OR:
        return left[i] || right[i];
    case PREVIOUS:
        return i > 0 && is_within(e, log, i - 1, i) && right[i - 1];
    case NEXT:
        return i + 1 < log->count && is_within(e, log, i, i + 1) && right[i + 1];
    case SINCE:
        return since_at(e, log, left, right, i);
    default:
        return until_at(e, log, left, right, i);
    }
}

const uint8_t *answers_of(const struct plain *plain, int k) {
    return plain->answers + (size_t)k * plain->positions;
}

void read_plainly(const uint8_t *rule, const struct shape *shape, const struct positions *log, struct plain *plain) {
    plain->positions = log->count;
    for (int k = 0; k < shape->entries; k++) {
        const uint8_t *left = shape->left[k] < 0 ? NULL : answers_of(plain, shape->left[k]);
        const uint8_t *right = shape->right[k] < 0 ? NULL : answers_of(plain, shape->right[k]);
        for (size_t i = 0; i < log->count; i++) {
            plain->answers[(size_t)k * log->count + i] = (uint8_t)holds(entry_of(rule, k), log, left, right, i);
        }
    }
}

uint8_t plain_verdict(const struct shape *shape, const struct plain *plain, size_t position) {
    uint8_t verdict = shape->entries == 0;
    for (int f = 0; shape->entries > 0 && f < shape->formulas; f++) {
        verdict |= (uint8_t)(answers_of(plain, shape->roots[f])[position] << f);
    }
    return verdict;
}
