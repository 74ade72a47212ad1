#include "facts.h"

/* Right is no at every position from `from` to `to` whose gap to i is within. */
static int is_right_no(const struct span *s, size_t from, size_t to) {
    for (size_t j = from; j <= to; j++) {
        size_t earlier = j < s->i ? j : s->i, later = j < s->i ? s->i : j;
        if (s->right[j] && is_within(s->e, s->log, earlier, later)) {
            return 0;
        }
    }
    return 1;
}

static uint32_t gap(const struct span *s, size_t earlier, size_t later) {
    return s->log->times[later] - s->log->times[earlier];
}

static int is_late(const struct span *s, size_t earlier, size_t later) {
    return s->e.high != UINT32_MAX && gap(s, earlier, later) > s->e.high;
}

/* The first position from which on left holds up to i; the one before it is where it fails last. */
static size_t left_holds_from(const struct span *s) {
    size_t from = s->i + 1;
    while (from > 0 && s->left[from - 1]) {
        from--;
    }
    return from;
}

static size_t first_near(const struct span *s) {
    size_t near = 0;
    while (is_late(s, near, s->i)) {
        near++;
    }
    return near;
}

int is_since_fact(const struct span *s, enum cause cause, size_t j) {
    size_t holds_from = left_holds_from(s), near = first_near(s);
    size_t from = holds_from > near ? holds_from - 1 : near;

    if (j > s->i) {
        return 0;
    }
    if (cause == YES) {
        int fits = j >= from && s->right[j] && is_within(s->e, s->log, j, s->i);
        return fits && (j == from || is_right_no(s, from, j - 1));
    }
    return j == from && (cause == BY_LEFT) == (holds_from > near) && is_right_no(s, from, s->i);
}

int is_until_fact(const struct span *s, enum cause cause, size_t j) {
    if (j < s->i || j >= s->log->count) {
        return 0;
    }
    for (size_t k = s->i; k < j; k++) {
        if (is_late(s, s->i, k) || (cause == YES && !s->left[k])) {
            return 0;
        }
    }
    if (cause == YES) {
        int fits = s->right[j] && is_within(s->e, s->log, s->i, j);
        return fits && (j == s->i || is_right_no(s, s->i, j - 1));
    }
    return (cause == BY_LEFT ? !s->left[j] : is_late(s, s->i, j)) && is_right_no(s, s->i, j);
}
