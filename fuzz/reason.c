#include "reason.h"

#include <inttypes.h>
#include <stdio.h>
#include <string.h>

#include "call.h"
#include "facts.h"

struct reading {
    const struct subject *of;
    const uint8_t *at, *end;
};

/* A line's parts: the entry, the position, a word, and up to two more. */
struct line {
    int entry;
    uint64_t position;
    int parts;
    char word[8], first[16], second[8];
};

/* Reads the next line, and stays before it. Its length with the line feed. */
static size_t look(const struct reading *r, struct line *line) {
    char text[32] = "", again[64];
    const uint8_t *feed = memchr(r->at, '\n', (size_t)(r->end - r->at));
    must(feed != NULL && feed - r->at < 29, "a line of a reason without an end");
    memcpy(text, r->at, (size_t)(feed - r->at));
    line->first[0] = line->second[0] = 0;
    line->parts =
        sscanf(text, "%d %" SCNu64 " %7s %15s %7s", &line->entry, &line->position, line->word, line->first, line->second);
    must(line->parts >= 3, "a line of a reason with too few parts");
    snprintf(again, sizeof again, "%d %" PRIu64 " %s%s%s%s%s", line->entry, line->position, line->word,
             line->parts > 3 ? " " : "", line->first, line->parts > 4 ? " " : "", line->second);
    must(strcmp(text, again) == 0, "a line of a reason that is not in its form");
    return (size_t)(feed - r->at) + 1;
}

static int told_at(struct reading *r, int k, uint64_t i);

/* The operand of a previous or next, where the gap that the line gives is within. */
static int told_beside(struct reading *r, const struct line *line, int k, uint64_t i, int is_previous) {
    struct entry e = entry_of(r->of->rule, k);
    const uint32_t *times = r->of->log->times;
    uint64_t gap;

    must(line->parts == 4, "previous or next without a gap");
    if (is_previous && strcmp(line->first, "none") == 0) {
        must(i == 0, "none before a position that is not the first");
        return 0;
    }
    must(sscanf(line->first, "%" SCNu64, &gap) == 1, "a gap that is no number");
    must(is_previous ? i > 0 : i + 1 < r->of->log->count, "a gap beyond the log's ends");
    must(gap == (is_previous ? times[i] - times[i - 1] : times[i + 1] - times[i]), "another gap than the log's");
    if (gap < e.low || (e.high != UINT32_MAX && gap > e.high)) {
        return 0;
    }
    return told_at(r, r->of->shape->right[k], is_previous ? i - 1 : i + 1);
}

static int told_or(struct reading *r, int k, uint64_t i) {
    struct line operand;
    look(r, &operand);
    if (operand.entry == r->of->shape->right[k]) {
        must(told_at(r, operand.entry, i), "an or by its right side, which is no");
        return 1;
    }
    if (told_at(r, r->of->shape->left[k], i)) {
        return 1;
    }
    must(!told_at(r, r->of->shape->right[k], i), "an or with both sides, of which one is yes");
    return 0;
}

static enum cause cause_of(const struct line *line) {
    if (line->parts == 4) {
        return YES;
    }
    must(strcmp(line->second, "left") == 0 || strcmp(line->second, "time") == 0, "another cause of a no");
    return line->second[0] == 'l' ? BY_LEFT : BY_TIME;
}

static int told_span(const struct reading *r, const struct line *line, int k, uint64_t i) {
    const struct subject *of = r->of;
    struct span span = {.e = entry_of(of->rule, k), .log = of->log, .i = i};
    enum cause cause = cause_of(line);
    uint64_t j;

    must(line->parts >= 4 && sscanf(line->first, "%" SCNu64, &j) == 1, "since or until without a position");
    if (of->plain != NULL) {
        span.left = answers_of(of->plain, of->shape->left[k]);
        span.right = answers_of(of->plain, of->shape->right[k]);
        must(span.e.kind == SINCE ? is_since_fact(&span, cause, j) : is_until_fact(&span, cause, j),
             "a since or until says what does not hold");
    }
    return cause == YES;
}

static int told_letter(const struct reading *r, const struct line *line, struct entry e) {
    char word[16];
    int yes = r->of->log->sets[line->position] >> e.letter & 1;
    snprintf(word, sizeof word, "e%d", e.letter);
    must(line->parts == 4 && strcmp(line->word, word) == 0, "another letter");
    must(strcmp(line->first, yes ? "yes" : "no") == 0, "a letter that stands there is told no, or one that does not yes");
    return yes;
}

/* Reads the lines of entry k at position i. */
static int told_at(struct reading *r, int k, uint64_t i) {
    static const char *const words[] = {"", "not", "or", "prev", "next", "since", "until"};
    struct entry e = entry_of(r->of->rule, k);
    struct line line;
    r->at += look(r, &line);
    must(line.entry == k && line.position == i, "a line of another entry or position");
    if (e.kind == LETTER) {
        return told_letter(r, &line, e);
    }
    must(strcmp(line.word, words[e.kind]) == 0, "another word than the entry's");
    switch (e.kind) {
    case NOT:
        must(line.parts == 3, "not with a number");
        return !told_at(r, r->of->shape->right[k], i);
    case OR:
        must(line.parts == 3, "or with a number");
        return told_or(r, k, i);
    case PREVIOUS:
    case NEXT:
        return told_beside(r, &line, k, i, e.kind == PREVIOUS);
    default:
        return told_span(r, &line, k, i);
    }
}

int told(const struct subject *subject, int formula, uint64_t position, const uint8_t *text, size_t length) {
    struct reading r = {subject, text, text + length};
    if (subject->shape->entries == 0) {
        must(length == 6 && memcmp(text, "empty\n", 6) == 0, "another reason than empty");
        return 1;
    }
    int yes = told_at(&r, subject->shape->roots[formula], position);
    must(r.at == r.end, "lines behind the reason");
    return yes;
}
