#include "rule.h"

#include <stdio.h>
#include <string.h>

static const int operands[7] = {0, 1, 2, 1, 1, 2, 2};

static void take_interval(struct input *in, int kind, uint32_t *low, uint32_t *high) {
    static const uint32_t highs[] = {0, 1, 2, 3, 5, 9, 30, 62, 63, 64, 65, 90, 300, 1200, 3600, UINT32_MAX};
    uint8_t how = take(in);
    *high = highs[how % 16];
    if (kind == UNTIL && *high == UINT32_MAX) {
        *high = take(in);
    }
    uint32_t most = *high == UINT32_MAX ? 3600 : *high;
    *low = how < 128 ? 0 : how < 192 ? (how >> 4) % 4 : take(in);
    if (*low > most) {
        *low = most;
    }
}

static size_t put_entry(struct input *in, uint8_t *at, int kind) {
    uint32_t low = 0, high = 0;
    uint8_t letter = 0;
    if (kind == LETTER) {
        letter = take(in);
        letter = letter < 192 ? letter % 4 : letter % 32;
    } else if (kind >= PREVIOUS) {
        take_interval(in, kind, &low, &high);
    }
    at[0] = (uint8_t)kind;
    at[1] = letter;
    put(at + 2, low, 4);
    put(at + 6, high, 4);
    return 10;
}

size_t make_rule(struct input *in, uint8_t *rule) {
    uint8_t how = take(in);
    int version = 1 + how % 2, most_formulas = version == 1 ? 1 : 1 + how / 2 % 8;
    int wished = how < 192 ? how / 16 : 12 + take(in) % 117;
    int count = 0, open = 0;
    size_t length = 8;

    /* Each open formula beyond those wanted takes an `or` at the end: there has to be room for it. */
    while (count < wished && count + 1 + (open + 1 - most_formulas) <= 128) {
        int kind = take(in) % 7;
        if (operands[kind] > open) {
            kind = LETTER;
        }
        length += put_entry(in, rule + length, kind);
        open += 1 - operands[kind];
        count++;
    }
    if (count == 0 && version == 2) {
        length += put_entry(in, rule + length, LETTER);
        count = open = 1;
    }
    for (; open > most_formulas; open--, count++) {
        length += put_entry(in, rule + length, OR);
    }
    memcpy(rule, "KRL", 3);
    put(rule + 3, (uint64_t)version, 2);
    rule[5] = (uint8_t)count;
    rule[6] = rule[7] = 0;
    return length;
}

struct entry entry_of(const uint8_t *rule, int k) {
    const uint8_t *at = rule + 8 + 10 * k;
    return (struct entry){at[0], at[1], (uint32_t)get(at + 2, 4), (uint32_t)get(at + 6, 4)};
}

static uint64_t larger(uint64_t a, uint64_t b) {
    return a > b ? a : b;
}

static uint64_t words_of(struct entry e) {
    uint64_t cells = e.kind == SINCE ? (e.high == UINT32_MAX ? 1 : e.high + UINT64_C(1)) : 0;
    return 16 + (e.kind == UNTIL ? 2 * (e.high + UINT64_C(1)) : cells);
}

struct shape shape_of(const uint8_t *rule) {
    struct shape s = {.entries = rule[5], .words = rule[4] == 2 ? 24 : 16};
    uint64_t reach[128] = {0}, back[128] = {0};
    int open[128], depth = 0, has_next = 0;

    for (int k = 0; k < s.entries; k++) {
        struct entry e = entry_of(rule, k);
        s.left[k] = s.right[k] = -1;
        for (int i = 0; i < operands[e.kind]; i++) {
            int operand = open[--depth];
            *(i == 0 ? &s.right[k] : &s.left[k]) = operand;
            reach[k] = larger(reach[k], reach[operand]);
            back[k] = larger(back[k], back[operand]);
        }
        reach[k] += e.kind == UNTIL ? e.high : 0;
        back[k] += e.kind == PREVIOUS;
        has_next |= e.kind == NEXT;
        s.words += words_of(e);
        open[depth++] = k;
    }
    s.formulas = s.entries == 0 ? 1 : depth;
    for (int f = 0; f < depth; f++) {
        s.roots[f] = open[f];
        s.reach = larger(s.reach, reach[open[f]]);
        s.looks_back = larger(s.looks_back, back[open[f]]);
    }
    if (has_next) {
        s.reach = HAVDRIMS_NO_REACH;
    }
    return s;
}

/* A text that grows. */
struct text {
    uint8_t *at;
    size_t length, room;
    int is_short;
};

static void add(struct text *t, const char *word) {
    size_t length = strlen(word);
    t->is_short |= length > t->room - t->length;
    if (!t->is_short) {
        memcpy(t->at + t->length, word, length);
        t->length += length;
    }
}

static void say_entry(struct text *t, const uint8_t *rule, const struct shape *shape, int k) {
    static const char *const words[] = {"", "not", "or", "prev", "next", "since", "until"};
    struct entry e = entry_of(rule, k);
    char word[40];

    if (e.kind == LETTER) {
        snprintf(word, sizeof word, "e%d", e.letter);
        add(t, word);
        return;
    }
    add(t, "(");
    if (shape->left[k] >= 0) {
        say_entry(t, rule, shape, shape->left[k]);
        add(t, " ");
    }
    add(t, words[e.kind]);
    if (e.kind >= PREVIOUS) {
        if (e.high == UINT32_MAX) {
            snprintf(word, sizeof word, "[%u,inf]", (unsigned)e.low);
        } else {
            snprintf(word, sizeof word, "[%u,%u]", (unsigned)e.low, (unsigned)e.high);
        }
        add(t, word);
    }
    add(t, " ");
    say_entry(t, rule, shape, shape->right[k]);
    add(t, ")");
}

size_t say(const uint8_t *rule, const struct shape *shape, uint8_t *text, size_t room) {
    struct text t = {text, 0, room, 0};
    say_entry(&t, rule, shape, shape->roots[0]);
    return t.is_short ? 0 : t.length;
}
