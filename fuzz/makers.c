#include "makers.h"

#include <string.h>

/* A rule said as text is read as the same rule. */
static void parse_again(const uint8_t *rule, size_t rule_len) {
    static uint8_t text[HAVDRIMS_MOST_TEXT], again[MOST_RULE_ROOM];
    struct shape shape = shape_of(rule);
    struct given g = {.first = text, .out = again, .out_len = rule_len};

    g.first_len = say(rule, &shape, text, sizeof text);
    if (g.first_len != 0) {
        must(make_call(PARSE, &g) == 0, "the text of a rule is refused");
        must(g.numbers[0][0] == rule_len && memcmp(again, rule, rule_len) == 0, "another rule than the one that was said");
        g.out_len--;
        must(make_call(PARSE, &g) == HAVDRIMS_SHORT_RULE, "a short buffer is taken for a rule");
    }
}

/* A text of words that mostly fit together; some of them many times over. */
static size_t take_text(struct input *in, uint8_t *text, size_t room) {
    static const char *const words[24] = {
        "e0", "e1", "e31", "e32", "not ", "or ", "(", ")", " ", " until[0,90]", " since[1,inf]", " prev[0,0]", " next[2,3600]",
        "[1,3601]", "[07,9]", "inf", "[", "]", ",", "12345", " until[0,3600]", "e0 or ", "(e2)", "until",
    };
    size_t length = 0;
    for (int tokens = take(in); tokens > 0 && in->left > 0; tokens--) {
        uint8_t which = take(in);
        int times = which >= 240 ? 1 + take(in) * 4 : 1;
        const char *word = words[which % 24];
        for (; times > 0 && length + strlen(word) <= room; times--) {
            memcpy(text + length, word, strlen(word));
            length += strlen(word);
        }
    }
    return length;
}

void step_parse(struct week *w, struct input *in) {
    static uint8_t text[HAVDRIMS_MOST_TEXT + 64], rule[MOST_RULE_ROOM];
    struct given g = {.first = text, .out = rule};
    uint8_t how = take(in);

    if (w->sound && w->rule[4] == 1 && w->shape.entries > 0) {
        parse_again(w->rule, w->rule_len);
    }
    g.first_len = w->sound && how % 2 && w->shape.entries > 0 ? say(w->rule, &w->shape, text, sizeof text)
                                                              : take_text(in, text, sizeof text);
    for (int times = how / 4 % 4; times > 0; times--) {
        g.first_len = damage(in, text, g.first_len, sizeof text);
    }
    g.out_len = take_length(in, HAVDRIMS_MOST_RULE, MOST_RULE_ROOM);
    memset(rule, how, g.out_len);
    if (make_call(PARSE, &g) == 0) {
        parse_again(rule, g.numbers[0][0]);
    }
}

static uint32_t take_setting(struct input *in, uint32_t most) {
    uint32_t number = (uint32_t)take_number(in, 2);
    return number < 0xff00 ? number % (most + 2) : (uint32_t)take_edge(in);
}

static int outside(uint64_t number, uint64_t least, uint64_t most) {
    return number < least || number > most;
}

/* What worst_log has to give: 6, 19 or 0. */
static uint32_t worst_log_number(uint64_t low, uint64_t high, uint64_t records, size_t room) {
    if (low > high || high > 3600) {
        return HAVDRIMS_INTERVAL;
    }
    return records > HAVDRIMS_MOST_RECORDS || room < 8 + 8 * records ? HAVDRIMS_LOG_ROOM : 0;
}

void step_worst_log(struct input *in) {
    struct given g = {0};
    uint64_t low = g.scalars[0] = take_setting(in, 3600);
    uint64_t high = g.scalars[1] = take_setting(in, 3600);
    uint64_t n = g.scalars[2] = take(in) < 240 ? take_setting(in, 4000) : take_edge(in);
    size_t room = take_length(in, n > HAVDRIMS_MOST_RECORDS ? 0 : 8 + 8 * n, MOST_BYTES);
    uint32_t expected = worst_log_number(low, high, n, room);

    lend_sheet(&g, room, take(in));
    must(make_call(WORST_LOG, &g) == expected, "another number for this interval and these records");
    if (expected != 0) {
        return;
    }
    must(g.numbers[0][0] == 8 + 8 * n && memcmp(g.out, "KLG\0\1\0\0\0", 8) == 0, "another header or length");
    for (uint64_t i = 0; i < n; i++) {
        must(get(g.out + 8 + 8 * i, 8) == ((i < high ? i : high) << 32 | 1), "another record");
    }
}

/* What simulate has to give for these settings: 26 or 0. */
static uint32_t simulate_number(const uint64_t *s, size_t room) {
    int is_outside = outside(s[0], 0, 3600) || outside(s[1], 1, 600) || outside(s[2], 1, 600) || outside(s[3], 1, 3600) ||
                     outside(s[4], 1, 3600) || s[5] == 0;
    return is_outside || room < 8 + 8 * s[0] ? HAVDRIMS_SETTINGS : 0;
}

/* The simulated log has a record for each second, and its letters sum to what the call says. */
static void check_simulated(const struct given *g, uint64_t seconds) {
    uint64_t counts[4] = {0}, finished = g->numbers[1][0], printing = g->numbers[2][0], waiting = g->numbers[3][0];

    must(g->numbers[0][0] == 8 + 8 * seconds && memcmp(g->out, "KLG\0\1\0\0\0", 8) == 0, "another header or length");
    for (uint64_t i = 0; i < seconds; i++) {
        uint64_t record = get(g->out + 8 + 8 * i, 8);
        must(record >> 32 == i && (uint32_t)record < 16, "another second, or a letter that is not its own");
        for (int letter = 0; letter < 4; letter++) {
            counts[letter] += record >> letter & 1;
        }
    }
    must(finished == counts[3], "not the prints that ended");
    must(printing <= 1 && finished + printing == counts[1], "not the prints that began");
    must(finished + printing + waiting == counts[2], "not the customers who joined");
}

void step_simulate(struct input *in) {
    static const uint32_t most[5] = {3600, 600, 600, 3600, 3600};
    struct given g = {0};

    for (int i = 0; i < 5; i++) {
        g.scalars[i] = take_setting(in, most[i]);
    }
    if (take(in) % 2) {
        g.scalars[4] = take(in); /* many customers */
    }
    g.scalars[5] = take_number(in, 4);
    size_t room = take_length(in, 8 + 8 * (g.scalars[0] % 4096), MOST_BYTES);
    lend_sheet(&g, room, take(in));
    uint32_t expected = simulate_number(g.scalars, room);
    must(make_call(SIMULATE, &g) == expected, "another number for these settings");
    if (expected == 0) {
        check_simulated(&g, g.scalars[0]);
    }
}
