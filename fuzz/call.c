#include "call.h"

#include <stdio.h>
#include <stdlib.h>
#include <string.h>

#include "lent.h"

/* The call that is being made, for messages. */
static const char *being_made = "no call yet";

void must(int holds, const char *what) {
    if (!holds) {
        fprintf(stderr, "%s: %s\n", being_made, what);
        abort();
    }
}

#define BIT(number) (UINT32_C(1) << (number))
/* The refusals `from` to `to`, 3 left out, which no longer occurs. */
#define RANGE(from, to) ((BIT((to) + 1) - BIT(from)) & ~BIT(3))

/* What the header says of each call. */
static const struct {
    const char *name;
    uint32_t refusals;
    int writes_point;
    int numbers[4]; /* how many stand behind each of the last pointers */
} calls[CALLS] = {
    [MEASURE] = {"measure", RANGE(1, 8), 0, {1, 1}},
    [FORMULAS] = {"formulas", RANGE(1, 8), 0, {1}},
    [OPEN] = {"open", RANGE(1, 9), 1, {0}},
    [RESUME] = {"resume", RANGE(1, 14) | BIT(20) | BIT(22) | BIT(24), 1, {1, 1}},
    [CLOSE] = {"close", RANGE(1, 14) | BIT(21) | BIT(22) | BIT(24), 1, {1, 1}},
    [TRIM] = {"trim", RANGE(1, 14) | RANGE(22, 25), 0, {1}},
    [EXPLAIN] = {"explain", RANGE(1, 8) | BIT(12) | BIT(14) | BIT(24) | BIT(27), 0, {1}},
    [SUMMARY] = {"summary", RANGE(1, 11), 0, {8, 8}},
    [STATUS] = {"status", RANGE(1, 11), 0, {1, 1, 1, 1}},
    [TALLY] = {"tally", BIT(15), 0, {8, 8}},
    [PARSE] = {"parse", BIT(4) | BIT(6) | BIT(8) | RANGE(16, 18), 0, {1}},
    [WORST_LOG] = {"worst_log", BIT(6) | BIT(19), 0, {1}},
    [SIMULATE] = {"simulate", BIT(26), 0, {1, 1, 1, 1}},
};

/* Whether a call has given a number. libFuzzer takes what is in this section for edges: a number that is new leads it on. */
__attribute__((section("__libfuzzer_extra_counters"))) static uint8_t met[CALLS][32];

void print_refusals_met(void) {
    int all = 0, seen = 0;
    for (int call = 0; call < CALLS; call++) {
        for (int number = 1; number < 32; number++) {
            int is_named = calls[call].refusals >> number & 1;
            all += is_named;
            seen += met[call][number];
            if (is_named && !met[call][number]) {
                printf("%s did not meet %d\n", calls[call].name, number);
            }
        }
    }
    printf("%d of %d refusals met, each call's counted by itself\n", seen, all);
}

static struct region first, log_bytes, point, out, numbers[4];

static void make_regions(void) {
    if (first.size != 0) {
        return;
    }
    first = region_of(MOST_BYTES);
    log_bytes = region_of(MOST_BYTES);
    point = region_of(MOST_POINT * sizeof(uint64_t));
    out = region_of(MOST_BYTES);
    for (int k = 0; k < 4; k++) {
        numbers[k] = region_of(8 * sizeof(uint64_t));
    }
}

/* What stands behind the last pointers before a call: what is kept is this. */
static void mark_numbers(struct given *g) {
    for (int k = 0; k < 4; k++) {
        for (int i = 0; i < 8; i++) {
            g->numbers[k][i] = UINT64_C(0xa5a5a5a5a5a50000) + (uint64_t)(16 * k + i);
        }
    }
}

/* What is left of everything that a call may write. */
struct left {
    uint32_t number;
    uint64_t point[MOST_POINT];
    uint8_t out[MOST_BYTES];
    uint64_t numbers[4][8];
};

static size_t point_bytes(const struct given *g) {
    return g->point_len * sizeof(uint64_t);
}

static void call_once(enum call call, enum side side, const struct given *g, struct left *left) {
    const uint8_t *a = lend(&first, side, g->first, g->first_len, 0);
    const uint8_t *l = lend(&log_bytes, side, g->log, g->log_len, 0);
    uint64_t *p = lend(&point, side, g->point, point_bytes(g), calls[call].writes_point);
    uint8_t *o = lend(&out, side, g->out, g->out_len, 1);
    const uint64_t *s = g->scalars;
    size_t a_len = g->first_len, l_len = g->log_len, p_len = g->point_len, o_len = g->out_len;
    uint64_t *n[4];

    for (int k = 0; k < 4; k++) {
        n[k] = lend(&numbers[k], side, g->numbers[k], (size_t)calls[call].numbers[k] * sizeof(uint64_t), 1);
    }
    switch (call) {
    case MEASURE:
        left->number = havdrims_measure(a, a_len, n[0], n[1]);
        break;
    case FORMULAS:
        left->number = havdrims_formulas(a, a_len, n[0]);
        break;
    case OPEN:
        left->number = havdrims_open(a, a_len, p, p_len);
        break;
    case RESUME:
        left->number = havdrims_resume(a, a_len, l, l_len, p, p_len, o, o_len, n[0], n[1]);
        break;
    case CLOSE:
        left->number = havdrims_close(a, a_len, l, l_len, p, p_len, o, o_len, n[0], n[1]);
        break;
    case TRIM:
        left->number = havdrims_trim(a, a_len, l, l_len, p, p_len, o, o_len, n[0]);
        break;
    case EXPLAIN:
        left->number = havdrims_explain(a, a_len, l, l_len, s[0], s[1], o, o_len, n[0]);
        break;
    case SUMMARY:
        left->number = havdrims_summary(a, a_len, p, p_len, n[0], n[1]);
        break;
    case STATUS:
        left->number = havdrims_status(a, a_len, p, p_len, n[0], n[1], n[2], n[3]);
        break;
    case TALLY:
        left->number = havdrims_tally(a, a_len, s[0], n[0], n[1]);
        break;
    case PARSE:
        left->number = havdrims_parse(a, a_len, o, o_len, n[0]);
        break;
    case WORST_LOG:
        left->number = havdrims_worst_log((uint32_t)s[0], (uint32_t)s[1], s[2], o, o_len, n[0]);
        break;
    case SIMULATE:
        left->number = havdrims_simulate((uint32_t)s[0], (uint32_t)s[1], (uint32_t)s[2], (uint32_t)s[3], (uint32_t)s[4],
                                         (uint32_t)s[5], o, o_len, n[0], n[1], n[2], n[3]);
        break;
    case CALLS:
        break;
    }
    take_back(&point, side, left->point, point_bytes(g));
    take_back(&out, side, left->out, g->out_len);
    memcpy(left->numbers, g->numbers, sizeof left->numbers);
    for (int k = 0; k < 4; k++) {
        take_back(&numbers[k], side, left->numbers[k], (size_t)calls[call].numbers[k] * sizeof(uint64_t));
    }
}

static int same(const void *a, const void *b, size_t bytes) {
    return bytes == 0 || memcmp(a, b, bytes) == 0;
}

/* The words of the point that an accepted call may have written. */
static size_t written_words(enum call call, const struct given *g) {
    uint64_t words = 0, reach;
    if (calls[call].writes_point) {
        must(havdrims_measure(g->first, g->first_len, &words, &reach) == 0, "accepted a rule that cannot be measured");
        must(words <= g->point_len, "accepted a point shorter than the need");
    }
    return words;
}

/* The bytes that it says it wrote. */
static uint64_t written_bytes(enum call call, const struct left *left) {
    switch (call) {
    case RESUME:
    case CLOSE:
    case TRIM:
    case EXPLAIN:
    case PARSE:
    case WORST_LOG:
    case SIMULATE:
        return left->numbers[0][0];
    default:
        return 0;
    }
}

/* The numbers behind each pointer that the call writes: those of further formulas are kept. */
static int written_numbers(enum call call, int k, const struct given *g) {
    uint64_t formulas = g->scalars[0];
    if (call != SUMMARY && call != TALLY) {
        return calls[call].numbers[k];
    }
    if (call == SUMMARY) {
        must(havdrims_formulas(g->first, g->first_len, &formulas) == 0, "accepted a rule whose formulas cannot be counted");
    }
    must(formulas >= 1 && formulas <= 8, "accepted a number of formulas outside 1 to 8");
    return (int)formulas;
}

static void rest_is_kept(enum call call, const struct given *g, const struct left *left) {
    size_t words = written_words(call, g);
    uint64_t bytes = written_bytes(call, left);

    must(bytes <= g->out_len, "says that it wrote more than there was room for");
    must(same(left->point + words, g->point + words, point_bytes(g) - words * sizeof(uint64_t)),
         "changed words behind the need");
    must(same(left->out + bytes, g->out + bytes, g->out_len - bytes), "changed bytes behind what it wrote");
    for (int k = 0; k < 4; k++) {
        int from = calls[call].numbers[k] ? written_numbers(call, k, g) : 0;
        must(same(left->numbers[k] + from, g->numbers[k] + from, (size_t)(8 - from) * sizeof(uint64_t)),
             "changed numbers of further formulas");
    }
}

static void all_is_kept(const struct given *g, const struct left *left) {
    must(same(left->point, g->point, point_bytes(g)), "refused, and changed the point");
    must(same(left->out, g->out, g->out_len), "refused, and changed the lent bytes");
    must(same(left->numbers, g->numbers, sizeof g->numbers), "refused, and changed a number behind a pointer");
}

uint32_t make_call(enum call call, struct given *g) {
    static struct left left[SIDES];
    const struct left *one = &left[AT_END], *other = &left[AT_BEGINNING];

    make_regions();
    being_made = calls[call].name;
    mark_numbers(g);
    call_once(call, AT_END, g, &left[AT_END]);
    call_once(call, AT_BEGINNING, g, &left[AT_BEGINNING]);
    must(one->number == other->number, "two numbers from the same call");
    must(same(one->point, other->point, point_bytes(g)), "two points from the same call");
    must(same(one->out, other->out, g->out_len), "two outputs from the same call");
    must(same(one->numbers, other->numbers, sizeof one->numbers), "two results from the same call");
    if (one->number != 0) {
        must(one->number < 32 && (calls[call].refusals & BIT(one->number)), "a refusal that the header does not name for it");
        met[call][one->number] = 1;
        all_is_kept(g, one);
        return one->number;
    }
    rest_is_kept(call, g, one);
    if (point_bytes(g) != 0) {
        memcpy(g->point, one->point, point_bytes(g));
    }
    if (g->out_len != 0) {
        memcpy(g->out, one->out, g->out_len);
    }
    memcpy(g->numbers, one->numbers, sizeof g->numbers);
    return 0;
}
