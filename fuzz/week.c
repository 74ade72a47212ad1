#include "week.h"

#include <string.h>

uint8_t brought[MOST_LOG], sheet[MOST_BYTES];

struct given lent_to(struct week *w) {
    return (struct given){.first = w->rule, .first_len = w->rule_len, .point = w->point, .point_len = w->point_len};
}

void lend_sheet(struct given *g, size_t length, uint8_t mark) {
    memset(sheet, mark, length);
    g->out = sheet;
    g->out_len = length;
}

size_t untouched_log(const struct week *w, uint64_t n) {
    memcpy(brought, "KLG\0\0\0\0\0", 8);
    brought[4] = w->version;
    memcpy(brought + 8, w->records, 8 * n);
    return 8 + 8 * n;
}

size_t bring(const struct week *w, uint64_t n) {
    uint64_t from = w->trimmed ? w->dropped : 0;
    size_t header = untouched_log(w, 0);

    if (w->trimmed) {
        brought[4] = 3;
        put(brought + 8, from, 8);
        header = 16;
    }
    memcpy(brought + header, w->records + 8 * from, 8 * (n - from));
    if (w->scribble != 0 && w->wanted > from) {
        memset(brought + header, w->scribble, 8 * (w->wanted - from));
    }
    return header + 8 * (n - from);
}

uint64_t run_of(const struct week *w, const uint8_t *rule, size_t rule_len, uint64_t n, int closing, uint8_t *verdicts) {
    static uint64_t fresh[MOST_POINT];
    struct given g = {.first = rule, .first_len = rule_len, .point = fresh, .point_len = shape_of(rule).words};

    must(make_call(OPEN, &g) == 0, "a rule that was opened is refused");
    g.log = brought;
    g.log_len = untouched_log(w, n);
    g.out = verdicts;
    g.out_len = MOST_RECORDS;
    must(make_call(closing ? CLOSE : RESUME, &g) == 0, "one run is refused");
    must(g.numbers[1][0] == 0, "one run has not caught up");
    return g.numbers[0][0];
}

uint64_t one_run(const struct week *w, uint64_t n, int closing, uint8_t *verdicts) {
    return run_of(w, w->rule, w->rule_len, n, closing, verdicts);
}

static int is_service(const struct week *w, uint64_t record) {
    return w->version != 1 && w->records[8 * record + 4] >= 128;
}

/* The first record still wanted, as the header says it. */
static uint64_t first_wanted(const struct week *w) {
    uint64_t position = w->given > w->shape.looks_back ? w->given - w->shape.looks_back : 0;
    for (uint64_t record = 0; record < w->seen; record++) {
        if (!is_service(w, record) && position-- == 0) {
            return record;
        }
    }
    return w->seen;
}

struct positions positions_of(const struct week *w, uint64_t n) {
    static uint32_t times[MOST_RECORDS], sets[MOST_RECORDS];
    struct positions log = {0, times, sets};
    for (uint64_t record = 0; record < n; record++) {
        if (!is_service(w, record)) {
            times[log.count] = (uint32_t)get(w->records + 8 * record, 4);
            sets[log.count++] = (uint32_t)get(w->records + 8 * record + 4, 4);
        }
    }
    return log;
}

/* What is settled says what the plain reading says, and what is not lies no more than the reach before the end. */
static void check_reading(const struct week *w, uint64_t n, uint64_t settled, int closing, const uint8_t *verdicts) {
    static struct plain plain;
    struct positions log = positions_of(w, n);

    must(settled <= log.count && (!closing || settled == log.count), "more verdicts than positions, or fewer at a closing");
    if (settled < log.count) {
        must(log.times[log.count - 1] - log.times[settled] <= w->shape.reach, "a position is open beyond the reach");
    }
    if (is_read_soon(&w->shape, log.count)) {
        read_plainly(w->rule, &w->shape, &log, &plain);
        for (uint64_t i = 0; i < settled; i++) {
            must(verdicts[i] == plain_verdict(&w->shape, &plain, i), "another verdict than the plain reading's");
        }
    }
}

void check_verdicts(struct week *w, uint64_t n, int closing, const struct given *g) {
    static uint8_t run[MOST_RECORDS];
    uint64_t c = g->numbers[0][0], room = g->out_len;
    uint64_t settled = one_run(w, n, closing, run);

    check_reading(w, n, settled, closing, run);
    must(settled >= w->given, "fewer positions are settled than were given");
    must(c == (settled - w->given < room ? settled - w->given : room), "another number of verdicts than one run");
    must(g->numbers[1][0] == (settled > w->given + c), "more where one run has none, or the other way round");
    memcpy(w->verdicts + w->given, g->out, c);
    w->given += c;
    must(memcmp(w->verdicts, run, w->given) == 0, "the verdicts laid end to end are not those of one run");
    w->seen = n;
    w->closed |= closing;
    uint64_t wanted = first_wanted(w);
    must(wanted >= w->wanted, "the first record wanted went back");
    w->wanted = wanted;
}
