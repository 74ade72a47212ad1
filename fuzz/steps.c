/*
 * The C calls fuzzed from outside. An input is a list of steps: the calls of a week, and what can go wrong in it.
 * docs/FUZZING.md says what is checked.
 */
#include <string.h>

#include "inputs.h"
#include "makers.h"
#include "reason.h"
#include "week.h"

enum { MOST_STEPS = 48 };

/* How many records the next call brings: those seen, and perhaps new ones. */
static uint64_t take_count(const struct week *w, struct input *in) {
    uint64_t n = w->seen + take(in);
    return n < w->count ? n : w->count;
}

/* What a closed point of a sound week has to give: 20, 21 or 0. */
static uint32_t closed_number(const struct week *w, uint64_t n, int closing) {
    if (!closing) {
        return HAVDRIMS_POINT_CLOSED;
    }
    return n > w->seen ? HAVDRIMS_MORE_RECORDS : 0;
}

static void step_resume(struct week *w, struct input *in, int closing) {
    struct given g = lent_to(w);
    uint64_t n = take_count(w, in);
    size_t room = take_length(in, n - w->seen, MOST_RECORDS);
    g.log = brought;
    g.log_len = bring(w, n);
    lend_sheet(&g, room, take(in));
    uint32_t number = make_call(closing ? CLOSE : RESUME, &g);
    if (!w->sound) {
        return;
    }
    if (w->closed) {
        must(number == closed_number(w, n, closing), "another number than a closed point gets");
    } else {
        must(number == 0, "a log that is as it should be is refused");
    }
    if (number == 0) {
        check_verdicts(w, n, closing, &g);
    }
}

/* What a trim of a sound week has to give: 23, 25 or 0. */
static uint32_t trim_number(const struct week *w, size_t room, size_t exact) {
    if (w->version == 1) {
        return HAVDRIMS_TRIM_VERSION;
    }
    return room < exact ? HAVDRIMS_SHORT_LOG : 0;
}

static void step_trim(struct week *w, struct input *in) {
    struct given g = lent_to(w);
    uint64_t n = take_count(w, in);
    size_t exact = 16 + 8 * (n - w->wanted), room = take_length(in, exact, MOST_LOG);
    g.log = brought;
    g.log_len = bring(w, n);
    lend_sheet(&g, room, take(in));
    uint32_t number = make_call(TRIM, &g);
    if (!w->sound) {
        return;
    }
    must(number == trim_number(w, room, exact), "another number for a trim");
    if (number == 0) {
        must(g.numbers[0][0] == exact, "another length of the trimmed log");
        must(memcmp(g.out, "KLG\0\3\0\0\0", 8) == 0 && get(g.out + 8, 8) == w->wanted, "the trimmed log's header");
        must(memcmp(g.out + 16, w->records + 8 * w->wanted, exact - 16) == 0, "the trimmed log's records");
        w->trimmed = 1;
        w->dropped = w->wanted;
    }
}

static void step_status(struct week *w) {
    struct given g = lent_to(w);
    uint32_t number = make_call(STATUS, &g);
    if (w->sound) {
        must(number == 0, "the week's point is refused");
        must(g.numbers[0][0] == w->given && g.numbers[1][0] == w->seen, "another status");
        must(g.numbers[2][0] == w->wanted, "another first record wanted");
        must(g.numbers[3][0] == (uint64_t)w->closed, "closed, or not");
    }
}

/* The count of no of formula k among the verdicts given, and the latest of them. */
static uint64_t scan(const struct week *w, int k, uint64_t *latest) {
    uint64_t no = 0;
    *latest = HAVDRIMS_NONE;
    for (uint64_t i = 0; i < w->given; i++) {
        if ((w->verdicts[i] >> k & 1) == 0) {
            no++;
            *latest = i;
        }
    }
    return no;
}

/* The point's own counts, tally's and those of a scan are the same. */
static void step_count(struct week *w) {
    struct given g = lent_to(w), tally = {.first = w->verdicts, .first_len = w->given};
    uint64_t latest;

    uint32_t number = make_call(SUMMARY, &g);
    if (!w->sound) {
        return;
    }
    must(number == 0, "the week's point is refused");
    for (int k = 0; k < w->shape.formulas; k++) {
        must(g.numbers[0][k] == scan(w, k, &latest) && g.numbers[1][k] == latest, "another summary than a scan's");
    }
    tally.scalars[0] = (uint64_t)w->shape.formulas;
    must(make_call(TALLY, &tally) == 0, "the week's verdicts are refused");
    for (int k = 0; k < w->shape.formulas; k++) {
        uint64_t no = scan(w, k, &latest);
        must(tally.numbers[0][k] == no && tally.numbers[1][k] == w->given - no, "another tally than a scan's");
    }
}

/* The facts of a reason hold in the log, and it is the verdict's. */
static void check_reason(const struct week *w, uint64_t n, const struct given *g, int yes) {
    static struct plain plain;
    struct positions log = positions_of(w, n);
    struct subject subject = {w->rule, &w->shape, &log, NULL};

    if (is_read_soon(&w->shape, log.count)) {
        read_plainly(w->rule, &w->shape, &log, &plain);
        subject.plain = &plain;
    }
    must(told(&subject, (int)g->scalars[0], g->scalars[1], g->out, g->numbers[0][0]) == yes,
         "the reason is not that of the verdict");
}

static void step_explain(struct week *w, struct input *in) {
    static uint8_t run[MOST_RECORDS];
    struct given g = {.first = w->rule, .first_len = w->rule_len, .log = brought};
    uint64_t n = take_count(w, in);
    g.scalars[0] = take(in) % 9;
    g.scalars[1] = take_number(in, 2) % (n + 2);
    uint64_t settled = w->sound ? one_run(w, n, 0, run) : 0;
    g.log_len = untouched_log(w, n);
    lend_sheet(&g, HAVDRIMS_MOST_REASON, 0);
    uint32_t number = make_call(EXPLAIN, &g);
    if (!w->sound) {
        return;
    }
    int answered = g.scalars[0] < (uint64_t)w->shape.formulas && g.scalars[1] < settled;
    must(number == (answered ? 0 : HAVDRIMS_NO_REASON), "another number for a reason");
    if (!answered) {
        return;
    }
    size_t length = g.numbers[0][0];
    check_reason(w, n, &g, run[g.scalars[1]] >> g.scalars[0] & 1);
    g.out_len = length;
    must(make_call(EXPLAIN, &g) == 0, "refused in a buffer that is just long enough");
    g.out_len = length - 1;
    must(make_call(EXPLAIN, &g) == HAVDRIMS_NO_REASON, "accepted in a buffer that is too short");
}

static void step_measure(struct week *w) {
    struct given g = {.first = w->rule, .first_len = w->rule_len};
    uint32_t number = make_call(MEASURE, &g);
    if (w->sound) {
        must(number == 0 && g.numbers[0][0] == w->shape.words && g.numbers[1][0] == w->shape.reach, "another need or reach");
    }
    uint32_t other = make_call(FORMULAS, &g);
    must(number == other, "measure and formulas refuse differently");
    if (w->sound) {
        must(g.numbers[0][0] == (uint64_t)w->shape.formulas, "another number of formulas");
    }
}

/* Each formula gets the verdicts that it would get in a run of its own. */
static void step_alone(struct week *w, struct input *in) {
    static uint8_t rule[MOST_RULE_ROOM], all[MOST_RECORDS], alone[MOST_RECORDS];
    int formula = take(in) % 8, closing = take(in) % 2;

    if (!w->sound || w->rule[4] != 2 || formula >= w->shape.formulas) {
        return;
    }
    int from = formula == 0 ? 0 : w->shape.roots[formula - 1] + 1, count = w->shape.roots[formula] + 1 - from;
    memcpy(rule, "KRL\0\1\0\0\0", 8);
    rule[5] = (uint8_t)count;
    memcpy(rule + 8, w->rule + 8 + 10 * from, 10 * (size_t)count);
    uint64_t settled = one_run(w, w->count, closing, all);
    must(run_of(w, rule, 8 + 10 * (size_t)count, w->count, closing, alone) >= settled, "a formula alone settles fewer");
    for (uint64_t i = 0; i < settled; i++) {
        must((all[i] >> formula & 1) == alone[i], "a formula alone has another verdict");
    }
}

static void add_record(struct week *w, uint64_t gap, uint32_t set) {
    uint8_t *at = w->records + 8 * w->count;
    uint64_t time = gap + (w->count == 0 ? 0 : get(at - 8, 4));

    put(at, time < UINT32_MAX ? time : UINT32_MAX, 4);
    put(at + 4, set, 4);
    w->count++;
}

/* Adds records to the untouched log: one as the input says it, or many drawn from a generator. */
static void step_grow(struct week *w, struct input *in) {
    static const uint32_t service = UINT32_C(1) << 31;
    uint8_t how = take(in);
    uint32_t state = 2 * (uint32_t)take_number(in, 2) + 1, most_gap = take(in), letters = take(in);

    if (how < 64) {
        if (w->count < MOST_RECORDS) {
            add_record(w, how % 4 == 1 ? most_gap << 20 : most_gap, letters | (how % 4 == 2 ? service : 0));
        }
        return;
    }
    for (int many = take(in); many > 0 && w->count < MOST_RECORDS; many--) {
        state ^= state << 13;
        state ^= state >> 17;
        state ^= state << 5;
        int is_visit = how % 4 == 3 && state % 8 == 0, is_burst = how % 8 < 4 && state >> 28 != 0;
        add_record(w, is_burst ? 0 : (state >> 16) % (most_gap + 1), (letters & state >> 8) | (is_visit ? service : 0));
    }
}

/* A call's own copies of what it is given, to be damaged. */
struct copies {
    uint8_t first[MOST_BYTES];
    uint64_t point[MOST_POINT];
};

/* Damages the rule or sheet, the log, the point, or the log's header. */
static void damage_given(struct input *in, int what, struct given *g, struct copies *copies) {
    size_t at;
    switch (what) {
    case 0:
    case 1:
        g->first_len = damage(in, copies->first, g->first_len, MOST_BYTES);
        break;
    case 2:
    case 3:
        g->log_len = damage(in, brought, g->log_len, MOST_LOG);
        break;
    case 4:
    case 5:
        g->point_len = forge(in, copies->point, g->point_len, MOST_POINT);
        break;
    case 6:
        at = take(in) % 16;
        brought[at] = take(in);
        break;
    default:
        brought[4] = 3;
        put(brought + 8, take_edge(in), 8);
        g->log_len = g->log_len < 16 ? 16 : g->log_len;
    }
}

/* Any call with something damaged. It gets copies: whatever comes of it, the week goes on. */
static void step_disturb(struct week *w, struct input *in) {
    static struct copies copies;
    enum call call = take(in) % CALLS;
    uint8_t what = take(in);
    struct given g = lent_to(w);

    g.first_len = call == TALLY ? w->given : w->rule_len;
    g.first = memcpy(copies.first, call == TALLY ? w->verdicts : w->rule, g.first_len);
    g.point = memcpy(copies.point, w->point, w->point_len * sizeof *w->point);
    g.log_len = bring(w, take_count(w, in));
    g.log = brought;
    for (int times = 1 + what / 8 % 4; times > 0; times--) {
        damage_given(in, what / 32, &g, &copies);
    }
    for (int i = 0; i < 6; i++) {
        g.scalars[i] = take_edge(in);
    }
    lend_sheet(&g, take_length(in, g.log_len, MOST_LOG), what);
    make_call(call, &g);
}

/* From now on the point is not one that the library left. */
static void step_forge(struct week *w, struct input *in) {
    w->point_len = forge(in, w->point, w->point_len, MOST_POINT);
    w->sound = 0;
}

/* From now on the rule is another one than the point's, or records that are still wanted are altered. */
static void step_damage(struct week *w, struct input *in) {
    if (take(in) % 2) {
        w->rule_len = damage(in, w->rule, w->rule_len, sizeof w->rule);
    } else {
        damage(in, w->records, 8 * w->count, sizeof w->records);
    }
    w->sound = 0;
}

/* A new week: another rule, an empty log, and a fresh point with a few words behind it. */
static void step_open(struct week *w, struct input *in) {
    struct given g;
    uint8_t how = take(in);

    memset(w, 0, sizeof *w);
    w->version = how % 4 == 0 ? 1 : 2;
    w->rule_len = make_rule(in, w->rule);
    w->shape = shape_of(w->rule);
    int fits = w->shape.words <= HAVDRIMS_MOST_WORDS;
    w->point_len = (fits ? w->shape.words : HAVDRIMS_MOST_WORDS) + how / 4 % 4;
    memset(w->point, how, w->point_len * sizeof *w->point);
    g = lent_to(w);
    if (fits) {
        g.point_len = w->shape.words - 1;
        must(make_call(OPEN, &g) == HAVDRIMS_SHORT_POINT, "another number for a short point");
        g.point_len = w->point_len;
    }
    must(make_call(OPEN, &g) == (fits ? 0 : HAVDRIMS_TOO_MANY_WORDS), "another number for this rule");
    w->sound = fits;
}

/* What the next byte says. Every kind of step has its number, those that lead on have several. */
static void step(struct week *w, struct input *in) {
    switch (take(in) % 20) {
    case 0:
    case 1:
    case 2:
        step_resume(w, in, 0);
        break;
    case 3:
        step_resume(w, in, 1);
        break;
    case 4:
        step_trim(w, in);
        break;
    case 5:
        step_status(w);
        break;
    case 6:
        step_count(w);
        break;
    case 7:
    case 8:
        step_explain(w, in);
        break;
    case 9:
        step_measure(w);
        break;
    case 10:
        step_parse(w, in);
        break;
    case 11:
        w->scribble = take(in);
        break;
    case 12:
        w->trimmed = 0; /* the log that was never trimmed is brought again */
        break;
    case 13:
        step_disturb(w, in);
        break;
    case 14:
        step_forge(w, in);
        break;
    case 15:
        step_damage(w, in);
        break;
    case 16:
        step_alone(w, in);
        break;
    case 17:
        step_worst_log(in);
        break;
    case 18:
        step_simulate(in);
        break;
    default:
        step_open(w, in);
        break;
    }
}

int LLVMFuzzerTestOneInput(const uint8_t *data, size_t size) {
    static struct week week;
    struct input in = {data, size};

    step_open(&week, &in);
    step_grow(&week, &in);
    for (int steps = 0; in.left > 0 && steps < MOST_STEPS; steps++) {
        if (*in.at >= 216) {
            take(&in);
            step_grow(&week, &in);
        } else {
            step(&week, &in);
        }
    }
    return 0;
}
