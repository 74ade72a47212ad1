/*
 * The library with a fault: each of these calls of the archive goes through a function here (the linker's --wrap), which spoils
 * what it leaves in the way that `fault` says.
 */
#include "faults.h"

#include <string.h>

#include "../include/havdrims.h"
#include "plain.h"

enum fault fault = NO_FAULT;

#define WRAPPED(call) extern __typeof__(havdrims_##call) __real_havdrims_##call, __wrap_havdrims_##call
WRAPPED(measure);
WRAPPED(formulas);
WRAPPED(open);
WRAPPED(resume);
WRAPPED(trim);
WRAPPED(explain);
WRAPPED(summary);
WRAPPED(status);
WRAPPED(tally);
WRAPPED(parse);
WRAPPED(worst_log);
WRAPPED(simulate);

/* A read that no compiler leaves out. */
static void touch(const volatile uint8_t *at) {
    (void)*at;
}

uint32_t __wrap_havdrims_measure(const uint8_t *rule, size_t rule_len, uint64_t *words, uint64_t *reach) {
    uint32_t number = __real_havdrims_measure(rule, rule_len, words, reach);
    if (number == 0) {
        *words -= fault == MISCOUNTS_NEED;
        *reach += fault == MISCOUNTS_REACH && *reach > 100 && *reach < HAVDRIMS_NO_REACH;
    }
    return number;
}

uint32_t __wrap_havdrims_formulas(const uint8_t *rule, size_t rule_len, uint64_t *formulas) {
    uint32_t number = __real_havdrims_formulas(rule, rule_len, formulas);
    if (number == 0 && fault == MISCOUNTS_FORMULAS && *formulas > 1) {
        *formulas -= 1;
    }
    return number;
}

uint32_t __wrap_havdrims_open(const uint8_t *rule, size_t rule_len, uint64_t *point, size_t point_len) {
    uint32_t number = __real_havdrims_open(rule, rule_len, point, point_len);
    uint64_t words, reach;

    if (number == HAVDRIMS_SHORT_POINT && fault == TAKES_A_SHORT_POINT) {
        return 0;
    }
    if (number == 0 && fault == WRITES_BEFORE_POINT) {
        point[-1] = 0;
    }
    if (number == 0 && fault == CHANGES_WORDS_BEHIND_NEED) {
        __real_havdrims_measure(rule, rule_len, &words, &reach);
        if (words < point_len) {
            point[words] ^= 1;
        }
    }
    return number;
}

/* What a resume reads and writes that it should not. */
static void touch_lent(const uint8_t *rule, const uint8_t *log, size_t log_len, uint8_t *sheet, size_t sheet_len) {
    if (fault == READS_BEHIND_LOG) {
        touch(log + log_len);
    } else if (fault == READS_BEFORE_RULE) {
        touch(rule - 1);
    } else if (fault == WRITES_BEHIND_SHEET) {
        sheet[sheet_len] = 0;
    } else if (fault == TOUCHES_EMPTY_SHEET && sheet_len == 0) {
        touch(sheet);
    } else if (fault == WRITES_LOG && log_len > 0) {
        volatile uint8_t *writable = (uint8_t *)(uintptr_t)log;
        *writable = *log;
    }
}

static uint32_t spoil_refused(uint32_t number, uint64_t *point, size_t point_len, uint8_t *sheet, size_t sheet_len,
                              uint64_t *given) {
    if (fault == CHANGES_NUMBER_WHEN_REFUSED) {
        *given = 0;
    } else if (fault == CHANGES_POINT_WHEN_REFUSED && point_len > 2) {
        point[2] ^= 1;
    } else if (fault == CHANGES_SHEET_WHEN_REFUSED && sheet_len > 0) {
        sheet[0] ^= 1;
    }
    if (fault == TAKES_A_CLOSED_POINT && number == HAVDRIMS_POINT_CLOSED) {
        *given = 0;
        return 0;
    }
    return fault == GIVES_UNNAMED_REFUSAL ? 3 : number;
}

static void spoil_accepted(uint8_t *sheet, size_t sheet_len, uint64_t *given, uint64_t *more) {
    static unsigned calls;
    if (fault == CHANGES_REST_OF_SHEET && *given < sheet_len) {
        sheet[*given] ^= 1;
    } else if (fault == TURNS_THE_FIRST_VERDICT && *given > 0) {
        sheet[0] ^= 1;
    } else if (fault == TURNS_A_LATER_VERDICT && *given > 0 && *more) {
        sheet[*given - 1] ^= 1;
    } else if (fault == ANSWERS_DIFFERENTLY && *given > 0) {
        sheet[0] ^= calls++ % 2;
    } else if (fault == GIVES_MORE_THAN_THE_SHEET && *more) {
        *given += 1;
    } else if (fault == FORGETS_MORE) {
        *more = 0;
    }
}

uint32_t __wrap_havdrims_resume(const uint8_t *rule, size_t rule_len, const uint8_t *log, size_t log_len, uint64_t *point,
                                size_t point_len, uint8_t *sheet, size_t sheet_len, uint64_t *given, uint64_t *more) {
    if (fault == REFUSES_A_SOUND_LOG) {
        return HAVDRIMS_LOG_FORMAT;
    }
    size_t room = sheet_len > 0 && fault == GIVES_ONE_LESS ? sheet_len - 1 : sheet_len;
    uint32_t number = __real_havdrims_resume(rule, rule_len, log, log_len, point, point_len, sheet, room, given, more);
    if (number != 0) {
        return spoil_refused(number, point, point_len, sheet, sheet_len, given);
    }
    touch_lent(rule, log, log_len, sheet, sheet_len);
    spoil_accepted(sheet, sheet_len, given, more);
    return 0;
}

uint32_t __wrap_havdrims_trim(const uint8_t *rule, size_t rule_len, const uint8_t *log, size_t log_len, const uint64_t *point,
                              size_t point_len, uint8_t *out, size_t out_len, uint64_t *written) {
    uint32_t number = __real_havdrims_trim(rule, rule_len, log, log_len, point, point_len, out, out_len, written);
    if (number == 0 && *written > 16) {
        out[15] ^= fault == DROPS_TOO_MUCH;
        out[*written - 1] ^= fault == TRIMS_WRONG_RECORDS;
    }
    return number;
}

static int ends_with(const uint8_t *text, uint64_t length, const char *end) {
    size_t bytes = strlen(end);
    return length >= bytes && memcmp(text + length - bytes, end, bytes) == 0;
}

/* Whether the harness reads rule and log plainly. Else it has no facts to hold a reason to, but only the verdict. */
static int is_small(const uint8_t *rule, size_t log_len) {
    size_t records = (log_len - 8) / 8;
    return rule[5] * records * records <= MOST_WORK;
}

/* Spoils a reason. The bytes behind it were 0 before the call. */
static void spoil_reason(uint8_t *text, int is_told_plainly, uint64_t *written) {
    int is_span = ends_with(text, *written, " left\n");
    if (fault == TELLS_ANOTHER_ENTRY && text[0] < 'a') {
        text[0] ^= 1;
    } else if (fault == TELLS_ANOTHER_LETTER && ends_with(text, *written, " yes\n")) {
        memcpy(text + *written - 5, " no\n", 5);
        *written -= 1;
    } else if (fault == TELLS_ANOTHER_GAP && ends_with(text, *written, " prev 0\n")) {
        text[*written - 2] = '1';
    } else if (fault == TELLS_ANOTHER_CAUSE && is_span && is_told_plainly) {
        memcpy(text + *written - 5, "time", 4);
    } else if (fault == TELLS_ANOTHER_VERDICT && is_span && !is_told_plainly) {
        memcpy(text + *written - 6, "\n\0\0\0\0", 6);
        *written -= 5;
    }
}

uint32_t __wrap_havdrims_explain(const uint8_t *rule, size_t rule_len, const uint8_t *log, size_t log_len, uint64_t formula,
                                 uint64_t position, uint8_t *text, size_t text_len, uint64_t *written) {
    uint32_t number = __real_havdrims_explain(rule, rule_len, log, log_len, formula, position, text, text_len, written);
    if (number == 0) {
        spoil_reason(text, log[4] != 1 || is_small(rule, log_len), written);
    }
    return number;
}

uint32_t __wrap_havdrims_summary(const uint8_t *rule, size_t rule_len, const uint64_t *point, size_t point_len, uint64_t *no,
                                 uint64_t *latest) {
    uint32_t number = __real_havdrims_summary(rule, rule_len, point, point_len, no, latest);
    if (number == 0 && fault == MISCOUNTS_SUMMARY && latest[0] != HAVDRIMS_NONE) {
        latest[0]++;
    } else if (number == 0 && fault == WRITES_FURTHER_FORMULAS) {
        no[7] = 0;
    }
    return number;
}

uint32_t __wrap_havdrims_status(const uint8_t *rule, size_t rule_len, const uint64_t *point, size_t point_len, uint64_t *given,
                                uint64_t *seen, uint64_t *wanted, uint64_t *closed) {
    uint32_t number = __real_havdrims_status(rule, rule_len, point, point_len, given, seen, wanted, closed);
    if (number == 0 && fault == WANTS_ANOTHER_RECORD) {
        *wanted = *given; /* a position's number for a record's */
    }
    return number;
}

uint32_t __wrap_havdrims_tally(const uint8_t *sheet, size_t sheet_len, uint64_t formulas, uint64_t *no, uint64_t *yes) {
    uint32_t number = __real_havdrims_tally(sheet, sheet_len, formulas, no, yes);
    if (number == 0 && fault == MISCOUNTS_TALLY && sheet_len > 64) {
        yes[0]--;
    }
    return number;
}

uint32_t __wrap_havdrims_parse(const uint8_t *text, size_t text_len, uint8_t *rule, size_t rule_len, uint64_t *written) {
    uint32_t number = __real_havdrims_parse(text, text_len, rule, rule_len, written);
    if (number == 0 && fault == READS_ANOTHER_RULE) {
        rule[9] ^= 1;
    }
    return number;
}

uint32_t __wrap_havdrims_worst_log(uint32_t low, uint32_t high, uint64_t records, uint8_t *log, size_t log_len,
                                   uint64_t *written) {
    uint32_t number = __real_havdrims_worst_log(low, high, records, log, log_len, written);
    if (number == 0 && fault == WRITES_ANOTHER_WORST_LOG && records > 0) {
        log[8 + 8 * (records - 1) + 3] ^= 1;
    }
    return number;
}

uint32_t __wrap_havdrims_simulate(uint32_t seconds, uint32_t warm_up, uint32_t print_time, uint32_t switch_off,
                                  uint32_t mean_gap, uint32_t seed, uint8_t *log, size_t log_len, uint64_t *written,
                                  uint64_t *finished, uint64_t *printing, uint64_t *waiting) {
    uint32_t number = __real_havdrims_simulate(seconds, warm_up, print_time, switch_off, mean_gap, seed, log, log_len, written,
                                               finished, printing, waiting);
    if (number == 0 && fault == LOSES_A_CUSTOMER && *waiting > 0) {
        *waiting -= 1;
    }
    return number;
}
