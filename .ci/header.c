/* The header by itself, as C and as C++: it compiles without a warning, and each refusal has a text of its own. */
#include "havdrims.h"

#include <stdio.h>
#include <string.h>

static const uint32_t refusals[] = {
    HAVDRIMS_RULE_MARK, HAVDRIMS_RULE_VERSION, HAVDRIMS_RULE_LENGTH, HAVDRIMS_ENTRY_FIELD, HAVDRIMS_INTERVAL,
    HAVDRIMS_SHAPE, HAVDRIMS_TOO_MANY_WORDS, HAVDRIMS_SHORT_POINT, HAVDRIMS_FOREIGN_POINT, HAVDRIMS_POINT_RANGE,
    HAVDRIMS_LOG_FORMAT, HAVDRIMS_FEWER_RECORDS, HAVDRIMS_TIME_FALLS, HAVDRIMS_SHEET_BYTE, HAVDRIMS_UNKNOWN_WORD,
    HAVDRIMS_NOT_DERIVED, HAVDRIMS_SHORT_RULE, HAVDRIMS_LOG_ROOM, HAVDRIMS_POINT_CLOSED, HAVDRIMS_MORE_RECORDS,
    HAVDRIMS_OTHER_VERSION, HAVDRIMS_TRIM_VERSION, HAVDRIMS_RECORD_DROPPED, HAVDRIMS_SHORT_LOG, HAVDRIMS_SETTINGS,
    HAVDRIMS_NO_REASON,
};

#if HAVDRIMS_VERSION < 100
#error "the version is a number to compare"
#endif

/* Whether the list has this number. */
static int listed(uint32_t number) {
    for (size_t i = 0; i < sizeof refusals / sizeof *refusals; i++) {
        if (refusals[i] == number) {
            return 1;
        }
    }
    return number == 0;
}

int main(void) {
    const char *unknown = havdrims_refusal_text(UINT32_MAX);
    for (uint32_t one = 0; one < 256; one++) {
        const char *text = havdrims_refusal_text(one);
        int known = strcmp(text, unknown) != 0;
        if (known != listed(one)) {
            printf("refusal %u: %s\n", (unsigned)one, text);
            return 1;
        }
        for (uint32_t other = 0; known && other < one; other++) {
            if (strcmp(text, havdrims_refusal_text(other)) == 0) {
                printf("refusals %u and %u have the same text\n", (unsigned)other, (unsigned)one);
                return 1;
            }
        }
    }
    return 0;
}
