/*
 * A week of one kiosk in C: a log that grows, a point that is saved and carries on, a card that is overwritten, and the
 * month's end. Then two typed rules on one sheet, a log with a service visit, one that is trimmed, and the reason for a no. `make`
 * builds it against an installed Havdrims; or, in the repository:
 *
 *     cc -std=c99 -Iinclude examples/c/week.c target/staticlib/libhavdrims.a -o week && ./week
 *
 * The rule: the head stays warm (letter 0) until the print starts (letter 1), within ninety seconds.
 */
#include "havdrims.h"

#include <stdio.h>
#include <stdlib.h>
#include <string.h>

static const uint8_t rule[38] = {
    'K', 'R', 'L', 0, 1, 3, 0, 0,
    0, 0, 0, 0, 0, 0, 0, 0, 0, 0,  /* letter 0 */
    0, 1, 0, 0, 0, 0, 0, 0, 0, 0,  /* letter 1 */
    6, 0, 0, 0, 0, 0, 0, 0, 0, 90, /* until, 0 to 90 seconds */
};

static uint8_t log_file[8 + 8 * 16] = {'K', 'L', 'G', 0, 1, 0, 0, 0};
static size_t log_length = 8;

/* Writes a number as so many bytes, the highest first. */
static void put(uint8_t *at, uint64_t number, int bytes) {
    for (int i = 0; i < bytes; i++) {
        at[i] = (uint8_t)(number >> 8 * (bytes - 1 - i));
    }
}

static uint64_t get64(const uint8_t *at) {
    uint64_t number = 0;
    for (int i = 0; i < 8; i++) {
        number = number << 8 | at[i];
    }
    return number;
}

/* Appends a record: a time in seconds and a set of letters, letter k being the bit worth 2 to the k. */
static void record(uint32_t seconds, uint32_t letters) {
    put(log_file + log_length, seconds, 4);
    put(log_file + log_length + 4, letters, 4);
    log_length += 8;
}

/* Ends the program if a call was refused. */
static void accepted(const char *call, uint32_t number) {
    if (number != 0) {
        fprintf(stderr, "%s: refused %u: %s\n", call, (unsigned)number, havdrims_refusal_text(number));
        exit(1);
    }
}

static void check(int holds, const char *what) {
    if (!holds) {
        fprintf(stderr, "unexpected: %s\n", what);
        exit(1);
    }
}

/* Prints the verdicts of one evening, the first of them for position `from`. */
static void print(const char *evening, const uint8_t *sheet, uint64_t from, uint64_t given, uint64_t more) {
    printf("%s: %u verdicts, %s\n", evening, (unsigned)given, more ? "more" : "caught up");
    for (uint64_t i = 0; i < given; i++) {
        printf("%u %s\n", (unsigned)(from + i), sheet[i] ? "yes" : "no");
    }
}

enum { WARM = 1, PRINTS = 2 };

/* Letter 31. */
#define SERVICE (UINT32_C(1) << 31)

/*
 * A saved point: the file that keeps a point from one evening to the next, on a card that may be damaged meanwhile. Its bytes are
 * those of docs/FORMATS.md, so that a machine with another byte order and the Rust crate read it too.
 */
enum { SAVED_HEADER = 8, SAVED_NUMBERS = 48, SAVED_FRAME = 56 };

static const uint8_t saved_header[SAVED_HEADER] = {'K', 'P', 'T', 0, 2, 0, 0, 0};

/* What is saved beside the point's words. */
struct saved {
    uint64_t owner;    /* whose point it is: any number of yours */
    uint64_t rule;     /* the checksum of the rule's bytes */
    uint64_t given;    /* the verdicts given with the point, as havdrims_status tells them */
    uint64_t sheet;    /* the checksum of these verdicts */
    uint64_t services; /* the service records among the records seen: none in a log of version 1 */
};

/* FNV-1a over some bytes. `sum` is NO_BYTES, or the checksum of the bytes before them. */
static const uint64_t NO_BYTES = UINT64_C(14695981039346656037);

static uint64_t checksum(uint64_t sum, const uint8_t *bytes, size_t length) {
    for (size_t i = 0; i < length; i++) {
        sum = (sum ^ bytes[i]) * UINT64_C(1099511628211);
    }
    return sum;
}

/* Writes a saved point into the SAVED_FRAME + 8 * words bytes at `file`. */
static void save(const struct saved *saved, const uint64_t *point, uint64_t words, uint8_t *file) {
    const uint64_t numbers[5] = {saved->owner, saved->rule, saved->given, saved->sheet, saved->services};
    size_t end = SAVED_NUMBERS + 8 * words;
    memcpy(file, saved_header, SAVED_HEADER);
    for (size_t i = 0; i < 5; i++) {
        put(file + SAVED_HEADER + 8 * i, numbers[i], 8);
    }
    for (size_t i = 0; i < words; i++) {
        put(file + SAVED_NUMBERS + 8 * i, point[i], 8);
    }
    put(file + end, checksum(NO_BYTES, file, end), 8);
}

/* Reads a saved point of so many words. 0 if it is none, or is damaged: then nothing is written. */
static int load(const uint8_t *file, size_t length, struct saved *saved, uint64_t *point, uint64_t words) {
    size_t end = SAVED_NUMBERS + 8 * words;
    if (length != SAVED_FRAME + 8 * words || memcmp(file, saved_header, SAVED_HEADER) != 0 ||
        get64(file + end) != checksum(NO_BYTES, file, end)) {
        return 0;
    }
    saved->owner = get64(file + 8);
    saved->rule = get64(file + 16);
    saved->given = get64(file + 24);
    saved->sheet = get64(file + 32);
    saved->services = get64(file + 40);
    for (size_t i = 0; i < words; i++) {
        point[i] = get64(file + SAVED_NUMBERS + 8 * i);
    }
    return 1;
}

/*
 * Makes one rule of several typed formulas: each is parsed, and the entries of all stand one after the other behind one header of
 * version 2. The rule has room for HAVDRIMS_MOST_RULE bytes; its length is returned, and 0 if they are not enough.
 */
static size_t joined(const char *const *texts, size_t count, uint8_t *rule) {
    static const uint8_t header[8] = {'K', 'R', 'L', 0, 2, 0, 0, 0};
    uint8_t one[HAVDRIMS_MOST_RULE];
    size_t length = sizeof header;
    uint64_t written;

    memcpy(rule, header, sizeof header);
    for (size_t i = 0; i < count; i++) {
        accepted("parse", havdrims_parse((const uint8_t *)texts[i], strlen(texts[i]), one, sizeof one, &written));
        size_t entries = written - sizeof header;
        if (entries > HAVDRIMS_MOST_RULE - length) {
            return 0;
        }
        memcpy(rule + length, one + sizeof header, entries);
        length += entries;
    }
    rule[5] = (uint8_t)((length - sizeof header) / 10);
    return length;
}

/* Two rules on one sheet: bit k of a verdict is the answer of formula k. A record waits for both. */
static void two_rules(void) {
    static const char *const texts[2] = {"e0 until[0,90] e1", "not e1"};
    static uint64_t point[HAVDRIMS_MOST_WORDS];
    uint64_t formulas, given, more;
    uint64_t no[HAVDRIMS_MOST_FORMULAS], yes[HAVDRIMS_MOST_FORMULAS], latest[HAVDRIMS_MOST_FORMULAS];
    uint8_t both[HAVDRIMS_MOST_RULE], sheet[16];

    size_t length = joined(texts, 2, both);
    check(length == 58, "the length of both");
    /* This also says whether the whole is a rule: refused with 7 for more than eight formulas, with 8 for too many words. */
    accepted("formulas", havdrims_formulas(both, length, &formulas));
    check(formulas == 2, "the number of formulas");
    accepted("open", havdrims_open(both, length, point, HAVDRIMS_MOST_WORDS));
    log_length = 8;
    record(100, WARM);
    record(150, PRINTS);
    record(200, 0);
    record(300, WARM);
    accepted("resume", havdrims_resume(both, length, log_file, log_length, point, HAVDRIMS_MOST_WORDS, sheet, sizeof sheet,
                                       &given, &more));
    check(given == 3 && more == 0, "the count for both");
    for (uint64_t i = 0; i < given; i++) {
        printf("%u %s %s\n", (unsigned)i, sheet[i] & 1 ? "yes" : "no", sheet[i] & 2 ? "yes" : "no");
    }
    check(memcmp(sheet, "\3\1\2", 3) == 0, "the verdicts for both");
    accepted("tally", havdrims_tally(sheet, given, formulas, no, yes));
    check(no[0] == 1 && yes[0] == 2 && no[1] == 1 && yes[1] == 2, "the tally for both");
    accepted("summary", havdrims_summary(both, length, point, HAVDRIMS_MOST_WORDS, no, latest));
    /* Each has a no here; where a formula has none, latest[k] is HAVDRIMS_NONE. */
    for (uint64_t k = 0; k < formulas; k++) {
        printf("formula %u: %u no, the latest at record %u\n", (unsigned)k, (unsigned)no[k], (unsigned)latest[k]);
    }
    check(no[0] == 1 && latest[0] == 2 && no[1] == 1 && latest[1] == 1, "the summary for both");
}

/* The bytes that the header shows, of a text's rule, of a log with a service record and of the same log trimmed, and those of a
   saved point in FORMATS.md. */
static void shown_bytes(void) {
    static const char text[] = "e0 until[0,2] e1";
    static const uint8_t shown_rule[38] = {
        0x4b, 0x52, 0x4c, 0x00, 0x01, 0x03, 0x00, 0x00,
        0x00, 0x00, 0x00, 0x00, 0x00, 0x00, 0x00, 0x00, 0x00, 0x00,
        0x00, 0x01, 0x00, 0x00, 0x00, 0x00, 0x00, 0x00, 0x00, 0x00,
        0x06, 0x00, 0x00, 0x00, 0x00, 0x00, 0x00, 0x00, 0x00, 0x02,
    };
    static const uint8_t shown_log[32] = {
        0x4b, 0x4c, 0x47, 0x00, 0x02, 0x00, 0x00, 0x00,
        0x00, 0x00, 0x00, 0x0a, 0x00, 0x00, 0x00, 0x01,
        0x00, 0x00, 0x00, 0x0b, 0x80, 0x00, 0x00, 0x00,
        0x00, 0x00, 0x00, 0x0c, 0x00, 0x00, 0x00, 0x03,
    };
    static const uint8_t shown_trimmed[24] = {
        0x4b, 0x4c, 0x47, 0x00, 0x03, 0x00, 0x00, 0x00,
        0x00, 0x00, 0x00, 0x00, 0x00, 0x00, 0x00, 0x02,
        0x00, 0x00, 0x00, 0x0c, 0x00, 0x00, 0x00, 0x03,
    };
    uint64_t point[70], written, words, reach, given, more;
    uint8_t parsed[HAVDRIMS_MOST_RULE], trimmed[sizeof shown_log + 8], sheet[4] = {7, 7, 7, 7};

    accepted("parse", havdrims_parse((const uint8_t *)text, strlen(text), parsed, sizeof parsed, &written));
    check(written == sizeof shown_rule && memcmp(parsed, shown_rule, sizeof shown_rule) == 0, "the rule's bytes");
    accepted("measure", havdrims_measure(shown_rule, sizeof shown_rule, &words, &reach));
    check(words == 70 && reach == 2, "the rule's words and reach");
    accepted("open", havdrims_open(shown_rule, sizeof shown_rule, point, 70));
    /* Records 0 and 2 are positions 0 and 1. The sheet has room for one verdict, so that record 2 is still wanted. */
    accepted("resume", havdrims_resume(shown_rule, sizeof shown_rule, shown_log, sizeof shown_log, point, 70, sheet, 1, &given,
                                       &more));
    check(given == 1 && more == 1, "the log's first verdict");
    accepted("trim", havdrims_trim(shown_rule, sizeof shown_rule, shown_log, sizeof shown_log, point, 70, trimmed,
                                   sizeof trimmed, &written));
    check(written == sizeof shown_trimmed && memcmp(trimmed, shown_trimmed, sizeof shown_trimmed) == 0, "the trimmed log");
    accepted("resume", havdrims_resume(shown_rule, sizeof shown_rule, shown_trimmed, sizeof shown_trimmed, point, 70, sheet + 1,
                                       sizeof sheet - 1, &given, &more));
    check(given == 1 && more == 0 && memcmp(sheet, "\1\1\7\7", 4) == 0, "the log's verdicts");

    const struct saved saved = {17, checksum(NO_BYTES, shown_rule, sizeof shown_rule), 2, checksum(NO_BYTES, sheet, 2), 1};
    const uint64_t word = 7;
    uint8_t file[SAVED_FRAME + 8];
    save(&saved, &word, 1, file);
    check(get64(file + SAVED_FRAME) == UINT64_C(0xfc643051e324faf9), "the saved point's checksum");
}

/* A service visit: in a log of version 2 a record with letter 31 is no position, and gets no verdict. */
static void service_visit(void) {
    static uint64_t point[HAVDRIMS_MOST_WORDS];
    uint64_t given, more, seen, wanted, closed;
    uint8_t sheet[16];

    accepted("open", havdrims_open(rule, sizeof rule, point, HAVDRIMS_MOST_WORDS));
    log_file[4] = 2;
    log_length = 8;
    record(100, WARM);
    record(110, SERVICE | PRINTS);
    record(120, SERVICE);
    record(200, WARM);
    accepted("resume", havdrims_resume(rule, sizeof rule, log_file, log_length, point, HAVDRIMS_MOST_WORDS, sheet,
                                       sizeof sheet, &given, &more));
    print("With a visit", sheet, 0, given, more);
    check(given == 1 && sheet[0] == 0, "the technician's print is no customer's");
    accepted("status", havdrims_status(rule, sizeof rule, point, HAVDRIMS_MOST_WORDS, &given, &seen, &wanted, &closed));
    printf("%u of %u records may be overwritten\n", (unsigned)wanted, (unsigned)seen);
    check(given == 1 && seen == 4 && wanted == 3 && closed == 0, "position 1 is record 3");

    /* The point goes on with logs of this version alone. */
    log_file[4] = 1;
    uint32_t number = havdrims_resume(rule, sizeof rule, log_file, log_length, point, HAVDRIMS_MOST_WORDS, sheet,
                                      sizeof sheet, &given, &more);
    printf("as version 1: refused %u: %s\n", (unsigned)number, havdrims_refusal_text(number));
    check(number == HAVDRIMS_OTHER_VERSION, "the refusal of another version");
}

/* A shorter log: what the point no longer wants is dropped, and the log grows on from what is left. */
static void shorter_log(void) {
    static uint64_t point[HAVDRIMS_MOST_WORDS];
    uint64_t given, more, seen, wanted, closed, length;
    uint8_t sheet[16], shorter[sizeof log_file + 8];

    accepted("open", havdrims_open(rule, sizeof rule, point, HAVDRIMS_MOST_WORDS));
    log_file[4] = 2;
    log_length = 8;
    record(100, WARM);
    record(150, PRINTS);
    record(160, SERVICE);
    record(200, WARM);
    accepted("resume", havdrims_resume(rule, sizeof rule, log_file, log_length, point, HAVDRIMS_MOST_WORDS, sheet,
                                       sizeof sheet, &given, &more));
    print("Before trimming", sheet, 0, given, more);
    check(given == 2 && more == 0 && memcmp(sheet, "\1\1", 2) == 0, "the verdicts before trimming");

    /* Here the point is saved, as on Monday. A point that is behind this one would still want what is dropped now. */
    accepted("trim", havdrims_trim(rule, sizeof rule, log_file, log_length, point, HAVDRIMS_MOST_WORDS, shorter,
                                   sizeof shorter, &length));
    printf("%u bytes of log become %u, %u records dropped\n", (unsigned)log_length, (unsigned)length,
           (unsigned)get64(shorter + 8));
    check(length == 24 && get64(shorter + 8) == 3 && shorter[4] == 3, "the trimmed log");

    /* The next record goes behind what is left, and is record 4 all the same. */
    put(shorter + length, 250, 4);
    put(shorter + length + 4, PRINTS, 4);
    length += 8;
    accepted("resume", havdrims_resume(rule, sizeof rule, shorter, length, point, HAVDRIMS_MOST_WORDS, sheet + given,
                                       sizeof sheet - given, &given, &more));
    print("After trimming", sheet + 2, 2, given, more);
    check(given == 2 && more == 0 && memcmp(sheet, "\1\1\1\1", 4) == 0, "the verdicts after trimming");
    accepted("status", havdrims_status(rule, sizeof rule, point, HAVDRIMS_MOST_WORDS, &given, &seen, &wanted, &closed));
    check(given == 4 && seen == 5 && wanted == 5 && closed == 0, "dropped records are counted");

    /* The log that was never trimmed gives the same. One that has dropped a record that is wanted is refused. */
    record(250, PRINTS);
    accepted("resume", havdrims_resume(rule, sizeof rule, log_file, log_length, point, HAVDRIMS_MOST_WORDS, sheet,
                                       sizeof sheet, &given, &more));
    check(given == 0 && more == 0, "the whole log again");
    put(shorter + 8, 6, 8);
    uint32_t number = havdrims_resume(rule, sizeof rule, shorter, 16, point, HAVDRIMS_MOST_WORDS, sheet, sizeof sheet, &given,
                                      &more);
    printf("with a record dropped: refused %u: %s\n", (unsigned)number, havdrims_refusal_text(number));
    check(number == HAVDRIMS_RECORD_DROPPED, "the refusal of a record dropped");
}

/* Why a no is a no: the reason as text, and the position that its first line names. The log is whole, with no record overwritten. */
static void why_no(void) {
    uint8_t text[HAVDRIMS_MOST_REASON];
    uint64_t length;

    log_file[4] = 2;
    log_length = 8;
    record(200, WARM);
    record(210, SERVICE | PRINTS);
    record(260, 0);
    record(300, PRINTS);
    /* The service record is no position, so record 2 is position 1. */
    accepted("explain", havdrims_explain(rule, sizeof rule, log_file, log_length, 0, 0, text, sizeof text, &length));
    printf("position 0 is no: %.*s", (int)length, (const char *)text);
    static const char expected[] = "2 0 until 1 left\n";
    check(length == strlen(expected) && memcmp(text, expected, length) == 0, "the reason");

    /* A line has the entry, the position, the entry's word, and here the position at which the head had gone cold. */
    unsigned entry, position, cold;
    char line[sizeof expected];
    memcpy(line, text, length);
    line[length] = 0;
    check(sscanf(line, "%u %u until %u left", &entry, &position, &cold) == 3, "the parts of the line");
    check(entry == 2 && position == 0 && cold == 1, "where the head had gone cold");
    printf("the head had gone cold at position %u, before the print started\n", cold);

    /* Not below A, or no such formula, or a short buffer. */
    uint32_t number = havdrims_explain(rule, sizeof rule, log_file, log_length, 0, 3, text, sizeof text, &length);
    printf("position 3: refused %u: %s\n", (unsigned)number, havdrims_refusal_text(number));
    check(number == HAVDRIMS_NO_REASON, "the refusal of a position that is not there");
    log_file[4] = 1;
}

int main(void) {
    uint64_t words, reach, given, more, seen, wanted, closed;
    uint64_t no[HAVDRIMS_MOST_FORMULAS], yes[HAVDRIMS_MOST_FORMULAS], latest[HAVDRIMS_MOST_FORMULAS];
    uint8_t sheet[16];

    printf("havdrims %d.%d.%d\n", HAVDRIMS_VERSION_MAJOR, HAVDRIMS_VERSION_MINOR, HAVDRIMS_VERSION_PATCH);
    shown_bytes();

    accepted("measure", havdrims_measure(rule, sizeof rule, &words, &reach));
    printf("a point needs %u words; the rule looks ahead %u seconds\n", (unsigned)words, (unsigned)reach);
    check(words == 246 && reach == 90, "words and reach");

    uint64_t *point = calloc(words, sizeof *point);
    check(point != NULL, "no memory");
    accepted("open", havdrims_open(rule, sizeof rule, point, words));

    /* Monday: a print in time, a head that went cold, and one that is still warm when the shop closes. */
    record(100, WARM);
    record(140, WARM);
    record(150, PRINTS);
    record(200, WARM);
    record(260, 0);
    record(300, WARM);
    memset(sheet, 7, sizeof sheet);
    accepted("resume", havdrims_resume(rule, sizeof rule, log_file, log_length, point, words, sheet, sizeof sheet,
                                       &given, &more));
    print("Monday", sheet, 0, given, more);
    check(given == 5 && more == 0, "Monday's count");
    check(memcmp(sheet, "\1\1\1\0\0\7", 6) == 0, "Monday's verdicts");
    uint64_t first = given;

    /* The evening's end: the verdicts are kept, and then the point is saved. Only then may a record be overwritten. */
    struct saved saved = {17, checksum(NO_BYTES, rule, sizeof rule), given, checksum(NO_BYTES, sheet, given), 0};
    size_t size = SAVED_FRAME + 8 * words;
    uint8_t *file = malloc(size);
    check(file != NULL, "no memory");
    save(&saved, point, words, file);

    /* The point knows how far it has come and which records it still wants. */
    accepted("status", havdrims_status(rule, sizeof rule, point, words, &given, &seen, &wanted, &closed));
    printf("%u of %u records have verdicts; those before record %u may be overwritten\n", (unsigned)given, (unsigned)seen,
           (unsigned)wanted);
    check(given == 5 && seen == 6 && wanted == 5 && closed == 0, "the status");
    memset(log_file + 8, 0xFF, 8 * wanted);

    /* The next morning: a file with a damaged byte is not taken, and the file as it was is the point again. */
    memset(point, 0, words * sizeof *point);
    memset(&saved, 0, sizeof saved);
    file[size / 2] ^= 1;
    check(!load(file, size, &saved, point, words), "a damaged file");
    file[size / 2] ^= 1;
    check(load(file, size, &saved, point, words), "the saved point");
    check(saved.owner == 17 && saved.rule == checksum(NO_BYTES, rule, sizeof rule), "whose point it is");
    check(saved.given == first && saved.sheet == checksum(NO_BYTES, sheet, first), "the verdicts that were kept");
    free(file);

    /* Tuesday: the print starts in time for record 5; then one waits for more than ninety seconds. */
    record(390, PRINTS);
    record(400, WARM);
    record(491, WARM);
    accepted("resume", havdrims_resume(rule, sizeof rule, log_file, log_length, point, words, sheet + first,
                                       sizeof sheet - first, &given, &more));
    print("Tuesday", sheet + first, first, given, more);
    check(given == 3 && more == 0, "Tuesday's count");
    check(memcmp(sheet + first, "\1\1\0\7", 4) == 0, "Tuesday's verdicts");
    uint64_t all = first + given;

    accepted("tally", havdrims_tally(sheet, all, 1, no, yes));
    printf("the week so far: %u yes, %u no\n", (unsigned)yes[0], (unsigned)no[0]);
    check(yes[0] == 5 && no[0] == 3, "the tally");

    /* The point knows the count of no without any sheet, and where the latest is. */
    accepted("summary", havdrims_summary(rule, sizeof rule, point, words, no, latest));
    printf("the latest no is record %u\n", (unsigned)latest[0]);
    check(no[0] == 3 && latest[0] == 7, "the summary");

    /* A log that has lost a record is refused, and the point is as it was. */
    uint32_t number = havdrims_resume(rule, sizeof rule, log_file, log_length - 8, point, words, sheet, sizeof sheet,
                                      &given, &more);
    printf("with a record removed: refused %u: %s\n", (unsigned)number, havdrims_refusal_text(number));
    check(number == HAVDRIMS_FEWER_RECORDS, "the refusal");

    /* The month's end: no record will follow, so the last one has its verdict too. From then on the point is closed. */
    accepted("close", havdrims_close(rule, sizeof rule, log_file, log_length, point, words, sheet + all,
                                     sizeof sheet - all, &given, &more));
    print("Closed", sheet + all, all, given, more);
    check(given == 1 && more == 0 && sheet[all] == 0, "the last verdict");
    number = havdrims_resume(rule, sizeof rule, log_file, log_length, point, words, sheet, sizeof sheet, &given, &more);
    printf("once closed: refused %u: %s\n", (unsigned)number, havdrims_refusal_text(number));
    check(number == HAVDRIMS_POINT_CLOSED, "the refusal once closed");

    free(point);
    two_rules();
    service_visit();
    shorter_log();
    why_no();
    return 0;
}
