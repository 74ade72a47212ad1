/* Havdrims: a checker of metric temporal rules over kiosk logs. The C interface of libhavdrims.a. */
#ifndef HAVDRIMS_H
#define HAVDRIMS_H

#include <stddef.h>
#include <stdint.h>

#ifdef __cplusplus
extern "C" {
#endif

/* The version of this header and of the archive that it belongs to, as a number to compare: 0.1.0 is 100. */
#define HAVDRIMS_VERSION_MAJOR 0
#define HAVDRIMS_VERSION_MINOR 1
#define HAVDRIMS_VERSION_PATCH 0
#define HAVDRIMS_VERSION (HAVDRIMS_VERSION_MAJOR * 10000 + HAVDRIMS_VERSION_MINOR * 100 + HAVDRIMS_VERSION_PATCH)

/*
 * For all calls:
 *
 * The result is 0 if the call was accepted, otherwise the number of its refusal: of those that stand at the call, the
 * first, in the order in which they stand there, that applies. A refused call changes nothing: every buffer keeps its
 * bytes and words, and so do the numbers behind the pointers.
 *
 * The caller owns every buffer, before, during and after the call. The library allocates nothing, keeps no pointer
 * and has no state of its own: all that it knows between two calls is in the point. Calls on different points may
 * run at the same time. A thread with a stack of HAVDRIMS_MOST_STACK bytes can make every call but havdrims_parse and
 * havdrims_explain, whatever the rule; these take HAVDRIMS_PARSE_STACK and HAVDRIMS_EXPLAIN_STACK bytes.
 *
 * A length counts the elements of its buffer: bytes, or 64-bit words for a point. A buffer of length 0 is not
 * touched, and its pointer may be null. Words are aligned as uint64_t is. A pointer without a length is never null; each
 * call says to how many numbers it points.
 *
 * What a call writes (point, sheet, a rule, log or text that it makes, the numbers behind its pointers) shares no byte with
 * anything else that the call is given. What it only reads may overlap.
 *
 * A point's words are the library's own, in the byte order of the machine: save them and hand them back as they are.
 * docs/FORMATS.md has a form for a file, with a mark and a checksum, which examples/c/week.c writes and reads. A point of
 * another format, as a library of another version may have written, is refused with 10.
 */

/*
 * The bytes of a rule. Numbers wider than a byte are big-endian here and in a log.
 *
 *     0 to 2      'K' 'R' 'L'
 *     3, 4        version: 1 for one formula, 2 for one to eight
 *     5           number of entries, 0 to 128
 *     6, 7        0
 *     8 + 10 * k  entry k: kind (1 byte), letter (1 byte), low (4 bytes), high (4 bytes)
 *
 * Kinds: 0 letter, 1 not, 2 or, 3 previous, 4 next, 5 since, 6 until. An operator stands behind its operands, the left one
 * before the right one. Only a letter uses the letter, 0 to 31; only kinds 3 to 6 use low and high, 0 to 3,600 seconds, where
 * a high of FF FF FF FF, but not of until, means no upper end. Unused fields are 0. A rule of version 1 without entries says
 * yes at every position. In version 2 the entries of formula 0 come first, then those of formula 1, and so on: so the
 * entries of several rules, as havdrims_parse writes them, behind one header of version 2 are a rule with all their
 * formulas (examples/c/week.c has the code).
 *
 * "e0 until[0,2] e1", letter 0 until letter 1, within 0 to 2 seconds:
 *
 *     4b 52 4c 00 01 03 00 00        KRL, version 1, 3 entries
 *     00 00 00 00 00 00 00 00 00 00  letter 0
 *     00 01 00 00 00 00 00 00 00 00  letter 1
 *     06 00 00 00 00 00 00 00 00 02  until, 0 to 2 seconds
 */

/*
 * The bytes of a log.
 *
 *     0 to 2      'K' 'L' 'G'
 *     3, 4        version, 1 to 3
 *     5 to 7      0
 *     8 + 8 * i   versions 1 and 2: record i: time in seconds (4 bytes), event set (4 bytes)
 *
 *     8 to 15     version 3: the number of records dropped, n
 *     16 + 8 * i  version 3: record n + i, likewise
 *
 * Letter k stands in a record if the bit worth 2 to the k is set in its event set. No time lies below the one before it; many
 * may be the same. There are at most HAVDRIMS_MOST_RECORDS records, dropped ones included.
 *
 * In a log of version 1 every record is a position. From version 2 on a record with letter 31 is a service record: no
 * position, skipped by every operator, without a verdict. Positions are numbered from 0 over the other records.
 *
 * A log of version 3 is what havdrims_trim leaves of one of version 2: its first records are no longer there. The others keep
 * their numbers, as records and as positions. New records are added at its end as to any log.
 *
 * Three records, the second of them a service record:
 *
 *     4b 4c 47 00 02 00 00 00  KLG, version 2
 *     00 00 00 0a 00 00 00 01  second 10, letter 0
 *     00 00 00 0b 80 00 00 00  second 11, service
 *     00 00 00 0c 00 00 00 03  second 12, letters 0 and 1
 */

/*
 * The same log trimmed, once records 0 and 1 are no longer wanted:
 *
 *     4b 4c 47 00 03 00 00 00  KLG, version 3
 *     00 00 00 00 00 00 00 02  2 records dropped
 *     00 00 00 0c 00 00 00 03  record 2: second 12, letters 0 and 1
 */

/* Why a call is refused. havdrims_refusal_text, below, says what each means. */
enum havdrims_refusal {
    HAVDRIMS_RULE_MARK = 1,
    HAVDRIMS_RULE_VERSION = 2,
    /* 3 no longer occurs: a rule without entries says yes at every position */
    HAVDRIMS_RULE_LENGTH = 4,
    HAVDRIMS_ENTRY_FIELD = 5,
    HAVDRIMS_INTERVAL = 6,
    HAVDRIMS_SHAPE = 7,
    HAVDRIMS_TOO_MANY_WORDS = 8,
    HAVDRIMS_SHORT_POINT = 9,
    HAVDRIMS_FOREIGN_POINT = 10,
    HAVDRIMS_POINT_RANGE = 11,
    HAVDRIMS_LOG_FORMAT = 12,
    HAVDRIMS_FEWER_RECORDS = 13,
    HAVDRIMS_TIME_FALLS = 14,
    HAVDRIMS_SHEET_BYTE = 15,
    HAVDRIMS_UNKNOWN_WORD = 16,
    HAVDRIMS_NOT_DERIVED = 17,
    HAVDRIMS_SHORT_RULE = 18,
    HAVDRIMS_LOG_ROOM = 19,
    HAVDRIMS_POINT_CLOSED = 20,
    HAVDRIMS_MORE_RECORDS = 21,
    HAVDRIMS_OTHER_VERSION = 22,
    HAVDRIMS_TRIM_VERSION = 23,
    HAVDRIMS_RECORD_DROPPED = 24,
    HAVDRIMS_SHORT_LOG = 25,
    HAVDRIMS_SETTINGS = 26,
    HAVDRIMS_NO_REASON = 27
};

/* What a call's result means. Never null, also for a number that this header does not know. */
static inline const char *havdrims_refusal_text(uint32_t number) {
    switch (number) {
    case 0:
        return "accepted";
    case HAVDRIMS_RULE_MARK:
        return "the rule is shorter than 8 bytes or lacks its mark";
    case HAVDRIMS_RULE_VERSION:
        return "the rule's version is not 1 or 2";
    case HAVDRIMS_RULE_LENGTH:
        return "the count is above 128, a spare byte is not zero, or the length is not 8 + 10 * count";
    case HAVDRIMS_ENTRY_FIELD:
        return "some kind is above 6, some letter above 31, or some unused field not zero";
    case HAVDRIMS_INTERVAL:
        return "some low or finite high is above 3,600, some low is above its high, or until has no upper end";
    case HAVDRIMS_SHAPE:
        return "some entry lacks an operand, or the whole leaves other than one formula (version 1, unless the count is 0) "
               "or other than one to eight formulas (version 2)";
    case HAVDRIMS_TOO_MANY_WORDS:
        return "the need is above 8,192 words";
    case HAVDRIMS_SHORT_POINT:
        return "the lent point is shorter than the need";
    case HAVDRIMS_FOREIGN_POINT:
        return "the point does not begin as a point of this library with a copy of this rule";
    /* docs/CHECKPOINT.md has the ranges. A point that this library left never meets this where no record from the first
       still wanted on was altered. */
    case HAVDRIMS_POINT_RANGE:
        return "a word of the point is outside its range";
    case HAVDRIMS_LOG_FORMAT:
        return "the log is shorter than 8 bytes, or 16 in version 3, its mark or spare bytes are wrong, its version is not 1 "
               "to 3, its length less 8 is no multiple of 8, or it has more than 1,000,000 records, service records and "
               "dropped ones included";
    case HAVDRIMS_FEWER_RECORDS:
        return "the log has fewer records than the point has seen, service records and dropped ones included";
    case HAVDRIMS_TIME_FALLS:
        return "some record after the first still wanted, or where a reason is asked for after the first of all, has a time "
               "below that of the record before it, or the first new record's time is below the last time seen, service "
               "records included";
    case HAVDRIMS_SHEET_BYTE:
        return "a sheet given to tally has a byte with a bit beyond the number of formulas, or that number is outside 1 to 8";
    case HAVDRIMS_UNKNOWN_WORD:
        return "a word, sign or form of number of the text is unknown, or it has more than 1,024 bytes";
    case HAVDRIMS_NOT_DERIVED:
        return "the grammar does not derive the text";
    case HAVDRIMS_SHORT_RULE:
        return "the lent rule buffer is short";
    case HAVDRIMS_LOG_ROOM:
        return "the number of records is above 1,000,000, or the lent log buffer is under 8 + 8 * records bytes";
    case HAVDRIMS_POINT_CLOSED:
        return "resume is given a closed point";
    case HAVDRIMS_MORE_RECORDS:
        return "closing is repeated with more records than at its first call that was not refused, service records and "
               "dropped ones included";
    case HAVDRIMS_OTHER_VERSION:
        return "the log's version differs from that of the last resume or close with this point that was not refused, and "
               "the two are not 2 and 3";
    case HAVDRIMS_TRIM_VERSION:
        return "a log of version 1 is to be trimmed";
    case HAVDRIMS_RECORD_DROPPED:
        return "the log has dropped the first record still wanted or one after it, or any record where a reason is asked for";
    case HAVDRIMS_SHORT_LOG:
        return "the lent buffer for the trimmed log is short";
    case HAVDRIMS_SETTINGS:
        return "a setting, the seconds or the seed is outside its range, or the lent log buffer is short";
    case HAVDRIMS_NO_REASON:
        return "the formula does not exist, the position has no verdict yet, or the lent text buffer is short";
    default:
        return "a refusal that this header does not know";
    }
}

/* No position of the rule is sure to be answered after any time: the reach of a rule with next. */
#define HAVDRIMS_NO_REACH UINT64_C(4294967295)

/* No position: what havdrims_summary gives as the latest no where there is none. */
#define HAVDRIMS_NONE UINT64_MAX

/* The most formulas of a rule. */
#define HAVDRIMS_MOST_FORMULAS 8

/* The most records of a log, service records and dropped ones included. */
#define HAVDRIMS_MOST_RECORDS 1000000

/* The most words that a point can need. */
#define HAVDRIMS_MOST_WORDS 8192

/* The most bytes of stack that a call other than havdrims_parse and havdrims_explain needs: measured and tested on x86-64 Linux,
   not proved. */
#define HAVDRIMS_MOST_STACK 65536

/* The most bytes of stack that havdrims_parse needs, for 1,024 open brackets: measured and tested in the same way. */
#define HAVDRIMS_PARSE_STACK 1048576

/* The most bytes of stack that havdrims_explain needs: measured and tested in the same way. */
#define HAVDRIMS_EXPLAIN_STACK 262144

/* The most bytes of a text and of a rule. */
#define HAVDRIMS_MOST_TEXT 1024
#define HAVDRIMS_MOST_RULE 1288

/* Enough bytes for the text of every reason: 128 lines of at most 29 bytes. */
#define HAVDRIMS_MOST_REASON 3712

/*
 * Weighs a rule of rule_len bytes.
 *
 * words   points to one number, which becomes the number of words that a point of this rule needs, 16 to 8,192.
 * reach   points to one number, which becomes the rule's reach in seconds: a position has its verdict, at the latest,
 *         once the log has one more than that much later; or HAVDRIMS_NO_REACH. Of several formulas it is the largest.
 *
 * Refusals: 1 to 8.
 */
uint32_t havdrims_measure(const uint8_t *rule, size_t rule_len, uint64_t *words, uint64_t *reach);

/*
 * Counts the formulas of a rule.
 *
 * formulas   points to one number, which becomes 1 to 8. A rule of version 1 has one, also where it has no entries.
 *
 * Refusals: 1 to 8.
 */
uint32_t havdrims_formulas(const uint8_t *rule, size_t rule_len, uint64_t *formulas);

/*
 * Writes a fresh point for a rule into the first words of `point`, as many as havdrims_measure gives for the rule.
 * The words behind them are kept. What the words held before does not matter.
 *
 * Refusals: 1 to 8, and 9 if point_len is below the need.
 */
uint32_t havdrims_open(const uint8_t *rule, size_t rule_len, uint64_t *point, size_t point_len);

/*
 * Carries on from a point: judges the log as far as it goes and writes the verdicts that are new since the last
 * accepted call with this point, one byte for each position in turn, 1 for yes and 0 for no. Where the rule has several
 * formulas, bit k of the byte, the bit worth 2 to the k, is the answer of formula k, counted from 0 in the rule's order. A
 * position has its verdict when every formula has answered it. A service record is no position: no byte is written for it.
 *
 * rule    the rule that the point was opened for, byte for byte.
 * log     the whole log from its header on, with the records of the accepted calls before and any number of new
 *         ones behind them; or what havdrims_trim left of it with this point, with any number of new ones behind.
 *         The records before the first still wanted are not read again: they may hold any bytes, or be dropped.
 *         The others must be as they were; if they are not, or if the point was not left by this library, the call
 *         still returns and writes only point, sheet, *given and *more, but its verdicts mean nothing.
 * point   as open or the last accepted call left it. It becomes the point to carry on from. Words behind the need
 *         are kept.
 * sheet   takes the verdicts. Its bytes behind them are kept. It may be of any length, 0 included.
 * given   points to one number, which becomes the number of verdicts written.
 * more    points to one number, which becomes 1 if the log settles further positions, for which the sheet had no room, and
 *         0 if the point has caught up.
 *
 * The first position still wanted is the number of verdicts given with this point so far, less k, or 0 where it is below
 * k: k is the largest number of previous entries on a path from a formula's last entry to a letter. So a rule without
 * previous wants the positions that have no verdict yet, and no others. The first record still wanted is the one that holds
 * this position, or the record after all seen where none of them holds it. havdrims_status gives it.
 *
 * Refusals: 1 to 11, then 20, 12, 22, 13, 24, 14. An accepted call fixes the log's version for those that follow (22), also
 * one that brings no record; versions 2 and 3 count as one.
 */
uint32_t havdrims_resume(const uint8_t *rule, size_t rule_len, const uint8_t *log, size_t log_len,
                         uint64_t *point, size_t point_len, uint8_t *sheet, size_t sheet_len,
                         uint64_t *given, uint64_t *more);

/*
 * Closes the month: says that no record will follow the log. Every remaining position gets its verdict on the log as it
 * ends: an until whose end never came is no, and so is next at the last position.
 *
 * Its parameters are those of havdrims_resume, `given` and `more` included, each of which points to one number. It writes and
 * answers as havdrims_resume does, and is called again where the sheet had no room for all; records before the first still
 * wanted may be overwritten between. The first closing that is not refused closes the point, whatever the length of its sheet:
 * from then on havdrims_resume is refused with 20, and a closing with more records with 21.
 *
 * Refusals: 1 to 12, then 22, 13, 21, 24, 14.
 */
uint32_t havdrims_close(const uint8_t *rule, size_t rule_len, const uint8_t *log, size_t log_len,
                        uint64_t *point, size_t point_len, uint8_t *sheet, size_t sheet_len,
                        uint64_t *given, uint64_t *more);

/*
 * Writes a shorter log, of version 3: the number of records dropped, and then the records from the first still wanted on, new
 * ones that the point has not seen included. The point is not changed, whether it is closed or not, and no version is fixed.
 *
 * What is written may be brought in place of the log from then on, as it is or grown, and be trimmed again: every call gives what
 * it would give with the log that was never trimmed. The log itself, and what was trimmed before, may be brought again too,
 * once it has the records that were seen since.
 * Save the point first: a point that is behind this one may still want what is dropped here, and is then refused with 24.
 *
 * log       of version 2 or 3, as for havdrims_resume.
 * out       takes the log: 16 bytes, and 8 for each record that is left. Its bytes behind the log are kept. log_len + 8 bytes
 *           are enough for every log.
 * written   points to one number, which becomes the log's length in bytes.
 *
 * Refusals: 1 to 12, then 22, 23, 13, 24, 14, 25.
 */
uint32_t havdrims_trim(const uint8_t *rule, size_t rule_len, const uint8_t *log, size_t log_len,
                       const uint64_t *point, size_t point_len, uint8_t *out, size_t out_len, uint64_t *written);

/*
 * Writes the reason for a yes or no, as ASCII text, into the first bytes of `text`. The bytes behind them are kept: no zero ends
 * the text. HAVDRIMS_MOST_REASON bytes are enough for every reason. No point is needed; the time is about that of two runs of
 * the rule over the log.
 *
 * log        the whole log, from its first record on, with none dropped or overwritten. What was overwritten in such a way that
 *            no time falls is not found out: the reason is then that of the log as it is.
 * formula    the formula's number, from 0: 0 for a rule of version 1.
 * position   a position that every formula of the rule has answered. Before a closing these are the positions with a verdict. A
 *            position is not the number of its record where service records stand before it.
 * written    points to one number, which becomes the number of bytes written.
 *
 * A reason is a list of lines, each with the number of an entry of the rule, from 0, a position, and then
 *
 *     e0 yes       the letter, here e0, stands there; or e0 no
 *     not          the line of the operand follows
 *     or           of a yes the line of an operand that is yes follows, the left one's if both are; of a no those of both
 *     prev 40      the seconds since the position before; if they are within low and high, the line of the operand there
 *                  follows. prev none: there is no position before
 *     next 40      the seconds to the next position; if they are within, the line of the operand there follows
 *     since 2      yes by this position, the earliest: right holds there, and left at every position behind it
 *     until 9      yes by this position, the earliest: right holds there, and left at every position before it
 *     since 2 left no: left fails at this position, the latest such; and right is no from there on wherever the gap is within
 *     since 2 time no: this is the first position at most high before; and right is no likewise
 *     until 9 left no: left is answered no at this position, the first such; and right is no up to there wherever the gap is
 *                  within
 *     until 9 time no: this is the first position more than high later; and right is no likewise
 *
 * with one space between the parts and a line feed at the end. The reason of a rule without entries is the line "empty". Of
 * "not e2 or e0 until[0,90] e1", whose entries are e2, not, e0, e1, until and or, at position 5 of the log of examples/day:
 *
 *     5 5 or            no, by both sides:
 *     1 5 not           not e2 is no,
 *     0 5 e2 yes        since e2 stands there;
 *     4 5 until 6 left  and the until is no, since e0 fails at position 6, and e1 stands at neither
 *
 * The facts that the lines say hold, and on every log in which they hold and no time falls the verdict is this one.
 *
 * Refusals: 1 to 8, then 12, 24 if any record was dropped, 14 from the first record on, and 27.
 */
uint32_t havdrims_explain(const uint8_t *rule, size_t rule_len, const uint8_t *log, size_t log_len,
                          uint64_t formula, uint64_t position, uint8_t *text, size_t text_len, uint64_t *written);

/*
 * What the point itself knows of the verdicts given with it, all calls together: what havdrims_tally and a scan would give over
 * the verdicts of all calls laid end to end. The point is not changed.
 *
 * no       points to HAVDRIMS_MOST_FORMULAS numbers: no[k], for each formula k of the rule, becomes the count of its no among
 *          these verdicts. The numbers for further formulas are kept.
 * latest   points to HAVDRIMS_MOST_FORMULAS numbers: latest[k], for each formula k of the rule, becomes the position of its
 *          latest no, or HAVDRIMS_NONE. The numbers for further formulas are kept. A position is not the number of its record
 *          where service records stand before it.
 *
 * Refusals: 1 to 11.
 */
uint32_t havdrims_summary(const uint8_t *rule, size_t rule_len, const uint64_t *point, size_t point_len,
                          uint64_t *no, uint64_t *latest);

/*
 * How far a point has come. The point is not changed.
 *
 * given    points to one number, which becomes the number of verdicts given with the point, all calls together.
 * seen     points to one number, which becomes the number of records that the last accepted havdrims_resume or havdrims_close
 *          brought, service records and dropped ones included.
 * wanted   points to one number, which becomes the first record still wanted, as above, a record's number and not a position's:
 *          all records before it may be overwritten, or dropped by havdrims_trim.
 * closed   points to one number, which becomes 1 if the point is closed and else 0.
 *
 * Refusals: 1 to 11.
 */
uint32_t havdrims_status(const uint8_t *rule, size_t rule_len, const uint64_t *point, size_t point_len,
                         uint64_t *given, uint64_t *seen, uint64_t *wanted, uint64_t *closed);

/*
 * Counts the verdicts of a sheet of sheet_len bytes, for a rule with so many formulas, 1 to 8. Give it the verdicts alone, not
 * the rest of the sheet.
 *
 * no    points to HAVDRIMS_MOST_FORMULAS numbers: no[k], for each formula k, becomes the number of bytes in which bit k is 0.
 *       The numbers for further formulas are kept.
 * yes   points to HAVDRIMS_MOST_FORMULAS numbers: yes[k], for each formula k, becomes the number of bytes in which bit k is 1.
 *       The numbers for further formulas are kept.
 *
 * Refusal: 15.
 */
uint32_t havdrims_tally(const uint8_t *sheet, size_t sheet_len, uint64_t formulas, uint64_t *no, uint64_t *yes);

/*
 * Writes the rule that a text of text_len bytes says, of version 1, into the first bytes of `rule`. The bytes behind them are
 * kept. HAVDRIMS_MOST_RULE bytes are enough for every text.
 *
 * A text is a formula, as in "not e2 or e0 until[0,90] e1". Letters are e0 to e31. not, prev and next bind tightest,
 * then since and until, grouping to the right, then or, grouping to the left; round brackets override. prev, next,
 * since and until carry [low,high] in seconds, inf as high meaning no upper end. docs/FORMATS.md has the grammar.
 *
 * written   points to one number, which becomes the number of bytes written.
 *
 * Refusals, in this order: 16, 17, then 4 (more than 128 entries), 6, 8, and 18.
 */
uint32_t havdrims_parse(const uint8_t *text, size_t text_len, uint8_t *rule, size_t rule_len, uint64_t *written);

/*
 * Writes the log that keeps most seconds waiting: for the rule "letter 0 until letter 1, within low to high seconds",
 * a log of exactly `records` records none of which is settled, and among whose times are as many distinct ones as the
 * open records of any log of `records` records can have: the smaller of `records` and high + 1. Record i has letter 0
 * alone, and as its time the smaller of i and high.
 *
 * log       takes the log, header included. Its bytes behind the log are kept.
 * written   points to one number, which becomes the log's length, 8 + 8 * records bytes.
 *
 * Refusals: 6 for the interval, as of an until in a rule; then 19.
 */
uint32_t havdrims_worst_log(uint32_t low, uint32_t high, uint64_t records, uint8_t *log, size_t log_len,
                            uint64_t *written);

/*
 * A kiosk to try settings on: simulates so many seconds of it, from time 0, with the head off and nobody there, and
 * writes its log, a record for each second, into the first 8 + 8 * seconds bytes of `log`. The bytes behind are kept.
 *
 * seconds      0 to 3,600
 * warm_up      how long the head takes to warm up, 1 to 600 seconds
 * print_time   how long a print takes, 1 to 600 seconds
 * switch_off   how long a warm head is idle before it goes off, 1 to 3,600 seconds
 * mean_gap     1 to 3,600: a customer joins in a second whose draw is divisible by it
 * seed         the generator's first state, not 0; the same seed gives the same customers
 *
 * In the log letter 0 stands in a second that ends with a warm head, letter 1 where a print begins, letter 2 where a
 * customer joins, and letter 3 where a print ends.
 *
 * written      points to one number, which becomes the log's length in bytes
 * finished     points to one number, which becomes the number of prints that ended
 * printing     points to one number, which becomes 1 if a print goes on at the end and else 0
 * waiting      points to one number, which becomes the number of customers whose print has not begun
 *
 * The last three sum to the customers who joined.
 *
 * Refusal: 26.
 */
uint32_t havdrims_simulate(uint32_t seconds, uint32_t warm_up, uint32_t print_time, uint32_t switch_off,
                           uint32_t mean_gap, uint32_t seed, uint8_t *log, size_t log_len,
                           uint64_t *written, uint64_t *finished, uint64_t *printing, uint64_t *waiting);

#ifdef __cplusplus
}
#endif

#endif
