/* Faults that a library could have, to show that the harness finds them. */
#ifndef FAULTS_H
#define FAULTS_H

/* The message that the harness ends with, or 0 where a forbidden page or one that cannot be written is touched. */
#define ALL_FAULTS(FAULT)                                                                                                      \
    FAULT(READS_BEHIND_LOG, 0)                                                                                                 \
    FAULT(READS_BEFORE_RULE, 0)                                                                                                \
    FAULT(WRITES_BEHIND_SHEET, 0)                                                                                              \
    FAULT(WRITES_BEFORE_POINT, 0)                                                                                              \
    FAULT(WRITES_LOG, 0)                                                                                                       \
    FAULT(TOUCHES_EMPTY_SHEET, 0)                                                                                              \
    FAULT(CHANGES_NUMBER_WHEN_REFUSED, "resume: refused, and changed a number behind a pointer")                               \
    FAULT(CHANGES_POINT_WHEN_REFUSED, "resume: refused, and changed the point")                                                \
    FAULT(CHANGES_SHEET_WHEN_REFUSED, "resume: refused, and changed the lent bytes")                                           \
    FAULT(CHANGES_REST_OF_SHEET, "resume: changed bytes behind what it wrote")                                                 \
    FAULT(CHANGES_WORDS_BEHIND_NEED, "open: changed words behind the need")                                                    \
    FAULT(WRITES_FURTHER_FORMULAS, "summary: changed numbers of further formulas")                                             \
    FAULT(GIVES_UNNAMED_REFUSAL, "resume: a refusal that the header does not name for it")                                     \
    FAULT(GIVES_MORE_THAN_THE_SHEET, "resume: says that it wrote more than there was room for")                                \
    FAULT(REFUSES_A_SOUND_LOG, "resume: a log that is as it should be is refused")                                             \
    FAULT(TAKES_A_CLOSED_POINT, "resume: another number than a closed point gets")                                             \
    FAULT(TAKES_A_SHORT_POINT, "open: accepted a point shorter than the need")                                                 \
    FAULT(ANSWERS_DIFFERENTLY, "resume: two outputs from the same call")                                                       \
    FAULT(TURNS_THE_FIRST_VERDICT, "resume: another verdict than the plain reading's")                                         \
    FAULT(TURNS_A_LATER_VERDICT, "resume: the verdicts laid end to end are not those of one run")                              \
    FAULT(GIVES_ONE_LESS, "resume: another number of verdicts than one run")                                                   \
    FAULT(FORGETS_MORE, "resume: more where one run has none, or the other way round")                                         \
    FAULT(MISCOUNTS_NEED, "open: changed words behind the need")                                                               \
    FAULT(MISCOUNTS_REACH, "measure: another need or reach")                                                                   \
    FAULT(MISCOUNTS_FORMULAS, "formulas: another number of formulas")                                                          \
    FAULT(DROPS_TOO_MUCH, "trim: the trimmed log's header")                                                                    \
    FAULT(TRIMS_WRONG_RECORDS, "trim: the trimmed log's records")                                                              \
    FAULT(TELLS_ANOTHER_ENTRY, "explain: a line of another entry or position")                                                 \
    FAULT(TELLS_ANOTHER_LETTER, "explain: a letter that stands there is told no, or one that does not yes")                    \
    FAULT(TELLS_ANOTHER_GAP, "explain: another gap than the log's")                                                            \
    FAULT(TELLS_ANOTHER_CAUSE, "explain: a since or until says what does not hold")                                            \
    FAULT(TELLS_ANOTHER_VERDICT, "explain: the reason is not that of the verdict")                                             \
    FAULT(WANTS_ANOTHER_RECORD, "status: another first record wanted")                                                         \
    FAULT(MISCOUNTS_SUMMARY, "summary: another summary than a scan's")                                                         \
    FAULT(MISCOUNTS_TALLY, "tally: another tally than a scan's")                                                               \
    FAULT(READS_ANOTHER_RULE, "parse: another rule than the one that was said")                                                \
    FAULT(WRITES_ANOTHER_WORST_LOG, "worst_log: another record")                                                               \
    FAULT(LOSES_A_CUSTOMER, "simulate: not the customers who joined")

#define NAME_OF(name, message) name,
enum fault { NO_FAULT, ALL_FAULTS(NAME_OF) FAULTS_END };
#undef NAME_OF

/* The one that the library has now. */
extern enum fault fault;

#endif
