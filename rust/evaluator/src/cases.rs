//! Worked cases, document 01's and those of the requests: one rule, one log and its verdicts; and lists of calls.

use crate::log::{self, Record};
use crate::rule::{self, Entry, NEXT, NO_END, PREVIOUS, SINCE, UNTIL};

/// One rule over one log.
pub struct Case {
    pub name: &'static str,
    /// The rule's bytes.
    pub rule: Vec<u8>,
    /// The log's version.
    pub version: u16,
    pub records: Vec<Record>,
    pub verdicts: Vec<u8>,
}

impl Case {
    /// The log's bytes.
    pub fn log(&self) -> Vec<u8> {
        log::encode_as(self.version, &self.records)
    }

    pub fn positions(&self) -> Vec<Record> {
        log::positions(self.version, &self.records)
    }
}

fn records(all: &[(u32, &[u32])]) -> Vec<Record> {
    let set = |letters: &[u32]| letters.iter().map(|l| 1 << l).sum();
    all.iter().map(|&(time, letters)| Record { time, letters: set(letters) }).collect()
}

/// P1's rule: letter 0, letter 1, until 0 to 2.
pub fn p1_entries() -> Vec<Entry> {
    vec![Entry::letter(0), Entry::letter(1), Entry::timed(UNTIL, 0, 2)]
}

/// P1's records.
pub fn p1_records() -> Vec<Record> {
    records(&P1)
}

/// P10's rule: two untils over three letters, with these highs.
pub fn p10_entries(outer: u32, inner: u32) -> Vec<Entry> {
    let letters = [0, 1, 2].map(Entry::letter);
    let untils = [Entry::timed(UNTIL, 0, inner), Entry::timed(UNTIL, 0, outer)];
    [letters.as_slice(), untils.as_slice()].concat()
}

/// A version 2 rule at the limit of words: an until with the highest high, and a since with this one.
pub fn several_words(since: u32) -> Vec<u8> {
    let [e0, e1] = [0, 1].map(Entry::letter);
    rule::encode_several(&[vec![e0, e1, Entry::timed(UNTIL, 0, 3600)], vec![e0, e1, Entry::timed(SINCE, 0, since)]])
}

fn case(name: &'static str, entries: &[Entry], log: &[(u32, &[u32])], verdicts: &[u8]) -> Case {
    Case { name, rule: rule::encode(entries), version: 1, records: records(log), verdicts: verdicts.to_vec() }
}

/// The same with a log of version 2.
fn visited(name: &'static str, entries: &[Entry], log: &[(u32, &[u32])], verdicts: &[u8]) -> Case {
    Case { version: 2, ..case(name, entries, log, verdicts) }
}

/// The same with a version 2 rule of these formulas.
fn several(name: &'static str, formulas: &[Vec<Entry>], log: &[(u32, &[u32])], verdicts: &[u8]) -> Case {
    Case { rule: rule::encode_several(formulas), ..case(name, &[], log, verdicts) }
}

/// All of them.
pub fn all() -> Vec<Case> {
    let of_requests = [endless_next(), empty_rule(), sooner_previous(), several_formulas(), service_visits()];
    document_01().into_iter().chain(of_requests.into_iter().flatten()).collect()
}

const P1: [(u32, &[u32]); 6] = [(10, &[0]), (11, &[0]), (11, &[]), (12, &[0]), (13, &[1]), (20, &[0])];

/// A service record, with letter 1, which would settle P1's until if it were a position.
const TEST_PRINT: &[u32] = &[1, 31];

/// P1's records with a test print before all, one in the middle of second 11, one in second 12 and one behind all, so late
/// that it would settle the last position.
const P1_VISITED: [(u32, &[u32]); 10] = [
    (9, TEST_PRINT),
    (10, &[0]),
    (11, &[0]),
    (11, TEST_PRINT),
    (11, &[]),
    (12, &[0]),
    (12, TEST_PRINT),
    (13, &[1]),
    (20, &[0]),
    (30, TEST_PRINT),
];

/// Request 10: "a record with letter 31 is a service record and no position: it is skipped by every operator".
fn service_visits() -> Vec<Case> {
    let p1 = p1_entries();
    let p1_verdicts = [0, 0, 0, 1, 1];
    let [before, middle, between, behind] = [0, 3, 6, 9].map(|kept| {
        let all = P1_VISITED.iter().enumerate();
        all.filter(|&(at, r)| at == kept || r.1 != TEST_PRINT).map(|(_, &r)| r).collect::<Vec<_>>()
    });
    let [e0, e1, service] = [0, 1, 31].map(Entry::letter);
    let previous = |high| [e0, Entry::timed(PREVIOUS, 0, high)];
    let next = |high| [e0, Entry::timed(NEXT, 0, high)];
    let since = [e0, e1, Entry::timed(SINCE, 0, 9)];
    let neighbours: [(u32, &[u32]); 3] = [(1, &[0]), (2, TEST_PRINT), (3, &[0])];
    let alone: [(u32, &[u32]); 2] = [(5, &[31]), (6, TEST_PRINT)];
    vec![
        visited("P1 with a service record before all", &p1, &before, &p1_verdicts),
        visited("P1 with a service record in the middle of a second", &p1, &middle, &p1_verdicts),
        visited("P1 with a service record between two", &p1, &between, &p1_verdicts),
        visited("P1 with a service record behind all", &p1, &behind, &p1_verdicts),
        visited("P1 with all four", &p1, &P1_VISITED, &p1_verdicts),
        case("the middle one as version 1", &p1, &middle, &[1, 1, 1, 0, 1, 1]),
        case("all four as version 1", &p1, &P1_VISITED, &[1, 1, 1, 1, 0, 1, 1, 1, 0, 1]),
        visited("P1's records as version 2", &p1, &P1, &p1_verdicts),
        visited("service records alone", &p1, &alone, &[]),
        visited("service records alone, an empty rule", &[], &alone, &[]),
        visited("no record, version 2", &p1, &[], &[]),
        visited("an empty rule over positions", &[], &neighbours, &[1, 1]),
        visited("previous stands before a service record", &previous(2), &neighbours, &[0, 1]),
        visited("the gap to the position before, not to the service record", &previous(1), &neighbours, &[0, 0]),
        visited("next stands behind a service record", &next(2), &neighbours, &[1]),
        visited("the gap to the next position, not to the service record", &next(1), &neighbours, &[0]),
        visited("since passes over a service record", &since, &[(1, &[1]), (2, &[31]), (3, &[0])], &[1, 1]),
        visited("since takes no service record as its start", &since, &neighbours, &[0, 0]),
        visited("letter 31 is at no position", &[service], &neighbours, &[0, 0]),
        case("letter 31 as version 1", &[service], &neighbours, &[0, 1, 0]),
    ]
}

/// P1's until and its not.
fn p1_and_its_not() -> Vec<Vec<Entry>> {
    vec![p1_entries(), [p1_entries(), vec![Entry::not()]].concat()]
}

/// Letters 0 to so many less 1, each a formula.
pub fn letters(formulas: u8) -> Vec<Vec<Entry>> {
    (0..formulas).map(|letter| vec![Entry::letter(letter)]).collect()
}

/// A sheet, a number of formulas, and what tally gives: the counts of no and of yes, one a formula, or refusal 15.
pub type Tallied = (Vec<u8>, u64, Result<(Vec<u64>, Vec<u64>), u32>);

/// Request 8: sheets that are tallied.
pub fn tallies() -> Vec<Tallied> {
    let given = |no: &[u64], yes: &[u64]| Ok((no.to_vec(), yes.to_vec()));
    vec![
        (vec![0, 0, 0, 1, 1], 1, given(&[3], &[2])),
        (vec![2, 2, 2, 1, 1], 2, given(&[3, 2], &[2, 3])),
        (vec![2, 2, 2, 1, 1], 3, given(&[3, 2, 5], &[2, 3, 0])),
        (vec![129, 0, 255], 8, given(&[1, 2, 2, 2, 2, 2, 2, 1], &[2, 1, 1, 1, 1, 1, 1, 2])),
        (vec![], 1, given(&[0], &[0])),
        (vec![], 8, given(&[0; 8], &[0; 8])),
        // a bit beyond the number, at the end, at the beginning and alone
        (vec![0, 1, 2], 1, Err(15)),
        (vec![4, 3, 2], 2, Err(15)),
        (vec![128], 7, Err(15)),
        (vec![127], 7, given(&[0; 7], &[1; 7])),
        // a number outside 1 to 8, whatever the sheet
        (vec![], 0, Err(15)),
        (vec![0, 0], 0, Err(15)),
        (vec![], 9, Err(15)),
        (vec![0, 1], 9, Err(15)),
        (vec![0], 1 << 32 | 1, Err(15)),
        (vec![0], u64::MAX, Err(15)),
    ]
}

/// Request 8: several formulas. Bit 0, the lowest, is the first formula's answer.
fn several_formulas() -> Vec<Case> {
    let p1 = p1_entries();
    let [e0, e1] = [0, 1].map(Entry::letter);
    let next = vec![e0, Entry::timed(NEXT, 1, 1)];
    let previous = vec![e0, Entry::timed(PREVIOUS, 0, 9)];
    vec![
        several("P1's until and its not", &p1_and_its_not(), &P1, &[2, 2, 2, 1, 1]),
        several("P1 as the one formula of version 2", std::slice::from_ref(&p1), &P1, &[0, 0, 0, 1, 1]),
        several("an open until holds a letter back", &[vec![e0], p1.clone()], &[(10, &[0]), (12, &[0])], &[]),
        several("the same, the until first", &[p1.clone(), vec![e0]], &[(10, &[0]), (12, &[0])], &[]),
        several("no longer", &[vec![e0], p1.clone()], &[(10, &[0]), (12, &[0]), (13, &[0])], &[1]),
        several("no longer, the until first", &[p1, vec![e0]], &[(10, &[0]), (12, &[0]), (13, &[0])], &[2]),
        several(
            "the last of three holds back",
            &[vec![e0], vec![e1], next],
            &[(5, &[1]), (6, &[0]), (8, &[0])],
            &[6, 1],
        ),
        several(
            "the first of two is previous",
            &[previous, vec![e1]],
            &[(5, &[0, 1]), (5, &[1]), (6, &[])],
            &[2, 3, 0],
        ),
        several(
            "eight letters",
            &letters(8),
            &[(5, &[0, 7]), (5, &[]), (6, &[0, 1, 2, 3, 4, 5, 6, 7, 8]), (6, &[3]), (9, &[8])],
            &[129, 0, 255, 8, 0],
        ),
        several("no record", &letters(8), &[], &[]),
    ]
}

/// Request 2: previous answers one position more than its operand.
fn sooner_previous() -> Vec<Case> {
    let previous = Entry::timed(PREVIOUS, 0, 9);
    let of_p1 = [p1_entries(), vec![previous]].concat();
    let [e0, e1] = [0, 1].map(Entry::letter);
    let of_next = [e0, Entry::timed(NEXT, 0, 9), previous];
    let under_until = [&[e1], of_next.as_slice(), &[Entry::timed(UNTIL, 0, 5)]].concat();
    vec![
        case("previous at 0, over an open until", &of_p1, &[(10, &[0])], &[0]),
        case("previous over an open until", &of_p1, &[(10, &[0]), (12, &[0])], &[0]),
        case("previous over an until with one answer", &of_p1, &[(10, &[0]), (12, &[0]), (13, &[0])], &[0, 0]),
        case("previous over an until that is settled", &of_p1, &[(10, &[0]), (11, &[1])], &[0, 1]),
        case("previous over next", &of_next, &[(5, &[]), (6, &[0]), (7, &[])], &[0, 1, 0]),
        case("previous holds up no until", &under_until, &[(10, &[1]), (11, &[0])], &[1, 1]),
    ]
}

/// Request 9: the verdicts of logs that are closed.
pub fn closed() -> Vec<Case> {
    let p1 = p1_entries();
    let not_p1 = [p1.as_slice(), &[Entry::not()]].concat();
    let next = [Entry::letter(0), Entry::timed(NEXT, 1, 1)];
    let not_next = [next.as_slice(), &[Entry::not()]].concat();
    let previous_of_next = [next.as_slice(), &[Entry::timed(PREVIOUS, 0, 9)]].concat();
    let inner = [Entry::letter(2), Entry::letter(3), Entry::timed(UNTIL, 0, 5)];
    let nested = [&[Entry::letter(0)], inner.as_slice(), &[Entry::timed(UNTIL, 0, 5)]].concat();
    let p5: [(u32, &[u32]); 3] = [(5, &[]), (6, &[0]), (8, &[0])];
    vec![
        case("P1 closed", &p1, &P1, &[0, 0, 0, 1, 1, 0]),
        case("P5 closed", &next, &p5, &[1, 0, 0]),
        case("not of P5 closed", &not_next, &p5, &[0, 1, 1]),
        case("previous of P5 closed", &previous_of_next, &p5, &[0, 1, 0]),
        case("P6 closed", &not_p1, &[(10, &[0])], &[1]),
        case("P7's second log closed", &p1, &[(10, &[0]), (12, &[0]), (13, &[0])], &[0, 0, 0]),
        case("P8 closed", &nested, &[(0, &[0, 2]), (11, &[2])], &[0, 0]),
        case("P9 closed", &p1, &[], &[]),
        case("an empty rule closed", &[], &[(5, &[]), (5, &[0])], &[1, 1]),
        several("P1's until and its not closed", &p1_and_its_not(), &P1, &[2, 2, 2, 1, 1, 2]),
        several("a letter and P5 closed", &[vec![Entry::letter(0)], next.to_vec()], &p5, &[2, 1, 1]),
        visited("P1 with service records closed", &p1, &P1_VISITED, &[0, 0, 0, 1, 1, 0]),
        visited(
            "P5 with service records behind all closed",
            &next,
            &[&p5[..], &[(9, &[0, 31]), (9, &[31])]].concat(),
            &[1, 0, 0],
        ),
        visited("service records alone closed", &p1, &[(5, &[31]), (6, &[1, 31])], &[]),
    ]
}

/// Request 3: a rule with nothing in it.
fn empty_rule() -> Vec<Case> {
    vec![
        case("an empty rule over no record", &[], &[], &[]),
        case("an empty rule", &[], &[(5, &[]), (5, &[0]), (9, &[])], &[1, 1, 1]),
    ]
}

/// Request 6: next without upper end over gaps of 0, 1, 3,601 and 4,294,967,295, and with a low of 3,600.
fn endless_next() -> Vec<Case> {
    let next = |low| [Entry::letter(0), Entry::timed(NEXT, low, NO_END)];
    let [soon, late] = [next(1), next(3_600)];
    let latest = u32::MAX;
    vec![
        case("next, 1 to no end", &soon, &[(5, &[]), (5, &[0]), (6, &[0]), (3_607, &[0])], &[0, 1, 1]),
        case("next, 1 to no end, over letters that end", &soon, &[(5, &[0]), (6, &[]), (3_607, &[])], &[0, 0]),
        case("next, 1 to no end, over the longest gap", &soon, &[(0, &[]), (latest, &[0]), (latest, &[0])], &[1, 0]),
        case("next, 3,600 to no end", &late, &[(1, &[0]), (3_600, &[0]), (7_200, &[0]), (latest, &[0])], &[0, 1, 1]),
    ]
}

/// P1 and P3 to P9, and a case for each of the paper's plausible faults that they leave out.
fn document_01() -> Vec<Case> {
    let p1 = p1_entries();
    let not_p1 = [p1.as_slice(), &[Entry::not()]].concat();
    let since = [Entry::letter(0), Entry::letter(1), Entry::timed(SINCE, 1, NO_END)];
    let since_near = [Entry::letter(0), Entry::letter(1), Entry::timed(SINCE, 0, 2)];
    let previous = [Entry::letter(0), Entry::timed(PREVIOUS, 0, 0)];
    let next = [Entry::letter(0), Entry::timed(NEXT, 1, 1)];
    let inner = [Entry::letter(2), Entry::letter(3), Entry::timed(UNTIL, 0, 5)];
    let nested = [&[Entry::letter(0)], inner.as_slice(), &[Entry::timed(UNTIL, 0, 5)]].concat();
    vec![
        case("P1", &p1, &P1, &[0, 0, 0, 1, 1]),
        case("P3", &since, &[(5, &[1]), (5, &[0]), (6, &[0]), (7, &[])], &[0, 0, 1, 0]),
        case("P4", &previous, &[(5, &[0]), (5, &[]), (6, &[0])], &[0, 1, 0]),
        case("P5", &next, &[(5, &[]), (6, &[0]), (8, &[0])], &[1, 0]),
        case("P6", &not_p1, &[(10, &[0])], &[]),
        case("P7", &p1, &[(10, &[0]), (12, &[0])], &[]),
        case("P7, lengthened", &p1, &[(10, &[0]), (12, &[0]), (13, &[0])], &[0]),
        case("P8", &nested, &[(0, &[0, 2]), (11, &[2])], &[0]),
        case("P9", &p1, &[], &[]),
        case("until does not test left at j", &p1, &[(1, &[0]), (2, &[1])], &[1, 1]),
        case("since does not test left at j", &since_near, &[(1, &[1]), (2, &[0])], &[1, 1]),
        case("records of one second stay apart", &p1, &[(1, &[0]), (1, &[]), (1, &[1])], &[0, 0, 1]),
        case("the oldest witness is kept", &since, &[(0, &[1]), (1, &[0, 1]), (1, &[0, 1])], &[0, 1, 1]),
    ]
}

/// The reasons of one formula at all answered positions.
pub struct Reasoned {
    pub name: &'static str,
    /// The rule's bytes.
    pub rule: Vec<u8>,
    /// The log's bytes.
    pub log: Vec<u8>,
    pub formula: usize,
    pub texts: Vec<&'static str>,
}

fn reasoned(name: &'static str, entries: &[Entry], log: &[(u32, &[u32])], texts: &[&'static str]) -> Reasoned {
    Reasoned { name, rule: rule::encode(entries), log: log::encode(&records(log)), formula: 0, texts: texts.to_vec() }
}

/// The same of one of these formulas of a version 2 rule.
fn reasoned_of(
    name: &'static str,
    formulas: &[Vec<Entry>],
    k: usize,
    log: &[(u32, &[u32])],
    texts: &[&'static str],
) -> Reasoned {
    Reasoned { rule: rule::encode_several(formulas), formula: k, ..reasoned(name, &[], log, texts) }
}

/// Request 13: the reasons of P1 to P8, and a case for every clause of the paper.
pub fn reasons() -> Vec<Reasoned> {
    let p1 = p1_entries();
    let not_p1 = [p1.as_slice(), &[Entry::not()]].concat();
    let p2 = [&P1[..], &[(21, &[1])]].concat();
    let [e0, e1, e2] = [0, 1, 2].map(Entry::letter);
    let [until, since] = [UNTIL, SINCE].map(|kind| move |low, high| [e0, e1, Entry::timed(kind, low, high)]);
    let previous = |high| [e0, Entry::timed(PREVIOUS, 0, high)];
    let next = [e0, Entry::timed(NEXT, 1, 1)];
    let inner = [e2, Entry::letter(3), Entry::timed(UNTIL, 0, 5)];
    let nested = [&[e0], inner.as_slice(), &[Entry::timed(UNTIL, 0, 5)]].concat();
    let asked = [e2, Entry::not(), e0, e1, Entry::timed(UNTIL, 0, 90), Entry::or()];
    let day: [(u32, &[u32]); 8] = [
        (100, &[0, 2]),
        (130, &[0]),
        (160, &[0, 1]),
        (300, &[0, 2]),
        (340, &[]),
        (500, &[0, 2]),
        (560, &[0]),
        (600, &[0]),
    ];
    let both = [vec![e0], vec![e0, Entry::timed(NEXT, 0, 9)]];
    let visited = |name, entries: &[Entry], log: &[(u32, &[u32])], texts: &[&'static str]| Reasoned {
        log: log::encode_as(2, &records(log)),
        ..reasoned(name, entries, log, texts)
    };
    vec![
        reasoned("P1", &p1, &P1, &P1_REASONS[..5]),
        reasoned("P2", &p1, &p2, &P1_REASONS),
        reasoned(
            "P3",
            &since(1, NO_END),
            &[(5, &[1]), (5, &[0]), (6, &[0]), (7, &[])],
            &["2 0 since 0 left\n", "2 1 since 0 left\n", "2 2 since 0\n", "2 3 since 3 left\n"],
        ),
        reasoned(
            "P4",
            &previous(0),
            &[(5, &[0]), (5, &[]), (6, &[0])],
            &["1 0 prev none\n", "1 1 prev 0\n0 0 e0 yes\n", "1 2 prev 1\n"],
        ),
        reasoned("P5", &next, &[(5, &[]), (6, &[0]), (8, &[0])], &["1 0 next 1\n0 1 e0 yes\n", "1 1 next 2\n"]),
        reasoned("P6", &not_p1, &[(10, &[0])], &[]),
        reasoned("P7", &p1, &[(10, &[0]), (12, &[0])], &[]),
        reasoned("P7, lengthened", &p1, &[(10, &[0]), (12, &[0]), (13, &[0])], &["2 0 until 2 time\n"]),
        reasoned("P8", &nested, &[(0, &[0, 2]), (11, &[2])], &["4 0 until 1 left\n"]),
        reasoned("no record", &p1, &[], &[]),
        reasoned("left and time at once", &p1, &[(0, &[0]), (3, &[])], &["2 0 until 1 left\n", "2 1 until 1 left\n"]),
        reasoned(
            "right stands at both ends, too soon",
            &until(2, 3),
            &[(0, &[0, 1]), (1, &[1])],
            &["2 0 until 1 left\n", "2 1 until 1 left\n"],
        ),
        reasoned("until, the earliest", &until(0, 9), &[(0, &[0, 1]), (1, &[1])], &["2 0 until 0\n", "2 1 until 1\n"]),
        reasoned(
            "since, the earliest",
            &since(0, 9),
            &[(0, &[1]), (1, &[0, 1]), (2, &[0, 1])],
            &["2 0 since 0\n", "2 1 since 0\n", "2 2 since 0\n"],
        ),
        reasoned(
            "since, by left or time: it fails at the first near, and before it",
            &since(0, 2),
            &[(0, &[0]), (1, &[]), (3, &[0]), (4, &[0])],
            &["2 0 since 0 time\n", "2 1 since 1 left\n", "2 2 since 1 left\n", "2 3 since 2 time\n"],
        ),
        reasoned(
            "or",
            &[e0, e1, Entry::or()],
            &[(0, &[]), (0, &[0, 1]), (0, &[1])],
            &["2 0 or\n0 0 e0 no\n1 0 e1 no\n", "2 1 or\n0 1 e0 yes\n", "2 2 or\n1 2 e1 yes\n"],
        ),
        reasoned(
            "asked for a print",
            &asked,
            &day,
            &[
                "5 0 or\n4 0 until 2\n",
                "5 1 or\n1 1 not\n0 1 e2 no\n",
                "5 2 or\n1 2 not\n0 2 e2 no\n",
                "5 3 or\n1 3 not\n0 3 e2 yes\n4 3 until 4 left\n",
                "5 4 or\n1 4 not\n0 4 e2 no\n",
                "5 5 or\n1 5 not\n0 5 e2 yes\n4 5 until 7 time\n",
            ],
        ),
        reasoned("an empty rule", &[], &[(1, &[]), (1, &[0])], &["empty\n", "empty\n"]),
        Reasoned { formula: 1, ..reasoned("an empty rule has one formula", &[], &[(1, &[])], &[]) },
        reasoned_of("P1 and its not", &p1_and_its_not(), 0, &P1, &P1_REASONS[..5]),
        reasoned_of(
            "P1 and its not, the second",
            &p1_and_its_not(),
            1,
            &P1,
            &[
                "6 0 not\n5 0 until 2 left\n",
                "6 1 not\n5 1 until 2 left\n",
                "6 2 not\n5 2 until 2 left\n",
                "6 3 not\n5 3 until 4\n",
                "6 4 not\n5 4 until 4\n",
            ],
        ),
        reasoned_of("P1 and its not, a third", &p1_and_its_not(), 2, &P1, &[]),
        reasoned_of("a letter waits for the other formula", &both, 0, &[(0, &[0]), (1, &[])], &["0 0 e0 yes\n"]),
        reasoned_of("for this one", &both, 1, &[(0, &[0]), (1, &[])], &["2 0 next 1\n1 1 e0 no\n"]),
        visited(
            "the gap to the position before a service record",
            &previous(2),
            &[(1, &[0]), (2, TEST_PRINT), (3, &[0])],
            &["1 0 prev none\n", "1 1 prev 2\n0 0 e0 yes\n"],
        ),
        visited("P1 with service records", &p1, &P1_VISITED, &P1_REASONS[..5]),
    ]
}

/// Of P1, and behind them of P2.
const P1_REASONS: [&str; 7] = [
    "2 0 until 2 left\n",
    "2 1 until 2 left\n",
    "2 2 until 2 left\n",
    "2 3 until 4\n",
    "2 4 until 4\n",
    "2 5 until 6\n",
    "2 6 until 6\n",
];

/// What a call does.
#[derive(Clone, Copy, Debug, PartialEq, Eq)]
pub enum Kind {
    Resume,
    Close,
    Trim,
}

/// One call of a list.
pub struct Call {
    pub kind: Kind,
    /// What the call brings: the log's bytes.
    pub log: Vec<u8>,
    /// The length of its sheet, or of the buffer that a trimming writes into.
    pub sheet: usize,
    /// Its verdicts, and whether there are more; or the bytes that a trimming writes, and false; or its refusal.
    pub gives: Result<(Vec<u8>, bool), u32>,
    /// The first record still wanted after it.
    pub wanted: usize,
    /// For each formula, the count of no after it and the position of the latest.
    pub no: Vec<(u64, Option<u64>)>,
}

/// Calls with one point, from a fresh one on.
pub struct List {
    pub name: &'static str,
    /// The rule's bytes.
    pub rule: Vec<u8>,
    /// The untouched log.
    pub records: Vec<Record>,
    pub calls: Vec<Call>,
}

/// A call as it is written down.
struct Step {
    kind: Kind,
    /// Another version than the list's.
    version: Option<u16>,
    /// Brings a trimmed log: so many records are not there, and this is their count.
    dropped: Option<(usize, u64)>,
    records: usize,
    /// So many bytes of the log alone.
    cut: Option<usize>,
    replaced: Option<(usize, Record)>,
    sheet: usize,
    gives: Result<(Vec<u8>, bool), u32>,
    wanted: Option<usize>,
    no: Vec<(usize, u64, u64)>,
}

/// A carry on with the first `n` records of the list's log, and a sheet for all verdicts. It gives none and has caught
/// up, unless another answer is said.
fn resume(n: usize) -> Step {
    Step {
        kind: Kind::Resume,
        version: None,
        dropped: None,
        records: n,
        cut: None,
        replaced: None,
        sheet: 100,
        gives: Ok((Vec::new(), false)),
        wanted: None,
        no: Vec::new(),
    }
}

/// A closing, likewise.
fn close(n: usize) -> Step {
    Step { kind: Kind::Close, ..resume(n) }
}

/// A trimming, with room for all.
fn trim(n: usize) -> Step {
    Step { kind: Kind::Trim, ..resume(n) }
}

impl Step {
    /// Brings the log as one of this version.
    fn of_version(self, version: u16) -> Step {
        Step { version: Some(version), ..self }
    }

    /// Brings the log trimmed: without its first records, so many.
    fn dropping(self, records: usize) -> Step {
        self.counting(records, records as u64)
    }

    /// The same with this as the count of records dropped.
    fn counting(self, records: usize, count: u64) -> Step {
        Step { dropped: Some((records, count)), ..self }
    }

    /// Brings the first bytes of the log alone.
    fn cut(self, bytes: usize) -> Step {
        Step { cut: Some(bytes), ..self }
    }

    fn with_record(self, at: usize, time: u32, letters: u32) -> Step {
        Step { replaced: Some((at, Record { time, letters })), ..self }
    }

    fn sheet(self, length: usize) -> Step {
        Step { sheet: length, ..self }
    }

    fn gives(self, verdicts: &[u8]) -> Step {
        Step { gives: Ok((verdicts.to_vec(), false)), ..self }
    }

    /// Of a trimming: a log with this count of records dropped, and these records.
    fn writes(self, dropped: u64, left: &[(u32, &[u32])]) -> Step {
        self.gives(&log::encode_trimmed(dropped, &records(left)))
    }

    fn gives_and_more(self, verdicts: &[u8]) -> Step {
        Step { gives: Ok((verdicts.to_vec(), true)), ..self }
    }

    fn refused(self, number: u32) -> Step {
        Step { gives: Err(number), ..self }
    }

    /// The first record wanted after it, if it is not that of before.
    fn wanted(self, record: usize) -> Step {
        Step { wanted: Some(record), ..self }
    }

    /// The count of no after it and the position of the latest, if they are not those of before.
    fn no(self, count: u64, latest: u64) -> Step {
        self.no_of(0, count, latest)
    }

    /// The same of this formula.
    fn no_of(mut self, formula: usize, count: u64, latest: u64) -> Step {
        self.no.push((formula, count, latest));
        self
    }
}

const ONES: Record = Record { time: u32::MAX, letters: u32::MAX };

/// Before each call the records before the first wanted are overwritten with ones.
fn list(name: &'static str, entries: &[Entry], records: &[Record], steps: impl IntoIterator<Item = Step>) -> List {
    list_of(name, rule::encode(entries), 1, 1, records, steps)
}

/// The same with a log of version 2.
fn visited_list(
    name: &'static str,
    entries: &[Entry],
    records: &[Record],
    steps: impl IntoIterator<Item = Step>,
) -> List {
    list_of(name, rule::encode(entries), 1, 2, records, steps)
}

/// The same with a version 2 rule of these formulas.
fn several_list(
    name: &'static str,
    formulas: &[Vec<Entry>],
    records: &[Record],
    steps: impl IntoIterator<Item = Step>,
) -> List {
    list_of(name, rule::encode_several(formulas), formulas.len(), 1, records, steps)
}

fn list_of(
    name: &'static str,
    rule: Vec<u8>,
    formulas: usize,
    version: u16,
    records: &[Record],
    steps: impl IntoIterator<Item = Step>,
) -> List {
    let (mut wanted, mut no) = (0, vec![(0, None); formulas]);
    let calls = steps.into_iter().map(|step| {
        let mut log = records[..step.records].to_vec();
        log.iter_mut().take(wanted).for_each(|record| *record = ONES);
        if let Some((at, record)) = step.replaced {
            log[at] = record;
        }
        wanted = step.wanted.unwrap_or(wanted);
        for (formula, count, latest) in step.no {
            no[formula] = (count, Some(latest));
        }
        let mut log = match step.dropped {
            Some((dropped, count)) => log::encode_trimmed(count, &log[dropped..]),
            None => log::encode_as(step.version.unwrap_or(version), &log),
        };
        log.truncate(step.cut.unwrap_or(log.len()));
        Call { kind: step.kind, log, sheet: step.sheet, gives: step.gives, wanted, no: no.clone() }
    });
    List { name, rule, records: records.to_vec(), calls: calls.collect() }
}

/// All lists.
pub fn lists() -> Vec<List> {
    let p1 = p1_entries();
    let mut seven = p1_records();
    seven.extend(records(&[(21, &[1])]));
    let three = records(&[(5, &[]), (5, &[0]), (9, &[])]);
    let previous = Entry::timed(PREVIOUS, 0, 9);
    let twice = [Entry::letter(0), previous, previous];
    let thrice = [twice.as_slice(), &[previous]].concat();
    let six = records(&[(1, &[0]), (2, &[]), (3, &[0]), (4, &[0]), (5, &[]), (5, &[])]);
    let p1_then_p2 = [resume(6).gives(&[0, 0, 0, 1, 1]).wanted(5).no(3, 2), resume(7).gives(&[1, 1]).wanted(7)];
    let no_room = [resume(0), resume(6).sheet(0).gives_and_more(&[])];
    let all_yes = [
        resume(3).sheet(2).gives_and_more(&[1, 1]).wanted(2),
        resume(3).sheet(2).gives(&[1]).wanted(3),
        resume(3).sheet(0),
    ];
    let day_by_day = [
        resume(1).gives(&[0]).no(1, 0),
        resume(2).gives(&[0]).no(2, 1),
        resume(3).gives(&[0]).no(3, 2),
        resume(4).gives(&[1]).wanted(1),
        resume(5).gives(&[0]).wanted(2).no(4, 4),
        resume(6).gives(&[1]).wanted(3),
    ];
    let falling_times = [
        resume(3).gives(&[0, 0, 1]).wanted(1).no(2, 1),
        resume(4).with_record(1, 4, 0).refused(14),
        resume(4).gives(&[0]).wanted(2).no(3, 3),
        resume(4).with_record(2, 5, 1).refused(14),
        resume(4),
    ];
    let no_record = [close(0), resume(0).refused(20), close(0), close(1).refused(21)];
    let closed = [
        resume(6).gives(&[0, 0, 0, 1, 1]).wanted(5).no(3, 2),
        close(5).refused(13),
        close(6).gives(&[0]).wanted(6).no(4, 5),
        resume(6).refused(20),
        resume(7).refused(20),
        close(7).refused(21),
        close(5).refused(13),
        close(6),
    ];
    let one_by_one = [
        resume(2),
        close(3).sheet(1).gives_and_more(&[0]).wanted(1).no(1, 0),
        close(3).sheet(1).gives_and_more(&[0]).wanted(2).no(2, 1),
        close(3).sheet(1).gives(&[0]).wanted(3).no(3, 2),
        close(3).sheet(1),
    ];
    let closed_without_a_sheet = [
        close(3).sheet(0).gives_and_more(&[]),
        resume(3).refused(20),
        close(4).refused(21),
        close(3).sheet(2).gives_and_more(&[0, 0]).wanted(2).no(2, 1),
        close(3).gives(&[0]).wanted(3).no(3, 2),
    ];
    let p7 = records(&[(10, &[0]), (12, &[0]), (13, &[0]), (14, &[1])]);
    let next = [Entry::letter(0), Entry::timed(NEXT, 0, 9)];
    let last_is_said_once = [
        close(3).sheet(2).gives_and_more(&[1, 0]).wanted(2).no(1, 1),
        close(3).sheet(2).gives(&[0]).wanted(3).no(2, 2),
        close(3),
    ];
    let next_records = records(&[(1, &[]), (2, &[0]), (3, &[])]);
    let kept_for_previous = [
        close(6).sheet(4).gives_and_more(&[0, 0, 0, 1]).wanted(1).no(3, 2),
        close(6).with_record(1, 4, 0).refused(14),
        close(6).sheet(1).gives_and_more(&[0]).wanted(2).no(4, 4),
        close(6).sheet(1).gives(&[1]).wanted(3),
    ];
    let two_days = [
        resume(6).sheet(4).gives_and_more(&[2, 2, 2, 1]).wanted(4).no_of(0, 3, 2).no_of(1, 1, 3),
        resume(6).gives(&[1]).wanted(5).no_of(1, 2, 4),
        resume(7).gives(&[1, 1]).wanted(7).no_of(1, 4, 6),
        close(7),
    ];
    let held_back = [
        resume(2),
        resume(2).sheet(0),
        resume(3).gives(&[1]).wanted(1).no_of(1, 1, 0),
        resume(3),
        close(3).sheet(1).gives_and_more(&[1]).wanted(2).no_of(1, 2, 1),
        close(3).gives(&[1]).wanted(3).no_of(1, 3, 2),
    ];
    // One service record before all, one in second 11, one in second 12 and one behind all.
    let visited = records(&P1_VISITED);
    let visit_by_visit = [
        resume(1).wanted(1),
        resume(1).of_version(1).refused(22),
        resume(1).of_version(3),
        resume(1).of_version(4).refused(12),
        resume(1).of_version(0).refused(12),
        resume(0).of_version(1).refused(22),
        resume(0).refused(13),
        resume(4),
        resume(5).gives(&[0, 0, 0]).wanted(5).no(3, 2),
        resume(7),
        resume(8).sheet(1).gives_and_more(&[1]).wanted(7),
        resume(9).gives(&[1]).wanted(8),
        resume(10),
        close(9).of_version(1).refused(22),
        close(10).gives(&[0]).wanted(10).no(4, 5),
        close(10).of_version(1).refused(22),
        resume(10).of_version(1).refused(20),
        close(10),
    ];
    let added_service = [
        close(9).sheet(5).gives_and_more(&[0, 0, 0, 1, 1]).wanted(8).no(3, 2),
        close(10).refused(21),
        close(9).gives(&[0]).wanted(9).no(4, 5),
        close(10).refused(21),
    ];
    let service_times = [
        resume(9).sheet(3).gives_and_more(&[0, 0, 0]).wanted(5).no(3, 2),
        // record 6 is a service record, after the first wanted
        resume(9).with_record(6, 14, 1 << 31).refused(14),
        resume(9).with_record(6, 11, 1 << 31).refused(14),
        resume(9).sheet(0).gives_and_more(&[]),
        resume(10).with_record(9, 19, 1 << 31).refused(14),
        resume(10).gives(&[1, 1]).wanted(8),
    ];
    let alone = records(&[(5, &[31]), (6, TEST_PRINT), (6, &[31])]);
    let nothing_but_service =
        [resume(2).wanted(2), resume(3).with_record(2, 5, 1 << 31).refused(14), resume(3).wanted(3), close(3)];
    let none_then_version_1 = [
        resume(0),
        resume(3).of_version(2).refused(22),
        resume(3).of_version(3).refused(22),
        resume(3).of_version(4).refused(12),
        resume(3).gives(&[0, 0, 0]).wanted(3).no(3, 2),
    ];
    let none_then_version_2 = [close(0).sheet(0), close(0).of_version(1).refused(22), close(0)];
    // The neighbour of the second position stands before two service records.
    let looking_back = records(&[(1, &[0]), (2, &[31]), (2, TEST_PRINT), (3, &[0]), (4, &[31]), (5, &[])]);
    let kept_over_service = [
        resume(2).gives(&[0]).no(1, 0),
        resume(3),
        resume(3).with_record(0, 3, 1).refused(14),
        // records 0 to 2 may be overwritten, record 3 not yet
        resume(5).gives(&[1]).wanted(3),
        resume(6).with_record(3, 5, 1).refused(14),
        resume(6).gives(&[1]).wanted(5),
        close(6),
    ];
    let once = [Entry::letter(0), previous];
    let e0 = vec![Entry::letter(0)];
    let back = [e0.clone(), twice.to_vec(), [e0.as_slice(), &[previous]].concat()];
    let kept_for_the_deepest = [
        resume(3).gives(&[1, 4, 3]).wanted(1).no_of(0, 1, 1).no_of(1, 2, 1).no_of(2, 2, 2),
        resume(4).with_record(1, 4, 0).refused(14),
        resume(4).gives(&[5]).wanted(2).no_of(1, 3, 3),
    ];
    let eight = [
        resume(6).sheet(5).gives_and_more(&[1, 1, 0, 1, 2]).wanted(5).no_of(0, 2, 4).no_of(1, 4, 3),
        resume(7).sheet(1).gives_and_more(&[1]).wanted(6).no_of(1, 5, 5),
        resume(7).gives(&[2]).wanted(7).no_of(0, 3, 6),
    ];
    let eight = eight.map(|step| {
        let latest = step.wanted.unwrap_or(0) as u64 - 1;
        (2..8).fold(step, |step, formula| step.no_of(formula, latest + 1, latest))
    });
    let mut all = trimmed_lists();
    all.extend([
        visited_list("P1, visit by visit", &p1, &visited, visit_by_visit),
        visited_list("21 by an added service record", &p1, &visited, added_service),
        visited_list("14 by the time of a service record", &p1, &visited, service_times),
        visited_list("service records alone", &p1, &alone, nothing_but_service),
        visited_list("the neighbour before service records is kept", &once, &looking_back, kept_over_service),
        list("the version is that of a log without records", &p1, &seven, none_then_version_1),
        visited_list("and of a closing without records", &p1, &visited, none_then_version_2),
        several_list("P1's until and its not, P1 and P2", &p1_and_its_not(), &seven, two_days),
        several_list("an open until holds a letter back", &[e0, p1.clone()], &p7, held_back),
        several_list("the first wanted is by the deepest formula", &back, &six, kept_for_the_deepest),
        several_list("eight letters, evening by evening", &letters(8), &seven, eight),
        list("no record, closed", &p1, &seven, no_record),
        list("closed for good", &p1, &seven, closed),
        list("closed with sheets of one byte", &p1, &p7, one_by_one),
        list("closed with a sheet of no bytes", &p1, &p7, closed_without_a_sheet),
        list("next closed: its last position is answered once", &next, &next_records, last_is_said_once),
        list("three times previous, closed", &thrice, &six, kept_for_previous),
        list("P1, then P2", &p1, &seven, p1_then_p2),
        list("P9, then a sheet of no bytes", &p1, &seven, no_room),
        list("an empty rule with short sheets", &[], &three, all_yes),
        list("three times previous: the first wanted is d less 3", &thrice, &six, day_by_day),
        list("14 starts from the first wanted", &twice, &six, falling_times),
    ]);
    all
}

/// Request 11: logs that are trimmed, grown and trimmed again.
fn trimmed_lists() -> Vec<List> {
    let p1 = p1_entries();
    let mut seven = p1_records();
    seven.extend(records(&[(21, &[1])]));
    let p2 = [
        // a fresh point: nothing is dropped, and the log is of version 3
        trim(0).writes(0, &[]),
        trim(6).writes(0, &P1),
        trim(6).of_version(1).refused(23),
        resume(6).gives(&[0, 0, 0, 1, 1]).wanted(5).no(3, 2),
        trim(6).writes(5, &P1[5..]),
        resume(7).dropping(5).gives(&[1, 1]).wanted(7),
        trim(7).dropping(5).writes(7, &[]),
        // the log never trimmed again, as version 2 and as version 3
        trim(7).writes(7, &[]),
        resume(7),
        resume(7).of_version(3),
        // trimmed again with nothing new wanted
        trim(7).dropping(7).writes(7, &[]),
        resume(7).dropping(7),
        close(7).dropping(7),
        trim(7).dropping(7).writes(7, &[]),
    ];
    let visited = records(&P1_VISITED);
    let grown = [
        resume(5).gives(&[0, 0, 0]).wanted(5).no(3, 2),
        trim(5).writes(5, &[]),
        resume(7).dropping(5),
        trim(7).dropping(5).writes(5, &P1_VISITED[5..7]),
        // an older copy, and the log never trimmed
        resume(7).dropping(2),
        resume(9).dropping(5).gives(&[1, 1]).wanted(8),
        trim(9).dropping(5).writes(8, &P1_VISITED[8..9]),
        // with a record that was not seen yet
        trim(10).dropping(8).writes(8, &P1_VISITED[8..]),
        close(10).dropping(8).gives(&[0]).wanted(10).no(4, 5),
        trim(10).dropping(8).writes(10, &[]),
        close(10).dropping(10),
        close(10),
    ];
    const P7: [(u32, &[u32]); 4] = [(10, &[0]), (12, &[0]), (13, &[0]), (14, &[1])];
    let mut orders = vec![
        trim(3).of_version(1).refused(23),
        trim(3).of_version(4).refused(12),
        resume(3).dropping(1).refused(24),
        close(3).dropping(1).refused(24),
        trim(3).dropping(1).refused(24),
        // a trimming does not fix the version
        trim(3).writes(0, &P7[..3]),
        resume(3).gives(&[0]).wanted(1).no(1, 0),
        // 22 and 23, and 12 before both
        trim(3).of_version(1).refused(22),
        trim(3).of_version(1).cut(31).refused(12),
        // 25: one byte short
        trim(3).sheet(31).refused(25),
        trim(3).sheet(32).writes(1, &P7[1..3]),
        trim(3).sheet(0).refused(25),
        // 14 and 25
        trim(4).with_record(3, 12, 2).sheet(0).refused(14),
        trim(4).dropping(1).with_record(3, 12, 2).refused(14),
        resume(4).dropping(1).with_record(3, 12, 2).refused(14),
    ];
    for call in [resume, close, trim] {
        // 22 and 13; 13 and 24; 24 and 14; 24
        orders.push(call(2).of_version(1).refused(22));
        orders.push(call(2).dropping(2).refused(13));
        orders.push(call(4).dropping(2).with_record(3, 12, 2).refused(24));
        orders.push(call(3).dropping(2).refused(24));
        // a header of 8 to 15 bytes
        orders.extend([8, 9, 12, 15].map(|bytes| call(3).dropping(1).cut(bytes).refused(12)));
        // counts, the records at hand included: 1,000,000 and one more, and sums that do not fit a word
        orders.push(call(3).counting(2, 999_999).refused(24));
        orders.push(call(3).counting(2, 1_000_000).refused(12));
        orders.push(call(3).counting(3, 1_000_000).refused(24));
        orders.push(call(3).counting(3, 1_000_001).refused(12));
        orders.push(call(3).counting(2, u64::MAX).refused(12));
        orders.push(call(3).counting(0, u64::MAX - 1).refused(12));
    }
    orders.extend([
        close(3).dropping(1).sheet(1).gives_and_more(&[0]).wanted(2).no(2, 1),
        // 20 before 12, 21 and 24: 21 is a closing's alone
        resume(4).dropping(3).refused(20),
        resume(4).dropping(3).cut(15).refused(20),
        close(4).dropping(3).refused(21),
        trim(4).dropping(3).refused(24),
        // a closed point, also with more records than at the closing
        trim(4).dropping(2).writes(2, &P7[2..]),
        trim(3).dropping(1).writes(2, &P7[2..3]),
        close(3).dropping(2).gives(&[0]).wanted(3).no(3, 2),
        trim(3).dropping(2).writes(3, &[]),
    ]);
    let letter = [Entry::letter(0)];
    let all_given = [
        resume(2).gives(&[1, 1]).wanted(2),
        // the record after all seen is wanted
        resume(3).dropping(3).refused(24),
        trim(3).dropping(3).refused(24),
        resume(2).dropping(2),
        resume(3).dropping(2).gives(&[1]).wanted(3),
    ];
    // Two service records stand behind the neighbour that is looked back at.
    let looking_back: [(u32, &[u32]); 6] = [(1, &[0]), (2, &[31]), (2, TEST_PRINT), (3, &[0]), (4, &[31]), (5, &[])];
    let once = [Entry::letter(0), Entry::timed(PREVIOUS, 0, 9)];
    let kept_for_previous = [
        resume(3).gives(&[0]).no(1, 0),
        trim(3).writes(0, &looking_back[..3]),
        resume(5).of_version(3).gives(&[1]).wanted(3),
        trim(5).writes(3, &looking_back[3..5]),
        resume(6).dropping(4).refused(24),
        resume(6).dropping(3).gives(&[1]).wanted(5),
        trim(6).dropping(3).writes(5, &looking_back[5..]),
    ];
    let version_1 = [resume(2), trim(2).refused(23), trim(1).refused(23), resume(2).dropping(0).refused(22)];
    let [p7, back] = [records(&P7), records(&looking_back)];
    vec![
        visited_list("P2 on a trimmed log", &p1, &seven, p2),
        visited_list("trimmed, grown, trimmed, closed", &p1, &visited, grown),
        visited_list("the refusals of trimmed logs, in their order", &p1, &p7, orders),
        visited_list("dropped above the record after all seen", &letter, &p7, all_given),
        visited_list("the neighbour is kept by a trimming", &once, &back, kept_for_previous),
        list("a log of version 1 is not trimmed", &p1, &p7, version_1),
    ]
}
