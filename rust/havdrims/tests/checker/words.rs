//! Letters, since and until at the edges of a word of 64 answers, against the plain reading, position by position.

use crate::calls::hex;
use crate::runner::{cases, Counts};
use evaluator::log::{self, Record};
use evaluator::model;
use evaluator::random::{self, Random};
use evaluator::rule::{self, Entry, NEXT, NO_END, PREVIOUS, SINCE, UNTIL};
use havdrims::{close, measure, open, resume};

/// Seconds at and beside those that 64 records span at one a second, and beside those that many a second do.
const BOUNDS: [u32; 12] = [0, 0, 1, 2, 62, 63, 64, 65, 90, 128, 600, 3600];

/// A since or an until, over letters or over others of them: an operand then answers batches that are no whole words. Some operands stand
/// under a previous or next, and answer one position apart from the others.
fn formula(r: &mut Random, depth: usize) -> Vec<Entry> {
    if depth == 0 {
        return vec![Entry::letter(r.below(3) as u8)];
    }
    let mut operand = || {
        let mut entries = if r.one_in(4) { formula(r, depth - 1) } else { formula(r, 0) };
        if r.one_in(6) {
            entries.push(Entry::timed(r.pick(&[PREVIOUS, NEXT]), 0, NO_END));
        }
        entries
    };
    let mut entries = [operand(), operand()].concat();
    let kind = r.pick(&[SINCE, UNTIL]);
    let (a, b) = (r.pick(&BOUNDS), r.pick(&BOUNDS));
    let (low, high) = if r.one_in(2) { (a.min(b), a.max(b)) } else { (0, b) };
    let high = if kind == SINCE && r.one_in(8) { NO_END } else { high };
    entries.push(Entry::timed(kind, low, high));
    entries
}

/// Records in bursts about as long as a word, at gaps about as long as a bound; letters that hold for long, that change with
/// every record, or that do so by turns.
fn records(r: &mut Random) -> Vec<Record> {
    let (burst, gap) = (r.pick(&[1, 1, 2, 62, 63, 64, 65, 66, 127, 128]), r.pick(&BOUNDS));
    let (hold, count) = (r.pick(&[1, 2, 10, 64, 100]), r.pick(&[1, 63, 64, 65, 127, 128, 129, 193, 300]));
    let (by_turns, turn) = (r.one_in(2), r.from_to(60, 100));
    let (mut time, mut letters) = (r.pick(&[0, 1_000, u32::MAX - 40_000]), r.draw() as u32 % 8);
    let mut all = Vec::with_capacity(count);
    for at in 0..count {
        all.push(Record { time, letters });
        letters = match hold {
            _ if by_turns && at % turn < turn - 5 => 1,
            1 => r.draw() as u32 % 8,
            _ if by_turns || r.one_in(hold) => letters ^ 1 << r.below(3),
            _ => letters,
        };
        if at % burst == burst - 1 {
            time = time.saturating_add(r.pick(&[1, gap, gap + 1, gap.saturating_sub(1)]));
        }
    }
    all
}

/// The log in calls of so many records; the last of them may close it.
pub fn run(step: usize, rule: &[u8], file: &[u8], closing: bool) -> Vec<u8> {
    let mut point = vec![0; measure(rule).unwrap().words];
    open(rule, &mut point).unwrap();
    let (mut sheet, mut given, mut end) = (vec![0xFF; file.len() / 8 - 1], 0, 8);
    while end < file.len() {
        end = file.len().min(end + 8 * step);
        given += resume(rule, &file[..end], &mut point, &mut sheet[given..]).unwrap().verdicts;
    }
    if closing {
        given += close(rule, file, &mut point, &mut sheet[given..]).unwrap().verdicts;
    }
    sheet.truncate(given);
    sheet
}

#[test]
fn at_the_edges_of_a_word() {
    let body = |r: &mut Random, counts: &mut Counts| {
        let depth = r.pick(&[1, 1, 2, 3]);
        let entries = formula(r, depth);
        let rule = rule::encode(&entries);
        if measure(&rule).is_err() {
            return;
        }
        let (version, mut records) = (r.pick(&[1, 1, 1, 2]), records(r));
        if version == 2 {
            random::visit(r, &mut records);
        }
        let closing = r.one_in(2);
        let positions = log::positions(version, &records);
        let expected = model::verdicts(closing, &rule::parse(&rule).unwrap(), &positions);
        let file = log::encode_as(version, &records);
        let sheet = run(r.pick(&[1, 2, 63, 64, 65, 100, 1_000]), &rule, &file, closing);
        assert_eq!(sheet, expected, "rule {}, log {}", hex(&rule), hex(&file));
        counts.add("verdicts", sheet.len());
        counts.add("closed", usize::from(closing));
        if entries.last().is_some_and(|last| last.kind == UNTIL && last.low > 0) {
            counts.add("late yes", sheet.iter().filter(|&&byte| byte == 1).count());
        }
    };
    cases("at_the_edges_of_a_word", 12_000, body, |counts| {
        counts.get("verdicts") > 1_000_000 && counts.get("closed") > 0 && counts.get("late yes") > 10_000
    });
}

/// Each letter by itself, at counts around those of the groups in which records are read, with any bytes beside it: the verdict is its bit.
#[test]
fn each_letter_alone() {
    let mut r = Random::new(31);
    let (mut yes, mut no) = (0, 0);
    for letter in 0..32 {
        let rule = rule::encode(&[Entry::letter(letter)]);
        for count in [1, 7, 8, 9, 31, 32, 33, 40, 63, 64, 65, 71, 72, 96, 97, 200] {
            for (version, one_in) in [(1, 1), (2, 1_000), (2, 50), (2, 9), (2, 2)] {
                let mut times: Vec<u32> = (0..count).map(|_| r.draw() as u32).collect();
                times.sort_unstable();
                // In a log of version 2 letter 31 is that of service records.
                let mut record = |time| {
                    let letters = r.draw() as u32;
                    match version {
                        1 => Record { time, letters },
                        _ if r.one_in(one_in) => Record { time, letters }.as_service(),
                        _ => Record { time, letters: letters & 0x7FFF_FFFF },
                    }
                };
                let records: Vec<Record> = times.into_iter().map(&mut record).collect();
                let bit = |record: &Record| (record.letters >> letter & 1) as u8;
                let expected: Vec<u8> = log::positions(version, &records).iter().map(bit).collect();
                let file = log::encode_as(version, &records);
                let sheet = run(r.pick(&[1, 3, 8, 63, 64, 65, 1_000]), &rule, &file, false);
                assert_eq!(sheet, expected, "letter {letter}, version {version}, log {}", hex(&file));
                yes += sheet.iter().filter(|&&byte| byte == 1).count();
                no += sheet.iter().filter(|&&byte| byte == 0).count();
            }
        }
    }
    assert!(yes > 50_000 && no > 50_000, "{yes} yes and {no} no");
}

/// Letter 0 holds but where a stretch begins. Letter 1 does there, and at every position if `always` says so: the ring then has a time a
/// second, and drops them within a word.
fn stretches(length: usize, first: usize, always: bool, a_second: usize, count: usize) -> Vec<Record> {
    let record = |at: usize| {
        let begins = at % length == first;
        let letters = u32::from(!begins) | u32::from(begins || always) << 1;
        Record { time: 1_000 + (at / a_second) as u32, letters }
    };
    (0..count).map(record).collect()
}

/// A since with low above 0 on stretches in which left holds: from many in a word to one in many words, few enough to be gone through one by
/// one or too many for that; with low and high at the edge of a second.
#[test]
fn since_on_stretches() {
    for (low, high) in [(1, 1), (1, 2), (1, 70), (2, 2), (2, 64), (3, 600), (31, 33), (1, NO_END), (5, NO_END)] {
        let rule = rule::encode(&[Entry::letter(0), Entry::letter(1), Entry::timed(SINCE, low, high)]);
        let formulas = rule::parse(&rule).unwrap();
        let (mut yes, mut no) = (0, 0);
        for length in [2, 3, 5, 8, 9, 10, 11, 16, 31, 32, 33, 63, 64, 65, 100] {
            for (first, always) in [(0, false), (1, true), (length - 1, false), (length / 2, true)] {
                for (a_second, count) in [(1, 130), (2, 193), (3, 129), (64, 195)] {
                    let records = stretches(length, first, always, a_second, count);
                    let expected = model::verdicts(false, &formulas, &log::positions(1, &records));
                    let file = log::encode(&records);
                    for step in [63, 64, 1_000] {
                        let sheet = run(step, &rule, &file, false);
                        assert_eq!(sheet, expected, "since[{low},{high}], calls of {step}, log {}", hex(&file));
                    }
                    yes += expected.iter().filter(|&&byte| byte == 1).count();
                    no += expected.iter().filter(|&&byte| byte == 0).count();
                }
            }
        }
        assert!(yes > 500 && no > 500, "since[{low},{high}]: {yes} yes and {no} no");
    }
}

/// Letter 0 holds for a stretch. What ends it is one of four in turn: letter 1 holds there, or letter 0 fails, or both, or neither.
fn waits(length: usize, a_second: usize, count: usize) -> Vec<Record> {
    let record = |at: usize| {
        let letters = if at % length == length - 1 { [3, 0, 2, 1][at / length % 4] } else { 1 };
        Record { time: 1_000 + (at / a_second) as u32, letters }
    };
    (0..count).map(record).collect()
}

/// An until whose positions wait for longer than a word: told together, run out of time one after the other, or both; by itself, and under
/// and over a previous and a next.
#[test]
fn until_on_long_waits() {
    let intervals = [
        (0, 0),
        (0, 1),
        (0, 30),
        (0, 63),
        (0, 64),
        (0, 90),
        (0, 3600),
        (1, 2),
        (2, 120),
        (30, 90),
        (70, 200),
        (100, 100),
        (150, 3600),
    ];
    for (low, high) in intervals {
        let until = [Entry::letter(0), Entry::letter(1), Entry::timed(UNTIL, low, high)];
        let around = |kind| [until.as_slice(), &[Entry::timed(kind, 0, NO_END)]].concat();
        let below = |kind| [&[Entry::letter(0), Entry::timed(kind, 0, NO_END)], &until[1..]].concat();
        let (mut yes, mut no) = (0, 0);
        for entries in [until.to_vec(), around(PREVIOUS), around(NEXT), below(PREVIOUS), below(NEXT)] {
            let rule = rule::encode(&entries);
            let formulas = rule::parse(&rule).unwrap();
            for (length, a_second) in
                [(40, 1), (63, 1), (65, 1), (100, 1), (130, 1), (200, 1), (200, 3), (300, 64), (300, 65), (500, 2)]
            {
                let records = waits(length, a_second, 4 * length + 70);
                let expected = model::verdicts(false, &formulas, &log::positions(1, &records));
                let file = log::encode(&records);
                for step in [1, 63, 64, 65, 100, 10_000] {
                    let sheet = run(step, &rule, &file, false);
                    assert_eq!(
                        sheet, expected,
                        "until[{low},{high}], calls of {step}, {length} at {a_second} a second"
                    );
                }
                yes += expected.iter().filter(|&&byte| byte == 1).count();
                no += expected.iter().filter(|&&byte| byte == 0).count();
            }
        }
        assert!(yes > 20 && no > 500, "until[{low},{high}]: {yes} yes and {no} no");
    }
}

/// Letter 1 holds for a run at each stretch's end, and letter 0 throughout, or up to every third run's end.
fn runs(length: usize, run: usize, fails: bool, a_second: usize, count: usize) -> Vec<Record> {
    let record = |at: usize| {
        let right = at % length >= length - run;
        let left = !(fails && at % (3 * length) == 3 * length - 1);
        Record { time: 1_000 + (at / a_second) as u32, letters: u32::from(left) | u32::from(right) << 1 }
    };
    (0..count).map(record).collect()
}

/// An until with low above 0 that more than a word waits for, where many rights in a row meet one position after the other, or one of them
/// meets more than a word holds.
#[test]
fn until_on_runs_of_rights() {
    for (low, high) in [(1, 3), (2, 40), (2, 120), (30, 90), (30, 3600), (64, 65), (70, 200), (100, 100), (150, 3600)] {
        let rule = rule::encode(&[Entry::letter(0), Entry::letter(1), Entry::timed(UNTIL, low, high)]);
        let formulas = rule::parse(&rule).unwrap();
        let (mut yes, mut no) = (0, 0);
        for (length, run_length) in [(66, 1), (66, 64), (100, 2), (130, 40), (200, 130), (300, 1), (300, 299)] {
            for (a_second, fails) in [(1, false), (1, true), (2, false), (3, true), (64, false), (65, true)] {
                let records = runs(length, run_length, fails, a_second, 3 * length + 150);
                let expected = model::verdicts(false, &formulas, &log::positions(1, &records));
                let file = log::encode(&records);
                for step in [1, 50, 64, 65, 10_000] {
                    let sheet = run(step, &rule, &file, false);
                    assert_eq!(
                        sheet, expected,
                        "until[{low},{high}], calls of {step}, runs of {run_length} in {length} at {a_second} a second"
                    );
                }
                yes += expected.iter().filter(|&&byte| byte == 1).count();
                no += expected.iter().filter(|&&byte| byte == 0).count();
            }
        }
        assert!(yes > 100 && no > 500, "until[{low},{high}]: {yes} yes and {no} no");
    }
}

/// Left holds throughout and right once: the positions from low to high before it are yes, and no others.
#[test]
fn one_right_at_the_edges_of_its_interval() {
    let mut r = Random::new(64);
    let intervals = [(0, 0), (0, 1), (0, 5), (0, 62), (0, 63), (0, 64), (1, 1), (1, 2), (2, 120), (63, 64)];
    let mut yes = 0;
    for (low, high) in intervals {
        let rule = rule::encode(&[Entry::letter(0), Entry::letter(1), Entry::timed(UNTIL, low, high)]);
        for at in [0, 1, 62, 63, 64, 65, 127, 128, 129, 192] {
            for a_second in [1, 2, 7, 63, 64, 65] {
                let time = |i: u32| 1_000 + i / a_second;
                let records: Vec<Record> =
                    (0..200).map(|i| Record { time: time(i), letters: 1 | u32::from(i == at) << 1 }).collect();
                let holds = |i| i <= at && (low..=high).contains(&(time(at) - time(i)));
                let expected: Vec<u8> = (0..200).map(|i| u8::from(holds(i))).collect();
                let sheet = run(r.pick(&[1, 2, 63, 64, 65, 100, 1_000]), &rule, &log::encode(&records), true);
                assert_eq!(sheet, expected, "until[{low},{high}], right at {at}, {a_second} a second");
                yes += sheet.iter().filter(|&&byte| byte == 1).count();
            }
        }
    }
    assert!(yes > 10_000);
}
