//! Could it have been told sooner (document 02, paper 14)? Open positions of one next or until over letters, and the two
//! records that settle them.

use evaluator::log::{self, Record, MOST_RECORDS, SERVICE};
use evaluator::random::Random;
use evaluator::rule::{self, Entry, NEXT, NO_END, UNTIL};
use havdrims::{measure, open, resume, status, trim, Refusal};

/// "Its last record is a position with a time of at most 4,294,963,695".
const LATEST: u32 = 4_294_963_695;

/// One next or until over letters.
#[derive(Clone, Debug)]
struct Timed {
    bytes: Vec<u8>,
    low: u32,
    /// The letter that can make it true: next's, or until's right one.
    letter: u8,
}

fn next(version: u16, low: u32, high: u32, letter: u8) -> Timed {
    let entries = [Entry::letter(letter), Entry::timed(NEXT, low, high)];
    Timed { bytes: rule::encode_as(version, &entries), low, letter }
}

fn until(version: u16, low: u32, high: u32, left: u8, letter: u8) -> Timed {
    let entries = [Entry::letter(left), Entry::letter(letter), Entry::timed(UNTIL, low, high)];
    Timed { bytes: rule::encode_as(version, &entries), low, letter }
}

/// A log's bytes, its version, and the positions of its records.
#[derive(Clone, Debug)]
struct Brought {
    version: u16,
    records: Vec<Record>,
}

impl Brought {
    fn bytes(&self) -> Vec<u8> {
        log::encode_as(self.version, &self.records)
    }

    fn positions(&self) -> Vec<Record> {
        log::positions(self.version, &self.records)
    }

    fn with(&self, record: Record) -> Brought {
        let mut longer = self.clone();
        longer.records.push(record);
        longer
    }

    /// The record of the theorem: it settles position i yes if it has the letter, and no without.
    fn settling(&self, rule: &Timed, i: usize, yes: bool) -> Record {
        let positions = self.positions();
        let last = positions[positions.len() - 1].time;
        let time = last.max(positions[i].time + rule.low);
        Record { time, letters: u32::from(yes) << rule.letter }
    }
}

fn fresh(rule: &[u8]) -> Vec<u64> {
    let mut point = vec![0; measure(rule).unwrap().words];
    open(rule, &mut point).unwrap();
    point
}

/// The verdicts that the call gives, a sheet being lent that takes them all.
fn give(rule: &[u8], point: &mut [u64], log: &[u8]) -> Result<Vec<u8>, Refusal> {
    let mut sheet = vec![7; log.len()];
    let given = resume(rule, log, point, &mut sheet)?;
    assert!(!given.more);
    sheet.truncate(given.verdicts);
    Ok(sheet)
}

fn verdicts(rule: &[u8], log: &Brought) -> Vec<u8> {
    give(rule, &mut fresh(rule), &log.bytes()).unwrap()
}

fn random_rule(r: &mut Random, letters: usize) -> Timed {
    let low = r.below(4) as u32;
    let high = low + r.below(4) as u32;
    let (version, left, letter) = (r.from_to(1, 2) as u16, r.below(letters) as u8, r.below(letters) as u8);
    match r.below(4) {
        0 => next(version, low, high, letter),
        1 => next(version, low, NO_END, letter),
        // until's left letter is drawn again where it is the right one: else few positions stay open
        _ if left == letter => until(version, low, high, (left + 1) % letters as u8, letter),
        _ => until(version, low, high, left, letter),
    }
}

/// A log that meets the paper's conditions: its last record is a position, and not too late.
fn random_log(r: &mut Random) -> Brought {
    let version = r.from_to(1, 3) as u16;
    let size = r.from_to(1, 9);
    let mut gaps: Vec<u32> = (0..size).map(|_| r.pick(&[0, 0, 0, 1, 1, 2, 5])).collect();
    gaps[0] = 0;
    let sum: u32 = gaps.iter().sum();
    let mut time = r.pick(&[0, 5, LATEST - sum]);
    let mut records = Vec::new();
    for (at, gap) in gaps.into_iter().enumerate() {
        time += gap;
        let service = version >= 2 && at + 1 < size && r.one_in(3);
        let letters = r.pick(&[0b01, 0b01, 0b01, 0b10, 0b11, 0b00]);
        records.push(Record { time, letters: if service { letters | SERVICE } else { letters } });
    }
    Brought { version, records }
}

/// Any record that may follow.
fn random_record(r: &mut Random, log: &Brought) -> Record {
    let last = log.records[log.records.len() - 1].time;
    Record { time: last + r.below(9) as u32, letters: r.pick(&[0, 1, 2, 3, SERVICE, SERVICE | 3]) }
}

/// The log as a call may bring it after others: records before the first wanted overwritten.
fn overwritten(r: &mut Random, log: &Brought, wanted: usize) -> Brought {
    let mut log = log.clone();
    for record in &mut log.records[..wanted] {
        *record = Record { time: r.draw() as u32, letters: r.draw() as u32 };
    }
    log
}

/// Every open position of a random log is settled both ways by the two records of the theorem: from a fresh point, after the
/// calls before, with overwritten records, and where the log was trimmed. No answered one is.
#[test]
fn open_positions_are_settled_both_ways() {
    let (mut open_ones, mut answered_ones) = (0, 0);
    for seed in 0..4_000 {
        let mut r = Random::new(seed);
        let (rule, log) = (random_rule(&mut r, 3), random_log(&mut r));
        let mut point = fresh(&rule.bytes);
        let before = give(&rule.bytes, &mut point, &log.bytes()).unwrap();
        let wanted = status(&rule.bytes, &point).unwrap().wanted as usize;
        for i in before.len()..log.positions().len() {
            open_ones += 1;
            for yes in [false, true] {
                let record = log.settling(&rule, i, yes);
                let byte = u8::from(yes);
                let all = verdicts(&rule.bytes, &log.with(record));
                assert_eq!(all.get(i), Some(&byte), "seed {seed}: position {i} of {log:?}, {rule:?}, {record:?}");

                let after = overwritten(&mut r, &log.with(record), wanted);
                let rest = give(&rule.bytes, &mut point.clone(), &after.bytes()).unwrap();
                assert_eq!([&before[..], &rest].concat(), all, "seed {seed}");

                if log.version >= 2 {
                    let mut trimmed = vec![0; 16 + 8 * log.records.len()];
                    let written = trim(&rule.bytes, &log.bytes(), &point, &mut trimmed).unwrap();
                    trimmed.truncate(written);
                    trimmed.extend(log::encode_records(&[record]));
                    let rest = give(&rule.bytes, &mut point.clone(), &trimmed).unwrap();
                    assert_eq!([&before[..], &rest].concat(), all, "seed {seed}");
                }
            }
        }
        for (i, &byte) in before.iter().enumerate() {
            answered_ones += 1;
            for record in [log.settling(&rule, i, false), log.settling(&rule, i, true), random_record(&mut r, &log)] {
                let all = verdicts(&rule.bytes, &log.with(record));
                assert_eq!(all.get(i), Some(&byte), "seed {seed}: position {i} of {log:?}, {rule:?}, {record:?}");
            }
        }
    }
    assert!(open_ones > 2_000 && answered_ones > 2_000, "{open_ones} open, {answered_ones} answered");
}

/// The verdicts at position 0 of all logs with one record more, of these times and letters.
fn told(rule: &Timed, log: &Brought, times: impl Iterator<Item = u32>, letters: &[u32]) -> Vec<u8> {
    let mut told = Vec::new();
    for time in times {
        for &letters in letters {
            told.extend(verdicts(&rule.bytes, &log.with(Record { time, letters })).first());
        }
    }
    told.sort_unstable();
    told.dedup();
    told
}

/// What fails without each of the paper's conditions.
#[test]
fn each_condition_is_needed() {
    let one = |version, time| Brought { version, records: vec![Record { time, letters: 0 }] };
    let any = [0, 1, SERVICE, SERVICE | 1];

    // the last record is a position: behind a service record that came too late nothing says yes
    let rule = next(1, 0, 3, 0);
    assert_eq!(told(&rule, &one(2, 5), 5..30, &any), [0, 1]);
    let served = one(2, 5).with(Record { time: 9, letters: SERVICE });
    assert_eq!(told(&rule, &served, 9..30, &any), [0]);

    // a time of at most 4,294,963,695: one second later no time of 32 bits is far enough behind
    let rule = next(1, 3600, 3600, 0);
    assert_eq!(told(&rule, &one(1, LATEST), LATEST..=u32::MAX, &any), [0, 1]);
    assert_eq!(told(&rule, &one(1, LATEST + 1), LATEST + 1..=u32::MAX, &any), [0]);

    // letter 31 is not one of the rule's letters: a record with it is no position
    let rule = next(1, 0, 3, 31);
    assert_eq!(told(&rule, &one(1, 5), 5..30, &any), [0, 1]);
    assert_eq!(told(&rule, &one(2, 5), 5..30, &any), [0]);

    // fewer than 1,000,000 records: one more meets 12, dropped ones counted
    let rule = next(1, 0, 3, 0);
    let full = Brought { version: 1, records: vec![Record { time: 5, letters: 0 }; MOST_RECORDS] };
    let mut point = fresh(&rule.bytes);
    assert_eq!(give(&rule.bytes, &mut point, &full.bytes()).unwrap().len(), MOST_RECORDS - 1);
    let more = full.with(Record { time: 6, letters: 1 }).bytes();
    assert_eq!(give(&rule.bytes, &mut point, &more), Err(Refusal::LogFormat));
    let dropped = log::encode_trimmed(MOST_RECORDS as u64 - 1, &[Record { time: 5, letters: 0 }; 2]);
    assert_eq!(give(&rule.bytes, &mut fresh(&rule.bytes), &dropped), Err(Refusal::LogFormat));
}
