//! previous and next where a gap lies at and beside an end of the interval, with many and with few service records, against the plain
//! reading, position by position.

use crate::calls::hex;
use crate::runner::{cases, Counts};
use crate::words::run;
use evaluator::log::{self, Record};
use evaluator::model;
use evaluator::random::Random;
use evaluator::rule::{self, Entry, NEXT, NO_END, PREVIOUS};

/// Ends of intervals, up to the largest that a rule may have.
const ENDS: [u32; 7] = [0, 1, 2, 60, 3599, 3600, NO_END];

/// Counts of records about whole groups of eight, whole words, and a block of 256.
const COUNTS: [usize; 13] = [1, 2, 8, 9, 63, 64, 65, 66, 129, 256, 257, 321, 700];

/// Times whose gaps are the ends of the interval and what lies beside them; now and then one is as large as 32-bit times allow.
fn records(r: &mut Random, low: u32, high: u32) -> Vec<Record> {
    let high = if high == NO_END { 5000 } else { high };
    let gaps = [0, 1, low.saturating_sub(1), low, high, high + 1];
    let mut time = r.pick(&[0, 0, 1, 1_000]);
    let mut next = |_| {
        let record = Record { time, letters: r.draw() as u32 % 4 };
        time = time.saturating_add(if r.one_in(300) { NO_END } else { r.pick(&gaps) });
        record
    };
    let all: Vec<Record> = (0..700).map(&mut next).collect();
    all[..r.pick(&COUNTS)].to_vec()
}

/// A letter or its not, under one to three words with these ends.
fn formula(r: &mut Random, low: u32, high: u32) -> Vec<Entry> {
    let mut entries = vec![Entry::letter(r.below(2) as u8)];
    entries.extend(r.one_in(2).then(Entry::not));
    entries.extend((0..r.pick(&[0, 1, 1, 1, 2, 3])).map(|_| Entry::timed(r.pick(&[PREVIOUS, NEXT]), low, high)));
    entries
}

#[test]
fn at_the_ends_of_an_interval() {
    let body = |r: &mut Random, counts: &mut Counts| {
        let (a, b) = (r.pick(&ENDS[..6]), r.pick(&ENDS));
        let (low, high) = if r.one_in(2) { (a.min(b), a.max(b)) } else { (0, b) };
        let rule = rule::encode(&formula(r, low, high));
        let mut records = records(r, low, high);
        let version = r.pick(&[1, 2]);
        if version == 2 {
            let one_in = r.pick(&[3, 50, 200, 400]);
            records.iter_mut().filter(|_| r.one_in(one_in)).for_each(|record| *record = record.as_service());
        }
        let closing = r.one_in(2);
        let expected = model::verdicts(closing, &rule::parse(&rule).unwrap(), &log::positions(version, &records));
        let file = log::encode_as(version, &records);
        let sheet = run(r.pick(&[1, 2, 63, 64, 65, 100, 1_000]), &rule, &file, closing);
        assert_eq!(sheet, expected, "rule {}, log {}", hex(&rule), hex(&file));
        let yes = sheet.iter().filter(|&&byte| byte == 1).count();
        counts.add("yes", yes);
        counts.add("no", sheet.len() - yes);
        counts.add("yes, with a low", if low > 0 { yes } else { 0 });
    };
    cases("at_the_ends_of_an_interval", 6_000, body, |counts| {
        ["yes", "no", "yes, with a low"].iter().all(|what| counts.get(what) > 20_000)
    });
}
