//! The largest logs and rules, and the latest times.

use crate::calls::{hex, side, tally, Call, Checkpoint};
use crate::guard::{Lent, Side};
use crate::runner::{cases, say, Counts};
use evaluator::log::{self, Record};
use evaluator::model::Summary;
use evaluator::random::{self, LogShape, Random, RuleShape};
use evaluator::rule::{self, Entry, NEXT, NO_END, PREVIOUS, SINCE, UNTIL};
use evaluator::{linear, model};
use std::ops::Range;
use std::time::Instant;

const MILLION: usize = 1_000_000;

fn letters(all: &[u8]) -> Vec<Entry> {
    all.iter().map(|&l| Entry::letter(l)).collect()
}

/// Rules for long logs, each with a name.
fn rules() -> Vec<(&'static str, Vec<u8>)> {
    let ninety = [letters(&[0, 1]), vec![Entry::timed(UNTIL, 0, 90)]].concat();
    let ten_minutes = [letters(&[0, 1]), vec![Entry::timed(SINCE, 30, 600)]].concat();
    let endless = [letters(&[0, 1]), vec![Entry::timed(SINCE, 10, NO_END)]].concat();
    // (not e0 since[0,60] prev[0,5] e1) or (next[0,9] e2 until[2,120] e3)
    let mix = vec![
        Entry::letter(0),
        Entry::not(),
        Entry::letter(1),
        Entry::timed(PREVIOUS, 0, 5),
        Entry::timed(SINCE, 0, 60),
        Entry::letter(2),
        Entry::timed(NEXT, 0, 9),
        Entry::letter(3),
        Entry::timed(UNTIL, 2, 120),
        Entry::or(),
    ];
    let several = [ninety.clone(), ten_minutes.clone(), letters(&[0]), endless.clone(), mix.clone()];
    let eight: Vec<Vec<Entry>> =
        several.iter().cloned().chain([letters(&[1]), letters(&[2]), ninety.clone()]).collect();
    let one = [
        ("letter", letters(&[0])),
        ("ninety seconds", ninety),
        ("ten minutes", ten_minutes),
        ("endless", endless),
        ("mix", mix),
    ];
    let mut all: Vec<(&str, Vec<u8>)> = one.into_iter().map(|(name, entries)| (name, rule::encode(&entries))).collect();
    all.push(("five formulas", rule::encode_several(&several)));
    all.push(("eight formulas", rule::encode_several(&eight)));
    all
}

/// A log, and its version. In version 2 it has service records: visits of 300 records, one in fifty besides in every other
/// hundred thousand records, and one at the first and one at the last record of some blocks of 256, where views mark them.
fn long_log(version: u16, seed: u64, hold: usize, step: u32) -> Vec<Record> {
    let shape = LogShape { records: MILLION, letters: 4, hold, step, start: 7 };
    let mut records = random::log(&mut Random::new(seed), shape);
    let is_spread = |at: usize| at / 100_000 % 2 == 0 && at % 50 == 49;
    let is_at_edge = |at: usize| matches!(at % 12_800, 0 | 6_399);
    let is_service = |at: usize| version == 2 && (at % 30_000 < 300 || is_spread(at) || is_at_edge(at));
    let service = records.iter_mut().enumerate().filter(|(at, _)| is_service(*at));
    service.for_each(|(_, record)| *record = record.as_service());
    records
}

/// The verdicts, the point's words and the summary of a fresh point carried on to the end of a log with these positions, or
/// closed there.
fn expected(closing: bool, rule: &[u8], positions: &[Record]) -> (Vec<u8>, usize, Summary) {
    let rule = rule::parse(rule).unwrap();
    let verdicts = if closing { linear::closed_verdicts } else { linear::verdicts };
    let all = verdicts(&rule, positions);
    let summary = model::summed(&all, rule.formulas());
    (all, rule.words as usize, summary)
}

/// The bytes of the records that may be overwritten once so many verdicts are given and so many records seen; `places` has
/// the log's records that hold positions.
fn free(rule: &[u8], places: &[usize], given: usize, seen: usize) -> Range<usize> {
    let position = given.saturating_sub(rule::parse(rule).unwrap().depth);
    let wanted = places.get(position).copied().unwrap_or(seen).min(seen);
    8..8 + 8 * wanted
}

fn open(rule: &[u8], need: usize) -> Checkpoint {
    let mut point = Checkpoint::new(&vec![0; need], Side::Right);
    point.open(rule, need, Side::Left).unwrap();
    point
}

#[test]
fn million_records_in_one_call() {
    for (name, rule) in rules() {
        for (version, closing, seed, hold, step) in [(1, false, 1, 40, 2), (1, true, 2, 1, 3), (2, false, 3, 20, 2)] {
            let records = long_log(version, seed, hold, step);
            let (all, need, summary) = expected(closing, &rule, &log::positions(version, &records));
            let mut log = Lent::new(8 + 8 * MILLION);
            log.place(&log::encode_as(version, &records), Side::Right);
            log.read_only_if(true);
            let call = Call { closing, rule: &rule, need, words: need, side: Side::Right };
            let mut point = open(&rule, need);
            let begun = Instant::now();
            let given = point.resume_in_place(&call, &mut log, &vec![3; all.len()]).unwrap();
            let seconds = begun.elapsed().as_secs_f64();
            assert!(!given.more && given.verdicts == all, "{name}, seed {seed}");
            say(&format!(
                "million_records_in_one_call: {name}, {} verdicts, no {:?} ({seconds:.2} s)",
                all.len(),
                summary.no
            ));
            assert_eq!(point.summary(&rule, need, Side::Left), Ok(summary), "{name}, seed {seed}");
        }
    }
}

#[test]
fn million_records_in_a_thousand_calls() {
    let both = rules().into_iter().flat_map(|(name, rule)| [1, 2].map(|version| (version, name, rule.clone())));
    for (version, name, rule) in both {
        let records = long_log(version, 3, 20, 2);
        let places = log::places(version, &records);
        let (all, need, summary) = expected(true, &rule, &log::positions(version, &records));
        let mut point = open(&rule, need);
        let mut log = Lent::new(8 + 8 * MILLION);
        log.place(&log::encode_as(version, &records), Side::Left);
        let (mut written, mut freed): (Vec<u8>, usize) = (Vec::new(), 8);
        let begun = Instant::now();
        // A thousand calls, and at the end two closings.
        for n in (1..=1_002).map(|k| (1_000 * k).min(MILLION)) {
            log.shorten(8 + 8 * n);
            let closing = n == MILLION;
            let call = Call { closing, rule: &rule, need, words: need, side: Side::Left };
            // Now and then the sheet is too short for all that is settled.
            let length = if n % 7_000 == 0 { 300 } else { 5_000 };
            let given = point.resume_in_place(&call, &mut log, &vec![3; length]).unwrap();
            written.extend(given.verdicts);
            let end = free(&rule, &places, written.len(), n).end;
            log.bytes_mut()[freed..end].fill(0xFF);
            freed = end;
        }
        let seconds = begun.elapsed().as_secs_f64();
        assert!(written == all, "{name}, version {version}");
        assert_eq!(point.summary(&rule, need, Side::Left), Ok(summary), "{name}, version {version}");
        let verdicts = written.len();
        say(&format!(
            "million_records_in_a_thousand_calls: {name}, version {version}, {verdicts} verdicts ({seconds:.2} s)"
        ));
    }
}

#[test]
fn too_many_records() {
    let rule = rule::encode(&letters(&[0]));
    let call = Call { closing: false, rule: &rule, need: 32, words: 32, side: Side::Right };
    for version in [1, 2] {
        let mut file = log::header(version).to_vec();
        file.resize(8 + 8 * (MILLION + 1), 0);
        assert_eq!(open(&rule, 32).resume(&call, &file, &[]), Err(12));
        file.truncate(8 + 8 * MILLION);
        assert!(open(&rule, 32).resume(&call, &file, &[]).unwrap().more);
    }
    // "Refusals 12, 13 and 21 count every record": service records alone, one too many.
    let service = Record { time: 0, letters: log::SERVICE };
    let mut file = log::encode_as(2, &vec![service; MILLION + 1]);
    assert_eq!(open(&rule, 32).resume(&call, &file, &[]), Err(12));
    file.truncate(8 + 8 * MILLION);
    let mut point = open(&rule, 32);
    assert!(!point.resume(&call, &file, &[3]).unwrap().more);
    let status = point.status(&rule, 32, Side::Left).unwrap();
    assert_eq!((status.given, status.seen, status.wanted), (0, MILLION as u64, MILLION as u64));
    // "Record numbers go on counting dropped ones, limit included."
    let mut out = vec![6; 16];
    out = point.trim(&rule, 32, &file, &out, Side::Right).unwrap();
    assert_eq!(out, log::encode_trimmed(MILLION as u64, &[]));
    assert!(!point.resume(&call, &out, &[3]).unwrap().more);
    out.extend([0; 8]);
    assert_eq!(point.resume(&call, &out, &[3]), Err(12));
    let mut whole = log::encode_as(3, &vec![service; MILLION + 1]);
    assert_eq!(open(&rule, 32).resume(&call, &whole, &[]), Err(12));
    whole.truncate(16 + 8 * MILLION);
    assert!(!open(&rule, 32).resume(&call, &whole, &[]).unwrap().more);
}

/// A million records of which the kiosk keeps a few: after each of a thousand calls the log is trimmed, and the next thousand
/// records are added to what is left of it.
#[test]
fn million_records_trimmed_as_they_come() {
    for (name, rule) in rules() {
        let records = long_log(2, 5, 20, 2);
        let (all, need, summary) = expected(true, &rule, &log::positions(2, &records));
        let mut point = open(&rule, need);
        let (mut log, mut written, mut longest) = (log::header(2).to_vec(), Vec::new(), 0);
        for new in records.chunks(1_000).chain([&[][..], &[]]) {
            log.extend(log::encode_records(new));
            longest = longest.max(log.len());
            let closing = new.is_empty();
            let call = Call { closing, rule: &rule, need, words: need, side: Side::Left };
            let given = point.resume(&call, &log, &vec![3; 5_000]).unwrap();
            assert!(!given.more);
            written.extend(given.verdicts);
            let out = vec![6; log.len() + 8];
            log = point.trim(&rule, need, &log, &out, Side::Right).unwrap();
        }
        assert!(written == all, "{name}");
        assert_eq!(point.summary(&rule, need, Side::Left), Ok(summary), "{name}");
        say(&format!("million_records_trimmed_as_they_come: {name}, at most {longest} bytes of log"));
        assert!(longest < 10_000, "{name}: {longest}");
    }
}

/// Rules of 128 entries and rules of up to 8,192 words, with one formula or several.
fn large_rule(r: &mut Random) -> Vec<u8> {
    match r.below(8) {
        0 => evaluator::cases::several_words(869),
        // Eight formulas of 16 entries each.
        1 | 2 => loop {
            let high = r.pick(&[5, 60, 100]);
            let shape = RuleShape { entries: 16, letters: 4, high };
            let drawn: Vec<Vec<Entry>> = (0..8).map(|_| random::entries(r, shape, 16)).collect();
            let bytes = rule::encode_several(&drawn);
            if rule::parse(&bytes).is_ok() {
                break bytes;
            }
        },
        _ => rule::encode(&large_formula(r)),
    }
}

fn large_formula(r: &mut Random) -> Vec<Entry> {
    let endless = [PREVIOUS, NEXT].map(|kind| Entry::timed(kind, 0, NO_END));
    let unary = [Entry::not(), endless[0], endless[1], Entry::timed(NEXT, 0, 3600)];
    match r.below(5) {
        // A chain: one letter under 127 words with one operand.
        0 => {
            let mut all = letters(&[0]);
            all.extend((0..127).map(|_| r.pick(&unary)));
            all
        }
        // 64 letters, then 63 binary words and a not: operands wait as long as they can.
        1 => {
            let mut all = letters(&(0..64).map(|k| k % 32).collect::<Vec<_>>());
            let binary = [Entry::or(), Entry::timed(SINCE, 1, 40), Entry::timed(UNTIL, 0, 30)];
            all.extend((0..63).map(|_| r.pick(&binary)));
            all.push(Entry::not());
            all
        }
        // One since with the longest ring.
        2 => [letters(&[0, 1]), vec![Entry::timed(SINCE, 0, 3600)]].concat(),
        // Two untils at the limit of words.
        3 => evaluator::cases::p10_entries(3600, 446),
        _ => loop {
            let high = r.pick(&[5, 60, 200]);
            let drawn = random::entries(r, RuleShape { entries: 128, letters: 4, high }, 128);
            if rule::parse(&rule::encode(&drawn)).is_ok() {
                break drawn;
            }
        },
    }
}

#[test]
fn largest_rules() {
    let body = |r: &mut Random, counts: &mut Counts| {
        let rule = large_rule(r);
        let shape = LogShape {
            records: r.from_to(3_000, 9_000),
            letters: 4,
            hold: r.pick(&[1, 30, 3_000]),
            step: r.pick(&[1, 2, 10]),
            start: r.pick(&[0, 1_000, u32::MAX - 20_000, u32::MAX - 4_000]),
        };
        let mut records = random::log(r, shape);
        if r.one_in(3) {
            // A witness in every second.
            records.iter_mut().enumerate().for_each(|(i, m)| m.time = shape.start.saturating_add(i as u32));
            records.iter_mut().for_each(|m| m.letters |= 3);
        }
        let version = r.pick(&[1, 2]);
        if version == 2 {
            random::visit(r, &mut records);
        }
        let places = log::places(version, &records);
        let (all, need, _) = expected(true, &rule, &log::positions(version, &records));
        let mut point = open(&rule, need);
        let mut file = log::encode_as(version, &records);
        let (mut n, mut written) = (0, Vec::new());
        let mut more = true;
        while more || n < records.len() {
            n = r.from_to((n + 1).min(records.len()), records.len());
            // Closed in the end, with a sheet that may be short.
            let closing = n == records.len();
            let sheet = vec![3; r.pick(&[200, 5_000, 9_000])];
            let call = Call { closing, rule: &rule, need, words: need, side: side(r) };
            let given = point.resume(&call, &file[..8 + 8 * n], &sheet).unwrap();
            more = given.more;
            written.extend(given.verdicts);
            file[free(&rule, &places, written.len(), n)].fill(r.pick(&[0, 255]));
        }
        assert!(written == all, "{}", hex(&rule));
        counts.add("verdicts", all.len());
        counts.add("of 128 entries", (rule.len() == 8 + 10 * 128) as usize);
        counts.add("of 8,192 words", (need == 8_192) as usize);
        counts.add("of eight formulas", (model::formulas(&rule) == Ok(8)) as usize);
    };
    let names = ["of 128 entries", "of 8,192 words", "of eight formulas"];
    let shown = |counts: &Counts| names.iter().all(|name| counts.get(name) > 0);
    cases("largest_rules", 150, body, shown);
}

/// The whole range of times in one log.
#[test]
fn latest_times() {
    let body = |r: &mut Random, counts: &mut Counts| {
        let shape = RuleShape { entries: 8, letters: 2, high: r.pick(&[1, 5, 3600]) };
        let rule = random::rule(r, shape);
        let n = r.from_to(0, 30);
        let points = [0, 1, 5, 3_600, 3_601, 1 << 31, (1 << 31) - 1, u32::MAX - 3_601, u32::MAX - 1, u32::MAX];
        let mut times: Vec<u32> = (0..n).map(|_| r.pick(&points)).collect();
        times.sort();
        let records: Vec<Record> = times.iter().map(|&time| Record { time, letters: r.draw() as u32 }).collect();
        let (closing, version) = (r.one_in(2), r.pick(&[1, 2]));
        let (all, need, _) = expected(closing, &rule, &log::positions(version, &records));
        let call = Call { closing, rule: &rule, need, words: need, side: side(r) };
        let given = open(&rule, need).resume(&call, &log::encode_as(version, &records), &vec![3; n]).unwrap();
        assert!(!given.more);
        assert_eq!(given.verdicts, all, "{} {records:?}", hex(&rule));
        counts.add("verdicts", all.len());
    };
    cases("latest_times", 20_000, body, |_| true);
}

/// A sheet of a million bytes.
#[test]
fn large_sheets() {
    let mut r = Random::new(1);
    for formulas in 1..=8 {
        let mut sheet: Vec<u8> = (0..MILLION).map(|_| r.below(1 << formulas) as u8).collect();
        assert_eq!(tally(&sheet, formulas, Side::Left), model::tally(&sheet, formulas));
        if formulas < 8 {
            sheet[MILLION - 1] = 1 << formulas;
            assert_eq!(tally(&sheet, formulas, Side::Right), Err(15));
        }
    }
}
