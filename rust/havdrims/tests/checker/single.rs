//! Single calls: measure, open, tally, and one carry on or closing from a fresh point.

use crate::calls::{self, hex, side, Call, Checkpoint};
use crate::runner::{cases, Counts};
use evaluator::log;
use evaluator::random::{self, Random, RuleShape};
use evaluator::{model, rule};

/// Rules without fault, rules above the limit, and damaged ones.
fn any_rule(r: &mut Random) -> Vec<u8> {
    let high = r.pick(&[0, 2, 90, 700, 3600]);
    let most = r.pick(&[1, 3, 8, 20, 128]);
    let shape = RuleShape { entries: most, letters: 32, high };
    let formulas = r.pick(&[1, 1, 1, 2, 3, 7, 8, 9, 10]);
    let mut entries = if formulas == 1 {
        let size = random::size(r, most);
        random::entries(r, shape, size)
    } else {
        random::formulas(r, shape, formulas).concat()
    };
    let size = entries.len();
    // Most of the rules with several formulas are of version 2.
    let version = match (formulas, r.below(10)) {
        (_, 0) => r.pick(&[0, 3, 4, 0x0102, 0x0200]),
        (1, 1..6) | (_, 1) => 1,
        _ => 2,
    };
    if size > 0 && r.one_in(6) {
        let at = r.below(entries.len());
        let bound = r.pick(&[0, 1, 3599, 3600, 3601, u32::MAX - 1, u32::MAX]);
        if r.one_in(2) {
            entries[at].low = bound;
        } else {
            entries[at].high = bound;
        }
    }
    if size > 0 && r.one_in(10) {
        let at = r.below(entries.len());
        entries.swap(0, at);
    }
    let mut bytes = rule::encode_as(version, &entries);
    if r.one_in(2) {
        random::damage(r, &mut bytes);
    }
    bytes
}

/// All of these, but for 3, which no longer occurs; and accepted calls.
fn all_refused(counts: &Counts, numbers: std::ops::RangeInclusive<u32>) -> bool {
    numbers.into_iter().all(|n| (counts.get(&format!("refused {n:02}")) > 0) == (n != 3)) && counts.get("accepted") > 0
}

#[test]
fn measure() {
    let body = |r: &mut Random, counts: &mut Counts| {
        let rule = any_rule(r);
        let expected = model::measure(&rule);
        assert_eq!(calls::measure(&rule, side(r)), expected, "rule {}", hex(&rule));
        let formulas = model::formulas(&rule);
        assert_eq!(calls::formulas(&rule, side(r)), formulas, "rule {}", hex(&rule));
        counts.returned(expected.err().unwrap_or(0));
        counts.add("with several formulas", usize::from(formulas.is_ok_and(|number| number > 1)));
    };
    let several = |counts: &Counts| counts.get("with several formulas") > 0;
    cases("measure", 60_000, body, |counts| all_refused(counts, 1..=8) && several(counts));
}

#[test]
fn open() {
    let body = |r: &mut Random, counts: &mut Counts| {
        let rule = any_rule(r);
        let need = model::measure(&rule).map_or(r.below(100), |(words, _)| words as usize);
        let length = r.pick(&[0, 1, need - need.min(1), need, need, need + 1, need + 20]);
        let words: Vec<u64> = (0..length).map(|_| r.draw()).collect();
        let expected = model::open(&rule, length).map(|_| ());
        let mut point = Checkpoint::new(&words, side(r));
        assert_eq!(point.open(&rule, need, side(r)), expected, "rule {}, {length} words", hex(&rule));
        counts.returned(expected.err().unwrap_or(0));
    };
    cases("open", 20_000, body, |counts| all_refused(counts, 1..=9));
}

#[test]
fn tally() {
    let body = |r: &mut Random, counts: &mut Counts| {
        let most = r.pick(&[0, 1, 10, 100, 10_000]);
        let formulas = r.from_to(1, 8);
        let mut sheet: Vec<u8> = (0..r.from_to(0, most)).map(|_| r.below(1 << formulas) as u8).collect();
        if !sheet.is_empty() && r.one_in(3) {
            let at = r.pick(&[0, r.clone().below(sheet.len()), sheet.len() - 1]);
            sheet[at] = r.pick(&[1 << (formulas % 8), 2, 3, 127, 128, 254, 255]);
        }
        let number = if r.one_in(10) { r.pick(&[0, 9, 10, 64, 256, 1 << 32 | 1, u64::MAX]) } else { formulas as u64 };
        let expected = model::tally(&sheet, number);
        assert_eq!(calls::tally(&sheet, number, side(r)), expected, "{number} formulas, sheet {}", hex(&sheet));
        let refused = expected.is_err();
        counts.add("by a bit beyond", usize::from(refused && number == formulas as u64));
        counts.add("by the number", usize::from(refused && number != formulas as u64));
        counts.returned(expected.err().unwrap_or(0));
    };
    let names = ["accepted", "by a bit beyond", "by the number"];
    cases("tally", 20_000, body, |counts| names.iter().all(|name| counts.get(name) > 0));
}

/// One carry on or closing from a fresh point, on logs without fault and on damaged ones.
#[test]
fn one_call() {
    let body = |r: &mut Random, counts: &mut Counts| {
        let (rule_shape, log_shape) = random::shapes(r, 14, 60);
        let rule = random::rule(r, rule_shape);
        let (version, mut records) = random::any_log(r, log_shape);
        if r.one_in(20) && records.len() > 1 {
            let at = r.from_to(1, records.len() - 1);
            records[at].time = records[at - 1].time.saturating_sub(1);
        }
        let version = if r.one_in(20) { r.pick(&[0, 4, 0x0100, 0x0102, 0x0200, 0x0300]) } else { version };
        // Version 3 with nothing dropped is read as version 2.
        let version = if version == 2 && r.one_in(3) { 3 } else { version };
        let mut file = log::encode_as(version, &records);
        if r.one_in(10) {
            random::damage(r, &mut file);
        }
        let need = model::measure(&rule).unwrap().0 as usize;
        let mut point = Checkpoint::new(&vec![0; need], side(r));
        point.open(&rule, need, side(r)).unwrap();
        let mut model = model::open(&rule, need).unwrap();
        // A damaged log that is not refused is simply another log.
        let brought = log::parse(&file).map_or(Vec::new(), |log| log.records);
        let sheet = vec![7; brought.len() + r.below(2)];
        let closing = r.one_in(3);
        let expected = model.carry_on(closing, &rule, &file, need, sheet.len(), &brought);
        let call = Call { closing, rule: &rule, need, words: need, side: side(r) };
        let got = point.resume(&call, &file, &sheet);
        counts.returned(expected.as_ref().err().copied().unwrap_or(0));
        let expected = expected.map(|e| calls::Given { verdicts: e.verdicts, more: e.more });
        assert_eq!(got, expected, "rule {}\nlog {}", hex(&rule), hex(&file));
        if let Ok(given) = got {
            counts.add("verdicts", given.verdicts.len());
            counts.add("yes", given.verdicts.iter().map(|&byte| byte.count_ones() as usize).sum());
            counts.add("service records", brought.len() - model.places.len());
            counts.add("of version 3", if version == 3 { given.verdicts.len() } else { 0 });
        }
        let status = point.status(&rule, need, side(r));
        assert_eq!(status, model.status(&rule, need), "rule {}\nlog {}", hex(&rule), hex(&file));
    };
    let names = ["refused 14", "refused 24", "service records", "of version 3"];
    let met = |counts: &Counts| names.iter().all(|name| counts.get(name) > 0);
    cases("one_call", 60_000, body, |counts| all_refused(counts, 12..=12) && met(counts));
}

/// A length of 0 lets the pointer be null.
#[test]
fn nothing_lent() {
    use havdrims::ffi;
    use std::ptr::{null, null_mut};
    let rule = rule::encode(&evaluator::cases::p1_entries());
    let empty = log::encode(&[]);
    let mut point = [0; 70];
    let (mut a, mut b) = (9, 9);
    // SAFETY: every pointer is valid for its length, which is 0 for the null ones.
    unsafe {
        assert_eq!(ffi::havdrims_measure(null(), 0, &mut a, &mut b), 1);
        assert_eq!(ffi::havdrims_open(null(), 0, null_mut(), 0), 1);
        assert_eq!(ffi::havdrims_open(rule.as_ptr(), 38, null_mut(), 0), 9);
        assert_eq!(ffi::havdrims_open(rule.as_ptr(), 38, point.as_mut_ptr(), 70), 0);
        let p = point.as_mut_ptr();
        assert_eq!(ffi::havdrims_resume(rule.as_ptr(), 38, null(), 0, p, 70, null_mut(), 0, &mut a, &mut b), 12);
        assert_eq!((a, b), (9, 9));
        let log = empty.as_ptr();
        assert_eq!(ffi::havdrims_resume(rule.as_ptr(), 38, log, 8, p, 70, null_mut(), 0, &mut a, &mut b), 0);
        assert_eq!((a, b), (0, 0));
        (a, b) = (9, 9);
        assert_eq!(ffi::havdrims_trim(null(), 0, null(), 0, null(), 0, null_mut(), 0, &mut a), 1);
        assert_eq!(ffi::havdrims_trim(rule.as_ptr(), 38, null(), 0, null(), 0, null_mut(), 0, &mut a), 9);
        assert_eq!(ffi::havdrims_trim(rule.as_ptr(), 38, null(), 0, p, 70, null_mut(), 0, &mut a), 12);
        assert_eq!(ffi::havdrims_trim(rule.as_ptr(), 38, log, 8, p, 70, null_mut(), 0, &mut a), 23);
        assert_eq!(a, 9);
        assert_eq!(ffi::havdrims_close(rule.as_ptr(), 38, null(), 0, p, 70, null_mut(), 0, &mut a, &mut b), 12);
        assert_eq!((a, b), (9, 9));
        assert_eq!(ffi::havdrims_close(rule.as_ptr(), 38, log, 8, p, 70, null_mut(), 0, &mut a, &mut b), 0);
        assert_eq!((a, b), (0, 0));
        let (mut no, mut other) = ([9; 8], [9; 8]);
        assert_eq!(ffi::havdrims_summary(null(), 0, null(), 0, &mut no, &mut other), 1);
        assert_eq!(ffi::havdrims_summary(rule.as_ptr(), 38, null(), 0, &mut no, &mut other), 9);
        assert_eq!((no, other), ([9; 8], [9; 8]));
        let (mut c, mut d) = (9, 9);
        assert_eq!(ffi::havdrims_status(null(), 0, null(), 0, &mut a, &mut b, &mut c, &mut d), 1);
        assert_eq!(ffi::havdrims_status(rule.as_ptr(), 38, null(), 0, &mut a, &mut b, &mut c, &mut d), 9);
        assert_eq!((a, b, c, d), (0, 0, 9, 9));
        assert_eq!(ffi::havdrims_tally(null(), 0, 3, &mut no, &mut other), 0);
        assert_eq!((no, other), ([0, 0, 0, 9, 9, 9, 9, 9], [0, 0, 0, 9, 9, 9, 9, 9]));
        assert_eq!(ffi::havdrims_formulas(null(), 0, &mut a), 1);
    }
}
