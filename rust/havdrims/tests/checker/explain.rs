//! Reasons (document 02, paper 13) against those that the plain evaluator writes; each text is taken apart and its facts judged.

use crate::calls::{hex, side};
use crate::guard::{Lent, Side};
use crate::runner::{cases, Counts};
use evaluator::log::{self, Record};
use evaluator::random::{self, LogShape, Random, RuleShape};
use evaluator::reason::{self, all_hold, taken_apart};
use evaluator::rule::{self, Entry, Rule, NEXT, NO_END, PREVIOUS, SINCE, UNTIL};
use evaluator::{cases as cases_of, reading};
use havdrims::{ffi, MOST_REASON};
use std::collections::BTreeSet;

const KEPT: u64 = 0x1111_2222_3333_4444;
const BEHIND: u8 = 0xEE;

/// havdrims_explain on guarded buffers, of which rule and log can only be read, with room for so many bytes: the text, or the
/// refusal's number, once it is sure that all other bytes, and after a refusal the number too, are as they were.
fn explain(rule: &[u8], file: &[u8], formula: u64, position: u64, room: usize, side: Side) -> Result<String, u32> {
    let [mut lent_rule, mut lent_file, mut lent] = [rule.len(), file.len(), room].map(Lent::new);
    lent_rule.place(rule, side);
    lent_file.place(file, side);
    lent.place(&vec![BEHIND; room], side);
    lent_rule.read_only_if(true);
    lent_file.read_only_if(true);
    let mut written = KEPT;
    // SAFETY: the buffers and the number are this function's own.
    let number = unsafe {
        ffi::havdrims_explain(
            lent_rule.pointer(),
            lent_rule.length(),
            lent_file.pointer(),
            lent_file.length(),
            formula,
            position,
            lent.pointer(),
            lent.length(),
            &mut written,
        )
    };
    assert!(lent.surroundings_kept());
    if number != 0 {
        assert_eq!(written, KEPT, "refusal {number} wrote its number");
        assert!(lent.bytes().iter().all(|&b| b == BEHIND), "refusal {number} wrote into the buffer");
        return Err(number);
    }
    let (text, behind) = lent.bytes().split_at(written as usize);
    assert!(behind.iter().all(|&b| b == BEHIND), "bytes behind the text were written");
    Ok(String::from_utf8(text.to_vec()).unwrap())
}

#[test]
fn the_worked_reasons() {
    for case in cases_of::reasons() {
        let file = log::parse(&case.log).unwrap();
        for i in 0..=file.records.len() {
            let expected = case.texts.get(i).map(|text| text.to_string()).ok_or(27);
            let given = explain(&case.rule, &case.log, case.formula as u64, i as u64, MOST_REASON, Side::Right);
            assert_eq!(given, expected, "{}, position {i}", case.name);
        }
    }
}

/// The text is a reason that the reader takes apart: of this formula and position, with facts that hold, which come to this verdict.
fn judge(rule: &Rule, positions: &[Record], formula: usize, i: usize, yes: bool, text: &str) {
    let taken = taken_apart(rule, text).unwrap_or_else(|| panic!("no reason of {rule:?}: {text}"));
    assert_eq!(taken.yes, yes, "{rule:?} {positions:?} {text}");
    assert!(rule.tops.is_empty() || (taken.formula, taken.position) == (formula, i), "{rule:?} {text}");
    assert!(all_hold(&taken.facts, rule, positions), "{rule:?} {positions:?} {text}");
}

/// Every formula and one more, every position and one more, the buffer as long as the text, a byte short, and longer.
#[test]
fn random_reasons() {
    let body = |r: &mut Random, counts: &mut Counts| {
        let (rule_shape, log_shape) = random::shapes(r, 12, 25);
        let bytes = random::rule(r, rule_shape);
        let (version, records) = random::any_log(r, log_shape);
        // The same as version 3, which has dropped none.
        let version = if version == 2 && r.one_in(3) { 3 } else { version };
        let file = log::encode_as(version, &records);
        let rule = rule::parse(&bytes).unwrap();
        let positions = log::positions(version, &records);
        let verdicts = reading::verdicts(&rule, &positions);
        counts.add("service records", records.len() - positions.len());
        for formula in 0..=rule.formulas() {
            let all = reason::reasons(&rule, &positions, formula);
            for i in 0..=positions.len() {
                let side = side(r);
                let ask = |room| explain(&bytes, &file, formula as u64, i as u64, room, side);
                let Some(text) = all.get(i) else {
                    assert_eq!(ask(MOST_REASON), Err(27), "{rule:?} {positions:?} {formula} {i}");
                    continue;
                };
                assert!(text.len() <= MOST_REASON);
                assert_eq!(ask(text.len()).as_ref(), Ok(text), "{rule:?} {positions:?} {formula} {i}");
                assert_eq!(ask(text.len() - 1), Err(27));
                assert_eq!(ask(text.len() + r.from_to(1, 9)).as_ref(), Ok(text));
                judge(&rule, &positions, formula, i, verdicts[i] >> formula & 1 == 1, text);
                counts.add("reasons", 1);
            }
        }
    };
    let shown = |counts: &Counts| counts.get("reasons") > 20_000 && counts.get("service records") > 1_000;
    cases("random_reasons", 1_500, body, shown);
}

/// A rule of up to 128 entries whose reasons have many lines: small formulas under or, not, previous and next.
fn many_lines(r: &mut Random, shape: RuleShape) -> Vec<u8> {
    loop {
        let mut all = Vec::new();
        for part in 0..r.from_to(2, 30) {
            let size = r.from_to(1, 5);
            all.extend(random::entries(r, shape, size));
            all.extend((part > 0).then(Entry::or));
            all.extend(r.pick(&[None, Some(Entry::not())]));
            all.extend(r.pick(&[None, None, Some(PREVIOUS), Some(NEXT)]).map(|kind| Entry::timed(kind, 0, NO_END)));
        }
        let bytes = rule::encode(&all);
        if all.len() <= 128 && rule::parse(&bytes).is_ok() {
            return bytes;
        }
    }
}

/// Rules of up to 128 entries over longer logs, at some of their positions.
#[test]
fn random_reasons_of_large_rules() {
    let body = |r: &mut Random, counts: &mut Counts| {
        let (rule_shape, log_shape) = random::shapes(r, 128, 100);
        let bytes = if r.one_in(3) { random::rule(r, rule_shape) } else { many_lines(r, rule_shape) };
        let (version, records) = random::any_log(r, log_shape);
        let file = log::encode_as(version, &records);
        let rule = rule::parse(&bytes).unwrap();
        let positions = log::positions(version, &records);
        let verdicts = reading::verdicts(&rule, &positions);
        for formula in 0..rule.formulas() {
            let all = reason::reasons(&rule, &positions, formula);
            for i in [0, all.len() / 3, all.len() / 2, all.len().saturating_sub(1)] {
                let given = explain(&bytes, &file, formula as u64, i as u64, MOST_REASON, Side::Right);
                assert_eq!(given.as_ref().ok(), all.get(i), "{rule:?} {positions:?} {formula} {i}");
                let Ok(text) = given else { continue };
                judge(&rule, &positions, formula, i, verdicts[i] >> formula & 1 == 1, &text);
                counts.add("reasons", 1);
                counts.add("of 20 lines or more", usize::from(text.lines().count() >= 20));
            }
        }
    };
    cases("random_reasons_of_large_rules", 600, body, |counts| counts.get("of 20 lines or more") > 100);
}

/// Each refusal, and which comes first where several apply: damaged rules and logs, dropped records, times that fall, formulas and
/// positions that do not exist, short buffers.
#[test]
fn random_refusals_of_reasons() {
    let body = |r: &mut Random, counts: &mut Counts| {
        let (rule_shape, log_shape) = random::shapes(r, 6, 12);
        let mut bytes = random::rule(r, rule_shape);
        let (version, mut records) = random::any_log(r, log_shape);
        if r.one_in(4) && !records.is_empty() {
            let at = r.below(records.len());
            records[at].time = records[at].time.wrapping_sub(1);
        }
        let mut file = log::encode_as(version, &records);
        if r.one_in(3) {
            let limit = (log::MOST_RECORDS - records.len()) as u64;
            let dropped = r.pick(&[0, 0, 1, 2, records.len() as u64, limit, limit + 1, 1 << 32, u64::MAX]);
            file = log::encode_trimmed(dropped, &records);
        }
        if r.one_in(3) {
            random::damage(r, &mut bytes);
        }
        if r.one_in(4) {
            random::damage(r, &mut file);
        }
        let formula = r.pick(&[0, 0, 0, 1, 2, 8, 1 << 32, u64::MAX]);
        let n = records.len() as u64;
        let position = r.pick(&[0, 0, 1, 2, n / 2, n.saturating_sub(1), n, 1 << 32, u64::MAX]);
        let room = r.pick(&[0, 5, 10, 30, 400, 400, 400]);
        let expected = reason::explain(&bytes, &file, formula, position, room);
        let given = explain(&bytes, &file, formula, position, room, Side::Right);
        assert_eq!(given, expected, "rule {} log {} {formula} {position} {room}", hex(&bytes), hex(&file));
        counts.returned(given.err().unwrap_or(0));
    };
    let all = [1, 2, 4, 5, 6, 7, 12, 14, 24, 27];
    let shown = |counts: &Counts| all.iter().all(|n| counts.get(&format!("refused {n:02}")) > 0);
    cases("random_refusals_of_reasons", 40_000, body, |counts| shown(counts) && counts.get("accepted") > 0);
}

/// A log with as many records as there can be: what the evaluator says of the thousand positions around one, which are all that
/// this rule looks at, with their numbers in the whole log.
#[test]
fn reasons_in_a_million_records() {
    let timed = |kind, low, high| Entry::timed(kind, low, high);
    let letters = |one, two| [one, two].map(Entry::letter);
    let until = [&letters(0, 1)[..], &[timed(UNTIL, 0, 90)]].concat();
    let since = [&letters(2, 3)[..], &[timed(SINCE, 3, 60)]].concat();
    let entries = [until, since, vec![Entry::or(), Entry::not(), timed(PREVIOUS, 0, NO_END), Entry::not()]].concat();
    let (bytes, rule) = (rule::encode(&entries), rule::parse(&rule::encode(&entries)).unwrap());
    let shape = LogShape { records: log::MOST_RECORDS, letters: 4, hold: 4, step: 3, start: 7 };
    let mut records = random::log(&mut Random::new(13), shape);
    records.iter_mut().skip(9).step_by(50).for_each(|record| *record = record.as_service());
    let positions = log::positions(2, &records);
    let file = log::encode_as(2, &records);
    let n = positions.len();
    let ask = |i: usize| explain(&bytes, &file, 0, i as u64, MOST_REASON, Side::Right);
    let mut words = BTreeSet::new();
    for i in [500, 9_999, 10_000, 65_535, 65_536, 99_999, 100_000, 262_144, 500_000, 524_288, 777_777, n - 500] {
        let from = i - 500;
        let text = &reason::reasons(&rule, &positions[from..n.min(i + 500)], 0)[500];
        let shifted: String = text.lines().map(|line| shifted(line, from)).collect();
        assert_eq!(ask(i), Ok(shifted), "position {i}");
        words.extend(text.lines().map(|line| line.split(' ').skip(2).step_by(2).collect::<Vec<_>>().join(" ")));
    }
    assert!(words.len() > 6, "{words:?}");
    assert_eq!(ask(0).as_deref(), Ok("9 0 not\n8 0 prev none\n"));
    assert_eq!([n, log::MOST_RECORDS].map(ask), [Err(27), Err(27)]);
}

/// A line with its positions so much further on.
fn shifted(line: &str, by: usize) -> String {
    let mut words: Vec<String> = line.split(' ').map(str::to_string).collect();
    let places: &[usize] = if ["since", "until"].contains(&words[2].as_str()) { &[1, 3] } else { &[1] };
    places.iter().for_each(|&at| words[at] = (words[at].parse::<usize>().unwrap() + by).to_string());
    words.join(" ") + "\n"
}

/// The need is above 8,192 words; a log that has dropped records and whose times fall, asked for what is not there.
#[test]
fn refusal_8_and_the_order_of_the_others() {
    let falls = [2, 1].map(|time| Record { time, letters: 1 });
    let [large, small] =
        [cases_of::p10_entries(3600, 447), cases_of::p1_entries()].map(|entries| rule::encode(&entries));
    let ask = |rule: &[u8], file: &[u8], formula| explain(rule, file, formula, 0, 0, Side::Left);
    assert_eq!(ask(&large, &[], 1), Err(8));
    assert_eq!(ask(&small, &log::encode_trimmed(1, &falls)[..15], 1), Err(12));
    assert_eq!(ask(&small, &log::encode_trimmed(1_000_000, &falls), 1), Err(12));
    assert_eq!(ask(&small, &log::encode_trimmed(1, &falls), 1), Err(24));
    assert_eq!(ask(&small, &log::encode_trimmed(0, &falls), 1), Err(14));
    assert_eq!(ask(&small, &log::encode_as(2, &falls.map(Record::as_service)), 1), Err(14));
    assert_eq!(ask(&small, &log::encode(&falls[..1]), 1), Err(27));
}
