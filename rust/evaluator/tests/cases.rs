//! Document 01's worked cases, evaluated.

use evaluator::cases::Kind;
use evaluator::model::Summary;
use evaluator::rule::{self, Entry, NEXT, NO_END, NO_REACH};
use evaluator::{cases, linear, model, reading};

#[test]
fn worked_cases() {
    for case in cases::all() {
        let rule = rule::parse(&case.rule).unwrap();
        assert_eq!(reading::verdicts(&rule, &case.positions()), case.verdicts, "{}", case.name);
        assert_eq!(linear::verdicts(&rule, &case.positions()), case.verdicts, "{}", case.name);
    }
}

#[test]
fn closed_cases() {
    for case in cases::closed() {
        let rule = rule::parse(&case.rule).unwrap();
        assert_eq!(reading::closed_verdicts(&rule, &case.positions()), case.verdicts, "{}", case.name);
        assert_eq!(linear::closed_verdicts(&rule, &case.positions()), case.verdicts, "{}", case.name);
    }
}

#[test]
fn p1_bytes_words_and_reach() {
    let bytes = rule::encode(&cases::p1_entries());
    assert_eq!(bytes.len(), 38);
    assert_eq!(model::measure(&bytes), Ok((70, 2)));
}

#[test]
fn worked_lists() {
    for list in cases::lists() {
        let bytes = list.rule;
        let rule = rule::parse(&bytes).unwrap();
        let words = rule.words as usize;
        let mut point = model::open(&bytes, words).unwrap();
        for (at, call) in list.calls.iter().enumerate() {
            let got = match call.kind {
                Kind::Trim => point.trim(&bytes, &call.log, words, call.sheet).map(|trimmed| (trimmed, false)),
                kind => point
                    .carry_on(kind == Kind::Close, &bytes, &call.log, words, call.sheet, &list.records)
                    .map(|given| (given.verdicts, given.more)),
            };
            assert_eq!(got, call.gives, "{}, call {at}", list.name);
            assert_eq!(point.wanted(&rule), call.wanted, "{}, call {at}", list.name);
            let summary = point.summary(&bytes, words).unwrap();
            let counts: Vec<_> = summary.no.into_iter().zip(summary.latest).collect();
            assert_eq!(counts, call.no, "{}, call {at}", list.name);
        }
    }
}

#[test]
fn a_fresh_point_has_no_no() {
    let bytes = rule::encode(&cases::p1_entries());
    let fresh = model::open(&bytes, 70).unwrap();
    assert_eq!(fresh.summary(&bytes, 70), Ok(Summary { no: vec![0], latest: vec![None] }));
    assert_eq!(fresh.summary(&bytes, 69), Err(9));
    assert_eq!(fresh.summary(&rule::encode(&[]), 70), Err(10));
}

#[test]
fn p10_words_at_the_limit() {
    assert_eq!(model::measure(&rule::encode(&cases::p10_entries(3600, 446))).unwrap().0, 8192);
    assert_eq!(model::measure(&rule::encode(&cases::p10_entries(3600, 447))), Err(8));
}

#[test]
fn intervals_at_the_limit_and_two_errors() {
    let with_high = |high| {
        let mut entries = cases::p1_entries();
        entries[2].high = high;
        rule::encode(&entries)
    };
    assert!(model::measure(&with_high(3600)).is_ok());
    assert_eq!(model::measure(&with_high(3601)), Err(6));
    assert_eq!(model::measure(&with_high(NO_END)), Err(6));
    let mut two_errors = with_high(2);
    two_errors[4] = 3;
    two_errors.pop();
    assert_eq!(model::measure(&two_errors), Err(2));
    two_errors[4] = 2;
    assert_eq!(model::measure(&two_errors), Err(4));
}

#[test]
fn next_without_upper_end_is_weighed() {
    let bytes = rule::encode(&[Entry::letter(0), Entry::timed(NEXT, 1, NO_END)]);
    assert_eq!(model::measure(&bytes), Ok((48, NO_REACH)));
}

#[test]
fn an_empty_rule_is_weighed() {
    let empty = rule::encode(&[]);
    assert_eq!(empty, *b"KRL\x00\x01\x00\x00\x00");
    assert_eq!(model::measure(&empty), Ok((16, 0)));
    assert_eq!(model::measure(&[empty.as_slice(), &[0; 10]].concat()), Err(4));
}

/// Request 8: words and reach of version 2, and refusal 7.
#[test]
fn several_formulas_are_weighed() {
    let p1 = cases::p1_entries();
    assert_eq!(model::measure(&rule::encode_as(2, &p1)), Ok((78, 2)));
    let eight = rule::encode_several(&cases::letters(8));
    assert_eq!((model::measure(&eight), model::formulas(&eight)), (Ok((24 + 8 * 16, 0)), Ok(8)));
    assert_eq!(model::measure(&rule::encode_several(&cases::letters(9))), Err(7));
    assert_eq!(model::measure(&rule::encode_as(2, &[])), Err(7));
    assert_eq!(model::measure(&rule::encode_as(1, &cases::letters(2).concat())), Err(7));
    assert_eq!(model::measure(&rule::encode_as(2, &[Entry::letter(0), Entry::not(), Entry::or()])), Err(7));
    assert_eq!(model::measure(&rule::encode_as(3, &p1)), Err(2));
    assert_eq!(model::measure(&rule::encode_as(0x0200, &p1)), Err(2));
    // the larger of two reaches, and none with one next
    let with = |entry: Entry| rule::encode_several(&[vec![Entry::letter(0), entry], p1.clone()]);
    assert_eq!(model::measure(&with(Entry::not())).unwrap().1, 2);
    assert_eq!(model::measure(&with(Entry::timed(NEXT, 0, 1))).unwrap().1, NO_REACH);
    for (rule, number) in [(rule::encode(&p1), 1), (rule::encode(&[]), 1), (rule::encode_as(2, &p1), 1)] {
        assert_eq!(model::formulas(&rule), Ok(number));
    }
}

#[test]
fn several_formulas_at_the_limit_of_words() {
    assert_eq!(model::measure(&cases::several_words(869)).unwrap().0, 8192);
    assert_eq!(model::measure(&cases::several_words(870)), Err(8));
    let p10 = |inner| rule::encode_as(2, &cases::p10_entries(3600, inner));
    assert_eq!(model::measure(&p10(442)).unwrap().0, 8192);
    assert_eq!(model::measure(&p10(443)), Err(8));
}

/// A point of one version is refused with 10 under the other, also where the entries are the same.
#[test]
fn the_copy_of_the_rule_has_its_version() {
    let [one, two] = [1, 2].map(|version| rule::encode_as(version, &cases::p1_entries()));
    assert_eq!(model::open(&one, 78).unwrap().summary(&two, 78), Err(10));
    assert_eq!(model::open(&one, 78).unwrap().summary(&two, 77), Err(9));
    assert_eq!(model::open(&two, 78).unwrap().summary(&one, 78), Err(10));
}

/// "15 is met by a bit beyond it or by a number outside 1 to 8."
#[test]
fn tallies() {
    for (sheet, formulas, counts) in cases::tallies() {
        assert_eq!(model::tally(&sheet, formulas), counts, "{sheet:?}, {formulas} formulas");
    }
}
