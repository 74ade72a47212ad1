//! Document 01's worked cases, through the safe crate.

use evaluator::cases::Kind;
use evaluator::rule::{Entry, NEXT, NO_END};
use evaluator::{cases, log, model, rule};
use havdrims::{close, formulas, measure, open, resume, status, summary, tally, trim};
use havdrims::{Needs, Refusal, Resumed, Status, MOST_FORMULAS};

fn fresh(rule: &[u8]) -> Vec<u64> {
    let mut point = vec![0; measure(rule).unwrap().words];
    open(rule, &mut point).unwrap();
    point
}

#[test]
fn worked_cases() {
    for case in cases::all() {
        let (log, rule) = (case.log(), case.rule);
        let mut sheet = [7; 100];
        let got = resume(&rule, &log, &mut fresh(&rule), &mut sheet).unwrap();
        let c = case.verdicts.len();
        assert_eq!(got, Resumed { verdicts: c, more: false }, "{}", case.name);
        assert_eq!(sheet[..c], case.verdicts, "{}", case.name);
        assert!(sheet[c..].iter().all(|&b| b == 7), "{}", case.name);
        let number = formulas(&rule).unwrap();
        let counts = tally(&sheet[..c], number).unwrap();
        let (no, yes) = model::tally(&case.verdicts, number as u64).unwrap();
        assert_eq!((counts.no(), counts.yes()), (&no[..], &yes[..]), "{}", case.name);
    }
}

#[test]
fn closed_cases() {
    for case in cases::closed() {
        let (log, rule) = (case.log(), case.rule);
        let mut sheet = [7; 100];
        let got = close(&rule, &log, &mut fresh(&rule), &mut sheet).unwrap();
        let c = case.verdicts.len();
        assert_eq!(got, Resumed { verdicts: c, more: false }, "{}", case.name);
        assert_eq!(sheet[..c], case.verdicts, "{}", case.name);
    }
}

#[test]
fn worked_lists() {
    for list in cases::lists() {
        let rule = list.rule;
        let mut point = fresh(&rule);
        for (at, call) in list.calls.iter().enumerate() {
            let mut sheet = vec![7; call.sheet];
            let got = match call.kind {
                Kind::Resume => resume(&rule, &call.log, &mut point, &mut sheet),
                Kind::Close => close(&rule, &call.log, &mut point, &mut sheet),
                Kind::Trim => {
                    trim(&rule, &call.log, &point, &mut sheet).map(|written| Resumed { verdicts: written, more: false })
                }
            };
            let got = got.map(|given| (sheet[..given.verdicts].to_vec(), given.more)).map_err(Refusal::number);
            assert_eq!(got, call.gives, "{}, call {at}", list.name);
            let c = got.map_or(0, |(verdicts, _)| verdicts.len());
            assert!(sheet[c..].iter().all(|&b| b == 7), "{}, call {at}", list.name);
            let so_far = summary(&rule, &point).unwrap();
            let counts: Vec<_> = so_far.no().iter().copied().zip(so_far.latest().iter().copied()).collect();
            assert_eq!(counts, call.no, "{}, call {at}", list.name);
            let wanted = status(&rule, &point).map(|status| status.wanted as usize);
            assert_eq!(wanted, Ok(call.wanted), "{}, call {at}", list.name);
        }
    }
}

#[test]
fn a_fresh_checkpoint() {
    let rule = rule::encode(&cases::p1_entries());
    let point = fresh(&rule);
    assert_eq!(status(&rule, &point), Ok(Status { given: 0, seen: 0, wanted: 0, closed: false }));
    assert_eq!(status(&rule, &point[..69]), Err(Refusal::ShortPoint));
    let fresh = summary(&rule, &point).unwrap();
    assert_eq!((fresh.no(), fresh.latest()), (&[0][..], &[None][..]));
    assert_eq!(summary(&rule, &point[..69]), Err(Refusal::ShortPoint));
    assert_eq!(summary(&rule::encode(&[]), &point), Err(Refusal::ForeignPoint));
}

#[test]
fn p10_and_limits() {
    let p1 = rule::encode(&cases::p1_entries());
    assert_eq!(measure(&p1), Ok(Needs { words: 70, reach: Some(2) }));
    let words = |inner| measure(&rule::encode(&cases::p10_entries(3600, inner))).map(|n| n.words);
    assert_eq!(words(446), Ok(8192));
    assert_eq!(words(447), Err(Refusal::TooManyWords));
    let mut entries = cases::p1_entries();
    entries[2].high = 3600;
    assert!(measure(&rule::encode(&entries)).is_ok());
    entries[2].high = 3601;
    assert_eq!(measure(&rule::encode(&entries)), Err(Refusal::Interval));
    entries[2].high = NO_END;
    assert_eq!(measure(&rule::encode(&entries)), Err(Refusal::Interval));
    let next = [Entry::letter(0), Entry::timed(NEXT, 1, NO_END)];
    assert_eq!(measure(&rule::encode(&next)), Ok(Needs { words: 48, reach: None }));
    let mut two_errors = rule::encode(&cases::p1_entries());
    two_errors[4] = 3;
    two_errors.pop();
    assert_eq!(measure(&two_errors), Err(Refusal::RuleVersion));
    two_errors[4] = 2;
    assert_eq!(measure(&two_errors), Err(Refusal::RuleLength));
}

#[test]
fn several_formulas_are_weighed() {
    let p1 = rule::encode_as(2, &cases::p1_entries());
    assert_eq!((measure(&p1), formulas(&p1)), (Ok(Needs { words: 78, reach: Some(2) }), Ok(1)));
    let eight = rule::encode_several(&cases::letters(8));
    assert_eq!((measure(&eight), formulas(&eight)), (Ok(Needs { words: 152, reach: Some(0) }), Ok(8)));
    for refused in [
        rule::encode_several(&cases::letters(9)),
        rule::encode_as(2, &[]),
        rule::encode_as(1, &cases::letters(2).concat()),
    ] {
        assert_eq!((measure(&refused), formulas(&refused)), (Err(Refusal::Shape), Err(Refusal::Shape)));
    }
    assert_eq!(measure(&cases::several_words(869)).map(|needs| needs.words), Ok(8192));
    assert_eq!(measure(&cases::several_words(870)), Err(Refusal::TooManyWords));
    for rule in [rule::encode(&cases::p1_entries()), rule::encode(&[])] {
        assert_eq!(formulas(&rule), Ok(1));
    }
    assert_eq!(formulas(b"KRL"), Err(Refusal::RuleMark));
    let header = include_str!("../../../../include/havdrims.h");
    assert!(header.contains(&format!("#define HAVDRIMS_MOST_FORMULAS {MOST_FORMULAS}\n")), "the header's number");
}

/// A point of one version is refused with 10 under the other, also where the entries are the same.
#[test]
fn the_copy_of_the_rule_has_its_version() {
    let [one, two] = [1, 2].map(|version| rule::encode_as(version, &cases::p1_entries()));
    for (opened, other) in [(&one, &two), (&two, &one)] {
        let mut point = vec![0; 78];
        open(opened, &mut point).unwrap();
        assert_eq!(summary(other, &point), Err(Refusal::ForeignPoint));
        assert_eq!(status(other, &point), Err(Refusal::ForeignPoint));
        for call in [resume, close] {
            assert_eq!(call(other, &log::HEADER, &mut point, &mut []), Err(Refusal::ForeignPoint));
        }
        assert_eq!(trim(other, &log::header(2), &point, &mut [0; 16]), Err(Refusal::ForeignPoint));
        assert!(summary(opened, &point).is_ok());
    }
}

#[test]
fn worked_tallies() {
    for (sheet, formulas, expected) in cases::tallies() {
        let counts = tally(&sheet, formulas as usize).map_err(Refusal::number);
        let counts = counts.map(|counts| (counts.no().to_vec(), counts.yes().to_vec()));
        assert_eq!(counts, expected, "{sheet:?}, {formulas} formulas");
    }
}

#[test]
fn empty_rule_is_weighed() {
    let rule = rule::encode(&[]);
    assert_eq!(measure(&rule), Ok(Needs { words: 16, reach: Some(0) }));
    assert_eq!(measure(&[rule.as_slice(), &[0; 10]].concat()), Err(Refusal::RuleLength));
}
