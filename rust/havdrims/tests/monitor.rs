//! The types over the calls: random weeks of a monitor that is saved every evening, what is no log, and saved points that do not fit.

use evaluator::random::{self, Random};
use evaluator::{cases, log, model, rule};
use havdrims::save::{Saved, Unreadable};
use havdrims::{measure, open, resume, text, LoadError, Log, Monitor, Refusal, Rule, Verdict};
use std::error::Error;

/// A week under a rule: the log grows, the sheet is often short, records that are not wanted are overwritten or the log is trimmed,
/// and the monitor is saved and taken up again between all calls. The verdicts laid end to end are those of one run.
#[test]
fn random_weeks_saved_every_evening() {
    let mut r = Random::new(33);
    let mut trimmed = 0;
    for week in 0..2_000 {
        let (rule_shape, log_shape) = random::shapes(&mut r, 10, 40);
        let rule = Rule::new(&random::rule(&mut r, rule_shape)).unwrap();
        let (version, records) = random::any_log(&mut r, log_shape);
        let mut bytes = log::header(version).to_vec();
        let (mut monitor, mut sheet) = (Monitor::new(rule.clone()).owned_by(week), Vec::new());
        let (mut brought, mut closing) = (0, false);
        loop {
            let more = r.from_to(brought, records.len());
            bytes.extend(log::encode_records(&records[brought..more]));
            brought = more;
            closing |= brought == records.len() && r.one_in(2);
            let log = Log::new(&bytes).unwrap();
            assert_eq!(log.len(), brought);
            let mut room = vec![7; r.below(8)];
            let call = if closing { Monitor::close } else { Monitor::resume };
            let verdicts = call(&mut monitor, &log, &mut room).unwrap();
            assert_eq!(verdicts.first(), sheet.len() as u64);
            let answers: Vec<Verdict> = verdicts.into_iter().collect();
            assert_eq!(answers.len(), verdicts.bytes().len() * rule.formulas());
            for (at, answer) in answers.iter().enumerate() {
                let (position, formula) = (at / rule.formulas(), at % rule.formulas());
                assert_eq!((answer.position, answer.formula), (verdicts.first() + position as u64, formula));
                assert_eq!(answer.yes, verdicts.bytes()[position] & 1 << formula != 0);
            }
            sheet.extend(verdicts.bytes());
            let caught_up = closing && !verdicts.more();

            monitor = Monitor::from_bytes(rule.clone(), &monitor.to_bytes()).unwrap();
            let status = monitor.status().unwrap();
            assert_eq!((status.given, status.seen, status.closed), (sheet.len() as u64, brought as u64, closing));
            assert!(monitor.gave(&sheet) && monitor.owner() == week);
            let services = records[..brought].iter().filter(|record| record.is_service(version)).count();
            assert_eq!(monitor.services(), services as u64);
            let at = bytes.len() - 8 * log.records().count();
            let dropped = log.dropped();
            r.fill(&mut bytes[at..at + 8 * (status.wanted as usize - dropped)]);
            if r.one_in(2) {
                match monitor.trim(&Log::new(&bytes).unwrap()) {
                    Ok(left) => {
                        assert_eq!(left.len(), 16 + 8 * (brought - status.wanted as usize));
                        bytes = left;
                        trimmed += status.wanted as usize - dropped;
                    }
                    Err(refusal) => assert_eq!((refusal, version), (Refusal::TrimVersion, 1)),
                }
            }
            if caught_up {
                break;
            }
        }
        let parsed = rule::parse(rule.as_bytes()).unwrap();
        assert_eq!(sheet, model::verdicts(true, &parsed, &log::positions(version, &records)), "{rule}");
        let summary = monitor.summary().unwrap();
        for (formula, &no) in summary.no().iter().enumerate() {
            assert_eq!(no, sheet.iter().filter(|&&byte| byte >> formula & 1 == 0).count() as u64);
        }
    }
    assert!(trimmed > 10_000, "{trimmed} records dropped");
}

/// What [`Log::new`] says of a log is what the library says.
#[test]
fn a_log_is_one_for_the_library_too() {
    let mut r = Random::new(34);
    let rule = rule::encode(&cases::p1_entries());
    let mut refused = 0;
    for _ in 0..20_000 {
        let (_, shape) = random::shapes(&mut r, 3, 5);
        let (version, records) = random::any_log(&mut r, shape);
        let mut bytes = log::encode_as(version, &records);
        if version == 2 && r.one_in(2) {
            let most = 1_000_000 - records.len() as u64;
            let count = r.pick(&[0, 1, most, most + 1, 1 << 32, u64::MAX, u64::MAX - records.len() as u64]);
            bytes = log::encode_trimmed(count, &records);
        }
        if !r.one_in(4) {
            random::damage(&mut r, &mut bytes);
        }
        let mut point = vec![0; measure(&rule).unwrap().words];
        open(&rule, &mut point).unwrap();
        let library = resume(&rule, &bytes, &mut point, &mut []);
        assert_eq!(Log::new(&bytes).err(), library.err().filter(|&refusal| refusal == Refusal::LogFormat), "{bytes:?}");
        refused += usize::from(Log::new(&bytes).is_err());
    }
    assert!((1_000..19_000).contains(&refused), "{refused}");
    let mut most = log::HEADER.to_vec();
    most.resize(8 + 8 * havdrims::MOST_RECORDS, 0);
    assert_eq!(Log::new(&most).map(|log| log.len()), Ok(havdrims::MOST_RECORDS));
    most.extend([0; 8]);
    assert_eq!(Log::new(&most), Err(Refusal::LogFormat));
}

#[test]
fn saved_points_that_do_not_fit() {
    let rule: Rule = "e0 until[0,2] e1".parse().unwrap();
    let mut monitor = Monitor::new(rule.clone());
    let log = text::log_from_text("version 2\n10 e0\n11 service\n12 e0\n13 e1\n").unwrap();
    monitor.resume(&Log::new(&log).unwrap(), &mut [0; 2]).unwrap();
    let kept = Saved::decode(&monitor.to_bytes()).unwrap();
    assert_eq!((kept.given, kept.services, kept.words.len()), (2, 1, rule.needs().words));

    let load = |change: fn(&mut Saved)| {
        let mut saved = kept.clone();
        change(&mut saved);
        Monitor::from_bytes(rule.clone(), &saved.encode()).map(|_| ())
    };
    assert_eq!(load(|_| {}), Ok(()));
    assert_eq!(load(|saved| saved.rule ^= 1), Err(LoadError::AnotherRule));
    assert_eq!(load(|saved| saved.words[0] -= 1), Err(LoadError::Refused(Refusal::ForeignPoint)));
    assert_eq!(load(|saved| saved.words[2] = 0), Err(LoadError::Refused(Refusal::PointRange)));
    assert_eq!(load(|saved| saved.words.truncate(20)), Err(LoadError::Refused(Refusal::ShortPoint)));
    assert_eq!(load(|saved| saved.given = 1), Err(LoadError::Counts));
    assert_eq!(load(|saved| saved.services = 3), Err(LoadError::Counts));
    let unreadable = Monitor::from_bytes(rule.clone(), b"").unwrap_err();
    assert_eq!(unreadable, LoadError::Unreadable(Unreadable::Foreign));

    for (fault, source) in [
        (unreadable, Some("this is no saved point".to_string())),
        (LoadError::AnotherRule, None),
        (LoadError::Refused(Refusal::ForeignPoint), Some(Refusal::ForeignPoint.to_string())),
        (LoadError::Counts, None),
    ] {
        assert_eq!(fault.source().map(|source| source.to_string()), source, "{fault}");
    }
}

/// A refused call leaves a monitor as it was.
#[test]
fn a_refused_call_changes_nothing() {
    let mut monitor = Monitor::new("e0 until[0,2] e1".parse().unwrap());
    let [log, fewer, falling, other] =
        ["10 e0\n12 e0\n", "10 e0\n", "10 e0\n12 e0\n", "version 2\n10 e0\n12 e0\n13 service\n"]
            .map(|typed| text::log_from_text(typed).unwrap());
    let falling = [falling, vec![0, 0, 0, 11, 0, 0, 0, 0]].concat();
    monitor.resume(&Log::new(&log).unwrap(), &mut [0; 8]).unwrap();
    let before = monitor.clone();
    for (bytes, refusal) in
        [(fewer, Refusal::FewerRecords), (falling, Refusal::TimeFalls), (other, Refusal::OtherVersion)]
    {
        assert_eq!(monitor.resume(&Log::new(&bytes).unwrap(), &mut [0; 8]), Err(refusal));
        assert_eq!(monitor.close(&Log::new(&bytes).unwrap(), &mut [0; 8]), Err(refusal));
        assert_eq!(monitor, before);
    }
    assert_eq!(monitor.trim(&Log::new(&log).unwrap()), Err(Refusal::TrimVersion));
}

/// A log that was trimmed with a monitor that is further on.
#[test]
fn a_monitor_that_is_behind() {
    let rule: Rule = "e0 until[0,2] e1".parse().unwrap();
    let log = text::log_from_text("version 2\n10 e0\n13 e0\n16 e0\n").unwrap();
    let log = Log::new(&log).unwrap();
    let (mut behind, mut ahead) = (Monitor::new(rule.clone()), Monitor::new(rule));
    behind.resume(&log, &mut [0; 1]).unwrap();
    ahead.resume(&log, &mut [0; 2]).unwrap();
    let before = behind.clone();
    let shorter = ahead.trim(&log).unwrap();
    let shorter = Log::new(&shorter).unwrap();
    assert_eq!(behind.resume(&shorter, &mut [0; 8]), Err(Refusal::RecordDropped));
    assert_eq!(behind.close(&shorter, &mut [0; 8]), Err(Refusal::RecordDropped));
    assert_eq!(behind.trim(&shorter), Err(Refusal::RecordDropped));
    assert_eq!(behind, before);
    let left = behind.trim(&log).unwrap();
    assert_eq!(ahead.trim(&Log::new(&left).unwrap()).unwrap(), shorter.as_bytes());
    ahead.resume(&Log::new(&left).unwrap(), &mut [0; 8]).unwrap();
}
