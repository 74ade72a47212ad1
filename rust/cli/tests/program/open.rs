//! `open`: the records without a verdict, and what would settle them.

use crate::{Place, OLDER_LOG, OTHER_LOG, RULE};
use cli::waiting::{open, End, Timed};
use evaluator::log::{self, Record};
use evaluator::random::Random;
use havdrims::text::log_from_text;
use havdrims::{Log, Monitor, Rule};
use std::fs;

impl Place {
    /// Writes the log that a text says.
    fn text_log(&self, name: &str, text: &str) {
        fs::write(self.path(name), log_from_text(text).unwrap()).unwrap();
    }

    /// A fresh card for the rule, and what `open` prints of it and the log.
    fn open(&self, rule: &str, text: &str) -> String {
        self.text_log("log.klg", text);
        let _ = fs::remove_dir_all(self.path("card"));
        self.ok(&["new", "card", rule]);
        self.ok(&["open", "card", "log.klg"])
    }
}

#[test]
fn until_over_letters() {
    let place = Place::new();
    let said = place.open("e0 until[0,90] e1", "1200 e0\n1230 e0\n");
    assert_eq!(
        said,
        "open: 2 of 2 records\n\
         record 0, second 1200: yes if e1 comes by second 1290, no if e0 is missing before\n\
         record 1, second 1230: yes if e1 comes by second 1320, no if e0 is missing before\n"
    );
    let said = place.open("e0 until[10,90] e1", "1200 e0\n");
    assert_eq!(
        said,
        "open: 1 of 1 record\n\
         record 0, second 1200: yes if e1 comes between second 1210 and second 1290, no if e0 is missing before\n"
    );
    let said = place.open("e0 until[90,90] e1", "1200 e0\n1290 e0\n");
    assert_eq!(
        said,
        "open: 2 of 2 records\n\
         record 0, second 1200: yes if e1 comes by second 1290, no if e0 is missing before\n\
         record 1, second 1290: yes if e1 comes at second 1380, no if e0 is missing before\n"
    );
    let said = place.open("e0 until[0,2] e1", "10 e0\n12 e0\n13 e0\n");
    assert_eq!(
        said,
        "open: 2 of 3 records\n\
         record 1, second 12: yes if e1 comes by second 14, no if e0 is missing before\n\
         record 2, second 13: yes if e1 comes by second 15, no if e0 is missing before\n\
         1 verdict is not on the card yet: `havdrims evening` writes it\n"
    );
}

#[test]
fn open_records_that_were_altered() {
    let place = Place::new();
    place.text_log("log.klg", "version 2\n1200 e0\n1230 e0\n");
    place.ok(&["new", "card", "e0 until[0,90] e1"]);
    place.ok(&["evening", "card", "log.klg"]);
    let mut bytes = fs::read(place.path("log.klg")).unwrap();
    bytes[8..].fill(255);
    fs::write(place.path("log.klg"), bytes).unwrap();
    let said = place.fails(1, &["open", "card", "log.klg"]);
    let altered = "log.klg: records 0 to 1 are not those that this card has seen\n";
    assert_eq!(said, format!("{altered}{OTHER_LOG} Nothing was changed.\n"));
}

#[test]
fn next_over_a_letter() {
    let place = Place::new();
    for (rule, said) in [
        ("next[1,1] e0", "yes if the next record has e0 and comes at second 9, no if not"),
        ("next[0,3] e0", "yes if the next record has e0 and comes by second 11, no if not"),
        ("next[0,inf] e3", "yes if the next record has e3, no if not"),
        ("next[5,inf] e3", "yes if the next record has e3 and comes at second 13 or later, no if not"),
    ] {
        let printed = place.open(rule, "5 none\n6 e0\n8 e0\n");
        let settled = "2 verdicts are not on the card yet: `havdrims evening` writes them\n";
        assert_eq!(printed, format!("open: 1 of 3 records\nrecord 2, second 8: {said}\n{settled}"));
    }
}

/// Where the theorem's conditions are not met.
#[test]
fn what_can_no_longer_be_yes() {
    let place = Place::new();
    let never = "no with the next record, whatever it says";
    let of = |rule, text| place.open(rule, text);
    assert_eq!(
        of("next[0,3] e0", "version 2\n5 none\n9 service\n"),
        format!("open: 1 of 1 position\nposition 0, record 0, second 5: {never}\n")
    );
    assert_eq!(
        of("e0 until[0,3] e1", "version 2\n4 service\n5 e0\n9 service\n"),
        format!("open: 1 of 1 position\nposition 0, record 1, second 5: {never}\n")
    );
    assert_eq!(
        of("next[3600,3600] e0", "4294963696 none\n"),
        format!("open: 1 of 1 record\nrecord 0, second 4294963696: {never}\n")
    );
    assert_eq!(
        of("next[3600,3600] e0", "4294963695 none\n"),
        "open: 1 of 1 record\n\
         record 0, second 4294963695: yes if the next record has e0 and comes at second 4294967295, no if not\n"
    );
    assert_eq!(
        of("e0 until[0,3] e31", "version 2\n5 e0\n"),
        "open: 1 of 1 record\nrecord 0, second 5: no longer yes, no if e0 is missing\n"
    );
    assert_eq!(
        of("e0 until[0,3] e31", "5 e0\n"),
        "open: 1 of 1 record\nrecord 0, second 5: yes if e31 comes by second 8, no if e0 is missing before\n"
    );
}

/// Other rules, after an evening, with overwritten records, of a closed card; and nothing is changed.
#[test]
fn of_other_rules_the_records_alone() {
    let place = Place::with_card(1);
    let before = place.card();
    let told = "what would settle them is told only where the rule is one next or until over letters\n";
    let said = place.ok(&["open", "card", "day.klg"]);
    assert_eq!(said, format!("open: 2 of 14 records\nrecord 12, second 700\nrecord 13, second 730\n{told}"));
    assert_eq!(place.card(), before);

    place.ok(&["close", "card", "day.klg", "--final"]);
    assert_eq!(place.ok(&["open", "card", "day.klg"]), "open: 0 of 14 records, and the card is closed\n");

    place.ok(&["new", "two", "e0 until[0,90] e1", RULE]);
    assert!(place.ok(&["open", "two", "day.klg"]).contains(told));
    place.text_log("short.klg", "10 e0\n");
    place.ok(&["new", "other", "e0 until[0,90] e1"]);
    place.ok(&["evening", "other", "day.klg"]);
    let said = place.fails(1, &["open", "other", "short.klg"]);
    assert!(said.contains(OLDER_LOG), "{said}");
    assert!(place.fails(2, &["open", "other"]).contains("expected: havdrims open CARD LOG"));
}

/// A trimmed log: records keep their numbers.
#[test]
fn of_a_trimmed_log() {
    let place = Place::new();
    place.open("e0 until[0,2] e1", "version 2\n10 e0\n11 service\n13 e0\n14 e0\n");
    place.ok(&["evening", "card", "log.klg"]);
    let said = place.ok(&["open", "card", "log.klg"]);
    assert_eq!(
        said,
        "open: 2 of 3 positions\n\
         position 1, record 2, second 13: yes if e1 comes by second 15, no if e0 is missing before\n\
         position 2, record 3, second 14: yes if e1 comes by second 16, no if e0 is missing before\n"
    );
    assert_eq!(place.ok(&["trim", "card", "log.klg", "short.klg"]), "short.klg: records 0 to 1 dropped, 2 left\n");
    assert_eq!(place.ok(&["open", "card", "short.klg"]), said);
}

/// The verdicts of a log.
fn verdicts(rule: &Rule, log: &[u8]) -> Vec<u8> {
    let mut sheet = [0; 64];
    let given = Monitor::new(rule.clone()).resume(&Log::new(log).unwrap(), &mut sheet).unwrap();
    given.bytes().to_vec()
}

/// What is said of an open record is what every record that may follow does, over random logs of versions 1 and 2.
#[test]
fn what_is_said_is_what_comes() {
    let mut open_ones = 0;
    for seed in 0..400 {
        let mut r = Random::new(seed);
        let (low, more) = (r.below(3), r.below(3));
        let (is_next, version) = (r.one_in(3), r.from_to(1, 2) as u16);
        let rule: Rule = match is_next {
            true => format!("next[{low},{}] e1", low + more),
            false => format!("e0 until[{low},{}] e1", low + more),
        }
        .parse()
        .unwrap();
        let timed = Timed::of(rule.as_bytes()).unwrap();
        let mut time = 5;
        let mut records = Vec::new();
        for _ in 0..r.from_to(1, 6) {
            time += r.pick(&[0, 0, 1, 2]);
            records.push(Record { time, letters: r.pick(&[1, 1, 1, 2, 0, 1 << 31]) });
        }
        let bytes = log::encode_as(version, &records);
        let parsed = Log::new(&bytes).unwrap();
        let given = verdicts(&rule, &bytes).len() as u64;
        let positions = log::positions(version, &records).len() as u64;
        for waiting in open(&parsed, given, positions).unwrap() {
            open_ones += 1;
            assert_eq!(records[waiting.record].time, waiting.seconds);
            let yes = timed.seconds_for_yes(waiting.seconds, &End::of(&parsed));
            for time in time..time + 9 {
                for letters in 0..4 {
                    let longer = [&bytes[..], &log::encode_records(&[Record { time, letters }])].concat();
                    let in_time = yes.is_some_and(|(from, to)| (from..=to).contains(&u64::from(time)));
                    let too_late = time > waiting.seconds + (low + more) as u32;
                    let said = match letters & 2 != 0 && in_time {
                        true => Some(1),
                        false => (is_next || letters & 1 == 0 || too_late).then_some(0),
                    };
                    let byte = verdicts(&rule, &longer).get(waiting.position as usize).copied();
                    assert_eq!(byte, said, "seed {seed}: {rule} over {records:?}, then {letters} at {time}");
                }
            }
        }
    }
    assert!(open_ones > 300, "{open_ones}");
}
