//! Reasons: what `havdrims why` prints, in the paper's form and in sentences, and where there is none.

use crate::{example, Place, RULE};
use evaluator::random::{self, Random};
use evaluator::{cases, log, reason, rule};
use std::fs;

impl Place {
    /// With the logs of examples/day.
    pub fn with_logs() -> Place {
        let place = Place::new();
        for name in ["day.klg", "tuesday.klg", "visit.klg", "rule.krl"] {
            fs::copy(example(name), place.path(name)).unwrap();
        }
        place
    }

    /// What `why --words` says of these records, under a formula, of a log that is typed.
    fn says(&self, formula: &str, log: &str, records: &[(usize, &str)]) {
        fs::write(self.path("typed.txt"), log).unwrap();
        self.ok(&["to-log", "typed.txt", "typed.klg", "--force"]);
        for (record, said) in records {
            let record = record.to_string();
            assert_eq!(
                self.ok(&["why", formula, "typed.klg", &record, "--words"]),
                *said,
                "{formula}, record {record}"
            );
        }
    }
}

#[test]
fn the_reasons_of_the_sample_day() {
    let place = Place::with_logs();
    let reasons = [
        ("0", "5 0 or\n1 0 not\n0 0 e2 no\n"),
        ("2", "5 2 or\n4 2 until 4\n"),
        ("5", "5 5 or\n1 5 not\n0 5 e2 yes\n4 5 until 6 left\n"),
        ("8", "5 8 or\n1 8 not\n0 8 e2 yes\n4 8 until 10 time\n"),
    ];
    for (record, text) in reasons {
        assert_eq!(place.ok(&["why", RULE, "day.klg", record]), text);
        assert_eq!(place.ok(&["why", "rule.krl", "day.klg", record]), text);
        assert_eq!(place.ok(&["why", "--formula", "0", RULE, "day.klg", record]), text);
    }
    // In the log with a visit records 5 to 7 are no positions: the reason's positions stay, the records of its words move.
    assert_eq!(place.ok(&["why", RULE, "visit.klg", "8"]), reasons[2].1);
    let said = place.ok(&["why", RULE, "visit.klg", "8", "--words"]);
    let until = "e0 until[0,90] e1 is no at record 8: record 9 does not have e0, and no record from 8 to 9 has e1";
    let both =
        format!("record 8, position 5, is no: neither of these is yes\n  not e2 is no at record 8: record 8 has e2\n  {until}\n");
    assert_eq!(said, both);
    let said = place.ok(&["why", "--words", RULE, "day.klg", "2"]);
    let until = "record 4 has e1, 60 seconds later, and every record from 2 to 3 has e0";
    assert_eq!(said, format!("record 2 is yes, by (e0 until[0,90] e1): {until}\n"));
}

/// Where there is no reason it is said why, and nothing is printed.
#[test]
fn records_without_a_reason() {
    let place = Place::with_logs();
    let why = |status, words: &[&str]| place.fails(status, &[&["why"], words].concat());
    let [day, visit] = ["day.klg: ", "visit.klg: "];
    let open = "is open: the log ends before it is settled\n";
    assert_eq!(why(1, &[RULE, "day.klg", "12"]), format!("{day}record 12 {open}"));
    assert_eq!(why(1, &[RULE, "day.klg", "13", "--words"]), format!("{day}record 13 {open}"));
    assert_eq!(why(1, &[RULE, "day.klg", "14"]), format!("{day}there is no record 14: the log has 14, 0 to 13\n"));
    let service = "record 6 is a service record: it is no position and has no verdict\n";
    assert_eq!(why(1, &[RULE, "visit.klg", "6"]), format!("{visit}{service}"));
    assert_eq!(why(1, &[RULE, "visit.klg", "17"]), format!("{visit}there is no record 17: the log has 17, 0 to 16\n"));
    assert!(why(2, &[RULE, "day.klg", "first"]).starts_with("`first` is no number"));
    assert!(why(2, &[RULE, "day.klg", "5", "--formula", "1"]).starts_with("--formula 1: the rule has one formula, 0\n"));
    assert!(why(1, &["e0 until e1", "day.klg", "5"]).starts_with("`e1` cannot stand here\n"));
    assert!(why(1, &["none.krl", "day.klg", "5"]).starts_with("no card or .krl file `none.krl` is here"));
    assert!(why(1, &[RULE, "none.klg", "5"]).starts_with("none.klg: "));
    assert_eq!(why(1, &[RULE, "rule.krl", "5"]), "rule.krl: this is a rule, not a log (refused 12)\n");

    // a log that was trimmed, and one whose first records were overwritten
    place.ok(&["new", "card", RULE]);
    place.ok(&["evening", "card", "visit.klg"]);
    place.ok(&["trim", "card", "visit.klg", "left.klg"]);
    let text = "left.klg: records 0 to 14 were dropped from the log (refused 24)\n\
                A reason needs the whole log, as it was before it was trimmed.\n";
    assert_eq!(why(1, &[RULE, "left.klg", "15"]), text);
    let mut bytes = fs::read(place.path("day.klg")).unwrap();
    bytes[8..8 + 8 * 5].fill(0xFF);
    fs::write(place.path("overwritten.klg"), bytes).unwrap();
    let text = "overwritten.klg: record 5, second 300, comes after record 4, second 4294967295 (refused 14)\n\
                A reason needs the whole log, with no record overwritten.\n";
    assert_eq!(why(1, &[RULE, "overwritten.klg", "8"]), text);

    fs::write(place.path("none.klg"), log::HEADER).unwrap();
    assert_eq!(why(1, &[RULE, "none.klg", "0"]), "none.klg: there is no record 0: the log has none\n");
    place.ok(&["why", "e0", "day.klg", "0"]);
}

#[test]
fn several_formulas_and_none() {
    let place = Place::with_logs();
    place.ok(&["rule", RULE, "not e1 or prev[0,inf] e0", "two.krl"]);
    let why = |words: &[&str]| place.ok(&[&["why", "two.krl", "day.klg"], words].concat());
    assert_eq!(why(&["7", "--formula", "1"]), "10 7 or\n7 7 not\n6 7 e1 yes\n9 7 prev 55\n8 6 e0 no\n");
    let said =
        "record 7 is no under formula 1: neither of these is yes\n  not e1 is no at record 7: record 7 has e1\n  \
        prev[0,inf] e0 is no at record 7: record 6 is 55 seconds before, and record 6 does not have e0\n";
    assert_eq!(why(&["7", "--formula", "1", "--words"]), said);
    assert_eq!(why(&["5", "--formula", "0"]), "5 5 or\n1 5 not\n0 5 e2 yes\n4 5 until 6 left\n");
    assert!(why(&["5", "--formula", "0", "--words"]).starts_with("record 5 is no under formula 0: neither of"));
    let said = place.fails(2, &["why", "two.krl", "day.klg", "5"]);
    assert!(said.starts_with("the rule has 2 formulas: which of them? --formula 0 to 1\n"), "{said}");
    let said = place.fails(2, &["why", "two.krl", "day.klg", "5", "--formula", "2"]);
    assert!(said.starts_with("--formula 2: the rule has 2 formulas, 0 to 1\n"), "{said}");
    let said = place.fails(1, &["why", "two.krl", "day.klg", "12", "--formula", "1"]);
    assert_eq!(said, "day.klg: record 12 is open: the log ends before every formula is settled there\n");

    fs::write(place.path("empty.krl"), rule::encode(&[])).unwrap();
    assert_eq!(place.ok(&["why", "empty.krl", "day.klg", "13"]), "empty\n");
    let said = place.ok(&["why", "empty.krl", "day.klg", "13", "--words"]);
    assert_eq!(said, "record 13 is yes: the rule is empty\n");
}

/// A card is not told a reason that its sheet contradicts.
#[test]
fn a_log_that_is_no_longer_as_the_card_saw_it() {
    let place = Place::with_logs();
    place.ok(&["new", "two", RULE, "not e1 or prev[0,inf] e0"]);
    place.ok(&["evening", "two", "day.klg"]);
    let said = place.ok(&["why", "two", "day.klg", "7", "--formula", "1", "--words"]);
    assert!(said.starts_with("record 7 is no under formula 1: "), "{said}");
    // Record 6 gets letter 0, which it did not have, and record 5 loses letter 2.
    let mut bytes = fs::read(place.path("day.klg")).unwrap();
    bytes[8 + 8 * 6 + 7] |= 1;
    bytes[8 + 8 * 5 + 7] &= !4;
    fs::write(place.path("altered.klg"), bytes).unwrap();
    for (record, formula) in [("7", "1"), ("5", "0")] {
        let text = format!(
            "altered.klg: record {record} is no in the card's sheet, and yes on this log: records were overwritten or \
             altered since\nA reason needs the log as it was.\n"
        );
        for words in [&["--words"][..], &[]] {
            let asked = [&["why", "two", "altered.klg", record, "--formula", formula], words].concat();
            assert_eq!(place.fails(1, &asked), text);
        }
    }
    // A verdict that is the same on both, also where more was overwritten than may be, and a rule file, which knows no sheet.
    for log in ["altered.klg", "tuesday.klg"] {
        let (status, reason, said) = place.run(&["why", "two", log, "3", "--formula", "0", "--words"]);
        let may = "record 3 may not be as the card has seen it: it or others of that evening were overwritten or altered since, \
                   or this is another kiosk's log. The reason is that of the log as it is now.\n";
        assert_eq!((status, said.as_str()), (0, may));
        assert!(reason.starts_with("record 3 is yes under formula 0, by "), "{reason}");
    }
    place.ok(&["why", "two/rule.krl", "altered.klg", "7", "--formula", "1"]);
    // What was open, and what the card has not seen yet.
    let mut grown = fs::read(place.path("day.klg")).unwrap();
    grown.extend(&fs::read(place.path("tuesday.klg")).unwrap()[grown.len()..]);
    grown[8..8 + 8 * 11].fill(0);
    fs::write(place.path("grown.klg"), grown).unwrap();
    place.ok(&["why", "two", "grown.klg", "12", "--formula", "0"]);
    place.ok(&["why", "two", "grown.klg", "15", "--formula", "0"]);
    // An older copy has what was overwritten since; a card of an earlier program cannot tell.
    place.ok(&["evening", "two", "grown.klg"]);
    place.ok(&["why", "two", "day.klg", "8", "--formula", "0"]);
    fs::rename(place.path("two"), place.path("card")).unwrap();
    place.make_old();
    place.ok(&["why", "card", "altered.klg", "3", "--formula", "0"]);
}

/// A card that begins in the middle of a log is told reasons from there on, in the log's own numbers.
#[test]
fn a_card_that_begins_in_the_middle() {
    let place = Place::with_logs();
    place.ok(&["new", "card", "prev[0,inf] e0", "--from", "8"]);
    place.ok(&["evening", "card", "visit.klg"]);
    let why = |record: &str| place.ok(&["why", "card", "visit.klg", record, "--words"]);
    let begins = "the card begins at record 8 and has read nothing before it";
    assert_eq!(why("8"), format!("record 8 is no: no record stands before it; {begins}\n"));
    let plain = place.run(&["why", "card", "visit.klg", "8"]);
    assert_eq!(plain, (0, "1 0 prev none\n".to_string(), format!("{begins}\n")));
    assert!(place
        .ok(&["why", "prev[0,inf] e0", "visit.klg", "8", "--words"])
        .starts_with("record 8, position 5, is yes"));
    assert!(why("9").starts_with("record 9 is yes: record 8 is "), "{}", why("9"));
    let said = place.fails(1, &["why", "card", "visit.klg", "7"]);
    assert_eq!(said, "visit.klg: record 7 stands before the card's first, 8\n");
}

/// A since that looks back to the card's first record says nothing of those before, which the card has not read.
#[test]
fn a_since_that_looks_back_to_the_first_record() {
    let place = Place::new();
    let log = "0 e0\n10 e1\n20 e0\n30 e0\n40 e0\n150 e0\n160 none\n";
    fs::write(place.path("typed.txt"), log).unwrap();
    place.ok(&["to-log", "typed.txt", "typed.klg"]);
    let begins = "the card begins at record 2 and has read nothing before it";
    let says = |formula: &str, record: &str, said: &str, begun: bool| {
        place.ok(&["new", "card", formula, "--from", "2"]);
        place.ok(&["evening", "card", "typed.klg"]);
        let end = if begun { format!("; {begins}") } else { String::new() };
        let told = place.ok(&["why", "card", "typed.klg", record, "--words"]);
        assert_eq!(told, format!("record {record} is no: {said}{end}\n"), "{formula}");
        let (status, out, err) = place.run(&["why", "card", "typed.klg", record]);
        assert!(status == 0 && !out.is_empty(), "{formula}: {out}");
        assert_eq!(err, if begun { format!("{begins}\n") } else { String::new() }, "{formula}");
        fs::remove_dir_all(place.path("card")).unwrap();
    };
    let first = "record 2 is the first at most 90 seconds before, and no record from 2 to 4 has e1";
    says("e0 since[0,90] e1", "4", first, true);
    says("e0 since[0,inf] e1", "4", "no record from 2 to 4 has e1", true);
    let later = "record 5 is the first at most 90 seconds before, and record 5 does not have e1";
    says("e0 since[0,90] e1", "5", later, false);
    says("e0 since[0,90] e1", "6", "record 6 has neither e0 nor e1", false);
    // A part of which the reason has no line of its own looks back as well.
    let inner = "record 6 does not have e0, and (prev[0,inf] e1) is no at record 6";
    says("e0 since[0,9] prev[0,inf] e1", "6", inner, false);
    let inner = "record 5 is 110 seconds later, more than 5, and (e0 since[0,inf] e1) is no at record 4";
    says("(e0 or not e0) until[0,5] (e0 since[0,inf] e1)", "4", inner, true);
}

/// A verdict that a closing gave has no reason, however the log went on.
#[test]
fn a_closed_card_whose_log_went_on() {
    let place = Place::with_logs();
    place.ok(&["new", "card", RULE]);
    place.ok(&["close", "card", "day.klg", "--final"]);
    let closed = "record 12 is no in the card's sheet: the log ended before it was settled, and the card was closed\n";
    let [day, tuesday] = ["day.klg", "tuesday.klg"].map(|name| fs::read(place.path(name)).unwrap());
    fs::write(place.path("longer.klg"), [&day, &tuesday[day.len()..]].concat()).unwrap();
    for log in ["day.klg", "longer.klg"] {
        for words in [&[][..], &["--words"]] {
            let asked = [&["why", "card", log, "12"], words].concat();
            assert_eq!(place.fails(1, &asked), format!("{log}: {closed}"));
        }
        assert!(place.ok(&["why", "card", log, "5", "--words"]).starts_with("record 5 is no: "));
    }
    let said = place.fails(1, &["why", "card", "longer.klg", "14"]);
    assert_eq!(said, "longer.klg: record 14 came after the card was closed: its sheet has no verdict of it\n");
    let said = place.fails(1, &["why", "card", "longer.klg", "99"]);
    assert!(said.starts_with("longer.klg: there is no record 99: "), "{said}");
    // An older copy of the log ends sooner than the card has seen it.
    fs::write(place.path("older.klg"), &day[..day.len() - 8]).unwrap();
    let said = place.fails(1, &["why", "card", "older.klg", "12"]);
    assert_eq!(said, "older.klg: record 12 is open: the log ends before it is settled\n");
}

/// Each form of a sentence.
#[test]
fn reasons_in_sentences() {
    let place = Place::new();
    place.says(
        "e0",
        "1 e0\n2 none\n",
        &[(0, "record 0 is yes: record 0 has e0\n"), (1, "record 1 is no: record 1 does not have e0\n")],
    );
    place.says(
        "e0 or e1 or e2",
        "1 e1\n2 e2\n3 none\n",
        &[
            (0, "record 0 is yes: record 0 has e1\n"),
            (1, "record 1 is yes: record 1 has e2\n"),
            (
                2,
                "record 2 is no: none of these is yes\n  record 2 does not have e0\n  record 2 does not have e1\n  \
            record 2 does not have e2\n",
            ),
        ],
    );
    place.says(
        "not (e0 or not e1)",
        "1 e0\n2 none\n3 e1\n",
        &[
            (0, "record 0 is no: record 0 has e0\n"),
            (1, "record 1 is no, by (not e1): record 1 does not have e1\n"),
            (
                2,
                "record 2 is yes: neither of these is yes\n  record 2 does not have e0\n  \
            not e1 is no at record 2: record 2 has e1\n",
            ),
        ],
    );
    place.says(
        "prev[2,5] e0",
        "1 e0\n2 e0\n5 none\n7 none\n",
        &[
            (0, "record 0 is no: no record stands before it\n"),
            (1, "record 1 is no: record 0 is 1 second before, not 2 to 5 seconds\n"),
            (2, "record 2 is yes: record 1 is 3 seconds before, and record 1 has e0\n"),
            (3, "record 3 is no: record 2 is 2 seconds before, and record 2 does not have e0\n"),
        ],
    );
    place.says(
        "next[2,inf] not e0",
        "1 e0\n2 e0\n5 none\n7 e0\n",
        &[
            (0, "record 0 is no: record 1 is 1 second later, not at least 2 seconds\n"),
            (1, "record 1 is yes: record 2 is 3 seconds later, and record 2 does not have e0\n"),
            (2, "record 2 is no: record 3 is 2 seconds later, and record 3 has e0\n"),
        ],
    );
    place.says(
        "e0 since[1,3] e1",
        "1 e1\n2 e0\n3 e0\n5 e0\n6 none\n6 e0 e1\n7 e0\n",
        &[
            (0, "record 0 is no: record 0 does not have e0\n"),
            (1, "record 1 is yes: record 0 has e1, 1 second before, and record 1 has e0\n"),
            (2, "record 2 is yes: record 0 has e1, 2 seconds before, and every record from 1 to 2 has e0\n"),
            (3, "record 3 is no: record 1 is the first at most 3 seconds before, and no record from 1 to 2 has e1\n"),
            (4, "record 4 is no: record 4 does not have e0\n"),
            (5, "record 5 is no: record 4 does not have e0, and no record from 4 to 5 is 1 to 3 seconds before\n"),
            (6, "record 6 is yes: record 5 has e1, 1 second before, and record 6 has e0\n"),
        ],
    );
    place.says(
        "e0 since[2,inf] (e1 or e2)",
        "1 e0\n2 e0\n3 e0\n4 e0\n",
        &[
            (0, "record 0 is no: none is at least 2 seconds before\n"),
            (1, "record 1 is no: no record from 0 to 1 is at least 2 seconds before\n"),
            (2, "record 2 is no: (e1 or e2) is no at record 0\n"),
            (3, "record 3 is no: (e1 or e2) is yes at no record from 0 to 1\n"),
        ],
    );
    place.says(
        "e0 until[0,9] e1",
        "1 none\n2 e1\n3 e0\n4 e0\n5 e1\n6 e0\n7 e0\n16 e0\n",
        &[
            (0, "record 0 is no: record 0 has neither e0 nor e1\n"),
            (1, "record 1 is yes: record 1 has e1\n"),
            (2, "record 2 is yes: record 4 has e1, 2 seconds later, and every record from 2 to 3 has e0\n"),
            (5, "record 5 is no: record 7 is 10 seconds later, more than 9, and no record from 5 to 6 has e1\n"),
        ],
    );
    // a service record that has the letter is not meant
    let visited =
        "version 2\n1 e0\n2 e1 service\n3 e0\n4 e0 service\n5 none\n6 e1 service\n7 e0\n8 e0\n8 service\n9 e1\n";
    place.says(
        "e0 until[0,9] e1",
        visited,
        &[
            (
                0,
                "record 0 is no: record 4 does not have e0, and no record from 0 to 4, service records aside, has e1\n",
            ),
            (
                6,
                "record 6, position 3, is yes: record 9 has e1, 2 seconds later, and every record from 6 to 7 has e0\n",
            ),
        ],
    );
    place.says("(not e1) until[0,9] (e1 or e2)", visited, &[(
        0,
        "record 0 is yes: (e1 or e2) is yes at record 9, 8 seconds later, and no record from 0 to 7, service records aside, \
         has e1\n",
    )]);
    // a left side that holds everywhere says nothing, and a letter that is missing is said to be
    let always = "not ((e0 or not e0) until[0,9] not e0)";
    let cold = [
        (0, "record 0 is no: record 2 does not have e0, 4 seconds later\n"),
        (2, "record 2 is no: record 2 does not have e0\n"),
    ];
    place.says(always, "1 e0\n3 e0\n5 none\n30 e0\n", &cold);
    let warm = "record 0 is yes: record 2 is 29 seconds later, more than 9, and every record from 0 to 1 has e0\n";
    place.says(always, "1 e0\n3 e0\n30 e0\n", &[(0, warm)]);
}

/// The text is the evaluator's for random rules and logs, and there are sentences for it.
#[test]
fn random_reasons() {
    let place = Place::new();
    let mut r = Random::new(13);
    for _ in 0..60 {
        let (rule_shape, log_shape) = random::shapes(&mut r, 12, 20);
        let bytes = random::rule(&mut r, rule_shape);
        let (version, records) = random::any_log(&mut r, log_shape);
        let rule = rule::parse(&bytes).unwrap();
        fs::write(place.path("rule.krl"), &bytes).unwrap();
        fs::write(place.path("log.klg"), log::encode_as(version, &records)).unwrap();
        let formula = r.below(rule.formulas());
        let all = reason::reasons(&rule, &log::positions(version, &records), formula);
        for ((position, text), record) in all.iter().enumerate().zip(log::places(version, &records)) {
            let of = if rule.formulas() > 1 { format!(" under formula {formula}") } else { String::new() };
            let place_of = if position == record { String::new() } else { format!(", position {position},") };
            let [record, formula] = [record, formula].map(|number| number.to_string());
            let words = ["why", "rule.krl", "log.klg", &record, "--formula", &formula];
            assert_eq!(place.ok(&words), *text);
            let said = place.ok(&[&words[..], &["--words"]].concat());
            let yes = reason::taken_apart(&rule, text).unwrap().yes;
            let yes = if yes { "yes" } else { "no" };
            assert!(said.starts_with(&format!("record {record}{place_of} is {yes}{of}")), "{said}");
        }
    }
    let worked = cases::reasons().into_iter().filter(|case| !case.texts.is_empty());
    for case in worked {
        fs::write(place.path("rule.krl"), &case.rule).unwrap();
        fs::write(place.path("log.klg"), &case.log).unwrap();
        let file = log::parse(&case.log).unwrap();
        let [record, formula] = [log::places(file.version, &file.records)[0], case.formula].map(|n| n.to_string());
        assert_eq!(
            place.ok(&["why", "rule.krl", "log.klg", &record, "--formula", &formula]),
            case.texts[0],
            "{}",
            case.name
        );
    }
}
