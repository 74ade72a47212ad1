//! Service visits: records of a version 2 log that are no positions.

use crate::{divided, example, Place, CARRY_ON, OLDER_LOG, OTHER_CLOCK, OTHER_LOG, RULE};
use havdrims::text::log_from_text;
use std::fs;

const OTHER_VERSION: &str =
    "A card keeps to the version of its first log, 2 and 3 counting as one; another needs a card of its own. ";

impl Place {
    /// Writes the log of version 2 with these records.
    pub fn log(&self, name: &str, records: &str) -> Vec<u8> {
        let bytes = log_from_text(&format!("version 2\n{records}")).unwrap();
        fs::write(self.path(name), &bytes).unwrap();
        bytes
    }
}

/// The records of an example, with a service record in every second line, the first included.
pub fn with_visits(name: &str) -> String {
    let text = fs::read_to_string(example(name)).unwrap();
    let lines = text.lines().filter(|line| !line.starts_with('#'));
    lines.map(|line| format!("{} e2 service\n{line}\n", line.split(' ').next().unwrap())).collect()
}

/// The verdicts and all counts of a week are those of the week without the visits; what may be overwritten is told in
/// records, and what is overwritten then is not counted again.
#[test]
fn a_week_with_service_visits() {
    let place = Place::with_card(0);
    place.ok(&["new", "visited", RULE]);
    let monday = place.log("monday.klg", &with_visits("day.txt"));
    let said = place.ok(&["evening", "visited", "monday.klg"]);
    let so_far =
        "so far: 12 verdicts, 2 no, the latest at position 8\nopen: 2 of 14 positions\nservice: 14 of 28 records\n";
    let released = "records 0 to 24 may be overwritten\n";
    assert_eq!(said, format!("positions 0 to 11: 10 yes, 2 no\n14 service records passed over\n{so_far}{released}"));
    assert_eq!(place.ok(&["summary", "visited"]), so_far);
    let again = place.ok(&["evening", "visited", "monday.klg"]);
    let older = "no new record since the last evening (28 records): is it an older copy of the log?";
    assert_eq!(again, format!("{older}\n{so_far}{released}"));

    // on Tuesday the records that were released hold all ones: letter 31 in each of them
    let mut tuesday = place.log("tuesday.klg", &format!("{}1100 service\n", with_visits("tuesday.txt")));
    tuesday[8..8 + 8 * 25].fill(0xff);
    tuesday[8 + 8 * 25..8 + 8 * 28].copy_from_slice(&monday[8 + 8 * 25..]);
    fs::write(place.path("tuesday.klg"), &tuesday).unwrap();
    let said = place.ok(&["evening", "visited", "tuesday.klg"]);
    let so_far =
        "so far: 18 verdicts, 3 no, the latest at position 15\nopen: 1 of 19 positions\nservice: 20 of 39 records\n";
    let released = "records 0 to 36 may be overwritten\n";
    assert_eq!(said, format!("positions 12 to 17: 5 yes, 1 no\n6 service records passed over\n{so_far}{released}"));
    tuesday[8..8 + 8 * 37].fill(0);
    fs::write(place.path("tuesday.klg"), &tuesday).unwrap();
    let said = place.ok(&["close", "visited", "tuesday.klg", "--final"]);
    let so_far = "so far: 19 verdicts, 4 no, the latest at position 18\n\
                  open: 0 of 19 positions, and the card is closed\nservice: 20 of 39 records\n";
    assert_eq!(said, format!("position 18: 0 yes, 1 no\n{so_far}records 0 to 37 may be overwritten\n"));
    assert_eq!(place.ok(&["summary", "visited"]), so_far);

    for log in ["day.klg", "tuesday.klg"] {
        fs::copy(example(log), place.path(log)).unwrap();
        place.ok(&["evening", "card", log]);
    }
    place.ok(&["close", "card", "tuesday.klg", "--final"]);
    for words in [&["sheet"][..], &["sheet", "--csv"], &["sheet", "--from", "15"]] {
        let of = |card: &str| place.ok(&[words, &[card]].concat());
        assert_eq!(of("visited"), of("card"), "{words:?}");
    }
}

/// One visit in the midst, one at the end, one alone; and a log of version 2 without any, which reads as one of version 1.
#[test]
fn few_visits_and_none() {
    let place = Place::with_card(0);
    place.log("none.klg", "10 e0\n11 e1\n");
    place.ok(&["new", "some", "e0 until[0,2] e1"]);
    let said = place.ok(&["evening", "some", "none.klg"]);
    let end = "record 0 may be overwritten\n";
    let so_far = "so far: 2 verdicts, 0 no\nopen: 0 of 2 records\n";
    assert_eq!(said, format!("records 0 to 1: 2 yes, 0 no\n{so_far}{end}"));
    place.log("one.klg", "10 e0\n11 e1\n12 service\n");
    let said = place.ok(&["evening", "some", "one.klg"]);
    let so_far = "so far: 2 verdicts, 0 no\nopen: 0 of 2 positions\nservice: 1 of 3 records\n";
    let end = "records 0 to 1 may be overwritten\n";
    let new = "no new verdict: 1 record is new, a service record";
    assert_eq!(said, format!("{new}\n1 service record passed over\n{so_far}{end}"));
    let end = "records 0 to 2 may be overwritten\n";
    place.log("more.klg", "10 e0\n11 e1\n12 service\n13 e0\n13 e1 service\n");
    let said = place.ok(&["evening", "some", "more.klg"]);
    let so_far = "so far: 2 verdicts, 0 no\nopen: 1 of 3 positions\nservice: 2 of 5 records\n";
    let new = "no new verdict: 2 records are new, and none is settled yet";
    assert_eq!(said, format!("{new}\n1 service record passed over\n{so_far}{end}"));
    let said = place.ok(&["close", "some", "more.klg", "--final"]);
    assert!(
        said.starts_with("position 2: 0 yes, 1 no\nso far: 3 verdicts, 1 no, the latest at position 2\n"),
        "{said}"
    );

    place.log("alone.klg", "10 service\n11 service\n");
    let said = place.ok(&["evening", "card", "alone.klg"]);
    let so_far = "so far: 0 verdicts, 0 no\nopen: 0 of 0 positions\nservice: 2 of 2 records\n";
    let new = "no new verdict: 2 records are new, all of them service records\n2 service records passed over";
    assert_eq!(said, format!("{new}\n{so_far}record 0 may be overwritten\n"));
    assert_eq!(place.ok(&["sheet", "card"]), "");
}

/// A rule that looks back keeps the record of a position, and the service records behind it.
#[test]
fn positions_kept_for_previous() {
    let place = Place::new();
    place.log("back.klg", "1\n1 service\n1\n1 service\n1 service\n2\n3 service\n");
    place.ok(&["new", "back", "prev[0,9] prev[0,9] e0"]);
    let said = place.ok(&["evening", "back", "back.klg"]);
    let end = "open: 0 of 3 positions\nservice: 4 of 7 records\nrecords 0 to 1 may be overwritten\n";
    assert!(said.ends_with(end), "{said}");
    place.ok(&["new", "two", "prev[0,9] e0", "not e31"]);
    let said = place.ok(&["evening", "two", "back.klg"]);
    // no position has letter 31
    let new = "positions 0 to 2\n  formula 0: 0 yes, 3 no\n  formula 1: 3 yes, 0 no\n4 service records passed over\n";
    let so_far = "so far: 3 verdicts\n  formula 0: 3 no, the latest at position 2\n  formula 1: 0 no\n";
    let end = "open: 0 of 3 positions\nservice: 4 of 7 records\nrecords 0 to 4 may be overwritten\n";
    assert_eq!(said, format!("{new}{so_far}{end}"));
}

/// A log of the other version is refused, also where no record was seen yet, and the card is as it was.
#[test]
fn a_log_that_changes_its_version() {
    let place = Place::with_card(0);
    fs::copy(example("visit.klg"), place.path("visit.klg")).unwrap();
    let refuses = |log: &str, versions: &str| {
        let before = place.card();
        let text =
            format!("{log}: the log is of version {versions} (refused 22)\n{OTHER_VERSION}Nothing was changed.\n");
        for command in CARRY_ON {
            assert_eq!(place.fails(1, &[command, &["card", log]].concat()), text);
        }
        assert_eq!(place.card(), before);
    };
    place.log("empty.klg", "");
    place.ok(&["evening", "card", "empty.klg"]);
    let first = "1, and the card's first one was of version 2 or 3";
    refuses("day.klg", first);
    place.ok(&["evening", "card", "visit.klg"]);
    refuses("day.klg", first);
    // 12 comes before it
    fs::write(place.path("fourth.klg"), b"KLG\x00\x04\x00\x00\x00").unwrap();
    let fourth = "the log is of version 4, and this program knows 1, 2 and 3 (refused 12)";
    let text = format!("fourth.klg: {fourth}\nNothing was changed.\n");
    assert_eq!(place.fails(1, &["evening", "card", "fourth.klg"]), text);
    // a card of version 1 logs
    fs::remove_dir_all(place.path("card")).unwrap();
    place.ok(&["new", "card", RULE]);
    place.ok(&["evening", "card", "day.klg"]);
    let later = "2, and the card's first one was of version 1";
    refuses("visit.klg", later);
    refuses("empty.klg", later);
    fs::write(place.path("trimmed.klg"), b"KLG\x00\x03\x00\x00\x00\x00\x00\x00\x00\x00\x00\x00\x00").unwrap();
    refuses("trimmed.klg", "3, and the card's first one was of version 1");
}

/// Service records count where records do: an added one is 21, and its time must not fall.
#[test]
fn service_records_are_records() {
    let place = Place::with_card(0);
    place.log("day.klg", "10 e0\n12 service\n");
    place.ok(&["evening", "card", "day.klg"]);
    let mut falls = place.log("other.klg", "10 e0\n12 service\n12 service\n");
    falls[8 + 8 * 2 + 3] = 11;
    fs::write(place.path("other.klg"), &falls).unwrap();
    let falls = "record 2, second 11, comes after record 1, second 12 (refused 14)";
    let text = format!("other.klg: {falls}\n{OTHER_CLOCK}{} Nothing was changed.\n", divided(24));
    assert_eq!(place.fails(1, &["evening", "card", "other.klg"]), text);
    let shorter = place.log("other.klg", "10 e0\n");
    let fewer = "the log has 1 record, and the card has seen 2 (refused 13)";
    let text = format!("other.klg: {fewer}\n{OLDER_LOG} Nothing was changed.\n");
    assert_eq!((shorter.len(), place.fails(1, &["evening", "card", "other.klg"])), (16, text));
    place.ok(&["close", "card", "day.klg", "--final"]);
    place.log("other.klg", "10 e0\n12 service\n12 service\n");
    let more = "the log has 3 records, and the card was closed with 2 (refused 21)";
    let next = "`havdrims new NEW card/rule.krl --after card` makes the next card, with the same rule.";
    let text = format!("other.klg: {more}\n{next} Nothing was changed.\n");
    assert_eq!(place.fails(1, &["close", "card", "other.klg", "--final"]), text);
}

/// A service record that was seen and is now a position: its card could never be right again, so nothing is written. A card of an
/// earlier program cannot compare the records, but counts them.
#[test]
fn service_records_that_were_altered() {
    let place = Place::new();
    place.log("before.klg", "1 e0\n2 service\n");
    place.log("after.klg", "1 e0\n2 e1\n");
    place.ok(&["new", "card", "e0 until[0,2] e1"]);
    place.ok(&["evening", "card", "before.klg"]);
    let refuses = |altered: &str| {
        let before = place.card();
        for command in CARRY_ON {
            let said = place.fails(1, &[command, &["card", "after.klg"]].concat());
            assert_eq!(said, format!("after.klg: {altered}Nothing was changed.\n"));
            assert_eq!(place.card(), before);
        }
    };
    refuses(&format!("records 0 to 1 are not those that this card has seen\n{OTHER_LOG} "));
    place.make_old();
    refuses("service records that may not be overwritten yet were altered\n");
    // open as before, but with one position more than the card has counted
    place.log("after.klg", "1 e0\n2 e0\n");
    refuses("service records that may not be overwritten yet were altered\n");
    assert!(place.ok(&["close", "card", "before.klg", "--final"]).contains("\nposition 0: 0 yes, 1 no\n"));
}

/// What is a position, in the help of the commands that print numbers of positions.
#[test]
fn help_says_what_is_a_position() {
    let place = Place::new();
    let help = place.help("sheet");
    for said in
        ["numbered over the records that are no service records, from 0, or from N for a card", "begin with position N"]
    {
        assert!(help.contains(said), "{help}");
    }
    for name in ["evening", "summary", "to-log"] {
        assert!(place.help(name).contains("service record"), "{name}");
    }
}
