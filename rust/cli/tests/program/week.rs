//! What the commands print in a week.

use crate::{ended, example, Place, RULE};
use evaluator::random::{self, LogShape, Random};
use evaluator::{log, rule};
use std::ffi::OsStr;
use std::fs;
use std::os::unix::ffi::OsStrExt;

#[test]
fn the_texts_of_the_examples_are_their_logs() {
    let place = Place::new();
    for name in ["day", "tuesday", "visit"] {
        let text = example(&format!("{name}.txt"));
        place.ok(&["to-log", text.to_str().unwrap(), "made.klg", "--force"]);
        let log = fs::read(example(&format!("{name}.klg"))).unwrap();
        assert_eq!(fs::read(place.path("made.klg")).unwrap(), log, "{name}");
    }
}

#[test]
fn evenings_in_plain_words() {
    let place = Place::with_card(0);
    let none = "so far: 0 verdicts, 0 no\nopen: 0 of 0 records\n";
    assert_eq!(place.ok(&["summary", "card"]), none);
    assert_eq!(place.ok(&["sheet", "card"]), "");
    fs::write(place.path("empty.klg"), b"KLG\x00\x01\x00\x00\x00").unwrap();
    let said = place.ok(&["evening", "card", "empty.klg"]);
    assert_eq!(said, format!("no new verdict: the log has no record yet\n{none}no record may be overwritten yet\n"));
    place.ok(&["evening", "card", "day.klg"]);
    let again = place.ok(&["evening", "card", "day.klg"]);
    let so_far = "so far: 12 verdicts, 2 no, the latest at record 8\nopen: 2 of 14 records\n";
    let older = "no new record since the last evening (14 records): is it an older copy of the log?";
    assert_eq!(again, format!("{older}\n{so_far}records 0 to 11 may be overwritten\n"));
    assert_eq!(place.ok(&["summary", "card"]), so_far);
    assert_eq!(place.ok(&["sheet", "card", "--from", "7"]), "7 yes\n8 no\n9 yes\n10 yes\n11 yes\n");
    assert_eq!(place.ok(&["sheet", "--from", "10", "--csv", "card"]), "position,verdict\n10,yes\n11,yes\n");
    let open = "card: records from 12 on have no verdict yet\n".to_string();
    assert_eq!(place.run(&["sheet", "card", "--from", "12"]), (0, String::new(), open));
    assert_eq!(fs::read(place.path("card/sheet")).unwrap(), [1, 1, 1, 1, 1, 0, 1, 1, 0, 1, 1, 1]);
}

/// An evening with more verdicts than one call of the library may give here.
#[test]
fn a_long_evening() {
    let place = Place::new();
    let shape = LogShape { records: 200_000, letters: 1, hold: 1, step: 1, start: 0 };
    let records = random::log(&mut Random::new(16), shape);
    fs::write(place.path("long.klg"), log::encode(&records)).unwrap();
    place.ok(&["new", "card", "e0"]);
    let sheet: Vec<u8> = records.iter().map(|record| record.letters as u8).collect();
    let yes = sheet.iter().filter(|&&verdict| verdict == 1).count();
    let said = place.ok(&["evening", "card", "long.klg"]);
    assert!(said.starts_with(&format!("records 0 to 199999: {yes} yes, {} no\n", 200_000 - yes)), "{said}");
    assert_eq!(fs::read(place.path("card/sheet")).unwrap(), sheet);
}

/// A rule that looks back two records keeps two more of them.
#[test]
fn records_kept_for_previous() {
    let place = Place::with_card(0);
    place.ok(&["new", "back", "prev[0,9] prev[0,9] e0"]);
    let said = place.ok(&["evening", "back", "day.klg"]);
    assert!(said.ends_with("open: 0 of 14 records\nrecords 0 to 11 may be overwritten\n"), "{said}");
    fs::write(place.path("three.txt"), "1\n1\n1\n").unwrap();
    place.ok(&["to-log", "three.txt", "three.klg"]);
    place.ok(&["new", "three", "prev[0,9] prev[0,9] e0"]);
    let said = place.ok(&["evening", "three", "three.klg"]);
    assert!(said.ends_with("open: 0 of 3 records\nrecord 0 may be overwritten\n"), "{said}");
}

#[test]
fn a_rule_from_a_file_and_an_empty_one() {
    let place = Place::with_card(0);
    fs::copy(example("rule.krl"), place.path("rule.krl")).unwrap();
    let said = place.ok(&["new", "other", "rule.krl"]);
    assert_eq!(said, format!("other: {RULE}\nwords 294, reach 90 seconds\n"));
    assert_eq!(fs::read(place.path("other/rule.krl")).unwrap(), fs::read(example("rule.krl")).unwrap());
    fs::write(place.path("empty.krl"), b"KRL\x00\x01\x00\x00\x00").unwrap();
    place.ok(&["new", "empty", "empty.krl"]);
    let said = place.ok(&["evening", "empty", "day.klg"]);
    assert!(said.starts_with("records 0 to 13: 14 yes, 0 no\nso far: 14 verdicts, 0 no\n"), "{said}");
}

/// One word per formula on each line, and counts for each formula.
#[test]
fn several_formulas_on_one_sheet() {
    let place = Place::with_card(2);
    let rules = ["not e1", RULE, "e0 since[0,inf] e1"];
    let said = place.ok(&["new", "three", rules[0], rules[1], rules[2]]);
    let formulas = |said: [&str; 3]| {
        let lines = said.iter().enumerate().map(|(k, said)| format!("  formula {k}: {said}\n"));
        lines.collect::<String>()
    };
    assert_eq!(said, format!("three: 3 formulas\n{}words 383, reach 90 seconds\n", formulas(rules)));
    let none = format!("so far: 0 verdicts\n{}open: 0 of 0 records\n", formulas(["0 no"; 3]));
    assert_eq!(place.ok(&["summary", "three"]), none);
    assert_eq!(place.ok(&["sheet", "three", "--csv"]), "position,formula 0,formula 1,formula 2\n");
    let said = place.ok(&["evening", "three", "day.klg"]);
    let new = formulas(["9 yes, 3 no", "10 yes, 2 no", "7 yes, 5 no"]);
    let counts = [(3, 11), (2, 8), (5, 6)].map(|(no, record)| format!("{no} no, the latest at record {record}"));
    let counts = formulas(counts.each_ref().map(String::as_str));
    let so_far = format!("so far: 12 verdicts\n{counts}open: 2 of 14 records\n");
    assert_eq!(said, format!("records 0 to 11\n{new}{so_far}records 0 to 11 may be overwritten\n"));
    assert_eq!(place.ok(&["summary", "three"]), so_far);
    let said = place.ok(&["evening", "three", "day.klg"]);
    let older = "no new record since the last evening (14 records): is it an older copy of the log?";
    assert_eq!(said, format!("{older}\n{so_far}records 0 to 11 may be overwritten\n"));
    assert_eq!(place.ok(&["sheet", "three", "--from", "10"]), "10 yes yes yes\n11 no yes yes\n");
    let csv = "position,formula 0,formula 1,formula 2\n11,no,yes,yes\n";
    assert_eq!(place.ok(&["sheet", "three", "--csv", "--from", "11"]), csv);
    place.ok(&["evening", "three", "tuesday.klg"]);
    // the words of formula 1 are those of the card that has it alone
    let column = |sheet: String, at: usize| -> Vec<String> {
        sheet.lines().map(|line| line.split(' ').nth(at).unwrap().to_string()).collect()
    };
    assert_eq!(column(place.ok(&["sheet", "three"]), 2), column(place.ok(&["sheet", "card"]), 1));
    let said = place.ok(&["close", "three", "tuesday.klg", "--final"]);
    let last = formulas(["1 yes, 0 no", "0 yes, 1 no", "1 yes, 0 no"]);
    assert!(said.starts_with(&format!("record 18\n{last}so far: 19 verdicts\n")), "{said}");
    assert!(place.ok(&["summary", "three"]).ends_with("open: 0 of 19 records, and the card is closed\n"));
}

/// A rule of version 2 with one formula is shown as one of version 1 is; rule files and texts stand beside each other.
#[test]
fn one_formula_of_version_2_and_rule_files_together() {
    let place = Place::with_card(1);
    let bytes = rule::parse(&fs::read(example("rule.krl")).unwrap()).unwrap();
    fs::write(place.path("one.krl"), rule::encode_as(2, &bytes.entries)).unwrap();
    let said = place.ok(&["new", "one", "one.krl"]);
    assert_eq!(said, format!("one: {RULE}\nwords 302, reach 90 seconds\n"));
    let said = place.ok(&["evening", "one", "day.klg"]);
    assert!(said.starts_with("records 0 to 11: 10 yes, 2 no\nso far: 12 verdicts, 2 no, the latest at record 8\n"));
    for words in [&["sheet"][..], &["sheet", "--csv"], &["summary"]] {
        assert_eq!(place.ok(&[words, &["one"]].concat()), place.ok(&[words, &["card"]].concat()), "{words:?}");
    }
    place.ok(&["new", "more", "one.krl", "e3", "one.krl"]);
    let entries = [bytes.entries.as_slice(), &[rule::Entry::letter(3)], &bytes.entries].concat();
    assert_eq!(fs::read(place.path("more/rule.krl")).unwrap(), rule::encode_as(2, &entries));
    fs::write(place.path("empty.krl"), rule::encode(&[])).unwrap();
    let said = place.fails(1, &["new", "none", "e0", "empty.krl"]);
    assert_eq!(said, "empty.krl: a rule without entries cannot stand beside others\n");
    fs::write(place.path("bad.krl"), b"KRL").unwrap();
    let said = place.fails(1, &["new", "none", "e0", "bad.krl"]);
    assert_eq!(said, "bad.krl: the rule ends after 3 bytes, inside its first 8 (refused 1)\n");
    assert!(!place.path("none").exists());
}

/// A path that is not UTF-8 is wrong use, and no other path is taken in its place.
#[test]
fn a_path_that_is_not_utf_8() {
    let place = Place::new();
    let output = place.program().arg("new").arg(OsStr::from_bytes(b"card\xff")).arg(RULE).output();
    let (status, out, err) = ended(output.unwrap());
    assert_eq!((status, out.as_str(), err.as_str()), (2, "", "\"card\\xFF\" is not UTF-8\n"));
    assert_eq!(fs::read_dir(&place.0).unwrap().count(), 0);
}

/// One of something is told as one.
#[test]
fn one_record_and_one_verdict() {
    let place = Place::new();
    place.ok(&["new", "card", "e0 until[0,9] e1"]);
    let log = |name: &str, text: &str| {
        fs::write(place.path("text.txt"), text).unwrap();
        place.ok(&["to-log", "text.txt", name, "--force"])
    };
    assert_eq!(log("one.klg", "1 e0\n"), "one.klg: 1 record\n");
    let said = place.ok(&["evening", "card", "one.klg"]);
    let new = "no new verdict: 1 record is new, and not settled yet";
    assert_eq!(
        said,
        format!("{new}\nso far: 0 verdicts, 0 no\nopen: 1 of 1 record\nno record may be overwritten yet\n")
    );
    let said = place.ok(&["evening", "card", "one.klg"]);
    assert!(said.starts_with("no new record since the last evening (1 record): is it an older copy of the log?\n"));
    let json = place.ok(&["evening", "card", "one.klg", "--json"]);
    assert!(json.contains("\n  \"new_records\": 0,\n"), "{json}");
    let said = place.ok(&["close", "card", "one.klg", "--final"]);
    assert!(said
        .starts_with("record 0: 0 yes, 1 no\nso far: 1 verdict, 1 no, the latest at record 0\nopen: 0 of 1 record,"));
    let sheet = fs::read(place.path("card/sheet")).unwrap();
    fs::write(place.path("card/sheet"), []).unwrap();
    let (_, said) = place.partly(&["summary", "card"]);
    assert!(said.contains("the file `sheet` has 0 verdicts, but 1 was given"), "{said}");
    fs::write(place.path("card/sheet"), sheet).unwrap();
    log("service.klg", "version 2\n1 service\n");
    place.ok(&["new", "visited", "e0"]);
    let said = place.ok(&["evening", "visited", "service.klg"]);
    assert!(said.contains("\nopen: 0 of 0 positions\nservice: 1 of 1 record\n"), "{said}");
    assert_eq!(place.ok(&["worst", "0", "0", "1", "worst.klg"]), "worst.klg: 1 record, 1 second waiting\n");
}
