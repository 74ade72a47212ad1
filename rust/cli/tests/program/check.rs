//! `check`, and how to go on from a card that is damaged or of another version of the library.

use crate::{contents, example, Place, CHECKED, RULE};
use havdrims::save::Saved;
use std::fs;

impl Place {
    /// Changes a file of the card.
    fn damage(&self, file: &str, change: impl FnOnce(&mut Vec<u8>)) {
        let path = self.path("card").join(file);
        let mut bytes = fs::read(&path).unwrap();
        change(&mut bytes);
        fs::write(path, bytes).unwrap();
    }
}

const GOOD: &str = "card.txt: good\nrule.krl: good\n";

#[test]
fn a_good_card() {
    let place = Place::with_card(2);
    let so_far = place.ok(&["summary", "card"]);
    let good = format!("{GOOD}sheet: 18 verdicts\nevenings: 3 rows\npoint: good\n");
    let before = place.card();
    assert_eq!(place.ok(&["check", "card"]), format!("{good}all files fit together\n{so_far}"));
    assert_eq!(place.card(), before);
    // an evening that brings nothing new has no row of its own
    place.ok(&["evening", "card", "tuesday.klg"]);
    assert_eq!(place.card(), before);
    fs::write(place.path("card/point.new"), b"half").unwrap();
    fs::write(place.path("card/note.txt"), b"mine").unwrap();
    let said = place.ok(&["check", "card"]);
    let left = "point.new: left by a run that was cut; it does not count\n";
    assert!(said.contains(left) && said.contains("note.txt: not of this card\n"), "{said}");
    assert_eq!(place.fails(1, &["check", "none"]), "none: no card is here; `havdrims new` makes one\n");
    let lock = fs::File::open(place.path("card/card.txt")).unwrap();
    lock.lock().unwrap();
    for command in ["check", "sheet", "summary"] {
        let in_use = "card: another command is at work on this card; try again when it has ended\n";
        assert_eq!(place.fails(1, &[command, "card"]), in_use);
    }
}

/// What is wrong with the rule is said of its file.
#[test]
fn a_rule_that_is_damaged() {
    let place = Place::with_card(1);
    place.damage("rule.krl", |bytes| bytes.truncate(60));
    let (printed, _) = place.partly(&["check", "card"]);
    assert!(
        printed.contains("rule.krl: the rule has 60 bytes, but 68 with 6 entries as it says (refused 4)\n"),
        "{printed}"
    );
}

/// The verdicts are printed, and a new card goes on where the old one had come to.
#[test]
fn a_point_that_is_damaged() {
    let place = Place::with_card(2);
    let (summary, sheet) = (place.ok(&["summary", "card"]), place.ok(&["sheet", "card", "--csv"]));
    place.damage("point", |bytes| bytes[200] ^= 1);
    let fault = "card: the file `point` is damaged: its checksum does not fit\n";
    let (printed, said) = place.partly(&["check", "card"]);
    let advice = "the first 18 verdicts are vouched for: `havdrims sheet` prints them\nwhat can be done:\n\
                  \x20 a copy of the card can be put back, all its files together\n\
                  \x20 a new card can go on at record 18: havdrims new NEW card/rule.krl --after card\n";
    let point = "point: the saved point is damaged: its checksum does not fit\n";
    assert_eq!(printed, format!("{GOOD}sheet: 18 verdicts\nevenings: 3 rows\n{point}{advice}"));
    assert_eq!(said, fault);
    assert_eq!(place.partly(&["summary", "card"]).0, summary);
    assert_eq!(place.partly(&["sheet", "card", "--csv"]).0, sheet);
    // a folder's name as a shell takes it
    fs::rename(place.path("card"), place.path("Anna's card")).unwrap();
    let (printed, _) = place.partly(&["check", "Anna's card"]);
    let quoted = r"havdrims new NEW 'Anna'\''s card/rule.krl' --after 'Anna'\''s card'";
    assert!(printed.ends_with(&format!("record 18: {quoted}\n")), "{printed}");
    fs::rename(place.path("Anna's card"), place.path("card")).unwrap();
    let said = place.ok(&["new", "next", "card/rule.krl", "--after", "card"]);
    assert!(said.ends_with("begins at record 18\n"), "{said}");
    assert!(place.ok(&["close", "next", "tuesday.klg", "--final"]).starts_with("record 18: 0 yes, 1 no\n"));
}

/// A card as another library left it: its program may carry on, or a new card does, with service records too.
#[test]
fn a_card_of_another_version() {
    let place = Place::new();
    fs::copy(example("visit.klg"), place.path("visit.klg")).unwrap();
    place.ok(&["new", "card", RULE]);
    place.ok(&["evening", "card", "visit.klg"]);
    let before = place.ok(&["summary", "card"]);
    let good = place.card();
    let other = |bytes: &mut Vec<u8>| {
        let mut saved = Saved::decode(bytes).unwrap();
        saved.words[0] += 1;
        *bytes = saved.encode();
    };
    let changes: [fn(&mut Vec<u8>); 2] = [other, |bytes| bytes[4] += 1];
    for change in changes {
        place.damage("point", change);
        let (printed, _) = place.partly(&["check", "card"]);
        let carry_on = "what can be done:\n  the program that wrote the point can carry on with this card\n";
        assert!(printed.contains(carry_on), "{printed}");
        assert_eq!(place.partly(&["summary", "card"]).0, before);
        let said = place.ok(&["new", "next", "card/rule.krl", "--after", "card"]);
        assert!(said.ends_with("begins at record 15, position 12\n"), "{said}");
        fs::remove_dir_all(place.path("next")).unwrap();
        fs::write(place.path("card/point"), &good["point"]).unwrap();
        // That the new card goes on from it is written down there; it may be taken away with that one.
        let said = place.fails(1, &["evening", "card", "visit.klg"]);
        assert!(said.starts_with("card: `next` goes on from this card at record 15: give the log to it."), "{said}");
        fs::remove_file(place.path("card/followed")).unwrap();
    }
    place.ok(&["evening", "card", "visit.klg"]);
}

/// A sheet that is damaged in what Tuesday gave: Monday's verdicts are vouched for. A new card still begins behind Tuesday's: what
/// Monday's evening wanted may have been overwritten since.
#[test]
fn a_sheet_that_is_damaged() {
    let place = Place::with_card(2);
    place.damage("sheet", |bytes| bytes[14] ^= 1);
    let (printed, said) = place.partly(&["sheet", "card", "--from", "10"]);
    assert_eq!(printed, "10 yes\n11 yes\n");
    assert!(said.contains("the first 12 verdicts"), "{said}");
    let (printed, _) = place.partly(&["check", "card"]);
    let damaged = "sheet: damaged: the 18 verdicts in it are not those that were given\n";
    assert!(printed.contains(damaged), "{printed}");
    assert!(printed.contains("the first 12 verdicts are vouched for"), "{printed}");
    assert!(printed.contains("a new card can go on at record 18: "), "{printed}");
    place.damage("point", |bytes| bytes.clear());
    assert!(place.partly(&["check", "card"]).0.contains(damaged));
    assert!(place.ok(&["new", "next", RULE, "--after", "card"]).ends_with("begins at record 18\n"));
}

/// What `check` says of the sheet in its line.
#[test]
fn the_line_of_the_sheet() {
    let said = |place: &Place| {
        let (_, printed, _) = place.run(&["check", "card"]);
        printed.lines().find_map(|line| line.strip_prefix("sheet: ").map(str::to_string)).unwrap()
    };
    let place = Place::with_card(2);
    assert_eq!(said(&place), "18 verdicts");
    place.damage("sheet", |bytes| bytes.extend([1, 0]));
    assert_eq!(said(&place), "18 verdicts; what a run that was cut wrote behind does not count");
    // without its point there is no telling
    place.damage("point", |bytes| bytes[200] ^= 1);
    assert_eq!(said(&place), "20 verdicts, and nothing vouches for those behind the first 18");
    place.damage("sheet", |bytes| bytes.truncate(17));
    assert_eq!(said(&place), "damaged: it has 17 verdicts, and 18 were given");
    place.damage("evenings", |bytes| bytes.clear());
    assert_eq!(said(&place), "17 verdicts, for which nothing vouches");
    fs::remove_file(place.path("card/sheet")).unwrap();
    assert_eq!(said(&place), "missing");
}

/// Without a point and without its row there is no telling what was overwritten since: no card goes on from there.
#[test]
fn rows_that_are_damaged_too() {
    let changes: [fn(&mut Vec<u8>); 3] = [|rows| rows[250] ^= 1, |rows| rows.truncate(176), |rows| rows.truncate(220)];
    for change in changes {
        let place = Place::with_card(2);
        place.damage("evenings", change);
        let (printed, _) = place.partly(&["check", "card"]);
        assert!(printed.contains("the first 18 verdicts") && printed.contains("can go on at record 18: "), "{printed}");
        place.damage("point", |bytes| bytes[200] ^= 1);
        let (printed, _) = place.partly(&["check", "card"]);
        assert!(printed.contains("the first 12 verdicts") && !printed.contains("can go on"), "{printed}");
        let before = contents(&place.0.join("card"));
        let text = format!("card: the file `point` is damaged: its checksum does not fit\n{CHECKED}");
        assert_eq!(place.fails(1, &["new", "next", RULE, "--after", "card"]), text);
        assert_eq!(contents(&place.0.join("card")), before);
    }
}

/// A card of an earlier program has its point alone.
#[test]
fn an_earlier_card_that_is_damaged() {
    let place = Place::with_card(1);
    place.make_old();
    let said = place.ok(&["check", "card"]);
    assert!(said.contains("evenings: missing\npoint: good\nall files fit together\n"), "{said}");
    place.damage("point", |bytes| bytes[200] ^= 1);
    let (printed, _) = place.partly(&["check", "card"]);
    let none =
        "no verdict is vouched for\nwhat can be done:\n  a copy of the card can be put back, all its files together\n";
    assert!(printed.ends_with(none), "{printed}");
    let text = format!("card: the file `point` is damaged: its checksum does not fit\n{CHECKED}");
    assert_eq!(place.fails(1, &["sheet", "card"]), text);
}

/// A file that is there and cannot be read is not said to be missing.
#[test]
fn files_that_cannot_be_read() {
    let place = Place::with_names();
    place.ok(&["evening", "card", "day.klg"]);
    for file in ["point", "letters"] {
        fs::remove_file(place.path("card").join(file)).unwrap();
        fs::create_dir(place.path("card").join(file)).unwrap();
    }
    let (printed, said) = place.partly(&["check", "card"]);
    assert!(printed.contains("point: cannot be read\nletters: cannot be read\n"), "{printed}");
    let again = "what can be done:\n  when its files can be read again, the card goes on as it is\n";
    assert!(printed.contains(again), "{printed}");
    assert_eq!(said, "card: cannot read the file `point`: Is a directory (os error 21)\n");
    assert!(place.ok(&["new", "next", RULE, "--after", "card"]).contains("cannot be read, and do not go over"));
}

/// What `check` says of a point that is whole and of no use.
#[test]
fn the_line_of_the_point() {
    let place = Place::with_card(1);
    let good = place.card();
    let said = |change: fn(&mut Saved), file: &str, bytes: &[u8]| {
        good.iter().for_each(|(name, bytes)| fs::write(place.path("card").join(name), bytes).unwrap());
        fs::write(place.path("card").join(file), bytes).unwrap();
        let mut saved = Saved::decode(&good["point"]).unwrap();
        change(&mut saved);
        fs::write(place.path("card/point"), saved.encode()).unwrap();
        let (_, printed, _) = place.run(&["check", "card"]);
        printed.lines().find_map(|line| line.strip_prefix("point: ").map(str::to_string)).unwrap()
    };
    let changed = |change| said(change, "rule.krl", &good["rule.krl"]);
    assert_eq!(changed(|_| {}), "good");
    assert_eq!(changed(|saved| saved.owner ^= 1), "whole, but not of the card in card.txt");
    assert_eq!(changed(|saved| saved.rule ^= 1), "whole, but not of the rule in rule.krl");
    assert_eq!(changed(|saved| saved.words[0] ^= 1), "whole, but of another library's format (refused 10)");
    assert_eq!(changed(|saved| saved.words[2] = 0), "whole, but not as this library writes it (refused 11)");
    assert_eq!(changed(|saved| saved.given = 4), "damaged: its numbers do not fit together");
    assert_eq!(changed(|saved| saved.services = 3), "damaged: its numbers do not fit together");
    // what stands beside it is damaged, and it may be good
    assert_eq!(said(|_| {}, "card.txt", b"half"), "good");
}

/// A `new` that was cut.
#[test]
fn a_card_that_is_not_made_yet() {
    let place = Place::with_card(0);
    fs::remove_file(place.path("card/point")).unwrap();
    let (printed, said) = place.partly(&["check", "card"]);
    assert_eq!(said, "card: making this card was cut short; make it again by `havdrims new` with the same words\n");
    assert!(printed.ends_with("point: missing\n"), "{printed}");
}
