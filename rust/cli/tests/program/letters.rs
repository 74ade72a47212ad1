//! Names for letters: where they are typed, kept and shown.

use crate::{example, Place, RULE};
use cli::evenings::bound_to;
use cli::letters::Letters;
use std::fs;

const READS: &str =
    "whenever \"customer asks\": \"head warm\" at every record until \"print starts\" comes, 0 to 90 seconds later";

impl Place {
    /// With a card whose letters have the names of examples/day, and the logs of examples/day.
    pub fn with_names() -> Place {
        let place = Place::with_logs();
        fs::copy(example("letters.txt"), place.path("letters.txt")).unwrap();
        place.ok(&["new", "card", RULE, "--letters", "letters.txt"]);
        place
    }
}

#[test]
fn names_are_shown_wherever_a_person_reads() {
    let place = Place::with_logs();
    fs::copy(example("letters.txt"), place.path("letters.txt")).unwrap();
    let made = place.ok(&["new", "card", RULE, "--letters", "letters.txt"]);
    assert_eq!(made, format!("card: {RULE}\n    {READS}\nwords 294, reach 90 seconds\n"));
    assert_eq!(place.ok(&["formula", "card"]), format!("{RULE}\n  {READS}\nwords 294, reach 90 seconds\n"));
    assert_eq!(place.ok(&["formula", "card/rule.krl"]), format!("{RULE}\nwords 294, reach 90 seconds\n"));
    assert_eq!(place.ok(&["letters", "card"]), "0 head warm\n1 print starts\n2 customer asks\n");
    let why = place.ok(&["why", "card", "day.klg", "5", "--words"]);
    let until = "\"head warm\" until[0,90] \"print starts\" is no at record 5: record 6 does not have \"head warm\", \
                 and no record from 5 to 6 has \"print starts\"";
    let not = "not \"customer asks\" is no at record 5: record 5 has \"customer asks\"";
    assert_eq!(why, format!("record 5 is no: neither of these is yes\n  {not}\n  {until}\n"));
    assert_eq!(place.ok(&["why", "card", "day.klg", "5"]), place.ok(&["why", RULE, "day.klg", "5"]));

    let made = place.ok(&["new", "two", RULE, "not e1", "--letters", "letters.txt"]);
    let formulas = format!("  formula 0: {RULE}\n    {READS}\n  formula 1: not e1\n    no \"print starts\"\n");
    assert_eq!(made, format!("two: 2 formulas\n{formulas}words 334, reach 90 seconds\n"));
    place.ok(&["new", "prints", "e0 until[0,90] e1", "--letters", "letters.txt"]);
    place.ok(&["evening", "prints", "day.klg"]);
    let open = place.ok(&["open", "prints", "day.klg"]);
    let settled =
        "record 12, second 700: yes if \"print starts\" comes by second 790, no if \"head warm\" is missing before\n";
    assert!(open.contains(settled), "{open}");
    // a card without names is shown with its letters
    assert_eq!(place.ok(&["new", "bare", "not e1"]), "bare: not e1\nwords 48, reach 0 seconds\n");
    assert_eq!(place.ok(&["letters", "bare"]), "");
    assert_eq!(place.ok(&["formula", "bare"]), "not e1\n  no e1\nwords 48, reach 0 seconds\n");
}

/// A card can get its names later, and other ones; nothing else of it changes.
#[test]
fn names_that_come_later() {
    let place = Place::with_card(1);
    let before = place.card();
    fs::write(place.path("names.txt"), "2 Kundin fragt\n").unwrap();
    assert_eq!(place.ok(&["letters", "card", "names.txt"]), "card: 1 name\n");
    assert_eq!(place.ok(&["letters", "card"]), "2 Kundin fragt\n");
    fs::write(place.path("names.txt"), "2 asks\n3 \u{3c0}\n").unwrap();
    assert_eq!(place.ok(&["letters", "card", "names.txt"]), "card: 2 names\n");
    let mut after = place.card();
    assert!(after.remove("letters").is_some());
    assert_eq!(after, before);
    place.ok(&["evening", "card", "tuesday.klg"]);
    assert_eq!(place.ok(&["letters", "card"]), "2 asks\n3 \u{3c0}\n");
}

/// A card that takes the place of another has its names, unless it is given others.
#[test]
fn names_of_a_card_after_another() {
    let place = Place::with_names();
    place.ok(&["evening", "card", "day.klg"]);
    let made = place.ok(&["new", "next", "e0", "--after", "card"]);
    assert!(made.starts_with("next: e0\n    \"head warm\"\n"), "{made}");
    assert_eq!(place.ok(&["letters", "next"]), place.ok(&["letters", "card"]));
    fs::write(place.path("names.txt"), "0 warm\n").unwrap();
    place.ok(&["new", "other", "e0", "--after", "card", "--letters", "names.txt"]);
    assert_eq!(place.ok(&["letters", "other"]), "0 warm\n");
    // of a card whose point is damaged too
    fs::write(place.path("card/point"), b"half").unwrap();
    let made = place.ok(&["new", "later", "e0", "--after", "card"]);
    assert!(made.starts_with("later: e0\n    \"head warm\"\n"), "{made}");
    fs::write(place.path("card/letters"), "0 head cold\n").unwrap();
    let made = place.ok(&["new", "bare", "e0", "--after", "card"]);
    let lost = "the old card's names for letters are damaged, or cannot be read, and do not go over: \
                `havdrims letters CARD FILE` gives this card some\n";
    assert!(made.contains(&format!("begins at record 12\n{lost}")), "{made}");
    assert_eq!(place.ok(&["letters", "bare"]), "");
    assert!(!place.ok(&["new", "named", "e0", "--after", "card", "--letters", "names.txt"]).contains("go over"));
}

#[test]
fn names_that_are_wrong() {
    let place = Place::with_card(1);
    let before = place.card();
    let cases: [(&[u8], &str); 10] = [
        (b"0 a\nlamp\n", "line 2: `lamp` is no letter's number: a line has a number, 0 to 31, and a name"),
        (b"32 a\n", "line 1: `32` is no letter's number: a line has a number, 0 to 31, and a name"),
        (b"0 a\n0 b\n", "line 2: letter 0 has a name already"),
        (b"0 a\n1 a\n", "line 2: letter 0 has this name already"),
        (b"7\n", "line 1: letter 7 has no name here: a line has a number and a name"),
        (b"7 a\x1b[2J\n", "line 1: the name has a character that is not seen, or turns the text round: U+001B"),
        (b"7 \xe2\x80\xae\n", "line 1: the name has a character that is not seen, or turns the text round: U+202E"),
        (b"7 a\xc2\xa0b\n", "line 1: the name has a space that is no plain one, and may look like it: U+00A0"),
        (b"7 a  b\n", "line 1: the name has two spaces in a row, which may look like one"),
        (b"7 a\"b\n", "line 1: the name has a double quote: names are shown between them"),
    ];
    for (bytes, wrong) in cases {
        fs::write(place.path("names.txt"), bytes).unwrap();
        assert_eq!(place.fails(1, &["letters", "card", "names.txt"]), format!("names.txt, {wrong}\n"));
        assert_eq!(place.fails(1, &["new", "other", RULE, "--letters", "names.txt"]), format!("names.txt, {wrong}\n"));
        assert!(!place.path("other").exists());
    }
    fs::write(place.path("names.txt"), format!("7 {}\n", "x".repeat(81))).unwrap();
    let long = "names.txt, line 1: the name has 81 characters; at most 80 are shown well\n";
    assert_eq!(place.fails(1, &["letters", "card", "names.txt"]), long);
    fs::write(place.path("names.txt"), [b'0', b' ', 0xFF]).unwrap();
    assert_eq!(place.fails(1, &["letters", "card", "names.txt"]), "names.txt: this is no text in UTF-8\n");
    fs::write(place.path("names.txt"), b"0 a\n1 \0\n").unwrap();
    let said = place.fails(1, &["letters", "card", "names.txt"]);
    assert_eq!(said, "names.txt: this is no text: it has a zero byte\n");
    let said = place.fails(1, &["letters", "card", "card/rule.krl"]);
    assert_eq!(said, "card/rule.krl: this is a rule, and a text is wanted here\n");
    assert!(place.fails(1, &["letters", "card", "none.txt"]).starts_with("none.txt: "));
    assert_eq!(place.card(), before);
    fs::write(place.path("names.txt"), "0 a\n").unwrap();
    let none = "none: no card is here; `havdrims new` makes one\n";
    assert_eq!(place.fails(1, &["letters", "none", "names.txt"]), none);
}

/// A file without any name is rather what a command left that failed: names are not taken away by it, or left out.
#[test]
fn no_name_at_all() {
    let place = Place::with_names();
    place.ok(&["evening", "card", "day.klg"]);
    let before = place.card();
    let said = "there is no name in it: a line has a letter's number, 0 to 31, and a name\n";
    for text in ["", "\n \n", "# 0 head warm\n", "\u{feff}", "# all\r0 head warm\r"] {
        fs::write(place.path("names.txt"), text).unwrap();
        let kept = "Nothing was changed. To go without names, take the file `letters` in the card away.\n";
        assert_eq!(place.fails(1, &["letters", "card", "names.txt"]), format!("names.txt: {said}{kept}"), "{text:?}");
        let none = "No card was made. Without --letters it has no names.\n";
        let new = ["new", "other", RULE, "--letters", "names.txt"];
        assert_eq!(place.fails(1, &new), format!("names.txt: {said}{none}"), "{text:?}");
        let old = "No card was made. Without --letters OLD's names go over.\n";
        let after = [&new[..], &["--after", "card"]].concat();
        assert_eq!(place.fails(1, &after), format!("names.txt: {said}{old}"), "{text:?}");
        assert_eq!((place.card(), place.path("other").exists()), (before.clone(), false));
    }
    assert!(place.fails(1, &["letters", "card", "-"]).starts_with(&format!("standard input: {said}")));
    // what is said can be done
    fs::remove_file(place.path("card/letters")).unwrap();
    assert_eq!(place.ok(&["letters", "card"]), "");
    assert!(place.ok(&["check", "card"]).contains("\nall files fit together\n"));
    place.ok(&["evening", "card", "tuesday.klg"]);
    assert!(place.help("letters").contains("to go without names, take the file `letters` in the card away."));
}

/// Names that are damaged, or another card's, are not shown; verdicts do not depend on them, and they can be given anew.
#[test]
fn names_that_are_damaged() {
    let place = Place::with_names();
    place.ok(&["new", "other", RULE, "--letters", "letters.txt"]);
    let good = fs::read(place.path("card/letters")).unwrap();
    let damaged = [&good[..9], b"W", &good[10..]].concat();
    for bytes in [damaged, fs::read(place.path("other/letters")).unwrap()] {
        fs::write(place.path("card/letters"), bytes).unwrap();
        let fault = "card: the file `letters` is damaged, or not of this card: \
                     `havdrims letters CARD FILE` writes it anew, from a file of names\n";
        assert_eq!(place.fails(1, &["formula", "card"]), fault);
        assert_eq!(place.fails(1, &["letters", "card"]), fault);
        assert_eq!(place.fails(1, &["why", "card", "day.klg", "5"]), fault);
        assert_eq!(place.fails(1, &["open", "card", "day.klg"]), fault);
        assert!(place.fails(1, &["page", "card", "day.klg", "page.html"]).starts_with(fault.trim_end()));
        let (printed, said) = place.partly(&["check", "card"]);
        assert!(printed.ends_with("point: good\nletters: damaged, or not of this card\n"), "{printed}");
        assert_eq!(said, fault);
        place.ok(&["evening", "card", "day.klg"]);
        // all verdicts are there
        let so_far = "so far: 12 verdicts, 2 no, the latest at record 8\nopen: 2 of 14 records\n";
        assert_eq!(place.partly(&["summary", "card"]), (so_far.to_string(), fault.to_string()));
        let (printed, said) = place.partly(&["sheet", "card"]);
        assert_eq!((printed.lines().count(), said.as_str()), (12, fault));
        for command in ["summary", "sheet", "check"] {
            let (printed, said) = place.partly(&[command, "card", "--json"]);
            let named = format!("\"fault\": \"{}\"", fault.trim_start_matches("card: ").trim_end());
            assert!(printed.contains(&named) && said == fault, "{printed}");
        }
        place.ok(&["letters", "card", "letters.txt"]);
        assert_eq!(place.ok(&["summary", "card"]), so_far);
        let said = place.ok(&["check", "card"]);
        assert!(said.contains("point: good\nletters: 3 names\nall files fit together\n"), "{said}");
    }
    fs::write(place.path("card/letters.new"), b"half").unwrap();
    let said = place.ok(&["check", "card"]);
    assert!(said.contains("letters.new: left by a run that was cut; it does not count\n"), "{said}");
}

/// The file that docs/FORMATS.md shows.
#[test]
fn the_file_of_the_names() {
    let card = b"havdrims card 0123456789abcdef\nbegins at record 0, position 0\n";
    let rule = fs::read(example("rule.krl")).unwrap();
    let names = fs::read_to_string(example("letters.txt")).unwrap();
    let file = Letters::read(&names).unwrap().encode(bound_to(card, &rule));
    let shown = "0 head warm\n1 print starts\n2 customer asks\nchecksum bca16e188740df54\n";
    assert_eq!(String::from_utf8(file).unwrap(), shown);
    let formats = fs::read_to_string(example("../../docs/FORMATS.md")).unwrap();
    assert!(formats.contains(&shown.lines().map(|line| format!("    {line}\n")).collect::<String>()));
}
