//! A new rule in the middle of a week: a card that begins where another has come to, or at a given record.

use crate::{contents, ended, example, Place, ALREADY, CARRY_ON, OLDER_LOG, OTHER_LOG, RULE};
use cli::evenings::bound_to;
use cli::followed::{Followed, Follower};
use evaluator::log::{self, Record};
use std::fs;

const STRICT: &str = "not e2 or e0 until[0,60] e1";

/// The lines of a sheet from a position on.
fn from(sheet: &str, position: usize) -> String {
    sheet.lines().skip(position).map(|line| format!("{line}\n")).collect()
}

/// The records before are overwritten: the new card reads none of them, and its verdicts are those of the whole log.
#[test]
fn a_card_after_another() {
    let place = Place::with_card(1);
    place.ok(&["new", "whole", STRICT]);
    place.ok(&["evening", "whole", "tuesday.klg"]);
    place.ok(&["close", "whole", "tuesday.klg", "--final"]);
    let mut log = fs::read(place.path("tuesday.klg")).unwrap();
    log[8..8 + 8 * 12].fill(0xff);
    fs::write(place.path("tuesday.klg"), &log).unwrap();

    let before = place.card();
    let said = place.ok(&["new", "strict", STRICT, "--after", "card"]);
    assert_eq!(said, format!("strict: {STRICT}\nwords 234, reach 60 seconds\nbegins at record 12\n"));
    let none = "so far: 0 verdicts, 0 no\nopen: 0 of 0 records from record 12 on\n";
    assert_eq!(place.ok(&["summary", "strict"]), none);
    let said = place.ok(&["evening", "strict", "day.klg"]);
    let so_far = "so far: 0 verdicts, 0 no\nopen: 2 of 2 records from record 12 on\n";
    let new = "no new verdict: 2 records are new, and none is settled yet";
    assert_eq!(said, format!("{new}\n{so_far}records 0 to 11 may be overwritten\n"));
    let again = place.ok(&["evening", "strict", "day.klg"]);
    assert!(again.starts_with("no new record since the last evening (14 records): is it"), "{again}");
    let said = place.ok(&["evening", "strict", "tuesday.klg"]);
    let so_far = "so far: 6 verdicts, 1 no, the latest at record 15\nopen: 1 of 7 records from record 12 on\n";
    assert_eq!(said, format!("records 12 to 17: 5 yes, 1 no\n{so_far}records 0 to 17 may be overwritten\n"));
    assert_eq!(place.ok(&["summary", "strict"]), so_far);
    let said = place.ok(&["open", "strict", "tuesday.klg"]);
    assert!(said.starts_with("open: 1 of 7 records from record 12 on\nrecord 18, second 1100\n"), "{said}");
    // another after this one: it counts from the log's beginning all the same
    let said = place.ok(&["new", "again", "--after", "strict", STRICT]);
    assert!(said.ends_with("begins at record 18\n"), "{said}");
    let said = place.ok(&["close", "again", "tuesday.klg", "--final"]);
    assert!(said.starts_with("record 18: 0 yes, 1 no\n"), "{said}");

    place.ok(&["close", "strict", "tuesday.klg", "--final", "--both"]);
    let whole = place.ok(&["sheet", "whole"]);
    assert_eq!(place.ok(&["sheet", "strict"]), from(&whole, 12));
    assert_eq!(place.ok(&["sheet", "strict", "--from", "15"]), from(&whole, 15));
    let not_there = "strict: records 3 to 11 are before the card's first one, 12\n".to_string();
    assert_eq!(place.run(&["sheet", "strict", "--from", "3"]), (0, from(&whole, 12), not_there));
    // all that is new in the old card is that another goes on from it
    let mut after = place.card();
    assert!(after.remove("followed").is_some());
    assert_eq!(after, before);
    // the log as the card knows it
    log[8 + 8 * 18 + 7] ^= 1;
    fs::write(place.path("other.klg"), &log).unwrap();
    place.ok(&["new", "third", STRICT, "--after", "card"]);
    place.ok(&["evening", "third", "tuesday.klg"]);
    let said = place.fails(1, &["evening", "third", "other.klg"]);
    assert!(said.starts_with("other.klg: record 18 is not the one that this card has seen\n"), "{said}");
}

/// The new card knows the records that the old one left open: it takes no other kiosk's log, and none if the old card was put back from
/// a copy and its records were overwritten since.
#[test]
fn what_the_old_card_has_seen() {
    let place = Place::with_card(1);
    place.ok(&["new", "strict", STRICT, "--after", "card"]);
    let before = contents(&place.path("strict"));
    let refuses = |log: &[u8], text: &str| {
        fs::write(place.path("other.klg"), log).unwrap();
        for command in CARRY_ON {
            assert_eq!(place.fails(1, &[command, &["strict", "other.klg"]].concat()), format!("other.klg: {text}"));
        }
        assert_eq!(contents(&place.path("strict")), before);
    };
    let whole = fs::read(place.path("tuesday.klg")).unwrap();
    let hint = format!("{OTHER_LOG} Nothing was changed.\n");
    let others = format!("records 12 to 13 are not those that this card has seen\n{hint}");
    let mut other = whole.clone();
    other[8 + 8 * 13 + 7] ^= 1;
    refuses(&other, &others);
    other[8..8 + 8 * 18].fill(0);
    refuses(&other, &others);
    let short = "the log has 13 records, and the card before this one has seen 14\n";
    refuses(&whole[..8 + 8 * 13], &format!("{short}{OLDER_LOG} Nothing was changed.\n"));
    place.ok(&["evening", "strict", "tuesday.klg"]);
    // from a damaged card too
    let point = place.path("card/point");
    fs::write(point, b"").unwrap();
    place.ok(&["new", "next", STRICT, "--after", "card"]);
    fs::write(place.path("other.klg"), &other).unwrap();
    assert_eq!(place.fails(1, &["evening", "next", "other.klg"]), format!("other.klg: {others}"));
}

/// The old card left nothing open: the last record that it has seen tells the log, until the new card has seen one itself.
#[test]
fn after_a_card_that_left_nothing_open() {
    let place = Place::new();
    place.ok(&["new", "card", "e0"]);
    place.log("log.klg", "10 e0\n11 e1\n12 e0\n");
    place.ok(&["evening", "card", "log.klg"]);
    assert!(place.ok(&["new", "next", "e1", "--after", "card"]).ends_with("begins at record 3\n"));
    // a card after one that has seen nothing, and one after a card whose point is damaged
    place.ok(&["new", "third", "e1", "--after", "next"]);
    fs::remove_file(place.path("next/followed")).unwrap();
    fs::write(place.path("card/point"), b"").unwrap();
    place.ok(&["new", "fourth", "e1", "--after", "card"]);
    let hint = format!("{OTHER_LOG} Nothing was changed.\n");
    let refused = |card: &str| {
        let text = format!("other.klg: record 2 is not the one that this card has seen\n{hint}");
        for command in CARRY_ON {
            assert_eq!(place.fails(1, &[command, &[card, "other.klg", "--both"]].concat()), text);
        }
        assert_eq!(place.fails(1, &["open", card, "other.klg"]), text);
        assert_eq!(place.fails(1, &["trim", card, "other.klg", "out.klg", "--both"]), text);
    };
    place.log("other.klg", "10 e0\n11 e1\n12 e1\n13 e1\n");
    ["next", "third", "fourth"].iter().for_each(|card| refused(card));
    // an evening that brings nothing new, and a trimming, keep that record
    let said = place.ok(&["evening", "next", "log.klg"]);
    assert!(said.ends_with("open: 0 of 0 records from record 3 on\nrecords 0 to 1 may be overwritten\n"), "{said}");
    assert_eq!(place.ok(&["trim", "next", "log.klg", "left.klg"]), "left.klg: records 0 to 1 dropped, 1 left\n");
    place.ok(&["evening", "next", "left.klg"]);
    refused("next");
    // closed with nothing seen
    place.ok(&["close", "third", "left.klg", "--final"]);
    place.log("other.klg", "10 e0\n11 e1\n12 e1\n");
    let said = place.fails(1, &["trim", "third", "other.klg", "out.klg"]);
    assert!(said.starts_with("other.klg: record 2 is not the one that this card has seen\n"), "{said}");
    // once it has seen a record, that one counts
    place.log("log.klg", "10 e0\n11 e1\n12 e0\n13 e1\n");
    assert!(place.ok(&["evening", "next", "log.klg"]).starts_with("record 3: 1 yes, 0 no\n"));
    place.log("log.klg", "0 e0\n0 e1\n0 e1\n13 e1\n");
    place.ok(&["evening", "next", "log.klg"]);
    // a log that has dropped that record is known by its count alone
    let dropped = log::encode_trimmed(3, &[Record { time: 13, letters: 2 }]);
    fs::write(place.path("left.klg"), dropped).unwrap();
    place.ok(&["evening", "fourth", "left.klg"]);
}

/// Records and positions differ there, and both go on; the log may be trimmed, before and after.
#[test]
fn after_service_visits() {
    let place = Place::new();
    fs::copy(example("visit.klg"), place.path("visit.klg")).unwrap();
    place.ok(&["new", "old", RULE]);
    place.ok(&["evening", "old", "visit.klg"]);
    let said = place.ok(&["new", "card", "e0 until[0,60] e1", "--after", "old"]);
    assert!(said.ends_with("begins at record 15, position 12\n"), "{said}");
    let said = place.ok(&["open", "card", "visit.klg"]);
    assert!(
        said.starts_with("open: 2 of 2 positions from record 15 on\nposition 12, record 15, second 700: "),
        "{said}"
    );
    let said = place.ok(&["trim", "old", "visit.klg", "left.klg", "--both"]);
    assert_eq!(said, "left.klg: records 0 to 14 dropped, 2 left\n`card` may still want the log as it was\n");
    for log in ["visit.klg", "left.klg"] {
        let said = place.ok(&["evening", "card", log]);
        assert!(said.ends_with("records 0 to 14 may be overwritten\n"), "{said}");
        let trimmed = place.ok(&["trim", "card", log, "out.klg", "--force"]);
        assert_eq!(trimmed, "out.klg: records 0 to 14 dropped, 2 left\n");
        assert_eq!(fs::read(place.path("out.klg")).unwrap(), fs::read(place.path("left.klg")).unwrap());
    }
    let said = place.ok(&["close", "card", "out.klg", "--final"]);
    assert!(said.starts_with("positions 12 to 13: 0 yes, 2 no\n"), "{said}");
    assert_eq!(place.ok(&["sheet", "card", "--csv"]), "position,verdict\n12,no\n13,no\n");
    assert_eq!(place.ok(&["trim", "card", "out.klg", "none.klg"]), "none.klg: records 0 to 15 dropped, 1 left\n");
    // a trimmed log that lacks the first record
    place.ok(&["new", "early", "e0", "--from", "14"]);
    let said = place.fails(1, &["evening", "early", "left.klg"]);
    let text = "left.klg: records 0 to 14 were dropped from the log, and the card still wants record 14 (refused 24)\n";
    assert!(said.starts_with(text), "{said}");
}

/// What stands before is not there for the rule: previous finds nothing.
#[test]
fn a_card_from_a_record() {
    let place = Place::with_card(0);
    let said = place.ok(&["new", "back", "prev[0,inf] e0", "--from", "4"]);
    let looks = "`prev` looks back 1 record, and the first verdict may be another than on the whole log\n";
    let begins = format!("begins at record 4\nit reads nothing before that: {looks}");
    assert!(said.ends_with(&begins), "{said}");
    place.ok(&["evening", "back", "day.klg"]);
    assert!(place.ok(&["sheet", "back"]).starts_with("4 no\n5 yes\n"));
    let said = place.ok(&["new", "none", "e0", "--from", "0"]);
    assert!(said.ends_with("reach 0 seconds\n"), "{said}");
    place.ok(&["new", "late", "e0", "--from", "15"]);
    let text = "day.klg: the log has 14 records, and this card begins at record 15\n";
    let text = format!("{text}{OLDER_LOG} Nothing was changed.\n");
    for words in
        [&["evening", "late", "day.klg"][..], &["close", "late", "day.klg", "--final"], &["open", "late", "day.klg"]]
    {
        assert_eq!(place.fails(1, words), text);
    }
    place.ok(&["new", "end", "e0", "--from", "14"]);
    assert!(place.ok(&["evening", "end", "day.klg"]).ends_with("records 0 to 12 may be overwritten\n"));
    assert!(place.ok(&["evening", "end", "tuesday.klg"]).starts_with("records 14 to 18: "));
}

/// A card whose making was cut is made again where it was to begin, or not at all.
#[test]
fn made_again_with_the_same_words() {
    let place = Place::with_card(1);
    let after = ["new", "next", STRICT, "--after", "card"];
    let made = place.ok(&after);
    fs::remove_file(place.path("next/point")).unwrap();
    let before = contents(&place.path("next"));
    let text = "next: making this card was cut short, and it was to begin at record 12; \
                make it again with the same words, or take this folder away\n";
    for words in [&["new", "next", STRICT][..], &["new", "next", STRICT, "--from", "11"]] {
        assert_eq!(place.fails(1, words), text);
    }
    assert_eq!(contents(&place.path("next")), before);
    assert_eq!(place.ok(&after), made);
    // cut while that was written: nothing is known of it
    fs::remove_file(place.path("next/point")).unwrap();
    for bytes in [0, 20, 31, 40] {
        fs::write(place.path("next/card.txt"), &before["card.txt"][..bytes]).unwrap();
        place.ok(&["new", "next", STRICT, "--from", "3"]);
        fs::remove_file(place.path("next/point")).unwrap();
    }
}

#[test]
fn where_no_card_can_begin() {
    let place = Place::with_card(1);
    let expected = "expected: havdrims new CARD RULE.. [--after OLD | --from N] [--letters FILE]\n";
    for (words, text) in [
        (&["new", "more", "e0", "--after"][..], "--after wants OLD behind it"),
        (&["new", "more", "e0", "--from"], "--from wants N behind it"),
        (&["new", "more", "--from", "1"], "RULE is missing"),
        (&["new", "more", "e0", "--from", "1", "--after", "card"], "--after and --from exclude each other"),
        (&["new", "more", "e0", "--from", "1", "--from", "1"], "--from is there twice"),
        (&["new", "more", "e0", "--form", "1"], "`--form` is no option of `havdrims new`; did you mean --from?"),
        (&["new", "more", "e0", "--from", "x"], "--from: `x` is no number, or too large a one"),
    ] {
        assert_eq!(place.fails(2, words), format!("{text}\n{expected}"), "{words:?}");
    }
    for number in ["1000000", "1000001"] {
        let said = place.fails(2, &["new", "more", "e0", "--from", number]);
        assert_eq!(said, format!("a log has at most 1000000 records, 0 to 999999\n{expected}"));
    }
    let said = place.fails(2, &["new", "-", "e0"]);
    assert_eq!(said, format!("`-` is standard input; a folder of this name is ./-\n{expected}"));
    // in a card, as it is typed from there too
    let before = place.card();
    let inside = "this would be a folder in a card, which holds its own files alone\n";
    assert_eq!(place.fails(1, &["new", "card/more", "e0"]), format!("card/more: {inside}"));
    let said = place.program().args(["new", "more", "e0"]).current_dir(place.path("card")).output().unwrap();
    assert_eq!(ended(said), (1, String::new(), format!("more: {inside}")));
    assert_eq!(place.card(), before);
    let said = place.fails(1, &["new", "more", "e0", "--after", "none"]);
    assert_eq!(said, "none: no card is here; `havdrims new` makes one\n");
    assert_eq!(place.fails(1, &["new", "card", "e0", "--after", "card"]), ALREADY);
    assert!(!place.path("card/followed").exists());
    // cards of an earlier program: without service records the number is known
    place.make_old();
    assert!(place.ok(&["new", "next", "e0", "--after", "card"]).ends_with("begins at record 12\n"));
    fs::remove_dir_all(place.path("card")).unwrap();
    place.ok(&["new", "card", RULE]);
    fs::copy(example("visit.klg"), place.path("visit.klg")).unwrap();
    place.ok(&["evening", "card", "visit.klg"]);
    place.make_old();
    let text = "card: this card was made by an earlier program: run `havdrims evening` with it once more\n";
    assert_eq!(place.fails(1, &["new", "more", "e0", "--after", "card"]), text);
    assert!(!place.path("more").exists());
    assert!(!place.path("card/followed").exists());
    place.ok(&["evening", "card", "visit.klg"]);
    let said = place.ok(&["new", "more", "e0", "--after", "card"]);
    assert!(said.ends_with("begins at record 15, position 12\n"), "{said}");
}

/// Without the card's name the first formula would become it, and the others be judged alone.
#[test]
fn a_card_whose_name_is_forgotten() {
    let place = Place::new();
    let expected = "expected: havdrims new CARD RULE.. [--after OLD | --from N] [--letters FILE]\n";
    let before = "not e1 or prev[0,inf] e0";
    for (words, says) in [
        (&[RULE, before][..], format!("`{RULE}` is a formula; a folder of this name is './{RULE}'")),
        (&["e0", "e1"], "`e0` is a formula; a folder of this name is ./e0".to_string()),
        (&["(e0)", "rule.krl"], "`(e0)` is a formula; a folder of this name is './(e0)'".to_string()),
        (
            &["nothere.krl", "e0"],
            "`nothere.krl` is the name of a rule file; a folder of this name is ./nothere.krl".to_string(),
        ),
        (&["hall.klg", "e0"], "`hall.klg` is the name of a log; a folder of this name is ./hall.klg".to_string()),
        (
            &["logs/hall.klg", "e0", "--from", "3"],
            "`logs/hall.klg` is the name of a log; a folder of this name is logs/./hall.klg".to_string(),
        ),
        (&["not", "e2", "or", "e0"], "put the formula between quotes: 'not e2 or e0'".to_string()),
    ] {
        let said = place.fails(2, &[&["new"], words].concat());
        assert_eq!(said, format!("CARD seems to be missing: {says}\n{expected}"), "{words:?}");
    }
    for rule in [RULE, "e0", "rule.krl"] {
        assert_eq!(place.fails(2, &["new", rule]), format!("CARD is missing\n{expected}"), "{rule}");
    }
    assert_eq!(fs::read_dir(&place.0).unwrap().count(), 0);
    // a folder that is meant, and a name that is nearly a formula
    fs::create_dir(place.path("logs")).unwrap();
    for card in ["./e0", "./hall.klg", "./rule.krl", "logs/./hall.klg", "logs/e0", "./not e1", "e32", "not", "krl"] {
        assert!(place.ok(&["new", card, "e0", "e1"]).starts_with(&format!("{card}: 2 formulas\n")));
        place.ok(&["check", card]);
    }
    assert!(place.help("new").contains("such a folder is typed as ./e0."));
}

/// A since looks back over the record at which a card begins, and finds nothing there: it is said before a verdict is given.
#[test]
fn a_since_that_looks_back_over_the_beginning() {
    let place = Place::new();
    let (rule, monday) = ("not e1 or e3 since[0,90] e2", "0 e0 e3\n100 e0 e2 e3\n140 e0 e1 e3\n");
    place.log("log.klg", monday);
    let made = format!("{rule}\nwords 203, reach 0 seconds\n");
    assert_eq!(place.ok(&["new", "whole", rule]), format!("whole: {made}"));
    place.ok(&["evening", "whole", "log.klg"]);
    let looks = "it reads nothing before that: `since` looks back 90 seconds, \
                 and verdicts up to 90 seconds after record 3 may be others than on the whole log\n";
    let said = place.ok(&["new", "next", "whole/rule.krl", "--after", "whole"]);
    assert_eq!(said, format!("next: {made}begins at record 3\n{looks}"));
    assert_eq!(place.ok(&["new", "from", rule, "--from", "3"]), format!("from: {made}begins at record 3\n{looks}"));
    // an earlier beginning sees what is needed
    place.ok(&["new", "early", rule, "--from", "1"]);
    fs::remove_file(place.path("log.klg")).unwrap();
    place.log("log.klg", &format!("{monday}170 e0 e1 e3\n195 e1 e3\n261 e3\n"));
    place.ok(&["evening", "whole", "log.klg", "--both"]);
    let sheet = |card: &str| {
        if card != "whole" {
            place.ok(&["evening", card, "log.klg"]);
        }
        place.ok(&["sheet", card, "--from", "3"])
    };
    assert_eq!(sheet("whole"), "3 yes\n4 no\n5 yes\n");
    assert_eq!(sheet("early"), "3 yes\n4 no\n5 yes\n");
    assert_eq!(sheet("next"), "3 no\n4 no\n5 yes\n");
    assert_eq!(sheet("from"), "3 no\n4 no\n5 yes\n");
}

/// A card from which others go on takes no log by mistake: what it would release they may still want.
#[test]
fn a_card_that_another_goes_on_from() {
    let place = Place::with_card(1);
    fs::copy(example("visit.klg"), place.path("visit.klg")).unwrap();
    let old = place.card();
    place.ok(&["new", "strict", STRICT, "--after", "card"]);
    let refused = |text: &str| {
        let before = place.card();
        let text = format!("card: {text}\nNothing was changed.\n");
        for command in CARRY_ON {
            assert_eq!(place.fails(1, &[command, &["card", "tuesday.klg"]].concat()), text);
        }
        assert_eq!(place.fails(1, &["trim", "card", "visit.klg", "left.klg"]), text);
        assert_eq!(place.card(), before);
        assert!(!place.path("left.klg").exists());
    };
    let strict = "`strict` goes on from this card at record 12";
    refused(&format!("{strict}: give the log to it. With --both this card takes it too."));
    let summary = place.ok(&["summary", "card"]);
    assert!(summary.ends_with(&format!("open: 2 of 14 records\n{strict}\n")), "{summary}");
    let check = place.ok(&["check", "card"]);
    assert!(check.contains("point: good\nfollowed: 1 card\nall files fit together\n"), "{check}");
    assert!(check.ends_with(&format!("open: 2 of 14 records\n{strict}\n")), "{check}");
    let page = place.ok(&["page", "card", "day.klg", "page.html"]);
    assert_eq!(page, format!("page.html: 2 no in 2 stretches\n{strict}\n"));
    let page = fs::read_to_string(place.path("page.html")).unwrap();
    assert!(page.contains(&format!("<br><bdi>{strict}</bdi>.")), "{page}");
    // the new card has nothing of it
    assert!(!place.path("strict/followed").exists());
    assert!(place.ok(&["evening", "strict", "day.klg"]).ends_with("records 0 to 11 may be overwritten\n"));

    let said = place.ok(&["new", "third", "e0", "--after", "card"]);
    let already =
        "`strict` goes on from card already, at record 12: a record may be overwritten only if both cards name it";
    assert!(said.ends_with(&format!("begins at record 12\n{already}\n")), "{said}");
    let both = "`strict` goes on from this card at record 12, `third` at record 12";
    refused(&format!("{both}: give the log to them. With --both this card takes it too."));
    let json = place.ok(&["summary", "card", "--json"]);
    let cards = "\"followed_by\": [{\"card\": \"strict\", \"record\": 12}, {\"card\": \"third\", \"record\": 12}]";
    assert!(json.contains(cards), "{json}");
    assert!(place.ok(&["check", "card", "--json"]).contains(cards));
    // both are meant
    let said = place.ok(&["evening", "card", "tuesday.klg", "--both"]);
    let last = "this card no longer wants records 0 to 17; `strict` and `third` may still want some of them\n";
    assert!(said.starts_with("records 12 to 17: 5 yes, 1 no\n") && said.ends_with(last), "{said}");
    assert!(!said.contains("overwritten"), "{said}");
    let json = place.ok(&["evening", "card", "tuesday.klg", "--both", "--json"]);
    assert!(json.contains("\"released_records\": 0,") && json.contains(cards), "{json}");
    assert!(place.ok(&["close", "card", "tuesday.klg", "--final", "--both"]).ends_with(last));
    // without the file it is a card like others, and --both means nothing
    fs::remove_dir_all(place.path("card")).unwrap();
    fs::create_dir(place.path("card")).unwrap();
    old.iter().for_each(|(name, bytes)| fs::write(place.path("card").join(name), bytes).unwrap());
    let said = place.ok(&["evening", "card", "tuesday.klg", "--both"]);
    assert!(said.ends_with("records 0 to 17 may be overwritten\n"), "{said}");
}

/// The file that says so may be damaged, or that of another card: then no log is taken, as another card may want it.
#[test]
fn what_goes_on_from_a_card_is_damaged() {
    let place = Place::with_card(1);
    place.ok(&["new", "next", STRICT, "--after", "card"]);
    let good = fs::read(place.path("card/followed")).unwrap();
    place.ok(&["new", "other", RULE]);
    place.ok(&["new", "more", STRICT, "--after", "other"]);
    let mut damaged = good.clone();
    damaged[12] ^= 1;
    let fault = "card: the file `followed` is damaged, or not of this card: it says which card goes on from this one. \
                 Give the log to that one; if there is none, take the file away\n";
    for bytes in [damaged, good[..20].to_vec(), Vec::new(), fs::read(place.path("other/followed")).unwrap()] {
        fs::write(place.path("card/followed"), bytes).unwrap();
        for words in [&["evening", "card", "day.klg"][..], &["evening", "card", "day.klg", "--both"]] {
            assert_eq!(place.fails(1, words), format!("{fault}Nothing was changed.\n"));
        }
        let (printed, said) = place.partly(&["check", "card"]);
        assert!(printed.ends_with("point: good\nfollowed: damaged, or not of this card\n"), "{printed}");
        assert_eq!(said, fault);
        // the verdicts do not depend on it, and it is said all the same
        let (printed, said) = place.partly(&["sheet", "card"]);
        assert!(printed.ends_with("11 yes\n") && said == fault, "{printed}{said}");
        let so_far = "so far: 12 verdicts, 2 no, the latest at record 8\nopen: 2 of 14 records\n";
        assert_eq!(place.partly(&["summary", "card"]), (so_far.to_string(), fault.to_string()));
        for command in ["summary", "sheet"] {
            let (printed, said) = place.partly(&[command, "card", "--json"]);
            let named = format!("\"fault\": \"{}\"", fault.trim_start_matches("card: ").trim_end());
            assert!(printed.contains(&named) && said == fault, "{printed}");
        }
        assert!(place.partly(&["summary", "card", "--json"]).0.contains("\"followed_by\": [],\n"));
        place.ok(&["page", "card", "day.klg", "page.html", "--force"]);
    }
    // nor does another card go on from it: what it held would be forgotten
    let before = place.card();
    let said = place.fails(1, &["new", "third", STRICT, "--after", "card"]);
    assert_eq!(said, format!("{fault}Then repeat the command. No card was made.\n"));
    // that holds of a card that is damaged otherwise too
    let point = fs::read(place.path("card/point")).unwrap();
    fs::write(place.path("card/point"), b"half").unwrap();
    assert_eq!(place.fails(1, &["new", "third", STRICT, "--after", "card"]), said);
    fs::write(place.path("card/point"), point).unwrap();
    assert_eq!(place.card(), before);
    // and where it cannot be read
    fs::remove_file(place.path("card/followed")).unwrap();
    fs::create_dir(place.path("card/followed")).unwrap();
    let said = place.fails(1, &["new", "third", STRICT, "--after", "card"]);
    assert!(said.starts_with("card: cannot read the file `followed`: "), "{said}");
    assert!(said.ends_with("\nNo card was made. When the cause is gone, repeat the command.\n"), "{said}");
    fs::remove_dir(place.path("card/followed")).unwrap();
    fs::write(place.path("card/followed"), &before["followed"]).unwrap();
    assert!(!place.path("third").exists());
    // once it is taken away it is written anew
    fs::remove_dir_all(place.path("next")).unwrap();
    fs::write(place.path("card/followed.new"), b"half").unwrap();
    let said = place.partly(&["check", "card"]).0;
    assert!(said.contains("followed.new: left by a run that was cut; it does not count\n"), "{said}");
    fs::remove_file(place.path("card/followed")).unwrap();
    place.ok(&["new", "next", STRICT, "--after", "card"]);
    assert_eq!(fs::read(place.path("card/followed")).unwrap(), good);
    assert!(!place.path("card/followed.new").exists());
}

/// Where nothing can be written into the old card the new one is made all the same, and it is said.
#[test]
fn an_old_card_that_cannot_be_written() {
    let place = Place::with_card(1);
    fs::create_dir(place.path("card/followed.new")).unwrap();
    let (printed, said) = place.partly(&["new", "next", STRICT, "--after", "card"]);
    assert!(printed.ends_with("begins at record 12\n"), "{printed}");
    assert!(said.starts_with("card: cannot write the file `followed`: "), "{said}");
    let told = "The card next is made. That it goes on from card is not written there: give the log to next alone.\n";
    assert!(said.ends_with(told), "{said}");
    assert!(place.ok(&["evening", "next", "tuesday.klg"]).starts_with("records 12 to 17: "));
}

/// The file that docs/FORMATS.md shows.
#[test]
fn the_file_of_the_cards_that_go_on() {
    let card = b"havdrims card 0123456789abcdef\nbegins at record 0, position 0\n";
    let bound = bound_to(card, &fs::read(example("rule.krl")).unwrap());
    let file = Followed::default().with(Follower::new("strict", 12)).encode(bound);
    let shown = "at record 12 strict\nchecksum 6183279eec9a7882\n";
    assert_eq!(String::from_utf8(file).unwrap(), shown);
    let formats = fs::read_to_string(example("../../docs/FORMATS.md")).unwrap();
    assert!(formats.contains(&shown.lines().map(|line| format!("    {line}\n")).collect::<String>()));
}
