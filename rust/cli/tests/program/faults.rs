//! What can go wrong, each with its words, exit status 1, and the card unchanged.

use crate::{contents, divided, ended, Place, ALREADY, CARRY_ON, CHECKED, OLDER_LOG, OTHER_CLOCK, OTHER_LOG, RULE};
use evaluator::log;
use havdrims::save::{checksum, Saved};
use std::fs::{self, File, Permissions};
use std::io::{self, ErrorKind};
use std::os::unix::fs::PermissionsExt;
use std::os::unix::process::CommandExt;
use std::path::Path;
use std::process::{Child, Command, Output, Stdio};
use std::time::Duration;
use std::{env, thread};

const IN_USE: &str = "card: another command is at work on this card; try again when it has ended\n";

/// The command fails with this text, and leaves the card as it is.
fn refuses(place: &Place, words: &[&str], text: &str) {
    let before = place.card();
    assert_eq!(place.fails(1, words), text, "{words:?}");
    assert_eq!(place.card(), before, "{words:?}");
}

#[test]
fn logs_that_are_refused() {
    let place = Place::with_card(1);
    let whole = fs::read(place.path("day.klg")).unwrap();
    let evening = |bytes: &[u8], says: &str, hint: &str| {
        fs::write(place.path("other.klg"), bytes).unwrap();
        let text = format!("other.klg: {says}\n{hint}Nothing was changed.\n");
        refuses(&place, &["evening", "card", "other.klg"], &text);
        refuses(&place, &["close", "card", "other.klg", "--final"], &text);
    };
    // a log that shrank
    let fewer = "the log has 13 records, and the card has seen 14 (refused 13)";
    evening(&whole[..whole.len() - 8], fewer, &format!("{OLDER_LOG} "));
    // a new record whose time falls
    let falls = [whole.as_slice(), &[0, 0, 2, 0xd9, 0, 0, 0, 0]].concat();
    let times = "record 14, second 729, comes after record 13, second 730 (refused 14)";
    evening(&falls, times, &format!("{OTHER_CLOCK}{} ", divided(120)));
    // a log of the other version
    let mut second = whole.clone();
    second[4] = 2;
    let hint =
        "A card keeps to the version of its first log, 2 and 3 counting as one; another needs a card of its own. ";
    evening(&second, "the log is of version 2, and the card's first one was of version 1 (refused 22)", hint);
    // no log
    let inside = "the log ends inside record 13: 7 of its 8 bytes are there (refused 12)";
    evening(&whole[..whole.len() - 1], inside, "");
    evening(b"", "the file is empty, and a log has at least 8 bytes (refused 12)", "");
    // one record too many
    let mut long = whole.clone();
    long.resize(8 + 8 * 1_000_001, 0xFF);
    let hint =
        "Its first 8000008 bytes end with the last record that a log may have: close the card with these, and begin\n\
                a new log and a new card with what follows. ";
    evening(&long, "the log has more than 1000000 records (refused 12)", hint);
    let none = "none.klg: there is no such file\nNothing was changed.\n";
    refuses(&place, &["evening", "card", "none.klg"], none);
}

/// Two logs put one behind the other, with `cat`: the second one's header is read as a record.
#[test]
fn the_header_of_a_second_log() {
    let place = Place::with_card(0);
    let day = fs::read(place.path("day.klg")).unwrap();
    let hint = |bytes: usize| {
        format!(
            "A log has one header: of a second one add the records alone, as `tail -c +{bytes} SECOND >> FIRST` does.\n\
             If its clock began anew, it is a log of its own, for a card of its own."
        )
    };
    let says = "both.klg: record 14 looks like the header of a second log, put behind the first (refused 14)\n";
    let later = log::encode(&[log::Record { time: 2_000_000_000, letters: 1 }]);
    for (first, header, records) in [
        (day.clone(), &day[..8], &day[8..]),
        (day.clone(), b"KLG\0\x02\0\0\0", &day[8..]),
        (day.clone(), b"KLG\0\x03\0\0\0\0\0\0\0\0\0\0\x09", &day[8..]),
        // a clock whose seconds are more than those that the header would be
        ([&day[..], &later[8..]].concat(), &day[..8], &later[8..]),
    ] {
        fs::write(place.path("both.klg"), [&first[..], header, records].concat()).unwrap();
        let says = says.replace("14 l", &format!("{} l", first.len() / 8 - 1));
        let hint = hint(header.len() + 1);
        for words in [
            &["evening", "card", "both.klg"][..],
            &["close", "card", "both.klg", "--final"],
            &["open", "card", "both.klg"],
        ] {
            refuses(&place, words, &format!("{says}{hint} Nothing was changed.\n"));
        }
        assert_eq!(place.fails(1, &["why", "card", "both.klg", "5"]), format!("{says}{hint}\n"));
    }
    // the way that is told
    fs::copy(place.path("day.klg"), place.path("week.klg")).unwrap();
    place.log("next.klg", "760 e0 e1\n900 e0 e2\n");
    place.ok(&["evening", "card", "week.klg"]);
    let mut add = Command::new("sh");
    add.args(["-c", "tail -c +9 next.klg >> week.klg"]).current_dir(&place.0);
    assert!(add.status().unwrap().success());
    assert!(place.ok(&["evening", "card", "week.klg"]).starts_with("records 12 to 14: 3 yes, 0 no\n"));
}

/// The last record that the card has seen is not in the log: the library has its time.
#[test]
fn a_first_new_record_that_comes_too_early() {
    let place = Place::new();
    place.ok(&["new", "card", "e0"]);
    place.log("log.klg", "10 e0\n11 e1\n12 e0\n");
    place.ok(&["evening", "card", "log.klg"]);
    fs::write(place.path("left.klg"), log::encode_trimmed(3, &[log::Record { time: 11, letters: 1 }])).unwrap();
    let early = "record 3, the first new one, comes before the last one that the card has seen (refused 14)";
    let text = format!("left.klg: {early}\n{OTHER_CLOCK} Nothing was changed.\n");
    refuses(&place, &["evening", "card", "left.klg"], &text);
}

/// Later times, more records, and the same version: only the records that are still wanted tell it.
#[test]
fn the_log_of_another_kiosk() {
    let place = Place::with_card(1);
    let whole = fs::read(place.path("tuesday.klg")).unwrap();
    let brought = |change: &dyn Fn(&mut Vec<u8>)| {
        let mut bytes = whole.clone();
        change(&mut bytes);
        fs::write(place.path("other.klg"), bytes).unwrap();
    };
    let others = format!(
        "other.klg: records 12 to 13 are not those that this card has seen\n{OTHER_LOG} Nothing was changed.\n"
    );
    let later = |bytes: &mut Vec<u8>| bytes[8..].chunks_exact_mut(8).for_each(|record| record[2] += 1);
    let changes: [fn(&mut Vec<u8>); 4] =
        [later, |bytes| bytes[8 + 8 * 12 + 3] ^= 1, |bytes| bytes[8 + 8 * 14 - 1] ^= 1, |bytes| bytes[8..].fill(0)];
    for change in changes {
        brought(&change);
        for words in [
            &["evening", "card", "other.klg"][..],
            &["close", "card", "other.klg", "--final"],
            &["open", "card", "other.klg"],
        ] {
            refuses(&place, words, &others);
        }
    }
    // what was released, and what is new, may be anything
    brought(&|bytes| bytes[8..8 + 8 * 12].fill(0xff));
    place.ok(&["evening", "card", "other.klg"]);
    brought(&|bytes| bytes[8 + 8 * 18 + 7] ^= 1);
    let one =
        format!("other.klg: record 18 is not the one that this card has seen\n{OTHER_LOG} Nothing was changed.\n");
    refuses(&place, &["evening", "card", "other.klg"], &one);
    // closed: nothing is wanted any more, but the last record is that of the log
    place.ok(&["close", "card", "tuesday.klg", "--final"]);
    refuses(&place, &["close", "card", "other.klg", "--final"], &one);
    brought(&|bytes| bytes[8..8 + 8 * 18].fill(0));
    place.ok(&["close", "card", "other.klg", "--final"]);
}

/// Where every record has its verdict the last one is kept all the same, to know the log by, after a closing too, and in a log
/// that was trimmed.
#[test]
fn a_log_that_leaves_nothing_open() {
    let place = Place::new();
    place.ok(&["new", "card", "e0"]);
    let log = |name: &str, records: &str| place.log(name, records);
    log("log.klg", "10 e0\n11 e1\n12 e0\n");
    assert!(place.ok(&["evening", "card", "log.klg"]).ends_with("records 0 to 1 may be overwritten\n"));
    log("other.klg", "10 e0\n11 e1\n12 e1\n13 e0\n");
    let one = format!("other.klg: record 2 is not the one that this card has seen\n{OTHER_LOG} Nothing was changed.\n");
    for words in [&["evening", "card", "other.klg"][..], &["close", "card", "other.klg", "--final"]] {
        refuses(&place, words, &one);
    }
    refuses(&place, &["trim", "card", "other.klg", "out.klg"], &one);
    // a card in its place begins behind that record
    assert!(place.ok(&["new", "next", "e0", "--after", "card"]).ends_with("begins at record 3\n"));
    place.ok(&["evening", "next", "log.klg"]);
    // without that one, and what is written of it
    fs::remove_file(place.path("card/followed")).unwrap();
    assert_eq!(place.ok(&["trim", "card", "log.klg", "left.klg"]), "left.klg: records 0 to 1 dropped, 1 left\n");
    assert!(place.ok(&["evening", "card", "left.klg"]).ends_with("records 0 to 1 may be overwritten\n"));
    log("log.klg", "0 e0\n0 e1\n12 e0\n13 e0\n");
    assert!(place.ok(&["evening", "card", "log.klg"]).starts_with("record 3: 1 yes, 0 no\n"));
    // a closed card trims its own log alone
    assert!(place.ok(&["close", "card", "log.klg", "--final"]).ends_with("records 0 to 2 may be overwritten\n"));
    log("other.klg", "10 e0\n11 e1\n12 e0\n13 e1\n");
    let one = format!("other.klg: record 3 is not the one that this card has seen\n{OTHER_LOG} Nothing was changed.\n");
    refuses(&place, &["trim", "card", "other.klg", "out.klg"], &one);
    assert!(!place.path("out.klg").exists());
}

/// A card that was put back, as a whole: its evenings would be of records that were overwritten since.
#[test]
fn a_card_that_was_put_back() {
    let place = Place::with_card(1);
    let monday = place.card();
    place.ok(&["evening", "card", "tuesday.klg"]);
    let put_back = || monday.iter().for_each(|(name, bytes)| fs::write(place.path("card").join(name), bytes).unwrap());
    let mut log = fs::read(place.path("tuesday.klg")).unwrap();
    // nothing was overwritten yet: the evening is repeated
    put_back();
    assert!(place.ok(&["evening", "card", "tuesday.klg"]).starts_with("records 12 to 17: 5 yes, 1 no\n"));
    log[8..8 + 8 * 18].fill(0);
    fs::write(place.path("tuesday.klg"), &log).unwrap();
    place.ok(&["evening", "card", "tuesday.klg"]);
    put_back();
    let others = format!(
        "tuesday.klg: records 12 to 13 are not those that this card has seen\n{OTHER_LOG} Nothing was changed.\n"
    );
    for command in CARRY_ON {
        refuses(&place, &[command, &["card", "tuesday.klg"]].concat(), &others);
    }
}

/// A card as an earlier program made it: it is taken as it is once, and told apart from then on.
#[test]
fn a_card_of_an_earlier_program() {
    let place = Place::with_card(1);
    place.make_old();
    let before = place.ok(&["summary", "card"]);
    assert!(before.starts_with("so far: 12 verdicts"), "{before}");
    let said = place.ok(&["evening", "card", "tuesday.klg"]);
    let earlier = "this card was made by an earlier program: from now on it knows its log again\n";
    assert!(said.starts_with(&format!("{earlier}records 12 to 17: 5 yes, 1 no\n")), "{said}");
    assert!(place
        .ok(&["evening", "card", "tuesday.klg"])
        .starts_with("no new record since the last evening (19 records)"));
    let mut log = fs::read(place.path("tuesday.klg")).unwrap();
    log[8 + 8 * 18 + 7] ^= 1;
    fs::write(place.path("other.klg"), log).unwrap();
    let one =
        format!("other.klg: record 18 is not the one that this card has seen\n{OTHER_LOG} Nothing was changed.\n");
    refuses(&place, &["evening", "card", "other.klg"], &one);
    // rows that are of no use are as none
    fs::write(place.path("card/evenings"), [7; 100]).unwrap();
    assert!(place.ok(&["evening", "card", "tuesday.klg"]).starts_with(earlier));
    assert_eq!(fs::read(place.path("card/evenings")).unwrap().len(), 88);
}

/// `close` typed for `evening`.
#[test]
fn a_closing_is_meant() {
    let place = Place::with_card(1);
    let before = place.card();
    let text = "closing says that no record will follow: every open record gets its verdict on the log as it ends, and the card\n\
                takes no further records. It cannot be undone. With --final it is done; `havdrims evening` carries on.\n\
                Nothing was changed.\n\
                expected: havdrims close CARD LOG --final [--both] [--json]\n";
    assert_eq!(place.fails(2, &["close", "card", "tuesday.klg"]), text);
    assert_eq!(place.fails(2, &["close", "none", "none.klg"]), text);
    assert_eq!(place.card(), before);
    place.ok(&["evening", "card", "tuesday.klg"]);
    place.ok(&["close", "--final", "card", "tuesday.klg"]);
    assert!(place.help("close").contains("It cannot be undone"));
}

#[test]
fn a_closed_card() {
    let place = Place::with_card(1);
    place.ok(&["close", "card", "day.klg", "--final"]);
    let next =
        "`havdrims new NEW card/rule.krl --after card` makes the next card, with the same rule. Nothing was changed.\n";
    let closed = format!("card: the card is closed: it takes no further records (refused 20)\n{next}");
    refuses(&place, &["evening", "card", "day.klg"], &closed);
    refuses(&place, &["evening", "card", "tuesday.klg"], &closed);
    let more = "the log has 19 records, and the card was closed with 14 (refused 21)";
    let more = format!("tuesday.klg: {more}\n{next}");
    refuses(&place, &["close", "card", "tuesday.klg", "--final"], &more);
    assert!(place.ok(&["close", "card", "day.klg", "--final"]).starts_with("no new verdict\n"));
    assert!(place.ok(&["summary", "card"]).ends_with("open: 0 of 14 records, and the card is closed\n"));
    // as a shell takes it, and it does what it says
    fs::rename(place.path("card"), place.path("station hall")).unwrap();
    let said = place.fails(1, &["evening", "station hall/", "day.klg"]);
    assert!(said.contains("`havdrims new NEW 'station hall/rule.krl' --after 'station hall'`"), "{said}");
    place.ok(&["new", "NEW", "station hall/rule.krl", "--after", "station hall"]);
    assert!(place.ok(&["evening", "NEW", "tuesday.klg"]).starts_with("records 14 to 17: "));
}

/// A card's name that is mistyped, wherever a card is wanted.
#[test]
fn names_that_are_nearly_those_of_cards() {
    let place = Place::with_card(1);
    fs::create_dir(place.path("shop")).unwrap();
    fs::rename(place.path("card"), place.path("shop/hall")).unwrap();
    fs::copy(place.path("day.klg"), place.path("shop/day.klg")).unwrap();
    let folders: [(&str, &[&str]); 3] =
        [("", &["hal", "hlal", "hall2"]), ("./", &["./hal"]), ("../shop/", &["../shop/hal"])];
    let here = |words: &[&str]| {
        let (status, out, err) = ended(place.program().args(words).current_dir(place.path("shop")).output().unwrap());
        assert_eq!((status, out.as_str()), (1, ""), "{words:?}: {err}");
        err
    };
    for (folder, names) in folders {
        for name in names {
            let none = format!("{name}: no card is here; did you mean {folder}hall?\n");
            for words in [
                &["summary", name][..],
                &["sheet", name],
                &["check", name],
                &["letters", name],
                &["open", name, "day.klg"],
            ] {
                let said = here(words);
                assert_eq!(said, none, "{words:?}");
            }
            assert_eq!(here(&["new", "other", "e0", "--after", name]), none);
            for words in [
                &["evening", name, "day.klg"][..],
                &["close", name, "day.klg", "--final"],
                &["trim", name, "day.klg", "out.klg"],
                &["page", name, "day.klg", "out.html"],
            ] {
                assert_eq!(here(words), format!("{none}Nothing was changed.\n"), "{words:?}");
            }
            let none = format!("no card or .krl file `{name}` is here; did you mean {folder}hall? (refused 16)\n");
            for words in [&["why", name, "day.klg", "5"][..], &["formula", name]] {
                assert_eq!(here(words), none, "{words:?}");
            }
        }
    }
    // a rule file, a log and letters
    here(&["why", "hall", "day.klg", "99"]);
    place.ok(&["rule", "e0", "shop/warm.krl"]);
    let none = "no card or .krl file `wram.krl` is here; did you mean warm.krl?\n";
    assert_eq!(here(&["why", "wram.krl", "day.klg", "5"]), none);
    assert_eq!(
        here(&["why", "warm", "day.klg", "5"]),
        "no card or .krl file `warm` is here; did you mean warm.krl? (refused 16)\n"
    );
    assert_eq!(here(&["formula", "wram.krl"]), "wram.krl: there is no such file; did you mean warm.krl?\n");
    let said = "dya.klg: there is no such file; did you mean day.klg?\n";
    assert_eq!(here(&["to-text", "dya.klg"]), said);
    assert_eq!(here(&["evening", "hall", "dya.klg"]), format!("{said}Nothing was changed.\n"));
    assert_eq!(here(&["letters", "hall", "dya.klg"]), said);
    // nothing is near
    assert_eq!(here(&["summary", "mill"]), "mill: no card is here; `havdrims new` makes one\n");
    assert_eq!(here(&["why", "mill", "day.klg", "5"]), "no card or .krl file `mill` is here (refused 16)\n");
    // a card where a formula or a rule file is wanted
    let card = "`hall` is a card; its rule is hall/rule.krl (refused 16)\n";
    assert_eq!(here(&["new", "d", "hall"]), card);
    let card = "`hall` is a card, and a formula is wanted here (refused 16)\n";
    assert_eq!(here(&["rule", "hall", "out.krl"]), card);
    assert_eq!(here(&["summary", "hal/"]), "hal/: no card is here; did you mean hall?\n");
    // a name with a line end in it is not shown
    fs::rename(place.path("shop/warm.krl"), place.path("shop/wa\nm.krl")).unwrap();
    assert_eq!(here(&["to-text", "warm.krl"]), "warm.krl: there is no such file\n");
    // the folder of the cards
    let folder = "`shop` is a folder, and no card; it holds cards, as shop/hall (refused 16)\n";
    assert_eq!(place.fails(1, &["why", "shop", "day.klg", "5"]), folder);
    assert_eq!(place.fails(1, &["new", "d", "shop"]), folder);
    let holds = "this folder is no card; it holds cards, as shop/hall\n";
    assert_eq!(place.fails(1, &["summary", "shop"]), format!("shop: {holds}"));
    assert_eq!(place.fails(1, &["summary", "shop/"]), format!("shop/: {holds}"));
}

/// A log behind which its own records were put once more.
#[test]
fn records_that_were_added_twice() {
    let place = Place::with_card(1);
    let day = fs::read(place.path("day.klg")).unwrap();
    fs::write(place.path("twice.klg"), [&day, &day[8..]].concat()).unwrap();
    let twice = "twice.klg: record 14, second 0, comes after record 13, second 730 (refused 14)\n\
                 Is this the log of another kiosk, did its clock begin anew, or were records added twice?";
    let text = format!("{twice}{} Nothing was changed.\n", divided(120));
    assert_eq!(place.fails(1, &["evening", "card", "twice.klg"]), text);
    // A second that the log does not have.
    fs::write(place.path("falls.klg"), [&day, &[0, 0, 0, 1, 0, 0, 0, 0][..]].concat()).unwrap();
    let said = place.fails(1, &["evening", "card", "falls.klg"]);
    assert!(said.ends_with(&format!("(refused 14)\n{OTHER_CLOCK}{} Nothing was changed.\n", divided(120))), "{said}");
    // what is said can be done
    let falls = fs::read(place.path("falls.klg")).unwrap();
    fs::write(place.path("before.klg"), &falls[..120]).unwrap();
    fs::write(place.path("after.klg"), [&falls[..8], &falls[120..]].concat()).unwrap();
    place.ok(&["close", "card", "before.klg", "--final"]);
    place.ok(&["new", "next", "card/rule.krl"]);
    place.ok(&["evening", "next", "after.klg"]);
}

/// A formula of several words that the shell hands over one by one.
#[test]
fn formulas_without_quotes() {
    let place = Place::with_card(0);
    let words = |line: &str| line.split(' ').map(str::to_string).collect::<Vec<_>>();
    let fails = |status: i32, line: &str, text: &str| {
        let words = words(line);
        let words: Vec<&str> = words.iter().map(String::as_str).collect();
        assert_eq!(place.fails(status, &words), text, "{line}");
    };
    let put = "put the formula between quotes: 'not e2 or e0 until[0,90] e1'";
    fails(1, "new other not e2 or e0 until[0,90] e1", &format!("{put} (refused 17)\n"));
    fails(1, "rule not e2 or e0 until[0,90] e1 out.krl", &format!("{put} (refused 17)\n"));
    let expected = "expected: havdrims why RULE LOG RECORD [--formula K] [--words]\n";
    fails(2, "why not e2 or e0 until[0,90] e1 day.klg 5", &format!("{put}\n{expected}"));
    fails(2, "formula not e2 or e0 until[0,90] e1", &format!("{put}\nexpected: havdrims formula RULE\n"));
    fails(
        1,
        "new other not e2 or e0 untill[0,90] e1",
        "the word `untill` is not known; did you mean until?\n  not e2 or e0 untill[0,90] e1\n               ^^^^^^\n\
         there are the words not, or, prev, next, since, until, inf, the letters e0 to e31, numbers, and the signs ( ) [ ] , \
         (refused 16)\nPut each formula between quotes of its own, when it is right\n",
    );
    let each = "each formula needs quotes of its own: 'e0 until[0,9] e1' 'not e2 or e0' (refused 17)\n";
    fails(1, "new other e0 until[0,9] e1 not e2 or e0", each);
    assert_eq!(place.fails(1, &["new", "other", "e0 until[0,9] e1", "not", "e2", "or", "e0"]), each);
    assert_eq!(place.fails(1, &["rule", "e0", "until[0,9]", "e1", "not e2 or e0", "out.krl"]), each);
    assert!(!place.path("other").exists() && !place.path("out.krl").exists());
    // two formulas, one of which is wrong, stand between quotes already
    let said = place.fails(1, &["new", "other", "e0 or", "e1"]);
    assert!(said.starts_with("the formula breaks off here\n  e0 or\n"), "{said}");
    // a name of two words
    fs::rename(place.path("card"), place.path("station hall")).unwrap();
    fails(
        2,
        "summary station hall",
        "put the name between quotes: 'station hall'\nexpected: havdrims summary CARD [--json]\n",
    );
    fails(
        2,
        "evening station hall day.klg",
        "put the name between quotes: 'station hall'\nexpected: havdrims evening CARD LOG [--both] [--json]\n",
    );
    fails(
        2,
        "evening station hall station hall.klg",
        "put the name between quotes: 'station hall'\nexpected: havdrims evening CARD LOG [--both] [--json]\n",
    );
}

#[test]
fn rules_that_are_refused() {
    let place = Place::new();
    let said = place.fails(1, &["new", "card", "e0 until e1"]);
    let could = "here could stand `[` and seconds, as in until[0,90]";
    assert_eq!(said, format!("`e1` cannot stand here\n  e0 until e1\n           ^^\n{could} (refused 17)\n"));
    fs::write(place.path("bad.krl"), b"KRL").unwrap();
    assert_eq!(
        place.fails(1, &["new", "card", "bad.krl"]),
        "bad.krl: the rule ends after 3 bytes, inside its first 8 (refused 1)\n"
    );
    assert!(!place.path("card").exists());
}

#[test]
fn folders_that_are_no_card_and_cards_that_are_there() {
    let place = Place::with_card(1);
    refuses(&place, &["new", "card", RULE], ALREADY);
    // one from which no other can go on: what is wrong with it, and what can be done
    let label = fs::read(place.path("card/card.txt")).unwrap();
    fs::remove_file(place.path("card/card.txt")).unwrap();
    let already = "card: a card is here already\n";
    let missing = format!("card: the file `card.txt` is missing\n{CHECKED}");
    refuses(&place, &["new", "card", RULE], &format!("{already}{missing}"));
    refuses(&place, &["new", "other", RULE, "--after", "card"], &missing);
    fs::write(place.path("card/card.txt"), label).unwrap();
    fs::write(place.path("card/followed"), b"half").unwrap();
    let damaged =
        "card: the file `followed` is damaged, or not of this card: it says which card goes on from this one. \
                   Give the log to that one; if there is none, take the file away\n";
    refuses(&place, &["new", "card", RULE], &format!("{already}{damaged}"));
    fs::remove_file(place.path("card/followed")).unwrap();
    // a damaged one from which another can
    let point = fs::read(place.path("card/point")).unwrap();
    fs::write(place.path("card/point"), b"half").unwrap();
    refuses(&place, &["new", "card", RULE], ALREADY);
    place.ok(&["new", "goes on", RULE, "--after", "card"]);
    fs::remove_file(place.path("card/followed")).unwrap();
    fs::write(place.path("card/point"), point).unwrap();
    let none = "no card is here; `havdrims new` makes one\n";
    fs::create_dir(place.path("bare")).unwrap();
    for folder in ["none", "bare"] {
        assert_eq!(place.fails(1, &["summary", folder]), format!("{folder}: {none}"));
        let said = place.fails(1, &["evening", folder, "day.klg"]);
        assert_eq!(said, format!("{folder}: {}\nNothing was changed.\n", none.trim_end()));
    }
    assert_eq!(place.fails(1, &["summary", "."]), ".: this folder is no card; it holds cards, as ./card\n");
    assert_eq!(place.fails(1, &["new", ".", RULE]), ".: this folder holds other files\n");
    // a file for a card, and a card for a file
    let file = "day.klg: this is a file, and a card is a folder\n";
    for words in [&["summary", "day.klg"][..], &["sheet", "day.klg"], &["check", "day.klg"]] {
        assert_eq!(place.fails(1, words), file, "{words:?}");
    }
    assert_eq!(place.fails(1, &["new", "./day.klg", RULE]), format!("./{file}"));
    let said = place.fails(2, &["new", "day.klg", RULE]);
    assert!(said.starts_with("CARD seems to be missing: `day.klg` is the name of a log\nexpected: "), "{said}");
    assert_eq!(place.fails(1, &["open", "day.klg", "day.klg"]), file);
    assert_eq!(place.fails(1, &["new", "other", RULE, "--after", "day.klg"]), file);
    assert_eq!(place.fails(1, &["evening", "day.klg", "day.klg"]), format!("{file}Nothing was changed.\n"));
    let card = "card: this is a card, and a file is wanted here\n";
    assert_eq!(place.fails(1, &["evening", "day.klg", "card"]), format!("{card}Nothing was changed.\n"));
    assert_eq!(place.fails(1, &["why", RULE, "card", "5"]), card);
    assert_eq!(place.fails(1, &["to-text", "card"]), card);
    assert_eq!(place.fails(1, &["to-log", "card", "out.klg"]), card);
    fs::create_dir(place.path("folder.krl")).unwrap();
    let folder = "folder.krl: this is a folder, and a file is wanted here\n";
    for words in [&["formula", "folder.krl"][..], &["new", "other", "folder.krl"]] {
        assert_eq!(place.fails(1, words), folder, "{words:?}");
    }
    assert_eq!(place.fails(1, &["new", "none/card", RULE]), "none/card: the folder none is not there\n");
    // what a `new` that was cut leaves, and an empty folder, are made again
    place.ok(&["new", "cut", RULE]);
    fs::remove_file(place.path("cut/point")).unwrap();
    let cut = "cut: making this card was cut short; make it again by `havdrims new` with the same words\n";
    assert_eq!(place.fails(1, &["summary", "cut"]), cut);
    place.ok(&["new", "cut", RULE]);
    assert!(place.ok(&["summary", "cut"]).starts_with("so far: 0 verdicts"));
    fs::create_dir(place.path("empty")).unwrap();
    place.ok(&["new", "empty", RULE]);
}

/// What `sheet` and `summary` say of a card with this fault after one evening: the verdicts, if they are vouched for.
fn reads(place: &Place, text: &str, vouched: bool) {
    let before = place.card();
    if !vouched {
        refuses(place, &["summary", "card"], &format!("card: {text}\n{CHECKED}"));
        refuses(place, &["sheet", "card"], &format!("card: {text}\n{CHECKED}"));
        return;
    }
    let err = format!("card: {text}\nThis is of the first 12 verdicts, which a checksum vouches for. {CHECKED}");
    let so_far = "so far: 12 verdicts, 2 no, the latest at record 8\nopen: 2 of 14 records\n";
    assert_eq!(place.partly(&["summary", "card"]), (so_far.to_string(), err.clone()));
    assert_eq!(place.partly(&["sheet", "card", "--from", "10"]), ("10 yes\n11 yes\n".to_string(), err));
    assert_eq!(place.card(), before);
}

/// A card without its point is not made again: its verdicts would be gone.
#[test]
fn files_that_are_missing() {
    let place = Place::with_card(1);
    let missing = |text: &str, vouched: bool| {
        reads(&place, text, vouched);
        refuses(&place, &["evening", "card", "tuesday.klg"], &format!("card: {text}\n{CHECKED}Nothing was changed.\n"));
    };
    let point = fs::read(place.path("card/point")).unwrap();
    fs::remove_file(place.path("card/point")).unwrap();
    let text = "the file `point` is missing, but the sheet has 12 verdicts";
    missing(text, true);
    refuses(&place, &["new", "card", RULE], &format!("card: {text}\n{CHECKED}"));
    fs::write(place.path("card/point"), point).unwrap();
    let rows = fs::read(place.path("card/evenings")).unwrap();
    fs::remove_file(place.path("card/evenings")).unwrap();
    missing("the file `evenings` is missing", false);
    fs::write(place.path("card/evenings"), rows).unwrap();
    for file in ["rule.krl", "sheet"] {
        let path = place.path("card").join(file);
        let bytes = fs::read(&path).unwrap();
        fs::remove_file(&path).unwrap();
        missing(&format!("the file `{file}` is missing"), false);
        fs::write(path, bytes).unwrap();
    }
    fs::remove_file(place.path("card/card.txt")).unwrap();
    missing("the file `card.txt` is missing", false);
    let text = format!("card: a card is here already\ncard: the file `card.txt` is missing\n{CHECKED}");
    refuses(&place, &["new", "card", RULE], &text);
}

/// A reader that closes the pipe has seen enough; a disk that is full has not.
#[test]
fn an_output_that_cannot_be_written() {
    let place = Place::with_card(0);
    place.ok(&["worst", "0", "1", "60000", "long.klg"]);
    let mut child = place.program().args(["to-text", "long.klg"]).stdout(Stdio::piped()).spawn().unwrap();
    drop(child.stdout.take());
    assert!(child.wait().unwrap().success());
    let full = File::options().write(true).open("/dev/full").unwrap();
    let output = place.program().args(["evening", "card", "day.klg"]).stdout(full).output().unwrap();
    let text = "the command is done, but its output cannot be written: No space left on device (os error 28)\n";
    assert_eq!(ended(output), (1, String::new(), text.to_string()));
    let again = place.ok(&["evening", "card", "day.klg"]);
    assert!(again.starts_with("no new record ") && again.contains("\nso far: 12 verdicts"), "{again}");
}

#[test]
fn damaged_cards() {
    let damage_and = |vouched: bool, file: &str, change: &dyn Fn(&mut Vec<u8>), text: &str| {
        let place = Place::with_card(1);
        let path = place.path("card").join(file);
        let mut bytes = fs::read(&path).unwrap();
        change(&mut bytes);
        fs::write(&path, bytes).unwrap();
        let refused = format!("card: {text}\n{CHECKED}");
        for command in CARRY_ON {
            let words = [command, &["card", "tuesday.klg"]].concat();
            refuses(&place, &words, &format!("{refused}Nothing was changed.\n"));
        }
        for words in [&["open", "card", "tuesday.klg"][..], &["letters", "card"], &["formula", "card"]] {
            refuses(&place, words, &refused);
        }
        reads(&place, text, vouched);
        // `check` says it too
        let (printed, said) = place.partly(&["check", "card"]);
        assert_eq!(said, format!("card: {text}\n"));
        assert!(printed.contains("what can be done:\n") && printed.contains(&format!("{file}: ")), "{printed}");
        assert!(file != "point" || !printed.contains("point: good"), "{printed}");
        assert_eq!(printed.contains("the first 12 verdicts are vouched for"), vouched, "{printed}");
        assert_eq!(printed.contains("no verdict is vouched for"), !vouched, "{printed}");
    };
    let damage = |file: &str, change: &dyn Fn(&mut Vec<u8>), text: &str| {
        // the point, and a damaged row, leave the verdicts vouched for; without card, rule or sheet there is no telling
        damage_and(file == "point", file, change, text);
    };
    let point = "the file `point` is damaged: its checksum does not fit";
    damage("point", &|bytes| bytes[100] ^= 1, point);
    damage("point", &|bytes| bytes.truncate(1_000), point);
    damage("point", &|bytes| bytes.extend([0; 8]), point);
    damage("point", &|bytes| bytes.clear(), "the file `point` is not that of a card");
    damage("point", &|bytes| bytes[4] = 1, "the file `point` is of another version of this program");
    let digit = |bytes: &mut Vec<u8>| bytes[14] = if bytes[14] == b'0' { b'1' } else { b'0' };
    damage("card.txt", &digit, "the files `card.txt` and `point` are of two cards, or one is damaged");
    let card = "the file `card.txt` is damaged: it does not hold the card's number";
    damage("card.txt", &|bytes| bytes[0] ^= 1, card);
    damage("card.txt", &|bytes| bytes.clear(), card);
    damage("rule.krl", &|bytes| bytes[9] ^= 1, "the file `rule.krl` is not the rule that this card was made for");
    damage("sheet", &|bytes| bytes.truncate(11), "the file `sheet` has 11 verdicts, but 12 were given");
    damage("sheet", &|bytes| bytes[3] ^= 1, "the file `sheet` is damaged: its checksum does not fit");
    let evenings = "the file `evenings` is damaged, or not of this card: it lacks the evening of the point";
    damage_and(true, "evenings", &|bytes| bytes[100] ^= 1, evenings);
    damage_and(true, "evenings", &|bytes| bytes.truncate(175), evenings);
    damage("evenings", &|bytes| bytes.clear(), evenings);
    damage("card.txt", &|bytes| bytes[48] = b'1', evenings);
    damage("card.txt", &|bytes| bytes[47] = b'x', card);
    // a checkpoint of another library's format, one whose words are out of range, and one that counts other verdicts
    let saved = |change: fn(&mut Saved)| {
        move |bytes: &mut Vec<u8>| {
            let mut saved = Saved::decode(bytes).unwrap();
            change(&mut saved);
            *bytes = saved.encode();
        }
    };
    let format = "the file `point` is of another library's format (refused 10)";
    damage("point", &saved(|saved| saved.words[0] -= 1), format);
    let range = "the file `point` holds what this library never writes (refused 11)";
    damage("point", &saved(|saved| saved.words[2] = 0), range);
    let fewer = |saved: &mut Saved| (saved.given, saved.sheet) = (4, checksum(&[1; 4]));
    damage("point", &saved(fewer), "the file `point` is damaged: it says 4 verdicts, its words 12");
    let services = "the file `point` is damaged: it says 3 service records where 2 records have no verdict";
    damage("point", &saved(|saved| saved.services = 3), services);
}

/// A point that was copied from another card with the same rule and the same log.
#[test]
fn a_point_of_another_card() {
    let place = Place::with_card(1);
    place.ok(&["new", "other", RULE]);
    place.ok(&["evening", "other", "day.klg"]);
    fs::copy(place.path("other/point"), place.path("card/point")).unwrap();
    let fault = "card: the files `card.txt` and `point` are of two cards, or one is damaged\n";
    refuses(&place, &["evening", "card", "tuesday.klg"], &format!("{fault}{CHECKED}Nothing was changed.\n"));
    let (printed, said) = place.partly(&["check", "card"]);
    assert!(printed.contains("point: whole, but not of the card in card.txt\n"), "{printed}");
    assert_eq!(said, fault);
}

/// What a run that was cut has left behind does not count.
#[test]
fn what_a_cut_run_left_is_passed_over() {
    let place = Place::with_card(1);
    let sheet = place.path("card/sheet");
    let before = fs::read(&sheet).unwrap();
    fs::write(&sheet, [before.as_slice(), &[1, 0, 7, 7]].concat()).unwrap();
    fs::write(place.path("card/point.new"), b"half").unwrap();
    let rows = fs::read(place.path("card/evenings")).unwrap();
    fs::write(place.path("card/evenings"), [rows.as_slice(), &rows[..88], &[7; 40]].concat()).unwrap();
    assert_eq!(place.ok(&["sheet", "card"]).lines().count(), before.len());
    place.ok(&["evening", "card", "day.klg"]);
    assert_eq!(fs::read(&sheet).unwrap(), before);
    assert_eq!(fs::read(place.path("card/evenings")).unwrap(), rows);
    assert!(!place.path("card/point.new").exists());
}

#[test]
fn a_card_in_use() {
    let place = Place::with_card(1);
    let lock = File::open(place.path("card/card.txt")).unwrap();
    lock.lock().unwrap();
    refuses(&place, &["evening", "card", "tuesday.klg"], &format!("{IN_USE}Nothing was changed.\n"));
    refuses(&place, &["summary", "card"], IN_USE);
    lock.unlock().unwrap();
    // those that only read do not exclude each other
    lock.lock_shared().unwrap();
    refuses(&place, &["evening", "card", "tuesday.klg"], &format!("{IN_USE}Nothing was changed.\n"));
    place.ok(&["summary", "card"]);
    // A process that another test has just started may for a moment hold this file too: closing it is not enough.
    lock.unlock().unwrap();
    place.ok(&["evening", "card", "tuesday.klg"]);
}

/// While a `new` is at work its card is in use, at each of its steps.
#[test]
fn a_card_that_is_being_made() {
    let place = Place::with_card(0);
    fs::rename(place.path("card"), place.path("made")).unwrap();
    fs::create_dir(place.path("card")).unwrap();
    fs::write(place.path("card/card.txt"), b"").unwrap();
    let lock = File::open(place.path("card/card.txt")).unwrap();
    // made, but not yet locked
    refuses(&place, &["summary", "card"], "card: no card is here; `havdrims new` makes one\n");
    lock.lock().unwrap();
    for file in ["card.txt", "rule.krl", "sheet", "evenings", "point"] {
        let bytes = fs::read(place.path("made").join(file)).unwrap();
        fs::write(place.path("card").join(file), bytes).unwrap();
        // Each of these waits a moment.
        if ["card.txt", "point"].contains(&file) {
            refuses(&place, &["summary", "card"], IN_USE);
            refuses(&place, &["evening", "card", "day.klg"], &format!("{IN_USE}Nothing was changed.\n"));
        }
        let again = if file == "point" { ALREADY } else { IN_USE };
        refuses(&place, &["new", "card", RULE], again);
    }
    lock.unlock().unwrap();
    place.ok(&["evening", "card", "day.klg"]);
}

/// The commands, all at once.
fn at_once(place: &Place, commands: &[&[&str]]) -> Vec<(i32, String, String)> {
    let start =
        |words: &&[&str]| place.program().args(*words).stdout(Stdio::piped()).stderr(Stdio::piped()).spawn().unwrap();
    let all: Vec<Child> = commands.iter().map(start).collect();
    all.into_iter().map(|child| ended(child.wait_with_output().unwrap())).collect()
}

/// Many commands at once: each ends well or finds the card in use; all do while another holds it.
#[test]
fn two_commands_at_once() {
    let place = Place::with_card(0);
    let lock = File::open(place.path("card/card.txt")).unwrap();
    for log in ["day.klg", "tuesday.klg"] {
        let evening: &[&str] = &["evening", "card", log];
        let in_use = (1, String::new(), format!("{IN_USE}Nothing was changed.\n"));
        lock.lock_shared().unwrap();
        assert_eq!(at_once(&place, &[evening; 12]), vec![in_use.clone(); 12]);
        lock.unlock().unwrap();
        let busy = at_once(&place, &[evening; 12]).into_iter().filter(|ended| {
            assert!(ended.0 == 0 || *ended == in_use, "{ended:?}");
            ended.0 != 0
        });
        // One has the card whenever another finds it in use.
        assert!(busy.count() < 12);
        place.ok(evening);
    }
    assert_eq!(fs::read(place.path("card/sheet")).unwrap(), [1, 1, 1, 1, 1, 0, 1, 1, 0, 1, 1, 1, 1, 1, 1, 0, 1, 1]);
}

/// Of many that make one card, one does; it is found whole.
#[test]
fn two_cards_made_at_once() {
    let place = Place::with_card(0);
    fs::remove_dir_all(place.path("card")).unwrap();
    for round in 0..8 {
        let all = at_once(&place, &[&["new", "card", RULE][..]; 8]);
        let made = all.iter().filter(|(status, _, err)| {
            assert!(*status == 0 || err == IN_USE || err == ALREADY, "{err}");
            *status == 0
        });
        assert_eq!(made.count(), 1, "round {round}");
        assert!(place.ok(&["evening", "card", "day.klg"]).starts_with("records 0 to 11: "));
        fs::remove_dir_all(place.path("card")).unwrap();
    }
}

/// One that reads beside one that writes sees the card before or after, or finds it in use.
#[test]
fn reading_beside_writing() {
    let place = Place::with_card(0);
    let before = place.ok(&["summary", "card"]);
    let (read, write): (&[&str], &[&str]) = (&["summary", "card"], &["evening", "card", "day.klg"]);
    let all = at_once(&place, &[read, read, read, write, read, read, read, write, read, read, read]);
    place.ok(write);
    let after = place.ok(read);
    for (at, (status, out, err)) in all.into_iter().enumerate() {
        match status {
            0 if at % 4 == 3 => assert!(out.contains(&after), "{out}"),
            0 => assert!(out == before || out == after, "{out}"),
            _ => assert!(err.starts_with(IN_USE), "{err}"),
        }
    }
}

extern "C" {
    fn geteuid() -> u32;
}

/// Runs a copy of the program that permissions stop: they do not stop the superuser, who runs it as nobody.
fn run_stopped(place: &Place, words: &[&str]) -> io::Result<Output> {
    let mut command = Command::new(place.path("program"));
    command.current_dir(&place.0).args(words);
    // SAFETY: it has no arguments and cannot fail.
    if unsafe { geteuid() } == 0 {
        command.uid(65_534).gid(65_534);
    }
    loop {
        match command.output() {
            // Another test has just started a process, which for a moment still has the copy open for writing.
            Err(fault) if fault.kind() == ErrorKind::ExecutableFileBusy => thread::sleep(Duration::from_millis(5)),
            output => return output,
        }
    }
}

/// A card, one evening on, in a folder where permissions can stop the program, if there is one: the user nobody may not
/// be known here, not reach the folder, or run no program there.
fn place_for_nobody() -> Option<Place> {
    [Path::new(env!("CARGO_TARGET_TMPDIR")), &env::temp_dir()].into_iter().find_map(|folder| {
        let place = Place::with_card_in(folder, 1);
        fs::copy(env!("CARGO_BIN_EXE_havdrims"), place.path("program")).unwrap();
        for (file, mode) in [(".", 0o755), ("program", 0o755), ("day.klg", 0o644), ("tuesday.klg", 0o644)] {
            fs::set_permissions(place.path(file), Permissions::from_mode(mode)).unwrap();
        }
        match run_stopped(&place, &["help"]) {
            Ok(output) if output.status.success() => Some(place),
            other => {
                println!("{}: the user nobody cannot run the program: {other:?}", folder.display());
                None
            }
        }
    })
}

/// A folder that may not be written. Where permissions cannot stop the program, the next test has to be enough.
#[test]
fn a_folder_that_is_only_read() {
    let Some(place) = place_for_nobody() else { return };
    let run = |words: &[&str]| ended(run_stopped(&place, words).unwrap());
    let modes = |mode: u32, files: &[&str]| {
        for file in files {
            fs::set_permissions(place.path(file), Permissions::from_mode(mode)).unwrap();
        }
    };
    modes(0o444, &["card/card.txt", "card/rule.krl", "card/point", "card/sheet", "card/evenings"]);
    modes(0o555, &["card", "."]);
    let before = place.card();
    let refused = |doing: &str| {
        let (status, _, err) = run(&["evening", "card", "tuesday.klg"]);
        let text = "Permission denied (os error 13)\nNo verdict was counted. \
                    Who runs this command must be able to write the card's folder and its files.\n";
        assert_eq!((status, err), (1, format!("card: cannot {doing}: {text}")));
        assert_eq!(place.card(), before);
    };
    refused("lock the card");
    // the files may be written, but the folder not
    modes(0o666, &["card/card.txt", "card/sheet"]);
    refused("write the file `evenings`");
    modes(0o666, &["card/evenings"]);
    refused("write the point");
    let (status, out, _) = run(&["summary", "card"]);
    assert_eq!((status, out.lines().count()), (0, 2));
    let (status, _, err) = run(&["new", "more", RULE]);
    assert_eq!(status, 1);
    let again = "No card was made. When the cause is gone, repeat the command with the same words.\n";
    assert_eq!(err, format!("more: cannot make the folder: Permission denied (os error 13)\n{again}"));
    modes(0o755, &["card", "."]);
    place.ok(&["evening", "card", "tuesday.klg"]);
}

/// Files that not even the superuser can write: folders stand in their place.
#[test]
fn folders_in_place_of_files() {
    let place = Place::with_card(1);
    let text = "Is a directory (os error 21)\nNo verdict was counted. `havdrims check` looks at the card's files.\n";
    let refused = |doing: &str| {
        let said = place.fails(1, &["evening", "card", "tuesday.klg"]);
        assert_eq!(said, format!("card: cannot {doing}: {text}"));
    };
    let before = place.card();
    fs::create_dir(place.path("card/point.new")).unwrap();
    refused("write the point");
    fs::remove_dir(place.path("card/point.new")).unwrap();
    assert_eq!(place.card(), before);
    fs::rename(place.path("card/card.txt"), place.path("kept")).unwrap();
    fs::create_dir(place.path("card/card.txt")).unwrap();
    refused("lock the card");
    fs::remove_dir(place.path("card/card.txt")).unwrap();
    fs::rename(place.path("kept"), place.path("card/card.txt")).unwrap();
    assert_eq!(place.card(), before);
    place.ok(&["evening", "card", "tuesday.klg"]);
}

/// An operation that may not fail again: the process may have no further file open.
#[test]
fn too_many_open_files() {
    let place = Place::with_card(1);
    let before = place.card();
    let mut command = Command::new("sh");
    let shell = "ulimit -n 4; exec \"$0\" \"$@\"";
    command.args(["-c", shell, env!("CARGO_BIN_EXE_havdrims"), "evening", "card", "tuesday.klg"]).current_dir(&place.0);
    let (status, _, err) = ended(command.output().unwrap());
    let text = "card: cannot read the folder: Too many open files (os error 24)\nNo verdict was counted; repeat the command.\n";
    assert_eq!((status, err.as_str()), (1, text));
    assert_eq!(place.card(), before);
}

/// A write that fails half way: no file may grow beyond a limit, which stands for a disk that is full.
#[test]
fn a_full_disk() {
    let place = Place::with_card(0);
    place.ok(&["worst", "0", "1", "6000", "long.klg"]);
    place.ok(&["new", "small", "e0"]);
    let limited = |folder: &str, log: &str| {
        let before = contents(&place.path(folder));
        let shell = "trap '' XFSZ; ulimit -f 2; exec \"$0\" \"$@\"";
        let mut command = Command::new("sh");
        command.args(["-c", shell, env!("CARGO_BIN_EXE_havdrims"), "evening", folder, log]).current_dir(&place.0);
        let (status, out, err) = ended(command.output().unwrap());
        assert_eq!((status, out.as_str()), (1, ""), "{err}");
        assert_eq!(contents(&place.path(folder)), before, "{err}");
        err
    };
    // the checkpoint of the ninety-second rule has 2,400 bytes, the sheet of the long log 6,000
    let too_large = "File too large (os error 27)\nNo verdict was counted; when there is room, repeat the command.\n";
    assert_eq!(limited("card", "day.klg"), format!("card: cannot write the point: {too_large}"));
    assert_eq!(limited("small", "long.klg"), format!("small: cannot write the sheet: {too_large}"));
    place.ok(&["evening", "card", "day.klg"]);
    let said = place.ok(&["evening", "small", "long.klg"]);
    assert!(said.starts_with("records 0 to 5999: 6000 yes, 0 no\n"), "{said}");
}
