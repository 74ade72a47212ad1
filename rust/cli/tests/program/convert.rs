//! Rules and logs as text and back, and logs to try a kiosk with.

use crate::{ended, Place};
use cli::command::table::COMMANDS;
use cli::convert::SETTINGS;
use evaluator::{cases, log, rule};
use std::fs::{self, Permissions};
use std::os::unix::fs::{symlink, PermissionsExt};

const P1: &str = "10 e0\n11 e0\n11 none\n12 e0\n13 e1\n20 e0\n";

#[test]
fn logs_as_text() {
    let place = Place::new();
    fs::write(place.path("day.txt"), P1).unwrap();
    assert_eq!(place.ok(&["to-log", "day.txt", "day.klg"]), "day.klg: 6 records\n");
    assert_eq!(fs::read(place.path("day.klg")).unwrap(), log::encode(&cases::p1_records()));
    assert_eq!(place.ok(&["to-text", "day.klg"]), P1);

    fs::write(place.path("bad.txt"), "1\n0\n").unwrap();
    let said = place.fails(1, &["to-log", "bad.txt", "bad.klg"]);
    assert_eq!(said, "bad.txt, line 2: second 0 comes after second 1\n");
    assert!(!place.path("bad.klg").exists());
    fs::write(place.path("bad.txt"), [0xff, 0xfe]).unwrap();
    assert_eq!(place.fails(1, &["to-log", "bad.txt", "bad.klg"]), "bad.txt: this is no text in UTF-8\n");
    for bytes in [&b"1 e0\n2 \0\n"[..], b"1\0 \0e\x000\0\n\0", &[0xff, 0xfe, b'1', 0]] {
        fs::write(place.path("bad.txt"), bytes).unwrap();
        let said = place.fails(1, &["to-log", "bad.txt", "bad.klg"]);
        assert_eq!(said, "bad.txt: this is no text: it has a zero byte\n", "{bytes:?}");
        assert!(!place.path("bad.klg").exists());
    }
    let said = place.fails(1, &["to-log", "day.klg", "bad.klg"]);
    assert_eq!(said, "day.klg: this is a log, and a text is wanted here\n");
    // as some editors write it
    fs::write(place.path("day.txt"), format!("\u{feff}{}", P1.replace('\n', "\r\n"))).unwrap();
    place.ok(&["to-log", "day.txt", "again.klg"]);
    assert_eq!(place.ok(&["to-text", "again.klg"]), P1);
    assert!(place.fails(1, &["to-text", "none.klg"]).starts_with("none.klg: "));
    let no_log = "this is no log: it does not begin with KLG; of a text `havdrims to-log` makes one (refused 12)";
    assert_eq!(place.fails(1, &["to-text", "day.txt"]), format!("day.txt: {no_log}\n"));
}

/// What looks like a slip in a log that is typed is refused, and nothing is written.
#[test]
fn slips_in_a_log_as_text() {
    let place = Place::new();
    let mixed = "letters are written all as e0 or all as 0; is a line end missing, or is the time not one number?";
    for (text, said) in [
        ("09 00 e0\n", format!("line 1: `00` stands beside `e0`: {mixed}")),
        ("1 e0\n10 e0 20 e1\n", format!("line 2: `20` stands beside `e0`: {mixed}")),
        ("1 e0 e0\n", "line 1: `e0` is there twice".to_string()),
        ("version 2\n1 e31 service\n", "line 2: `e31` and `service` are the same letter".to_string()),
        (
            "1 e0\r2 e1\r",
            "line 1: the character U+000D stands inside the line: lines end with U+000A, or U+000D and U+000A"
                .to_string(),
        ),
        (
            "1 e0\n2\u{a0}e1\n",
            "line 2: the character U+00A0 is no plain space: spaces and tabs stand between words".to_string(),
        ),
        ("1 e01\n", "line 1: `e01` is no letter: letters are e0 to e31".to_string()),
    ] {
        fs::write(place.path("slip.txt"), text).unwrap();
        assert_eq!(place.fails(1, &["to-log", "slip.txt", "slip.klg"]), format!("slip.txt, {said}\n"), "{text:?}");
        assert!(!place.path("slip.klg").exists());
    }
}

#[test]
fn logs_of_version_2_as_text() {
    let place = Place::new();
    let text = "version 2\n10 e0\n11 service\n11 e1 service\n12 none\n";
    fs::write(place.path("day.txt"), text).unwrap();
    assert_eq!(place.ok(&["to-log", "day.txt", "day.klg"]), "day.klg: 4 records, 2 of them service\n");
    assert_eq!(place.ok(&["to-text", "day.klg"]), text);
    fs::write(place.path("none.txt"), "version 2\n10 e0\n").unwrap();
    assert_eq!(place.ok(&["to-log", "none.txt", "none.klg"]), "none.klg: 1 record\n");
    assert_eq!(place.ok(&["to-text", "none.klg"]), "version 2\n10 e0\n");
    // the same records as version 1: letter 31 is a letter
    let mut bytes = fs::read(place.path("day.klg")).unwrap();
    bytes[4] = 1;
    fs::write(place.path("first.klg"), bytes).unwrap();
    assert_eq!(place.ok(&["to-text", "first.klg"]), "10 e0\n11 e31\n11 e1 e31\n12 none\n");
    fs::write(place.path("bad.txt"), "10 e0\n11 service\n").unwrap();
    let said = place.fails(1, &["to-log", "bad.txt", "bad.klg"]);
    assert_eq!(said, "bad.txt, line 2: `service` needs the line `version 2` or `version 3` before the first record\n");
    assert!(!place.path("bad.klg").exists());
    fs::write(place.path("fourth.klg"), b"KLG\x00\x04\x00\x00\x00").unwrap();
    let fourth = "the log is of version 4, and this program knows 1, 2 and 3 (refused 12)";
    assert_eq!(place.fails(1, &["to-text", "fourth.klg"]), format!("fourth.klg: {fourth}\n"));
}

#[test]
fn trimmed_logs_as_text() {
    let place = Place::new();
    let text = "version 3\ndropped 40\n10 e0\n11 service\n12 none\n";
    fs::write(place.path("day.txt"), text).unwrap();
    let said = place.ok(&["to-log", "day.txt", "day.klg"]);
    assert_eq!(said, "day.klg: 3 records, 1 of them service, behind 40 dropped\n");
    assert_eq!(place.ok(&["to-text", "day.klg"]), text);
    assert_eq!(fs::read(place.path("day.klg")).unwrap().len(), 16 + 8 * 3);
    fs::write(place.path("bad.txt"), "version 2\ndropped 40\n").unwrap();
    let said = place.fails(1, &["to-log", "bad.txt", "bad.klg"]);
    let place_of = "`dropped` stands once, behind the line `version 3` and before the first record";
    assert_eq!(said, format!("bad.txt, line 2: {place_of}\n"));
    fs::write(place.path("short.klg"), b"KLG\x00\x03\x00\x00\x00\x00\x00\x00\x00\x00\x00\x00").unwrap();
    let short = "the log ends after 15 bytes, inside its first 16, before record 0 (refused 12)";
    assert_eq!(place.fails(1, &["to-text", "short.klg"]), format!("short.klg: {short}\n"));
    // the longest of all, and one record more
    let mut most = log::encode_as(3, &[]);
    most.resize(16 + 8 * 1_000_000, 0);
    fs::write(place.path("most.klg"), &most).unwrap();
    assert_eq!(place.ok(&["to-text", "most.klg"]).lines().count(), 1_000_002);
    most.resize(16 + 8 * 1_000_001, 0);
    fs::write(place.path("most.klg"), &most).unwrap();
    assert_eq!(
        place.fails(1, &["to-text", "most.klg"]),
        "most.klg: the log has more than 1000000 records (refused 12)\n"
    );
}

#[test]
fn rules_as_formulas() {
    let place = Place::new();
    assert_eq!(place.ok(&["rule", "e0 until[0,2] e1", "typed.krl"]), "typed.krl: 3 entries\n");
    assert_eq!(fs::read(place.path("typed.krl")).unwrap(), rule::encode(&cases::p1_entries()));
    assert_eq!(place.ok(&["formula", "typed.krl"]), "e0 until[0,2] e1\nwords 70, reach 2 seconds\n");
    fs::write(place.path("empty.krl"), rule::encode(&[])).unwrap();
    assert_eq!(place.ok(&["formula", "empty.krl"]), "empty: every position is yes\nwords 16, reach 0 seconds\n");
    assert_eq!(place.ok(&["rule", "next[0,inf] e0", "next.krl"]), "next.krl: 2 entries\n");
    assert_eq!(place.ok(&["formula", "next.krl"]), "next[0,inf] e0\nwords 48, reach none\n");

    let said = place.fails(1, &["rule", "e0 until e1", "none.krl"]);
    let could = "here could stand `[` and seconds, as in until[0,90] (refused 17)";
    assert_eq!(said, format!("`e1` cannot stand here\n  e0 until e1\n           ^^\n{could}\n"));
    // a formula alone, not the name of a rule file
    let said = place.fails(1, &["rule", "typed.krl", "none.krl"]);
    assert_eq!(said, "`typed.krl` is a rule file, and a formula is wanted here (refused 16)\n");
    // and so none is proposed, nor the file to be written
    fs::write(place.path("notes"), "e0").unwrap();
    for (word, is) in [("notes", "a file"), (".", "a folder")] {
        let said = place.fails(1, &["rule", word, "none.krl"]);
        assert_eq!(said, format!("`{word}` is {is}, and a formula is wanted here (refused 16)\n"));
    }
    for out in ["none.krl", "typed.krl"] {
        let said = place.fails(1, &["rule", "typed.kr", out, "--force"]);
        assert!(said.starts_with("the word `typed` is not known\n  typed.kr\n"), "{said}");
    }
    place.ok(&["new", "judged", "e0"]);
    let said = place.fails(1, &["rule", "judged", "none.krl"]);
    assert_eq!(said, "`judged` is a card, and a formula is wanted here (refused 16)\n");
    let said = place.fails(1, &["new", "card", "typed"]);
    assert_eq!(said, "`typed` is no formula; did you mean typed.krl? (refused 16)\n");
    let said = place.fails(1, &["new", "card", "tpyed.klr"]);
    assert_eq!(said, "`tpyed.klr` is no formula; did you mean typed.krl? (refused 16)\n");
    let said = place.fails(1, &["new", "card", "day"]);
    assert!(said.starts_with("the word `day` is not known\n") && said.ends_with(" (refused 16)\n"), "{said}");
    fs::write(place.path("day"), "e0").unwrap();
    for words in [&["new", "card", "day"][..], &["why", "day", "day.klg", "5"]] {
        let file = "`day` is a file, but no rule file: the name of one ends in .krl (refused 16)\n";
        assert_eq!(place.fails(1, words), file, "{words:?}");
    }
    // what a word processor makes of quotes, and a stroke for a comma
    let said = place.fails(1, &["new", "card", "‘e0", "or", "e1’"]);
    let quotes = "the character ‘ is not known; quotes around a formula are straight ones, '\n  ?e0\n  ^\n";
    assert!(said.starts_with(quotes), "{said}");
    let said = place.fails(1, &["new", "card", "e0 until[0-90] e1"]);
    assert!(
        said.starts_with(
            "the sign `-` is not known; between two ends stands a comma, as in [0,90], and none is below 0\n"
        ),
        "{said}"
    );
    // an arrow is no minus
    for arrow in ["->", "=>", "-->"] {
        let said = place.fails(1, &["new", "card", &format!("e0 {arrow} e1")]);
        let whenever = "`not A or B` says that B is so whenever A is";
        let text = format!("the sign `{arrow}` is not known; {whenever}\n  e0 {arrow} e1\n     ");
        assert!(said.starts_with(&format!("{text}{}\n", "^".repeat(arrow.len()))), "{said}");
        assert!(said.ends_with("(refused 16)\n") && !said.contains("comma"), "{said}");
    }
    // a variable that is not set
    let empty =
        "the formula is empty\n  \n  ^\nhere could stand a letter as e0, `not`, `prev`, `next` or `(` (refused 17)\n";
    for words in
        [&["rule", "e0", "", "none.krl"][..], &["rule", "", "e0", "e1", "none.krl"], &["new", "card", "e0", ""]]
    {
        assert_eq!(place.fails(1, words), empty, "{words:?}");
    }
    assert_eq!(place.ok(&["rule", "e0", "one.krl"]), "one.krl: 1 entry\n");
    assert_eq!(place.ok(&["rule", "e0", "e1", "two.krl"]), "two.krl: 2 formulas, 2 entries\n");
    assert!(!place.path("none.krl").exists() && !place.path("card").exists());
    fs::write(place.path("long.krl"), [0; 100_000]).unwrap();
    assert_eq!(
        place.fails(1, &["formula", "long.krl"]),
        "long.krl: this is no rule file: it does not begin with KRL (refused 1)\n"
    );
}

#[test]
fn several_formulas_in_one_rule() {
    let place = Place::new();
    let said = place.ok(&["rule", "e0 until[0,2] e1", "not (e0 until[0,2] e1)", "both.krl"]);
    assert_eq!(said, "both.krl: 2 formulas, 7 entries\n");
    let until = cases::p1_entries();
    let not_until = [until.as_slice(), &[rule::Entry::not()]].concat();
    assert_eq!(fs::read(place.path("both.krl")).unwrap(), rule::encode_several(&[until, not_until]));
    let shown = "e0 until[0,2] e1\nnot (e0 until[0,2] e1)\nwords 148, reach 2 seconds\n";
    assert_eq!(place.ok(&["formula", "both.krl"]), shown);
    // one formula as version 2
    fs::write(place.path("one.krl"), rule::encode_as(2, &cases::p1_entries())).unwrap();
    assert_eq!(place.ok(&["formula", "one.krl"]), "e0 until[0,2] e1\nwords 78, reach 2 seconds\n");

    let eight = ["rule", "e0", "e1", "e2", "e3", "e4", "e5", "e6", "e7", "eight.krl"];
    assert_eq!(place.ok(&eight), "eight.krl: 8 formulas, 8 entries\n");
    assert_eq!(place.ok(&["formula", "eight.krl"]), "e0\ne1\ne2\ne3\ne4\ne5\ne6\ne7\nwords 152, reach 0 seconds\n");
    let nine = [&eight[..1], &["e8"], &eight[1..9], &["none.krl"]].concat();
    let too_many = "all together: these are 9 formulas, and 8 are the most (refused 7)\n";
    assert_eq!(place.fails(1, &nine), too_many);
    // a rule file with several of them, and others beside it
    let said = place.fails(1, &["new", "none", "eight.krl", "e0", "one.krl"]);
    assert_eq!(said, too_many.replace('9', "10"));
    assert!(!place.path("none").exists());
    // the file's name is forgotten
    let said = place.fails(2, &["rule", "e0", "e1"]);
    let expected = "expected: havdrims rule FORMULA.. RULE [--force]\n";
    assert_eq!(said, format!("`e1` is no name of a rule file: that ends in .krl\n{expected}"));
    assert!(!place.path("e1").exists());
    let said = place.fails(1, &["rule", "e0", "e1 or", "none.krl"]);
    assert!(said.starts_with("the formula breaks off here\n  e1 or\n       ^\n"), "{said}");
    let many = "not ".repeat(64) + "e0";
    let said = place.fails(1, &["rule", &many, &many, "none.krl"]);
    assert_eq!(said, "all together: these are 130 letters and operators, and 128 are the most (refused 4)\n");
    let long = "e0 until[0,3600] e1";
    let said = place.fails(1, &["rule", long, long, "none.krl"]);
    assert_eq!(said, "all together: their checkpoint needs more than 8192 words (refused 8)\n");
    assert!(!place.path("none.krl").exists());
}

#[test]
fn logs_to_try_a_kiosk_with() {
    let place = Place::new();
    assert_eq!(place.ok(&["worst", "0", "2", "5", "worst.klg"]), "worst.klg: 5 records, 3 seconds waiting\n");
    assert_eq!(place.ok(&["to-text", "worst.klg"]), "0 e0\n1 e0\n2 e0\n2 e0\n2 e0\n");
    assert_eq!(
        place.fails(1, &["worst", "3", "2", "5", "bad.klg"]),
        "the lower end, 3, is above the upper one, 2 (refused 6)\n"
    );
    let said = place.fails(1, &["worst", "0", "3601", "5", "bad.klg"]);
    assert_eq!(said, "3601 seconds are more than 3600 (refused 6)\n");
    let said = place.fails(1, &["worst", "0", "2", "1000001", "bad.klg"]);
    assert_eq!(said, "N is 1000001, and a log has at most 1000000 records (refused 19)\n");
    let said = place.fails(2, &["worst", "0", "2", "-1", "bad.klg"]);
    assert_eq!(said, "`-1` is no number, or too large a one\nexpected: havdrims worst LOW HIGH N LOG [--force]\n");
    assert!(!place.path("bad.klg").exists());

    let options = "simulate run.klg --seed 6 --seconds 9 --warm-up 1 --print-time 2 --switch-off 1 --mean-gap 3";
    let options: Vec<&str> = options.split(' ').collect();
    assert_eq!(place.ok(&options), "run.klg: 9 records, finished 2, printing 1, waiting 2\n");
    let shown = place.ok(&["to-text", "run.klg"]);
    assert_eq!(shown, "0 e2\n1 e0 e1\n2 e0\n3 e0 e1 e2 e3\n4 e0\n5 e0 e3\n6 e2\n7 e0 e1 e2\n8 e0 e2\n");
    let with = |status: i32, at: usize, word: &str| {
        let mut words = options.clone();
        words[at] = word;
        place.fails(status, &words)
    };
    // each setting at both ends of its range, and beyond them
    for (option, least, most) in SETTINGS {
        let at = 1 + options.iter().position(|&word| word == option).unwrap();
        for number in [least.to_string(), most.to_string()] {
            let mut words = options.clone();
            words[at] = &number;
            place.ok(&[&words[..], &["--force"]].concat());
        }
        let beyond = [least.checked_sub(1), most.checked_add(1)];
        for number in beyond.into_iter().flatten() {
            let text = format!("{option} is {number}, and may be {least} to {most} (refused 26)\n");
            assert_eq!(with(1, at, &number.to_string()), text);
        }
    }
    // the help says the same ranges
    let table = COMMANDS.iter().find(|command| command.name == "simulate").unwrap();
    for ((option, least, most), said) in SETTINGS.iter().zip(table.options) {
        assert_eq!(said.name, *option);
        assert!(said.does.contains(&format!("{least} to {most}")), "{}", said.does);
    }
    let wrong = |said: String, text: &str| {
        assert!(said.starts_with(&format!("{text}\nexpected: havdrims simulate LOG --seconds N ")), "{said}");
    };
    wrong(with(2, 3, "x"), "--seed: `x` is no number, or too large a one");
    wrong(with(2, 4, "--seed"), "--seed is there twice");
    wrong(with(2, 4, "--second"), "`--second` is no option of `havdrims simulate`; did you mean --seconds?");
    wrong(place.fails(2, &options[..12]), "--mean-gap is missing");
    wrong(place.fails(2, &options[..13]), "--mean-gap wants N behind it");
}

/// A file that is there is replaced only if so told, none is put into a card, and what is no file stays.
#[test]
fn where_files_go() {
    let place = Place::with_card(1);
    fs::write(place.path("day.txt"), P1).unwrap();
    let settings = "--seed 6 --seconds 9 --warm-up 1 --print-time 2 --switch-off 1 --mean-gap 3";
    let commands = |file: &str| {
        let simulate = format!("simulate {file} {settings}");
        ["rule e0 ", "to-log day.txt ", "worst 0 2 5 "]
            .map(|words| format!("{words}{file}"))
            .into_iter()
            .chain([simulate])
    };
    let fails = |line: &str, text: &str| {
        let words: Vec<&str> = line.split(' ').collect();
        assert_eq!(place.fails(1, &words), text, "{line}");
    };
    let before = place.card();
    for line in commands("out.krl") {
        let words: Vec<&str> = line.split(' ').collect();
        let said = place.ok(&words);
        let made = fs::read(place.path("out.krl")).unwrap();
        fs::write(place.path("out.krl"), b"kept").unwrap();
        fails(&line, "out.krl: a file is here already; --force replaces it\n");
        assert_eq!(fs::read(place.path("out.krl")).unwrap(), b"kept");
        // who may read and write the old file may do so with the new one, and no others
        fs::set_permissions(place.path("out.krl"), Permissions::from_mode(0o460)).unwrap();
        assert_eq!(place.ok(&[&words[..], &["--force"]].concat()), said, "{line}");
        assert_eq!(fs::read(place.path("out.krl")).unwrap(), made, "{line}");
        assert_eq!(fs::metadata(place.path("out.krl")).unwrap().permissions().mode() & 0o777, 0o460, "{line}");
        fs::remove_file(place.path("out.krl")).unwrap();
        let twice = place.fails(2, &[&words[..], &["--force", "--force"]].concat());
        assert!(twice.starts_with("--force is there twice\nexpected: "), "{twice}");
    }
    for file in ["card/out.krl", "card/rule.krl", "./card/../card/rule.krl"] {
        for line in commands(file) {
            let text = format!("{file}: this would be a file in a card, which holds no others than its own\n");
            fails(&line, &text);
            fails(&format!("{line} --force"), &text);
        }
    }
    fs::create_dir(place.path("folder.krl")).unwrap();
    fails("rule e0 folder.krl --force", "folder.krl: what is here is no file, and is not replaced\n");
    fails("to-log day.txt /dev/null --force", "/dev/null: what is here is no file, and is not replaced\n");
    // a link stands for what it leads to: it stays, and leads into no card
    symlink("card/rule.krl", place.path("link.krl")).unwrap();
    let text = "link.krl: this would be a file in a card, which holds no others than its own\n";
    fails("rule e0 link.krl --force", text);
    fs::create_dir(place.path("away")).unwrap();
    fs::write(place.path("away/rule.krl"), b"old").unwrap();
    symlink("away/rule.krl", place.path("other.krl")).unwrap();
    fails("rule e0 other.krl", "other.krl: a file is here already; --force replaces it\n");
    place.ok(&["rule", "e0", "other.krl", "--force"]);
    assert!(place.path("other.krl").is_symlink());
    assert_eq!(fs::read(place.path("away/rule.krl")).unwrap(), rule::encode(&[rule::Entry::letter(0)]));
    symlink("none/rule.krl", place.path("nowhere.krl")).unwrap();
    let text = "nowhere.krl: this link leads to no file; take it away, or choose another name\n";
    fails("rule e0 nowhere.krl", text);
    // a log and a rule take each other's place not even so
    place.ok(&["rule", "e0", "some.krl"]);
    place.ok(&["to-log", "day.txt", "some.klg"]);
    let [some_rule, some_log] = ["some.krl", "some.klg"].map(|name| fs::read(place.path(name)).unwrap());
    for line in ["to-log day.txt some.krl", "worst 0 2 5 some.krl"] {
        for option in ["", " --force"] {
            fails(&format!("{line}{option}"), "some.krl: a rule is here, and is not replaced; choose another name\n");
        }
    }
    fs::copy(place.path("some.klg"), place.path("named.krl")).unwrap();
    fails("rule e0 named.krl --force", "named.krl: a log is here, and is not replaced; choose another name\n");
    assert_eq!(["some.krl", "some.klg"].map(|name| fs::read(place.path(name)).unwrap()), [some_rule, some_log]);
    place.ok(&["rule", "e1", "some.krl", "--force"]);
    place.ok(&["worst", "0", "2", "5", "some.klg", "--force"]);
    // what a file is made from stays, whatever its name
    let typed = fs::read(place.path("day.txt")).unwrap();
    fs::write(place.path("made.klg.new"), &typed).unwrap();
    place.ok(&["to-log", "made.klg.new", "made.klg"]);
    assert_eq!(fs::read(place.path("made.klg.new")).unwrap(), typed);
    fs::write(place.path(".made.klg.havdrims-new"), &typed).unwrap();
    let text = "made.klg: until it is whole this file has the name of what it is made from; choose another name\n";
    fails("to-log .made.klg.havdrims-new made.klg --force", text);
    assert_eq!(fs::read(place.path(".made.klg.havdrims-new")).unwrap(), typed);
    symlink("day.txt", place.path("link.txt")).unwrap();
    fs::hard_link(place.path("day.txt"), place.path("hard.klg")).unwrap();
    for log in ["day.txt", "./day.txt", "link.txt", "hard.klg"] {
        let text = format!("{log}: this is the file that it is made from, and is not replaced; choose another name\n");
        for line in [format!("to-log day.txt {log}"), format!("to-log link.txt {log} --force")] {
            fails(&line, &text);
        }
        // what standard input comes from is such a file too
        let day = fs::File::open(place.path("day.txt")).unwrap();
        let said = place.program().args(["to-log", "-", log, "--force"]).stdin(day).output().unwrap();
        assert_eq!(ended(said), (1, String::new(), text));
    }
    assert_eq!(fs::read(place.path("day.txt")).unwrap(), typed);
    for command in ["rule", "to-log", "worst", "simulate", "trim"] {
        let help = place.help(command);
        assert!(help.contains("replaced only with --force") && help.contains("card"), "{help}");
    }
    assert_eq!(place.card(), before);
}
