//! Output for other programs, colour on a terminal, standard input, and logs that are nearly full.

use crate::{ended, example, Place, RULE};
use std::ffi::{c_char, c_int, CStr};
use std::fs::{self, File};
use std::io::{Read, Write};
use std::os::fd::{FromRawFd, OwnedFd};
use std::path::Path;
use std::process::Stdio;
use std::thread;
use std::time::Duration;

/// A value of JSON. Numbers are whole ones here.
#[derive(Clone, Debug, PartialEq)]
enum Json {
    Null,
    Truth(bool),
    Number(u64),
    Text(String),
    List(Vec<Json>),
    Object(Vec<(String, Json)>),
}

/// A small reader, which takes all of the text or panics.
struct Reader<'a>(&'a str);

impl Reader<'_> {
    fn all(text: &str) -> Json {
        let mut reader = Reader(text);
        let value = reader.value();
        assert_eq!(reader.0.trim_start(), "", "{text}");
        value
    }

    fn take(&mut self, sign: &str) -> bool {
        self.0 = self.0.trim_start();
        let rest = self.0.strip_prefix(sign);
        self.0 = rest.unwrap_or(self.0);
        rest.is_some()
    }

    fn value(&mut self) -> Json {
        for (word, value) in [("null", Json::Null), ("true", Json::Truth(true)), ("false", Json::Truth(false))] {
            if self.take(word) {
                return value;
            }
        }
        if self.take("[") {
            return Json::List(self.several("]", Reader::value));
        }
        if self.take("{") {
            return Json::Object(self.several("}", |reader| {
                let name = reader.text();
                assert!(reader.take(":"), "{}", reader.0);
                (name, reader.value())
            }));
        }
        if self.0.starts_with('"') {
            return Json::Text(self.text());
        }
        let digits = self.0.len() - self.0.trim_start_matches(|letter: char| letter.is_ascii_digit()).len();
        let (number, rest) = self.0.split_at(digits);
        assert!(digits == 1 || !number.starts_with('0'), "{number}");
        self.0 = rest;
        Json::Number(number.parse().unwrap())
    }

    fn several<T>(&mut self, end: &str, one: impl Fn(&mut Self) -> T) -> Vec<T> {
        let mut all = Vec::new();
        if self.take(end) {
            return all;
        }
        loop {
            all.push(one(self));
            if self.take(end) {
                return all;
            }
            assert!(self.take(","), "{}", self.0);
        }
    }

    fn text(&mut self) -> String {
        assert!(self.take("\""), "{}", self.0);
        let mut text = String::new();
        let mut letters = self.0.char_indices();
        while let Some((at, letter)) = letters.next() {
            match letter {
                '"' => {
                    self.0 = &self.0[at + 1..];
                    return text;
                }
                '\\' => match letters.next().unwrap().1 {
                    'n' => text.push('\n'),
                    'u' => {
                        let digits: String = letters.by_ref().take(4).map(|(_, digit)| digit).collect();
                        text.push(char::from_u32(u32::from_str_radix(&digits, 16).unwrap()).unwrap());
                    }
                    quoted @ ('"' | '\\') => text.push(quoted),
                    other => panic!("\\{other}"),
                },
                _ => {
                    assert!(!letter.is_control(), "{letter:?}");
                    text.push(letter);
                }
            }
        }
        panic!("a text without its end")
    }
}

impl Json {
    /// What stands under this path of names and numbers: `so_far.formulas.0.no`.
    fn at(&self, path: &str) -> &Json {
        path.split('.').fold(self, |value, step| match value {
            Json::Object(members) => &members.iter().find(|(name, _)| name == step).expect(step).1,
            Json::List(items) => &items[step.parse::<usize>().unwrap()],
            other => panic!("{step} in {other:?}"),
        })
    }

    fn names(&self) -> Vec<&str> {
        let Json::Object(members) = self else { panic!("{self:?}") };
        members.iter().map(|(name, _)| name.as_str()).collect()
    }

    /// Every name in it, at any depth.
    fn all_names(&self, names: &mut Vec<String>) {
        match self {
            Json::List(items) => items.iter().for_each(|item| item.all_names(names)),
            Json::Object(members) => members.iter().for_each(|(name, value)| {
                names.push(name.clone());
                value.all_names(names);
            }),
            _ => {}
        }
    }

    fn number(&self, path: &str) -> u64 {
        match self.at(path) {
            Json::Number(number) => *number,
            other => panic!("{path}: {other:?}"),
        }
    }
}

const SO_FAR: [&str; 9] = [
    "verdicts",
    "formulas",
    "open",
    "positions",
    "records",
    "service_records",
    "first_record",
    "first_position",
    "closed",
];

#[test]
fn evenings_for_other_programs() {
    let place = Place::with_card(0);
    let said = Reader::all(&place.ok(&["evening", "card", "day.klg", "--json"]));
    assert_eq!(said.names(), ["new", "new_records", "so_far", "released_records", "records_left", "followed_by"]);
    assert_eq!(said.at("followed_by"), &Json::List(Vec::new()));
    assert_eq!(said.at("new").names(), ["verdicts", "first_position", "formulas", "service_records"]);
    assert_eq!(said.at("so_far").names(), SO_FAR);
    let numbers = |said: &Json, all: &[(&str, u64)]| {
        for (path, number) in all {
            assert_eq!(said.number(path), *number, "{path}");
        }
    };
    numbers(&said, &[("new.verdicts", 12), ("new.first_position", 0), ("new.service_records", 0)]);
    numbers(&said, &[("new.formulas.0.yes", 10), ("new.formulas.0.no", 2), ("released_records", 12)]);
    numbers(&said, &[("so_far.verdicts", 12), ("so_far.formulas.0.no", 2), ("so_far.formulas.0.latest_no", 8)]);
    numbers(&said, &[("so_far.open", 2), ("so_far.positions", 14), ("so_far.records", 14), ("records_left", 999_986)]);
    assert_eq!(said.at("so_far.closed"), &Json::Truth(false));
    let again = Reader::all(&place.ok(&["evening", "card", "day.klg", "--json"]));
    assert_eq!((again.at("new.first_position"), again.number("new.verdicts")), (&Json::Null, 0));
    assert_eq!((said.number("new_records"), again.number("new_records")), (14, 0));
    let closed = Reader::all(&place.ok(&["close", "card", "tuesday.klg", "--final", "--json"]));
    assert_eq!(closed.at("so_far.closed"), &Json::Truth(true));
    numbers(&closed, &[("new.verdicts", 7), ("new.first_position", 12), ("so_far.records", 19)]);

    // service records, several formulas, and a card that begins later
    fs::copy(example("visit.klg"), place.path("visit.klg")).unwrap();
    place.ok(&["new", "two", RULE, "e0", "--from", "2"]);
    let said = Reader::all(&place.ok(&["evening", "two", "visit.klg", "--json"]));
    numbers(&said, &[("new.service_records", 3), ("so_far.service_records", 3), ("so_far.records", 15)]);
    numbers(&said, &[("so_far.first_record", 2), ("so_far.first_position", 2), ("new.first_position", 2)]);
    numbers(&said, &[("so_far.formulas.1.no", 1), ("released_records", 15), ("records_left", 999_983)]);
    // what is refused is said in words, and nothing is printed
    assert!(place.fails(1, &["evening", "card", "day.klg", "--json"]).starts_with("card: the card is closed"));
}

#[test]
fn summaries_and_checks_for_other_programs() {
    let place = Place::with_card(1);
    let summary = Reader::all(&place.ok(&["summary", "card", "--json"]));
    let names = vec!["so_far", "followed_by", "fault"];
    assert_eq!((summary.names(), summary.at("so_far").names()), (names, SO_FAR.to_vec()));
    assert_eq!((summary.number("so_far.verdicts"), summary.at("fault")), (12, &Json::Null));
    let check = Reader::all(&place.ok(&["check", "card", "--json"]));
    let names = ["good", "fault", "files", "vouched_verdicts", "new_card_from_record", "so_far", "followed_by"];
    assert_eq!(check.names(), names);
    assert_eq!((check.at("good"), check.at("fault")), (&Json::Truth(true), &Json::Null));
    assert_eq!((check.at("so_far"), check.number("vouched_verdicts")), (summary.at("so_far"), 12));
    assert_eq!(check.at("files.0.name"), &Json::Text("card.txt".to_string()));
    assert_eq!(check.at("files.0.says"), &Json::Text("good".to_string()));
    assert_eq!(check.at("new_card_from_record"), &Json::Null);

    fs::write(place.path("card/a \"file\"\n\u{1}"), b"").unwrap();
    fs::write(place.path("card/point"), b"").unwrap();
    let fault = Json::Text("the file `point` is not that of a card".to_string());
    for command in ["summary", "check"] {
        let (printed, said) = place.partly(&[command, "card", "--json"]);
        let json = Reader::all(&printed);
        assert_eq!(json.at("fault"), &fault);
        assert!(said.starts_with("card: the file `point` is not that of a card\n"), "{said}");
        assert_eq!(json.at("so_far"), summary.at("so_far"));
        if command == "check" {
            assert_eq!(json.names(), names);
            assert_eq!((json.number("vouched_verdicts"), json.number("new_card_from_record")), (12, 12));
            assert_eq!(json.at("files.5.name"), &Json::Text("a \"file\"\n\u{1}".to_string()));
        }
    }
    let mut sheet = fs::read(place.path("card/sheet")).unwrap();
    sheet[3] ^= 1;
    fs::write(place.path("card/sheet"), sheet).unwrap();
    let (printed, _) = place.partly(&["check", "card", "--json"]);
    let json = Reader::all(&printed);
    assert_eq!((json.at("so_far"), json.number("vouched_verdicts")), (&Json::Null, 0));
    fs::write(place.path("card/card.txt"), b"").unwrap();
    let (printed, _) = place.partly(&["check", "card", "--json"]);
    let json = Reader::all(&printed);
    assert_eq!((json.at("so_far"), json.number("vouched_verdicts")), (&Json::Null, 0));
}

#[test]
fn sheets_for_other_programs() {
    let place = Place::with_card(1);
    let printed = place.ok(&["sheet", "card", "--json"]);
    // a line for each position
    assert_eq!(printed.lines().nth(11), Some("    {\"position\": 5, \"yes\": [false]},"), "{printed}");
    let sheet = Reader::all(&printed);
    assert_eq!(sheet.names(), ["formulas", "first_record", "first_position", "fault", "verdicts"]);
    place.ok(&["new", "later", RULE, "--from", "3"]);
    let later = Reader::all(&place.ok(&["sheet", "later", "--json"]));
    assert_eq!((later.number("first_record"), later.number("first_position")), (3, 3));
    let Json::List(verdicts) = sheet.at("verdicts") else { panic!("{sheet:?}") };
    let said: String = verdicts
        .iter()
        .map(|verdict| {
            format!(
                "{} {}\n",
                verdict.number("position"),
                if verdict.at("yes.0") == &Json::Truth(true) { "yes" } else { "no" }
            )
        })
        .collect();
    assert_eq!(said, place.ok(&["sheet", "card"]));
    let (status, none, said) = place.run(&["sheet", "card", "--json", "--from", "100"]);
    assert_eq!((status, said.as_str()), (0, "card: records from 100 on have no verdict yet\n"));
    let none = Reader::all(&none);
    assert_eq!((none.at("verdicts"), none.number("formulas")), (&Json::List(Vec::new()), 1));
    place.ok(&["new", "two", RULE, "e0"]);
    place.ok(&["evening", "two", "day.klg"]);
    let two = Reader::all(&place.ok(&["sheet", "two", "--json", "--no", "--to", "5"]));
    let (yes, no) = (Json::Truth(true), Json::Truth(false));
    assert_eq!((two.number("verdicts.0.position"), two.at("verdicts.0.yes")), (0, &Json::List(vec![yes, no.clone()])));
    assert_eq!(two.at("verdicts.1.yes.0"), &no);
    fs::write(place.path("card/point"), b"").unwrap();
    let (printed, _) = place.partly(&["sheet", "card", "--json", "--no"]);
    assert_ne!(Reader::all(&printed).at("fault"), &Json::Null);
    let both = place.fails(2, &["sheet", "card", "--json", "--csv"]);
    assert!(both.starts_with("--csv and --json exclude each other\n"), "{both}");
}

/// docs/FORMATS.md has every name that is printed, and no other, and its example is what is printed.
#[test]
fn the_names_that_are_documented() {
    let place = Place::with_card(0);
    let formats = fs::read_to_string(Path::new(env!("CARGO_MANIFEST_DIR")).join("../../docs/FORMATS.md")).unwrap();
    let part = formats.split("## JSON\n").nth(1).unwrap().split("\n## ").next().unwrap();
    let shown: String =
        part.lines().filter_map(|line| line.strip_prefix("    ")).map(|line| format!("{line}\n")).collect();
    let evening = place.ok(&["evening", "card", "day.klg", "--json"]);
    assert_eq!(shown, format!("$ havdrims evening card day.klg --json\n{evening}"));

    let row = |line: &str| line.split('|').skip(2).map(str::to_string).collect::<Vec<_>>().concat();
    let rows: String = part.lines().filter(|line| line.starts_with('|')).map(row).collect();
    let mut documented: Vec<&str> = rows.split('`').skip(1).step_by(2).filter(|name| !name.contains(' ')).collect();
    let mut printed = Vec::new();
    place.ok(&["new", "next", RULE, "--after", "card"]);
    for words in [&["summary", "card", "--json"][..], &["check", "card", "--json"], &["sheet", "card", "--json"]] {
        Reader::all(&place.ok(words)).all_names(&mut printed);
    }
    Reader::all(&evening).all_names(&mut printed);
    documented.sort_unstable();
    documented.dedup();
    printed.sort_unstable();
    printed.dedup();
    assert_eq!(documented, printed);
}

/// Of positions that have no verdict it is said, so that no line of --no is not taken for an all-clear.
#[test]
fn parts_of_a_sheet_without_a_verdict() {
    let place = Place::with_card(1);
    let says = |line: &str, printed: &str, said: &str| {
        let words: Vec<&str> = line.split(' ').collect();
        assert_eq!(place.run(&words), (0, printed.to_string(), said.to_string()), "{line}");
    };
    // 12 have one
    says("sheet card --no --from 9", "", "");
    says("sheet card --from 11 --to 11", "11 yes\n", "");
    says("sheet card --no --from 12", "", "card: records from 12 on have no verdict yet\n");
    says("sheet card --no --from 12 --to 13", "", "card: records 12 to 13 have no verdict yet\n");
    says("sheet card --no --from 9 --to 20", "", "card: records 12 to 20 have no verdict yet\n");
    says("sheet card --to 12 --csv --from 11", "position,verdict\n11,yes\n", "card: record 12 has no verdict yet\n");
    says("sheet card --no --to 12", "5 no\n8 no\n", "card: record 12 has no verdict yet\n");
    // before the first
    place.ok(&["new", "next", RULE, "--after", "card"]);
    says("sheet next --no", "", "next: records from 12 on have no verdict yet\n");
    let both =
        "next: records 3 to 11 are before the card's first one, 12\nnext: records from 12 on have no verdict yet\n";
    says("sheet next --no --from 3", "", both);
    place.ok(&["evening", "next", "tuesday.klg"]);
    says("sheet next --no", "15 no\n", "");
    says("sheet next --no --to 12", "", "");
    says("sheet next --from 11 --to 12", "12 yes\n", "next: record 11 is before the card's first one, 12\n");
    for line in ["sheet next --no --to 11", "sheet next --no --from 0 --to 11"] {
        says(line, "", "next: records 0 to 11 are before the card's first one, 12\n");
    }
    let both =
        "next: records 9 to 11 are before the card's first one, 12\nnext: records 18 to 19 have no verdict yet\n";
    says("sheet next --no --from 9 --to 19", "15 no\n", both);
    // behind the last
    place.ok(&["close", "next", "tuesday.klg", "--final"]);
    says("sheet next --no --from 18 --to 18", "18 no\n", "");
    says("sheet next --no --from 19", "", "next: records from 19 on have no verdict: the card is closed\n");
    says(
        "sheet next --no --from 17 --to 20",
        "18 no\n",
        "next: records 19 to 20 have no verdict: the card is closed\n",
    );
    // where positions are no records
    place.ok(&["new", "visited", RULE]);
    fs::copy(example("visit.klg"), place.path("visit.klg")).unwrap();
    place.ok(&["evening", "visited", "visit.klg"]);
    says("sheet visited --no --from 12 --to 14", "", "visited: positions 12 to 14 have no verdict yet\n");
    // of a card that is damaged it is said what is vouched for
    fs::write(place.path("card/point"), b"half").unwrap();
    let (printed, said) = place.partly(&["sheet", "card", "--no", "--from", "12"]);
    assert_eq!(
        (printed.as_str(), said.contains("yet"), said.contains("first 12 verdicts")),
        ("", false, true),
        "{said}"
    );
    assert!(place.help("sheet").contains("no line of --no is no all-clear there"));
}

/// Which positions are printed.
#[test]
fn parts_of_a_sheet() {
    let place = Place::with_card(1);
    assert_eq!(place.ok(&["sheet", "card", "--no"]), "5 no\n8 no\n");
    assert_eq!(place.ok(&["sheet", "card", "--no", "--csv", "--from", "6"]), "position,verdict\n8,no\n");
    assert_eq!(place.ok(&["sheet", "card", "--to", "1"]), "0 yes\n1 yes\n");
    assert_eq!(place.ok(&["sheet", "card", "--from", "4", "--to", "5"]), "4 yes\n5 no\n");
    for more in [&[][..], &["--no"], &["--csv"], &["--json", "--no"]] {
        let said = place.fails(2, &[&["sheet", "card", "--from", "5", "--to", "4"], more].concat());
        assert!(said.starts_with("--from 5 is above --to 4\nexpected: havdrims sheet CARD "), "{said}");
    }
    // of several formulas one is enough
    place.ok(&["new", "two", RULE, "not e1"]);
    place.ok(&["evening", "two", "day.klg"]);
    assert_eq!(place.ok(&["sheet", "two", "--no"]), "4 yes no\n5 no yes\n7 yes no\n8 no yes\n11 yes no\n");
}

extern "C" {
    fn posix_openpt(flags: c_int) -> c_int;
    fn grantpt(fd: c_int) -> c_int;
    fn unlockpt(fd: c_int) -> c_int;
    fn ptsname(fd: c_int) -> *const c_char;
}

/// What a command prints on a terminal, with these variables set.
fn on_terminal(place: &Place, words: &[&str], variables: &[(&str, &str)]) -> String {
    const READ_WRITE_NO_CONTROL: c_int = 0o2 | 0o400;
    // SAFETY: the number is that of a terminal that was just opened, and the name is copied before another is asked for.
    let (mut master, name) = unsafe {
        let fd = posix_openpt(READ_WRITE_NO_CONTROL);
        assert!(fd >= 0 && grantpt(fd) == 0 && unlockpt(fd) == 0);
        (File::from(OwnedFd::from_raw_fd(fd)), CStr::from_ptr(ptsname(fd)).to_str().unwrap().to_string())
    };
    let terminal = File::options().read(true).write(true).open(name).unwrap();
    let mut command = place.program();
    command.args(words).env_remove("NO_COLOR").env("TERM", "xterm").envs(variables.iter().copied());
    let status = command.stdout(terminal).status().unwrap();
    assert!(status.success(), "{words:?}");
    drop(command);
    let mut printed = Vec::new();
    let mut part = [0; 4096];
    // At the end a terminal that nobody has open any more fails.
    while let Ok(number @ 1..) = master.read(&mut part) {
        printed.extend(&part[..number]);
    }
    String::from_utf8(printed).unwrap().replace("\r\n", "\n")
}

/// One at a time: `ptsname` has one place for the name.
#[test]
fn colour_on_a_terminal_alone() {
    let place = Place::with_card(0);
    let red = |text: &str| format!("\x1b[1;31m{text}\x1b[0m");
    let plain = "records 0 to 11: 10 yes, 2 no\nso far: 12 verdicts, 2 no, the latest at record 8\n\
                 open: 2 of 14 records\nrecords 0 to 11 may be overwritten\n";
    assert_eq!(on_terminal(&place, &["evening", "card", "day.klg"], &[]), plain.replace("2 no", &red("2 no")));
    let summary = place.ok(&["summary", "card"]);
    assert!(!summary.contains('\x1b'), "{summary}");
    assert_eq!(on_terminal(&place, &["summary", "card"], &[]), summary.replace("2 no", &red("2 no")));
    for variables in [&[("NO_COLOR", "1")][..], &[("TERM", "dumb")], &[("TERM", "")]] {
        assert_eq!(on_terminal(&place, &["summary", "card"], variables), summary);
    }
    assert_eq!(on_terminal(&place, &["summary", "card"], &[("NO_COLOR", "")]), summary.replace("2 no", &red("2 no")));
    let sheet = on_terminal(&place, &["sheet", "card", "--from", "7", "--to", "8"], &[]);
    assert_eq!(sheet, format!("7 yes\n8 {}\n", red("no")));
    // what other programs read has none, and neither has a count of 0
    for words in [&["sheet", "card", "--csv"][..], &["sheet", "card", "--json"], &["summary", "card", "--json"]] {
        assert_eq!(on_terminal(&place, words, &[]), place.ok(words));
    }
    place.ok(&["new", "none", RULE]);
    assert!(!on_terminal(&place, &["summary", "none"], &[]).contains('\x1b'));
    let check = on_terminal(&place, &["check", "card"], &[]);
    assert!(check.contains(&red("2 no")), "{check}");
}

/// `-` is standard input for what is read, and never a file that is written.
#[test]
fn standard_input() {
    let place = Place::with_card(0);
    let run = |words: &[&str], file: &str| {
        let mut command = place.program();
        let input = File::open(place.path(file)).unwrap();
        ended(command.args(words).stdin(input).output().unwrap())
    };
    let ok = |words: &[&str], file: &str| {
        let (status, out, err) = run(words, file);
        assert_eq!((status, err.as_str()), (0, ""), "{words:?}");
        out
    };
    for name in ["day.txt", "rule.krl", "visit.klg"] {
        fs::copy(example(name), place.path(name)).unwrap();
    }
    assert!(ok(&["evening", "card", "-"], "day.klg").starts_with("records 0 to 11: 10 yes, 2 no\n"));
    assert_eq!(ok(&["open", "card", "-"], "day.klg"), place.ok(&["open", "card", "day.klg"]));
    assert_eq!(ok(&["to-text", "-"], "day.klg"), place.ok(&["to-text", "day.klg"]));
    assert_eq!(ok(&["formula", "-"], "rule.krl"), place.ok(&["formula", "rule.krl"]));
    assert_eq!(ok(&["why", RULE, "-", "5"], "day.klg"), place.ok(&["why", RULE, "day.klg", "5"]));
    ok(&["to-log", "-", "made.klg"], "day.txt");
    assert_eq!(fs::read(place.path("made.klg")).unwrap(), fs::read(place.path("day.klg")).unwrap());
    place.ok(&["new", "visited", RULE]);
    ok(&["evening", "visited", "-"], "visit.klg");
    assert_eq!(ok(&["trim", "visited", "-", "out.klg"], "visit.klg"), "out.klg: records 0 to 14 dropped, 2 left\n");
    assert!(ok(&["close", "card", "-", "--final"], "tuesday.klg").starts_with("records 12 to 18: "));
    // a rule, though a card has that name
    place.ok(&["new", "./-", "e0"]);
    assert_eq!(ok(&["new", "piped", "-"], "rule.krl"), format!("piped: {RULE}\nwords 294, reach 90 seconds\n"));
    assert_eq!(ok(&["why", "-", "day.klg", "5"], "rule.krl"), place.ok(&["why", RULE, "day.klg", "5"]));
    assert_eq!(ok(&["formula", "-"], "rule.krl"), place.ok(&["formula", "rule.krl"]));
    fs::remove_dir_all(place.path("-")).unwrap();
    // faults name it so
    for (words, text) in [
        (&["to-text", "-"][..], "standard input: this is a rule, not a log (refused 12)\n"),
        (&["new", "other", "-"], "standard input: this is no rule file: it does not begin with KRL (refused 1)\n"),
        (&["to-log", "-", "other.klg"], "standard input, line 1: `x` is no number of seconds up to 4294967295\n"),
        (
            &["letters", "card", "-"],
            "standard input, line 1: `x` is no letter's number: a line has a number, 0 to 31, and a name\n",
        ),
    ] {
        let file = if words[0] == "to-text" { "rule.krl" } else { "wrong.txt" };
        fs::write(place.path("wrong.txt"), "x e0\n").unwrap();
        assert_eq!(run(words, file), (1, String::new(), text.to_string()), "{words:?}");
    }
    for words in
        [&["to-log", "day.txt", "-"][..], &["trim", "visited", "visit.klg", "-"], &["worst", "0", "1", "5", "-"]]
    {
        let said = place.fails(2, words);
        assert!(said.starts_with("nothing is written to `-`; a file of this name is ./-\nexpected: "), "{said}");
    }
    place.ok(&["to-log", "day.txt", "./-"]);
    assert_eq!(place.ok(&["to-text", "./-"]), place.ok(&["to-text", "day.klg"]));
    // a pipe
    let mut child =
        place.program().args(["to-text", "-"]).stdin(Stdio::piped()).stdout(Stdio::piped()).spawn().unwrap();
    child.stdin.take().unwrap().write_all(&fs::read(place.path("day.klg")).unwrap()).unwrap();
    assert_eq!(child.wait_with_output().unwrap().stdout, place.ok(&["to-text", "day.klg"]).into_bytes());
}

/// From 900,000 records on it is said how many are left, and what to do.
#[test]
fn logs_that_are_nearly_full() {
    let place = Place::new();
    let to_do = "close this card (`havdrims close`), let the kiosk begin a new log, \
                 and make a card for that (`havdrims new`, without --after)\n";
    place.ok(&["new", "card", "e0"]);
    let mut log = b"KLG\x00\x01\x00\x00\x00".to_vec();
    let mut evening = |records: usize| {
        log.resize(8 + 8 * records, 0);
        fs::write(place.path("log.klg"), &log).unwrap();
        place.ok(&["evening", "card", "log.klg"])
    };
    let before = |said: &str| {
        let lines: Vec<&str> = said.lines().collect();
        assert!(lines.last().unwrap().ends_with("may be overwritten"), "{said}");
        lines[3..lines.len() - 1].iter().map(|line| format!("{line}\n")).collect::<String>()
    };
    assert_eq!(before(&evening(899_999)), "");
    let left = |left: &str| format!("the log is nearly full: {left} left of 1000000\n{to_do}");
    assert_eq!(before(&evening(900_000)), left("100000 more records are"));
    assert_eq!(before(&evening(999_999)), left("1 more record is"));
    assert_eq!(before(&evening(1_000_000)), format!("the log is full: 1000000 records are the most\n{to_do}"));
    let said = on_terminal(&place, &["evening", "card", "log.klg"], &[]);
    assert!(said.contains("\x1b[1;33mthe log is full: 1000000 records are the most\x1b[0m\n"), "{said}");
    // one more: what is said can be done
    log.resize(8 + 8 * 1_000_001, 0);
    fs::write(place.path("log.klg"), &log).unwrap();
    let too_long = "log.klg: the log has more than 1000000 records (refused 12)\n\
                    Its first 8000008 bytes end with the last record that a log may have: close the card with these, and begin\n\
                    a new log and a new card with what follows. Nothing was changed.\n";
    assert_eq!(place.fails(1, &["evening", "card", "log.klg"]), too_long);
    fs::write(place.path("cut.klg"), &log[..8_000_008]).unwrap();
    let said = place.ok(&["close", "card", "cut.klg", "--final"]);
    assert!(said.contains("and the card is closed\n") && !said.contains("full"), "{said}");
    // behind it no card goes on
    let next = "The kiosk begins a new log, and `havdrims new NEW card/rule.krl` makes the card for it.";
    let closed = "card: the card is closed: it takes no further records (refused 20)\n";
    assert_eq!(place.fails(1, &["evening", "card", "cut.klg"]), format!("{closed}{next} Nothing was changed.\n"));
    let full = format!("card: its log is full, so that no card can go on with it\n{next}\n");
    assert_eq!(place.fails(1, &["new", "NEW", "card/rule.krl", "--after", "card"]), full);
    place.ok(&["new", "NEW", "card/rule.krl"]);

    // a trimmed log counts the dropped ones
    place.ok(&["new", "later", "e0", "--from", "999997"]);
    let mut log = b"KLG\x00\x03\x00\x00\x00\x00\x00\x00\x00\x00\x0f\x42\x3d".to_vec();
    log.resize(16 + 8 * 3, 0);
    fs::write(place.path("log.klg"), &log).unwrap();
    let said = place.ok(&["evening", "later", "log.klg"]);
    assert!(said.contains("the log is full: 1000000 records are the most\n"), "{said}");
    log.resize(16 + 8 * 4, 0);
    fs::write(place.path("log.klg"), &log).unwrap();
    let said = place.fails(1, &["evening", "later", "log.klg"]);
    let trimmed = "log.klg: the log has more than 1000000 records, with the 999997 that were dropped (refused 12)\n\
                   Its first 40 bytes end with";
    assert!(said.starts_with(trimmed), "{said}");
    fs::write(place.path("cut.klg"), &log[..40]).unwrap();
    place.ok(&["close", "later", "cut.klg", "--final"]);
}

/// A command that finds the card in use waits a moment.
#[test]
fn commands_wait_a_moment() {
    let place = Place::with_card(1);
    for words in [&["summary", "card"][..], &["sheet", "card"], &["check", "card"], &["evening", "card", "tuesday.klg"]]
    {
        let lock = File::open(place.path("card/card.txt")).unwrap();
        lock.lock().unwrap();
        let held = thread::spawn(move || {
            thread::sleep(Duration::from_millis(300));
            lock.unlock().unwrap();
        });
        place.ok(words);
        held.join().unwrap();
    }
}
