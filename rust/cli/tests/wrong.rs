//! The reader that finds where a formula, a rule file or a log is wrong, against the library: it finds a place exactly where the
//! library refuses, and of the same number.

use cli::wrong::{self, Wrong};
use evaluator::random::{self, LogShape, Random, RuleShape};
use evaluator::{cases, log, rule, typed};
use havdrims::{measure, parse, Log, Refusal, MOST_RULE};
use std::collections::BTreeMap;

/// How often each number was met, 0 for none.
type Counts = BTreeMap<u32, usize>;

fn compare(counts: &mut Counts, refused: Result<(), Refusal>, found: Option<Wrong>, what: &str) {
    let number = refused.map_or_else(Refusal::number, |()| 0);
    assert_eq!(found.as_ref().map_or(0, |wrong| wrong.number), number, "{what}: {found:?}");
    *counts.entry(number).or_default() += 1;
}

/// Holds the reader against the library on a text, and looks at the line that shows the place.
fn compare_formula(counts: &mut Counts, text: &str) {
    let refused = parse(text.as_bytes(), &mut [0; MOST_RULE]).map(|_| ());
    let found = wrong::formula(text);
    if let Some(Wrong { says, .. }) = &found {
        let lines: Vec<&str> = says.lines().collect();
        let marks = lines[2].trim_start();
        assert!(
            (3..=4).contains(&lines.len()) && !marks.is_empty() && marks.bytes().all(|mark| mark == b'^'),
            "{says}"
        );
        // The marks stand below the text, or just behind it where it breaks off.
        let (shown, marked) = (lines[1].chars().count().max(2), lines[2].chars().count());
        assert!(marked <= shown + 1 && shown <= 80, "{says}");
    }
    compare(counts, refused, found, text);
}

/// A text with a character dropped, doubled, changed or exchanged, or the same of a whole word.
fn damage_text(r: &mut Random, text: &str) -> String {
    let mut parts: Vec<String> = match r.one_in(2) {
        true => text.chars().map(String::from).collect(),
        false => text.split_inclusive([' ', '(', ')', '[', ']', ',']).map(str::to_string).collect(),
    };
    for _ in 0..r.from_to(1, 3) {
        let at = r.below(parts.len().max(1));
        if at >= parts.len() {
            continue;
        }
        let words = [
            "not ", "or ", "until", "[0,90]", "inf", "(", ")", "[", ",", "e5", "e32", "9999", "007", "\t", "é", "&",
            "E0",
        ];
        match r.below(5) {
            0 => drop(parts.remove(at)),
            1 => parts.insert(at, parts[at].clone()),
            2 => parts[at] = r.pick(&words).to_string(),
            3 => parts.insert(at, r.pick(&words).to_string()),
            _ => {
                let other = r.below(parts.len());
                parts.swap(at, other);
            }
        }
    }
    parts.concat()
}

#[test]
fn formulas() {
    let mut counts = Counts::new();
    for (text, _) in typed::worked() {
        compare_formula(&mut counts, text);
    }
    let many = |n: usize| vec!["e0"; n].join(" or ");
    for text in
        ["".to_string(), " ".to_string(), many(64), many(65), " ".repeat(1024), " ".repeat(1025), "é".repeat(600)]
    {
        compare_formula(&mut counts, &text);
    }
    let mut r = Random::new(11);
    for _ in 0..30_000 {
        let most = r.pick(&[1, 3, 8, 30, 128, 180]);
        let shape = RuleShape { entries: most, letters: 32, high: r.pick(&[2, 90, 700, 3600, 3605]) };
        let size = r.from_to(1, most);
        let entries = random::entries(&mut r, shape, size);
        let text = random::text(&mut r, &entries);
        let text = if r.one_in(4) { text } else { damage_text(&mut r, &text) };
        compare_formula(&mut counts, &text);
    }
    // tokens in any order
    let words = ["e0", "not", "or", "prev", "until", "since", "[", "0", "90", ",", "inf", "]", "(", ")"];
    for _ in 0..30_000 {
        let number = r.from_to(1, 9);
        let text: Vec<&str> = (0..number).map(|_| r.pick(&words)).collect();
        compare_formula(&mut counts, &text.join(" "));
    }
    // more letters and operators than a rule has
    for _ in 0..100 {
        let number = r.from_to(125, 135);
        compare_formula(&mut counts, &("not ".repeat(number) + "e0"));
    }
    assert!([0, 4, 6, 8, 16, 17].iter().all(|number| counts[number] >= 50), "{counts:?}");
}

#[test]
fn rule_files() {
    let mut counts = Counts::new();
    let mut compare = |bytes: &[u8]| {
        compare(&mut counts, measure(bytes).map(|_| ()), wrong::rule(bytes), &format!("{bytes:?}"));
    };
    let good = rule::encode(&cases::p1_entries());
    for cut in 0..=good.len() {
        compare(&good[..cut]);
    }
    for version in 0..4 {
        compare(&rule::encode_as(version, &[]));
        compare(&rule::encode_as(version, &[rule::Entry::letter(0); 9]));
        compare(&rule::encode_as(version, &cases::p10_entries(3_600, 446)));
        compare(&rule::encode_as(version, &cases::p10_entries(3_600, 447)));
    }
    let mut r = Random::new(12);
    for _ in 0..30_000 {
        let shape = RuleShape { entries: r.pick(&[1, 3, 8, 40]), letters: 32, high: r.pick(&[2, 90, 3600, 3605]) };
        let mut bytes = match r.one_in(2) {
            true => random::rule(&mut r, shape),
            false => {
                let size = r.from_to(0, shape.entries);
                rule::encode_as(r.pick(&[1, 2]), &random::entries(&mut r, shape, size))
            }
        };
        if !r.one_in(4) {
            random::damage(&mut r, &mut bytes);
        }
        compare(&bytes);
    }
    assert!([0, 1, 2, 4, 5, 6, 7, 8].iter().all(|number| counts[number] >= 50), "{counts:?}");
}

#[test]
fn logs() {
    let mut counts = Counts::new();
    let mut compare = |bytes: &[u8]| {
        let what = format!("{} bytes: {:?}", bytes.len(), &bytes[..bytes.len().min(40)]);
        compare(&mut counts, Log::new(bytes).map(|_| ()), wrong::log(bytes), &what);
    };
    let mut r = Random::new(13);
    for _ in 0..30_000 {
        let shape = LogShape { records: r.below(6), letters: 3, hold: 2, step: 5, start: 0 };
        let records = random::log(&mut r, shape);
        let mut bytes = match r.below(4) {
            0 => log::encode_trimmed(r.pick(&[0, 1, 999_998, 999_999, 1_000_000, 1_000_001, u64::MAX]), &records),
            version => log::encode_as(version as u16, &records),
        };
        if !r.one_in(4) {
            random::damage(&mut r, &mut bytes);
        }
        compare(&bytes);
    }
    for version in [1, 2, 3] {
        let mut long = log::encode_as(version, &[]);
        let header = long.len();
        for records in [1_000_000, 1_000_001] {
            long.resize(header + 8 * records, 0);
            compare(&long);
        }
    }
    assert!([0, 12].iter().all(|number| counts[number] >= 100), "{counts:?}");
}

/// The first record whose time falls, from any record on, is that of a plain search.
#[test]
fn times_that_fall() {
    let mut r = Random::new(14);
    let mut found = 0;
    for _ in 0..20_000 {
        let number = r.below(8);
        let records: Vec<log::Record> =
            (0..number).map(|_| log::Record { time: r.below(4) as u32, letters: 0 }).collect();
        let dropped = r.below(3);
        let bytes = log::encode_trimmed(dropped as u64, &records);
        let (log, from) = (Log::new(&bytes).unwrap(), r.below(10));
        let falls = |at: &usize| at + dropped > from && records[*at].time < records[at - 1].time;
        let expected = (1..number).find(falls).map(|at| wrong::Fall {
            record: at + dropped,
            seconds: records[at].time,
            before: records[at - 1].time,
        });
        assert_eq!(wrong::fall(&log, from), expected);
        found += usize::from(expected.is_some());
    }
    assert!(found > 1_000);
}

/// What is said, word by word.
#[test]
fn what_is_said_of_a_formula() {
    let known =
        "there are the words not, or, prev, next, since, until, inf, the letters e0 to e31, numbers, and the signs \
                 ( ) [ ] ,";
    let operand = "here could stand a letter as e0, `not`, `prev`, `next` or `(`";
    let says = |text: &str, said: &[&str]| {
        let found = wrong::formula(text).map(|wrong| wrong.says);
        assert_eq!(found, Some(said.join("\n")), "{text}");
    };
    let here = |text: &str| format!("  {text}");
    let word = |text: &str, marks: &str, what: &str| {
        says(text, &[&format!("the word {what}"), &here(text), &here(marks), known]);
    };
    word("e0 untill[0,90] e1", "   ^^^^^^", "`untill` is not known; did you mean until?");
    word("e0 and e1", "   ^^^", "`and` is not known; there is no and: `not (not A or not B)` says it");
    word("if e0", "^^", "`if` is not known; `not A or B` says that B is so whenever A is");
    word("previous e0", "^^^^^^^^", "`previous` is not known; did you mean prev?");
    word("e0 elephant e1", "   ^^^^^^^^", "`elephant` is not known");
    word("Warm", "^^^^", "`Warm` is not known");
    let sign = |text: &str, marks: &str, what: &str| {
        says(text, &[&format!("the sign {what}"), &here(text), &here(marks), known]);
    };
    sign("e0 & e1", "   ^", "`&` is not known; there is no and: `not (not A or not B)` says it");
    sign("e0 | e1", "   ^", "`|` is not known; did you mean or?");
    sign("!e1", "^", "`!` is not known; did you mean not?");
    sign("e0 <= e1", "   ^", "`<` is not known");
    says("e0\te1", &["the character '\\t' is not known", "  e0?e1", "    ^", known]);
    says("e0 or é", &["the word `é` is not known", "  e0 or é", "        ^", known]);
    says(
        "e0 or “e1",
        &[
            "the character “ is not known; quotes around a formula are straight ones, '",
            "  e0 or ?e1",
            "        ^",
            known,
        ],
    );
    says("not E2", &["`E2` is written in small letters: e2", "  not E2", "      ^^"]);
    says("e32", &["`e32` is no letter", "  e32", "  ^^^", "there are the letters e0 to e31"]);
    let number = "a number has one to four digits, and no 0 before others";
    says("prev[007,9] e0", &["`007` is no number of seconds", "  prev[007,9] e0", "       ^^^", number]);
    let long = vec!["e0"; 206].join(" or ");
    let too_long = "the formula has 1232 characters, and 1024 are the most; from here on it is too long";
    let found = wrong::formula(&long).unwrap().says;
    let lines: Vec<&str> = found.lines().collect();
    assert_eq!((lines.len(), lines[0]), (3, too_long));
    assert!(lines[1].starts_with("  ..") && lines[1].ends_with("..") && lines[1].len() <= 80, "{found}");

    says("e0 until[0,90]", &["the formula breaks off here", "  e0 until[0,90]", "                ^", operand]);
    says("", &["the formula is empty", "  ", "  ^", operand]);
    says("e0 or or e1", &["`or` cannot stand here", "  e0 or or e1", "        ^^", operand]);
    let interval = "here could stand `[` and seconds, as in until[0,90]";
    says("e0 until e1", &["`e1` cannot stand here", "  e0 until e1", "           ^^", interval]);
    says("prev e1", &["`e1` cannot stand here", "  prev e1", "       ^^", &interval.replace("until", "prev")]);
    let after = "here could stand `since`, `until`, `or`, or the end";
    says("e0 e1", &["`e1` cannot stand here", "  e0 e1", "     ^^", after]);
    says("e0) or e1", &["no bracket is open that this could close", "  e0) or e1", "    ^", after]);
    let bracket = "here could stand `since`, `until`, `or` or `)`";
    says(
        "(e0 or e1 ",
        &["the formula breaks off here: a bracket is still open", "  (e0 or e1 ", "           ^", bracket],
    );
    says("prev[x,", &["the word `x` is not known", "  prev[x,", "       ^", known]);
    for (text, marks, could) in [
        ("prev[ e0", "      ^^", "a number of seconds"),
        ("prev[0 90] e0", "       ^^", "`,`"),
        ("prev[0,] e0", "       ^", "a number of seconds, or `inf`"),
        ("prev[0,9 e0", "         ^^", "`]`"),
    ] {
        let found = text[marks.len() - marks.trim_start().len()..].split([' ', ']']).next().filter(|w| !w.is_empty());
        let what = format!("`{}` cannot stand here", found.unwrap_or("]"));
        says(text, &[&what, &here(text), &here(marks), &format!("here could stand {could}")]);
    }

    let ends = "both ends are 0 to 3600 seconds, the lower one not above the upper";
    says(
        "e0 until[0,3601] e1",
        &["3601 seconds are more than 3600", "  e0 until[0,3601] e1", "     ^^^^^^^^^^^^^", ends],
    );
    says("prev[5,3] e0", &["the lower end, 5, is above the upper one, 3", "  prev[5,3] e0", "  ^^^^^^^^^", ends]);
    let no_end = "until has no `inf`: it needs an upper end";
    says("e0 until[0,inf] e1", &[no_end, "  e0 until[0,inf] e1", "     ^^^^^^^^^^^^", ends]);
    let text = "e0 until[0,3600] e1 until[0,500] e2";
    let takes = "this takes 7202 of them: until takes two for each second of its upper end, since takes one";
    let words = "the rule needs 8300 words, and 8192 are the most";
    says(text, &[words, &here(text), &here("   ^^^^^^^^^^^^^"), takes]);
    let many = "not ".repeat(128) + "e0";
    let found = wrong::formula(&many).unwrap().says;
    let entries = "the formula has 129 letters and operators, and 128 are the most; this is one too many\n";
    assert!(found.starts_with(entries) && found.ends_with("e0\n") | found.ends_with("^^"), "{found}");
}

#[test]
fn what_is_said_of_a_rule_file() {
    let good = rule::encode(&cases::p1_entries());
    let says = |bytes: &[u8], said: &str| {
        assert_eq!(wrong::rule(bytes).map(|wrong| wrong.says), Some(said.to_string()), "{bytes:?}");
    };
    let changed = |at: usize, to: u8| {
        let mut bytes = good.clone();
        bytes[at] = to;
        bytes
    };
    says(b"", "this is no rule file: it does not begin with KRL");
    says(b"KLG\x00\x01\x00\x00\x00", "this is a log, not a rule");
    says(b"KRL\x00\x01", "the rule ends after 5 bytes, inside its first 8");
    says(&changed(4, 3), "the rule is of version 3, and this program knows 1 and 2");
    says(&changed(5, 129), "the rule says that it has 129 entries, and 128 are the most");
    says(&changed(7, 1), "the rule is damaged: bytes 6 and 7 are not 0");
    says(&good[..37], "the rule has 37 bytes, but 38 with 3 entries as it says");
    says(&changed(28, 7), "entry 2 is damaged: there is no kind 7");
    says(&changed(9, 32), "entry 0 is damaged: there is no letter 32");
    says(&changed(12, 1), "entry 0 is damaged: a field that letter does not use is not 0");
    says(&changed(29, 1), "entry 2 is damaged: a field that until does not use is not 0");
    says(&changed(28, 2), "entry 2 is damaged: a field that or does not use is not 0");
    says(&changed(36, 15), "entry 2 is damaged: 3842 seconds are more than 3600");
    says(&changed(33, 3), "entry 2 is damaged: the lower end, 3, is above the upper one, 2");
    let until = rule::Entry::timed(rule::UNTIL, 0, rule::NO_END);
    let letters = [rule::Entry::letter(0), rule::Entry::letter(1)];
    says(
        &rule::encode(&[&letters[..], &[until]].concat()),
        "entry 2 is damaged: until has no `inf`: it needs an upper end",
    );
    says(&rule::encode(&[letters[0], rule::Entry::or()]), "entry 1, or, lacks an operand");
    says(&rule::encode(&letters), "the rule has 2 formulas, and 1 are the most in version 1");
    says(&rule::encode_as(2, &[letters[0]; 9]), "the rule has 9 formulas, and 8 are the most in version 2");
    says(&rule::encode_as(2, &[]), "the rule has no entry, which only one of version 1 may");
    let long = rule::encode(&cases::p10_entries(3_600, 447));
    says(&long, "the rule needs 8194 words, and 8192 are the most");
}

#[test]
fn what_is_said_of_a_log() {
    let good = log::encode(&cases::p1_records());
    let says = |bytes: &[u8], said: &str| {
        assert_eq!(wrong::log(bytes).map(|wrong| wrong.says), Some(said.to_string()), "{bytes:?}");
    };
    says(b"", "the file is empty, and a log has at least 8 bytes");
    says(b"KRL\x00\x01\x00\x00\x00", "this is a rule, not a log");
    says(b"10 e0\n", "this is no log: it does not begin with KLG; of a text `havdrims to-log` makes one");
    says(&[0, 1, 2], "this is no log: it does not begin with KLG");
    says(b"KLG\x00\x01\x00", "the log ends after 6 bytes, inside its first 8, before record 0");
    says(b"KLG\x00\x03\x00\x00\x00\x00", "the log ends after 9 bytes, inside its first 16, before record 0");
    says(b"KLG\x00\x04\x00\x00\x00", "the log is of version 4, and this program knows 1, 2 and 3");
    says(b"KLG\x00\x01\x00\x01\x00", "the log is damaged: bytes 5 to 7 are not 0");
    says(&good[..8 + 8 * 5 + 3], "the log ends inside record 5: 3 of its 8 bytes are there");
    let trimmed = log::encode_trimmed(13, &cases::p1_records());
    says(&trimmed[..23], "the log ends inside record 13: 7 of its 8 bytes are there");
    let full = log::encode_trimmed(1_000_000, &cases::p1_records());
    says(&full, "the log has more than 1000000 records, with the 1000000 that were dropped");
    // as far as it is a log
    assert_eq!((wrong::longest(&full), wrong::longest(&good), wrong::longest(b"KLG")), (None, None, None));
    let nearly = log::encode_trimmed(999_998, &cases::p1_records());
    assert_eq!((wrong::longest(&nearly), wrong::log(&nearly[..32])), (Some(32), None));
    let fall = wrong::Fall { record: 14, seconds: 729, before: 730 };
    assert_eq!(fall.says(), "record 14, second 729, comes after record 13, second 730");
}
