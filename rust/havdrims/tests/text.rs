//! Logs as text and rules as formulas.

use evaluator::random::{self, LogShape, Random, RuleShape};
use evaluator::rule::{self, Entry, NEXT, NO_END, PREVIOUS, SINCE, UNTIL};
use evaluator::{cases, log};
use havdrims::text::{formula, joined, log_from_text, log_to_text, EMPTY};
use havdrims::{parse, Log, Refusal, MOST_RULE};

const P1: &str = "10 e0\n11 e0\n11 none\n12 e0\n13 e1\n20 e0\n";

#[test]
fn p1_log_both_ways() {
    let file = log::encode(&cases::p1_records());
    assert_eq!(log_to_text(&file).unwrap(), P1);
    assert_eq!(log_from_text(P1).unwrap(), file);
}

#[test]
fn other_ways_to_type_a_log() {
    let typed = "# the morning\n\n10 0   # warm\n 11 e0\r\n11\n12 0\n13\te1\n20 e0";
    assert_eq!(log_to_text(&log_from_text(typed).unwrap()).unwrap(), P1);
    assert_eq!(log_from_text("").unwrap(), log::HEADER);
    for letters in ["e31 e0", "31 0"] {
        let file = log_from_text(&format!("4294967295 {letters}")).unwrap();
        assert_eq!(file[8..], [255, 255, 255, 255, 128, 0, 0, 1], "{letters}");
    }
}

#[test]
fn faults_name_their_line() {
    let fault = |text: &str| log_from_text(text).unwrap_err().to_string();
    assert_eq!(fault("1 e0\nx e0\n"), "line 2: `x` is no number of seconds up to 4294967295");
    assert!(fault("4294967296 e0").starts_with("line 1: `4294967296`"));
    assert!(fault("-1 e0").starts_with("line 1: `-1`"));
    assert_eq!(fault("1 e32"), "line 1: `e32` is no letter: letters are e0 to e31");
    assert_eq!(fault("1 warm"), "line 1: `warm` is no letter: letters are e0 to e31");
    for text in ["1 none e0", "1 e0 none", "1 none none"] {
        assert_eq!(fault(text), "line 1: `none` says that a record has no letters, and stands alone", "{text}");
    }
    assert_eq!(fault("1\n+5 e0"), "line 2: `+5` is no number of seconds up to 4294967295");
    for word in ["+5", "e+5"] {
        assert_eq!(fault(&format!("1 {word}")), format!("line 1: `{word}` is no letter: letters are e0 to e31"));
    }
    assert_eq!(fault("5\n\n4\n"), "line 3: second 4 comes after second 5");
    assert_eq!(
        fault(&"1\n".repeat(1_000_001)),
        "line 1000001: a log has at most 1,000,000 records, dropped ones included"
    );
}

#[test]
fn letters_that_are_there_twice_or_have_a_needless_zero() {
    let fault = |line: &str| log_from_text(&format!("version 2\n{line}\n")).unwrap_err().to_string();
    for (line, word) in
        [("10 e0 e0", "e0"), ("10 0 3 0", "0"), ("10 e31 e31", "e31"), ("10 service service", "service")]
    {
        assert_eq!(fault(line), format!("line 2: `{word}` is there twice"), "{line}");
    }
    assert_eq!(fault("10 e31 service"), "line 2: `e31` and `service` are the same letter");
    assert_eq!(fault("10 service 3 31"), "line 2: `service` and `31` are the same letter");
    for word in ["e00", "e01", "e031", "00", "000", "07", "e", "e0x"] {
        assert_eq!(fault(&format!("10 {word}")), format!("line 2: `{word}` is no letter: letters are e0 to e31"));
    }
    // every letter once, in any order
    for prefix in ["e", ""] {
        let letters: String = (0..32).rev().map(|letter| format!(" {prefix}{letter}")).collect();
        assert_eq!(log_from_text(&format!("07{letters}")).unwrap()[8..], [0, 0, 0, 7, 255, 255, 255, 255]);
    }
}

/// Lines end in one way: what else looks like an end, or like a space, is named.
#[test]
fn line_ends_and_spaces() {
    let fault = |text: &str| log_from_text(text).unwrap_err().to_string();
    for end in ['\r', '\u{B}', '\u{C}', '\u{85}', '\u{2028}', '\u{2029}'] {
        let said = format!(
            "line 2: the character U+{:04X} stands inside the line: lines end with U+000A, or U+000D and U+000A",
            u32::from(end)
        );
        for line in [format!("10 e0{end}11 e1"), format!("10 e0{end}"), format!("# warm{end}10 e0"), end.to_string()] {
            assert_eq!(fault(&format!("1\n{line}\n20\n").replace("\r\n", "\r \n")), said, "{line:?}");
        }
    }
    assert!(fault("10 e0\r").starts_with("line 1: the character U+000D "));
    assert!(fault("10 e0\r\r\n").starts_with("line 1: the character U+000D "));
    for space in ['\u{A0}', '\u{2003}', '\u{202F}', '\u{3000}'] {
        let number = u32::from(space);
        let said =
            format!("line 1: the character U+{number:04X} is no plain space: spaces and tabs stand between words");
        for line in [format!("10{space}e0"), format!("{space}10 e0"), format!("10 e0{space}# warm")] {
            assert_eq!(fault(&line), said, "{line:?}");
        }
        // in a remark it does no harm
        assert_eq!(log_from_text(&format!("10 e0 # head{space}warm")), log_from_text("10 e0"));
    }
    assert_eq!(log_from_text("\t10 \t e0\t\r\n\r\n \t\r\n11"), log_from_text("10 e0\n11 none\n"));
    assert!(fault("\u{feff}10 e0").contains("is no number of seconds"));
}

/// Letters are written in one way throughout a line: what is not may be a time of several words, or two lines.
#[test]
fn both_ways_in_one_line() {
    let fault = |text: &str| log_from_text(text).unwrap_err().to_string();
    let said = |number: &str, letter: &str| {
        format!(
            "line 2: `{number}` stands beside `{letter}`: letters are written all as e0 or all as 0; \
             is a line end missing, or is the time not one number?"
        )
    };
    for (line, number, letter) in [
        ("09 30 e0", "30", "e0"),
        ("1 000 e0", "000", "e0"),
        ("2026 11 09 e1 e0", "11", "e1"),
        ("10 e0 20 e1", "20", "e0"),
        ("10 e0 500", "500", "e0"),
        ("10 0 e40", "0", "e40"),
        ("10 service 3 e0", "3", "e0"),
    ] {
        assert_eq!(fault(&format!("version 2\n{line}\n")), said(number, letter), "{line}");
    }
    // a word of its own may stand beside either
    let [named, numbers] = ["10 e0 service e3", "10 service 3 0"].map(|line| format!("version 2\n{line}\n"));
    assert_eq!(log_from_text(&named), log_from_text(&numbers));
    assert_eq!(log_to_text(&log_from_text(&numbers).unwrap()).unwrap(), "version 2\n10 e0 e3 service\n");
    // each line in its own way
    assert_eq!(log_from_text("10 0 3\n11 e0 e3\n"), log_from_text("10 e0 e3\n11 0 3\n"));
}

#[test]
fn damaged_logs_are_refused() {
    for file in
        [&b""[..], b"KLG", b"KLG\x00\x04\x00\x00\x00", b"KLG\x00\x01\x00\x00\x01", b"KLG\x00\x01\x00\x00\x00\x07"]
    {
        assert_eq!(log_to_text(file), Err(Refusal::LogFormat));
    }
    let whole = log::encode_trimmed(1_000_000, &[]);
    for length in 0..16 {
        assert_eq!(log_to_text(&whole[..length]), Err(Refusal::LogFormat), "{length} bytes");
    }
    assert_eq!(log_to_text(&[whole.as_slice(), &[0; 8]].concat()), Err(Refusal::LogFormat));
    for count in [1_000_001, u64::MAX] {
        assert_eq!(log_to_text(&log::encode_trimmed(count, &[])), Err(Refusal::LogFormat), "{count}");
    }
    assert_eq!(log_to_text(&log::HEADER).unwrap(), "");
}

const SERVED: &str = "version 2\n10 e0\n10 service\n11 e0 e3 service\n12 none\n";

#[test]
fn logs_of_version_2() {
    let file = log_from_text(SERVED).unwrap();
    assert_eq!(file[..8], *b"KLG\x00\x02\x00\x00\x00");
    assert_eq!(file[16..32], [0, 0, 0, 10, 128, 0, 0, 0, 0, 0, 0, 11, 128, 0, 0, 9]);
    assert_eq!(log_to_text(&file).unwrap(), SERVED);
    let services = |from| Log::new(&file).unwrap().services(from);
    assert_eq!((services(0), services(2), services(3), services(9)), (2, 1, 0, 0));
    // other ways to type it; letter 31 by its name too
    let typed = "\n# the visit\n version  2 # of the log\n10 0\n10 31\n11 3 service 0\n12\n";
    assert_eq!(log_from_text(typed).unwrap(), file);
    // the same records as version 1, where letter 31 is a letter
    let plain = SERVED.replace("version 2", "version 1").replace("service", "e31");
    let first = log_from_text(&plain).unwrap();
    assert_eq!((&first[..5], &first[8..]), (&b"KLG\x00\x01"[..], &file[8..]));
    assert_eq!(log_to_text(&first).unwrap(), plain.replace("version 1\n", ""));
    assert_eq!(Log::new(&first).unwrap().services(0), 0);
    assert_eq!(log_to_text(&log_from_text("version 2").unwrap()).unwrap(), "version 2\n");
}

#[test]
fn faults_of_a_version() {
    let fault = |text: &str| log_from_text(text).unwrap_err().to_string();
    assert_eq!(
        fault("1 e0\n2 service\n"),
        "line 2: `service` needs the line `version 2` or `version 3` before the first record"
    );
    assert!(fault("version 1\n2 service\n").starts_with("line 2: `service` needs"));
    for text in ["1 e0\nversion 2\n", "version 2\nversion 2\n"] {
        assert_eq!(fault(text), "line 2: the version stands once, before the first record");
    }
    for text in ["version", "version 4", "version 0", "version two", "version 2 2", "version e2"] {
        assert_eq!(fault(text), "line 1: a log's version is 1, 2 or 3", "{text}");
    }
    assert_eq!(fault("version 2\n5 service\n4 e0\n"), "line 3: second 4 comes after second 5");
}

const TRIMMED: &str = "version 3\ndropped 12\n10 e0\n10 service\n12 none\n";

#[test]
fn logs_of_version_3() {
    let file = log_from_text(TRIMMED).unwrap();
    assert_eq!(file[..16], *b"KLG\x00\x03\x00\x00\x00\x00\x00\x00\x00\x00\x00\x00\x0C");
    assert_eq!((file.len(), log_to_text(&file).unwrap().as_str()), (40, TRIMMED));
    let log = Log::new(&file).unwrap();
    assert_eq!((log.version(), log.dropped(), log.len(), log.records().count()), (3, 12, 15, 3));
    assert_eq!((log.services(0), log.services(13), log.services(14), log.services(99)), (1, 1, 0, 0));
    // other ways to type it
    let typed = "version 3 # trimmed\n\n dropped  012\n10 0\n10 31\n12\n";
    assert_eq!(log_from_text(typed).unwrap(), file);
    // nothing dropped, and nothing left
    assert_eq!(log_from_text("version 3\n10 e0\n").unwrap(), log_from_text("version 3\ndropped 0\n10 e0\n").unwrap());
    assert_eq!(log_to_text(&log_from_text("version 3").unwrap()).unwrap(), "version 3\ndropped 0\n");
    let most = log_from_text("version 3\ndropped 1000000\n").unwrap();
    assert_eq!(Log::new(&most).map(|log| (log.len(), log.is_empty())), Ok((1_000_000, false)));
}

#[test]
fn faults_of_a_trimmed_log() {
    let fault = |text: &str| log_from_text(text).unwrap_err().to_string();
    let place = "`dropped` stands once, behind the line `version 3` and before the first record";
    for text in ["1 e0\ndropped 2\n", "version 2\ndropped 2\n", "version 3\n1 e0\ndropped 2\n"] {
        assert!(fault(text).ends_with(&format!(": {place}")), "{text}");
    }
    assert_eq!(fault("version 3\ndropped 1\ndropped 1\n"), format!("line 3: {place}"));
    assert_eq!(fault("dropped 1\nversion 3\n"), format!("line 1: {place}"));
    for number in ["", "1000001", "18446744073709551616", "-1", "+1", "two", "1 2", "e1"] {
        let said = "line 2: `dropped` wants a number of records up to 1000000";
        assert_eq!(fault(&format!("version 3\ndropped {number}\n")), said, "{number}");
    }
    let full = "version 3\ndropped 999999\n1 e0\n2 e0\n";
    assert_eq!(fault(full), "line 4: a log has at most 1,000,000 records, dropped ones included");
    assert_eq!(fault("version 3\nversion 3\n"), "line 2: the version stands once, before the first record");
    assert_eq!(fault("version 3\n5 e0\nversion 3\n"), "line 3: the version stands once, before the first record");
}

#[test]
fn random_logs_come_back() {
    let mut r = Random::new(5);
    for _ in 0..500 {
        let shape = LogShape { records: r.below(60), letters: 32, hold: 1, step: 1 << 28, start: r.draw() as u32 };
        let records = random::log(&mut r, shape);
        let trimmed = log::encode_trimmed(r.below(1_000_000 - records.len()) as u64, &records);
        for file in [log::encode(&records), log::encode_as(2, &records), trimmed] {
            assert_eq!(log_from_text(&log_to_text(&file).unwrap()).unwrap(), file);
        }
    }
}

#[test]
fn formulas() {
    let shown = |entries: &[Entry]| formula(&rule::encode(entries)).unwrap();
    let [a, b, c] = [0, 1, 31].map(Entry::letter);
    let until = Entry::timed(UNTIL, 0, 2);
    let since = Entry::timed(SINCE, 1, NO_END);
    assert_eq!(shown(&[a, b, until]), "e0 until[0,2] e1");
    assert_eq!(shown(&[a, b, until, Entry::not()]), "not (e0 until[0,2] e1)");
    assert_eq!(shown(&[a, Entry::not(), b, until]), "not e0 until[0,2] e1");
    assert_eq!(shown(&[a, b, c, since, until]), "e0 until[0,2] e1 since[1,inf] e31");
    assert_eq!(shown(&[a, b, until, c, since]), "(e0 until[0,2] e1) since[1,inf] e31");
    assert_eq!(shown(&[a, b, Entry::or(), c, Entry::or()]), "e0 or e1 or e31");
    assert_eq!(shown(&[a, b, c, Entry::or(), Entry::or()]), "e0 or (e1 or e31)");
    assert_eq!(shown(&[a, b, Entry::or(), c, until]), "(e0 or e1) until[0,2] e31");
    let both = [a, Entry::timed(NEXT, 1, 1), Entry::timed(PREVIOUS, 0, 3600)];
    assert_eq!(shown(&both), "prev[0,3600] next[1,1] e0");
    assert_eq!(shown(&[a, Entry::timed(NEXT, 1, NO_END)]), "next[1,inf] e0");
    assert_eq!(shown(&[]), EMPTY);
    assert_eq!(formula(b"KRL"), Err(Refusal::RuleMark));
}

/// A rule of several formulas, shown, typed again line by line and joined, is the same rule.
#[test]
fn several_formulas_come_back() {
    let mut r = Random::new(8);
    let mut several = 0;
    for _ in 0..5_000 {
        let shape = RuleShape { entries: 12, letters: 32, high: r.pick(&[2, 90, 300]) };
        let number = r.from_to(1, 8);
        let file = rule::encode_several(&random::formulas(&mut r, shape, number));
        let Ok(shown) = formula(&file) else { continue };
        let typed: Vec<Vec<u8>> = shown.lines().map(|line| parsed(line).unwrap()).collect();
        assert_eq!(typed.len(), number, "{shown}");
        let typed: Vec<&[u8]> = typed.iter().map(Vec::as_slice).collect();
        assert_eq!(joined(&typed), Ok(file), "{shown}");
        several += usize::from(number > 1);
    }
    assert!(several > 1_000, "{several}");
}

fn parsed(line: &str) -> Result<Vec<u8>, Refusal> {
    let mut bytes = vec![0; MOST_RULE];
    let size = parse(line.as_bytes(), &mut bytes)?;
    bytes.truncate(size);
    Ok(bytes)
}

#[test]
fn several_formulas() {
    let [e0, e1, p1] = [vec![Entry::letter(0)], vec![Entry::letter(1), Entry::not()], cases::p1_entries()];
    let rules = [&e0, &e1, &p1].map(|entries| rule::encode(entries));
    let rules = rules.each_ref().map(Vec::as_slice);
    let all = joined(&rules).unwrap();
    assert_eq!(all, rule::encode_several(&[e0.clone(), e1.clone(), p1.clone()]));
    assert_eq!(formula(&all).unwrap(), "e0\nnot e1\ne0 until[0,2] e1");
    // one alone, of version 2, and one of version 2 among others
    let one = joined(&rules[..1]).unwrap();
    assert_eq!((one.as_slice(), formula(&one).unwrap().as_str()), (&rule::encode_as(2, &e0)[..], "e0"));
    assert_eq!(joined(&[&all, &one]), Ok(rule::encode_several(&[e0.clone(), e1, p1, e0.clone()])));
    // eight are the most, and there is at least one
    assert_eq!(joined(&[rules[0]; 8]).unwrap(), rule::encode_several(&vec![e0; 8]));
    assert_eq!(joined(&[rules[0]; 9]), Err(Refusal::Shape));
    assert_eq!(joined(&[]), Err(Refusal::Shape));
    assert_eq!(joined(&[&rule::encode(&[])]), Err(Refusal::Shape));
    // 128 entries, one more, and so many that their number has no byte
    let many = |entries: usize| {
        let nots = [vec![Entry::letter(0)], vec![Entry::not(); entries - 1]].concat();
        rule::encode(&nots)
    };
    assert_eq!(joined(&[&many(64), &many(64)]).map(|rule| rule.len()), Ok(8 + 10 * 128));
    assert_eq!(joined(&[&many(64), &many(65)]), Err(Refusal::RuleLength));
    assert_eq!(joined(&[&many(128), &many(128)]), Err(Refusal::RuleLength));
    assert_eq!(joined(&[rules[0], b"KRL"]), Err(Refusal::RuleMark));
}
