//! The page for Friday: its lines, what it says where records are lost, and that typed text does no harm in it.

use crate::{example, Place, OLDER_LOG, OTHER_LOG, RULE};
use evaluator::random::Random;
use std::fs;
use std::os::unix::fs::symlink;

const BEFORE: &str = "not e1 or prev[0,inf] e0";
const LOST: &str = "reason not available: the log no longer holds the records that it needs";

/// The text of some HTML.
fn plain(html: &str) -> String {
    let mut text = String::new();
    for part in html.replace("<br>", " / ").split('<') {
        text.push_str(part.split_once('>').map_or(part, |(_, text)| text));
    }
    let entities = [("&nbsp;", " "), ("&quot;", "\""), ("&#39;", "'"), ("&lt;", "<"), ("&gt;", ">"), ("&amp;", "&")];
    entities.iter().fold(text, |text, (entity, plain)| text.replace(entity, plain))
}

impl Place {
    /// The page of the card with this log.
    fn page(&self, log: &str, options: &[&str]) -> String {
        self.ok(&[&["page", "card", log, "page.html", "--force"], options].concat());
        fs::read_to_string(self.path("page.html")).unwrap()
    }

    /// The lines of its tables: mark, time, records, how many, and the reason.
    fn lines(&self, log: &str, options: &[&str]) -> Vec<String> {
        let page = self.page(log, options);
        let rows = page.lines().filter(|line| line.starts_with("<tr id"));
        rows.map(|row| plain(&row.replace("</td><td>", " | ").replace("</th><td>", " | "))).collect()
    }

    /// Overwrites records of a log.
    fn overwrite(&self, log: &str, records: std::ops::Range<usize>) {
        let mut bytes = fs::read(self.path(log)).unwrap();
        bytes[8 + 8 * records.start..8 + 8 * records.end].fill(0xFF);
        fs::write(self.path(log), bytes).unwrap();
    }
}

const COLD: &str =
    "\"customer asks\" is there; 40 seconds later (record 6) no \"head warm\", and up to then no \"print starts\"";
const LATE: &str = "\"customer asks\" is there; no \"print starts\" within 90 seconds (record 10 is 100 seconds later)";

#[test]
fn the_page_of_the_sample_day() {
    let place = Place::with_names();
    place.ok(&["evening", "card", "day.klg"]);
    let before = place.card();
    assert_eq!(place.ok(&["page", "card", "day.klg", "page.html"]), "page.html: 2 no in 2 stretches\n");
    let lines = [
        format!("1 | Mon 9 Nov 9:05:00 | record 5 | 1 no | {COLD}"),
        format!("2 | Mon 9 Nov 9:08:20 | record 8 | 1 no | {LATE}"),
    ];
    assert_eq!(place.lines("day.klg", &["--start", "2026-11-09T09:00"]), lines);
    let readme = fs::read_to_string(example("../../README.md")).unwrap();
    for line in lines {
        let shown = line.replace("| record ", "| ").replace(" no | ", " | ");
        assert!(readme.contains(&format!("\n| {shown} |\n")), "{shown}");
    }
    let page = place.page("day.klg", &["--start", "2026-11-09T09:00"]);
    let text = plain(&page);
    let reads = "Whenever \"customer asks\": \"head warm\" at every record until \"print starts\" comes, 0 to 90 seconds later. \
                 Where \"customer asks\" is not there the verdict is yes.";
    for said in [
        "Verdict sheet: card\nMonday 9 November 2026 9:00:00 to Monday 9 November 2026 9:12:10. / \
         14 records: 12 with a verdict, 2 open. / Made ",
        "formula 0: 2 no among 12 verdicts, 2 stretches; 2 open",
        reads,
        RULE,
        "Mon 9 Nov / 2 no / 2 open",
        "The no of formula 0, stretches by reason: / 1 × \"customer asks\" is there; no \"head warm\", and up to then no \"print starts\" / \
         1 × \"customer asks\" is there; no \"print starts\" within 90 seconds",
        "Open here: 2 records, Mon 9 Nov 9:11:40 to 9:12:10.",
        "second 0 of the log was set to Monday 9 November 2026 9:00:00",
        "sheet of verdicts, 12 bytes, SHA-256",
    ] {
        assert!(text.contains(said), "{said}: {text}");
    }
    assert!(page.contains(
        "aria-label=\"Monday 9 November 2026: 2 no, mark 1–2; open from 9:11:40; logged 9:00:00 to 9:12:10\""
    ));
    // a log has no clock
    let lines = place.lines("day.klg", &[]);
    assert!(lines[0].starts_with("1 | day 1 0:05:00 | record 5 | "), "{lines:?}");
    assert!(plain(&place.page("day.klg", &[])).contains("the log has no clock: day 1 begins with its second 0"));
    assert_eq!(place.card(), before);
}

/// Service visits are no positions; a line has its record and its position.
#[test]
fn service_visits_and_several_formulas() {
    let place = Place::with_names();
    fs::remove_dir_all(place.path("card")).unwrap();
    place.ok(&["new", "card", RULE, "e0 or not e0", BEFORE]);
    place.ok(&["evening", "card", "visit.klg"]);
    let made = "page.html\n  formula 0: 2 no in 2 stretches\n  formula 1: 0 no\n  formula 2: 1 no in 1 stretch\n";
    assert_eq!(place.ok(&["page", "card", "visit.klg", "page.html"]), made);
    let late = "e2 is there; no e1 within 90 seconds (record 13 is 100 seconds later)";
    let lines = [
        "1 | day 1 0:05:00 | record 8 / position 5 | 1 no | \
         e2 is there; 40 seconds later (record 9) no e0, and up to then no e1"
            .to_string(),
        format!("2 | day 1 0:08:20 | record 11 / position 8 | 1 no | {late}"),
        "3 | day 1 0:06:35 | record 10 / position 7 | 1 no | \
         e1 is there; at the record before, 55 seconds earlier (record 9), no e0"
            .to_string(),
    ];
    assert_eq!(place.lines("visit.klg", &[]), lines);
    let text = plain(&place.page("visit.klg", &[]));
    for said in [
        "formula 1: 0 no among 12 verdicts; 2 open",
        "17 records: 12 with a verdict, 2 open, 3 service.",
        "0 no for this formula. What the log covers:",
        "1 service visit (day 1 0:03:20 to 0:03:50, 3 records), 3 service records: not judged",
    ] {
        assert!(text.contains(said), "{said}: {text}");
    }
}

/// What a closing settled has no reason in the log.
#[test]
fn a_closed_card() {
    let place = Place::with_names();
    place.ok(&["close", "card", "day.klg", "--final"]);
    let lines = place.lines("day.klg", &[]);
    let ended = "3 | day 1 0:11:40 | record 12 | 1 no | the log ended before it was settled, and the card was closed";
    assert_eq!((lines.len(), lines[2].as_str()), (3, ended));
    let text = plain(&place.page("day.klg", &[]));
    assert!(text.contains("formula 0: 3 no among 14 verdicts, 3 stretches; 0 open, the card is closed"), "{text}");
    assert!(text.contains("The card is closed: every record has its verdict, on the log as it ends."), "{text}");
    // the log has gone on since
    let mut grown = fs::read(place.path("day.klg")).unwrap();
    grown.extend(&fs::read(place.path("tuesday.klg")).unwrap()[grown.len()..]);
    fs::write(place.path("grown.klg"), grown).unwrap();
    assert_eq!(place.lines("grown.klg", &[]), lines);
    let text = plain(&place.page("grown.klg", &[]));
    assert!(text.contains("The log has 5 further records that the card has not seen: it is closed."), "{text}");
}

/// Times and reasons come only from records that are as the card has seen them.
#[test]
fn records_that_were_overwritten() {
    let place = Place::with_names();
    fs::remove_dir_all(place.path("card")).unwrap();
    place.ok(&["new", "card", RULE, BEFORE, "--letters", "letters.txt"]);
    place.ok(&["evening", "card", "day.klg"]);
    fs::copy(example("tuesday.klg"), place.path("tuesday.klg")).unwrap();
    let mut grown = fs::read(place.path("day.klg")).unwrap();
    grown.extend(&fs::read(example("tuesday.klg")).unwrap()[grown.len()..]);
    fs::write(place.path("tuesday.klg"), grown).unwrap();
    place.ok(&["evening", "card", "tuesday.klg"]);
    let whole = place.lines("tuesday.klg", &[]);
    assert!(whole.iter().all(|line| !line.contains("not known") && !line.contains(LOST)), "{whole:?}");
    // one record of Monday: nothing that Monday's evening was the first to see is known any more
    for records in [3..4, 0..11] {
        place.overwrite("tuesday.klg", records);
        let lines = place.lines("tuesday.klg", &[]);
        assert_eq!(lines.len(), whole.len());
        assert_eq!(lines[0], format!("1 | time not known | record 5 | 1 no | {LOST}"));
        assert_eq!(lines[1], format!("2 | time not known | record 8 | 1 no | {LOST}"));
        // what Monday left open, and Tuesday's new records, are as they were
        assert_eq!(lines[2], whole[2]);
        let text = plain(&place.page("tuesday.klg", &[]));
        assert!(text.contains("2 stretches are not drawn: the log no longer holds these records"), "{text}");
        let lost = "without time and reason: the log no longer has their records\n";
        let said =
            format!("lost.html\n  formula 0: 3 no in 3 stretches, 2 {lost}  formula 1: 1 no in 1 stretch, 1 {lost}");
        assert_eq!(place.ok(&["page", "card", "tuesday.klg", "lost.html", "--force"]), said);
        assert!(text.contains("Of 11 judged records the log no longer holds what this card has seen"), "{text}");
        assert!(text.contains("The log still holds day 1 0:"), "{text}");
        assert!(text.contains("not known: the log no longer holds these records"), "{text}");
        assert!(text.contains("no known / "), "{text}");
    }
}

/// Where stretches share lines, those that are lost have one of their own, and the word for their numbers stands there once.
#[test]
fn many_stretches_that_are_lost() {
    let place = Place::new();
    let records = |from: usize, to: usize| {
        (from..to).map(|at| format!("{} {}\n", 60 * at, if at % 2 == 0 { "e0" } else { "none" })).collect::<String>()
    };
    place.ok(&["new", "card", "e0"]);
    place.log("log.klg", &records(0, 80));
    place.ok(&["evening", "card", "log.klg"]);
    place.log("log.klg", &records(0, 160));
    place.ok(&["evening", "card", "log.klg"]);
    place.overwrite("log.klg", 0..79);
    let lines = place.lines("log.klg", &[]);
    let numbers: Vec<String> = (0..39).map(|at| (2 * at + 1).to_string()).collect();
    let lost = format!("39 × {LOST}: records {}", numbers.join(", "));
    assert_eq!(lines[0], format!("1–39 | time not known | records 1 to 77 | 39 no in 39 stretches | {lost}"));
    assert!(lines.len() > 1 && lines[1..].iter().all(|line| !line.contains("not known")), "{lines:?}");
    assert!(lines[1].starts_with("40"), "{lines:?}");
}

/// Of a trimmed log only what is left is known, by the checksum of what was open.
#[test]
fn a_log_that_was_trimmed() {
    let place = Place::with_names();
    place.ok(&["evening", "card", "visit.klg"]);
    place.ok(&["trim", "card", "visit.klg", "left.klg"]);
    let lines = [
        format!("1 | time not known | position 5 | 1 no | {LOST}"),
        format!("2 | time not known | position 8 | 1 no | {LOST}"),
    ];
    assert_eq!(place.lines("left.klg", &[]), lines);
    let text = plain(&place.page("left.klg", &[]));
    let service = "3 service records, 3 of them no longer in the log, at times that are not known: not judged";
    assert!(text.contains(service), "{text}");
    assert!(text.contains("Open here: 2 records, day 1 0:11:40 to 0:12:10."), "{text}");
    // closed with what is left of it
    place.ok(&["close", "card", "left.klg", "--final"]);
    let lines = place.lines("left.klg", &[]);
    let ended = "the log ended before it was settled, and the card was closed";
    assert_eq!(lines[2], format!("3 | day 1 0:11:40 | record 15 / position 12 | 1 no | {ended}"));
}

/// A card in the middle of a log speaks of the log's own records, and a formula that looks back finds nothing before its first.
#[test]
fn a_card_after_another() {
    let place = Place::with_names();
    place.ok(&["evening", "card", "day.klg"]);
    fs::copy(example("tuesday.klg"), place.path("tuesday.klg")).unwrap();
    place.ok(&["new", "next", "not e2 or e0 until[0,60] e1", "prev[0,inf] e0", "--after", "card"]);
    place.ok(&["page", "next", "tuesday.klg", "new.html"]);
    let text = plain(&fs::read_to_string(place.path("new.html")).unwrap());
    assert!(text.contains("The card has seen no record.") && text.contains("The log has 7 further records"), "{text}");
    place.ok(&["evening", "next", "tuesday.klg"]);
    fs::remove_dir_all(place.path("card")).unwrap();
    fs::rename(place.path("next"), place.path("card")).unwrap();
    let lines = place.lines("tuesday.klg", &[]);
    let asked = lines.iter().find(|line| line.contains("\"customer asks\" is there")).unwrap();
    assert!(asked.contains(" | record 15 | 1 no | "), "{lines:?}");
    let first = lines.iter().find(|line| line.contains("no record stands before")).unwrap();
    assert!(first.contains(" | record 12 | 1 no | "), "{lines:?}");
    assert!(first.ends_with("before; the card begins at record 12 and has read nothing before it"), "{first}");
    let text = plain(&place.page("tuesday.klg", &[]));
    assert!(text.contains(" 1 open. The card begins at record 12. / Made "), "{text}");
    assert!(text.contains("of that record, on this log from record 12 on and however it goes on; what"), "{text}");
    place.ok(&["close", "card", "tuesday.klg", "--final"]);
    let text = plain(&place.page("tuesday.klg", &[]));
    assert!(text.contains("of that record, on the log from record 12 on as it ends; what"), "{text}");
}

/// A card of an earlier program knows its log from its next evening on.
#[test]
fn a_card_of_an_earlier_program() {
    let place = Place::with_card(1);
    place.make_old();
    let lines = place.lines("day.klg", &[]);
    assert_eq!(lines[0], format!("1 | time not known | record 5 | 1 no | {LOST}"));
    assert!(plain(&place.page("day.klg", &[])).contains("The log holds no record that this card knows."));
    place.ok(&["evening", "card", "tuesday.klg"]);
    let lines = place.lines("tuesday.klg", &[]);
    assert_eq!(lines[0], format!("1 | time not known | record 5 | 1 no | {LOST}"));
}

#[test]
fn cards_without_a_no_or_without_records() {
    let place = Place::with_logs();
    place.ok(&["new", "card", "e0 or not e0"]);
    fs::write(place.path("empty.klg"), b"KLG\x00\x01\x00\x00\x00").unwrap();
    let text = plain(&place.page("empty.klg", &[]));
    assert!(text.contains("The card has seen no record."), "{text}");
    assert!(text.contains("formula 0: 0 no among 0 verdicts; 0 open"), "{text}");
    let text = plain(&place.page("day.klg", &[]));
    let further = "The log has 14 further records that the card has not seen: havdrims evening judges them.";
    assert!(text.contains(further), "{text}");
    let said = place.ok(&["page", "card", "day.klg", "more.html"]);
    let run = "run `havdrims evening`, and make the page anew\n";
    assert_eq!(said, format!("more.html: 0 no\nthe log has 14 records that the card has not seen: {run}"));
    place.ok(&["evening", "card", "day.klg"]);
    assert!(place.lines("day.klg", &[]).is_empty());
    fs::write(place.path("empty.krl"), b"KRL\x00\x01\x00\x00\x00").unwrap();
    fs::remove_dir_all(place.path("card")).unwrap();
    place.ok(&["new", "card", "empty.krl"]);
    place.ok(&["evening", "card", "day.klg"]);
    let text = plain(&place.page("day.klg", &[]));
    assert!(text.contains("Empty: every position is yes"), "{text}");
}

/// Typed text stands in the page as it was typed, and is nothing else there.
#[test]
fn hostile_names() {
    let place = Place::with_logs();
    let names =
        ["</style><script>alert(1)</script>", "--></title><img src=x onerror=alert(2)>", "&amp;' onload='alert(3)"];
    let file: String = names.iter().enumerate().map(|(letter, name)| format!("{letter} {name}\n")).collect();
    fs::write(place.path("names.txt"), file).unwrap();
    let card = "'}<b>&{\u{202E}\u{7}\\a";
    place.ok(&["new", card, RULE, "--letters", "names.txt"]);
    place.ok(&["evening", card, "day.klg"]);
    place.ok(&["page", card, "day.klg", "page.html"]);
    let page = fs::read_to_string(place.path("page.html")).unwrap();
    for hidden in ['\u{202E}', '\u{7}'] {
        assert!(!page.contains(hidden));
    }
    let text = plain(&page);
    for name in names {
        assert!(!page.contains(name) && text.contains(&format!("\"{name}\"")), "{name}");
    }
    assert!(text.contains("Verdict sheet: '}<b>&{\u{FFFD}\u{FFFD}\\a"), "{text}");
    // as many elements as in the page of a card with plain names
    place.ok(&["new", "card", RULE]);
    place.ok(&["evening", "card", "day.klg"]);
    let other = place.page("day.klg", &[]);
    let style = |page: &str| page.split_once("<style>").unwrap().1.split_once("</style>").unwrap().0.to_string();
    let count = |page: &str| (page.matches('<').count(), style(page).matches(['{', '}', '"', ';']).count());
    assert_eq!(count(&page), count(&other));
    for fetched in ["<script", "<link", "<img", "<iframe", "<object", "@import", "url(", "http:", "https:", "src="] {
        assert!(!other.contains(fetched), "{fetched}");
    }
}

#[test]
fn pages_that_are_not_made() {
    let place = Place::with_names();
    place.ok(&["evening", "card", "day.klg"]);
    let before = place.card();
    let page = |status: i32, words: &[&str]| place.fails(status, &[&["page"], words].concat());
    let unchanged = "Nothing was changed.\n";
    fs::write(place.path("page.html"), b"mine").unwrap();
    let there = "page.html: a file is here already; --force replaces it\n";
    assert_eq!(page(1, &["card", "day.klg", "page.html"]), there);
    assert_eq!(fs::read(place.path("page.html")).unwrap(), b"mine");
    let in_card = "card/page.html: this would be a file in a card, which holds no others than its own\n";
    assert_eq!(page(1, &["card", "day.klg", "card/page.html"]), in_card);
    assert_eq!(
        page(1, &["none", "day.klg", "new.html"]),
        format!("none: no card is here; `havdrims new` makes one\n{unchanged}")
    );
    assert!(page(1, &["card", "none.klg", "new.html"]).starts_with("none.klg: "));
    // another kiosk's log, and one that is not whole
    let other = format!("{OTHER_LOG} {unchanged}");
    place.overwrite("day.klg", 12..13);
    let said = page(1, &["card", "day.klg", "new.html"]);
    assert_eq!(said, format!("day.klg: records 12 to 13 are not those that this card has seen\n{other}"));
    let bytes = fs::read(example("day.klg")).unwrap();
    fs::write(place.path("day.klg"), &bytes[..bytes.len() - 8]).unwrap();
    let said = page(1, &["card", "day.klg", "new.html"]);
    assert!(said.ends_with(&format!("{OLDER_LOG} {unchanged}")), "{said}");
    fs::write(place.path("day.klg"), &bytes).unwrap();
    for start in ["monday", "2026-11-31", "2026-11-09T9"] {
        let said = page(2, &["card", "day.klg", "new.html", "--start", start]);
        let wrong = format!(
            "--start: `{start}` is no time, as 2026-11-09 or 2026-11-09T09:30 are\nexpected: havdrims page CARD "
        );
        assert!(said.starts_with(&wrong), "{said}");
    }
    // an option with one stroke is no page
    let said = page(2, &["card", "day.klg", "-force"]);
    assert!(said.starts_with("`-force` is no option of `havdrims page`; did you mean --force?\nexpected: "), "{said}");
    assert!(!place.path("new.html").exists() && !place.path("-force").exists());
    assert_eq!(place.card(), before);
    place.ok(&["page", "card", "day.klg", "./-force"]);
    place.ok(&["page", "card", "day.klg", "--force", "--", "-force"]);
}

/// A page takes the place of no log and no rule, not even with --force: neither can be had again.
#[test]
fn logs_and_rules_that_stay() {
    let place = Place::with_names();
    place.ok(&["evening", "card", "day.klg"]);
    fs::create_dir(place.path("links")).unwrap();
    symlink("../day.klg", place.path("links/link.klg")).unwrap();
    fs::hard_link(place.path("day.klg"), place.path("hard.html")).unwrap();
    symlink("visit.klg", place.path("visit.html")).unwrap();
    let [day, visit, rule] = ["day.klg", "visit.klg", "rule.krl"].map(|name| fs::read(place.path(name)).unwrap());
    let stays = |log: &str, page: &str, says: &str| {
        for options in [&[][..], &["--force"], &["--force", "--start", "2026-11-09"]] {
            let said = place.fails(1, &[&["page", "card", log, page], options].concat());
            assert_eq!(said, format!("{page}: {says}, and is not replaced; choose another name\n"), "{log}");
        }
    };
    for log in ["day.klg", "./day.klg", "links/link.klg"] {
        for page in ["day.klg", "./day.klg", "links/../day.klg", "links/link.klg", "hard.html"] {
            stays(log, page, "this is the file that it is made from");
        }
    }
    stays("day.klg", "visit.klg", "a log is here");
    stays("day.klg", "visit.html", "a log is here");
    stays("day.klg", "rule.krl", "a rule is here");
    let left = ["day.klg", "visit.klg", "rule.krl"].map(|name| fs::read(place.path(name)).unwrap());
    assert_eq!(left, [day, visit, rule]);
    assert!(place.path("links/link.klg").is_symlink() && place.path("visit.html").is_symlink());
    // what is too short to be one, or is none, may be replaced
    for bytes in [&b""[..], b"KL", b"<html>"] {
        fs::write(place.path("page.html"), bytes).unwrap();
        place.ok(&["page", "card", "day.klg", "page.html", "--force"]);
    }
    assert!(place.help("page").contains("a log or a rule not even then"));
}

/// A log of version 1 with so many records, so many seconds apart.
fn log_of(records: u32, seconds: u32, mut letters: impl FnMut(u32) -> u32) -> Vec<u8> {
    let record = |record: u32| [(record * seconds).to_be_bytes(), letters(record).to_be_bytes()].concat();
    [b"KLG\x00\x01\x00\x00\x00".to_vec(), (0..records).flat_map(record).collect()].concat()
}

/// However many no there are, the page stays small and says what it leaves out.
#[test]
fn the_size_of_a_page() {
    let place = Place::new();
    let mut r = Random::new(32);
    fs::write(place.path("log.klg"), log_of(180_000, 3, |_| r.draw() as u32 & 0x0FFF_FFFF)).unwrap();
    let page_of = |options: &[&str], rules: Vec<String>| {
        let _ = fs::remove_dir_all(place.path("card"));
        let rules: Vec<&str> = rules.iter().map(String::as_str).collect();
        place.ok(&[&["new", "card"], options, &rules[..]].concat());
        place.ok(&["evening", "card", "log.klg"]);
        let page = place.page("log.klg", &["--start", "2026-11-09"]);
        println!("{} bytes", page.len());
        page
    };
    let page = page_of(&[], (0..8).map(|k| format!("e{k} or e9 until[0,20] (e{k} or e20)")).collect());
    assert!(page.len() < 300_000, "{}", page.len());
    let text = plain(&page);
    for said in
        ["not listed: havdrims sheet --csv has them all.", "of these stretches are not listed", "reason not looked for"]
    {
        assert!(text.contains(said), "{said}");
    }
    // names as long as a name may be, and formulas nearly as long as a rule may be
    let names: String = (10..32).map(|letter| format!("{letter} {}{letter}\n", "&".repeat(78))).collect();
    fs::write(place.path("names.txt"), names).unwrap();
    let all = (20..28).map(|letter| format!("e{letter}")).collect::<Vec<_>>().join(" or ");
    let page = page_of(&["--letters", "names.txt"], (10..17).map(|letter| format!("not e{letter} or {all}")).collect());
    assert!(page.len() < 1_000_000, "{}", page.len());
    assert!(plain(&page).contains("(cut off here; `havdrims why` has all of it)"));
}

/// Of a log over two years, on days of which little happens, the last are drawn.
#[test]
fn more_days_than_are_drawn() {
    let place = Place::new();
    fs::write(place.path("years.klg"), log_of(5_000, 12_345, |record| record % 3)).unwrap();
    place.ok(&["new", "card", "e0"]);
    place.ok(&["evening", "card", "years.klg"]);
    let page = place.page("years.klg", &["--start", "2015-11-09"]);
    assert!(page.len() < 300_000, "{}", page.len());
    let days = 5_000_u64 * 12_345 / 86_400;
    assert!(plain(&page).contains(&format!("{} earlier days are not drawn.", days + 1 - 62)), "{days}");
    assert_eq!(page.matches("<div class=\"strip\">").count(), 62);
}
