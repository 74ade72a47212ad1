//! Shorter logs: what a card no longer wants is dropped, and the log goes on from there.

use crate::service::with_visits;
use crate::{contents, divided, Place, CARRY_ON, CHECKED, OLDER_LOG, OTHER_LOG, RULE};
use evaluator::log::{self, Record};
use evaluator::random::{self, LogShape, Random};
use evaluator::{linear, rule};
use std::fs;
use std::os::unix::fs::symlink;
use std::os::unix::process::ExitStatusExt;
use std::path::Path;
use std::process::Stdio;
use std::thread;
use std::time::Duration;

const UNTIL: &str = "e0 until[0,2] e1";

impl Place {
    fn bytes(&self, name: &str) -> Vec<u8> {
        fs::read(self.path(name)).unwrap()
    }

    /// The records of the second log from this one on, added to the first.
    fn grow(&self, trimmed: &str, whole: &str, from: usize) {
        let new = &self.bytes(whole)[8 + 8 * from..];
        fs::write(self.path(trimmed), [self.bytes(trimmed).as_slice(), new].concat()).unwrap();
    }
}

/// A week whose log is trimmed after each evening: every command says what it says for the log that was never trimmed.
#[test]
fn a_week_on_trimmed_logs() {
    let place = Place::new();
    place.log("monday.klg", &with_visits("day.txt"));
    place.log("tuesday.klg", &format!("{}{}1100 service\n", with_visits("day.txt"), five_more()));
    for card in ["whole", "trimmed"] {
        place.ok(&["new", card, RULE]);
    }
    let both = |words: &[&str], other: &[&str]| {
        let said = place.ok(words);
        assert_eq!(place.ok(other), said, "{words:?}");
        said
    };
    let said = both(&["evening", "whole", "monday.klg"], &["evening", "trimmed", "monday.klg"]);
    assert!(said.ends_with("records 0 to 24 may be overwritten\n"), "{said}");
    let card = contents(&place.path("trimmed"));
    let said = place.ok(&["trim", "trimmed", "monday.klg", "left.klg"]);
    assert_eq!(said, "left.klg: records 0 to 24 dropped, 3 left\n");
    assert_eq!(contents(&place.path("trimmed")), card);
    assert_eq!(place.bytes("left.klg"), [&trimmed_header(25)[..], &place.bytes("monday.klg")[8 + 8 * 25..]].concat());
    let text = place.ok(&["to-text", "left.klg"]);
    assert!(text.starts_with("version 3\ndropped 25\n"), "{text}");

    // nothing new: the same log; and the log itself may be brought again
    both(&["evening", "whole", "monday.klg"], &["evening", "trimmed", "left.klg"]);
    both(&["evening", "whole", "monday.klg"], &["evening", "trimmed", "monday.klg"]);
    place.ok(&["trim", "trimmed", "left.klg", "again.klg"]);
    assert_eq!(place.bytes("again.klg"), place.bytes("left.klg"));

    place.grow("left.klg", "tuesday.klg", 28);
    let said = both(&["evening", "whole", "tuesday.klg"], &["evening", "trimmed", "left.klg"]);
    assert!(said.contains("6 service records passed over\n") && said.ends_with("records 0 to 36 may be overwritten\n"));
    let said = place.ok(&["trim", "trimmed", "left.klg", "left.klg", "--force"]);
    assert_eq!(said, "left.klg: records 0 to 36 dropped, 2 left\n");
    both(&["close", "whole", "tuesday.klg", "--final"], &["close", "trimmed", "left.klg", "--final"]);
    let said = place.ok(&["trim", "--force", "trimmed", "left.klg", "left.klg"]);
    assert_eq!(said, "left.klg: records 0 to 37 dropped, 1 left\n");
    assert_eq!(place.bytes("left.klg"), [&trimmed_header(38)[..], &place.bytes("tuesday.klg")[8 + 8 * 38..]].concat());
    both(&["close", "whole", "tuesday.klg", "--final"], &["close", "trimmed", "left.klg", "--final"]);
    for words in [&["summary"][..], &["sheet"], &["sheet", "--csv"]] {
        let of = |card: &str| place.ok(&[words, &[card]].concat());
        assert_eq!(of("whole"), of("trimmed"), "{words:?}");
    }
}

/// What Tuesday adds to the day of the examples, with its visits.
fn five_more() -> String {
    let [monday, tuesday] = ["day.txt", "tuesday.txt"].map(with_visits);
    let lines = monday.lines().count();
    tuesday.lines().skip(lines).map(|line| format!("{line}\n")).collect()
}

fn trimmed_header(dropped: u64) -> Vec<u8> {
    log::encode_trimmed(dropped, &[])
}

/// A card that has given nothing drops nothing; one record; and records that no evening has seen.
#[test]
fn little_to_drop() {
    let place = Place::new();
    place.ok(&["new", "card", UNTIL]);
    place.log("day.klg", "10 e0\n11 service\n");
    assert_eq!(place.ok(&["trim", "card", "day.klg", "out.klg"]), "out.klg: no record dropped, 2 left\n");
    place.ok(&["evening", "card", "out.klg"]);
    place.log("day.klg", "10 e0\n11 service\n13 e0\n14 e1\n");
    place.ok(&["evening", "card", "day.klg"]);
    place.ok(&["new", "one", "prev[0,9] e0"]);
    place.log("one.klg", "10 e0\n13 e0\n");
    place.ok(&["evening", "one", "one.klg"]);
    place.log("one.klg", "10 e0\n13 e0\n13 e0\n");
    assert_eq!(place.ok(&["trim", "one", "one.klg", "less.klg"]), "less.klg: record 0 dropped, 2 left\n");
    assert!(place.ok(&["evening", "one", "less.klg"]).starts_with("record 2: 1 yes, 0 no\n"));
    // as large as a log can be
    place.ok(&["new", "many", "e0"]);
    let mut many = log::encode_as(2, &[]);
    many.resize(8 + 8 * 1_000_000, 0);
    fs::write(place.path("many.klg"), many).unwrap();
    assert_eq!(place.ok(&["trim", "many", "many.klg", "fewer.klg"]), "fewer.klg: no record dropped, 1000000 left\n");
    assert!(place.ok(&["evening", "many", "fewer.klg"]).ends_with("records 0 to 999998 may be overwritten\n"));
    let said = place.ok(&["trim", "many", "fewer.klg", "fewer.klg", "--force"]);
    assert_eq!(said, "fewer.klg: records 0 to 999998 dropped, 1 left\n");
}

/// The last record seen is kept to know the log by, where the log still has it: the library itself drops it.
#[test]
fn a_trimmed_log_that_is_known() {
    let place = Place::new();
    place.ok(&["new", "card", "e0"]);
    place.log("log.klg", "1 e0\n2 service\n");
    place.ok(&["evening", "card", "log.klg"]);
    let trim = ["trim", "card", "log.klg", "left.klg", "--force"];
    assert_eq!(place.ok(&trim), "left.klg: record 0 dropped, 1 left\n");
    let left = place.bytes("left.klg");
    place.log("log.klg", "1 e0\n2 service\n3 e0\n");
    place.ok(&trim);
    assert_eq!(place.bytes("left.klg"), [left.as_slice(), &[0, 0, 0, 3, 0, 0, 0, 1]].concat());
    let mut other = place.bytes("left.klg");
    other[16 + 7] ^= 1;
    fs::write(place.path("other.klg"), other).unwrap();
    let text =
        format!("other.klg: record 1 is not the one that this card has seen\n{OTHER_LOG} Nothing was changed.\n");
    for words in [&["evening", "card", "other.klg"][..], &["trim", "card", "other.klg", "out.klg"]] {
        refuses(&place, words, &text);
    }
    // a log that has dropped it can be trimmed and carried on with all the same
    let dropped = log::encode_trimmed(2, &[Record { time: 3, letters: 1 }]);
    fs::write(place.path("log.klg"), &dropped).unwrap();
    assert_eq!(place.ok(&trim), "left.klg: records 0 to 1 dropped, 1 left\n");
    assert_eq!(place.bytes("left.klg"), dropped);
    assert!(place.ok(&["evening", "card", "left.klg"]).starts_with("position 1: 1 yes, 0 no\n"));
}

/// The command fails with this text; the card is as it was, and there is no new file.
fn refuses(place: &Place, words: &[&str], text: &str) {
    let before = (contents(&place.path("card")), names(&place.0));
    assert_eq!(place.fails(1, words), text, "{words:?}");
    assert_eq!((contents(&place.path("card")), names(&place.0)), before, "{words:?}");
}

fn names(folder: &Path) -> Vec<String> {
    let name = |entry: fs::DirEntry| entry.file_name().into_string().unwrap();
    let mut all: Vec<String> = fs::read_dir(folder).unwrap().map(|entry| name(entry.unwrap())).collect();
    all.sort();
    all
}

#[test]
fn logs_that_are_not_trimmed() {
    let place = Place::with_card(0);
    let trim = |log: &str, says: &str, hint: &str| {
        let text = format!("{log}: {says}\n{hint}Nothing was changed.\n");
        refuses(&place, &["trim", "card", log, "out.klg"], &text);
    };
    let version_1 = "a log of version 1 cannot be trimmed (refused 23)";
    trim("day.klg", version_1, "Logs of version 2 and 3 can be. ");
    place.ok(&["evening", "card", "day.klg"]);
    trim("day.klg", version_1, "Logs of version 2 and 3 can be. ");
    fs::remove_dir_all(place.path("card")).unwrap();

    place.ok(&["new", "card", UNTIL]);
    let whole = place.log("whole.klg", "10 e0\n13 e0\n16 e0\n17 service\n");
    place.ok(&["evening", "card", "whole.klg"]);
    let other =
        "A card keeps to the version of its first log, 2 and 3 counting as one; another needs a card of its own. ";
    trim("day.klg", "the log is of version 1, and the card's first one was of version 2 or 3 (refused 22)", other);
    fs::write(place.path("short.klg"), &whole[..8 + 8 * 3]).unwrap();
    let short = "the log has 3 records, and the card has seen 4 (refused 13)";
    trim("short.klg", short, &format!("{OLDER_LOG} "));
    fs::write(place.path("none.klg"), &whole[..9]).unwrap();
    trim("none.klg", "the log ends inside record 0: 1 of its 8 bytes are there (refused 12)", "");
    let falls = [whole.as_slice(), &[0, 0, 0, 16, 0, 0, 0, 0]].concat();
    fs::write(place.path("falls.klg"), falls).unwrap();
    let falls = "record 4, second 16, comes after record 3, second 17 (refused 14)";
    let twice = "Is this the log of another kiosk, did its clock begin anew, or were records added twice?";
    trim("falls.klg", falls, &format!("{twice}{} ", divided(40)));
    let mut other = whole.clone();
    other[8 + 8 * 3 + 3] = 18;
    fs::write(place.path("other.klg"), other).unwrap();
    let text =
        format!("other.klg: records 2 to 3 are not those that this card has seen\n{OTHER_LOG} Nothing was changed.\n");
    refuses(&place, &["trim", "card", "other.klg", "out.klg"], &text);
    let dropped = log::encode_trimmed(3, &[Record { time: 17, letters: log::SERVICE }]);
    fs::write(place.path("dropped.klg"), dropped).unwrap();
    let hint =
        "Was it trimmed for another card, or was this card put back from an older copy? The log before it was trimmed \
                can still be\nbrought. ";
    let dropped = "records 0 to 2 were dropped from the log, and the card still wants record 2 (refused 24)";
    trim("dropped.klg", dropped, hint);
    for command in CARRY_ON {
        let text = format!("dropped.klg: {dropped}\n{hint}Nothing was changed.\n");
        refuses(&place, &[command, &["card", "dropped.klg"]].concat(), &text);
    }
    let none = "none: no card is here; `havdrims new` makes one\nNothing was changed.\n";
    refuses(&place, &["trim", "none", "whole.klg", "out.klg"], none);
    let none = "absent.klg: there is no such file\nNothing was changed.\n";
    refuses(&place, &["trim", "card", "absent.klg", "out.klg"], none);
}

/// A card whose rule is new in the middle of a month: a trimmed log does not have what it wants.
#[test]
fn a_new_card_on_a_trimmed_log() {
    let place = Place::new();
    place.ok(&["new", "card", UNTIL]);
    place.log("day.klg", "10 e0\n13 e0\n");
    place.ok(&["evening", "card", "day.klg"]);
    place.ok(&["trim", "card", "day.klg", "left.klg"]);
    place.ok(&["new", "other", "e0"]);
    let said = place.fails(1, &["evening", "other", "left.klg"]);
    let dropped = "left.klg: record 0 was dropped from the log, and the card still wants record 0 (refused 24)\n";
    assert!(said.starts_with(dropped), "{said}");
}

/// The log and the place of the shorter one exchanged: the records that the kiosk has added since stay.
#[test]
fn a_log_with_more_records_stays() {
    let place = Place::new();
    place.ok(&["new", "card", UNTIL]);
    let day = place.log("day.klg", "10 e0\n13 e0\n16 e0\n");
    place.ok(&["evening", "card", "day.klg"]);
    place.ok(&["trim", "card", "day.klg", "left.klg"]);
    let left = place.bytes("left.klg");
    let grown = place.log("grown.klg", "10 e0\n13 e0\n16 e0\n19 service\n");
    symlink("grown.klg", place.path("link.klg")).unwrap();
    // trimmed as well, a record longer; and one whose last record is being written
    let longer = [left.as_slice(), &[0, 0, 0, 19, 0x80, 0, 0, 0]].concat();
    fs::write(place.path("longer.klg"), &longer).unwrap();
    fs::write(place.path("growing.klg"), [grown.as_slice(), &[0, 0, 0]].concat()).unwrap();
    for (out, has) in [("grown.klg", 4), ("link.klg", 4), ("longer.klg", 4), ("growing.klg", 4)] {
        let text = format!(
            "{out}: the log that is here has {has} records, dropped ones included, and left.klg has 3\n\
             What it has more would be lost: are LOG and OUT exchanged? Nothing was changed.\n"
        );
        for options in [&[][..], &["--force"]] {
            refuses(&place, &[&["trim", "card", "left.klg", out], options].concat(), &text);
        }
    }
    assert_eq!((place.bytes("grown.klg"), place.bytes("longer.klg")), (grown.clone(), longer));
    // far too many records are more as well
    let mut many = log::encode_as(2, &[]);
    many.resize(8 + 8 * 1_000_100, 0);
    fs::write(place.path("many.klg"), many).unwrap();
    let said = place.fails(1, &["trim", "card", "left.klg", "many.klg", "--force"]);
    assert!(said.starts_with("many.klg: the log that is here has 1000100 records, "), "{said}");
    // nor a rule
    place.ok(&["rule", "e0", "some.krl"]);
    let said = place.fails(1, &["trim", "card", "left.klg", "some.krl", "--force"]);
    assert_eq!(said, "some.krl: a rule is here, and is not replaced; choose another name\n");
    // as many, or fewer, or no log
    fs::write(place.path("text.klg"), "no log, and longer than the one that is trimmed").unwrap();
    fs::write(place.path("few.klg"), &day[..8 + 8]).unwrap();
    for out in ["day.klg", "few.klg", "text.klg", "left.klg"] {
        place.ok(&["trim", "card", "left.klg", out, "--force"]);
        assert_eq!(place.bytes(out), left, "{out}");
    }
    place.ok(&["trim", "card", "grown.klg", "grown.klg", "--force"]);
    assert!(place.help("trim").contains("A log with more records than LOG, dropped ones included, is not replaced"));
}

/// A file that is there is replaced only if so told, and no file is put into a card.
#[test]
fn where_the_shorter_log_goes() {
    let place = Place::new();
    place.ok(&["new", "card", UNTIL]);
    place.ok(&["new", "other", UNTIL]);
    let whole = place.log("day.klg", "10 e0\n13 e0\n");
    place.ok(&["evening", "card", "day.klg"]);
    let there = "a file is here already; --force replaces it\n";
    fs::write(place.path("there.klg"), b"kept").unwrap();
    refuses(&place, &["trim", "card", "day.klg", "there.klg"], &format!("there.klg: {there}"));
    refuses(&place, &["trim", "card", "day.klg", "day.klg"], &format!("day.klg: {there}"));
    refuses(&place, &["trim", "card", "day.klg", "./day.klg"], &format!("./day.klg: {there}"));
    assert_eq!((place.bytes("there.klg").as_slice(), place.bytes("day.klg")), (&b"kept"[..], whole.clone()));
    // as long as it is not whole the new log has a name of its own, which may not be that of the log that is read
    let unfinished = ".late.klg.havdrims-new";
    fs::copy(place.path("day.klg"), place.path(unfinished)).unwrap();
    fs::write(place.path("late.klg"), b"kept").unwrap();
    fs::create_dir(place.path("links")).unwrap();
    symlink(place.path("late.klg"), place.path("links/link.klg")).unwrap();
    let itself = "until it is whole this file has the name of what it is made from; choose another name\n";
    for log in [unfinished, "./.late.klg.havdrims-new"] {
        for out in ["late.klg", "links/link.klg"] {
            refuses(&place, &["trim", "card", log, out, "--force"], &format!("{out}: {itself}"));
        }
    }
    assert_eq!((place.bytes(unfinished), place.bytes("late.klg")), (whole.clone(), b"kept".to_vec()));
    // a name that somebody may have typed is left alone
    fs::write(place.path("late.klg.new"), b"kept").unwrap();
    place.ok(&["trim", "card", "day.klg", "links/link.klg", "--force"]);
    assert_eq!(place.bytes("late.klg.new"), b"kept");
    assert!(place.bytes("late.klg").starts_with(b"KLG") && !place.path(unfinished).exists());

    let in_card = "this would be a file in a card, which holds no others than its own\n";
    let before = contents(&place.path("other"));
    for out in ["card/out.klg", "card/sheet", "card/point", "other/out.klg", "other/point", "./other/../other/point"] {
        for words in [&["trim", "card", "day.klg", out][..], &["trim", "card", "day.klg", out, "--force"]] {
            refuses(&place, words, &format!("{out}: {in_card}"));
        }
    }
    assert_eq!(contents(&place.path("other")), before);
    let missing = "none/out.klg: its folder is not there\n";
    refuses(&place, &["trim", "card", "day.klg", "none/out.klg"], missing);
    for out in ["..", ".", "card/", "/"] {
        let expected = "expected: havdrims trim CARD LOG OUT [--both] [--force]\n";
        let said = place.fails(2, &["trim", "card", "day.klg", out]);
        assert_eq!(said, format!("`{out}` is no name of a file\n{expected}"));
    }

    // what a run that was cut has left beside does not matter
    fs::create_dir(place.path("logs")).unwrap();
    fs::write(place.path("logs/.out.klg.havdrims-new"), b"half").unwrap();
    place.ok(&["trim", "card", "day.klg", "logs/out.klg"]);
    let left = log::encode_trimmed(1, &[Record { time: 13, letters: 1 }]);
    assert_eq!((names(&place.path("logs")), place.bytes("logs/out.klg")), (vec!["out.klg".to_string()], left.clone()));
    let full = place.path("there.klg");
    place.ok(&["trim", "card", "day.klg", full.to_str().unwrap(), "--force"]);
    place.ok(&["trim", "card", "day.klg", "day.klg", "--force"]);
    assert_eq!((place.bytes("there.klg"), place.bytes("day.klg")), (left.clone(), left));
    assert!(!place.path(".day.klg.havdrims-new").exists());
    place.ok(&["evening", "card", "day.klg"]);
}

/// Folders in the place of files, which nobody can write to.
#[test]
fn logs_that_cannot_be_written() {
    let place = Place::new();
    place.ok(&["new", "card", UNTIL]);
    place.log("day.klg", "10 e0\n13 e0\n");
    place.ok(&["evening", "card", "day.klg"]);
    fs::create_dir(place.path("folder.klg")).unwrap();
    let text = "what is here is no file, and is not replaced\n";
    refuses(&place, &["trim", "card", "day.klg", "folder.klg", "--force"], &format!("folder.klg: {text}"));
    fs::create_dir(place.path(".out.klg.havdrims-new")).unwrap();
    let text = "cannot write it: Is a directory (os error 21); nothing was changed\n";
    refuses(&place, &["trim", "card", "day.klg", "out.klg"], &format!("out.klg: {text}"));
    let text = "day.klg/out.klg: cannot read its folder: Not a directory (os error 20); nothing was changed\n";
    refuses(&place, &["trim", "card", "day.klg", "day.klg/out.klg"], text);
    // the card cannot be synced
    let point = place.bytes("card/point");
    fs::remove_file(place.path("card/point")).unwrap();
    fs::create_dir(place.path("card/point")).unwrap();
    let said = place.fails(1, &["trim", "card", "day.klg", "out.klg"]);
    let text = "cannot read the file `point`: Is a directory (os error 21)";
    assert_eq!(said, format!("card: {text}\nNothing was written. `havdrims check` looks at the card's files.\n"));
    fs::remove_dir(place.path("card/point")).unwrap();
    fs::write(place.path("card/point"), point).unwrap();
    fs::remove_dir(place.path(".out.klg.havdrims-new")).unwrap();
    place.ok(&["trim", "card", "day.klg", "out.klg"]);
}

/// A damaged card is said to be damaged, and nothing is written.
#[test]
fn a_card_that_is_damaged_or_in_use() {
    let place = Place::new();
    place.ok(&["new", "card", UNTIL]);
    place.log("day.klg", "10 e0\n13 e0\n");
    place.ok(&["evening", "card", "day.klg"]);
    let lock = fs::File::open(place.path("card/card.txt")).unwrap();
    lock.lock_shared().unwrap();
    let in_use = "card: another command is at work on this card; try again when it has ended\nNothing was changed.\n";
    refuses(&place, &["trim", "card", "day.klg", "out.klg"], in_use);
    lock.unlock().unwrap();
    let mut sheet = place.bytes("card/sheet");
    sheet[0] ^= 1;
    fs::write(place.path("card/sheet"), sheet).unwrap();
    let text = format!("card: the file `sheet` is damaged: its checksum does not fit\n{CHECKED}Nothing was changed.\n");
    refuses(&place, &["trim", "card", "day.klg", "out.klg"], &text);
}

/// A write that fails half way: no file may grow beyond a limit, which stands for a disk that is full.
#[test]
fn a_full_disk() {
    let place = Place::new();
    place.ok(&["new", "card", "e0"]);
    let records = random::log(&mut Random::new(3), LogShape { records: 600, letters: 2, hold: 1, step: 1, start: 0 });
    fs::write(place.path("long.klg"), log::encode_as(2, &records)).unwrap();
    let shell = "trap '' XFSZ; ulimit -f 2; exec \"$0\" \"$@\"";
    let words = ["-c", shell, env!("CARGO_BIN_EXE_havdrims"), "trim", "card", "long.klg", "long.klg", "--force"];
    let output = std::process::Command::new("sh").args(words).current_dir(&place.0).output().unwrap();
    let (status, out, err) = crate::ended(output);
    let text = "long.klg: cannot write it: File too large (os error 27); nothing was changed\n";
    assert_eq!((status, out.as_str(), err.as_str()), (1, "", text));
    assert_eq!(names(&place.0), ["card", "long.klg"]);
    assert_eq!(place.bytes("long.klg"), log::encode_as(2, &records));
}

/// Runs a command and kills it after this time, if it has not ended.
fn run_for(place: &Place, words: &[&str], time: Duration) -> bool {
    let mut child = place.program().args(words).stdout(Stdio::null()).stderr(Stdio::null()).spawn().unwrap();
    thread::sleep(time);
    let _ = child.kill();
    let ended = child.wait().unwrap();
    assert!(ended.signal() == Some(9) || ended.success(), "{words:?}: {ended}");
    ended.signal() == Some(9)
}

/// Evenings and trimmings in place, killed at random moments; an evening is then repeated, a trimming not always.
#[test]
fn killed_while_trimming() {
    const KILLS: usize = 150;
    let mut r = Random::new(11);
    let place = Place::new();
    let shape = LogShape { records: 60_000, letters: 4, hold: 20, step: 2, start: 7 };
    let mut untouched: Vec<Record> = random::log(&mut r, shape);
    random::visit(&mut r, &mut untouched);
    place.ok(&["new", "card", "prev[0,9] e0 or e1 until[0,60] e2", "e3 since[0,60] not e0"]);
    let parsed = rule::parse(&place.bytes("card/rule.krl")).unwrap();
    fs::write(place.path("log.klg"), log::header(2)).unwrap();
    let (mut killed, mut records, mut dropped) = (0, 0, 0);
    let moment = |r: &mut Random| Duration::from_micros(r.below(6_000) as u64);
    while killed < KILLS {
        let more = (records + r.from_to(0, 400)).min(untouched.len());
        let new = log::encode_records(&untouched[records..more]);
        fs::write(place.path("log.klg"), [place.bytes("log.klg"), new].concat()).unwrap();
        records = more;
        for _ in 0..r.from_to(0, 3) {
            killed += usize::from(run_for(&place, &["evening", "card", "log.klg"], moment(&mut r)));
        }
        place.ok(&["evening", "card", "log.klg"]);
        let trim = ["trim", "card", "log.klg", "log.klg", "--force"];
        for _ in 0..r.from_to(1, 4) {
            killed += usize::from(run_for(&place, &trim, moment(&mut r)));
        }
        if r.one_in(2) {
            place.ok(&trim);
        }
        let log = log::parse(&place.bytes("log.klg")).unwrap();
        assert_eq!(log.total(), records);
        dropped = log.dropped;
        let expected = linear::verdicts(&parsed, &log::positions(2, &untouched[..records]));
        assert_eq!(place.bytes("card/sheet"), expected);
    }
    println!("{killed} kills, {records} records, {dropped} of them dropped");
    assert!(dropped > 0);
}

#[test]
fn help_says_what_becomes_of_the_log() {
    let place = Place::new();
    let help = place.help("trim");
    for said in
        ["replaced only with --force", "of version 2 or 3", "synced before OUT is written", "never a file in a card"]
    {
        assert!(help.contains(said), "{help}");
    }
    assert!(place.help("evening").contains("`havdrims trim`"));
}
