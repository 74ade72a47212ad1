//! Making a card, and where it begins.

use super::brought::with_the_next_log;
use super::reading::{quoted, vouched};
use super::told::by_formula;
use super::{of_card, Answer, Failure, Given};
use crate::back::Back;
use crate::beside::is_card;
use crate::card::{self, Begins, Card, First};
use crate::convert::{between_quotes, is_formula};
use crate::disk::Folder;
use crate::followed::{Followed, Follower};
use crate::letters::Letters;
use crate::{convert, kept, named};
use havdrims::{Rule, MOST_RECORDS};
use std::hash::{BuildHasher, RandomState};
use std::path::Path;

/// A number that no other card has: the standard library draws it at random for its hash tables.
fn card_number() -> u64 {
    RandomState::new().hash_one(std::process::id())
}

/// The words of `new`.
pub fn new(given: &Given) -> Answer {
    let (folder, rules) = given.all().split_first().expect("the table has a word at the beginning");
    if let Some(says) = no_card(folder, rules) {
        return Err(Failure::Use(format!("CARD seems to be missing: {says}")));
    }
    free(folder)?;
    let (begins, followed) = match (given.value("--after"), given.number("--from")?) {
        (Some(old), _) => (after_card(old)?, followed_by(old)?),
        (None, Some(from)) => (from_record(from)?.into(), Followed::default()),
        (None, None) => (First::default().into(), Followed::default()),
    };
    let letters = match (given.value("--letters"), given.value("--after")) {
        (Some(file), None) => Some(named::read(file, "No card was made. Without --letters it has no names.")?),
        (Some(file), Some(_)) => Some(named::read(file, "No card was made. Without --letters OLD's names go over.")?),
        (None, Some(old)) => kept::names(&mut Folder::new(Path::new(old))),
        (None, None) => Some(Letters::default()),
    };
    let mut made = make(folder, rules, begins, letters.as_ref().unwrap_or(&Letters::default()))?;
    if letters.is_none() {
        made.push_str(NO_NAMES);
    }
    if let Some(old) = given.value("--after") {
        let follower = Follower::new(folder, begins.first.record);
        made.push_str(&followed.already(old, &follower));
        follow(old, folder, follower).map_err(|fault| Failure::Partly { fault, printed: made.clone() })?;
    }
    Ok(made)
}

/// The cards that go on from the old one already. Where that is not known, no further one does.
fn followed_by(old: &str) -> Result<Followed, Failure> {
    card::followed(&mut Folder::new(Path::new(old))).map_err(|fault| match fault {
        // It says to take the file away.
        card::Fault::FollowedDamaged => of_card(old, &fault).and("Then repeat the command. No card was made."),
        _ => of_card(old, &fault).and("No card was made. When the cause is gone, repeat the command."),
    })
}

/// Writes down in the old card that this one goes on from it, last of all: a cut before leaves both cards whole.
fn follow(old: &str, folder: &str, follower: Follower) -> Result<(), String> {
    card::follow(&mut Folder::new(Path::new(old)), follower).map_err(|fault| {
        format!("{old}: {fault}\nThe card {folder} is made. That it goes on from {old} is not written there: give the log to {folder} alone.")
    })
}

const NO_NAMES: &str = "\
the old card's names for letters are damaged, or cannot be read, and do not go over: `havdrims letters CARD FILE` gives this card some
";

/// What the first word is where it is no name of a card, which was forgotten: the formulas behind it would be judged without the first.
/// `./NAME` says that a folder is meant, as it does where a card may be a formula.
fn no_card(folder: &str, rules: &[&str]) -> Option<String> {
    let is = match folder {
        _ if folder.starts_with("./") || folder.contains("/./") => return None,
        _ if is_formula(folder) => "is a formula",
        _ if folder.ends_with(".krl") => "is the name of a rule file",
        _ if folder.ends_with(".klg") => "is the name of a log",
        _ => {
            let all = [&[folder], rules].concat().join(" ");
            return is_formula(&all).then(|| between_quotes(&all));
        }
    };
    let (above, name) = folder.split_at(folder.rfind('/').map_or(0, |at| at + 1));
    let meant = match Path::new(folder).is_file() {
        true => String::new(),
        false => format!("; a folder of this name is {}", quoted(&format!("{above}./{name}"))),
    };
    Some(format!("`{folder}` {is}{meant}"))
}

/// Whether a card may have this place: it is no file, and in no other card.
fn free(folder: &str) -> Result<(), Failure> {
    if folder == "-" {
        return Err(Failure::Use("`-` is standard input; a folder of this name is ./-".to_string()));
    }
    // `.` and `..` have no name: what they are in does not matter.
    let path = Path::new(folder);
    let above = path.parent().filter(|_| path.file_name().is_some());
    let above = above.map(|above| if above == Path::new("") { Path::new(".") } else { above });
    match above.and_then(Path::to_str).filter(|above| is_card(above)) {
        Some(_) => Err(Failure::fault(folder, "this would be a folder in a card, which holds its own files alone")),
        None => Ok(()),
    }
}

/// Where a card goes on that takes the place of this one, which may be damaged or of another version of the library.
fn after_card(folder: &str) -> Result<Begins, Failure> {
    let mut disk = Folder::new(Path::new(folder));
    let begins = match Card::open(&mut disk, false).and_then(|card| card.after()) {
        Ok(begins) => begins,
        Err(fault) => vouched(&mut disk, &fault).and_then(|kept| kept.after).ok_or_else(|| of_card(folder, &fault))?,
    };
    match is_full(begins.first.record) {
        true => Err(Failure::fault(folder, FULL).and(&with_the_next_log(folder))),
        false => Ok(begins),
    }
}

const FULL: &str = "its log is full, so that no card can go on with it";

/// Whether a log has no record of this number.
fn is_full(record: u64) -> bool {
    record >= MOST_RECORDS as u64
}

fn from_record(record: u64) -> Result<First, Failure> {
    if is_full(record) {
        return Err(Failure::Use(format!("a log has at most {MOST_RECORDS} records, 0 to {}", MOST_RECORDS - 1)));
    }
    Ok(First { record, position: record })
}

/// What can be done where a card is already: another goes on from it, or it is said why none can.
fn beside_a_card(folder: &str) -> String {
    let other = format!("havdrims new OTHER RULE --after {}", quoted(folder));
    let other = format!("A card keeps its rule: `{other}` goes on from it with another.");
    let mut disk = Folder::new(Path::new(folder));
    let followed = card::followed(&mut disk).map_err(|fault| of_card(folder, &fault));
    // Without a lock: a card at which another command is at work is not waited for.
    let begins = kept::kept(&mut disk).and_then(|kept| kept.after).filter(|begins| !is_full(begins.first.record));
    let goes_on = if begins.is_some() { Ok(()) } else { after_card(folder).map(|_| ()) };
    match goes_on.and(followed) {
        Err(Failure::Fault(why)) => why,
        _ => other,
    }
}

/// Why there is no card.
fn unmade(folder: &str, fault: &card::Fault) -> Failure {
    if let card::Fault::AlreadyThere = fault {
        return of_card(folder, fault).and(&beside_a_card(folder));
    }
    match Path::new(folder).parent().filter(|above| *above != Path::new("") && !above.exists()) {
        Some(above) => Failure::fault(folder, format!("the folder {} is not there", above.display())),
        None if matches!(fault, card::Fault::Disk { .. }) && !Path::new(folder).is_file() => of_card(folder, fault)
            .and("No card was made. When the cause is gone, repeat the command with the same words."),
        None => of_card(folder, fault),
    }
}

fn make(folder: &str, rules: &[&str], begins: Begins, letters: &Letters) -> Answer {
    let bytes = convert::rule_said(rules)?;
    let (formulas, needs) = convert::described(rules[0], &bytes)?;
    card::new(&mut Folder::new(Path::new(folder)), card_number(), begins, &bytes, letters)
        .map_err(|fault| unmade(folder, &fault))?;
    let formulas = named::with_words(formulas, &bytes, letters);
    let made = match formulas.len() {
        1 => folder.to_string(),
        number => format!("{folder}: {number} formulas"),
    };
    Ok(format!("{}{needs}{}", by_formula(&made, ": ", formulas), beginning(begins.first, &bytes)))
}

/// Where a card begins, and what its rule misses there.
fn beginning(first: First, rule: &[u8]) -> String {
    let begins = match first {
        First { record: 0, .. } => return String::new(),
        First { record, position } if record == position => format!("begins at record {record}\n"),
        First { record, position } => format!("begins at record {record}, position {position}\n"),
    };
    let misses = Rule::new(rule).ok().and_then(|rule| Back::of(&rule).told(first.record));
    begins + &misses.unwrap_or_default()
}
