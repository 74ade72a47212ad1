//! Carrying on with a log, closing it, and trimming it.

use super::brought::{Brought, UNCHANGED};
use super::json::Json;
use super::told::{all, as_json, by_formula, followed_by, position};
use super::{called, Answer, Failure, Given, Paint};
use crate::card::{Card, Evening, Fault, SoFar};
use crate::convert::records_there;
use crate::disk::Folder;
use crate::file;
use crate::followed::Followed;
use crate::parts::records;
use havdrims::{Log, MOST_RECORDS};
use std::path::Path;

/// The words of `evening` and `close`.
pub fn carry_on(given: &Given, closing: bool) -> Answer {
    if closing && !given.has("--final") {
        return Err(Failure::Use(NOT_MEANT.to_string()));
    }
    let [folder, path] = given.words();
    let log = Brought::read(folder, path, "No verdict was counted")?;
    let mut disk = Folder::new(Path::new(folder));
    let mut card = Card::open(&mut disk, true).map_err(|fault| log.failed(&fault, None))?;
    let followed = followed(&mut card, given).map_err(|fault| log.failed(&fault, None))?;
    let evening = card.carry_on(closing, &log.bytes).map_err(|fault| log.failed(&fault, Some(&card.so_far)))?;
    Ok(match given.has("--json") {
        true => json(&evening, &followed),
        false => told(&evening, &followed, given.paint),
    })
}

/// The cards that go on from this one: it takes no log beside them, unless that is meant.
fn followed(card: &mut Card<'_, Folder>, given: &Given) -> Result<Followed, Fault> {
    let followed = card.followed()?;
    match followed.is_empty() || given.has("--both") {
        true => Ok(followed),
        false => Err(Fault::Followed(followed)),
    }
}

/// The words of `trim`.
pub fn trim(given: &Given) -> Answer {
    let [folder, path, out] = given.words();
    let into = file::named_apart(out, path)?;
    let log = Brought::read(folder, path, "Nothing was written")?;
    let mut disk = Folder::new(Path::new(folder));
    let mut card = Card::open(&mut disk, true).map_err(|fault| log.failed(&fault, None))?;
    let followed = followed(&mut card, given).map_err(|fault| log.failed(&fault, None))?;
    let left = card.trim(&log.bytes).map_err(|fault| log.failed(&fault, Some(&card.so_far)))?;
    no_more_records(out, path, &left)?;
    file::write_at(out, into, &left, given.has("--force"))?;
    let left = Log::new(&left).map_err(|refusal| Failure::fault(out, refusal))?;
    let dropped = match left.dropped() {
        0 => "no record dropped".to_string(),
        1 => "record 0 dropped".to_string(),
        dropped => format!("records 0 to {} dropped", dropped - 1),
    };
    let others = match left.dropped() {
        0 => String::new(),
        _ => still_wanted(&followed, "the log as it was"),
    };
    Ok(format!("{out}: {dropped}, {} left\n{others}", left.records().count()))
}

/// That no log is here with records that the trimmed one lacks at its end: the two may have been exchanged.
fn no_more_records(out: &str, path: &str, left: &[u8]) -> Result<(), Failure> {
    let (Some(there), Ok(left)) = (records_there(out), Log::new(left)) else { return Ok(()) };
    if there <= left.len() as u64 {
        return Ok(());
    }
    let (there, has) = (records(there), left.len());
    let says = format!("the log that is here has {there}, dropped ones included, and {} has {has}", called(path));
    Err(Failure::fault(out, format!("{says}\nWhat it has more would be lost: are LOG and OUT exchanged? {UNCHANGED}")))
}

/// That the cards that go on from this one may still want what it does not.
fn still_wanted(followed: &Followed, what: &str) -> String {
    match followed.is_empty() {
        true => String::new(),
        false => format!("{} may still want {what}\n", followed.names()),
    }
}

/// What closing means, to one who may have typed it for `evening`.
const NOT_MEANT: &str = "\
closing says that no record will follow: every open record gets its verdict on the log as it ends, and the card
takes no further records. It cannot be undone. With --final it is done; `havdrims evening` carries on.
Nothing was changed.";

/// An evening in plain words.
fn told(evening: &Evening, followed: &Followed, paint: Paint) -> String {
    let Evening { first, new, counts, passed_over, unknown, so_far, .. } = evening;
    let unknown = match unknown {
        true => "this card was made by an earlier program: from now on it knows its log again\n",
        false => "",
    };
    let first = first + so_far.first.position;
    let which = match new {
        0 => nothing_new(evening),
        1 => format!("{} {first}", position(so_far)),
        _ => format!("{}s {first} to {}", position(so_far), first + new - 1),
    };
    let counts =
        counts.yes().iter().zip(counts.no()).map(|(yes, no)| format!("{yes} yes, {}", paint.number_of_no(*no)));
    let given = if *new == 0 { format!("{which}\n") } else { by_formula(&which, ": ", counts.collect()) };
    let passed_over = match passed_over {
        0 => String::new(),
        1 => "1 service record passed over\n".to_string(),
        _ => format!("{passed_over} service records passed over\n"),
    };
    // What may be overwritten is the last line: a job reads it there.
    let released = released(so_far, followed);
    format!("{unknown}{given}{passed_over}{}{}{released}", all(so_far, paint), nearly_full(so_far, paint))
}

/// Which records may be overwritten: that is not known of those that another card may want.
fn released(so_far: &SoFar, followed: &Followed) -> String {
    let records = match so_far.released() {
        0 => return "no record may be overwritten yet\n".to_string(),
        1 => "record 0".to_string(),
        wanted => format!("records 0 to {}", wanted - 1),
    };
    match followed.is_empty() {
        true => format!("{records} may be overwritten\n"),
        false => format!("this card no longer wants {records}; {}", still_wanted(followed, "some of them")),
    }
}

/// Why there is no new verdict. The number of records is that of the log.
fn nothing_new(evening: &Evening) -> String {
    let Evening { new_records, passed_over, so_far, .. } = evening;
    let SoFar { first, status, .. } = so_far;
    match new_records {
        _ if status.closed => "no new verdict".to_string(),
        0 if status.seen == 0 && first.record == 0 => "no new verdict: the log has no record yet".to_string(),
        0 if status.seen == 0 => {
            format!("no new verdict: the log ends before record {}, the card's first", first.record)
        }
        0 => {
            let seen = records(first.record + status.seen);
            format!("no new record since the last evening ({seen}): is it an older copy of the log?")
        }
        1 if *passed_over == 1 => "no new verdict: 1 record is new, a service record".to_string(),
        1 => "no new verdict: 1 record is new, and not settled yet".to_string(),
        new if new == passed_over => format!("no new verdict: {new} records are new, all of them service records"),
        new => format!("no new verdict: {new} records are new, and none is settled yet"),
    }
}

/// From so many records on it is said that a log will be full.
const NEARLY_FULL: u64 = 900_000;

/// How many more records the log may have.
fn left(so_far: &SoFar) -> u64 {
    (MOST_RECORDS as u64).saturating_sub(so_far.first.record + so_far.status.seen)
}

/// What to do about a log that is nearly full, as long as the card is not closed.
fn nearly_full(so_far: &SoFar, paint: Paint) -> String {
    let left = left(so_far);
    if so_far.status.closed || MOST_RECORDS as u64 - left < NEARLY_FULL {
        return String::new();
    }
    let how_far = match left {
        0 => format!("the log is full: {MOST_RECORDS} records are the most"),
        1 => format!("the log is nearly full: 1 more record is left of {MOST_RECORDS}"),
        _ => format!("the log is nearly full: {left} more records are left of {MOST_RECORDS}"),
    };
    let to_do = "close this card (`havdrims close`), let the kiosk begin a new log, \
                 and make a card for that (`havdrims new`, without --after)";
    format!("{}\n{to_do}\n", paint.soon(&how_far))
}

/// An evening for other programs.
fn json(evening: &Evening, followed: &Followed) -> String {
    let Evening { first, new, counts, new_records, passed_over, so_far, .. } = evening;
    let first = (*new > 0).then_some(first + so_far.first.position);
    let formula = |(yes, no): (&u64, &u64)| Json::Object(vec![("yes", (*yes).into()), ("no", (*no).into())]);
    let new = Json::Object(vec![
        ("verdicts", (*new).into()),
        ("first_position", first.into()),
        ("formulas", counts.yes().iter().zip(counts.no()).map(formula).collect()),
        ("service_records", (*passed_over).into()),
    ]);
    Json::Object(vec![
        ("new", new),
        ("new_records", (*new_records).into()),
        ("so_far", as_json(so_far)),
        ("released_records", if followed.is_empty() { so_far.released() } else { 0 }.into()),
        ("records_left", left(so_far).into()),
        ("followed_by", followed_by(followed)),
    ])
    .to_string()
}
