//! How far a card has come, in plain words and for other programs.

use super::json::Json;
use super::Paint;
use crate::card::SoFar;
use crate::followed::{Followed, Follower};
use crate::parts::{counted, records, verdicts};

/// What has a verdict: where no service record was seen every record is a position, and has its number.
pub fn position(so_far: &SoFar) -> &'static str {
    if so_far.services == 0 && so_far.first.record == so_far.first.position {
        "record"
    } else {
        "position"
    }
}

/// What there is to say of each formula: of one alone, behind what stands first; of several, a line each below it.
pub fn by_formula(first: &str, between: &str, said: Vec<String>) -> String {
    if let [only] = said.as_slice() {
        return format!("{first}{between}{only}\n");
    }
    let line = |(formula, said): (usize, &String)| format!("  formula {formula}: {said}\n");
    format!("{first}\n{}", said.iter().enumerate().map(line).collect::<String>())
}

/// All evenings together.
pub fn all(so_far: &SoFar, paint: Paint) -> String {
    let SoFar { summary, status, services, first } = so_far;
    let latest = |at: &Option<u64>| match at {
        None => String::new(),
        Some(at) => format!(", the latest at {} {}", position(so_far), first.position + at),
    };
    let counts = summary.no().iter().zip(summary.latest()).map(|(no, at)| paint.number_of_no(*no) + &latest(at));
    let counts = by_formula(&format!("so far: {}", verdicts(status.given)), ", ", counts.collect());
    let open = open_line(so_far);
    let service = match services {
        0 => String::new(),
        _ => format!("service: {services} of {}\n", records(status.seen)),
    };
    format!("{counts}{open}{service}")
}

pub fn open_line(so_far: &SoFar) -> String {
    let ended = if so_far.status.closed { ", and the card is closed" } else { "" };
    let begun = match so_far.first.record {
        0 => String::new(),
        record => format!(" from record {record} on"),
    };
    let one = position(so_far);
    let of = counted(so_far.positions() as usize, one, &format!("{one}s"));
    format!("open: {} of {of}{begun}{ended}\n", so_far.open())
}

/// The same for other programs. Positions are those that `sheet` prints, and records those of the log.
pub fn as_json(so_far: &SoFar) -> Json {
    let SoFar { summary, status, services, first } = so_far;
    let formula = |(no, at): (&u64, &Option<u64>)| {
        Json::Object(vec![("no", (*no).into()), ("latest_no", at.map(|at| first.position + at).into())])
    };
    Json::Object(vec![
        ("verdicts", status.given.into()),
        ("formulas", summary.no().iter().zip(summary.latest()).map(formula).collect()),
        ("open", so_far.open().into()),
        ("positions", so_far.positions().into()),
        ("records", status.seen.into()),
        ("service_records", (*services).into()),
        ("first_record", first.record.into()),
        ("first_position", first.position.into()),
        ("closed", status.closed.into()),
    ])
}

/// The cards that go on from this one, for other programs.
pub fn followed_by(followed: &Followed) -> Json {
    let card = |card: &Follower| Json::Object(vec![("card", card.name().into()), ("record", card.record.into())]);
    followed.cards().iter().map(card).collect()
}
