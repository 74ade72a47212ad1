//! The page for Friday.

use super::brought::Brought;
use super::told::by_formula;
use super::{Answer, Failure, Given};
use crate::card::Card;
use crate::disk::Folder;
use crate::page::clock::Clock;
use crate::{file, page, parts};
use std::fmt::Write;
use std::path::Path;

/// The words of `page`.
pub fn page(given: &Given) -> Answer {
    let [folder, path, out] = given.words();
    let clock = given.value("--start").map_or(Ok(Clock::counted()), start)?;
    let into = file::named_other(out, path)?;
    let log = Brought::read(folder, path, "Nothing was written")?;
    let mut disk = Folder::new(Path::new(folder));
    let mut card = Card::open(&mut disk, false).map_err(|fault| log.failed(&fault, None))?;
    let so_far = card.so_far;
    let followed = card.followed().unwrap_or_default();
    let page = page::page(&mut card, folder, &log.bytes, clock);
    let page = page.map_err(|fault| log.failed(&fault, Some(&so_far)))?;
    file::write_at(out, into, page.html.as_bytes(), given.has("--force"))?;
    let no = |no: &page::No| match no.stretches {
        0 => "0 no".to_string(),
        stretches => {
            let stretches = parts::counted(stretches as usize, "stretch", "stretches");
            let lost = match no.lost {
                0 => String::new(),
                lost => format!(", {lost} without time and reason: the log no longer has their records"),
            };
            format!("{} no in {stretches}{lost}", no.number)
        }
    };
    let mut said = by_formula(out, ": ", page.no.iter().map(no).collect()) + &followed.line();
    // A closed card takes no more of them.
    if page.further > 0 && !so_far.status.closed {
        let lacks = parts::counted(page.further as usize, "record that the card has", "records that the card has");
        let _ = writeln!(said, "the log has {lacks} not seen: run `havdrims evening`, and make the page anew");
    }
    Ok(said)
}

fn start(typed: &str) -> Result<Clock, Failure> {
    let no_time = || Failure::Use(format!("--start: `{typed}` is no time, as 2026-11-09 or 2026-11-09T09:30 are"));
    Clock::read(typed).ok_or_else(no_time)
}
