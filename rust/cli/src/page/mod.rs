//! The page for Friday: what the sheet of a card comes to, drawn, with a reason under each no.
//!
//! [`known`] finds which records are as the card has seen them, [`reasons`] explains a no from these alone and [`sentence`] tells it;
//! `week` is what is drawn, [`clock`] the time of day; `picture`, `table` and `document` write it.

pub mod clock;
mod document;
mod html;
pub mod known;
mod picture;
pub mod reasons;
pub mod sentence;
mod sha256;
mod table;
mod week;

use crate::card::{Card, Fault, SoFar};
use crate::disk::Disk;
use crate::letters::Letters;
use crate::parts;
use crate::words::{elsewhere, in_words};
use clock::Clock;
use document::{Document, Formula};
use havdrims::{Log, Rule};
use known::Span;
use reasons::{Reasons, MOST_LOOKED_AT};
use std::path::Path;
use std::time::{SystemTime, UNIX_EPOCH};
use table::Numbers;
use week::Days;

/// The no of a formula, their stretches, and those of them whose beginning the log no longer has.
pub struct No {
    pub number: u64,
    pub stretches: u64,
    pub lost: u64,
}

impl No {
    fn of(stretches: &[week::Stretch]) -> No {
        let lost = stretches.iter().filter(|stretch| stretch.times.0.is_none()).count() as u64;
        No { number: week::nos(stretches), stretches: stretches.len() as u64, lost }
    }
}

/// A page, and what it comes to.
pub struct Page {
    pub html: String,
    pub no: Vec<No>,
    /// The records of the log that the card has not seen, and that are not on it therefore.
    pub further: u64,
}

/// The page of the card in this folder with its log, which is as it was or has lost what was released.
pub fn page(card: &mut Card<'_, impl Disk>, folder: &str, log: &[u8], clock: Clock) -> Result<Page, Fault> {
    let letters = card.letters()?;
    let rows = card.evenings()?;
    let seen = card.seen_part(log)?;
    let seen = Log::new(&seen).map_err(Fault::Refused)?;
    let whole = Log::new(log).map_err(Fault::Refused)?;
    let spans = known::spans(&seen, &rows);
    let SoFar { status, services, first, .. } = card.so_far;
    let days = Days::of(&spans);
    let formulas = judged(card, &letters, seen, &spans, &days, clock)?;
    let no = formulas.iter().map(|formula| No::of(&formula.stretches)).collect();
    let known: u64 = spans.iter().map(|span| span.held.len() as u64).sum();
    let open_from = place(&spans, status.given).zip(spans.last().and_then(Span::ends));
    let further = whole.len() as u64 - first.record - status.seen;
    let made = SystemTime::now().duration_since(UNIX_EPOCH).map_or(0, |since| since.as_secs());
    let document = Document {
        card: name(folder),
        clock,
        made,
        formulas,
        days,
        verdicts: status.given,
        open: card.so_far.open(),
        open_from: open_from.map(|(first, (_, last))| (first.seconds, last)),
        closed: status.closed,
        followed: card.followed().unwrap_or_default().says(),
        numbers: Numbers { position: first.position, same: services == 0 && first.record == first.position },
        first: first.record,
        services,
        further,
        lost: card.so_far.positions() - known,
        record: &|position| place(&spans, position).map(|held| first.record + held.record),
        files: vec![("sheet of verdicts", card.verdicts().to_vec()), ("rule", card.rule().to_vec())],
    };
    Ok(Page { html: document.write(), no, further })
}

/// The formulas of a card, with what their verdicts come to.
fn judged(
    card: &Card<'_, impl Disk>,
    letters: &Letters,
    seen: Log<'_>,
    spans: &[Span],
    days: &Days,
    clock: Clock,
) -> Result<Vec<Formula>, Fault> {
    let rules = formulas(&Rule::new(card.rule()).map_err(Fault::Refused)?);
    let most = MOST_LOOKED_AT / rules.len() as u64;
    let formula = |(k, rule): (usize, &Rule)| {
        let reasons = Reasons::new(rule, letters, seen, spans, card.so_far.first.record, most);
        Formula {
            syntax: rule.to_string(),
            words: in_words(rule, letters),
            elsewhere: elsewhere(rule, letters),
            stretches: week::stretches(card.verdicts(), k, days, spans, &reasons),
            days: week::by_day(card.verdicts(), k, clock, spans),
        }
    };
    Ok(rules.iter().enumerate().map(formula).collect())
}

/// Each formula as a rule: an empty rule is one that is yes everywhere.
fn formulas(rule: &Rule) -> Vec<Rule> {
    match parts::formulas(rule) {
        none if none.is_empty() => vec![rule.clone()],
        formulas => formulas,
    }
}

/// The record of a position, where it is known.
fn place(spans: &[Span], position: u64) -> Option<known::Held> {
    let span = spans.iter().find(|span| span.positions().contains(&position))?;
    span.of(position..position + 1).first().copied()
}

/// What the card is called: the last part of its path.
fn name(folder: &str) -> String {
    let path = Path::new(folder);
    let full = path.canonicalize();
    let name = path.file_name().or(full.as_ref().ok().and_then(|path| path.file_name()));
    html::short(&name.map_or(folder.to_string(), |name| name.to_string_lossy().into_owned()), 80)
}
