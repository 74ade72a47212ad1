//! The verdicts of a card, for a person, for a spreadsheet and for other programs.

use super::json::Json;
use super::reading::Told;
use super::told::position;
use super::{warn, Answer, Failure, Given, Paint};
use crate::card::SoFar;
use std::fmt::Write;

/// Which verdicts are printed.
struct Wanted {
    from: Option<u64>,
    to: Option<u64>,
    /// Only those that are no, of one formula at least.
    no: bool,
}

/// A position, and each formula's answer there.
struct Line {
    position: u64,
    yes: Vec<bool>,
}

/// The words of `sheet`.
pub fn sheet(given: &Given) -> Answer {
    let wanted = Wanted { from: given.number("--from")?, to: given.number("--to")?, no: given.has("--no") };
    if let (Some(from), Some(to)) = (wanted.from, wanted.to) {
        if from > to {
            return Err(Failure::Use(format!("--from {from} is above --to {to}")));
        }
    }
    let told = Told::of(given.only())?;
    let lines = wanted.of(&told);
    let printed = match (given.has("--csv"), given.has("--json")) {
        (true, _) => csv(&told, lines),
        (_, true) => json(&told, lines),
        _ => plain(lines, given.paint),
    };
    if told.fault().is_none() {
        wanted.missing(&told).iter().for_each(|missing| warn(&format!("{}: {missing}", given.only())));
    }
    told.end(given.only(), printed)
}

impl Wanted {
    fn of<'a>(&'a self, told: &'a Told) -> impl Iterator<Item = Line> + 'a {
        let formulas = told.formulas();
        let line = move |(position, verdict): (u64, &u8)| Line {
            position,
            yes: (0..formulas).map(|formula| verdict >> formula & 1 == 1).collect(),
        };
        let all = (told.so_far.first.position..).zip(&told.verdicts);
        let asked = self.from.unwrap_or(0)..=self.to.unwrap_or(u64::MAX);
        let lines = all.filter(move |(position, _)| asked.contains(position)).map(line);
        lines.filter(|line| !self.no || line.yes.contains(&false))
    }

    /// Which of the positions that are asked for have no verdict: where nothing is printed of them, all need not be well there.
    fn missing(&self, told: &Told) -> Vec<String> {
        let SoFar { first, status, .. } = &told.so_far;
        let (first, one) = (first.position, position(&told.so_far));
        let behind = first + told.verdicts.len() as u64;
        let from = self.from.unwrap_or(0);
        let mut missing = Vec::new();
        if self.from.or(self.to).is_some_and(|asked| asked < first) {
            let last = self.to.map_or(first - 1, |to| to.min(first - 1));
            let before = span(one, from, Some(last), ["is", "are"]);
            missing.push(format!("{before} before the card's first one, {first}"));
        }
        // Without an end it is said where nothing is printed, but for a whole sheet: that is seen to be empty.
        let is_part = self.no || self.from.is_some();
        if self.to.map_or(is_part && from.max(first) >= behind, |to| to >= behind) {
            let open = span(one, from.max(behind), self.to, ["has", "have"]);
            let ended = if status.closed { ": the card is closed" } else { " yet" };
            missing.push(format!("{open} no verdict{ended}"));
        }
        missing
    }
}

/// Some positions, with the word that says something of one or of several.
fn span(one: &str, from: u64, to: Option<u64>, [is, are]: [&str; 2]) -> String {
    match to {
        Some(to) if to == from => format!("{one} {from} {is}"),
        Some(to) => format!("{one}s {from} to {to} {are}"),
        None => format!("{one}s from {from} on {are}"),
    }
}

fn word(yes: bool) -> &'static str {
    if yes {
        "yes"
    } else {
        "no"
    }
}

fn plain(lines: impl Iterator<Item = Line>, paint: Paint) -> String {
    let mut text = String::new();
    for Line { position, yes } in lines {
        let _ = write!(text, "{position}");
        for yes in yes {
            let word = if yes { word(yes).to_string() } else { paint.bad(word(yes)) };
            let _ = write!(text, " {word}");
        }
        text.push('\n');
    }
    text
}

fn csv(told: &Told, lines: impl Iterator<Item = Line>) -> String {
    let mut text = match told.formulas() {
        1 => "position,verdict\n".to_string(),
        formulas => format!("position{}\n", (0..formulas).map(|k| format!(",formula {k}")).collect::<String>()),
    };
    for Line { position, yes } in lines {
        let words: Vec<&str> = yes.into_iter().map(word).collect();
        let _ = writeln!(text, "{position},{}", words.join(","));
    }
    text
}

fn json(told: &Told, lines: impl Iterator<Item = Line>) -> String {
    let verdict = |Line { position, yes }| {
        Json::Object(vec![("position", position.into()), ("yes", yes.into_iter().map(Json::from).collect())])
    };
    Json::Object(vec![
        ("formulas", (told.formulas() as u64).into()),
        ("first_record", told.so_far.first.record.into()),
        ("first_position", told.so_far.first.position.into()),
        ("fault", told.fault().into()),
        ("verdicts", lines.map(verdict).collect()),
    ])
    .to_string()
}
