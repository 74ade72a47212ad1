//! The page as one file of HTML: nothing is fetched, and there is no script.

use super::clock::{moment_of, Clock};
use super::html::{css, grouped, many, short, text};
use super::picture::{Picture, Thrift};
use super::sha256::sha256;
use super::table::{Numbers, Source};
use super::week::{nos, Days, Stretch, Visit, QUIET};
use std::collections::BTreeMap;

const STYLE: &str = include_str!("style.css");
/// The ticks of a page, shared among its strips, and those of one strip.
const TICKS: usize = 2_000;
const CROWD: usize = 150;
/// Above so many tags on a page the phone's fewer ones serve everywhere.
const TAGS: usize = 120;
/// The stretches that are listed on a page, shared among its formulas.
const LISTED: usize = 1_200;
/// A rule and its picture are kept on one sheet of paper, unless its text has more bytes.
const KEPT_TOGETHER: usize = 800;

/// A formula and its no.
pub struct Formula {
    pub syntax: String,
    pub words: String,
    /// Where its yes says nothing.
    pub elsewhere: Option<String>,
    pub stretches: Vec<Stretch>,
    pub days: BTreeMap<i64, u64>,
}

/// All that stands on a page.
pub struct Document<'a> {
    pub card: String,
    pub clock: Clock,
    /// When it was made, in seconds from 1970 on.
    pub made: u64,
    pub formulas: Vec<Formula>,
    pub days: Days,
    pub verdicts: u64,
    pub open: u64,
    /// The times of the first open record and of the last.
    pub open_from: Option<(u32, u32)>,
    pub closed: bool,
    /// Which cards go on from this one.
    pub followed: String,
    pub numbers: Numbers,
    /// The number of the card's first record.
    pub first: u64,
    /// Service records seen, and those in the visits that are shown.
    pub services: u64,
    /// Records of the log that the card has not seen.
    pub further: u64,
    /// Positions whose times the log no longer holds.
    pub lost: u64,
    pub record: &'a dyn Fn(u64) -> Option<u64>,
    /// What the page is of: a name and bytes.
    pub files: Vec<(&'static str, Vec<u8>)>,
}

const YES: &str = "<rect class=\"yes\" y=\"5\" width=\"26\" height=\"8\"/>";
const NO: &str = "<g class=\"tag\"><rect x=\"5\" width=\"16\" height=\"11\"/><text x=\"13\" y=\"9.5\" \
                  style=\"font-size:10px\">1</text></g><path class=\"no\" d=\"M13 11V18\"/>";
const OPEN: &str =
    "<rect class=\"open\" x=\"6\" y=\"1\" width=\"14\" height=\"16\"/><text class=\"in\" x=\"13\" y=\"13.5\">?</text>";
const VISIT: &str = "<rect class=\"visit\" x=\"6\" y=\"4\" width=\"14\" height=\"11\"/>\
                     <text class=\"in visit\" x=\"13\" y=\"13.7\">S</text>";
const QUIET_LINE: &str = "<path class=\"quiet\" d=\"M0 9H26\"/>";
const LOST_LINE: &str = "<path class=\"lost\" d=\"M0 9H26\"/>";

impl Document<'_> {
    pub fn write(&self) -> String {
        let card = text(&self.card);
        format!(
            "<!DOCTYPE html>\n<html lang=\"en\"><head><meta charset=\"utf-8\">\
             <meta name=\"viewport\" content=\"width=device-width,initial-scale=1\">\n\
             <title>Verdict sheet: {card}</title><style>{STYLE}{}</style></head><body>\n\
             <header><h1>Verdict sheet: <bdi>{card}</bdi></h1>\n<p>{}<br>{}<br>Made {}.</p>\n\
             <ul class=\"answers\">{}</ul>\n<ul class=\"legend\" aria-label=\"Signs in the pictures\">{}</ul></header>\n\
             <main>\n{}</main>\n<footer>{}</footer>\n</body></html>\n",
            self.page_box(),
            self.covered(),
            self.counted(),
            moment_of(self.made),
            self.answers(),
            self.legend(),
            self.sections(),
            self.foot()
        )
    }

    /// Whose page it is, on every printed one: a loose one must not be charged to another kiosk.
    fn page_box(&self) -> String {
        let whose = css(&format!("{}, made {}", short(&self.card, 50), moment_of(self.made)));
        format!(
            "@page{{size:A4;margin:12mm 14mm 15mm;@bottom-left{{content:{whose};font:8pt sans-serif}}\
             @bottom-right{{content:\"page \" counter(page) \" of \" counter(pages);font:8pt sans-serif}}}}"
        )
    }

    fn covered(&self) -> String {
        match self.days.ends() {
            Some((from, to)) => {
                let holds = if self.days.lost.is_empty() { "" } else { "The log still holds " };
                format!("{holds}{} to {}.", self.clock.moment(from), self.clock.moment(to))
            }
            None if self.verdicts + self.open == 0 => "The card has seen no record.".to_string(),
            None => "The log holds no record that this card knows.".to_string(),
        }
    }

    fn counted(&self) -> String {
        let service = match self.services {
            0 => String::new(),
            services => format!(", {} service", grouped(services)),
        };
        let seen = many(self.verdicts + self.open + self.services, "record", "records");
        let begins = match self.first {
            0 => String::new(),
            first => format!(" The card begins at record {}.", grouped(first)),
        };
        let followed = match self.followed.is_empty() {
            true => String::new(),
            false => format!("<br><bdi>{}</bdi>.", text(&self.followed)),
        };
        let (verdicts, open) = (grouped(self.verdicts), grouped(self.open));
        format!("{seen}: {verdicts} with a verdict, {open} open{service}.{begins}{followed}")
    }

    /// A line for each formula: is there anything to decide?
    fn answers(&self) -> String {
        let open = match self.closed {
            true => format!("; {} open, the card is closed", grouped(self.open)),
            false => format!("; {} open", grouped(self.open)),
        };
        let line = |(k, formula): (usize, &Formula)| {
            let stretches = match formula.stretches.len() as u64 {
                0 => String::new(),
                number => format!(", {}", many(number, "stretch", "stretches")),
            };
            format!(
                "<li><a href=\"#f{k}\">formula {k}</a>: <b>{} no</b> among {}{stretches}{open}</li>",
                grouped(nos(&formula.stretches)),
                many(self.verdicts, "verdict", "verdicts")
            )
        };
        self.formulas.iter().enumerate().map(line).collect()
    }

    fn legend(&self) -> String {
        let quiet = format!("nothing logged for {} minutes or more", QUIET / 60);
        let mut signs = vec![
            (YES, "yes"),
            (NO, "no, with its number in the table"),
            (OPEN, "open: no verdict yet. Not a no"),
            (VISIT, "service visit: not judged"),
            (QUIET_LINE, &quiet),
        ];
        if !self.days.lost.is_empty() {
            signs.push((LOST_LINE, "not known: the log no longer holds these records"));
        }
        let sign = |(drawn, said): &(&str, &str)| {
            format!("<li><svg height=\"18\" aria-hidden=\"true\">{drawn}</svg>{said}</li>")
        };
        signs.iter().map(sign).collect()
    }

    fn rule(&self, k: usize) -> String {
        let formula = &self.formulas[k];
        let elsewhere = formula.elsewhere.as_ref().map_or(String::new(), |said| format!(". {}", text(said)));
        format!(
            "<h2 id=\"f{k}\">Formula {k}</h2><p class=\"rule\">{}{elsewhere}</p><p class=\"rule\"><code>{}</code></p>",
            text(&capital(&formula.words)),
            text(&formula.syntax)
        )
    }

    /// The strips of a formula, whose stretches are numbered from this number on.
    fn picture<'d>(&'d self, formula: &'d Formula, number: usize) -> Option<Picture<'d>> {
        let open = self.open_from.map(|(from, to)| (from, to, self.open));
        Picture::new(self.clock, &self.days, open, &formula.stretches, number, &formula.days)
    }

    /// The formulas that have a no, each with its picture and its table; and those without.
    fn sections(&self) -> String {
        let mut number = 1;
        let mut drawn = Vec::new();
        for (k, formula) in self.formulas.iter().enumerate().filter(|(_, formula)| !formula.stretches.is_empty()) {
            drawn.push((k, number, self.picture(formula, number)));
            number += formula.stretches.len();
        }
        let pictures = || drawn.iter().filter_map(|(_, _, picture)| picture.as_ref());
        let strips: usize = pictures().map(Picture::strips).sum();
        let few = pictures().map(|picture| picture.tags(false).count()).sum::<usize>() > TAGS;
        let thrift = Thrift { ticks: CROWD.min(TICKS / strips.max(1)), few };
        let room = LISTED / drawn.len().max(1);
        let mut out = String::new();
        for (k, number, picture) in &drawn {
            out += &self.section(*k, *number, picture.as_ref(), thrift, room);
        }
        out + &self.without_no()
    }

    fn section(&self, k: usize, number: usize, picture: Option<&Picture>, thrift: Thrift, room: usize) -> String {
        let formula = &self.formulas[k];
        let source = Source {
            formula: k,
            stretches: &formula.stretches,
            number,
            numbers: self.numbers,
            clock: self.clock,
            record: self.record,
        };
        let table = source.table(picture, thrift.few, room);
        let linked = |number: usize| {
            let at = table.firsts.partition_point(|&first| first <= number);
            table.firsts[at.saturating_sub(1)]
        };
        let keep = if formula.words.len() + formula.syntax.len() < KEPT_TOGETHER { " class=\"keep\"" } else { "" };
        let drawn = picture.map_or(String::new(), |picture| picture.write(thrift, linked));
        let undrawn = formula.stretches.iter().filter(|stretch| stretch.pieces.is_empty()).count() as u64;
        let undrawn = match undrawn {
            0 => String::new(),
            number => format!(
                "<p><b>{} not drawn:</b> the log no longer holds these records, and their times are not known.</p>",
                many(number, "stretch is", "stretches are")
            ),
        };
        format!("<section><div{keep}>{}{drawn}{undrawn}</div>{}</section>\n", self.rule(k), table.html)
    }

    /// Their pictures would be the same: open, service and silence are those of the log.
    fn without_no(&self) -> String {
        let clean: Vec<usize> = (0..self.formulas.len()).filter(|&k| self.formulas[k].stretches.is_empty()).collect();
        let Some(&first) = clean.first() else { return String::new() };
        let rules: String = clean.iter().map(|&k| self.rule(k)).collect();
        let which = if clean.len() == 1 { "this formula" } else { "these formulas" };
        let drawn = match self.picture(&self.formulas[first], 0) {
            Some(picture) => {
                format!(" What the log covers:</p>{}", picture.write(Thrift { ticks: 0, few: true }, |number| number))
            }
            None => "</p>".to_string(),
        };
        format!("<section>{rules}<p><b>0 no</b> for {which}.{drawn}</section>\n")
    }

    fn foot(&self) -> String {
        format!(
            "<p>{}</p>{}{}\n<p>{}</p>\n<dl>{}</dl>",
            self.about_open(),
            self.about_visits(),
            self.about_the_log(),
            self.about_proofs(),
            self.about_files()
        )
    }

    fn about_open(&self) -> String {
        if self.closed {
            return "The card is closed: every record has its verdict, on the log as it ends.".to_string();
        }
        let here = match self.open_from {
            Some((from, to)) => {
                format!(" Open here: {}, {}.", many(self.open, "record", "records"), self.clock.span(from, to))
            }
            None => String::new(),
        };
        format!(
            "<b>Open</b> means that the log ends before the outcome is settled. An open record is neither no nor yes; the next \
             evening's run, or closing the card, gives it its verdict. Judge nothing by it.{here}"
        )
    }

    fn about_visits(&self) -> String {
        if self.services == 0 {
            return String::new();
        }
        let visits = &self.days.visits;
        let shown: u64 = visits.iter().map(|visit| visit.records).sum();
        let each = |visit: &Visit| {
            format!("{}, {}", self.clock.span(visit.from, visit.to), many(visit.records, "record", "records"))
        };
        let most = 20;
        let mut said: Vec<String> = visits.iter().take(most).map(each).collect();
        said.extend((visits.len() > most).then(|| format!("and {} further", visits.len() - most)));
        let visits = match visits.len() as u64 {
            0 => String::new(),
            number => format!("{} ({}), ", many(number, "service visit", "service visits"), said.join("; ")),
        };
        let lost = match self.services - shown {
            0 => String::new(),
            lost => format!(", {} of them no longer in the log, at times that are not known", grouped(lost)),
        };
        format!(
            "<p>{visits}{}{lost}: not judged, and without a number on the sheet.</p>",
            many(self.services, "service record", "service records")
        )
    }

    fn about_the_log(&self) -> String {
        let mut said = String::new();
        if self.lost > 0 {
            said += &format!(
                "<p><b>Of {} the log no longer holds what this card has seen:</b> overwritten, dropped or altered. Their \
                 verdicts are those of the sheet; their times are not known.</p>",
                many(self.lost, "judged record", "judged records")
            );
        }
        if self.further > 0 {
            let judged = match self.closed {
                true => "it is closed",
                false => "<code>havdrims evening</code> judges them",
            };
            let further = many(self.further, "further record", "further records");
            said += &format!("<p>The log has {further} that the card has not seen: {judged}.</p>");
        }
        said
    }

    fn about_proofs(&self) -> String {
        let from = match self.first {
            0 => String::new(),
            first => format!(" from record {} on", grouped(first)),
        };
        let on = match self.closed {
            true => format!("on the log{from} as it ends"),
            false => format!("on this log{from} and however it goes on"),
        };
        let has_no = self.formulas.iter().any(|formula| !formula.stretches.is_empty());
        let reasons = if has_no {
            "; what a reason says holds of the records that the library was shown for it, and forces the no there"
        } else {
            ""
        };
        let time = match self.clock.is_dated() {
            true => format!("the time of day (second 0 of the log was set to {})", self.clock.moment(0)),
            false => "the days (the log has no clock: day 1 begins with its second 0)".to_string(),
        };
        format!(
            "<b>Proved:</b> each yes and no is what the formula says of that record, {on}{reasons}. A reason stands for the first \
             record that it fits. <b>Not proved:</b> that the kiosk logged what happened, {time}, the letters' names, from which \
             records a reason is told, the wording and this drawing. A yes says that this formula held, not that a print is good. In doubt <code>havdrims sheet</code> decides."
        )
    }

    fn about_files(&self) -> String {
        let file = |(name, bytes): &(&str, Vec<u8>)| {
            let sum = sha256(bytes);
            let parts: Vec<&str> = (0..8).map(|at| &sum[8 * at..8 * at + 8]).collect();
            format!(
                "<dt>{name}, {}, SHA-256</dt><dd><code>{}</code></dd>",
                many(bytes.len() as u64, "byte", "bytes"),
                parts.join(" ")
            )
        };
        self.files.iter().map(file).collect()
    }
}

/// With a capital at the beginning, unless that is a letter's name, as e0.
fn capital(words: &str) -> String {
    let mut letters = words.chars();
    match letters.next() {
        Some(first) if !letters.as_str().starts_with(|next: char| next.is_ascii_digit()) => {
            first.to_uppercase().chain(letters).collect()
        }
        _ => words.to_string(),
    }
}
