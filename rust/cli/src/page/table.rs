//! The no of one formula, line by line. Few stretches have a line each; many share one, with all their times by reason.

use super::clock::Clock;
use super::html::{from_to, grouped, many, text, unbroken};
use super::picture::{label, Picture};
use super::week::{nos, Stretch, Told};
use std::collections::HashMap;

/// Above so many stretches a table has one line for each tag of the picture.
pub const ROWS: usize = 40;
/// The reasons of a stretch that are told, and those of several stretches in one line.
const REASONS: usize = 6;
const KINDS: usize = 3;

/// How the positions of a card are numbered.
#[derive(Clone, Copy)]
pub struct Numbers {
    /// What is added to a position to name it.
    pub position: u64,
    /// Every position is the record of the same number.
    pub same: bool,
}

/// One table, and the numbers of the stretches with which its lines begin.
pub struct Table {
    pub html: String,
    pub firsts: Vec<usize>,
}

pub struct Source<'a> {
    pub formula: usize,
    pub stretches: &'a [Stretch],
    /// The number of the first.
    pub number: usize,
    pub numbers: Numbers,
    pub clock: Clock,
    /// The record of a position, where it is known.
    pub record: &'a dyn Fn(u64) -> Option<u64>,
}

/// Stretches by the reason of the first position of each, the most frequent first.
fn by_kind(stretches: &[Stretch]) -> Vec<(&str, Vec<&Stretch>)> {
    let mut places: HashMap<&str, usize> = HashMap::new();
    let mut found: Vec<(&str, Vec<&Stretch>)> = Vec::new();
    for stretch in stretches {
        let kind = stretch.reasons[0].kind.as_str();
        let at = *places.entry(kind).or_insert_with(|| {
            found.push((kind, Vec::new()));
            found.len() - 1
        });
        found[at].1.push(stretch);
    }
    found.sort_by_key(|(_, of)| usize::MAX - of.len());
    found
}

impl Source<'_> {
    /// The table, in which so many stretches are listed at most.
    pub fn table(&self, picture: Option<&Picture>, few: bool, room: usize) -> Table {
        let groups = self.groups(picture, few, room);
        let listed = if self.stretches.len() <= room { self.stretches.len() } else { room / groups.len().max(1) };
        let mut left_out = 0;
        let mut rows = String::new();
        for &(first, last) in &groups {
            let part = &self.stretches[first - self.number..=last - self.number];
            let (row, left) = self.row(first, last, part, listed);
            rows += &row;
            left_out += left;
        }
        let few = if self.stretches.len() <= ROWS { " class=\"few\"" } else { "" };
        let html = format!(
            "<table{few}><caption>{}</caption><thead><tr><th scope=\"col\">mark</th><th scope=\"col\">time</th>\
             <th scope=\"col\">records</th><th scope=\"col\">how many</th><th scope=\"col\">reason</th></tr></thead>\
             <tbody>\n{rows}</tbody></table>",
            self.caption(left_out)
        );
        Table { html, firsts: groups.iter().map(|&(first, _)| first).collect() }
    }

    /// The stretches that share a line: from one number to another.
    fn groups(&self, picture: Option<&Picture>, few: bool, room: usize) -> Vec<(usize, usize)> {
        let end = self.number + self.stretches.len();
        if self.stretches.len() <= ROWS {
            return (self.number..end).map(|number| (number, number)).collect();
        }
        let drawn = picture.iter().flat_map(|picture| picture.tags(few)).map(|tag| (tag.first, tag.last));
        let mut groups = Vec::new();
        let mut next = self.number;
        // A stretch that goes on over night is listed once. Those that are not drawn have a line of their own.
        for (first, last) in drawn.chain([(end, end)]).filter(|&(_, last)| last >= self.number) {
            if next < first {
                groups.push((next, first - 1));
                next = first;
            }
            if next <= last && last < end {
                groups.push((next, last));
                next = last + 1;
            }
        }
        match groups.len() <= room {
            true => groups,
            false => vec![(self.number, end - 1)],
        }
    }

    /// A line of the table, and how many of its stretches are not listed.
    fn row(&self, first: usize, last: usize, part: &[Stretch], listed: usize) -> (String, usize) {
        let ends = (&part[0], &part[part.len() - 1]);
        let mut how = format!("{}<i> no</i>", grouped(nos(part)));
        let (why, left) = match part {
            [only] => (self.reasons(only), 0),
            _ => {
                how += &format!(" in {}", many(part.len() as u64, "stretch", "stretches"));
                self.times_by_kind(part, listed)
            }
        };
        let row = format!(
            "<tr id=\"m{first}\"><th scope=\"row\"><span class=\"mark\">{}</span></th><td>{}</td><td>{}</td><td>{}</td><td>{}</td></tr>\n",
            label(first, last),
            unbroken(&self.time(ends.0.times.0, ends.1.times.1)),
            self.records(ends.0.first, ends.1.last),
            unbroken(&how),
            why.join("<br>")
        );
        (row, left)
    }

    fn time(&self, from: Option<u32>, to: Option<u32>) -> String {
        match (from, to) {
            (Some(from), Some(to)) => self.clock.span(from, to),
            (None, None) => "time not known".to_string(),
            (Some(from), None) => format!("{} to a time not known", self.clock.short_moment(from)),
            (None, Some(to)) => format!("a time not known to {}", self.clock.short_moment(to)),
        }
    }

    /// The records of these positions, or the positions where records are not known, and both where they differ.
    fn records(&self, first: u64, last: u64) -> String {
        let Numbers { position, same, .. } = self.numbers;
        let positions = from_to(first + position, last + position);
        let which = |one: &str, text: &str, plain: bool| {
            let word = if first == last { one.to_string() } else { format!("{one}s") };
            let word = if plain { format!("<i>{word} </i>") } else { format!("{word} ") };
            format!("{word}{}", unbroken(text))
        };
        if same {
            return which("record", &positions, true);
        }
        match ((self.record)(first), (self.record)(last)) {
            (Some(from), Some(to)) if (from, to) == (first + position, last + position) => {
                which("record", &positions, true)
            }
            (Some(from), Some(to)) => {
                format!("{}<br>{}", which("record", &from_to(from, to), true), which("position", &positions, false))
            }
            _ => which("position", &positions, false),
        }
    }

    fn reasons(&self, stretch: &Stretch) -> Vec<String> {
        let told = |told: &Told| match stretch.reasons.len() {
            1 => text(&told.sentence),
            _ => format!("{}: {}", many(told.records, "record", "records"), text(&told.sentence)),
        };
        let mut said: Vec<String> = stretch.reasons.iter().take(REASONS).map(told).collect();
        if let Some(more) = stretch.reasons.len().checked_sub(REASONS).filter(|&more| more > 0) {
            said.push(format!("and {}", many(more as u64, "further reason", "further reasons")));
        }
        said
    }

    /// When the stretches begin, by reason, and how many of them are not listed.
    fn times_by_kind(&self, part: &[Stretch], most: usize) -> (Vec<String>, usize) {
        let mut listed = 0;
        let mut said = Vec::new();
        let all = by_kind(part);
        for (kind, of) in all.iter().take(KINDS) {
            let shown = &of[..of.len().min(most - listed)];
            listed += shown.len();
            let named = if self.numbers.same { "record" } else { "position" };
            // The word stands once where no time is known.
            let lost = shown.len() > 1 && shown.iter().all(|stretch| stretch.times.0.is_none());
            let word = if lost { String::new() } else { format!("{named}&nbsp;") };
            let time = |stretch: &&Stretch| {
                let time = match (stretch.times.0, self.one_day(part)) {
                    (None, _) => format!("{word}{}", grouped(stretch.first + self.numbers.position)),
                    (Some(time), true) => self.clock.time(time),
                    (Some(time), false) => self.clock.short_moment(time).replace(' ', "&nbsp;"),
                };
                let count =
                    if stretch.count() > 1 { format!("&nbsp;({})", grouped(stretch.count())) } else { String::new() };
                format!("{time}{count}")
            };
            let times = shown.iter().map(time).collect::<Vec<_>>().join(", ");
            let between = match shown.is_empty() {
                true => String::new(),
                false if lost => format!(": {named}s "),
                false => ": ".to_string(),
            };
            said.push(format!("{} × {}{between}{times}", grouped(of.len() as u64), text(kind)));
        }
        if listed < part.len() {
            said.push(format!("<b>{} of these stretches are not listed</b>", grouped((part.len() - listed) as u64)));
        }
        (said, part.len() - listed)
    }

    fn one_day(&self, part: &[Stretch]) -> bool {
        let days = [part[0].times.0, part[part.len() - 1].times.0].map(|time| time.map(|time| self.clock.day(time)));
        days[0].is_some() && days[0] == days[1]
    }

    fn caption(&self, left_out: usize) -> String {
        let found = by_kind(self.stretches);
        let most = 2 * KINDS;
        let one = |(kind, of): &(&str, Vec<&Stretch>)| format!("{} × {}", grouped(of.len() as u64), text(kind));
        let mut said: Vec<String> = found.iter().take(most).map(one).collect();
        let others: usize = found.iter().skip(most).map(|(_, of)| of.len()).sum();
        said.extend((others > 0).then(|| format!("{} × other", grouped(others as u64))));
        let mut caption = format!("The no of formula {}, stretches by reason:<br>{}", self.formula, said.join("<br>"));
        if self.stretches.len() > ROWS {
            caption += "<br>Each time begins a stretch; in brackets, how many no it has if more than one.";
        }
        if left_out > 0 {
            caption += &format!(
                "<br><b>{} not listed: <code>havdrims sheet --csv</code> has them all.</b>",
                many(left_out as u64, "stretch is", "stretches are")
            );
        }
        caption
    }
}
