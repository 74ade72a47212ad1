//! The strips of one formula: a row a day, on one axis. In a strip x is the second of the day, stretched to the strip's width; strokes,
//! tags and least widths are pixels.

use super::clock::{of_day, Clock};
use super::html::grouped;
use super::week::{Days, Stretch, QUIET};
use std::collections::BTreeMap;
use std::fmt::Write;

/// The pixels of the narrowest strip, elsewhere and on a phone 360 pixels wide: there no two tags may meet.
const ROOMS: [f64; 2] = [500.0, 226.0];
/// Pixels of a tag: a character, and both sides together.
const DIGIT: f64 = 8.4;
const PAD: f64 = 8.0;
/// Pixels: the height of a day, the lower end of its tags, and that of a no.
const ROW: u32 = 52;
const TAG: u32 = 17;
const FOOT: u32 = 38;
/// The upper and the lower end of yes.
const BAND: (u32, u32) = (24, 32);
/// Above so many stretches in a day a no is drawn thinner, or the day would look all no.
const DENSE: usize = 20;
/// Where a strip has too many no, those of so many equal parts of the day are hatched that hold one.
const PARTS: u32 = 100;
/// Days that are drawn, at most.
const MOST_DAYS: usize = 62;

/// A tag with the numbers of one or several stretches.
#[derive(Clone, Debug)]
pub struct Tag {
    pub first: usize,
    pub last: usize,
    from: u32,
    to: u32,
    /// The pixels of it that lie left of the middle of what it names, and all of them.
    left: f64,
    width: f64,
}

/// `4`, or `4–6`.
pub fn label(first: usize, last: usize) -> String {
    if first == last {
        format!("{first}")
    } else {
        format!("{first}–{last}")
    }
}

/// From one second of a day to another.
type Spans = Vec<(u32, u32)>;

/// What is drawn of a day.
#[derive(Default)]
struct Row {
    logged: Spans,
    visits: Spans,
    open: Spans,
    quiet: Spans,
    lost: Spans,
    /// With the number of its stretch.
    no: Vec<(usize, u32, u32)>,
    /// On a wide strip, and on a narrow one.
    tags: [Vec<Tag>; 2],
}

fn logged(row: &mut Row) -> &mut Spans {
    &mut row.logged
}

fn visited(row: &mut Row) -> &mut Spans {
    &mut row.visits
}

fn quiet(row: &mut Row) -> &mut Spans {
    &mut row.quiet
}

fn lost(row: &mut Row) -> &mut Spans {
    &mut row.lost
}

/// The strips of one formula.
pub struct Picture<'a> {
    clock: Clock,
    /// The first and the last second of the axis.
    low: u32,
    high: u32,
    rows: BTreeMap<i64, Row>,
    /// The days before them that are not drawn.
    left_out: usize,
    /// How many no each day has.
    nos: &'a BTreeMap<i64, u64>,
    open: u64,
}

/// How much a strip may hold, so that a page stays small.
#[derive(Clone, Copy)]
pub struct Thrift {
    /// Ticks in a strip.
    pub ticks: usize,
    /// The phone's fewer tags serve everywhere.
    pub few: bool,
}

impl<'a> Picture<'a> {
    /// Of these stretches, numbered from this number on. Open is from one second to another.
    pub fn new(
        clock: Clock,
        days: &Days,
        open: Option<(u32, u32, u64)>,
        stretches: &[Stretch],
        number: usize,
        nos: &'a BTreeMap<i64, u64>,
    ) -> Option<Picture<'a>> {
        let (first, last) = days.ends()?;
        let visits: Vec<(u32, u32)> = days.visits.iter().map(|visit| (visit.from, visit.to)).collect();
        let (low, high) = axis(clock, days.logged.iter().chain(&visits));
        let mut rows: BTreeMap<i64, Row> = BTreeMap::new();
        for (spans, of) in [(&days.logged, logged as fn(&mut Row) -> &mut Spans), (&visits, visited)] {
            for (day, from, to) in spans.iter().flat_map(|&(from, to)| clock.by_day(from, to)) {
                of(rows.entry(day).or_default()).push((from, to));
            }
        }
        let left_out = rows.len().saturating_sub(MOST_DAYS);
        let rows = rows.into_iter().skip(left_out).collect();
        let mut picture =
            Picture { clock, low, high, rows, left_out, nos, open: open.map_or(0, |(_, _, number)| number) };
        picture.fill_days();
        for (spans, of) in [(&days.quiet, quiet as fn(&mut Row) -> &mut Spans), (&days.lost, lost)] {
            for &(from, to) in spans {
                let outside = (from.is_none(), to.is_none());
                picture.blank((from.unwrap_or(first), to.unwrap_or(last)), outside, of);
            }
        }
        if let Some((from, to, _)) = open {
            picture.put(from, to, |row, from, to| row.open.push((from, to)));
        }
        picture.add_no(stretches, number);
        Some(picture)
    }

    /// The stretches, numbered from this number on, and their tags.
    fn add_no(&mut self, stretches: &[Stretch], number: usize) {
        for (number, stretch) in (number..).zip(stretches) {
            for &(from, to) in &stretch.pieces {
                self.put(from, to, |row, from, to| row.no.push((number, from, to)));
            }
        }
        let (low, high) = (self.low, self.high);
        for row in self.rows.values_mut() {
            row.tags = ROOMS.map(|room| tags(&row.no, low, high, room));
        }
    }

    /// Days without a record between two with some have a row too, unless they are many.
    fn fill_days(&mut self) {
        let (Some((&first, _)), Some((&last, _))) = (self.rows.first_key_value(), self.rows.last_key_value()) else {
            return;
        };
        if (last - first) < MOST_DAYS as i64 {
            (first..=last).for_each(|day| {
                self.rows.entry(day).or_default();
            });
        }
    }

    fn put(&mut self, from: u32, to: u32, add: impl Fn(&mut Row, u32, u32)) {
        for (day, from, to) in self.clock.by_day(from, to) {
            if let Some(row) = self.rows.get_mut(&day) {
                add(row, from, to);
            }
        }
    }

    /// Where nothing is drawn, on every day that it touches; to the axis' end where it has none.
    fn blank(&mut self, (from, to): (u32, u32), outside: (bool, bool), of: fn(&mut Row) -> &mut Spans) {
        let (first, last) = (self.clock.day(from), self.clock.day(to));
        let (low, high) = (self.low, self.high);
        for (&day, row) in self.rows.range_mut(first..=last) {
            let begins = if day == first && !outside.0 { self.clock.in_day(from).max(low) } else { low };
            let ends = if day == last && !outside.1 { self.clock.in_day(to).min(high) } else { high };
            if begins < ends {
                of(row).push((begins, ends));
            }
        }
    }

    pub fn strips(&self) -> usize {
        self.rows.len()
    }

    /// The tags of every day, as they stand on a wide or a narrow strip.
    pub fn tags(&self, few: bool) -> impl Iterator<Item = &Tag> {
        self.rows.values().flat_map(move |row| &row.tags[usize::from(few)])
    }

    fn percent(&self, second: f64) -> String {
        let share = (second - f64::from(self.low)) / f64::from(self.high - self.low) * 100.0;
        format!("{}%", format!("{share:.3}").trim_end_matches('0').trim_end_matches('.'))
    }

    /// All of it. `linked` gives the row of the table that tells of a stretch.
    pub fn write(&self, thrift: Thrift, linked: impl Fn(usize) -> usize) -> String {
        let mut out = String::from("<figure>");
        if self.left_out > 0 {
            let _ = write!(out, "<p><b>{} earlier days are not drawn.</b></p>", grouped(self.left_out as u64));
        }
        out.push_str(&self.axis());
        let last = self.rows.keys().next_back().copied();
        for (&day, row) in &self.rows {
            let no = self.nos.get(&day).copied().unwrap_or(0);
            // Where records are lost there may be more.
            let known = if row.lost.is_empty() { "" } else { " known" };
            let mut count = match no {
                0 if row.logged.is_empty() && !row.lost.is_empty() => "not known".to_string(),
                0 if row.logged.is_empty() => "no record".to_string(),
                0 => format!("0 no{known}"),
                _ => format!("<b>{} no</b>{known}", grouped(no)),
            };
            if !row.open.is_empty() {
                let open = if Some(day) == last { format!("{} ", grouped(self.open)) } else { String::new() };
                let _ = write!(count, "<br>{open}open");
            }
            let _ = write!(
                out,
                "<div class=\"strip\"><span>{}<br>{count}</span><svg role=\"group\" height=\"{ROW}\" aria-label=\"{}\">{}</svg></div>",
                self.clock.short(day),
                self.said(day, row, no),
                self.row(row, thrift, &linked)
            );
        }
        out.push_str("</figure>\n");
        out
    }

    /// The hours above the strips, or shorter parts of a short day.
    fn axis(&self) -> String {
        let long = self.high - self.low;
        let step = match long {
            _ if long <= 7_200 => (long / 5).div_ceil(600) * 600,
            _ if long <= 12 * 3600 => 3600,
            _ => 7200,
        };
        let mut out = "<div class=\"strip axis\" aria-hidden=\"true\"><span>hour</span><svg height=\"17\">".to_string();
        for second in (self.low..=self.high).step_by(step as usize) {
            let minutes = if long <= 7_200 { format!(":{:02}", second / 60 % 60) } else { String::new() };
            let at = self.percent(f64::from(second));
            let _ = write!(out, "<text x=\"{at}\" y=\"13\">{}{minutes}</text>", second / 3600);
        }
        out + "</svg></div>"
    }

    /// A day for those who do not see it.
    fn said(&self, day: i64, row: &Row, no: u64) -> String {
        let spans = |spans: &[(u32, u32)]| {
            let each: Vec<String> =
                spans.iter().map(|&(from, to)| format!("{} to {}", of_day(from), of_day(to))).collect();
            each.join(", ")
        };
        let marks = match (row.no.first(), row.no.last()) {
            (Some(first), Some(last)) => format!(", mark {}", label(first.0, last.0)),
            _ => String::new(),
        };
        let mut said = vec![format!("{} no{marks}", grouped(no))];
        said.extend(row.open.iter().map(|&(from, _)| format!("open from {}", of_day(from))));
        said.extend((!row.visits.is_empty()).then(|| format!("service {}", spans(&row.visits))));
        said.extend((!row.lost.is_empty()).then(|| format!("not known {}", spans(&row.lost))));
        said.push(match row.logged.len() {
            0 => "nothing logged".to_string(),
            1..=20 => format!("logged {}", spans(&row.logged)),
            more => format!("logged in {more} parts"),
        });
        format!("{}: {}", self.clock.long(day), said.join("; "))
    }

    /// One day.
    fn row(&self, row: &Row, thrift: Thrift, linked: &impl Fn(usize) -> usize) -> String {
        let sizes: &[(&str, usize)] = if thrift.few { &[("", 1)] } else { &[(" wide", 0), (" narrow", 1)] };
        let width = self.high - self.low;
        let mut out = format!(
            "<svg viewBox=\"{} 0 {width} {ROW}\" preserveAspectRatio=\"none\" width=\"100%\" height=\"{ROW}\">",
            self.low
        );
        out += &self.ground(row);
        out += &self.no(row, thrift);
        for &(size, at) in sizes {
            let over = row.tags[at].iter().filter(|tag| self.is_long(tag.from, tag.to));
            out += &path(&format!("no{size}"), over.map(|tag| format!("M{} {TAG}H{}", tag.from, tag.to)));
        }
        out += "</svg>";
        // Visits have a lane of their own; open grows to the right, where no verdict stands.
        row.visits.iter().for_each(|&span| out += &self.sign("visit", span, 40, 11, "S"));
        row.open.iter().for_each(|&span| out += &self.sign("open", span, 19, 18, "?"));
        for &(size, at) in sizes {
            row.tags[at].iter().for_each(|tag| out += &self.tag(tag, size, linked(tag.first)));
        }
        out
    }

    /// The hours, silence, what is lost, and yes.
    fn ground(&self, row: &Row) -> String {
        let hour = if self.high - self.low <= 7_200 { 600 } else { 3600 };
        let line = |&(from, to): &(u32, u32)| format!("M{from} {}H{to}", (BAND.0 + BAND.1) / 2);
        let band = |&(from, to): &(u32, u32)| format!("M{from} {}H{}V{}H{from}z", BAND.0, to.max(from + 1), BAND.1);
        let quiet = row.quiet.iter().filter(|(from, to)| to - from >= QUIET);
        path("grid", (self.low..=self.high).step_by(hour).map(|hour| format!("M{hour} {TAG}V{ROW}")))
            + &path("quiet", quiet.map(line))
            + &path("lost", row.lost.iter().map(line))
            + &path("yes", row.logged.iter().map(band))
    }

    /// Each no, or where they are too many the parts of the day that hold one.
    fn no(&self, row: &Row, thrift: Thrift) -> String {
        if row.no.len() > thrift.ticks {
            return path("crowd", [self.hatched(row)].into_iter());
        }
        let ticks = || row.no.iter().map(|(_, from, _)| format!("M{from} {TAG}V{FOOT}"));
        let long = row.no.iter().filter(|(_, from, to)| self.is_long(*from, *to));
        let long = long.map(|(_, from, to)| format!("M{from} {}H{to}V{}H{from}z", BAND.0 - 3, BAND.1 + 3));
        match row.no.len() > DENSE {
            true => path("long", long) + &path("no dense", ticks()),
            // Paper colour round each no, to part it from the yes beside it.
            false => path("halo", ticks()) + &path("long", long) + &path("no", ticks()),
        }
    }

    /// Whether it is drawn longer than a tick.
    fn is_long(&self, from: u32, to: u32) -> bool {
        (to - from) * 500 > self.high - self.low
    }

    /// The parts of the day that hold a no.
    fn hatched(&self, row: &Row) -> String {
        let width = self.high - self.low;
        let part = |second: u32| ((u64::from(second - self.low) * u64::from(PARTS)) / u64::from(width)) as u32;
        let mut held = [false; PARTS as usize + 1];
        for &(_, from, to) in &row.no {
            (part(from)..=part(to)).for_each(|part| held[part as usize] = true);
        }
        let start = |part: u32| self.low + (u64::from(part) * u64::from(width) / u64::from(PARTS)) as u32;
        let mut path = String::new();
        for part in (0..PARTS).filter(|&part| held[part as usize]) {
            if part == 0 || !held[part as usize - 1] {
                let _ = write!(path, "M{} {}", start(part), f64::from(TAG + FOOT) / 2.0);
            }
            if part + 1 == PARTS || !held[part as usize + 1] {
                let _ = write!(path, "H{}", start(part + 1));
            }
        }
        path
    }

    /// A box with a sign in it, at least 14 pixels wide.
    fn sign(&self, class: &str, (from, to): (u32, u32), y: u32, height: u32, sign: &str) -> String {
        let at = self.percent(f64::from(from));
        let wide = self.percent(f64::from(self.low + to - from));
        let text = f64::from(y) + f64::from(height) / 2.0 + 4.4;
        format!(
            "<rect class=\"{class}\" x=\"{at}\" y=\"{y}\" width=\"14\" height=\"{height}\" style=\"width:max(14px,{wide})\"/>\
             <text class=\"in {class}\" x=\"{at}\" dx=\"7\" y=\"{text:.1}\">{sign}</text>"
        )
    }

    fn tag(&self, tag: &Tag, size: &str, row: usize) -> String {
        let at = self.percent(f64::from(tag.from) / 2.0 + f64::from(tag.to) / 2.0);
        let label = label(tag.first, tag.last);
        format!(
            "<a class=\"tag{size}\" href=\"#m{row}\" aria-label=\"no, mark {label}\"><rect x=\"{at}\" width=\"{:.0}\" height=\"{TAG}\" \
             transform=\"translate({:.1})\"/><text x=\"{at}\" dx=\"{:.1}\" y=\"13\">{label}</text></a>",
            tag.width,
            -tag.left,
            tag.width / 2.0 - tag.left
        )
    }
}

/// A path of these parts, if there are any.
fn path(class: &str, parts: impl Iterator<Item = String>) -> String {
    match parts.collect::<String>() {
        none if none.is_empty() => none,
        d => format!("<path class=\"{class}\" d=\"{d}\"/>"),
    }
}

/// The axis, from one full hour to another; of a short time, from one ten minutes to another.
fn axis<'s>(clock: Clock, spans: impl Iterator<Item = &'s (u32, u32)>) -> (u32, u32) {
    let days: Vec<(i64, u32, u32)> = spans.flat_map(|&(from, to)| clock.by_day(from, to)).collect();
    let first = days.iter().map(|&(_, from, _)| from).min().unwrap_or(0);
    let last = days.iter().map(|&(_, _, to)| to).max().unwrap_or(0);
    let unit = if last / 600 - first / 600 < 12 { 600 } else { 3600 };
    let low = first / unit * unit;
    (low, last.div_ceil(unit).max(low / unit + 1) * unit)
}

/// The tags of a day, from left to right. Stretches whose tags would meet on a strip of so many pixels share one.
fn tags(no: &[(usize, u32, u32)], low: u32, high: u32, room: f64) -> Vec<Tag> {
    let lay = |first: usize, last: usize, from: u32, to: u32| {
        let width = PAD + DIGIT * label(first, last).chars().count() as f64;
        let at = (f64::from(from) / 2.0 + f64::from(to) / 2.0 - f64::from(low)) / f64::from(high - low) * room;
        let begins = (at - width / 2.0).min(room + 6.0 - width).max(-6.0);
        (Tag { first, last, from, to, left: at - begins, width }, begins)
    };
    let mut found: Vec<(Tag, f64)> = Vec::new();
    for &(number, from, to) in no {
        let mut new = lay(number, number, from, to);
        while let Some((tag, begins)) = found.last() {
            if tag.last < new.0.first && begins + tag.width + 2.0 <= new.1 {
                break;
            }
            new = lay(tag.first, new.0.last, tag.from, new.0.to);
            found.pop();
        }
        found.push(new);
    }
    found.into_iter().map(|(tag, _)| tag).collect()
}
