//! What a page is made from: stretches of no, and what the log shows of the days.

use super::clock::Clock;
use super::known::Span;
use super::reasons::Reasons;
use super::sentence::Sentence;
use std::collections::{BTreeMap, HashMap};
use std::ops::Range;

/// So many seconds without a record are drawn as such.
pub const QUIET: u32 = 300;

/// Neighbouring positions that are all no.
#[derive(Clone, Debug)]
pub struct Stretch {
    pub first: u64,
    pub last: u64,
    /// The times of the first and the last, where the log still has them.
    pub times: (Option<u32>, Option<u32>),
    /// What of it can be drawn: the times of known positions at both ends of each piece.
    pub pieces: Vec<(u32, u32)>,
    pub reasons: Vec<Told>,
}

/// A reason, told of the first position that it fits, and how many it fits.
#[derive(Clone, Debug)]
pub struct Told {
    pub records: u64,
    pub kind: String,
    pub sentence: String,
}

impl Stretch {
    pub fn count(&self) -> u64 {
        self.last - self.first + 1
    }
}

/// The number of no in some stretches.
pub fn nos(stretches: &[Stretch]) -> u64 {
    stretches.iter().map(Stretch::count).sum()
}

/// The positions from one to another of which this holds, as runs.
fn runs(verdicts: &[u8], formula: usize) -> Vec<Range<u64>> {
    let mut found: Vec<Range<u64>> = Vec::new();
    for (position, _) in (0..).zip(verdicts).filter(|(_, &verdict)| verdict >> formula & 1 == 0) {
        match found.last_mut() {
            Some(run) if run.end == position => run.end += 1,
            _ => found.push(position..position + 1),
        }
    }
    found
}

/// The stretches of no of one formula. Positions are counted from the card's first.
pub fn stretches(verdicts: &[u8], formula: usize, days: &Days, spans: &[Span], reasons: &Reasons) -> Vec<Stretch> {
    let runs = runs(verdicts, formula);
    // The first of each stretch is asked before any other: there may not be time for all.
    let mut told: Vec<Gathered> = runs.iter().map(|run| Gathered::default().with(run.start, reasons)).collect();
    for (run, told) in runs.iter().zip(&mut told) {
        (run.start + 1..run.end).for_each(|position| told.add(position, reasons));
    }
    let time = |position: u64| {
        let span = spans.iter().find(|span| span.positions().contains(&position))?;
        span.of(position..position + 1).first().map(|held| held.seconds)
    };
    let stretch = |(run, told): (Range<u64>, Gathered)| Stretch {
        first: run.start,
        last: run.end - 1,
        times: (time(run.start), time(run.end - 1)),
        pieces: pieces(&run, days, spans),
        reasons: told.reasons,
    };
    runs.into_iter().zip(told).map(stretch).collect()
}

/// The reasons of neighbouring positions. Those that fail for one reason, at the same record if it names one, share it.
#[derive(Default)]
struct Gathered {
    reasons: Vec<Told>,
    places: HashMap<(String, Vec<u64>), usize>,
}

impl Gathered {
    fn with(mut self, position: u64, reasons: &Reasons) -> Gathered {
        self.add(position, reasons);
        self
    }

    fn add(&mut self, position: u64, reasons: &Reasons) {
        let Sentence { text, kind, failed_at } = reasons.of(position).unwrap_or_else(Sentence::missing);
        let new = self.reasons.len();
        let at = *self.places.entry((kind.clone(), failed_at)).or_insert(new);
        if at == new {
            self.reasons.push(Told { records: 0, kind, sentence: text });
        }
        self.reasons[at].records += 1;
    }
}

/// The parts of a run of positions that can be drawn: known, and with no silence in between.
fn pieces(run: &Range<u64>, days: &Days, spans: &[Span]) -> Vec<(u32, u32)> {
    let mut found = Vec::new();
    for span in spans {
        let all = span.positions();
        let known = run.start.max(all.start)..run.end.min(all.end);
        if known.is_empty() {
            continue;
        }
        let held = span.of(known);
        let (from, to) = (held[0].seconds, held[held.len() - 1].seconds);
        let at = days.logged.partition_point(|&(_, last)| last < from);
        let over = days.logged[at..].iter().take_while(|&&(first, _)| first <= to);
        found.extend(over.map(|&(first, last)| (first.max(from), last.min(to))));
    }
    found
}

/// A service visit: service records that follow each other soon.
#[derive(Clone, Copy, Debug, PartialEq, Eq)]
pub struct Visit {
    pub from: u32,
    pub to: u32,
    pub records: u64,
}

/// What the log shows of the days, in seconds of the log.
#[derive(Clone, Debug, Default)]
pub struct Days {
    /// From one position to another, with none further than `QUIET` from the next.
    pub logged: Vec<(u32, u32)>,
    pub visits: Vec<Visit>,
    /// Where nothing was logged, and where it is not known what was. Without an end where that lies before the first record or
    /// behind the last.
    pub quiet: Vec<(Option<u32>, Option<u32>)>,
    pub lost: Vec<(Option<u32>, Option<u32>)>,
}

impl Days {
    pub fn of(spans: &[Span]) -> Days {
        let mut days = Days::default();
        // The time up to which everything is told, unless what comes before the next span is lost.
        let mut behind: Option<u32> = None;
        for span in spans {
            let Some((first, last)) = span.ends() else { continue };
            match span.begins_the_card() {
                true => days.quiet.push((None, Some(first))),
                false => days.lost.push((behind, Some(first))),
            }
            days.add(span);
            behind = Some(last);
        }
        days.quiet.extend(behind.map(|last| (Some(last), None)));
        days
    }

    fn add(&mut self, span: &Span) {
        let logged = grouped(span.held.iter().map(|held| held.seconds));
        let visits = grouped(span.services.iter().copied());
        let mut all: Vec<(u32, u32)> = logged.iter().chain(&visits).map(|&(from, to, _)| (from, to)).collect();
        all.sort();
        let mut behind = all.first().map_or(0, |&(from, _)| from);
        for &(from, to) in &all {
            if from.saturating_sub(behind) >= QUIET {
                self.quiet.push((Some(behind), Some(from)));
            }
            behind = behind.max(to);
        }
        self.logged.extend(logged.into_iter().map(|(from, to, _)| (from, to)));
        self.visits.extend(visits.into_iter().map(|(from, to, records)| Visit { from, to, records }));
    }

    /// The first and the last second that are drawn.
    pub fn ends(&self) -> Option<(u32, u32)> {
        let all = || self.logged.iter().copied().chain(self.visits.iter().map(|visit| (visit.from, visit.to)));
        Some((all().map(|(from, _)| from).min()?, all().map(|(_, to)| to).max()?))
    }
}

/// Times that do not fall, as spans in which none is further than `QUIET` from the next, with how many they are.
fn grouped(times: impl Iterator<Item = u32>) -> Vec<(u32, u32, u64)> {
    let mut found: Vec<(u32, u32, u64)> = Vec::new();
    for time in times {
        match found.last_mut() {
            Some((_, to, records)) if time - *to < QUIET => (*to, *records) = (time, *records + 1),
            _ => found.push((time, time, 1)),
        }
    }
    found
}

/// How many no each day has, of those whose time is known.
pub fn by_day(verdicts: &[u8], formula: usize, clock: Clock, spans: &[Span]) -> BTreeMap<i64, u64> {
    let mut days = BTreeMap::new();
    for span in spans {
        for (position, held) in span.positions().zip(&span.held) {
            let no = verdicts.get(position as usize).is_some_and(|verdict| verdict >> formula & 1 == 0);
            if no {
                *days.entry(clock.day(held.seconds)).or_default() += 1;
            }
        }
    }
    days
}
