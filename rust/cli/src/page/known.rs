//! Which records of a log are as the card has seen them: those of which a row of its evenings has the checksum.

use crate::evenings::{Known, Row};
use havdrims::{Log, Record};
use std::ops::Range;

/// Neighbouring records that are as they were seen. All numbers count from the card's first record and position.
#[derive(Clone, Debug, PartialEq, Eq)]
pub struct Span {
    pub records: Range<u64>,
    /// The number of its first position.
    pub first: u64,
    /// The records that hold its positions, in turn.
    pub held: Vec<Held>,
    /// The times of its service records.
    pub services: Vec<u32>,
}

/// The record of a position.
#[derive(Clone, Copy, Debug, PartialEq, Eq)]
pub struct Held {
    pub record: u64,
    pub seconds: u32,
}

impl Span {
    /// The positions.
    pub fn positions(&self) -> Range<u64> {
        self.first..self.first + self.held.len() as u64
    }

    /// The records of these positions, which are its own.
    pub fn of(&self, positions: Range<u64>) -> &[Held] {
        &self.held[(positions.start - self.first) as usize..(positions.end - self.first) as usize]
    }

    /// Nothing of the card stands before it.
    pub fn begins_the_card(&self) -> bool {
        self.records.start == 0
    }

    /// The times of its first and last record.
    pub fn ends(&self) -> Option<(u32, u32)> {
        let first = |times: [Option<u32>; 2]| times.into_iter().flatten().min();
        let last = |times: [Option<u32>; 2]| times.into_iter().flatten().max();
        let held = [self.held.first(), self.held.last()].map(|held| held.map(|held| held.seconds));
        let services = [self.services.first(), self.services.last()].map(Option::<&u32>::copied);
        Some((first([held[0], services[0]])?, last([held[1], services[1]])?))
    }
}

/// The spans of a log from the card's first record on, in turn, with others between them.
pub fn spans(log: &Log<'_>, rows: &[Option<Row>]) -> Vec<Span> {
    let records: Vec<Record> = log.records().collect();
    let dropped = log.dropped() as u64;
    let part = |range: &Range<u64>| &records[(range.start - dropped) as usize..(range.end - dropped) as usize];
    let positions = |range: &Range<u64>| part(range).iter().filter(|record| !record.service).count() as u64;
    let joined = joined(ranges(log, rows, positions));
    joined.into_iter().map(|(range, first)| span(part(&range), range, first)).collect()
}

/// The ranges of records that fit a checksum, each with the number of its first position.
fn ranges(log: &Log<'_>, rows: &[Option<Row>], positions: impl Fn(&Range<u64>) -> u64) -> Vec<(Range<u64>, u64)> {
    let mut found = Vec::new();
    for (at, row) in rows.iter().enumerate() {
        let Some(row) = row else { continue };
        let before = match at.checked_sub(1) {
            // Of a card of an earlier program the first row does not say where its new records begin.
            None => (row.status.seen == 0).then_some((0, 0)),
            Some(before) => rows[before].map(|row| (row.status.seen, row.status.seen - row.services)),
        };
        if let Some((from, first)) = before {
            let new = from..row.status.seen;
            let fits = Known::of(log, new.start, new.end).is_some_and(|known| known.sum == row.new);
            found.extend((fits && !new.is_empty()).then_some((new, first)));
        }
        let (from, to) = row.compared();
        let open = from..to;
        if !open.is_empty() && Known::of(log, from, to) == Some(row.open) {
            // The first row of a card after another begins with the card's first position.
            let behind = if row.status.seen == 0 { positions(&open) } else { row.status.seen - row.services };
            let first = behind - positions(&open);
            found.push((open, first));
        }
    }
    found
}

/// Ranges that meet, as one.
fn joined(mut ranges: Vec<(Range<u64>, u64)>) -> Vec<(Range<u64>, u64)> {
    ranges.sort_by_key(|(range, _)| range.start);
    let mut joined: Vec<(Range<u64>, u64)> = Vec::new();
    for (range, first) in ranges {
        match joined.last_mut() {
            Some((last, _)) if range.start <= last.end => last.end = last.end.max(range.end),
            _ => joined.push((range, first)),
        }
    }
    joined
}

fn span(part: &[Record], records: Range<u64>, first: u64) -> Span {
    let held = (records.start..).zip(part).filter(|(_, record)| !record.service);
    let held = held.map(|(record, of)| Held { record, seconds: of.seconds }).collect();
    let services = part.iter().filter(|record| record.service).map(|record| record.seconds).collect();
    Span { records, first, held, services }
}
