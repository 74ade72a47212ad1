//! Where a log is wrong.

use super::Wrong;
use havdrims::{Log, MOST_RECORDS};
use std::ops::Range;

/// What is wrong with the bytes of a log; nothing if they are one. Times are not looked at.
pub fn log(bytes: &[u8]) -> Option<Wrong> {
    let says = header(bytes).or_else(|| records(bytes));
    says.map(|says| Wrong::new(12, says))
}

fn header(bytes: &[u8]) -> Option<String> {
    if bytes.is_empty() {
        return Some("the file is empty, and a log has at least 8 bytes".to_string());
    }
    if bytes.starts_with(b"KRL") {
        return Some("this is a rule, not a log".to_string());
    }
    if !bytes.starts_with(b"KLG") {
        let text =
            std::str::from_utf8(bytes).is_ok_and(|text| !text.contains(|c: char| c.is_control() && !c.is_whitespace()));
        let hint = if text { "; of a text `havdrims to-log` makes one" } else { "" };
        return Some(format!("this is no log: it does not begin with KLG{hint}"));
    }
    let Some(&[_, _, _, high, low, spares @ ..]) = bytes.first_chunk::<8>() else { return Some(short(bytes, 8)) };
    match u16::from_be_bytes([high, low]) {
        1..=3 if spares != [0; 3] => Some("the log is damaged: bytes 5 to 7 are not 0".to_string()),
        3 if bytes.len() < 16 => Some(short(bytes, 16)),
        1..=3 => None,
        version => Some(format!("the log is of version {version}, and this program knows 1, 2 and 3")),
    }
}

fn short(bytes: &[u8], header: usize) -> String {
    format!("the log ends after {} bytes, inside its first {header}, before record 0", bytes.len())
}

/// The bytes before the first record, and how many records were dropped, of a log whose header is right.
fn start(bytes: &[u8]) -> (usize, u64) {
    match bytes[4] {
        3 => (16, bytes[8..16].iter().fold(0, |number, &byte| number << 8 | u64::from(byte))),
        _ => (8, 0),
    }
}

/// What is wrong behind a header that is right.
fn records(bytes: &[u8]) -> Option<String> {
    let (header, dropped) = start(bytes);
    let (kept, most) = (bytes.len() - header, MOST_RECORDS as u64);
    let (records, more) = ((kept / 8) as u64, kept % 8);
    if dropped.saturating_add(records) > most {
        return Some(match dropped {
            0 => format!("the log has more than {most} records"),
            _ => format!("the log has more than {most} records, with the {dropped} that were dropped"),
        });
    }
    let record = dropped + records;
    (more > 0).then(|| format!("the log ends inside record {record}: {more} of its 8 bytes are there"))
}

/// How many records a log of this length has that begins with these bytes, dropped ones included, whether or not the last is whole.
pub fn count(begins: &[u8], length: u64) -> Option<u64> {
    if header(begins).is_some() {
        return None;
    }
    let (header, dropped) = start(begins);
    Some(dropped.saturating_add(length.saturating_sub(header as u64) / 8))
}

/// Of a log that has too many records: how many of its bytes are those of a log that has as many as it may.
pub fn longest(bytes: &[u8]) -> Option<usize> {
    if header(bytes).is_some() {
        return None;
    }
    let (header, dropped) = start(bytes);
    let records = (MOST_RECORDS as u64).checked_sub(dropped).filter(|&records| records > 0)?;
    let longest = header + 8 * records as usize;
    (bytes.len() >= longest + 8).then_some(longest)
}

/// That records are missing in a trimmed log.
pub fn dropped(log: &Log<'_>) -> String {
    match log.dropped() {
        1 => "record 0 was dropped from the log".to_string(),
        dropped => format!("records 0 to {} were dropped from the log", dropped.saturating_sub(1)),
    }
}

/// The header of a second log among the records, as where two files were put one behind the other.
#[derive(Clone, Copy, Debug, PartialEq, Eq)]
pub struct Header {
    pub record: usize,
    bytes: usize,
}

impl Header {
    /// The first among these records.
    pub fn among(log: &Log<'_>, records: Range<usize>) -> Option<Header> {
        let bytes = log.record_bytes(records.start.max(log.dropped())..records.end)?;
        let header = |(at, record): (usize, &[u8])| match record {
            b"KLG\0\x01\0\0\0" | b"KLG\0\x02\0\0\0" => Some((at, 8)),
            b"KLG\0\x03\0\0\0" => Some((at, 16)),
            _ => None,
        };
        let (at, bytes) = bytes.chunks_exact(8).enumerate().find_map(header)?;
        Some(Header { record: records.start.max(log.dropped()) + at, bytes })
    }

    pub fn says(&self) -> String {
        format!("record {} looks like the header of a second log, put behind the first", self.record)
    }

    /// How its records are added.
    pub fn hint(&self) -> String {
        let first = self.bytes + 1;
        format!(
            "A log has one header: of a second one add the records alone, as `tail -c +{first} SECOND >> FIRST` does.\n\
             If its clock began anew, it is a log of its own, for a card of its own. "
        )
    }
}

/// A record whose time is below that of the record before it.
#[derive(Clone, Copy, Debug, PartialEq, Eq)]
pub struct Fall {
    pub record: usize,
    pub seconds: u32,
    pub before: u32,
}

impl Fall {
    pub fn says(&self) -> String {
        let Fall { record, seconds, before } = self;
        format!("record {record}, second {seconds}, comes after record {}, second {before}", record - 1)
    }

    /// How many bytes of the log stand before it.
    pub fn bytes_before(&self, log: &Log<'_>) -> usize {
        let header = if log.version() == 3 { 16 } else { 8 };
        header + 8 * (self.record - log.dropped())
    }

    /// Whether an earlier record has its time already, as where records were added twice.
    pub fn is_again(&self, log: &Log<'_>) -> bool {
        let earlier = self.record - log.dropped();
        log.records().take(earlier).any(|record| record.seconds == self.seconds)
    }
}

/// The first such record behind this one.
pub fn fall(log: &Log<'_>, from: usize) -> Option<Fall> {
    let from = from.max(log.dropped());
    let seconds = |from: usize| log.records().skip(from - log.dropped()).map(|record| record.seconds);
    let falls = (from + 1..).zip(seconds(from).zip(seconds(from + 1))).find(|(_, (before, seconds))| seconds < before);
    falls.map(|(record, (before, seconds))| Fall { record, seconds, before })
}
