//! What a log leaves open, and, of one next or until over letters, what would settle it.
//!
//! A position of such a rule is open exactly when one record can settle it yes and another no; docs/PROOFS.md has the theorem and
//! its conditions. Where one of them is not met it may be that no record can say yes any more, which is said then.

use crate::letters::Letters;
use havdrims::{Log, MOST_RECORDS};

const LETTER: u8 = 0;
const NEXT: u8 = 4;
const UNTIL: u8 = 6;
const NO_END: u32 = u32::MAX;
/// From log version 2 on a record with this letter is no position.
const SERVICE: u8 = 31;

/// A position that has no verdict yet.
#[derive(Clone, Copy, Debug, PartialEq, Eq)]
pub struct Open {
    pub position: u64,
    pub record: usize,
    pub seconds: u32,
}

/// The positions from this one on, which are the log's last; `None` where it has fewer, since records that are wanted were altered.
pub fn open(log: &Log<'_>, from: u64, positions: u64) -> Option<Vec<Open>> {
    let records: Vec<_> = (log.dropped()..).zip(log.records()).filter(|(_, record)| !record.service).collect();
    let last = &records[records.len().checked_sub((positions - from) as usize)?..];
    let open = |(position, (record, held)): (u64, &(usize, havdrims::Record))| Open {
        position,
        record: *record,
        seconds: held.seconds,
    };
    Some((from..).zip(last).map(open).collect())
}

/// What matters of a log to the records that may follow it.
#[derive(Clone, Copy, Debug)]
pub struct End {
    /// The time of its last record: none that follows lies before it.
    seconds: u32,
    /// Its version has service records.
    services: bool,
    /// It has as many records as a log may have.
    full: bool,
}

impl End {
    pub fn of(log: &Log<'_>) -> End {
        let seconds = log.records().last().map_or(0, |record| record.seconds);
        End { seconds, services: log.version() >= 2, full: log.len() == MOST_RECORDS }
    }
}

/// A rule that is one next or until over letters.
#[derive(Clone, Copy, Debug, PartialEq, Eq)]
pub struct Timed {
    /// The letter that can make it true: next's, or until's right one.
    letter: u8,
    /// The left letter of an until.
    left: Option<u8>,
    low: u32,
    high: u32,
}

impl Timed {
    /// Of the bytes of a rule that the library accepts.
    pub fn of(rule: &[u8]) -> Option<Timed> {
        let entries: Vec<&[u8]> = rule.get(8..)?.chunks_exact(10).collect();
        let number = |bytes: &[u8]| bytes.iter().fold(0, |number, &byte| number << 8 | u32::from(byte));
        let timed = |left, letter: &[u8], root: &[u8]| {
            Some(Timed { letter: letter[1], left, low: number(&root[2..6]), high: number(&root[6..]) })
        };
        match entries.as_slice() {
            [letter, root] if [letter[0], root[0]] == [LETTER, NEXT] => timed(None, letter, root),
            [left, letter, root] if [left[0], letter[0], root[0]] == [LETTER, LETTER, UNTIL] => {
                timed(Some(left[1]), letter, root)
            }
            _ => None,
        }
    }

    /// What settles a position of this second that is open at the log's end. Of an until a record settles no where its left letter
    /// is missing, and where it comes too late; of a next every record settles.
    pub fn settled_by(self, seconds: u32, end: &End, letters: &Letters) -> String {
        let letter = letters.name(self.letter);
        if end.full {
            return "no record can follow".to_string();
        }
        match (self.left, self.when(seconds, end)) {
            (None, Some(when)) => {
                let comes = if when.is_empty() { String::new() } else { format!(" and comes{when}") };
                format!("yes if the next record has {letter}{comes}, no if not")
            }
            (Some(left), Some(when)) => {
                format!("yes if {letter} comes{when}, no if {} is missing before", letters.name(left))
            }
            (Some(left), None) if u64::from(end.seconds) <= self.latest(seconds) => {
                format!("no longer yes, no if {} is missing", letters.name(left))
            }
            (_, None) => "no with the next record, whatever it says".to_string(),
        }
    }

    /// The seconds in which a record with the letter says yes, if there are any: the first and the last.
    pub fn seconds_for_yes(self, seconds: u32, end: &End) -> Option<(u64, u64)> {
        let from = (u64::from(seconds) + u64::from(self.low)).max(u64::from(end.seconds));
        let to = self.latest(seconds);
        let never = end.full || (end.services && self.letter == SERVICE);
        (from <= to && !never).then_some((from, to))
    }

    /// The last second at which the gap is not above high.
    fn latest(self, seconds: u32) -> u64 {
        match self.high {
            NO_END => u64::from(u32::MAX),
            high => (u64::from(seconds) + u64::from(high)).min(u64::from(u32::MAX)),
        }
    }

    /// When a record with the letter has to come for yes, if one can.
    fn when(self, seconds: u32, end: &End) -> Option<String> {
        let (from, to) = self.seconds_for_yes(seconds, end)?;
        let at_once = from == u64::from(end.seconds);
        Some(match self.high {
            NO_END if at_once => String::new(),
            NO_END => format!(" at second {from} or later"),
            _ if at_once => format!(" by second {to}"),
            _ if from == to => format!(" at second {to}"),
            _ => format!(" between second {from} and second {to}"),
        })
    }
}
