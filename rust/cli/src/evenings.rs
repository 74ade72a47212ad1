//! The evenings of a card, a row of numbers for each, in a file of their own.
//!
//! A row says how far the card had come, and has checksums of what must not change: of the verdicts, and of the records that are
//! still wanted. Nothing of the log itself is kept. A row is bound to its card's number, beginning and rule.

use havdrims::save::{checksum, checksum_from};
use havdrims::{Log, Status};

/// The bytes of a row: eleven numbers.
pub const ROW: usize = 88;

/// Some records as they were seen, one behind the other.
#[derive(Clone, Copy, Debug, PartialEq, Eq)]
pub struct Known {
    /// How many.
    pub records: u64,
    /// Their checksum.
    pub sum: u64,
}

impl Known {
    pub fn none() -> Known {
        Known { records: 0, sum: checksum(b"") }
    }

    /// The records of a log from one number to before another. None where the log does not have them all.
    pub fn of(log: &Log<'_>, from: u64, to: u64) -> Option<Known> {
        let bytes = log.record_bytes(usize::try_from(from).ok()?..usize::try_from(to).ok()?)?;
        Some(Known { records: to - from, sum: checksum(bytes) })
    }
}

/// How far a card had come after an evening. Records are counted from the card's first one.
#[derive(Clone, Copy, Debug, PartialEq, Eq)]
pub struct Row {
    pub status: Status,
    /// The checksum of the verdicts given.
    pub sheet: u64,
    /// The service records among the records seen.
    pub services: u64,
    /// The positions before the first record still wanted.
    pub position: u64,
    /// The records from the first still wanted to the last seen, or the last seen alone. Of a new card that takes the place of
    /// another: from its first one to the last that the other had seen.
    pub open: Known,
    /// The checksum of the records that this evening was the first to see. Of a card that has seen nothing yet: of the record before
    /// its first one, if that is the only one known from another, else of nothing.
    pub new: u64,
}

/// What the rows of a card are bound to.
pub fn bound_to(card: &[u8], rule: &[u8]) -> u64 {
    checksum_from(checksum(card), rule)
}

impl Row {
    /// That of a card that has seen nothing, and knows these records from another, or the one before them.
    pub fn first(open: Known, before: Option<u64>) -> Row {
        let none = checksum(b"");
        let status = Status { given: 0, seen: 0, wanted: 0, closed: false };
        Row { status, sheet: none, services: 0, position: 0, open, new: before.unwrap_or(none) }
    }

    /// The numbers of the records that are compared, from one to before another: the last seen, or the first of a new card.
    pub fn compared(&self) -> (u64, u64) {
        let to = self.status.seen.max(self.open.records);
        (to - self.open.records, to)
    }

    /// What a card knows that begins with the first record still wanted: nothing, if that is still to come.
    pub fn wanted(&self) -> Known {
        if self.compared().0 < self.status.wanted {
            Known::none()
        } else {
            self.open
        }
    }

    /// The checksum of the record before the card's first one, as long as nothing else tells whether a log is its own.
    pub fn before(&self) -> Option<u64> {
        (self.status.seen == 0 && self.new != checksum(b"")).then_some(self.new)
    }

    /// The same of a card that begins with the first record still wanted: that record is the last one seen.
    pub fn before_wanted(&self) -> Option<u64> {
        let last = self.compared().0 < self.status.wanted;
        self.before().or_else(|| last.then_some(self.open.sum))
    }

    pub fn encode(&self, bound: u64) -> Vec<u8> {
        let Status { given, seen, wanted, closed } = self.status;
        let Row { sheet, services, position, open: Known { records, sum }, new, .. } = *self;
        let numbers = [given, sheet, seen, services, u64::from(closed), wanted, position, records, sum, new];
        let mut bytes: Vec<u8> = numbers.iter().flat_map(|number| number.to_be_bytes()).collect();
        bytes.extend(checksum_from(bound, &bytes).to_be_bytes());
        bytes
    }

    fn decode(bytes: &[u8], bound: u64) -> Option<Row> {
        let number = |eight: &[u8]| eight.iter().fold(0, |number, &byte| number << 8 | u64::from(byte));
        let numbers: Vec<u64> = bytes.chunks_exact(8).map(number).collect();
        let [given, sheet, seen, services, closed, wanted, position, records, open, new, sum] = numbers[..] else {
            return None;
        };
        let status = Status { given, seen, wanted, closed: closed == 1 };
        let fits = sum == checksum_from(bound, &bytes[..ROW - 8]);
        fits.then_some(Row { status, sheet, services, position, open: Known { records, sum: open }, new })
    }
}

/// The rows of a file, with nothing in the place of one that is damaged.
pub fn rows(bytes: &[u8], bound: u64) -> Vec<Option<Row>> {
    bytes.chunks(ROW).map(|row| Row::decode(row, bound)).collect()
}

#[cfg(test)]
mod tests {
    use super::{bound_to, rows, Known, Row, ROW};
    use havdrims::Status;

    #[test]
    fn there_and_back_and_every_damaged_byte() {
        let bound = bound_to(b"card", b"rule");
        let status = Status { given: 1, seen: 4, wanted: 3, closed: true };
        let row = Row { status, sheet: 2, services: 5, position: 6, open: Known { records: 7, sum: 8 }, new: 9 };
        let bytes = [Row::first(Known::none(), None).encode(bound), row.encode(bound)].concat();
        assert_eq!(bytes.len(), 2 * ROW);
        assert_eq!(rows(&bytes, bound), [Some(Row::first(Known::none(), None)), Some(row)]);
        for at in 0..ROW {
            for bit in 0..8 {
                let mut damaged = bytes.clone();
                damaged[at] ^= 1 << bit;
                assert_eq!(rows(&damaged, bound), [None, Some(row)], "bit {bit} of byte {at}");
            }
            assert_eq!(rows(&bytes[..ROW + at], bound).iter().flatten().count(), 1, "cut at byte {at}");
        }
        assert_eq!(rows(&bytes, bound_to(b"cart", b"rule")), [None, None]);
        assert_eq!(rows(&bytes, bound_to(b"card", b"rulf")), [None, None]);
    }
}
