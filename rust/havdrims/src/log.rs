//! A log's bytes, looked at once.

use crate::Refusal;
use core::ops::Range;

/// The most records of a log, service records and dropped ones included.
pub const MOST_RECORDS: usize = 1_000_000;

/// The first 8 bytes of a log, by its version less 1.
pub(crate) const HEADERS: [[u8; 8]; 3] =
    [*b"KLG\x00\x01\x00\x00\x00", *b"KLG\x00\x02\x00\x00\x00", *b"KLG\x00\x03\x00\x00\x00"];

/// The letter of a service record, from version 2 on.
pub(crate) const SERVICE: u32 = 31;

/// The bytes before the records of a log of this version: from version 3 on a count of records dropped stands there too.
pub(crate) const fn before_records(version: u8) -> usize {
    if version == 3 {
        16
    } else {
        8
    }
}

/// The bytes of a log whose format is right: refusal 12 is behind it. Its times are looked at by the calls that read them, since
/// records that are no longer wanted may hold anything.
///
/// ```
/// use havdrims::{text, Log, Refusal};
///
/// let bytes = text::log_from_text("version 2\n10 e0\n11 service\n12 e0 e1\n").unwrap();
/// let log = Log::new(&bytes)?;
/// assert_eq!((log.version(), log.len()), (2, 3));
/// let last = log.records().last().unwrap();
/// assert_eq!((last.seconds, last.letters, last.service), (12, 0b11, false));
/// assert_eq!(Log::new(&bytes[..15]), Err(Refusal::LogFormat));
///
/// // The same log trimmed: record numbers go on counting those that were dropped.
/// let bytes = text::log_from_text("version 3\ndropped 2\n12 e0 e1\n").unwrap();
/// let log = Log::new(&bytes)?;
/// assert_eq!((log.version(), log.len(), log.dropped(), log.records().count()), (3, 3, 2, 1));
/// # Ok::<(), Refusal>(())
/// ```
#[derive(Clone, Copy, Debug, PartialEq, Eq)]
pub struct Log<'a> {
    bytes: &'a [u8],
    version: u8,
    dropped: usize,
}

/// A record of a log.
#[derive(Clone, Copy, Debug, PartialEq, Eq)]
pub struct Record {
    /// Its time.
    pub seconds: u32,
    /// Its event set: letter k stands in it if the bit worth 2 to the k is set.
    pub letters: u32,
    /// It is a service record, and so no position.
    pub service: bool,
}

impl<'a> Log<'a> {
    /// Takes the bytes of a log, from its header on, or gives refusal 12.
    pub fn new(bytes: &'a [u8]) -> Result<Log<'a>, Refusal> {
        let is = |version: u8| bytes.starts_with(&HEADERS[usize::from(version) - 1]);
        let version = [1, 2, 3].into_iter().find(|&version| is(version)).ok_or(Refusal::LogFormat)?;
        let records = bytes.len().checked_sub(before_records(version)).ok_or(Refusal::LogFormat)?;
        let dropped = if version == 3 { be64(&bytes[8..]) } else { 0 };
        // The count may be any number: nothing is added to it before it is compared.
        if records % 8 != 0 || records > 8 * MOST_RECORDS || dropped > (MOST_RECORDS - records / 8) as u64 {
            return Err(Refusal::LogFormat);
        }
        Ok(Log { bytes, version, dropped: dropped as usize })
    }

    /// The bytes, as the calls on slices take them.
    pub fn as_bytes(&self) -> &'a [u8] {
        self.bytes
    }

    /// 1, 2 or 3.
    pub fn version(&self) -> u8 {
        self.version
    }

    /// Its records before this one were dropped: none in a log that was never trimmed.
    pub fn dropped(&self) -> usize {
        self.dropped
    }

    /// The number of records, service records and dropped ones included.
    pub fn len(&self) -> usize {
        self.dropped + self.kept().len() / 8
    }

    /// There is no record, and none was dropped.
    pub fn is_empty(&self) -> bool {
        self.len() == 0
    }

    /// The bytes of the records that were not dropped.
    fn kept(&self) -> &'a [u8] {
        &self.bytes[before_records(self.version)..]
    }

    /// The bytes of these records, 8 each, by their numbers: none if the log does not have all of them.
    ///
    /// ```
    /// use havdrims::{text::log_from_text, Log};
    ///
    /// let log = log_from_text("version 3\ndropped 5\n10 e0\n11 e1\n").unwrap();
    /// let log = Log::new(&log).unwrap();
    /// assert_eq!(log.record_bytes(6..7), Some(&[0, 0, 0, 11, 0, 0, 0, 2][..]));
    /// assert_eq!((log.record_bytes(4..6), log.record_bytes(6..8)), (None, None));
    /// ```
    pub fn record_bytes(&self, records: Range<usize>) -> Option<&'a [u8]> {
        let from = records.start.checked_sub(self.dropped)?;
        let to = records.end.checked_sub(self.dropped)?;
        self.kept().get(from.checked_mul(8)?..to.checked_mul(8)?)
    }

    /// The records in turn, from record [`Log::dropped`] on. Those before the first still wanted may have been overwritten, and
    /// mean nothing then.
    pub fn records(&self) -> impl Iterator<Item = Record> + 'a {
        let services = self.version >= 2;
        self.kept().chunks_exact(8).map(move |record| {
            let (seconds, letters) = (be32(record), be32(&record[4..]));
            Record { seconds, letters, service: services && letters >> SERVICE == 1 }
        })
    }

    /// How many records from this one on are service records, but for those that were dropped: none in a log of version 1.
    ///
    /// ```
    /// use havdrims::{text::log_from_text, Log};
    ///
    /// let log = log_from_text("version 2\n10 service\n11 e0\n12 e0 service\n").unwrap();
    /// let log = Log::new(&log).unwrap();
    /// assert_eq!((log.services(0), log.services(1), log.services(3)), (2, 1, 0));
    ///
    /// let log = log_from_text("version 3\ndropped 5\n10 service\n11 e0\n12 e0 service\n").unwrap();
    /// let log = Log::new(&log).unwrap();
    /// assert_eq!((log.services(5), log.services(6), log.services(8)), (2, 1, 0));
    /// ```
    pub fn services(&self, from: usize) -> usize {
        self.records().skip(from.saturating_sub(self.dropped)).filter(|record| record.service).count()
    }
}

pub(crate) fn be32(bytes: &[u8]) -> u32 {
    bytes[..4].iter().fold(0, |number, &byte| number << 8 | u32::from(byte))
}

fn be64(bytes: &[u8]) -> u64 {
    u64::from(be32(bytes)) << 32 | u64::from(be32(&bytes[4..]))
}
