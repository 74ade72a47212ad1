//! The log format: records, which of them are positions, which were dropped, and refusal 12.

/// One record: a time in seconds and an event set, letter k being the bit worth 2 to the k.
#[derive(Clone, Copy, Debug, PartialEq, Eq)]
pub struct Record {
    pub time: u32,
    pub letters: u32,
}

/// Letter 31: "From log version 2, a record with letter 31 is a service record and no position."
pub const SERVICE: u32 = 1 << 31;

impl Record {
    /// In a log of this version the record is a service record.
    pub fn is_service(self, version: u16) -> bool {
        version >= 2 && self.letters & SERVICE != 0
    }

    /// The same record as a service record.
    pub fn as_service(self) -> Record {
        Record { letters: self.letters | SERVICE, ..self }
    }
}

/// The records that hold positions: "Positions are numbered over the others", those that are no service records.
pub fn places(version: u16, records: &[Record]) -> Vec<usize> {
    (0..records.len()).filter(|&at| !records[at].is_service(version)).collect()
}

/// The positions of a log of this version.
pub fn positions(version: u16, records: &[Record]) -> Vec<Record> {
    records.iter().copied().filter(|record| !record.is_service(version)).collect()
}

pub const MOST_RECORDS: usize = 1_000_000;

/// The header of a log of version 1.
pub const HEADER: [u8; 8] = header(1);

/// The first 8 bytes of a log of this version.
pub const fn header(version: u16) -> [u8; 8] {
    let [high, low] = version.to_be_bytes();
    [0x4B, 0x4C, 0x47, high, low, 0, 0, 0]
}

/// The bytes of a version 1 log with these records.
pub fn encode(records: &[Record]) -> Vec<u8> {
    encode_as(1, records)
}

/// The bytes of a log of this version with these records. From version 3 on none was dropped.
pub fn encode_as(version: u16, records: &[Record]) -> Vec<u8> {
    if version == 3 {
        return encode_trimmed(0, records);
    }
    let mut bytes = header(version).to_vec();
    bytes.extend(encode_records(records));
    bytes
}

/// "A version 3 log ..: the header, a 64-bit count of records dropped, then the records".
pub fn encode_trimmed(dropped: u64, records: &[Record]) -> Vec<u8> {
    let mut bytes = header(3).to_vec();
    bytes.extend(dropped.to_be_bytes());
    bytes.extend(encode_records(records));
    bytes
}

/// The bytes of these records alone.
pub fn encode_records(records: &[Record]) -> Vec<u8> {
    let bytes = |r: &Record| [r.time.to_be_bytes(), r.letters.to_be_bytes()].concat();
    records.iter().flat_map(bytes).collect()
}

/// A log without fault.
#[derive(Clone, Debug, PartialEq, Eq)]
pub struct Log {
    pub version: u16,
    /// How many records were dropped before those that the log has.
    pub dropped: usize,
    pub records: Vec<Record>,
}

impl Log {
    /// "Record numbers go on counting dropped ones, limit included": all records, dropped ones too.
    pub fn total(&self) -> usize {
        self.dropped + self.records.len()
    }

    /// The record with this number, if the log has it.
    pub fn record(&self, number: usize) -> Option<Record> {
        self.records.get(number.checked_sub(self.dropped)?).copied()
    }
}

/// Whether a point may go from a log of one of these versions to one of the other: "a point may go from 2 to 3 and back".
pub fn same_kind(one: u16, other: u16) -> bool {
    one == other || (one >= 2 && other >= 2)
}

/// A log, or refusal 12: "The log is shorter than 8 bytes, its mark, version or spare bytes are wrong, its length less 8
/// is no multiple of 8, or it has too many records." "Refusal 12 accepts both versions." "Refusal 12 knows the longer
/// header." "Record numbers go on counting dropped ones, limit included."
pub fn parse(bytes: &[u8]) -> Result<Log, u32> {
    let version = [1, 2, 3].into_iter().find(|&version| bytes.starts_with(&header(version))).ok_or(12u32)?;
    if !bytes.len().is_multiple_of(8) {
        return Err(12);
    }
    let behind = &bytes[8..];
    let (dropped, records) = match version {
        3 => {
            let (count, records) = behind.split_first_chunk().ok_or(12u32)?;
            (u64::from_be_bytes(*count), records)
        }
        _ => (0, behind),
    };
    let be32 = |b: &[u8]| u32::from_be_bytes(b.try_into().unwrap());
    let record = |r: &[u8]| Record { time: be32(&r[..4]), letters: be32(&r[4..]) };
    let records: Vec<Record> = records.chunks(8).map(record).collect();
    if u128::from(dropped) + records.len() as u128 > MOST_RECORDS as u128 {
        return Err(12);
    }
    Ok(Log { version, dropped: dropped as usize, records })
}
