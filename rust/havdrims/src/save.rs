//! A saved point: the file that keeps a checkpoint from one evening to the next. It holds the checkpoint's words, whose they are,
//! of which rule and of how many verdicts, with a mark, a version and a checksum over all of it. docs/FORMATS.md lists its bytes,
//! which are the same on every machine.
//!
//! ```
//! use havdrims::save::{checksum, Saved, Unreadable};
//!
//! let rule = b"KRL\x00\x01\x00\x00\x00"; // a rule without entries, which needs 16 words
//! let mut words = vec![0; 16];
//! havdrims::open(rule, &mut words).unwrap();
//! let saved = Saved { owner: 17, rule: checksum(rule), given: 0, sheet: checksum(b""), services: 0, words };
//!
//! let mut file = saved.encode();
//! assert_eq!(Saved::decode(&file), Ok(saved));
//! file[60] ^= 1;
//! assert_eq!(Saved::decode(&file), Err(Unreadable::Damaged));
//! ```

use alloc::vec::Vec;
use core::error::Error;
use core::fmt;

/// The header of every such file.
const HEADER: [u8; 8] = *b"KPT\x00\x02\x00\x00\x00";

/// Bytes besides the words.
const FRAME: usize = 56;

/// The FNV-1a checksum of some bytes. Bytes of which a single one differs never have the same.
pub fn checksum(bytes: &[u8]) -> u64 {
    checksum_from(0xcbf2_9ce4_8422_2325, bytes)
}

/// The checksum of some bytes and of these behind them, from that of the first.
///
/// ```
/// use havdrims::save::{checksum, checksum_from};
///
/// assert_eq!(checksum_from(checksum(&[1, 0]), &[1]), checksum(&[1, 0, 1]));
/// ```
pub fn checksum_from(sum: u64, bytes: &[u8]) -> u64 {
    bytes.iter().fold(sum, |sum, &b| (sum ^ u64::from(b)).wrapping_mul(0x0100_0000_01b3))
}

/// What the file holds.
#[derive(Clone, Debug, PartialEq, Eq)]
pub struct Saved {
    /// Whose it is: the number of a card, or any other number by which a kiosk is known.
    pub owner: u64,
    /// The checksum of the rule that the checkpoint was opened for.
    pub rule: u64,
    /// The verdicts given with the checkpoint: so much of a sheet that is kept beside it counts.
    pub given: u64,
    /// The checksum of these verdicts.
    pub sheet: u64,
    /// The service records among the records seen. The checkpoint does not count them, and they may be overwritten.
    pub services: u64,
    /// The checkpoint.
    pub words: Vec<u64>,
}

/// Why some bytes are no such file.
#[derive(Clone, Copy, Debug, PartialEq, Eq)]
pub enum Unreadable {
    /// Its mark is not there.
    Foreign,
    /// It is of another version.
    Version,
    /// Its length or its checksum does not fit.
    Damaged,
}

impl fmt::Display for Unreadable {
    fn fmt(&self, f: &mut fmt::Formatter<'_>) -> fmt::Result {
        f.write_str(match self {
            Unreadable::Foreign => "this is no saved point",
            Unreadable::Version => "the saved point is of another version",
            Unreadable::Damaged => "the saved point is damaged: its checksum does not fit",
        })
    }
}

impl Error for Unreadable {}

impl Saved {
    /// The bytes of the file: 56, and 8 for each word.
    pub fn encode(&self) -> Vec<u8> {
        let mut bytes = HEADER.to_vec();
        let numbers = [self.owner, self.rule, self.given, self.sheet, self.services];
        bytes.extend(numbers.iter().chain(&self.words).flat_map(|number| number.to_be_bytes()));
        bytes.extend(checksum(&bytes).to_be_bytes());
        bytes
    }

    /// What the file with these bytes holds. Whether the words are a checkpoint is not looked at here.
    pub fn decode(bytes: &[u8]) -> Result<Saved, Unreadable> {
        if !bytes.starts_with(&HEADER[..3]) {
            return Err(Unreadable::Foreign);
        }
        if !bytes.starts_with(&HEADER[..5]) {
            return Err(Unreadable::Version);
        }
        if bytes.len() < FRAME || bytes.len() % 8 != 0 || !bytes.starts_with(&HEADER) {
            return Err(Unreadable::Damaged);
        }
        let number = |eight: &[u8]| eight.iter().fold(0, |number, &byte| number << 8 | u64::from(byte));
        let mut numbers: Vec<u64> = bytes.chunks_exact(8).map(number).collect();
        let sum = numbers.pop();
        if sum != Some(checksum(&bytes[..bytes.len() - 8])) {
            return Err(Unreadable::Damaged);
        }
        let words = numbers.split_off(FRAME / 8 - 1);
        let [_, owner, rule, given, sheet, services] = numbers[..] else { return Err(Unreadable::Damaged) };
        Ok(Saved { owner, rule, given, sheet, services, words })
    }
}

#[cfg(test)]
mod tests {
    use super::{checksum, Saved, Unreadable, FRAME};

    #[test]
    fn the_checksum_is_fnv_1a() {
        // The published values for these strings.
        assert_eq!(checksum(b""), 0xcbf2_9ce4_8422_2325);
        assert_eq!(checksum(b"a"), 0xaf63_dc4c_8601_ec8c);
        assert_eq!(checksum(b"foobar"), 0x8594_4171_f739_67e8);
    }

    /// The worked example of docs/FORMATS.md, which the C example writes too.
    #[test]
    fn the_worked_example() {
        let rule = b"KRL\x00\x01\x03\x00\x00\
            \x00\x00\x00\x00\x00\x00\x00\x00\x00\x00\
            \x00\x01\x00\x00\x00\x00\x00\x00\x00\x00\
            \x06\x00\x00\x00\x00\x00\x00\x00\x00\x02";
        let sheet = checksum(&[1, 1]);
        let saved = Saved { owner: 17, rule: checksum(rule), given: 2, sheet, services: 1, words: vec![7] };
        let shown = include_str!("../../../docs/FORMATS.md").split("A saved point of one word").nth(1).unwrap();
        let lines = shown.lines().filter_map(|line| line.strip_prefix("    ")).take(8);
        let digits = lines.flat_map(|line| line.split("  ").next().unwrap().split(' '));
        let bytes: Vec<u8> = digits.map(|byte| u8::from_str_radix(byte, 16).unwrap()).collect();
        assert_eq!(saved.encode(), bytes);
    }

    #[test]
    fn there_and_back_and_every_damaged_byte() {
        for words in [vec![], vec![7], vec![u64::MAX, 0, 1 << 63]] {
            let saved = Saved { owner: 5, rule: 6, given: 7, sheet: 8, services: 9, words };
            let bytes = saved.encode();
            assert_eq!(bytes.len(), FRAME + 8 * saved.words.len());
            assert_eq!(Saved::decode(&bytes), Ok(saved));
            for at in 0..bytes.len() {
                for bit in 0..8 {
                    let mut damaged = bytes.clone();
                    damaged[at] ^= 1 << bit;
                    let expected = match at {
                        0..3 => Unreadable::Foreign,
                        3..5 => Unreadable::Version,
                        _ => Unreadable::Damaged,
                    };
                    assert_eq!(Saved::decode(&damaged), Err(expected), "bit {bit} of byte {at}");
                }
                assert!(Saved::decode(&bytes[..at]).is_err(), "cut at byte {at}");
            }
            assert_eq!(Saved::decode(&[bytes.as_slice(), &[0; 8]].concat()), Err(Unreadable::Damaged));
        }
    }
}
