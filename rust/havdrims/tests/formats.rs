//! Checkpoints of the formats that earlier libraries wrote: each is refused with 10 by every call that takes a checkpoint.
//!
//! The words are those that the library of each format left after the same calls: open with P1's rule, "e0 until[0,2] e1", and one
//! resume with the records of [`LOG`], which gave four verdicts.

use havdrims::{close, measure, open, parse, resume, status, summary, trim, Refusal, Resumed, MOST_RULE};

/// Seconds 10, 12, 13, 14 and 15, with letter 0, 0, 1, none and 0.
const LOG: &[u8] = b"KLG\x00\x01\x00\x00\x00\
    \x00\x00\x00\x0A\x00\x00\x00\x01\
    \x00\x00\x00\x0C\x00\x00\x00\x01\
    \x00\x00\x00\x0D\x00\x00\x00\x02\
    \x00\x00\x00\x0E\x00\x00\x00\x00\
    \x00\x00\x00\x0F\x00\x00\x00\x01";

const VERDICTS: [u8; 4] = [0, 1, 1, 0];

/// The words that are not 0 in all of them, by their numbers.
const SAME: [(usize, u64); 12] = [
    (1, 4), // verdicts given
    (2, 5), // records seen
    (3, 15),
    (16, 5),
    (32, 5),
    (46, 1),
    (48, 5),
    (53, 4),
    (54, 1),
    (56, 15),
    (62, 0x600),
    (63, 2),
];

/// The other words that are not 0, for each format from 1 on.
const WRITTEN: [&[(usize, u64)]; 6] = [
    &[(0, 0x4841_5644_0000_0001), (6, 3), (50, 1)],
    &[(0, 0x4841_5644_0000_0002), (6, 3)],
    &[(0, 0x4841_5644_0000_0003), (6, 3)],
    &[(0, 0x4841_5644_0000_0004), (6, 3), (8, 2), (9, 4)],
    &[(0, 0x4841_5644_0000_0005), (6, 3), (8, 2), (9, 4)],
    &[(0, 0x4841_5644_0000_0006), (4, 0x103), (8, 2), (9, 4)],
];

/// The rule and the words that its checkpoint needs.
fn rule() -> (Vec<u8>, usize) {
    let mut buffer = [0; MOST_RULE];
    let size = parse(b"e0 until[0,2] e1", &mut buffer).unwrap();
    (buffer[..size].to_vec(), measure(&buffer[..size]).unwrap().words)
}

#[test]
fn a_checkpoint_of_an_earlier_format_is_refused_with_10() {
    let (rule, need) = rule();
    for (at, words) in WRITTEN.iter().enumerate() {
        let mut point = vec![0; need];
        for &(number, word) in SAME.iter().chain(*words) {
            point[number] = word;
        }
        assert_eq!(point[0], 0x4841_5644_0000_0000 + at as u64 + 1, "the format's number");
        let (before, mut sheet) = (point.clone(), [7; 8]);
        let foreign = Err(Refusal::ForeignPoint);
        assert_eq!(resume(&rule, LOG, &mut point, &mut sheet), foreign, "format {}", at + 1);
        assert_eq!(close(&rule, LOG, &mut point, &mut sheet), foreign, "format {}", at + 1);
        assert_eq!(trim(&rule, LOG, &point, &mut sheet), Err(Refusal::ForeignPoint), "format {}", at + 1);
        assert_eq!(status(&rule, &point).map(|_| ()), Err(Refusal::ForeignPoint), "format {}", at + 1);
        assert_eq!(summary(&rule, &point).map(|_| ()), Err(Refusal::ForeignPoint), "format {}", at + 1);
        assert_eq!((point, sheet), (before, [7; 8]), "format {}", at + 1);
    }
}

/// The same calls with this library: it gives the same verdicts, and takes what it wrote itself.
#[test]
fn a_checkpoint_of_this_format_is_taken() {
    let (rule, need) = rule();
    let (mut point, mut sheet) = (vec![0; need], [7; 8]);
    open(&rule, &mut point).unwrap();
    assert_eq!(resume(&rule, LOG, &mut point, &mut sheet), Ok(Resumed { verdicts: 4, more: false }));
    assert_eq!(sheet[..4], VERDICTS);
    let formats: Vec<u64> = WRITTEN.iter().map(|words| words[0].1).collect();
    assert!(!formats.contains(&point[0]), "a checkpoint of each format but this one is kept here");
    assert_eq!(resume(&rule, LOG, &mut point, &mut sheet), Ok(Resumed { verdicts: 0, more: false }));
}
